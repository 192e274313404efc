//! The plain card as a device.

use plain_card::bytes;
use plain_card::exported::{self, Numbers};
use plain_card::status::{answer, restore_answer, EventError, RestoreError};
use plain_card::{command, message, Card};

use super::{lists, loads, read_into, read_setup_into};
use crate::call::Call;

/// The plain card, or bytes that say no card.
#[derive(Clone, Debug, PartialEq, Eq)]
pub enum Plain {
    /// A card, sound or not.
    Card(Card),
    /// Bytes that say none; every call finds a card that is not sound.
    NoCard(Vec<u8>),
}

impl Plain {
    /// The plain card that the bytes say.
    pub fn from_bytes(bytes: &[u8]) -> Plain {
        bytes::read(bytes).map_or_else(|| Plain::NoCard(bytes.to_vec()), Plain::Card)
    }

    /// The card's bytes.
    pub fn to_bytes(&self) -> Vec<u8> {
        let mut bytes = vec![];
        self.write_to(&mut bytes);
        bytes
    }

    /// Writes the card's bytes in place of others.
    pub fn write_to(&self, bytes: &mut Vec<u8>) {
        bytes.clear();
        match self {
            Plain::Card(card) => bytes::write_to(card, bytes),
            Plain::NoCard(own) => bytes.extend(own),
        }
    }

    /// The card, if the bytes say one.
    pub fn card(&self) -> Option<&Card> {
        match self {
            Plain::Card(card) => Some(card),
            Plain::NoCard(_) => None,
        }
    }

    /// Whether it is a sound card.
    pub fn is_sound(&self) -> bool {
        matches!(self, Plain::Card(card) if card.is_sound())
    }

    /// Hears a call and tells the bytes written, or the answer.
    pub fn hear(&mut self, call: &Call, reply: &mut [u8]) -> usize {
        match call {
            Call::CardBytes(members) => exported::card_bytes(*members),
            Call::Setup { numbers: [n, g, s], queues, features, card } => {
                self.set_up(card.length, |card| exported::setup(card, *n, queues, *g, *s, features))
            }
            Call::SetupFrom { setup, card } => {
                self.set_up(card.length, |card| exported::setup_from(card, setup))
            }
            Call::Card(bytes) => {
                *self = Plain::from_bytes(bytes);
                0
            }
            Call::Command { request, .. } => match self {
                Plain::Card(card) => command(card, request, reply),
                Plain::NoCard(_) => 0,
            },
            Call::Message { message: sent, .. } => match self {
                Plain::Card(card) => message(card, sent, reply),
                Plain::NoCard(_) => 0,
            },
            Call::HandBack(member) => self.event(|card| card.hand_back(*member)),
            Call::Wipe { member, generation } => self.event(|card| card.wipe(*member, *generation)),
            Call::ResetCard(generation) => self.event(|card| card.reset(*generation)),
            Call::Store { member, part_type, selector, value } => {
                self.event(|card| card.store(*member, *part_type, selector.to_le_bytes(), value))
            }
            Call::Begin(member) => self.restore(|card| card.restore_begin(*member)),
            Call::Feed { member, fragment } => {
                self.restore(|card| card.restore_feed(*member, fragment))
            }
            Call::Finish { member, id } => self.restore(|card| card.restore_finish(*member, *id)),
            Call::Drop(member) => self.restore(|card| card.restore_drop(*member)),
            Call::Build { fields, list, .. } => exported::build(&fields.request(list), reply),
            Call::Read { opcode, what, reply: read } => {
                read_into(reply, |numbers| exported::reply_read(*opcode, *what, read, numbers))
            }
            Call::WriteSetup { numbers: [n, g, s], queues, features, .. } => {
                exported::setup_write(reply, *n, queues, *g, *s, features)
            }
            Call::ReadSetup { first, setup, lengths, .. } => {
                let read = if *first { exported::setup_read_v1 } else { exported::setup_read };
                read_setup_into(reply, lengths[0], |counts, queues, features| {
                    read(setup, Numbers { counts, queues, features })
                })
            }
            Call::Lists(call) => lists::plain(call, reply),
            Call::Load(call) => loads::plain(call, self.card(), reply),
        }
    }

    /// A fresh card, or a card of zeros, in a buffer of this length.
    fn set_up(&mut self, length: usize, make: impl FnOnce(&mut [u8]) -> u8) -> usize {
        let mut card = vec![0; length];
        let answer = make(&mut card);
        *self = Plain::from_bytes(&card);
        answer.into()
    }

    /// An event's answer.
    fn event(&mut self, act: impl FnOnce(&mut Card) -> Result<(), EventError>) -> usize {
        let outcome = match self {
            Plain::Card(card) => act(card),
            Plain::NoCard(_) => Err(EventError::NotSound),
        };
        answer(outcome).into()
    }

    /// The answer of a call of a restore in fragments.
    fn restore(&mut self, act: impl FnOnce(&mut Card) -> Result<(), RestoreError>) -> usize {
        let outcome = match self {
            Plain::Card(card) => act(card),
            Plain::NoCard(_) => Err(RestoreError::NotSound),
        };
        restore_answer(outcome) as usize
    }
}

impl Default for Plain {
    fn default() -> Self {
        Plain::NoCard(Vec::new())
    }
}
