//! The archive's functions, over the card's bytes, by the plain card.
//!
//! A card is read from its bytes, the plain card does its work, and the bytes
//! are written back. Bytes that say no card are those of a card not sound.

mod lists;
mod loads;

pub use lists::{difference_find, difference_merge, salvage, Place, Report};
pub use loads::{configuration, load, member, setup_of};

use crate::bytes::{read, write, HEADER, RECORD};
use crate::card::Card;
use crate::host::{self, Answer, Request};
use crate::opcode::Opcode;
use crate::setup::{Common, Setup, MEMBERS};
use crate::setups::{self, Unread};
use crate::status::{answer, restore_answer, EventError, RestoreError};

/// The length of a card, or 0 if it cannot have so many members.
pub fn card_bytes(members: u64) -> usize {
    match u8::try_from(members) {
        Ok(count) if MEMBERS.contains(&count) => HEADER + RECORD * usize::from(count),
        _ => 0,
    }
}

/// Makes a fresh card in `card`, or fills it with zeros and answers 4. There has
/// to be a queue count for each member; the features have to be 16 bytes and
/// the buffer exactly one card long.
pub fn setup(
    card: &mut [u8],
    members: u64,
    queues: &[u8],
    gets: u64,
    sets: u64,
    features: &[u8],
) -> u8 {
    set_up(card, whole_setup(members, queues, gets, sets, features))
}

/// The same from the bytes of a setup of either version.
pub fn setup_from(card: &mut [u8], setup: &[u8]) -> u8 {
    set_up(card, setups::read(setup).ok())
}

/// A setup, if its numbers and lengths are right.
fn whole_setup(
    members: u64,
    queues: &[u8],
    gets: u64,
    sets: u64,
    features: &[u8],
) -> Option<Setup> {
    Setup::new(members, queues, gets, sets, features.try_into().ok()?)
}

/// A card of this setup, or zeros.
fn set_up(card: &mut [u8], setup: Option<Setup>) -> u8 {
    let fresh = setup.map(|setup| write(&Card::new(&setup)));
    match fresh.filter(|fresh| fresh.len() == card.len()) {
        Some(fresh) => {
            card.copy_from_slice(&fresh);
            answer(Ok(()))
        }
        None => {
            card.fill(0);
            answer(Err(EventError::BadSetup))
        }
    }
}

/// Writes the bytes of a setup; tells how many, or 0 if it is refused.
pub fn setup_write(
    buffer: &mut [u8],
    members: u64,
    queues: &[u8],
    gets: u64,
    sets: u64,
    features: &[u8],
) -> usize {
    let setup = whole_setup(members, queues, gets, sets, features);
    let Some(bytes) = setup.map(|setup| setups::write(&setup)) else { return 0 };
    let Some(start) = buffer.get_mut(..bytes.len()) else { return 0 };
    start.copy_from_slice(&bytes);
    bytes.len()
}

/// The numbers that a setup is read into: N, G and S, the queue counts and
/// the features. The last two have 16 bytes, or nothing is read.
pub struct Numbers<'a> {
    /// N, G and S.
    pub counts: &'a mut [u8; 3],
    /// The queue count of each member, 0 for those past N.
    pub queues: &'a mut [u8],
    /// The device features.
    pub features: &'a mut [u8],
}

/// Reads a setup of either version: 0, or 2 if it is refused.
pub fn setup_read(setup: &[u8], numbers: Numbers) -> u8 {
    tell(setups::read(setup), numbers)
}

/// Reads a setup of version 1: 0, 1 for version 2, or 2 if it is refused.
pub fn setup_read_v1(setup: &[u8], numbers: Numbers) -> u8 {
    tell(setups::read_v1(setup), numbers)
}

fn tell(read: Result<Setup, Unread>, numbers: Numbers) -> u8 {
    let Numbers { counts, queues, features } = numbers;
    match read {
        Err(Unread::Version2) => 1,
        Ok(setup) if (queues.len(), features.len()) == (16, 16) => {
            let Common { members, gets, sets, features: ours } = setup.common;
            *counts = [members, gets, sets];
            queues.fill(0);
            queues[..setup.queues.len()].copy_from_slice(&setup.queues);
            features.copy_from_slice(&ours);
            0
        }
        _ => 2,
    }
}

/// Whether the bytes are a sound card: 1 or 0.
pub fn is_sound(card: &[u8]) -> u8 {
    read(card).is_some_and(|card| card.is_sound()).into()
}

/// Hears a command; tells the bytes written to `reply`.
pub fn command(card: &mut [u8], request: &[u8], reply: &mut [u8]) -> usize {
    let Some(mut plain) = read(card) else { return 0 };
    let written = crate::command(&mut plain, request, reply);
    card.copy_from_slice(&write(&plain));
    written
}

/// Hears a message; tells the bytes written to `reply`, 0 for the bus outcome.
pub fn message(card: &mut [u8], message: &[u8], reply: &mut [u8]) -> usize {
    let Some(mut plain) = read(card) else { return 0 };
    let written = crate::message(&mut plain, message, reply);
    card.copy_from_slice(&write(&plain));
    written
}

/// Hand back of one member.
pub fn hand_back(card: &mut [u8], member: u64) -> u8 {
    event(card, |card| card.hand_back(member))
}

/// Wipe of one member, with the generation to start from.
pub fn wipe(card: &mut [u8], member: u64, generation: u32) -> u8 {
    event(card, |card| card.wipe(member, generation))
}

/// Reset of the whole card, with the generation to start from.
pub fn reset_card(card: &mut [u8], generation: u32) -> u8 {
    event(card, |card| card.reset(generation))
}

/// Card store; `selector` is the eight bytes as a little-endian number.
pub fn store(card: &mut [u8], member: u64, part_type: u16, selector: u64, value: &[u8]) -> u8 {
    event(card, |card| card.store(member, part_type, selector.to_le_bytes(), value))
}

/// Opens a holding place.
pub fn restore_begin(card: &mut [u8], member: u64) -> u32 {
    restore(card, |card| card.restore_begin(member))
}

/// Adds a fragment to the bytes held.
pub fn restore_feed(card: &mut [u8], member: u64, fragment: &[u8]) -> u32 {
    restore(card, |card| card.restore_feed(member, fragment))
}

/// Sets the parts of the bytes held; the holding place is then gone.
pub fn restore_finish(card: &mut [u8], member: u64, id: u32) -> u32 {
    restore(card, |card| card.restore_finish(member, id))
}

/// Drops the holding place.
pub fn restore_drop(card: &mut [u8], member: u64) -> u32 {
    restore(card, |card| card.restore_drop(member))
}

/// Builds a request; tells its length, or 0 if it is refused.
pub fn build(request: &Request, buffer: &mut [u8]) -> usize {
    request.build(buffer).unwrap_or(0)
}

/// Reads a reply: 0, with the status and qualifier to act on and the two as
/// they were sent in `numbers`; or 1, refused. An opcode that is none of the
/// ten is refused.
pub fn reply_read(opcode: u16, what: u8, reply: &[u8], numbers: &mut [u16; 4]) -> u8 {
    let answer = Opcode::from_number(opcode).and_then(|opcode| host::read(opcode, what, reply));
    let Some(Answer { status, qualifier, sent_status, sent_qualifier, .. }) = answer else {
        return 1;
    };
    *numbers = [status, qualifier, sent_status, sent_qualifier];
    0
}

fn event(bytes: &mut [u8], act: impl FnOnce(&mut Card) -> Result<(), EventError>) -> u8 {
    let Some(mut card) = read(bytes) else { return answer(Err(EventError::NotSound)) };
    let outcome = act(&mut card);
    bytes.copy_from_slice(&write(&card));
    answer(outcome)
}

fn restore(bytes: &mut [u8], act: impl FnOnce(&mut Card) -> Result<(), RestoreError>) -> u32 {
    let Some(mut card) = read(bytes) else { return restore_answer(Err(RestoreError::NotSound)) };
    let outcome = act(&mut card);
    bytes.copy_from_slice(&write(&card));
    restore_answer(outcome)
}
