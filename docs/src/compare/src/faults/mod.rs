//! Planted faults: the plain card with one wrong behaviour around it.
//!
//! The plain card itself has no hooks. A fault refuses a request ahead of its
//! turn, hears another call than was made, leaves another outcome, takes an
//! unsound card for a sound one, or answers wrongly whether a card is sound.
//! What a program may do wrong with its buffers is planted around the archive
//! instead. A comparison has to find every one.

// Changes of a request or card all have one type, whether they grow it or not.
#![allow(clippy::ptr_arg)]

mod data;
mod difference;
mod events;
mod exchange;
mod frame;
mod halves_of_reset;
mod host;
mod length;
mod loads;
mod memory;
mod message;
mod message_frame;
mod objects;
mod order;
mod parts;
mod programs;
mod queue;
mod restore;
mod salvage;
mod setups;
mod soundness;
mod tools;

use std::collections::BTreeMap;

use plain_card::status::Refusal;
use plain_card::Card;

use crate::call::Call;
use crate::device::{Device, Misuse, Plain};
use crate::memory::Lent;

/// A planted fault.
pub struct Fault {
    /// Its name in the table.
    pub name: &'static str,
    /// What goes wrong.
    pub plant: Plant,
    /// Which checks have to find it besides the comparison.
    pub breaks: &'static [Property],
}

/// A property that is tried on the archive alone.
#[derive(Clone, Copy, Debug, PartialEq, Eq)]
pub enum Property {
    /// The round trip of demand 2.
    RoundTrip,
    /// Demand 3.
    Isolation,
    /// Neighbouring calls for different members in either order.
    Exchange,
    /// A list restored in fragments, however it is cut.
    Fragments,
    /// Built requests, sent, and their replies, read.
    Halves,
}

/// How a fault is planted.
pub enum Plant {
    /// Refuses a request ahead of its turn; the number is the reply buffer's.
    Refuse(fn(&Card, &[u8], usize) -> Option<Refusal>),
    /// Hears another request than was sent.
    Mishear(fn(&Card, &mut Vec<u8>)),
    /// Hears another call than was made.
    Replace(fn(&mut Call)),
    /// Leaves another outcome than the plain card.
    Leave(fn(&mut Outcome)),
    /// Takes other bytes for the card before each call.
    Repair(fn(&mut Vec<u8>)),
    /// Takes other bytes for the card if asked whether it is sound.
    IsSound(fn(&mut Vec<u8>)),
    /// Does something with its buffers besides; planted around the archive.
    Misuse(Misuse),
}

/// What the plain card left, to be changed.
pub struct Outcome<'a> {
    /// The call.
    pub call: &'a Call,
    /// The card before it.
    pub before: &'a Plain,
    /// The card after it.
    pub after: &'a mut Plain,
    /// The bytes written, or the answer.
    pub answer: &'a mut usize,
    /// The reply buffer.
    pub reply: &'a mut [u8],
    /// What the fault keeps beside the card.
    pub memory: &'a mut Memory,
}

/// What a fault keeps beside the card.
#[derive(Default)]
pub struct Memory {
    /// Objects ever made, by member and kind byte.
    made: BTreeMap<(u64, u8), usize>,
    /// Whether a command has changed the card.
    obeyed: bool,
    /// The member that was named last.
    named: Option<u64>,
    /// Whether the last mode set with data stops.
    stopped: bool,
}

/// The plain card, with a fault or without.
#[derive(Default)]
pub struct Faulty {
    /// The plain card.
    pub plain: Plain,
    /// Room for its bytes.
    bytes: Vec<u8>,
    fault: Option<&'static Fault>,
    memory: Memory,
}

impl Faulty {
    /// The plain card with this fault; none is the correct plain card.
    pub fn new(fault: Option<&'static Fault>) -> Faulty {
        Faulty { fault, ..Faulty::default() }
    }

    /// The card, if it is sound and the reply buffer takes a refusal.
    fn hearing(&self, reply: &[u8]) -> Option<&Card> {
        match &self.plain {
            Plain::Card(card) if card.is_sound() && reply.len() >= 8 => Some(card),
            _ => None,
        }
    }

    /// A refusal ahead of its turn.
    fn refuse(
        &self,
        early: fn(&Card, &[u8], usize) -> Option<Refusal>,
        call: &Call,
        reply: &[u8],
    ) -> Option<Refusal> {
        match (call, self.hearing(reply)) {
            (Call::Command { request, room }, Some(card)) => early(card, request, room.length),
            _ => None,
        }
    }

    /// The call with another request.
    fn mishear(&self, change: fn(&Card, &mut Vec<u8>), call: &Call, reply: &[u8]) -> Call {
        match (call, self.hearing(reply)) {
            (Call::Command { request, room }, Some(card)) => {
                let mut request = request.clone();
                change(card, &mut request.bytes);
                Call::Command { request, room: *room }
            }
            _ => call.clone(),
        }
    }

    /// Hears a call and tells the bytes written, or the answer.
    fn hear(&mut self, call: &Call, reply: &mut [u8]) -> usize {
        match self.fault.map(|fault| &fault.plant) {
            None | Some(Plant::IsSound(_) | Plant::Misuse(_)) => self.plain.hear(call, reply),
            Some(Plant::Refuse(early)) => match self.refuse(*early, call, reply) {
                Some(refusal) => {
                    reply[..8].copy_from_slice(&refusal.reply());
                    8
                }
                None => self.plain.hear(call, reply),
            },
            Some(Plant::Mishear(change)) => {
                let misheard = self.mishear(*change, call, reply);
                self.plain.hear(&misheard, reply)
            }
            Some(Plant::Replace(change)) => self.replace(*change, call, reply),
            Some(Plant::Leave(change)) => self.leave(*change, call, reply),
            Some(Plant::Repair(change)) => {
                let mut bytes = self.plain.to_bytes();
                change(&mut bytes);
                self.plain = Plain::from_bytes(&bytes);
                self.plain.hear(call, reply)
            }
        }
    }

    /// Hears another call; its reply buffer may be shorter.
    fn replace(&mut self, change: fn(&mut Call), call: &Call, reply: &mut [u8]) -> usize {
        let mut replaced = call.clone();
        change(&mut replaced);
        self.plain.hear(&replaced, &mut reply[..replaced.room().length])
    }

    /// Hears the call and leaves another outcome.
    fn leave(&mut self, change: fn(&mut Outcome), call: &Call, reply: &mut [u8]) -> usize {
        let before = self.plain.clone();
        let mut answer = self.plain.hear(call, reply);
        change(&mut Outcome {
            call,
            before: &before,
            after: &mut self.plain,
            answer: &mut answer,
            reply,
            memory: &mut self.memory,
        });
        answer
    }
}

impl Device for Faulty {
    fn call(&mut self, call: &Call, reply: &mut Lent) -> usize {
        self.hear(call, reply.bytes_mut())
    }

    fn card(&mut self) -> &[u8] {
        self.plain.write_to(&mut self.bytes);
        &self.bytes
    }

    fn is_sound(&mut self) -> u8 {
        let Some(Plant::IsSound(change)) = self.fault.map(|fault| &fault.plant) else {
            return self.plain.is_sound().into();
        };
        let mut bytes = self.plain.to_bytes();
        change(&mut bytes);
        Plain::from_bytes(&bytes).is_sound().into()
    }
}

/// Every planted fault, in the order of the table.
pub fn all() -> Vec<&'static Fault> {
    [
        programs::FAULTS,
        order::FAULTS,
        frame::FAULTS,
        data::FAULTS,
        length::FAULTS,
        objects::FAULTS,
        parts::FAULTS,
        queue::FAULTS,
        events::FAULTS,
        loads::FAULTS,
        halves_of_reset::FAULTS,
        restore::FAULTS,
        message::FAULTS,
        message_frame::FAULTS,
        exchange::FAULTS,
        host::FAULTS,
        setups::FAULTS,
        difference::FAULTS,
        salvage::FAULTS,
        soundness::FAULTS,
        memory::FAULTS,
    ]
    .into_iter()
    .flatten()
    .collect()
}

/// A fault that the comparison finds.
const fn fault(name: &'static str, plant: Plant) -> Fault {
    Fault { name, plant, breaks: &[] }
}

/// A fault that the comparison and the checks of properties find.
const fn breaking(breaks: &'static [Property], name: &'static str, plant: Plant) -> Fault {
    Fault { name, plant, breaks }
}
