//! The programs that are timed, each with a card of its own.

use std::hint::black_box;
use std::ops::Range;

use kajurnat::raw;
use plain_card::{bytes, Card};

use crate::call::Call;
use crate::device::Plain;
use crate::fast;
use crate::loads::Load;

/// A program that hears calls.
pub trait Program {
    /// Hears a call and tells the bytes written, or the answer.
    fn hear(&mut self, call: &Call, reply: &mut [u8]) -> usize;

    /// The card's bytes.
    fn card(&self) -> Vec<u8>;

    /// Hears each of the calls once.
    fn round(&mut self, calls: &mut [Call], reply: &mut [u8]) {
        for call in calls {
            black_box(self.hear(black_box(call), reply));
            black_box(&reply);
            make_next(call, reply);
        }
    }
}

/// Where the generation stands in a message that writes, and in its response.
const GENERATION: Range<usize> = 8..12;

/// Makes a call the one of the next round: a message that writes takes the
/// generation that its response told, as a driver's next write does.
pub fn make_next(call: &mut Call, reply: &[u8]) {
    if let Call::Message { message, .. } = call {
        message.bytes[GENERATION].copy_from_slice(&reply[GENERATION]);
    }
}

/// Which program.
#[derive(Clone, Copy, Debug, PartialEq, Eq)]
pub enum Which {
    /// The verified archive.
    Archive,
    /// The plain card, on a `&mut Card`.
    Plain,
    /// The fastest plain Rust, over bytes.
    Fastest,
}

impl Which {
    /// The program with this card.
    pub fn with(self, card: &Card) -> Box<dyn Program> {
        match self {
            Which::Archive => Box::new(Archive(bytes::write(card))),
            Which::Plain => Box::new(Plain::Card(card.clone())),
            Which::Fastest => Box::new(Fastest(bytes::write(card))),
        }
    }
}

struct Archive(Vec<u8>);

impl Archive {
    /// Hears a call that is not a command.
    #[inline(never)] // so that a command costs its caller as much as that of the fastest
    fn hear_other(&mut self, call: &Call, reply: &mut [u8]) -> usize {
        let card = &mut self.0;
        match call {
            Call::Message { message, .. } => raw::message(card, message, reply),
            Call::Store { member, part_type, selector, value } => {
                raw::store(card, *member, *part_type, *selector, value).into()
            }
            Call::HandBack(member) => raw::hand_back(card, *member).into(),
            Call::Wipe { member, generation } => raw::wipe(card, *member, *generation).into(),
            Call::Begin(member) => raw::restore_begin(card, *member) as usize,
            Call::Feed { member, fragment } => raw::restore_feed(card, *member, fragment) as usize,
            Call::Finish { member, id } => raw::restore_finish(card, *member, *id) as usize,
            Call::Load(Load::Part { member, part_type, selector, room }) => {
                raw::load(card, *member, *part_type, *selector, &mut reply[..room.length]).into()
            }
            _ => unreachable!("it is not timed: {call}"),
        }
    }
}

impl Program for Archive {
    fn hear(&mut self, call: &Call, reply: &mut [u8]) -> usize {
        match call {
            Call::Command { request, .. } => raw::command(&mut self.0, request, reply),
            _ => self.hear_other(call, reply),
        }
    }

    fn card(&self) -> Vec<u8> {
        self.0.clone()
    }
}

impl Program for Plain {
    fn hear(&mut self, call: &Call, reply: &mut [u8]) -> usize {
        match call {
            Call::Load(load) => Plain::hear(self, call, &mut reply[..load.room().length]),
            _ => Plain::hear(self, call, reply),
        }
    }

    fn card(&self) -> Vec<u8> {
        self.to_bytes()
    }
}

/// Commands alone have a fast form.
struct Fastest(Vec<u8>);

impl Program for Fastest {
    fn hear(&mut self, call: &Call, reply: &mut [u8]) -> usize {
        match call {
            Call::Command { request, .. } => fast::command(&mut self.0, request, reply),
            _ => unreachable!("it is not timed: {call}"),
        }
    }

    fn card(&self) -> Vec<u8> {
        self.0.clone()
    }
}
