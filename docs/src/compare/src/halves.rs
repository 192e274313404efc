//! The two halves together (request 1 of document 02), tried on random cards.
//!
//! A built request, its fields inside the setup's numbers and a get list of
//! whole headers, is taken by a card as that command with those fields. What
//! the card answers is read, with its own status, qualifier and result.

use std::fmt;

use plain_card::bytes;
use plain_card::frame::{Frame, DATA, LONGEST};
use plain_card::opcode::{Opcode, SUPPORTED};
use plain_card::operation::Command;
use plain_card::Card;

use crate::call::Call;
use crate::device::Make;
use crate::draw;
use crate::fields::Fields;
use crate::memory::{Buffer, Place, Room};
use crate::random::Random;
use crate::show::CardBytes;
use crate::trial::{Side, Trial};

/// A sound card, a command in use with its fields, and the length of the reply
/// buffer.
pub struct Halves {
    card: Card,
    fields: Fields,
    list: Vec<u8>,
    room: usize,
}

impl Trial for Halves {
    fn draw(random: &mut Random) -> Halves {
        let (card, fields) = card_and_fields(random);
        let list = list(random, &card, fields);
        let room = random.pick(&[8, 15, 16, 100, 453, 453, 453, 453]);
        Halves { card, fields, list, room }
    }

    fn failure(&self, make: Make) -> Option<String> {
        let mut side = Side::new(make, &self.card);
        let (length, built) = side.reply(&self.build());
        let request = built.get(..length).filter(|request| !request.is_empty());
        let Some(request) = request else { return Some("the request is not built".into()) };
        if !self.is_taken(request) {
            return Some("the request is taken as another".into());
        }
        let (_, reply) = side.reply(&Call::Command { request: placed(request), room: self.room() });
        let read = Call::Read {
            opcode: self.fields.opcode as u16,
            what: self.fields.byte,
            reply: placed(&reply),
        };
        let (answer, numbers) = side.reply(&read);
        if answer != 0 {
            return Some("the reply is refused".into());
        }
        let own = [&reply[..4], &reply[..4]].concat();
        if numbers != own {
            return Some("other numbers are read than the card gave".into());
        }
        side.violations()
    }
}

impl Halves {
    fn build(&self) -> Call {
        let room = Room { length: 4096, place: Place::BeforePage };
        Call::Build { fields: self.fields, list: placed(&self.list), room }
    }

    fn room(&self) -> Room {
        Room { length: self.room, place: Place::BeforePage }
    }

    /// Whether steps 2 to 7 let the request pass as the command that was built.
    fn is_taken(&self, request: &[u8]) -> bool {
        let Fields { opcode, member, .. } = self.fields;
        let Ok(frame) = Frame::read(request) else { return false };
        frame.check_group_type().is_ok()
            && frame.opcode_in_use(self.card.in_use) == Ok(opcode)
            && (!opcode.names_member() || frame.member == member)
            && Command::read(opcode, frame.data, &self.card.setup).ok()
                == self.fields.command(&self.list)
    }
}

/// A list that a request has room for.
fn list(random: &mut Random, card: &Card, fields: Fields) -> Vec<u8> {
    let queues = card.member(fields.member).queues;
    loop {
        let list = match fields.opcode {
            Opcode::PartsGet if fields.byte == 0 => draw::asked(random, queues),
            Opcode::PartsSet => draw::given(random, card, queues),
            _ => vec![],
        };
        if list.len() <= LONGEST - DATA - fields.opcode.fixed_length() {
            return list;
        }
    }
}

/// Bytes right before a guard page.
fn placed(bytes: &[u8]) -> Buffer {
    Buffer { bytes: bytes.to_vec(), place: Place::BeforePage }
}

/// A sound card and fields inside its setup's numbers, with the command in use.
fn card_and_fields(random: &mut Random) -> (Card, Fields) {
    loop {
        let mut card = draw::sound_card(random);
        let ids = usize::from(card.setup.gets) + usize::from(card.setup.sets);
        let opcode = random.pick(&Opcode::ALL);
        let bytes = match opcode {
            Opcode::Metadata => 3,
            _ => 2,
        };
        if ids == 0 && opcode.names_member() && opcode != Opcode::ModeSet {
            continue;
        }
        card.in_use |= opcode.bit();
        let fields = Fields {
            opcode,
            member: 1 + random.below(card.members.len()) as u64,
            id: random.below(ids.max(1)) as u32,
            byte: random.below(bytes) as u8,
            mask: random.bits() & SUPPORTED,
        };
        return (card, fields);
    }
}

impl fmt::Display for Halves {
    fn fmt(&self, f: &mut fmt::Formatter) -> fmt::Result {
        writeln!(f, "{}, reply buffer of {}", self.build(), self.room)?;
        writeln!(f, "  {}", CardBytes(&bytes::write(&self.card)))
    }
}

#[cfg(test)]
mod tests {
    use super::*;
    use crate::device::Device;
    use crate::faults::Faulty;
    use plain_card::frame::u16_at;
    use std::collections::BTreeSet;

    #[test]
    fn every_command_is_tried_with_success_and_refusal() {
        let plain = || -> Box<dyn Device> { Box::new(Faulty::default()) };
        let mut tried = BTreeSet::new();
        for index in 0..5_000 {
            let halves = Halves::draw(&mut Random::new(1, index));
            assert_eq!(halves.failure(&plain), None);
            let mut side = Side::new(&plain, &halves.card);
            let request = halves.fields.request(&halves.list).bytes();
            let call = Call::Command { request: placed(&request), room: halves.room() };
            let (_, reply) = side.reply(&call);
            tried.insert((halves.fields.opcode as u16, u16_at(&reply, 0) == 0));
        }
        // List use is refused for its field alone.
        assert_eq!(tried.len(), 2 * 10 - 1);
    }
}
