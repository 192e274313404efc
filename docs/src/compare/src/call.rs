//! The calls that sequences are made of.

use std::fmt;

use plain_card::frame::{Frame, GROUP};
use plain_card::message::Message;

use crate::fields::Fields;
use crate::lists::OnLists;
use crate::loads::Load;
use crate::memory::{Buffer, Place, Room};
use crate::show::{CardBytes, Hex};

/// A call, or the card that a sequence goes on with.
#[derive(Clone, Debug, PartialEq, Eq)]
pub enum Call {
    /// The length of a card with so many members.
    CardBytes(u64),
    /// Setup in a buffer; the numbers are N, G and S.
    Setup { numbers: [u64; 3], queues: Buffer, features: Buffer, card: Room },
    /// Setup from its bytes in a buffer.
    SetupFrom { setup: Buffer, card: Room },
    /// These bytes become the card.
    Card(Buffer),
    /// A command with a reply buffer.
    Command { request: Buffer, room: Room },
    /// A message with a reply buffer.
    Message { message: Buffer, room: Room },
    /// Hand back of one member.
    HandBack(u64),
    /// Wipe of one member, with the generation to start from.
    Wipe { member: u64, generation: u32 },
    /// Reset of the whole card, with the generation to start from.
    ResetCard(u32),
    /// Card store.
    Store { member: u64, part_type: u16, selector: u64, value: Buffer },
    /// Begin of a restore in fragments.
    Begin(u64),
    /// A fragment of it.
    Feed { member: u64, fragment: Buffer },
    /// Its end, through the set object of this id.
    Finish { member: u64, id: u32 },
    /// Drop of it.
    Drop(u64),
    /// A request built in a buffer.
    Build { fields: Fields, list: Buffer, room: Room },
    /// A reply read as the answer to a command; `what` is a type byte.
    Read { opcode: u16, what: u8, reply: Buffer },
    /// The bytes of a setup, written in a buffer.
    WriteSetup { numbers: [u64; 3], queues: Buffer, features: Buffer, room: Room },
    /// A setup read from its bytes, by the reader of version 1 or by that of
    /// both; the lengths are those of the buffers for queues and features.
    ReadSetup { first: bool, setup: Buffer, lengths: [usize; 2], place: Place },
    /// A call on lists of parts under a setup.
    Lists(OnLists),
    /// A call that only reads the card, for its own firmware.
    Load(Load),
}

/// The length of the four numbers that a reply is read into: status and
/// qualifier to act on, and both as they were sent.
pub const NUMBERS: usize = 8;

/// The length of the three numbers that a setup is read into, ahead of queues and
/// features.
pub const COUNTS: usize = 3;

impl Call {
    /// The buffer that is written besides the card: reply, request, or the
    /// numbers that are read.
    pub fn room(&self) -> Room {
        match self {
            Call::Command { room, .. } | Call::Message { room, .. } => *room,
            Call::Build { room, .. } => *room,
            Call::Read { .. } => NUMBERS.into(),
            Call::WriteSetup { room, .. } => *room,
            Call::ReadSetup { lengths: [queues, features], place, .. } => {
                Room { length: COUNTS + queues + features, place: *place }
            }
            Call::Lists(call) => call.room(),
            Call::Load(call) => call.room(),
            _ => 0.into(),
        }
    }

    /// The bytes that the call only reads, and what they are.
    pub fn inputs(&self) -> Vec<(&'static str, &Buffer)> {
        match self {
            Call::Setup { queues, features, .. } | Call::WriteSetup { queues, features, .. } => {
                vec![("queues", queues), ("features", features)]
            }
            Call::SetupFrom { setup, .. } | Call::ReadSetup { setup, .. } => {
                vec![("setup", setup)]
            }
            Call::Command { request, .. } => vec![("request", request)],
            Call::Message { message, .. } => vec![("message", message)],
            Call::Store { value, .. } => vec![("value", value)],
            Call::Feed { fragment, .. } => vec![("fragment", fragment)],
            Call::Build { list, .. } => vec![("list", list)],
            Call::Read { reply, .. } => vec![("reply", reply)],
            Call::Lists(call) => call.inputs(),
            _ => vec![],
        }
    }

    /// The member that the call names in the sense of documents 01 and 02,
    /// whether the card has it or not.
    pub fn named(&self) -> Option<u64> {
        match self {
            Call::Command { request, .. } => {
                let frame = Frame::read(request).ok()?;
                let names = frame.group_type == GROUP && (0x0a..=0x11).contains(&frame.opcode);
                names.then_some(frame.member)
            }
            Call::Message { message, .. } => Some(Message::read(message)?.member()),
            Call::Store { member, .. } => Some(*member),
            _ => self.restored(),
        }
    }

    /// The member of a call of a restore in fragments.
    pub fn restored(&self) -> Option<u64> {
        match self {
            Call::Begin(member) | Call::Drop(member) => Some(*member),
            Call::Feed { member, .. } | Call::Finish { member, .. } => Some(*member),
            _ => None,
        }
    }

    /// The call with its buffers where they lie if nothing depends on it.
    pub fn at_usual_places(&self) -> Call {
        let mut call = self.clone();
        match &mut call {
            Call::Setup { queues, features, card: room, .. }
            | Call::WriteSetup { queues, features, room, .. } => {
                queues.place = Place::USUAL;
                features.place = Place::USUAL;
                room.place = Place::USUAL;
            }
            Call::SetupFrom { setup, card: Room { place, .. } }
            | Call::ReadSetup { setup, place, .. } => {
                setup.place = Place::USUAL;
                *place = Place::USUAL;
            }
            Call::Card(bytes) => bytes.place = Place::USUAL,
            Call::Command { request: sent, room } | Call::Message { message: sent, room } => {
                sent.place = Place::USUAL;
                room.place = Place::USUAL;
            }
            Call::Store { value, .. } => value.place = Place::USUAL,
            Call::Feed { fragment, .. } => fragment.place = Place::USUAL,
            Call::Build { list, room, .. } => {
                list.place = Place::USUAL;
                room.place = Place::USUAL;
            }
            Call::Read { reply, .. } => reply.place = Place::USUAL,
            Call::Lists(call) => call.put_at_usual_places(),
            Call::Load(call) => call.put_at_usual_place(),
            _ => {}
        }
        call
    }
}

impl fmt::Display for Place {
    /// Nothing for the usual place.
    fn fmt(&self, f: &mut fmt::Formatter) -> fmt::Result {
        match self {
            Place::Offset(0) => Ok(()),
            Place::Offset(offset) => write!(f, " (at offset {offset})"),
            Place::AfterPage => write!(f, " (right after a guard page)"),
            Place::BeforePage => write!(f, " (right before a guard page)"),
        }
    }
}

impl fmt::Display for Buffer {
    fn fmt(&self, f: &mut fmt::Formatter) -> fmt::Result {
        write!(f, "{}{}", Hex(self), self.place)
    }
}

impl fmt::Display for Room {
    fn fmt(&self, f: &mut fmt::Formatter) -> fmt::Result {
        write!(f, "{}{}", self.length, self.place)
    }
}

impl fmt::Display for Call {
    fn fmt(&self, f: &mut fmt::Formatter) -> fmt::Result {
        match self {
            Call::CardBytes(members) => write!(f, "length of a card with {members} members"),
            Call::Setup { numbers: [n, g, s], queues, features, card } => {
                write!(f, "setup N={n} G={g} S={s}, queues {queues}, features {features}")?;
                write!(f, ", in a buffer of {card}")
            }
            Call::SetupFrom { setup, card } => {
                write!(f, "setup from {} bytes: {setup}, in a buffer of {card}", setup.len())
            }
            Call::Card(bytes) => write!(f, "{}{}", CardBytes(bytes), bytes.place),
            Call::Command { request, room } => {
                write!(f, "command of {} bytes: {request}", request.len())?;
                write!(f, ", reply buffer of {room}")
            }
            Call::Message { message, room } => {
                write!(f, "message of {} bytes: {message}", message.len())?;
                write!(f, ", reply buffer of {room}")
            }
            Call::HandBack(member) => write!(f, "hand back of member {member}"),
            Call::Wipe { member, generation } => {
                write!(f, "wipe of member {member}, generation {generation}")
            }
            Call::ResetCard(generation) => {
                write!(f, "reset of the whole card, generation {generation}")
            }
            Call::Store { member, part_type, selector, value } => {
                write!(f, "store, member {member}, type {part_type:#x}, selector {selector:#x}")?;
                write!(f, ", value of {} bytes: {value}", value.len())
            }
            Call::Begin(member) => write!(f, "begin of a restore, member {member}"),
            Call::Feed { member, fragment } => {
                write!(f, "feed, member {member}, of {} bytes: {fragment}", fragment.len())
            }
            Call::Finish { member, id } => write!(f, "finish, member {member}, object {id}"),
            Call::Drop(member) => write!(f, "drop of a restore, member {member}"),
            Call::Build { fields, list, room } => {
                write!(f, "request to build: {fields}, list of {} bytes: {list}", list.len())?;
                write!(f, ", in a buffer of {room}")
            }
            Call::Read { opcode, what, reply } => {
                write!(f, "reply to opcode {opcode:#x}, type byte {what}, to read")?;
                write!(f, ", of {} bytes: {reply}", reply.len())
            }
            Call::WriteSetup { numbers: [n, g, s], queues, features, room } => {
                write!(f, "setup to write: N={n} G={g} S={s}, queues {queues}")?;
                write!(f, ", features {features}, in a buffer of {room}")
            }
            Call::ReadSetup { first, setup, lengths: [queues, features], place } => {
                let reader = if *first { "version 1" } else { "both versions" };
                write!(f, "setup to read by the reader of {reader}, of {} bytes", setup.len())?;
                write!(f, ": {setup}, in buffers of {queues} and {features}{place}")
            }
            Call::Lists(call) => call.fmt(f),
            Call::Load(call) => call.fmt(f),
        }
    }
}

#[cfg(test)]
mod tests {
    use super::*;
    use plain_card::opcode::Opcode;

    /// A request of the opcode for member 7, without data.
    fn request(opcode: Opcode) -> Vec<u8> {
        let fields = Fields { opcode, member: 7, id: 0, byte: 0, mask: 0 };
        let mut request = fields.request(&[]).bytes();
        request.truncate(24);
        request[16] = 7;
        request
    }

    fn command(request: Vec<u8>) -> Call {
        Call::Command { request: request.into(), room: 8.into() }
    }

    #[test]
    fn a_command_names_its_member_if_it_has_one() {
        for opcode in Opcode::ALL {
            let named = opcode.names_member().then_some(7);
            assert_eq!(command(request(opcode)).named(), named);
        }
        let good = request(Opcode::Query);
        assert_eq!(command(good[..23].to_vec()).named(), None);
        let mut other_group = good.clone();
        other_group[2] = 2;
        assert_eq!(command(other_group).named(), None);
        assert_eq!(command([good, vec![0; 4073]].concat()).named(), None);
    }

    #[test]
    fn a_call_of_a_restore_names_its_member() {
        let fragment = vec![].into();
        let calls =
            [Call::Begin(7), Call::Feed { member: 7, fragment }, Call::Finish { member: 7, id: 1 }];
        assert!(calls.iter().chain([&Call::Drop(7)]).all(|call| call.named() == Some(7)));
    }

    #[test]
    fn a_whole_message_names_its_member() {
        let named = |message: &[u8]| {
            Call::Message { message: message.to_vec().into(), room: 0.into() }.named()
        };
        let read = [0, 5, 6, 0, 0, 0, 16, 0, 0, 0, 0, 0, 0, 0, 0, 0];
        assert_eq!(named(&read), Some(7));
        assert_eq!(named(&read[..15]), None);
        assert_eq!(named(&[&[1], &read[1..]].concat()), None);
    }

    #[test]
    fn a_store_names_its_member_and_resets_do_not() {
        let value = vec![].into();
        let store = Call::Store { member: 99, part_type: 0, selector: 0, value };
        assert_eq!(store.named(), Some(99));
        assert_eq!(Call::HandBack(1).named(), None);
        assert_eq!(Call::Wipe { member: 1, generation: 0 }.named(), None);
        assert_eq!(Call::ResetCard(0).named(), None);
    }
}
