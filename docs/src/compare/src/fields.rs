//! The fields of a command that is to be built.

use std::fmt;

use plain_card::host::Request;
use plain_card::member::Mode;
use plain_card::object::Kind;
use plain_card::opcode::Opcode;
use plain_card::operation::{About, Command, Operation};

/// Every field that a command can have but its list. A command takes those that
/// it has.
#[derive(Clone, Copy, Debug, PartialEq, Eq)]
pub struct Fields {
    /// The command.
    pub opcode: Opcode,
    /// The member.
    pub member: u64,
    /// The id of the object.
    pub id: u32,
    /// The kind, type or mode byte.
    pub byte: u8,
    /// The mask of list use.
    pub mask: u64,
}

impl Fields {
    /// The request by the plain host.
    pub fn request<'a>(&self, list: &'a [u8]) -> Request<'a> {
        let Fields { opcode, member, id, byte, mask } = *self;
        match opcode {
            Opcode::ListQuery => Request::ListQuery,
            Opcode::ListUse => Request::ListUse(mask),
            Opcode::Create => Request::Create(member, id, byte),
            Opcode::Modify => Request::Modify(member, id, byte),
            Opcode::Query => Request::Query(member, id),
            Opcode::Destroy => Request::Destroy(member, id),
            Opcode::Metadata => Request::Metadata(member, id, byte),
            Opcode::PartsGet => Request::Get(member, id, byte, list),
            Opcode::PartsSet => Request::Set(member, id, list),
            Opcode::ModeSet => Request::Mode(member, byte),
        }
    }

    /// What a card takes the request as; nothing if the byte is out of range or
    /// a get-all has a list.
    pub fn command<'a>(&self, list: &'a [u8]) -> Option<Command<'a>> {
        let Fields { id, byte, mask, .. } = *self;
        let operation = match self.opcode {
            Opcode::ListQuery => return Some(Command::ListQuery),
            Opcode::ListUse => return Some(Command::ListUse(mask)),
            Opcode::Create => Operation::Create(id, Kind::from_byte(byte)?),
            Opcode::Modify => Operation::Modify(id, Kind::from_byte(byte)?),
            Opcode::Query => Operation::Query(id),
            Opcode::Destroy => Operation::Destroy(id),
            Opcode::Metadata => {
                let about = [About::Size, About::Count, About::List];
                Operation::Metadata(id, *about.get(usize::from(byte))?)
            }
            Opcode::PartsGet => match byte {
                0 => Operation::GetSelected(id, list),
                1 if list.is_empty() => Operation::GetAll(id),
                _ => return None,
            },
            Opcode::PartsSet => Operation::PartsSet(id, list),
            Opcode::ModeSet => {
                let modes = [Mode::Running, Mode::Stopped];
                Operation::ModeSet(*modes.get(usize::from(byte))?)
            }
        };
        Some(Command::OnMember(operation))
    }
}

impl fmt::Display for Fields {
    fn fmt(&self, f: &mut fmt::Formatter) -> fmt::Result {
        let Fields { opcode, member, id, byte, mask } = self;
        write!(f, "{opcode:?}, member {member:#x}, id {id:#x}, byte {byte}, mask {mask:#x}")
    }
}
