//! Requests built from their fields.

use crate::frame::{DATA, GROUP, LONGEST};
use crate::opcode::Opcode;

/// A command by its fields. They go in as they are: whether they are in range,
/// and whether a list is good, the card says.
#[derive(Clone, Copy, Debug, PartialEq, Eq)]
pub enum Request<'a> {
    /// List query.
    ListQuery,
    /// List use: mask.
    ListUse(u64),
    /// Object create: member, id, kind byte.
    Create(u64, u32, u8),
    /// Object modify: member, id, kind byte.
    Modify(u64, u32, u8),
    /// Object query: member, id.
    Query(u64, u32),
    /// Object destroy: member, id.
    Destroy(u64, u32),
    /// Parts metadata: member, id, type byte.
    Metadata(u64, u32, u8),
    /// Parts get: member, id, type byte, headers.
    Get(u64, u32, u8, &'a [u8]),
    /// Parts set: member, id, list of parts.
    Set(u64, u32, &'a [u8]),
    /// Mode set: member, mode byte.
    Mode(u64, u8),
}

impl<'a> Request<'a> {
    /// The opcode.
    pub fn opcode(&self) -> Opcode {
        match self {
            Request::ListQuery => Opcode::ListQuery,
            Request::ListUse(_) => Opcode::ListUse,
            Request::Create(..) => Opcode::Create,
            Request::Modify(..) => Opcode::Modify,
            Request::Query(..) => Opcode::Query,
            Request::Destroy(..) => Opcode::Destroy,
            Request::Metadata(..) => Opcode::Metadata,
            Request::Get(..) => Opcode::PartsGet,
            Request::Set(..) => Opcode::PartsSet,
            Request::Mode(..) => Opcode::ModeSet,
        }
    }

    /// The member field; zero in the two commands that have none.
    fn member(&self) -> u64 {
        match *self {
            Request::ListQuery | Request::ListUse(_) => 0,
            Request::Create(member, ..)
            | Request::Modify(member, ..)
            | Request::Query(member, ..)
            | Request::Destroy(member, ..)
            | Request::Metadata(member, ..)
            | Request::Get(member, ..)
            | Request::Set(member, ..)
            | Request::Mode(member, ..) => member,
        }
    }

    /// The fixed fields of the data.
    fn fixed(&self) -> Vec<u8> {
        match *self {
            Request::ListQuery => vec![],
            Request::ListUse(mask) => mask.to_le_bytes().to_vec(),
            Request::Create(_, id, kind) | Request::Modify(_, id, kind) => {
                [object(id), NO_FLAGS, padded(kind)].concat()
            }
            Request::Query(_, id) => [object(id), NO_FLAGS].concat(),
            Request::Destroy(_, id) | Request::Set(_, id, _) => object(id).to_vec(),
            Request::Metadata(_, id, what) => [object(id), padded(what)].concat(),
            Request::Get(_, id, which, _) => [object(id), padded(which)].concat(),
            Request::Mode(_, mode) => vec![mode],
        }
    }

    /// What follows the fixed fields.
    fn list(&self) -> &'a [u8] {
        match *self {
            Request::Get(_, _, _, list) | Request::Set(_, _, list) => list,
            _ => &[],
        }
    }

    /// The bytes of the request, however long.
    pub fn bytes(&self) -> Vec<u8> {
        let mut bytes = Vec::new();
        bytes.extend((self.opcode() as u16).to_le_bytes());
        bytes.extend(GROUP.to_le_bytes());
        bytes.extend([0; 12]);
        bytes.extend(self.member().to_le_bytes());
        bytes.extend(self.fixed());
        bytes.extend(self.list());
        bytes
    }

    /// Writes the request at the start of the buffer and tells its length.
    /// Refused, with nothing written, is a request that is over 4,096 bytes or
    /// too long for the buffer.
    pub fn build(&self, buffer: &mut [u8]) -> Option<usize> {
        let room = buffer.len().min(LONGEST);
        let fixed = DATA + self.opcode().fixed_length();
        if self.list().len() > room.checked_sub(fixed)? {
            return None;
        }
        let bytes = self.bytes();
        buffer[..bytes.len()].copy_from_slice(&bytes);
        Some(bytes.len())
    }
}

/// The flags of an object command.
const NO_FLAGS: [u8; 8] = [0; 8];

/// The object header: type 0, two reserved bytes, the id.
fn object(id: u32) -> [u8; 8] {
    (u64::from(id) << 32).to_le_bytes()
}

/// A byte and seven reserved ones.
fn padded(byte: u8) -> [u8; 8] {
    [byte, 0, 0, 0, 0, 0, 0, 0]
}
