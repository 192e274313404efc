//! Building a request.

use crate::number::wire_number;
use crate::raw;
use crate::reply::{BadReply, Reply};
use alloc::vec;
use alloc::vec::Vec;
use core::fmt;

wire_number! {
    /// The command that a request asks for.
    Opcode, "{:#04x}",
    /// Gives the mask of the supported opcodes.
    LIST_QUERY = 0x00,
    /// Sets the list of commands in use.
    LIST_USE = 0x01,
    /// Creates a resource object.
    RESOURCE_OBJ_CREATE = 0x0a,
    /// Gives a resource object another kind.
    RESOURCE_OBJ_MODIFY = 0x0b,
    /// Gives the kind of a resource object.
    RESOURCE_OBJ_QUERY = 0x0c,
    /// Ends a resource object.
    RESOURCE_OBJ_DESTROY = 0x0d,
    /// Gives the size, the count or the headers of a member's parts.
    DEV_PARTS_METADATA_GET = 0x0e,
    /// Captures parts of a member.
    DEV_PARTS_GET = 0x0f,
    /// Sets parts of a stopped member.
    DEV_PARTS_SET = 0x10,
    /// Stops or resumes a member.
    DEV_MODE_SET = 0x11,
}

impl Opcode {
    /// The mask of the ten opcodes that a card supports: bit n stands for
    /// opcode n. This is the result of [`Request::list_query`].
    pub const SUPPORTED: u64 = 0x3fc03;
}

/// What a resource object is for.
#[derive(Clone, Copy, Debug, PartialEq, Eq, Hash)]
#[repr(u8)]
pub enum Kind {
    /// To capture parts and their metadata.
    Get = 0,
    /// To set parts.
    Set = 1,
}

/// What [`Request::metadata`] asks for.
#[derive(Clone, Copy, Debug, PartialEq, Eq, Hash)]
#[repr(u8)]
pub enum Metadata {
    /// The size of all parts with their headers: a number in 4 bytes, and 4
    /// zero bytes.
    Size = 0,
    /// The count of parts, so.
    Count = 1,
    /// The count of parts, so, and then the header of each.
    List = 2,
}

/// Which parts a parts get is for.
const SELECTED: u8 = 0;
const ALL: u8 = 1;

/// The mode byte of mode set.
const RESUME: u8 = 0;
const STOP: u8 = 1;

/// A request: one command with its fields, built by the archive.
///
/// Fields go in as they are given. A card takes a request as that command with
/// those fields if they are in the range of its setup, which is proved of the
/// archive; whether they are, and whether a list of parts is good, the card
/// says in its reply. Members are numbered from 1.
///
/// A host hands [`Request::as_bytes`] to a card, wherever that is, and reads
/// the bytes that come back with [`Request::read`]:
///
/// ```
/// use kajurnat::{Opcode, Request, Status};
///
/// let stop = Request::stop(2);
/// assert_eq!(stop.opcode(), Opcode::DEV_MODE_SET);
/// assert_eq!(stop.as_bytes().len(), 25);
///
/// let reply = stop.read(&[22, 0, 5, 0, 0, 0, 0, 0])?;
/// assert_eq!(reply.status(), Status::EINVAL);
/// # Ok::<(), kajurnat::BadReply>(())
/// ```
///
/// A card in this process does both with [`Card::send`](crate::Card::send).
#[derive(Clone, PartialEq, Eq)]
pub struct Request {
    opcode: Opcode,
    /// What a metadata request asks for; its reply is read by it.
    what: u8,
    bytes: Vec<u8>,
}

impl Request {
    /// The longest request that is built, and that a card does not refuse for
    /// its length.
    pub const MAX: usize = 4096;

    /// No request without its list is longer.
    const FIXED_MAX: usize = 48;

    /// Asks which commands the card supports. The result is a mask of 8 bytes:
    /// bit n stands for opcode n.
    #[must_use]
    pub fn list_query() -> Self {
        Self::fixed(Opcode::LIST_QUERY, raw::request_list_query)
    }

    /// Puts the commands of the mask in use, and no others: bit n stands for
    /// opcode n.
    #[must_use]
    pub fn list_use(mask: u64) -> Self {
        Self::fixed(Opcode::LIST_USE, |bytes| raw::request_list_use(bytes, mask))
    }

    /// Creates a resource object.
    #[must_use]
    pub fn create(member: u64, id: u32, kind: Kind) -> Self {
        Self::fixed(Opcode::RESOURCE_OBJ_CREATE, |bytes| {
            raw::request_create(bytes, member, id, kind as u8)
        })
    }

    /// Gives a resource object another kind.
    #[must_use]
    pub fn modify(member: u64, id: u32, kind: Kind) -> Self {
        Self::fixed(Opcode::RESOURCE_OBJ_MODIFY, |bytes| {
            raw::request_modify(bytes, member, id, kind as u8)
        })
    }

    /// Asks for the kind of a resource object. The result is the kind and 7
    /// zero bytes.
    #[must_use]
    pub fn query(member: u64, id: u32) -> Self {
        Self::fixed(Opcode::RESOURCE_OBJ_QUERY, |bytes| raw::request_query(bytes, member, id))
    }

    /// Ends a resource object.
    #[must_use]
    pub fn destroy(member: u64, id: u32) -> Self {
        Self::fixed(Opcode::RESOURCE_OBJ_DESTROY, |bytes| raw::request_destroy(bytes, member, id))
    }

    /// Asks about all parts of a member, through a get object.
    #[must_use]
    pub fn metadata(member: u64, id: u32, what: Metadata) -> Self {
        let what = what as u8;
        let request = Self::fixed(Opcode::DEV_PARTS_METADATA_GET, |bytes| {
            raw::request_metadata(bytes, member, id, what)
        });
        Self { what, ..request }
    }

    /// Captures all parts of a member, through a get object. The result is
    /// each part in order, a header and its value.
    #[must_use]
    pub fn capture(member: u64, id: u32) -> Self {
        Self::fixed(Opcode::DEV_PARTS_GET, |bytes| raw::request_get(bytes, member, id, ALL, &[]))
    }

    /// Captures the parts that the headers name, through a get object.
    ///
    /// # Errors
    ///
    /// [`RequestTooLong`] if the headers are over 4,056 bytes.
    pub fn get(member: u64, id: u32, headers: &[u8]) -> Result<Self, RequestTooLong> {
        Self::with_list(Opcode::DEV_PARTS_GET, headers, |bytes| {
            raw::request_get(bytes, member, id, SELECTED, headers)
        })
    }

    /// Sets parts of a stopped member, through a set object: all of the list
    /// or none.
    ///
    /// # Errors
    ///
    /// [`RequestTooLong`] if the list is over 4,064 bytes.
    pub fn set(member: u64, id: u32, list: &[u8]) -> Result<Self, RequestTooLong> {
        Self::with_list(Opcode::DEV_PARTS_SET, list, |bytes| {
            raw::request_set(bytes, member, id, list)
        })
    }

    /// Stops a member.
    #[must_use]
    pub fn stop(member: u64) -> Self {
        Self::fixed(Opcode::DEV_MODE_SET, |bytes| raw::request_mode(bytes, member, STOP))
    }

    /// Resumes a member.
    #[must_use]
    pub fn resume(member: u64) -> Self {
        Self::fixed(Opcode::DEV_MODE_SET, |bytes| raw::request_mode(bytes, member, RESUME))
    }

    /// A request without a list.
    fn fixed(opcode: Opcode, build: impl FnOnce(&mut [u8]) -> usize) -> Self {
        Self::with_list(opcode, &[], build).expect("a request without a list is short")
    }

    /// A request with a list, in memory that has room for it.
    fn with_list(
        opcode: Opcode,
        list: &[u8],
        build: impl FnOnce(&mut [u8]) -> usize,
    ) -> Result<Self, RequestTooLong> {
        let room = list.len().saturating_add(Self::FIXED_MAX).min(Self::MAX);
        let mut bytes = vec![0; room];
        match build(&mut bytes) {
            0 => Err(RequestTooLong { list: list.len() }),
            length => {
                bytes.truncate(length);
                Ok(Self { opcode, what: 0, bytes })
            }
        }
    }

    /// The command.
    #[must_use]
    pub const fn opcode(&self) -> Opcode {
        self.opcode
    }

    /// The bytes to send.
    #[must_use]
    pub fn as_bytes(&self) -> &[u8] {
        &self.bytes
    }

    /// Reads the bytes of a whole reply as the answer to this request, by the
    /// archive's reader.
    ///
    /// # Errors
    ///
    /// [`BadReply`] if the bytes cannot be the answer.
    pub fn read<'r>(&self, reply: &'r [u8]) -> Result<Reply<'r>, BadReply> {
        Reply::read(self.opcode, self.what, reply)
    }
}

impl AsRef<[u8]> for Request {
    fn as_ref(&self) -> &[u8] {
        &self.bytes
    }
}

impl fmt::Debug for Request {
    /// The opcode and the length: the data may hold addresses of guest
    /// memory.
    fn fmt(&self, f: &mut fmt::Formatter<'_>) -> fmt::Result {
        f.debug_struct("Request")
            .field("opcode", &self.opcode)
            .field("length", &self.bytes.len())
            .finish_non_exhaustive()
    }
}

/// A list is too long for a request, so none is built.
#[derive(Clone, Copy, Debug, PartialEq, Eq)]
pub struct RequestTooLong {
    /// The length of the list.
    pub list: usize,
}

impl fmt::Display for RequestTooLong {
    fn fmt(&self, f: &mut fmt::Formatter<'_>) -> fmt::Result {
        write!(
            f,
            "a list of {} bytes is too long: a request has {} at most",
            self.list,
            Request::MAX
        )
    }
}

impl core::error::Error for RequestTooLong {}

#[cfg(test)]
mod tests {
    use super::*;
    use alloc::format;
    use alloc::string::ToString;

    #[test]
    fn the_data_is_not_shown() {
        let request = Request::set(1, 0, &[0xde, 0xad]).unwrap();
        assert_eq!(
            format!("{request:?}"),
            "Request { opcode: Opcode(0x10 (DEV_PARTS_SET)), length: 34, .. }"
        );
    }

    #[test]
    fn a_list_that_is_too_long_is_named() {
        let error = Request::set(1, 0, &[0; 4065]).unwrap_err();
        assert_eq!(error, RequestTooLong { list: 4065 });
        assert_eq!(
            error.to_string(),
            "a list of 4065 bytes is too long: a request has 4096 at most"
        );
    }

    #[test]
    fn the_mask_has_the_named_opcodes() {
        let named = (0..64)
            .filter(|&opcode| Opcode(opcode).name().is_some())
            .fold(0, |mask, opcode| mask | 1_u64 << opcode);
        assert_eq!(named, Opcode::SUPPORTED);
        assert_eq!(format!("{}", Opcode(0x0a)), "0x0a (RESOURCE_OBJ_CREATE)");
    }
}
