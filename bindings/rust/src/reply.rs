//! Reading a reply.

use crate::part::capture_bytes;
use crate::raw;
use crate::request::Opcode;
use crate::setup::Setup;
use crate::status::{Qualifier, Status};
use core::fmt;

/// A reply that was read as the answer to a request: status, qualifier, and a
/// result if the command was carried out.
///
/// A status or qualifier that is not known is handled as
/// [`Status::EINVAL`] or [`Qualifier::INVALID_COMMAND`]; the number that was
/// sent is still there.
///
/// ```
/// use kajurnat::{Qualifier, Request, Status};
///
/// let reply = Request::stop(1).read(&[99, 0, 5, 0, 0, 0, 0, 0])?;
/// assert_eq!(reply.status(), Status::EINVAL);
/// assert_eq!(reply.sent_status(), Status(99));
/// assert_eq!(reply.qualifier(), Qualifier::INVALID_MEMBER);
/// # Ok::<(), kajurnat::BadReply>(())
/// ```
#[derive(Clone, Copy, PartialEq, Eq)]
pub struct Reply<'r> {
    status: Status,
    qualifier: Qualifier,
    sent_status: Status,
    sent_qualifier: Qualifier,
    result: &'r [u8],
}

impl<'r> Reply<'r> {
    /// The length of the head. A refusal has no more.
    pub const HEAD: usize = 8;

    /// The longest reply of any card: a capture of all parts with four
    /// queues.
    pub const MAX: usize = Self::HEAD + capture_bytes(*Setup::QUEUES.end());

    /// Reads the bytes of a whole reply to a command.
    pub(crate) fn read(opcode: Opcode, what: u8, reply: &'r [u8]) -> Result<Self, BadReply> {
        let [mut status, mut qualifier, mut sent_status, mut sent_qualifier] = [0; 4];
        let answer = raw::reply_read(
            opcode.0,
            what,
            reply,
            &mut status,
            &mut qualifier,
            &mut sent_status,
            &mut sent_qualifier,
        );
        match (answer, reply.get(Self::HEAD..)) {
            (0, Some(result)) => Ok(Self {
                status: Status(status),
                qualifier: Qualifier(qualifier),
                sent_status: Status(sent_status),
                sent_qualifier: Qualifier(sent_qualifier),
                result,
            }),
            _ => Err(BadReply { length: reply.len() }),
        }
    }

    /// What became of the command, to act on.
    #[must_use]
    pub const fn status(&self) -> Status {
        self.status
    }

    /// More about the status, to act on.
    #[must_use]
    pub const fn qualifier(&self) -> Qualifier {
        self.qualifier
    }

    /// The status as it was sent.
    #[must_use]
    pub const fn sent_status(&self) -> Status {
        self.sent_status
    }

    /// The qualifier as it was sent.
    #[must_use]
    pub const fn sent_qualifier(&self) -> Qualifier {
        self.sent_qualifier
    }

    /// The bytes after the head, if the command was carried out.
    ///
    /// # Errors
    ///
    /// [`Refusal`] if it was not.
    pub fn result(&self) -> Result<&'r [u8], Refusal> {
        let Self { status, qualifier, sent_status, sent_qualifier, result } = *self;
        match status {
            Status::OK => Ok(result),
            _ => Err(Refusal { status, qualifier, sent_status, sent_qualifier }),
        }
    }
}

impl fmt::Debug for Reply<'_> {
    /// The head and the length: a result may hold addresses of guest memory.
    fn fmt(&self, f: &mut fmt::Formatter<'_>) -> fmt::Result {
        f.debug_struct("Reply")
            .field("status", &self.sent_status)
            .field("qualifier", &self.sent_qualifier)
            .field("length", &(Self::HEAD + self.result.len()))
            .finish_non_exhaustive()
    }
}

/// A command was not carried out, and the card is unchanged; or a step of a
/// [`Restore`](crate::Restore) was not.
#[derive(Clone, Copy, Debug, PartialEq, Eq)]
pub struct Refusal {
    /// Why, to act on.
    pub status: Status,
    /// More about the status, to act on.
    pub qualifier: Qualifier,
    /// The status as it was sent.
    pub sent_status: Status,
    /// The qualifier as it was sent.
    pub sent_qualifier: Qualifier,
}

impl fmt::Display for Refusal {
    /// The numbers as they were sent.
    fn fmt(&self, f: &mut fmt::Formatter<'_>) -> fmt::Result {
        let Self { sent_status, sent_qualifier, .. } = self;
        write!(f, "the card refused the command: status {sent_status}, qualifier {sent_qualifier}")
    }
}

impl core::error::Error for Refusal {}

/// Bytes are not the answer to the request: they are under [`Reply::HEAD`], or
/// of the wrong length for the command and the status in them.
#[derive(Clone, Copy, Debug, PartialEq, Eq)]
pub struct BadReply {
    /// The number of bytes.
    pub length: usize,
}

impl fmt::Display for BadReply {
    fn fmt(&self, f: &mut fmt::Formatter<'_>) -> fmt::Result {
        write!(f, "{} bytes are not of a reply's length for this command and status", self.length)
    }
}

impl core::error::Error for BadReply {}

/// A reply buffer has no room for a head, so the command was not carried out.
#[derive(Clone, Copy, Debug, PartialEq, Eq)]
pub struct ReplyTooShort {
    /// The length of the buffer.
    pub buffer: usize,
}

impl fmt::Display for ReplyTooShort {
    fn fmt(&self, f: &mut fmt::Formatter<'_>) -> fmt::Result {
        write!(
            f,
            "a reply buffer of {} bytes is too short: a reply has {} at least",
            self.buffer,
            Reply::HEAD
        )
    }
}

impl core::error::Error for ReplyTooShort {}

#[cfg(test)]
mod tests {
    use super::*;
    use alloc::format;
    use alloc::string::ToString;

    fn read(bytes: &[u8]) -> Result<Reply<'_>, BadReply> {
        Reply::read(Opcode::DEV_PARTS_GET, 0, bytes)
    }

    #[test]
    fn a_reply_has_a_head() {
        assert_eq!(read(&[]), Err(BadReply { length: 0 }));
        assert_eq!(read(&[0; 7]), Err(BadReply { length: 7 }));
        assert!(read(&[0; 8]).is_ok());
    }

    #[test]
    fn a_refusal_says_why() {
        let reply = read(&[22, 0, 2, 0, 0, 0, 0, 0]).unwrap();
        let refusal = reply.result().unwrap_err();
        assert_eq!(refusal.status, Status::EINVAL);
        assert_eq!(refusal.qualifier, Qualifier::INVALID_OPCODE);
        assert_eq!(
            refusal.to_string(),
            "the card refused the command: status 22 (EINVAL), qualifier 2 (INVALID_OPCODE)"
        );
    }

    #[test]
    fn an_unknown_refusal_shows_what_was_sent() {
        let refusal = read(&[99, 0, 8, 1, 0, 0, 0, 0]).unwrap().result().unwrap_err();
        assert_eq!(refusal.status, Status::EINVAL);
        assert_eq!(refusal.qualifier, Qualifier::INVALID_COMMAND);
        assert_eq!(refusal.to_string(), "the card refused the command: status 99, qualifier 264");
    }

    #[test]
    fn a_refusal_with_bytes_past_its_head_is_no_reply() {
        let error = read(&[22, 0, 2, 0, 0, 0, 0, 0, 5]).unwrap_err();
        assert_eq!(error, BadReply { length: 9 });
        assert_eq!(
            error.to_string(),
            "9 bytes are not of a reply's length for this command and status"
        );
    }

    #[test]
    fn a_result_is_not_shown() {
        let reply = Reply::read(Opcode::LIST_QUERY, 0, &[0; 16]).unwrap();
        assert_eq!(reply.result(), Ok(&[0; 8][..]));
        assert_eq!(
            format!("{reply:?}"),
            "Reply { status: Status(0 (OK)), qualifier: Qualifier(0 (OK)), length: 16, .. }"
        );
    }
}
