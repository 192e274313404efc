//! The status and the qualifier of a reply.

use crate::number::wire_number;

wire_number! {
    /// What became of a command. The numbers are those of `errno` on Linux.
    Status, "{}",
    /// The command was carried out.
    OK = 0,
    /// No live object has the id given.
    ENXIO = 6,
    /// Parts were to be set in a running member, or the member is marked: see
    /// [`Card::hand_back`](crate::Card::hand_back).
    EAGAIN = 11,
    /// The reply buffer is too short for the result.
    ENOMEM = 12,
    /// An object was to be created and its id is live.
    EEXIST = 17,
    /// The request is not valid; the qualifier says what is wrong with it.
    EINVAL = 22,
    /// The member has no room for one more object of this kind.
    ENOSPC = 28,
}

wire_number! {
    /// More about a [`Status`].
    Qualifier, "{}",
    /// With [`Status::OK`].
    OK = 0,
    /// Nothing more is said; with [`Status::EINVAL`], the request is too short
    /// or too long.
    INVALID_COMMAND = 1,
    /// The opcode is not supported, or not in the list in use.
    INVALID_OPCODE = 2,
    /// A field of the data is out of range, or a list of parts is bad.
    INVALID_FIELD = 3,
    /// The group type is not supported.
    INVALID_GROUP = 4,
    /// The card has no such member.
    INVALID_MEMBER = 5,
    /// With [`Status::ENOMEM`].
    NORESOURCE = 6,
    /// With [`Status::EAGAIN`].
    TRYAGAIN = 7,
}

#[cfg(test)]
mod tests {
    use super::*;
    use alloc::format;

    #[test]
    fn a_known_number_shows_its_name() {
        assert_eq!(format!("{}", Status::EINVAL), "22 (EINVAL)");
        assert_eq!(format!("{:?}", Qualifier(2)), "Qualifier(2 (INVALID_OPCODE))");
    }

    #[test]
    fn an_unknown_number_is_kept() {
        assert_eq!(Status(99).name(), None);
        assert_eq!(format!("{}", Status(99)), "99");
    }
}
