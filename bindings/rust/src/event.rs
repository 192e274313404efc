//! The answers to card events: hand backs, wipes and card stores.

use core::fmt;

/// Why a hand back, a wipe or a card store was refused. The card is then
/// unchanged.
#[derive(Clone, Copy, Debug, PartialEq, Eq)]
#[non_exhaustive]
pub enum EventError {
    /// The member is not 1 to the number of members.
    NoSuchMember,
    /// The member has no part of this type and selector, or it is the device
    /// features, which are not set.
    NoSuchPart,
    /// The part's value has another length.
    WrongLength,
    /// The value is that of a queue, and no ring has its size: neither a power
    /// of two, nor 0 while the queue is not enabled.
    BadQueueSize,
    /// The member is to be handed back and is marked, or is to be wiped and is
    /// not marked.
    WrongMark,
}

impl EventError {
    /// Reads the archive's answer to an event of a sound card.
    pub(crate) fn from_answer(answer: u8) -> Result<(), Self> {
        match answer {
            0 => Ok(()),
            1 => Err(Self::NoSuchMember),
            2 => Err(Self::NoSuchPart),
            3 => Err(Self::WrongLength),
            5 => Err(Self::BadQueueSize),
            6 => Err(Self::WrongMark),
            other => panic!("the archive answered {other} to an event of a sound card"),
        }
    }
}

impl fmt::Display for EventError {
    fn fmt(&self, f: &mut fmt::Formatter<'_>) -> fmt::Result {
        f.write_str(match self {
            Self::NoSuchMember => "the card has no such member",
            Self::NoSuchPart => "the member has no such part to store",
            Self::WrongLength => "the part's value has another length",
            Self::BadQueueSize => "the queue has a size that no ring has",
            Self::WrongMark => "the member is marked already, or is to be wiped and is not marked",
        })
    }
}

impl core::error::Error for EventError {}
