//! A full capture and a later list of what changed.

use crate::part::{capture_bytes, PartType};
use crate::raw;
use crate::setup::Setup;
use alloc::vec;
use alloc::vec::Vec;
use core::fmt;

/// A full capture of a member and a later list of what changed, under the setup
/// of its card.
///
/// A value looked up is a part of one of the two lists; nothing is copied. It
/// lives as long as they do.
///
/// ```
/// use kajurnat::{Card, Difference, Kind, Opcode, PartType, Request, Setup};
///
/// let setup = Setup::alike(1, 1, 1, 1, [0; 16]);
/// let mut card = Card::new(&setup)?;
/// card.send(Request::list_use(Opcode::SUPPORTED))?;
/// card.send(Request::create(1, 0, Kind::Get))?;
/// let full = card.send(Request::capture(1, 0))?;
///
/// // Later the device status is another: header and value.
/// card.store(1, PartType::DEVICE_STATUS, 0, &[0x0f])?;
/// let mut status = [0; 16];
/// status[..2].copy_from_slice(&PartType::DEVICE_STATUS.0.to_le_bytes());
/// let later = card.send(Request::get(1, 0, &status)?)?;
///
/// let packed = setup.to_bytes()?;
/// let night = Difference::new(&packed, 1, &full, &later);
/// assert_eq!(night.find(PartType::DEVICE_STATUS, 0)?, [0x0f]);
/// assert_eq!(night.merge()?, card.send(Request::capture(1, 0))?);
/// # Ok::<(), Box<dyn std::error::Error>>(())
/// ```
#[derive(Clone, Copy, Debug)]
pub struct Difference<'s, 'l> {
    setup: &'s [u8],
    member: u64,
    full: &'l [u8],
    later: &'l [u8],
}

impl<'s, 'l> Difference<'s, 'l> {
    /// The pair of these lists. `setup` is the packed setup of the card, of
    /// either version, and `member` says whose parts they are.
    #[must_use]
    pub const fn new(setup: &'s [u8], member: u64, full: &'l [u8], later: &'l [u8]) -> Self {
        Self { setup, member, full, later }
    }

    /// The value of a part: that of the later list, or of the full capture where
    /// the later list has none.
    ///
    /// # Errors
    ///
    /// [`DifferenceError`], the first that applies.
    pub fn find(&self, part_type: PartType, selector: u64) -> Result<&'l [u8], DifferenceError> {
        let (mut list, mut at, mut len) = (0, 0, 0);
        let answer = raw::difference_find(
            self.setup,
            self.member,
            self.full,
            self.later,
            part_type.0,
            selector,
            &mut list,
            &mut at,
            &mut len,
        );
        DifferenceError::from_answer(answer)?;
        let list = if list == 0 { self.full } else { self.later };
        Ok(&list[at as usize..][..len as usize])
    }

    /// One list of the pair: each part of the member once, with the value that
    /// [`find`](Self::find) gives, in the order and with the headers of a
    /// capture. To set it is to set the full capture and then the later list.
    ///
    /// # Errors
    ///
    /// [`DifferenceError`], the first that applies.
    pub fn merge(&self) -> Result<Vec<u8>, DifferenceError> {
        let mut merged = vec![0; capture_bytes(*Setup::QUEUES.end())];
        let length = self.merge_into(&mut merged)?.len();
        merged.truncate(length);
        Ok(merged)
    }

    /// The same list at the start of a buffer. The bytes of the buffer past it
    /// keep their values; an error leaves all of them.
    ///
    /// # Errors
    ///
    /// [`DifferenceError`], the first that applies.
    pub fn merge_into<'b>(&self, buffer: &'b mut [u8]) -> Result<&'b [u8], DifferenceError> {
        let mut written = 0;
        let answer = raw::difference_merge(
            self.setup,
            self.member,
            self.full,
            self.later,
            buffer,
            &mut written,
        );
        DifferenceError::from_answer(answer)?;
        Ok(&buffer[..written as usize])
    }
}

/// Why a pair of lists is refused: the first cause in the order written here.
#[derive(Clone, Copy, Debug, PartialEq, Eq)]
#[non_exhaustive]
pub enum DifferenceError {
    /// The packed setup is bad, or has no such member.
    BadSetup,
    /// The full capture is a bad list: parts set would refuse it.
    BadFull,
    /// The later list is a bad list.
    BadLater,
    /// The full capture lacks a part of the member.
    LacksPart,
    /// The member has no such part.
    NoSuchPart,
    /// The buffer is too short.
    ShortBuffer,
}

impl DifferenceError {
    /// Reads the archive's answer.
    fn from_answer(answer: u8) -> Result<(), Self> {
        match answer {
            0 => Ok(()),
            1 => Err(Self::BadSetup),
            2 => Err(Self::BadFull),
            3 => Err(Self::BadLater),
            4 => Err(Self::LacksPart),
            5 => Err(Self::NoSuchPart),
            6 => Err(Self::ShortBuffer),
            other => panic!("the archive answered {other} to a pair of lists"),
        }
    }
}

impl fmt::Display for DifferenceError {
    fn fmt(&self, f: &mut fmt::Formatter<'_>) -> fmt::Result {
        f.write_str(match self {
            Self::BadSetup => "the packed setup is bad, or has no such member",
            Self::BadFull => "the full capture is a bad list of parts",
            Self::BadLater => "the later list is a bad list of parts",
            Self::LacksPart => "the full capture lacks a part of the member",
            Self::NoSuchPart => "the member has no such part",
            Self::ShortBuffer => "the buffer is too short for the list",
        })
    }
}

impl core::error::Error for DifferenceError {}
