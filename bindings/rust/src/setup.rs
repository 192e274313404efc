//! The setup of a card.

use crate::raw;
use alloc::vec;
use alloc::vec::Vec;
use core::fmt;
use core::ops::RangeInclusive;

/// The numbers and the device features that a card is made with.
///
/// Any numbers may be written down; a card is made of those in range.
///
/// ```
/// use kajurnat::{Card, Setup, SetupError};
///
/// let setup = Setup::alike(16, 4, 8, 8, [0; 16]);
/// assert_eq!(Card::new(&setup)?.setup(), setup);
///
/// let refused = Card::new(&Setup { members: 17, ..setup });
/// assert_eq!(refused, Err(SetupError::Members(17)));
/// # Ok::<(), SetupError>(())
/// ```
///
/// Packed, it is bytes that outlive a release:
///
/// ```
/// # use kajurnat::{Setup, SetupError};
/// let setup = Setup::alike(2, 1, 1, 1, [0; 16]);
/// let packed = setup.to_bytes()?;
/// assert_eq!(packed[..3], [0x11, 0x04, 0x40]);
/// assert_eq!(Setup::from_bytes(&packed), Ok(setup));
/// # Ok::<(), SetupError>(())
/// ```
#[derive(Clone, Copy, Debug, PartialEq, Eq)]
pub struct Setup {
    /// The number of members, 1 to 16. They are numbered from 1.
    pub members: u8,
    /// The queue count of each member, 1 to 4, from member 1. Queues are
    /// numbered from 0. Counts past the last member are not read, and 0 in the
    /// setup of a card.
    pub queues: [u8; 16],
    /// How many get objects each member has room for, 0 to 8.
    pub gets: u8,
    /// How many set objects each member has room for, 0 to 8.
    pub sets: u8,
    /// The device features of every member.
    pub features: [u8; 16],
}

/// The length of a card's header.
const HEADER: usize = 27;
/// The length of a member's record.
const RECORD: usize = 1266;

impl Setup {
    /// How many members a card may have.
    pub const MEMBERS: RangeInclusive<u8> = 1..=16;
    /// How many queues each member may have.
    pub const QUEUES: RangeInclusive<u8> = 1..=4;
    /// How many get objects, and how many set objects, each member may have.
    pub const OBJECTS: RangeInclusive<u8> = 0..=8;
    /// The longest packed setup.
    pub const BYTES_MAX: usize = 23;

    /// A setup whose members all have the same queue count.
    #[must_use]
    pub const fn alike(members: u8, queues: u8, gets: u8, sets: u8, features: [u8; 16]) -> Self {
        let mut counts = [0; 16];
        let mut member = 0;
        while member < members && member < 16 {
            counts[member as usize] = queues;
            member += 1;
        }
        Self { members, queues: counts, gets, sets, features }
    }

    /// The exact length of a card of this setup, also as a constant for the
    /// sizes of arrays.
    #[must_use]
    pub const fn card_bytes(&self) -> usize {
        HEADER + RECORD * self.members as usize
    }

    /// The packed setup: of version 1 if all queue counts are equal, else of
    /// version 2.
    ///
    /// # Errors
    ///
    /// [`SetupError`] names the first number that is out of range.
    pub fn to_bytes(&self) -> Result<Vec<u8>, SetupError> {
        let mut bytes = vec![0; Self::BYTES_MAX];
        let written = raw::setup_write(
            &mut bytes,
            self.members.into(),
            self.counts(),
            self.gets.into(),
            self.sets.into(),
            &self.features,
        );
        bytes.truncate(written);
        match written {
            0 => Err(SetupError::cause(self, self.card_bytes())),
            _ => Ok(bytes),
        }
    }

    /// Reads a packed setup, of either version.
    ///
    /// # Errors
    ///
    /// [`BadSetup::Refused`] if the bytes are none.
    pub fn from_bytes(bytes: &[u8]) -> Result<Self, BadSetup> {
        Self::read(bytes, raw::setup_read)
    }

    /// The same for a program that knows version 1 alone, in which all queue
    /// counts are equal.
    ///
    /// # Errors
    ///
    /// [`BadSetup::Version2`] if the bytes are of version 2, before all else,
    /// and [`BadSetup::Refused`] if they are no packed setup.
    pub fn from_bytes_v1(bytes: &[u8]) -> Result<Self, BadSetup> {
        Self::read(bytes, raw::setup_read_v1)
    }

    /// Reads bytes by one of the archive's readers.
    fn read(bytes: &[u8], read: Reader) -> Result<Self, BadSetup> {
        let mut setup = Self::alike(0, 0, 0, 0, [0; 16]);
        let Self { members, queues, gets, sets, features } = &mut setup;
        match read(bytes, members, queues, gets, sets, features) {
            0 => Ok(setup),
            1 => Err(BadSetup::Version2),
            _ => Err(BadSetup::Refused),
        }
    }

    /// The queue counts of the members that there are.
    pub(crate) fn counts(&self) -> &[u8] {
        self.queues.get(..self.members.into()).unwrap_or(&self.queues)
    }

    /// The setup of a sound card.
    pub(crate) fn of_card(card: &[u8]) -> Self {
        let mut bytes = [0; Self::BYTES_MAX];
        let written = raw::setup_of(card, &mut bytes);
        Self::from_bytes(&bytes[..written]).expect("the setup of a sound card")
    }
}

/// A reader of packed setups.
type Reader = fn(&[u8], &mut u8, &mut [u8], &mut u8, &mut u8, &mut [u8]) -> u8;

/// Why no card is made: the first cause in the order written here.
#[derive(Clone, Copy, Debug, PartialEq, Eq)]
#[non_exhaustive]
pub enum SetupError {
    /// The number of members is not in [`Setup::MEMBERS`].
    Members(u8),
    /// The queue count of a member is not in [`Setup::QUEUES`].
    Queues {
        /// The first such member.
        member: u8,
        /// Its queue count.
        queues: u8,
    },
    /// The number of get objects is not in [`Setup::OBJECTS`].
    Gets(u8),
    /// The number of set objects is not in [`Setup::OBJECTS`].
    Sets(u8),
    /// The memory for the card is not [`Setup::card_bytes`] long.
    Length {
        /// The length of the memory.
        memory: usize,
        /// The length of the card.
        card: usize,
    },
}

impl SetupError {
    /// Why the archive refuses this setup in memory of this length.
    pub(crate) fn cause(setup: &Setup, memory: usize) -> Self {
        let bad_queues = |(_, queues): &(u8, &u8)| !Setup::QUEUES.contains(queues);
        if !Setup::MEMBERS.contains(&setup.members) {
            Self::Members(setup.members)
        } else if let Some((member, queues)) = (1..).zip(setup.counts()).find(bad_queues) {
            Self::Queues { member, queues: *queues }
        } else if !Setup::OBJECTS.contains(&setup.gets) {
            Self::Gets(setup.gets)
        } else if !Setup::OBJECTS.contains(&setup.sets) {
            Self::Sets(setup.sets)
        } else {
            Self::Length { memory, card: setup.card_bytes() }
        }
    }
}

impl fmt::Display for SetupError {
    fn fmt(&self, f: &mut fmt::Formatter<'_>) -> fmt::Result {
        let (number, what, range) = match *self {
            Self::Members(number) => (number, "members", Setup::MEMBERS),
            Self::Queues { member, queues } => {
                let (least, most) = Setup::QUEUES.into_inner();
                return write!(f, "{queues} queues of member {member}: it has {least} to {most}");
            }
            Self::Gets(number) => (number, "get objects", Setup::OBJECTS),
            Self::Sets(number) => (number, "set objects", Setup::OBJECTS),
            Self::Length { memory, card } => {
                return write!(f, "{memory} bytes of memory: a card of this setup has {card}");
            }
        };
        let (least, most) = range.into_inner();
        write!(f, "{number} {what}: a setup has {least} to {most}")
    }
}

impl core::error::Error for SetupError {}

/// Bytes are not read as a packed setup.
#[derive(Clone, Copy, Debug, PartialEq, Eq)]
#[non_exhaustive]
pub enum BadSetup {
    /// They are of version 2, which [`Setup::from_bytes_v1`] does not read.
    Version2,
    /// They are no packed setup.
    Refused,
}

impl fmt::Display for BadSetup {
    fn fmt(&self, f: &mut fmt::Formatter<'_>) -> fmt::Result {
        f.write_str(match self {
            Self::Version2 => "the packed setup is of version 2, and version 1 is read",
            Self::Refused => "the bytes are no packed setup",
        })
    }
}

impl core::error::Error for BadSetup {}

#[cfg(test)]
mod tests {
    use super::*;
    use alloc::string::ToString;

    #[test]
    fn an_error_says_what_would_do() {
        assert_eq!(SetupError::Members(17).to_string(), "17 members: a setup has 1 to 16");
        let error = SetupError::Queues { member: 3, queues: 5 };
        assert_eq!(error.to_string(), "5 queues of member 3: it has 1 to 4");
        let error = SetupError::Length { memory: 100, card: 1293 };
        assert_eq!(error.to_string(), "100 bytes of memory: a card of this setup has 1293");
    }
}
