//! Salvage of a torn capture.

use crate::part::{capture_bytes, part_count};
use crate::raw;
use crate::setup::Setup;
use alloc::vec::Vec;
use core::fmt;

/// A list that parts set takes, made of a damaged one, and the report of what
/// became of its parts.
///
/// ```
/// use kajurnat::{Salvaged, Setup};
///
/// let setup = Setup::alike(1, 1, 1, 1, [0; 16]).to_bytes()?;
///
/// // Device status, and then a header that is torn.
/// let mut damaged = vec![0x03, 0x01, 0, 0, 0, 0, 0, 0, 0, 0, 0, 0, 1, 0, 0, 0, 0x0f];
/// damaged.extend([0x04, 0x01, 0]);
///
/// let salvaged = Salvaged::new(&setup, 1, &damaged)?;
/// assert_eq!(salvaged.list.len(), 229);
/// assert_eq!(salvaged.kept.iter().filter(|kept| **kept).count(), 1);
/// assert_eq!((salvaged.dropped.total(), salvaged.left), (0, 3));
/// # Ok::<(), Box<dyn std::error::Error>>(())
/// ```
#[derive(Clone, Debug, PartialEq, Eq)]
pub struct Salvaged {
    /// Each part of the member once, in the order and with the headers of a
    /// capture.
    pub list: Vec<u8>,
    /// For each part of the list, in its order, whether it was kept; else it was
    /// filled with the fresh value.
    pub kept: Vec<bool>,
    /// How many parts were dropped, and why.
    pub dropped: Dropped,
    /// How many bytes were left over, from the start of the header that the
    /// salvage stopped at.
    pub left: u32,
}

/// How many parts of a damaged list were dropped, each for the first cause that
/// applies in the order written here.
#[derive(Clone, Copy, Debug, PartialEq, Eq)]
pub struct Dropped {
    /// Parts that the member has not got.
    pub unknown: u32,
    /// Copies of parts that were kept.
    pub copies: u32,
    /// Parts with a value of another length.
    pub wrongly_sized: u32,
    /// Parts with a value that is not allowed: a queue size that no ring has, or
    /// other device features than the setup's.
    pub wrongly_valued: u32,
}

impl Dropped {
    /// How many there were in all.
    #[must_use]
    pub const fn total(&self) -> u32 {
        self.unknown + self.copies + self.wrongly_sized + self.wrongly_valued
    }
}

impl Salvaged {
    /// The most bytes of a damaged list.
    pub const DAMAGED_MAX: usize = 4064;

    /// Salvages a damaged list of a member. `setup` is the packed setup of its
    /// card, of either version.
    ///
    /// # Errors
    ///
    /// [`SalvageRefused`] if the packed setup is bad or has no such member, or the
    /// list is over [`Salvaged::DAMAGED_MAX`] bytes.
    pub fn new(setup: &[u8], member: u64, damaged: &[u8]) -> Result<Self, SalvageRefused> {
        const QUEUES_MAX: u8 = *Setup::QUEUES.end();
        let mut list = [0; capture_bytes(QUEUES_MAX)];
        let mut kept = [0; part_count(QUEUES_MAX)];
        let (mut dropped, mut left) = ([0; 4], 0);
        let written =
            raw::salvage(setup, member, damaged, &mut list, &mut kept, &mut dropped, &mut left);
        let [unknown, copies, wrongly_sized, wrongly_valued] = dropped;
        let dropped = Dropped { unknown, copies, wrongly_sized, wrongly_valued };
        let queues = Setup::QUEUES.into_iter().find(|queues| capture_bytes(*queues) == written);
        let queues = queues.ok_or(SalvageRefused)?;
        let kept = kept[..part_count(queues)].iter().map(|kept| *kept == 1).collect();
        Ok(Self { list: list[..written].to_vec(), kept, dropped, left })
    }
}

/// A damaged list is not salvaged: the packed setup is bad or has no such member,
/// or the list is too long.
#[derive(Clone, Copy, Debug, PartialEq, Eq)]
pub struct SalvageRefused;

impl fmt::Display for SalvageRefused {
    fn fmt(&self, f: &mut fmt::Formatter<'_>) -> fmt::Result {
        let most = Salvaged::DAMAGED_MAX;
        write!(f, "the packed setup is bad or has no such member, or the list is over {most} bytes")
    }
}

impl core::error::Error for SalvageRefused {}
