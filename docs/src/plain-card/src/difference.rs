//! A full capture and a later list of what changed (request 7 of document 02):
//! one part looked up in the pair, and one list made of it.

use std::collections::BTreeMap;

use crate::list::{self, Known};
use crate::part::{inventory, Part};
use crate::setup::Setup;

/// Why a pair is refused, with the number that it answers. The first that
/// applies is given, in this order.
#[derive(Clone, Copy, Debug, PartialEq, Eq)]
#[repr(u8)]
pub enum Refused {
    /// Bad setup, or the member is not 1 to N.
    Setup = 1,
    /// The full capture is bad by step 10.
    Full = 2,
    /// The later list is bad by step 10.
    Later = 3,
    /// The full capture lacks a part of the inventory.
    Lacking = 4,
    /// The part asked is outside the inventory.
    Part = 5,
    /// The buffer is too short.
    Buffer = 6,
}

/// One of the two lists.
#[derive(Clone, Copy, Debug, PartialEq, Eq)]
#[repr(u8)]
pub enum List {
    /// The full capture.
    Full = 0,
    /// The later list.
    Later = 1,
}

/// A value looked up: the list that it is a part of, where it starts there, and
/// its bytes, which are not copied.
#[derive(Clone, Copy, Debug, PartialEq, Eq)]
pub struct Found<'a> {
    /// The list.
    pub list: List,
    /// Where the value starts in it.
    pub at: usize,
    /// The value.
    pub value: &'a [u8],
}

/// A pair of lists that none of the first four refusals applies to: every part
/// of the inventory, with its value.
#[derive(Clone, Debug)]
pub struct Pair<'a> {
    queues: u8,
    values: BTreeMap<Part, Found<'a>>,
}

impl<'a> Pair<'a> {
    /// The pair of these lists, for one member of a setup.
    pub fn new(
        setup: &Setup,
        member: u64,
        full: &'a [u8],
        later: &'a [u8],
    ) -> Result<Pair<'a>, Refused> {
        let queues = setup.queues_of(member).ok_or(Refused::Setup)?;
        let known = |list| list::known(list, &setup.common.features, queues);
        let full = known(full).map_err(|_| Refused::Full)?;
        let later = known(later).map_err(|_| Refused::Later)?;
        let named = |part| full.iter().any(|known| known.part == part);
        if !inventory(queues).all(named) {
            return Err(Refused::Lacking);
        }
        // What the later list has takes the place of what the full capture has.
        let full = full.into_iter().map(|known| (List::Full, known));
        let later = later.into_iter().map(|known| (List::Later, known));
        let found = |(list, Known { part, at, value })| (part, Found { list, at, value });
        Ok(Pair { queues, values: full.chain(later).map(found).collect() })
    }

    /// The value of the part that type and selector name.
    pub fn find(&self, part_type: u16, selector: [u8; 8]) -> Result<Found<'a>, Refused> {
        let part = Part::named(part_type, selector, self.queues).ok_or(Refused::Part)?;
        Ok(self.values[&part])
    }

    /// The list made of the pair: each part of the inventory once, in the
    /// table's order with the table's headers.
    pub fn merged(&self) -> Vec<u8> {
        let part = |part: Part| [&part.header(), self.values[&part].value].concat();
        inventory(self.queues).flat_map(part).collect()
    }

    /// Writes that list at the start of the buffer and tells its length.
    pub fn merge(&self, buffer: &mut [u8]) -> Result<usize, Refused> {
        let merged = self.merged();
        let start = buffer.get_mut(..merged.len()).ok_or(Refused::Buffer)?;
        start.copy_from_slice(&merged);
        Ok(merged.len())
    }
}
