//! Salvage of a torn capture (request 8 of document 02): a damaged list of parts
//! becomes one that step 10 passes, with a report.

use std::collections::BTreeMap;

use crate::list::{take_part, Header, LONGEST};
use crate::part::{inventory, Part, Wrong};
use crate::setup::Setup;

/// Why a part is dropped; the first cause that applies, in this order.
#[derive(Clone, Copy, Debug, PartialEq, Eq)]
pub enum Cause {
    /// The member has not got it.
    Unknown,
    /// A copy of it is kept.
    Copy,
    /// Its value has not the length of the table.
    Size,
    /// Its value is not allowed: a queue size that no ring has, or device
    /// features that are not the setup's.
    Value,
}

/// How many causes there are.
pub const CAUSES: usize = 4;

/// A list that step 10 passes, and the report of how it came about.
#[derive(Clone, Debug, PartialEq, Eq)]
pub struct Salvaged {
    /// Each part of the inventory once, in the table's order with its headers.
    pub list: Vec<u8>,
    /// For each part of the inventory whether it was kept; else it was filled
    /// with the fresh value.
    pub kept: Vec<bool>,
    /// The number of parts dropped for each cause.
    pub dropped: [u32; CAUSES],
    /// The bytes left over, from the start of the header that it stopped at.
    pub left: u32,
}

/// Salvages a damaged list of a member. Refused, under one name, are a list over
/// 4,064 bytes and a member that the setup has not got.
pub fn salvage(setup: &Setup, member: u64, damaged: &[u8]) -> Option<Salvaged> {
    let queues = setup.queues_of(member)?;
    if damaged.len() > LONGEST {
        return None;
    }
    let features = &setup.common.features;
    let mut kept = BTreeMap::new();
    let mut dropped = [0; CAUSES];
    let mut rest = damaged;
    // It stops at the first header or value that runs past the end.
    while let Ok((header, value)) = take_part(&mut rest) {
        match judge(&header, value, queues, features, |part| kept.contains_key(&part)) {
            Ok(part) => drop(kept.insert(part, value)),
            Err(cause) => dropped[cause as usize] += 1,
        }
    }
    let mut list = vec![];
    for part in inventory(queues) {
        list.extend(part.header());
        match (kept.get(&part), part) {
            (Some(value), _) => list.extend(*value),
            (None, Part::DeviceFeatures) => list.extend(features),
            (None, _) => list.extend(vec![0; part.length() as usize]),
        }
    }
    let kept = inventory(queues).map(|part| kept.contains_key(&part)).collect();
    Some(Salvaged { list, kept, dropped, left: rest.len() as u32 })
}

/// The part that is kept, or why it is dropped.
fn judge(
    header: &Header,
    value: &[u8],
    queues: u8,
    features: &[u8; 16],
    kept: impl FnOnce(Part) -> bool,
) -> Result<Part, Cause> {
    let part = header.part(queues).ok_or(Cause::Unknown)?;
    if kept(part) {
        return Err(Cause::Copy);
    }
    match part.wrong(value, features) {
        None => Ok(part),
        Some(Wrong::Length) => Err(Cause::Size),
        Some(Wrong::QueueSize | Wrong::Features) => Err(Cause::Value),
    }
}
