//! Faults of the salvage of a torn capture (request 8 of document 02).

use std::collections::BTreeMap;

use plain_card::exported::{self, Report};
use plain_card::frame::u32_at;
use plain_card::list::{Header, LONGEST};
use plain_card::part::{inventory, Part, HEADER};
use plain_card::salvage::{salvage, Cause, Salvaged};
use plain_card::{setups, Setup};

use super::{fault, Fault, Outcome, Plant};
use crate::call::Call;
use crate::lists::{Asked, OnLists};
use crate::memory::pattern;

pub const FAULTS: &[Fault] = &[
    fault("salvage: the last copy kept", Plant::Leave(|it| again(it, Wrong::LastKept))),
    fault(
        "salvage: a copy counted as wrongly sized",
        Plant::Leave(|it| again(it, Wrong::SizeFirst)),
    ),
    fault("salvage: only the first copy judged", Plant::Leave(|it| again(it, Wrong::FirstOnly))),
    fault("salvage: optional unknown not counted", Plant::Leave(|it| again(it, Wrong::Optional))),
    fault("salvage: looks on behind the cut", Plant::Leave(|it| again(it, Wrong::LooksOn))),
    fault(
        "salvage: an unknown part past the end dropped",
        Plant::Leave(|it| again(it, Wrong::PastEnd)),
    ),
    fault("salvage: a length cut to 16 bits", Plant::Leave(|it| again(it, Wrong::Length16))),
    fault("salvage: queue sizes not judged", Plant::Leave(|it| again(it, Wrong::Sizes))),
    fault("salvage: device features not compared", Plant::Leave(|it| again(it, Wrong::Features))),
    fault("salvage: the part stopped at counted", Plant::Leave(|it| again(it, Wrong::TornCounted))),
    fault(
        "salvage: left over from the value's start",
        Plant::Leave(|it| again(it, Wrong::FromValue)),
    ),
    fault("salvage: a torn header not left over", Plant::Leave(|it| again(it, Wrong::TornHeader))),
    fault("salvage: features filled with zeros", Plant::Leave(features_zero)),
    fault("salvage: a fill leaves old bytes", Plant::Leave(old_bytes)),
    fault("salvage: headers of the list kept", Plant::Leave(headers_kept)),
    fault("salvage: fresh values reported as filled", Plant::Leave(fresh_filled)),
    fault("salvage: filled features reported as kept", Plant::Leave(features_kept)),
    fault("salvage: kept and filled exchanged", Plant::Leave(kept_exchanged)),
    fault("salvage: causes in another order", Plant::Leave(causes_exchanged)),
    fault("salvage: rest of the report made zero", Plant::Leave(report_cleared)),
    fault("salvage: rest of the buffer made zero", Plant::Leave(rest_cleared)),
    fault("salvage: a refusal writes the list", Plant::Leave(refusal_writes)),
    fault("salvage: a refusal writes the report", Plant::Leave(refusal_reports)),
    fault("salvage: 4,064 bytes refused", Plant::Leave(longest_refused)),
    fault("salvage: 4,065 bytes taken", Plant::Replace(longer_taken)),
    fault("salvage: room for the damaged list wanted", Plant::Leave(room_of_damaged)),
    fault("salvage: an exact report refused", Plant::Leave(exact_report)),
    fault("salvage: member cut to 32 bits", Plant::Replace(member_32)),
    fault("salvage: parts of member 1", Plant::Replace(member_1)),
    fault("salvage: version 2 of a setup refused", Plant::Leave(version_2)),
];

/// A salvage, and what it says.
struct Called<'a> {
    call: &'a OnLists,
    damaged: &'a [u8],
    /// The lengths of the report's buffers, for kept and dropped.
    report: [usize; 2],
    setup: Setup,
    queues: u8,
}

/// The call, if it is a salvage under a setup that has the member.
fn called<'a>(outcome: &Outcome<'a>) -> Option<Called<'a>> {
    let Call::Lists(call) = outcome.call else { return None };
    let Asked::Salvage { damaged, report, .. } = &call.asked else { return None };
    let setup = setups::read(&call.setup).ok()?;
    let queues = setup.queues_of(call.member)?;
    Some(Called { call, damaged, report: *report, setup, queues })
}

/// The call, if it was done.
fn done<'a>(outcome: &Outcome<'a>) -> Option<Called<'a>> {
    called(outcome).filter(|_| *outcome.answer != 0)
}

/// The call, if it was refused.
fn refused<'a>(outcome: &Outcome<'a>) -> Option<Called<'a>> {
    called(outcome).filter(|_| *outcome.answer == 0)
}

impl Called<'_> {
    /// What stands in the buffer: bytes left over and dropped, kept, the list.
    fn split<'b>(&self, reply: &'b mut [u8]) -> (&'b mut [u8], &'b mut [u8], &'b mut [u8]) {
        let [kept, dropped] = self.report;
        let (numbers, rest) = reply.split_at_mut(4 + 4 * dropped);
        let (kept, list) = rest.split_at_mut(kept);
        (numbers, kept, list)
    }

    /// What is right.
    fn right(&self) -> Option<Salvaged> {
        salvage(&self.setup, self.call.member, self.damaged)
    }

    /// Where the value of each part stands in the list.
    fn values(&self) -> Vec<(Part, std::ops::Range<usize>)> {
        let mut at = 0;
        let place = |part: Part| {
            let start = at + HEADER;
            at += part.size();
            (part, start..at)
        };
        inventory(self.queues).map(place).collect()
    }
}

fn refuse(outcome: &mut Outcome) {
    outcome.reply.iter_mut().enumerate().for_each(|(at, byte)| *byte = pattern(at));
    *outcome.answer = 0;
}

/// What is done wrong on the way through a damaged list.
#[derive(Clone, Copy, PartialEq, Eq)]
enum Wrong {
    LastKept,
    SizeFirst,
    FirstOnly,
    Optional,
    LooksOn,
    PastEnd,
    Length16,
    Sizes,
    Features,
    TornCounted,
    FromValue,
    TornHeader,
    #[cfg(test)]
    Nothing,
}

/// Salvages the list again, with something done wrong.
fn again(outcome: &mut Outcome, wrong: Wrong) {
    let Some(called) = done(outcome) else { return };
    let Salvaged { list, kept, dropped, left } = wrongly(&called, wrong);
    let (numbers, kept_bytes, to) = called.split(outcome.reply);
    let all = [&[left], &dropped[..]].concat();
    numbers.chunks_exact_mut(4).zip(all).for_each(|(to, it)| to.copy_from_slice(&it.to_le_bytes()));
    kept_bytes.iter_mut().zip(kept).for_each(|(to, it)| *to = it.into());
    to[..list.len()].copy_from_slice(&list);
}

/// A salvage with something done wrong.
fn wrongly(called: &Called, wrong: Wrong) -> Salvaged {
    let mut walk = Walk { called, wrong, kept: BTreeMap::new(), seen: vec![], dropped: [0; 4] };
    let mut at = 0;
    let left = loop {
        match walk.part(at) {
            Ok(end) => at = end,
            Err(left) => break left as u32,
        }
    };
    let (queues, features) = (called.queues, called.setup.common.features);
    let mut list = vec![];
    for part in inventory(queues) {
        list.extend(part.header());
        match walk.kept.get(&part) {
            Some(value) => list.extend(*value),
            None if part == Part::DeviceFeatures => list.extend(features),
            None => list.extend(vec![0; part.length() as usize]),
        }
    }
    let kept = inventory(queues).map(|part| walk.kept.contains_key(&part)).collect();
    Salvaged { list, kept, dropped: walk.dropped, left }
}

/// The way through a damaged list.
struct Walk<'a> {
    called: &'a Called<'a>,
    wrong: Wrong,
    kept: BTreeMap<Part, &'a [u8]>,
    seen: Vec<Part>,
    dropped: [u32; 4],
}

impl<'a> Walk<'a> {
    /// Takes the part at this place and tells its end, or the bytes left over.
    fn part(&mut self, at: usize) -> Result<usize, usize> {
        let rest = &self.called.damaged[at..];
        let Some((header, behind)) = rest.split_at_checked(HEADER) else {
            return Err(if self.wrong == Wrong::TornHeader { 0 } else { rest.len() });
        };
        let header = Header::read(header);
        let length = match self.wrong {
            Wrong::Length16 => header.length as usize & 0xffff,
            _ => header.length as usize,
        };
        let part = header.part(self.called.queues);
        let Some(value) = behind.get(..length) else { return self.torn(part, at, rest.len()) };
        match part {
            Some(part) => self.known(part, value),
            None if self.wrong == Wrong::Optional && header.flags & 1 == 1 => {}
            None => self.dropped[Cause::Unknown as usize] += 1,
        }
        Ok(at + HEADER + length)
    }

    /// A value that runs past the end.
    fn torn(&mut self, part: Option<Part>, at: usize, rest: usize) -> Result<usize, usize> {
        match self.wrong {
            Wrong::LooksOn => return Ok(at + HEADER),
            Wrong::FromValue => return Err(rest - HEADER),
            Wrong::PastEnd if part.is_none() => {
                self.dropped[Cause::Unknown as usize] += 1;
                return Err(0);
            }
            Wrong::TornCounted => self.dropped[Cause::Size as usize] += 1,
            _ => {}
        }
        Err(rest)
    }

    /// Keeps or drops a known part.
    fn known(&mut self, part: Part, value: &'a [u8]) {
        let wrong = self.wrong;
        let sized = value.len() == part.length() as usize;
        let ring = sized && (wrong == Wrong::Sizes || part.allows(value));
        let same = part != Part::DeviceFeatures || value == self.called.setup.common.features;
        let valued = ring && (wrong == Wrong::Features || same);
        let again = wrong == Wrong::FirstOnly && self.seen.contains(&part);
        self.seen.push(part);
        let copy = again || self.kept.contains_key(&part);
        let cause = match copy {
            true if wrong == Wrong::SizeFirst && !sized => Some(Cause::Size),
            true => Some(Cause::Copy),
            false if !sized => Some(Cause::Size),
            false if !valued => Some(Cause::Value),
            false => None,
        };
        if cause.is_none() || wrong == Wrong::LastKept && valued {
            self.kept.insert(part, value);
        }
        if let Some(cause) = cause {
            self.dropped[cause as usize] += 1;
        }
    }
}

fn features_zero(outcome: &mut Outcome) {
    let Some(called) = done(outcome) else { return };
    let (_, kept, list) = called.split(outcome.reply);
    if kept[0] == 0 {
        list[HEADER..2 * HEADER].fill(0);
    }
}

fn old_bytes(outcome: &mut Outcome) {
    let Some(called) = done(outcome) else { return };
    let start = outcome.reply.len() - called.split(outcome.reply).2.len();
    let (_, kept, list) = called.split(outcome.reply);
    for ((_, place), kept) in called.values().into_iter().zip(kept) {
        if *kept == 0 {
            place.for_each(|at| list[at] = pattern(start + at));
        }
    }
}

/// The header of a kept part is that of the damaged list.
fn headers_kept(outcome: &mut Outcome) {
    let Some(called) = done(outcome) else { return };
    let (_, kept, list) = called.split(outcome.reply);
    for ((_, place), _) in called.values().into_iter().zip(kept).filter(|(_, kept)| **kept == 1) {
        let value = list[place.clone()].to_vec();
        let mut stands = called.damaged.windows(HEADER + value.len());
        let header = place.start - HEADER..place.start;
        if let Some(ours) =
            stands.find(|it| it.ends_with(&value) && it[..2] == list[header.clone()][..2])
        {
            list[header].copy_from_slice(&ours[..HEADER]);
        }
    }
}

fn fresh_filled(outcome: &mut Outcome) {
    let Some(called) = done(outcome) else { return };
    let (_, kept, list) = called.split(outcome.reply);
    for ((_, place), kept) in called.values().into_iter().zip(kept) {
        if list[place].iter().all(|byte| *byte == 0) {
            *kept = 0;
        }
    }
}

fn features_kept(outcome: &mut Outcome) {
    if let Some(called) = done(outcome) {
        called.split(outcome.reply).1[0] = 1;
    }
}

fn kept_exchanged(outcome: &mut Outcome) {
    let Some(called) = done(outcome) else { return };
    let kept = called.split(outcome.reply).1;
    kept.iter_mut().take(called.values().len()).for_each(|kept| *kept ^= 1);
}

fn causes_exchanged(outcome: &mut Outcome) {
    let Some(called) = done(outcome) else { return };
    let numbers = called.split(outcome.reply).0;
    let (copies, sizes) = (u32_at(numbers, 8), u32_at(numbers, 12));
    numbers[8..12].copy_from_slice(&sizes.to_le_bytes());
    numbers[12..16].copy_from_slice(&copies.to_le_bytes());
}

fn report_cleared(outcome: &mut Outcome) {
    let Some(called) = done(outcome) else { return };
    let (numbers, kept, _) = called.split(outcome.reply);
    kept[called.values().len()..].fill(0);
    numbers[20..].fill(0);
}

fn rest_cleared(outcome: &mut Outcome) {
    let Some(called) = done(outcome) else { return };
    let length = *outcome.answer;
    called.split(outcome.reply).2[length..].fill(0);
}

/// As much of the list as there is room for is written.
fn refusal_writes(outcome: &mut Outcome) {
    let Some(called) = refused(outcome) else { return };
    let Some(right) = called.right() else { return };
    let list = called.split(outcome.reply).2;
    list.iter_mut().zip(right.list).for_each(|(to, byte)| *to = byte);
}

/// The report is written though the list has no room.
fn refusal_reports(outcome: &mut Outcome) {
    let Some(called) = refused(outcome) else { return };
    let mut list = [0; 445];
    let (mut kept, mut dropped, mut left) = ([0; 15], [0; 4], 0);
    let report = Report { kept: &mut kept, dropped: &mut dropped, left: &mut left };
    let OnLists { setup, member, .. } = called.call;
    if exported::salvage(setup, *member, called.damaged, &mut list, report) > 0 {
        called.split(outcome.reply).0[..4].copy_from_slice(&left.to_le_bytes());
    }
}

fn longest_refused(outcome: &mut Outcome) {
    if done(outcome).is_some_and(|called| called.damaged.len() == LONGEST) {
        refuse(outcome);
    }
}

/// Changes the call, if it is a salvage.
fn change(call: &mut Call, change: impl FnOnce(&mut OnLists)) {
    match call {
        Call::Lists(call) if call.pair().is_none() => change(call),
        _ => {}
    }
}

fn longer_taken(call: &mut Call) {
    change(call, |call| {
        if let Asked::Salvage { damaged, .. } = &mut call.asked {
            if damaged.len() == LONGEST + 1 {
                damaged.bytes.pop();
            }
        }
    });
}

fn room_of_damaged(outcome: &mut Outcome) {
    let Some(called) = done(outcome) else { return };
    if called.split(outcome.reply).2.len() < called.damaged.len() {
        refuse(outcome);
    }
}

fn exact_report(outcome: &mut Outcome) {
    if done(outcome).is_some_and(|called| called.report == [called.values().len(), 4]) {
        refuse(outcome);
    }
}

fn member_32(call: &mut Call) {
    change(call, |call| call.member &= 0xffff_ffff);
}

fn member_1(call: &mut Call) {
    change(call, |call| call.member = call.member.min(1));
}

fn version_2(outcome: &mut Outcome) {
    if done(outcome).is_some_and(|called| called.call.setup[0] >> 4 == 2) {
        refuse(outcome);
    }
}

#[cfg(test)]
mod tests {
    use super::*;
    use crate::random::Random;

    #[test]
    fn with_nothing_done_wrong_it_is_the_plain_salvage() {
        let mut random = Random::new(1, 0);
        for _ in 0..2_000 {
            let call = crate::draw::salvage(&mut random);
            let Asked::Salvage { damaged, report, .. } = &call.asked else { continue };
            let Ok(setup) = setups::read(&call.setup) else { continue };
            let Some(queues) = setup.queues_of(call.member) else { continue };
            let called = Called { call: &call, damaged, report: *report, setup, queues };
            if let Some(right) = called.right() {
                assert_eq!(wrongly(&called, Wrong::Nothing), right);
            }
        }
    }
}
