//! Faults of lists of parts.

use std::collections::BTreeSet;

use plain_card::command;
use plain_card::frame::{u16_at, u32_at};
use plain_card::list::Header;
use plain_card::member::{Member, Mode};
use plain_card::operation::Operation;
use plain_card::part::{inventory, Part, HEADER, OPTIONAL, RESERVED_TYPES};
use plain_card::status::Refusal;
use plain_card::Card;

use super::tools::{each_part, given, list_start, named, operation, parts, queues};
use super::{breaking, fault, Fault, Outcome, Plant, Property};
use crate::call::Call;
use crate::device::Plain;
use crate::part_bytes::unread_selector;

/// A type that no part has and that is not reserved.
const UNKNOWN: u16 = 0x5ff;

pub const FAULTS: &[Fault] = &[
    fault("trade: parts before a bad one are set", Plant::Leave(parts_before_bad)),
    fault("parts: repeated part, the last stands", Plant::Mishear(repeats_dropped)),
    fault("parts: unknown optional refused", Plant::Refuse(optional_refused)),
    fault("parts: reserved type skipped", Plant::Mishear(reserved_skipped)),
    fault("parts: repeated unknown refused", Plant::Refuse(unknown_repeated)),
    fault("parts: any flag taken as optional", Plant::Mishear(any_flag)),
    fault("parts: whole selector read", Plant::Mishear(selector_whole)),
    fault("parts: queue index cut to 8 bits", Plant::Mishear(index_cut)),
    fault("parts: flags of known parts read", Plant::Refuse(flags_read)),
    fault("parts: features not compared", Plant::Mishear(features_ignored)),
    fault("parts: features set", Plant::Leave(features_set)),
    fault("parts: length cut to 16 bits", Plant::Mishear(length_cut)),
    fault("parts: rest under a header ignored", Plant::Mishear(rest_ignored)),
    fault("parts: short value filled up", Plant::Mishear(value_filled)),
    fault("parts: set while running", Plant::Leave(set_running)),
    fault("parts: asked order kept", Plant::Leave(asked_order)),
    fault("parts: queues beyond Q told", Plant::Leave(queues_beyond)),
    breaking(&[Property::RoundTrip], "parts: end of a queue not set", Plant::Leave(queue_cut)),
    breaking(&[Property::RoundTrip], "parts: features refused", Plant::Refuse(features_refused)),
    breaking(&[Property::Isolation], "parts: set on all members", Plant::Leave(set_on_all)),
];

/// The longest good beginning of a bad list is set, then refused.
fn parts_before_bad(outcome: &mut Outcome) {
    let Some((_, Operation::PartsSet(..))) = outcome.operation() else { return };
    let (Call::Command { request, .. }, false) = (outcome.call, outcome.succeeded()) else {
        return;
    };
    let Some((before, after)) = outcome.cards() else { return };
    for part in parts(before, request).into_iter().rev() {
        let mut card = before.clone();
        let mut reply = [0; 8];
        command(&mut card, &request[..part.end], &mut reply);
        if reply == [0; 8] {
            *after = card;
            return;
        }
    }
}

/// All but the last of parts, or headers, that name the same known part go.
fn repeats_dropped(card: &Card, request: &mut Vec<u8>) {
    let mut seen = BTreeSet::new();
    let count = queues(card, request);
    for range in parts(card, request).into_iter().rev() {
        let repeated = named(count, &request[range.clone()]).is_some_and(|part| !seen.insert(part));
        if repeated {
            request.drain(range);
        }
    }
}

fn optional_refused(card: &Card, request: &[u8], _: usize) -> Option<Refusal> {
    let count = queues(card, request);
    let unknown = given(card, request)?.iter().any(|part| named(count, part).is_none());
    unknown.then_some(Refusal::BadList)
}

fn reserved_skipped(card: &Card, request: &mut Vec<u8>) {
    each_part(card, request, |part| {
        if u16_at(part, 0) >= RESERVED_TYPES {
            part[..2].copy_from_slice(&UNKNOWN.to_le_bytes());
        }
    });
}

fn unknown_repeated(card: &Card, request: &[u8], _: usize) -> Option<Refusal> {
    let mut seen = BTreeSet::new();
    let parts = given(card, request)?;
    let count = queues(card, request);
    let mut unknown = parts.iter().filter(|part| named(count, part).is_none());
    let repeated = unknown.any(|part| !seen.insert((u16_at(part, 0), part[4..12].to_vec())));
    repeated.then_some(Refusal::BadList)
}

fn any_flag(card: &Card, request: &mut Vec<u8>) {
    each_part(card, request, |part| part[2] |= u8::from(part[2] != 0) * OPTIONAL);
}

/// A known part under other unread selector bytes counts as unknown.
fn selector_whole(card: &Card, request: &mut Vec<u8>) {
    let count = queues(card, request);
    each_part(card, request, |part| {
        let unread = unread_selector(u16_at(part, 0));
        if named(count, part).is_some() && part[4..12][unread].iter().any(|byte| *byte != 0) {
            part[..2].copy_from_slice(&UNKNOWN.to_le_bytes());
        }
    });
}

fn index_cut(card: &Card, request: &mut Vec<u8>) {
    each_part(card, request, |part| {
        if matches!(u16_at(part, 0), 0x104 | 0x105) {
            part[5] = 0;
        }
    });
}

fn flags_read(card: &Card, request: &[u8], _: usize) -> Option<Refusal> {
    let count = queues(card, request);
    let other = |part: &&[u8]| named(count, part).is_some_and(|name| name.flags() != part[2]);
    given(card, request)?.iter().any(other).then_some(Refusal::BadList)
}

fn features_ignored(card: &Card, request: &mut Vec<u8>) {
    let count = queues(card, request);
    each_part(card, request, |part| {
        if named(count, part) == Some(Part::DeviceFeatures) && part.len() == HEADER + 16 {
            part[HEADER..].copy_from_slice(&card.setup.features);
        }
    });
}

/// Device features given are not compared; the member's become these.
fn features_set(outcome: &mut Outcome) {
    let Some((member, Operation::PartsSet(..))) = outcome.operation() else { return };
    let Call::Command { request, .. } = outcome.call else { return };
    let Some((before, after)) = outcome.cards() else { return };
    let count = before.member(member).queues;
    let features = |range: &std::ops::Range<usize>| {
        let part = &request[range.clone()];
        named(count, part) == Some(Part::DeviceFeatures) && part.len() == HEADER + 16
    };
    let Some(range) = parts(before, request).into_iter().find(features) else { return };
    let mut misheard = request.bytes.clone();
    features_ignored(before, &mut misheard);
    *after = before.clone();
    let mut reply = [0; 8];
    command(after, &misheard, &mut reply);
    if reply == [0; 8] {
        let value = &request[range][HEADER..];
        after.member_mut(member).values.get_mut(Part::DeviceFeatures).copy_from_slice(value);
    }
    outcome.reply[..8].copy_from_slice(&reply);
}

fn length_cut(card: &Card, request: &mut Vec<u8>) {
    let Some((_, operation @ Operation::PartsSet(..))) = operation(card, request) else { return };
    let mut at = list_start(operation).unwrap_or_default();
    while at + HEADER <= request.len() {
        request[at + 14..at + 16].fill(0);
        at += HEADER + u32_at(request, at + 12) as usize;
    }
}

/// Bytes behind the last whole part, too few for a header, are dropped.
fn rest_ignored(card: &Card, request: &mut Vec<u8>) {
    if let Some(last) = parts(card, request).last() {
        if request.len() < last.end + HEADER {
            request.truncate(last.end);
        }
    }
}

/// A value that runs past the end is filled up with zeros.
fn value_filled(card: &Card, request: &mut Vec<u8>) {
    let Some((_, operation @ Operation::PartsSet(..))) = operation(card, request) else { return };
    let end = parts(card, request).last().map_or(list_start(operation), |last| Some(last.end));
    let Some(header) = end.and_then(|end| request.get(end..end + HEADER)) else { return };
    let length = Header::read(header).length as usize;
    if length <= 64 {
        request.resize(end.unwrap_or_default() + HEADER + length, 0);
    }
}

fn set_running(outcome: &mut Outcome) {
    let Some((member, Operation::PartsSet(..))) = outcome.operation() else { return };
    let Call::Command { request, .. } = outcome.call else { return };
    if outcome.status() != Some(Refusal::Running.numbers()) {
        return;
    }
    if let Plain::Card(after) = outcome.after {
        after.member_mut(member).mode = Mode::Stopped;
        *outcome.answer = command(after, request, outcome.reply);
        after.member_mut(member).mode = Mode::Running;
    }
}

fn asked_order(outcome: &mut Outcome) {
    let Some((member, Operation::GetSelected(_, headers))) = outcome.operation() else { return };
    let asked: Vec<u8> = headers.to_vec();
    if let (true, Some((before, _))) = (outcome.succeeded(), outcome.cards()) {
        let Member { values, queues, .. } = before.member(member);
        let names = asked.chunks(HEADER).filter_map(|header| named(*queues, header));
        let parts: Vec<u8> =
            names.flat_map(|name| crate::part_bytes::part(name, values.get(name))).collect();
        outcome.reply[8..8 + parts.len()].copy_from_slice(&parts);
    }
}

/// Get-all tells four queues if there is room for them.
fn queues_beyond(outcome: &mut Outcome) {
    let Some((member, Operation::GetAll(_))) = outcome.operation() else { return };
    if let (true, Some((before, _))) = (outcome.succeeded(), outcome.cards()) {
        let values = &before.member(member).values;
        let parts: Vec<u8> =
            inventory(4).flat_map(|name| crate::part_bytes::part(name, values.get(name))).collect();
        if let Some(result) = outcome.reply.get_mut(8..8 + parts.len()) {
            result.copy_from_slice(&parts);
            *outcome.answer = 8 + parts.len();
        }
    }
}

/// The last address of a queue keeps its old value.
fn queue_cut(outcome: &mut Outcome) {
    let Some((member, Operation::PartsSet(..))) = outcome.operation() else { return };
    if let Some((before, after)) = outcome.cards() {
        let old = &before.member(member).values.queues;
        for (queue, old) in after.member_mut(member).values.queues.iter_mut().zip(old) {
            queue[24..].copy_from_slice(&old[24..]);
        }
    }
}

fn features_refused(card: &Card, request: &[u8], _: usize) -> Option<Refusal> {
    let parts = given(card, request)?;
    let count = queues(card, request);
    let has = parts.iter().any(|part| named(count, part) == Some(Part::DeviceFeatures));
    has.then_some(Refusal::BadList)
}

/// What is set on one member is set on every member.
fn set_on_all(outcome: &mut Outcome) {
    let Some((member, Operation::PartsSet(..))) = outcome.operation() else { return };
    if let (true, Some((_, after))) = (outcome.succeeded(), outcome.cards()) {
        let values = after.member(member).values.clone();
        after.members.iter_mut().for_each(|member| member.values = values.clone());
    }
}
