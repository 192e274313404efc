//! Faults of the queue sizes that no ring has (request 5 of document 02).

use plain_card::command;
use plain_card::frame::u16_at;
use plain_card::operation::Operation;
use plain_card::part::{Part, HEADER};
use plain_card::status::Refusal;
use plain_card::{queue, Card};

use super::tools::{given, named, parts, queues};
use super::{breaking, fault, Fault, Outcome, Plant, Property};
use crate::call::Call;

const ROUND_TRIP: &[Property] = &[Property::RoundTrip];

pub const FAULTS: &[Fault] = &[
    fault("queue: size 100 taken", Plant::Leave(size_100)),
    fault("queue: any even size taken", Plant::Leave(size_even)),
    fault("queue: size 65,535 taken", Plant::Leave(size_65535)),
    breaking(ROUND_TRIP, "queue: size 32,768 refused", Plant::Leave(size_32768)),
    breaking(ROUND_TRIP, "queue: size 1 refused", Plant::Leave(size_1)),
    breaking(ROUND_TRIP, "queue: size 0 refused", Plant::Leave(size_0)),
    fault("queue: size 0 with enabled 0x0100 taken", Plant::Leave(enabled_cut)),
    fault("queue: size 0 with any enabled field taken", Plant::Leave(enabled_unread)),
    breaking(ROUND_TRIP, "queue: a size not enabled refused", Plant::Leave(not_enabled)),
    fault("queue: stores not looked at", Plant::Leave(store_unread)),
    fault("queue: store answers 5 before 3", Plant::Leave(size_before_length)),
    fault("queue: the rule tried on a skipped part", Plant::Refuse(skipped_tried)),
];

/// A rule for size and enabled field.
type Rule = fn(u16, u16) -> bool;

/// Whether a part is a queue of a member with `queues` queues, and the rule holds
/// for it.
fn holds(queues: u8, part: &[u8], rule: Rule) -> bool {
    let known = matches!(named(queues, part), Some(Part::Queue(_)));
    known && part.len() == HEADER + 32 && rule(u16_at(part, HEADER), u16_at(part, HEADER + 4))
}

/// The part that a card store names, if it has its length and the rule holds.
fn stored(outcome: &mut Outcome, rule: Rule) -> Option<Part> {
    let Call::Store { member, part_type: 0x104, selector, value } = outcome.call else {
        return None;
    };
    let (card, _) = outcome.cards()?;
    let queues = card.setup.has_member(*member).then(|| card.member(*member).queues)?;
    let part = Part::named(0x104, selector.to_le_bytes(), queues)?;
    (value.len() == 32 && rule(u16_at(value, 0), u16_at(value, 4))).then_some(part)
}

/// Stores that the card refuses are done for queues of this rule.
fn store_taken(outcome: &mut Outcome, rule: Rule) {
    let (Call::Store { member, value, .. }, 5) = (outcome.call, *outcome.answer) else { return };
    let Some(part) = stored(outcome, rule) else { return };
    if let Some((_, after)) = outcome.cards() {
        after.member_mut(*member).values.get_mut(part).copy_from_slice(value);
        *outcome.answer = 0;
    }
}

/// Queues of this rule are taken besides those that the card takes.
fn taken(outcome: &mut Outcome, rule: Rule) {
    store_taken(outcome, rule);
    let (Some((member, Operation::PartsSet(..))), Call::Command { request, .. }) =
        (outcome.operation(), outcome.call)
    else {
        return;
    };
    if outcome.status() != Some(Refusal::BadList.numbers()) {
        return;
    }
    let Some((before, after)) = outcome.cards() else { return };
    let mut card = before.clone();
    let mut misheard = request.bytes.clone();
    let count = queues(before, request);
    let mut replaced = vec![];
    for range in parts(before, request) {
        if holds(count, &request[range.clone()], rule) {
            misheard[range.start + HEADER..range.end].fill(0);
            replaced.extend(named(count, &request[range.clone()]).map(|part| (part, range)));
        }
    }
    let mut reply = [1; 8];
    command(&mut card, &misheard, &mut reply);
    if reply == [0; 8] {
        for (part, range) in replaced {
            let value = &request[range][HEADER..];
            card.member_mut(member).values.get_mut(part).copy_from_slice(value);
        }
        *after = card;
        outcome.reply[..8].fill(0);
    }
}

/// Queues of this rule are refused though the card takes them.
fn refused(outcome: &mut Outcome, rule: Rule) {
    if outcome.done() && stored(outcome, rule).is_some() {
        *outcome.after = outcome.before.clone();
        *outcome.answer = 5;
    }
    let Call::Command { request, .. } = outcome.call else { return };
    let Some((before, _)) = outcome.cards() else { return };
    let count = queues(before, request);
    let has = |parts: Vec<&[u8]>| parts.iter().any(|part| holds(count, part, rule));
    if given(before, request).is_some_and(has) && outcome.succeeded() {
        *outcome.after = outcome.before.clone();
        outcome.reply[..8].copy_from_slice(&Refusal::BadList.reply());
    }
}

fn size_100(outcome: &mut Outcome) {
    taken(outcome, |size, _| size == 100);
}

fn size_even(outcome: &mut Outcome) {
    taken(outcome, |size, _| size != 0 && size % 2 == 0);
}

fn size_65535(outcome: &mut Outcome) {
    taken(outcome, |size, _| size == u16::MAX);
}

fn size_32768(outcome: &mut Outcome) {
    refused(outcome, |size, _| size == 32_768);
}

fn size_1(outcome: &mut Outcome) {
    refused(outcome, |size, _| size == 1);
}

fn size_0(outcome: &mut Outcome) {
    refused(outcome, |size, _| size == 0);
}

/// Of the enabled field the first byte is read.
fn enabled_cut(outcome: &mut Outcome) {
    taken(outcome, |size, enabled| size == 0 && enabled & 0xff == 0);
}

fn enabled_unread(outcome: &mut Outcome) {
    taken(outcome, |size, _| size == 0);
}

fn not_enabled(outcome: &mut Outcome) {
    refused(outcome, |size, enabled| size != 0 && enabled == 0);
}

fn store_unread(outcome: &mut Outcome) {
    store_taken(outcome, |_, _| true);
}

fn size_before_length(outcome: &mut Outcome) {
    let (Call::Store { part_type: 0x104, value, .. }, 3) = (outcome.call, *outcome.answer) else {
        return;
    };
    if value.len() >= 6 && !queue::allowed(value) {
        *outcome.answer = 5;
    }
}

fn skipped_tried(card: &Card, request: &[u8], _: usize) -> Option<Refusal> {
    let count = queues(card, request);
    let bad = |part: &&[u8]| {
        let queue = u16_at(part, 0) == 0x104 && part.len() == HEADER + 32;
        queue && named(count, part).is_none() && !queue::allowed(&part[HEADER..])
    };
    given(card, request)?.iter().any(bad).then_some(Refusal::BadList)
}
