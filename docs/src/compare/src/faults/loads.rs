//! Faults of the calls that only read the card.

use plain_card::part::Part;

use super::{fault, Fault, Outcome, Plant};
use crate::call::Call;
use crate::loads::{Load, GENERATION};

pub const FAULTS: &[Fault] = &[
    fault("load: device features count as no part", Plant::Leave(load_features)),
    fault("load: a marked member is refused", Plant::Leave(load_marked)),
    fault("load: whole selector read", Plant::Leave(load_selector)),
    fault("load: a longer buffer is filled in part", Plant::Leave(load_longer)),
    fault("load: the part of the next member", Plant::Leave(load_next)),
    fault("load: a refusal writes", Plant::Leave(load_refused)),
    fault("member: a marked member is told as stopped", Plant::Leave(member_marked)),
    fault("member: get and set objects change places", Plant::Leave(member_kinds)),
    fault("member: bytes held, without the one more", Plant::Leave(member_held)),
    fault("configuration: the generation is not told", Plant::Leave(configuration_generation)),
    fault("setup of a card: always version 1", Plant::Leave(setup_version)),
];

/// The call, if it only reads.
fn load<'a>(outcome: &Outcome<'a>) -> Option<&'a Load> {
    match outcome.call {
        Call::Load(call) => Some(call),
        _ => None,
    }
}

/// The buffer as it was lent.
fn unwritten(outcome: &mut Outcome, answer: usize) {
    for (at, byte) in outcome.reply.iter_mut().enumerate() {
        *byte = crate::memory::pattern(at);
    }
    *outcome.answer = answer;
}

fn load_features(outcome: &mut Outcome) {
    let Some(Load::Part { part_type: 0x100, .. }) = load(outcome) else { return };
    if *outcome.answer == 0 || *outcome.answer == 3 {
        unwritten(outcome, 2);
    }
}

fn load_marked(outcome: &mut Outcome) {
    let Some(Load::Part { member, .. }) = load(outcome) else { return };
    let marked = outcome.cards().is_some_and(|(before, _)| {
        before.setup.has_member(*member) && before.member(*member).marked
    });
    if marked && *outcome.answer == 0 {
        unwritten(outcome, 6);
    }
}

fn load_selector(outcome: &mut Outcome) {
    let Some(Load::Part { part_type, selector, .. }) = load(outcome) else { return };
    let unread = crate::part_bytes::unread_selector(*part_type);
    if *outcome.answer == 0 && selector.to_le_bytes()[unread].iter().any(|byte| *byte != 0) {
        unwritten(outcome, 2);
    }
}

/// The value of the part that a load names, of a member beside it.
fn value(outcome: &mut Outcome, beside: u64) -> Option<Vec<u8>> {
    let Some(Load::Part { member, part_type, selector, .. }) = load(outcome) else { return None };
    let (card, _) = outcome.cards()?;
    let member = member.checked_add(beside).filter(|member| card.setup.has_member(*member))?;
    let record = card.member(member);
    let part = Part::named(*part_type, selector.to_le_bytes(), record.queues)?;
    Some(record.values.get(part).to_vec())
}

fn load_longer(outcome: &mut Outcome) {
    if *outcome.answer != 3 {
        return;
    }
    if let Some(value) = value(outcome, 0).filter(|value| value.len() < outcome.reply.len()) {
        outcome.reply[..value.len()].copy_from_slice(&value);
        *outcome.answer = 0;
    }
}

fn load_next(outcome: &mut Outcome) {
    if *outcome.answer == 0 {
        if let Some(value) = value(outcome, 1) {
            outcome.reply.copy_from_slice(&value);
        }
    }
}

fn load_refused(outcome: &mut Outcome) {
    if let (Some(Load::Part { .. }), 3) = (load(outcome), *outcome.answer) {
        outcome.reply.fill(0);
    }
}

fn member_marked(outcome: &mut Outcome) {
    if let (Some(Load::Member(_)), 0) = (load(outcome), *outcome.answer) {
        outcome.reply[0] = outcome.reply[0].min(1);
    }
}

fn member_kinds(outcome: &mut Outcome) {
    if let (Some(Load::Member(_)), 0) = (load(outcome), *outcome.answer) {
        outcome.reply.swap(2, 3);
    }
}

fn member_held(outcome: &mut Outcome) {
    if let (Some(Load::Member(_)), 0) = (load(outcome), *outcome.answer) {
        let held = u16::from_le_bytes([outcome.reply[4], outcome.reply[5]]);
        outcome.reply[4..6].copy_from_slice(&held.saturating_sub(1).to_le_bytes());
    }
}

fn configuration_generation(outcome: &mut Outcome) {
    if let (Some(Load::Configuration { .. }), 0) = (load(outcome), *outcome.answer) {
        outcome.reply[..GENERATION].fill(0);
    }
}

fn setup_version(outcome: &mut Outcome) {
    if let (Some(Load::Setup(_)), 20..) = (load(outcome), *outcome.answer) {
        outcome.reply[0] = outcome.reply[0] & 0x0f | 0x10;
    }
}
