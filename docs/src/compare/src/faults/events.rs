//! Faults of setup, wipe, reset of the card and card store.

use plain_card::bytes::{HEADER, RECORD};
use plain_card::card::Card;
use plain_card::member::Mode;
use plain_card::opcode::FRESH;
use plain_card::part::Part;

use super::{breaking, fault, Fault, Outcome, Plant, Property};
use crate::call::Call;
use crate::device::Plain;
use crate::memory::pattern;

pub const FAULTS: &[Fault] = &[
    breaking(
        &[Property::Isolation],
        "trade: a wipe keeps queue addresses",
        Plant::Leave(wipe_keeps_queues),
    ),
    fault("trade: a wipe clears the list in use", Plant::Leave(wipe_clears_list)),
    fault("wipe: the member stays stopped", Plant::Leave(wipe_keeps_mode)),
    breaking(
        &[Property::Isolation],
        "wipe: members past the 8th keep their status",
        Plant::Leave(wipe_past_8),
    ),
    breaking(
        &[Property::Isolation],
        "wipe: member 16 keeps its notify values",
        Plant::Leave(wipe_16),
    ),
    fault("wipe: the next member too", Plant::Leave(wipe_next)),
    fault("reset: whole card keeps the list in use", Plant::Leave(card_keeps_list)),
    fault("wipe: queues beyond Q kept", Plant::Leave(wipe_keeps_beyond)),
    fault("store: refused while running", Plant::Leave(store_running)),
    fault("store: device features set", Plant::Leave(store_features)),
    fault("store: whole selector read", Plant::Leave(store_selector)),
    fault("store: short value accepted", Plant::Leave(store_short)),
    breaking(&[Property::Isolation], "store: the next member too", Plant::Leave(store_next)),
    fault("setup: refused without zeros", Plant::Leave(setup_without_zeros)),
    fault("setup: numbers cut to 8 bits", Plant::Replace(setup_cut)),
    fault("card bytes: a length for 17 members", Plant::Leave(length_of_17)),
];

fn wipe_keeps_queues(outcome: &mut Outcome) {
    if let Some((before, after, member)) = outcome.wiped() {
        after.member_mut(member).values.queues = before.member(member).values.queues;
    }
}

fn wipe_clears_list(outcome: &mut Outcome) {
    if let Some((_, after, _)) = outcome.wiped() {
        after.in_use = FRESH;
    }
}

fn wipe_keeps_mode(outcome: &mut Outcome) {
    if let Some((before, after, member)) = outcome.wiped() {
        after.member_mut(member).mode = before.member(member).mode;
    }
}

fn wipe_past_8(outcome: &mut Outcome) {
    if let Some((before, after, member @ 9..)) = outcome.wiped() {
        after.member_mut(member).values.device_status = before.member(member).values.device_status;
    }
}

fn wipe_16(outcome: &mut Outcome) {
    if let Some((before, after, 16)) = outcome.wiped() {
        after.member_mut(16).values.notifies = before.member(16).values.notifies;
    }
}

fn wipe_next(outcome: &mut Outcome) {
    if let Some((_, after, member)) = outcome.wiped() {
        if after.setup.has_member(member + 1) {
            *after.member_mut(member + 1) = after.member(member).clone();
        }
    }
}

fn card_keeps_list(outcome: &mut Outcome) {
    if let Some((before, after)) = outcome.card_reset() {
        after.in_use = before.in_use;
    }
}

fn wipe_keeps_beyond(outcome: &mut Outcome) {
    if let Some((before, after, member)) = outcome.wiped() {
        let queues = usize::from(after.member(member).queues);
        let old = &before.member(member).values;
        let new = &mut after.member_mut(member).values;
        new.queues[queues..].copy_from_slice(&old.queues[queues..]);
    }
}

/// The cards before and after a store that was done, with its member.
fn stored<'a>(outcome: &'a mut Outcome) -> Option<(&'a Card, &'a mut Card, u64)> {
    let Call::Store { member, .. } = outcome.call else { return None };
    let done = outcome.done();
    outcome.cards().filter(|_| done).map(|(before, after)| (before, after, *member))
}

fn store_running(outcome: &mut Outcome) {
    let running =
        |(before, _, member): (&Card, &mut Card, u64)| before.member(member).mode == Mode::Running;
    if stored(outcome).is_some_and(running) {
        *outcome.after = outcome.before.clone();
        *outcome.answer = 2;
    }
}

fn store_features(outcome: &mut Outcome) {
    let Call::Store { member, part_type: 0x100, value, .. } = outcome.call else { return };
    if *outcome.answer == 2 && value.len() == 16 {
        if let Some((_, after)) = outcome.cards() {
            after.member_mut(*member).values.get_mut(Part::DeviceFeatures).copy_from_slice(value);
            *outcome.answer = 0;
        }
    }
}

fn store_selector(outcome: &mut Outcome) {
    let Call::Store { part_type, selector, .. } = outcome.call else { return };
    let unread = crate::part_bytes::unread_selector(*part_type);
    if outcome.done() && selector.to_le_bytes()[unread].iter().any(|byte| *byte != 0) {
        *outcome.after = outcome.before.clone();
        *outcome.answer = 2;
    }
}

fn store_short(outcome: &mut Outcome) {
    let Call::Store { member, part_type, selector, value } = outcome.call else { return };
    if *outcome.answer == 3 {
        if let Some((_, after)) = outcome.cards() {
            let selector = selector.to_le_bytes();
            let queues = after.member(*member).queues;
            let Some(part) = Part::named(*part_type, selector, queues) else { return };
            let target = after.member_mut(*member).values.get_mut(part);
            if value.len() < target.len() {
                target[..value.len()].copy_from_slice(value);
                *outcome.answer = 0;
            }
        }
    }
}

fn store_next(outcome: &mut Outcome) {
    if let Some((_, after, member)) = stored(outcome) {
        if after.setup.has_member(member + 1) {
            let values = after.member(member).values.clone();
            after.member_mut(member + 1).values = values;
        }
    }
}

fn setup_without_zeros(outcome: &mut Outcome) {
    let (Call::Setup { card, .. } | Call::SetupFrom { card, .. }) = outcome.call else { return };
    if *outcome.answer == 4 {
        let bytes: Vec<u8> = (0..card.length).map(pattern).collect();
        *outcome.after = Plain::from_bytes(&bytes);
    }
}

fn setup_cut(call: &mut Call) {
    if let Call::Setup { numbers, .. } | Call::WriteSetup { numbers, .. } = call {
        *numbers = numbers.map(|number| number & 0xff);
    }
}

fn length_of_17(outcome: &mut Outcome) {
    if let Call::CardBytes(17) = outcome.call {
        *outcome.answer = HEADER + 17 * RECORD;
    }
}
