//! Faults of a restore in fragments (request 6 of document 02).

use plain_card::holding::{Holding, ROOM};
use plain_card::member::Mode;
use plain_card::opcode::SUPPORTED;
use plain_card::operation::Operation;
use plain_card::status::{restore_answer, Refusal, RestoreError};
use plain_card::Card;

use super::{breaking, fault, Fault, Outcome, Plant, Property};
use crate::call::Call;

const FRAGMENTS: &[Property] = &[Property::Fragments];
const ISOLATION: &[Property] = &[Property::Isolation];
const EXCHANGE: &[Property] = &[Property::Exchange];

pub const FAULTS: &[Fault] = &[
    breaking(FRAGMENTS, "restore: finish keeps the place", Plant::Leave(finish_keeps)),
    breaking(FRAGMENTS, "restore: a refused finish keeps the place", Plant::Leave(refused_keeps)),
    breaking(FRAGMENTS, "restore: a stale byte left behind", Plant::Leave(stale_byte)),
    fault("restore: drop leaves the bytes", Plant::Leave(drop_leaves)),
    fault("restore: a feed keeps what fitted", Plant::Leave(feed_keeps_fitting)),
    fault("restore: a feed too long keeps the place", Plant::Leave(feed_keeps)),
    fault("restore: an empty feed at 1,024 refused", Plant::Leave(empty_feed)),
    fault("restore: fragment length cut to 16 bits", Plant::Replace(length_cut)),
    breaking(FRAGMENTS, "restore: joined in another order", Plant::Leave(feed_ahead)),
    breaking(FRAGMENTS, "restore: place of a feed cut to 8 bits", Plant::Leave(feed_wraps)),
    fault("restore: begin on an open place empties it", Plant::Leave(begin_empties)),
    fault("restore: begin on an open place accepted", Plant::Leave(begin_again)),
    fault("restore: begin wants a stopped member", Plant::Leave(begin_stopped)),
    breaking(FRAGMENTS, "restore: an empty place counts as none", Plant::Leave(empty_is_none)),
    fault("restore: length before nothing begun", Plant::Leave(length_first)),
    fault("restore: id before nothing begun", Plant::Leave(id_first)),
    fault("restore: member cut to 8 bits", Plant::Replace(member_cut)),
    breaking(FRAGMENTS, "restore: list in use not looked at", Plant::Leave(not_in_use)),
    breaking(FRAGMENTS, "restore: set on a running member", Plant::Leave(running)),
    breaking(FRAGMENTS, "restore: parts ahead of a bad one set", Plant::Leave(part_way)),
    fault("restore: parts set drops the place", Plant::Leave(set_drops)),
    fault("restore: destroy drops the place", Plant::Leave(destroy_drops)),
    fault("restore: hand back keeps the place", Plant::Leave(hand_back_keeps)),
    fault("restore: hand back keeps the bytes", Plant::Leave(hand_back_keeps_bytes)),
    breaking(ISOLATION, "restore: a wipe keeps the bytes", Plant::Leave(wipe_keeps_bytes)),
    breaking(ISOLATION, "restore: card reset keeps the place", Plant::Leave(card_keeps)),
    breaking(EXCHANGE, "restore: one place for the whole card", Plant::Leave(one_place)),
    breaking(EXCHANGE, "restore: begin drops those of others", Plant::Leave(begin_drops_others)),
];

/// The answer of a restore that is refused so.
fn refused(error: RestoreError) -> usize {
    restore_answer(Err(error)) as usize
}

/// The cards before and after a call of a restore on a sound card, and its
/// member, which the card has and which is not handed back.
fn restored<'a>(outcome: &'a mut Outcome) -> Option<(&'a Card, &'a mut Card, u64)> {
    let member = outcome.call.restored()?;
    let (before, after) = outcome.cards()?;
    let has = before.is_sound() && before.setup.has_member(member);
    let reached = has && !before.member(member).marked;
    reached.then_some((before, after, member))
}

/// The same with the place before and after, which was open.
fn begun<'a>(outcome: &'a mut Outcome) -> Option<(&'a Holding, &'a mut Holding)> {
    let (before, after, member) = restored(outcome)?;
    let before = &before.member(member).holding;
    before.held.map(|_| (before, &mut after.member_mut(member).holding))
}

fn finish_keeps(outcome: &mut Outcome) {
    if let (Call::Finish { .. }, Some((before, after))) = (outcome.call, begun(outcome)) {
        *after = before.clone();
    }
}

fn refused_keeps(outcome: &mut Outcome) {
    if *outcome.answer != 0 {
        finish_keeps(outcome);
    }
}

/// The last byte held stays where it was.
fn stale_byte(outcome: &mut Outcome) {
    if let (Call::Finish { .. }, Some((before, after))) = (outcome.call, begun(outcome)) {
        if let Some(last @ 1..) = before.held {
            let last = usize::from(last) - 1;
            after.room[last] = before.room[last];
        }
    }
}

fn drop_leaves(outcome: &mut Outcome) {
    if let (Call::Drop(_), Some((before, after))) = (outcome.call, begun(outcome)) {
        after.room = before.room;
    }
}

/// The place before and after a feed that is too long.
fn too_long<'a>(outcome: &'a mut Outcome) -> Option<(&'a Holding, &'a mut Holding, &'a [u8])> {
    let Call::Feed { fragment, .. } = outcome.call else { return None };
    let long = *outcome.answer == refused(RestoreError::TooLong);
    let (before, after) = begun(outcome).filter(|_| long)?;
    Some((before, after, fragment))
}

fn feed_keeps_fitting(outcome: &mut Outcome) {
    if let Some((before, after, fragment)) = too_long(outcome) {
        *after = before.clone();
        after.add(&fragment[..ROOM - usize::from(before.held.unwrap_or(0))]);
    }
}

fn feed_keeps(outcome: &mut Outcome) {
    if let Some((before, after, _)) = too_long(outcome) {
        *after = before.clone();
    }
}

fn empty_feed(outcome: &mut Outcome) {
    let Call::Feed { fragment, .. } = outcome.call else { return };
    let full = |(before, _): (&Holding, &mut Holding)| before.held == Some(ROOM as u16);
    if fragment.is_empty() && begun(outcome).is_some_and(full) {
        if let Some((_, after)) = begun(outcome) {
            *after = Holding::default();
        }
        *outcome.answer = refused(RestoreError::TooLong);
    }
}

fn length_cut(call: &mut Call) {
    if let Call::Feed { fragment, .. } = call {
        fragment.bytes.truncate(fragment.len() & 0xffff);
    }
}

/// The place before and after a feed that is done.
fn fed<'a>(outcome: &'a mut Outcome) -> Option<(&'a Holding, &'a mut Holding, &'a [u8])> {
    let Call::Feed { fragment, .. } = outcome.call else { return None };
    let done = *outcome.answer == 0;
    let (before, after) = begun(outcome).filter(|_| done)?;
    Some((before, after, fragment))
}

/// A fragment is put ahead of the bytes held.
fn feed_ahead(outcome: &mut Outcome) {
    if let Some((before, after, fragment)) = fed(outcome) {
        let joined = [fragment, before.bytes().unwrap_or_default()].concat();
        after.room[..joined.len()].copy_from_slice(&joined);
    }
}

/// A fragment is put where the low 8 bits of the length held say.
fn feed_wraps(outcome: &mut Outcome) {
    if let Some((before, after, fragment)) = fed(outcome) {
        let at = usize::from(before.held.unwrap_or(0)) & 0xff;
        after.room = before.room;
        after.room[at..at + fragment.len()].copy_from_slice(fragment);
    }
}

/// Refused all the same.
fn begin_empties(outcome: &mut Outcome) {
    if let (Call::Begin(_), Some((_, after))) = (outcome.call, begun(outcome)) {
        *after = Holding { held: Some(0), ..Holding::default() };
    }
}

fn begin_again(outcome: &mut Outcome) {
    if let (Call::Begin(_), Some(_)) = (outcome.call, begun(outcome)) {
        *outcome.answer = 0;
    }
}

fn begin_stopped(outcome: &mut Outcome) {
    let runs =
        |(before, _, member): (&Card, &mut Card, u64)| before.member(member).mode == Mode::Running;
    if matches!(outcome.call, Call::Begin(_)) && restored(outcome).is_some_and(runs) {
        *outcome.after = outcome.before.clone();
        *outcome.answer = refused(RestoreError::Set(Refusal::Running));
    }
}

fn empty_is_none(outcome: &mut Outcome) {
    let empty = |(before, _): (&Holding, &mut Holding)| before.held == Some(0);
    if matches!(outcome.call, Call::Finish { .. }) && begun(outcome).is_some_and(empty) {
        *outcome.after = outcome.before.clone();
        *outcome.answer = refused(RestoreError::NothingBegun);
    }
}

/// Whether nothing was begun on a member that the card has.
fn nothing_begun(outcome: &mut Outcome) -> bool {
    restored(outcome).is_some() && begun(outcome).is_none()
}

fn length_first(outcome: &mut Outcome) {
    let Call::Feed { fragment, .. } = outcome.call else { return };
    if fragment.len() > ROOM && nothing_begun(outcome) {
        *outcome.answer = refused(RestoreError::TooLong);
    }
}

fn id_first(outcome: &mut Outcome) {
    let Call::Finish { id, .. } = outcome.call else { return };
    let bad = |(before, _, _): (&Card, &mut Card, u64)| !before.setup.has_id(*id);
    if nothing_begun(outcome) && restored(outcome).is_some_and(bad) {
        *outcome.answer = refused(RestoreError::Set(Refusal::Field));
    }
}

fn member_cut(call: &mut Call) {
    if let Call::Begin(member)
    | Call::Feed { member, .. }
    | Call::Finish { member, .. }
    | Call::Drop(member) = call
    {
        *member &= 0xff;
    }
}

/// Finish goes by another card than it is given, and what it sets stands in
/// that one.
fn finish_on(outcome: &mut Outcome, error: Refusal, change: fn(&mut Card, u64)) {
    let Call::Finish { member, id } = *outcome.call else { return };
    if *outcome.answer != refused(RestoreError::Set(error)) {
        return;
    }
    let Some((before, after, _)) = restored(outcome) else { return };
    let mut other = before.clone();
    change(&mut other, member);
    let answer = restore_answer(other.restore_finish(member, id)) as usize;
    after.member_mut(member).values = other.member(member).values.clone();
    *outcome.answer = answer;
}

fn not_in_use(outcome: &mut Outcome) {
    finish_on(outcome, Refusal::Opcode, |card, _| card.in_use = SUPPORTED);
}

fn running(outcome: &mut Outcome) {
    finish_on(outcome, Refusal::Running, |card, member| {
        card.member_mut(member).mode = Mode::Stopped;
    });
}

/// Of a bad list that starts with device status, this is set.
fn part_way(outcome: &mut Outcome) {
    let Call::Finish { member, .. } = *outcome.call else { return };
    if *outcome.answer != refused(RestoreError::Set(Refusal::BadList)) {
        return;
    }
    let Some((before, after, _)) = restored(outcome) else { return };
    if let Some([3, 1, _, _, .., status]) =
        before.member(member).holding.bytes().and_then(|list| list.get(..17))
    {
        after.member_mut(member).values.device_status = [*status];
    }
}

/// Drops the place of a member.
fn end(outcome: &mut Outcome, member: u64) {
    if let (true, Some((_, after))) = (outcome.succeeded(), outcome.cards()) {
        after.member_mut(member).holding = Holding::default();
    }
}

fn set_drops(outcome: &mut Outcome) {
    if let Some((member, Operation::PartsSet(..))) = outcome.operation() {
        end(outcome, member);
    }
}

fn destroy_drops(outcome: &mut Outcome) {
    if let Some((member, Operation::Destroy(_))) = outcome.operation() {
        end(outcome, member);
    }
}

fn hand_back_keeps(outcome: &mut Outcome) {
    if let Some((before, after)) = outcome.handed_back() {
        after.holding = before.holding.clone();
    }
}

fn hand_back_keeps_bytes(outcome: &mut Outcome) {
    if let Some((before, after)) = outcome.handed_back() {
        after.holding.room = before.holding.room;
    }
}

fn wipe_keeps_bytes(outcome: &mut Outcome) {
    if let Some((before, after, member)) = outcome.wiped() {
        after.member_mut(member).holding.room = before.member(member).holding.room;
    }
}

fn card_keeps(outcome: &mut Outcome) {
    if let Some((before, after)) = outcome.card_reset() {
        for (after, before) in after.members.iter_mut().zip(&before.members) {
            after.holding = before.holding.clone();
        }
    }
}

/// Begin is refused while any member has an open place.
fn one_place(outcome: &mut Outcome) {
    let open = |(before, _, _): (&Card, &mut Card, u64)| {
        before.members.iter().any(|record| record.holding.held.is_some())
    };
    if matches!(outcome.call, Call::Begin(_)) && restored(outcome).is_some_and(open) {
        *outcome.after = outcome.before.clone();
        *outcome.answer = refused(RestoreError::AlreadyBegun);
    }
}

fn begin_drops_others(outcome: &mut Outcome) {
    let Call::Begin(member) = *outcome.call else { return };
    let done = *outcome.answer == 0;
    if let Some((_, after, _)) = restored(outcome).filter(|_| done) {
        for (other, record) in (1..).zip(&mut after.members) {
            if other != member {
                record.holding = Holding::default();
            }
        }
    }
}
