//! Faults of a reset in two halves (request 10 of document 02).

use plain_card::bytes::{HELD, MARK, MODE, OBJECTS};
use plain_card::configuration::Configuration;
use plain_card::frame::Frame;
use plain_card::holding::Holding;
use plain_card::member::{Member, Mode};
use plain_card::opcode::Opcode;
use plain_card::operation::Command;
use plain_card::status::{restore_answer, Refusal, RestoreError};
use plain_card::values::Values;
use plain_card::Card;

use super::soundness::records;
use super::tools::opcode;
use super::{breaking, fault, Fault, Outcome, Plant, Property};
use crate::call::Call;

const ISOLATION: &[Property] = &[Property::Isolation];

pub const FAULTS: &[Fault] = &[
    fault("halves: wipe of an unmarked member done", Plant::Leave(wipe_unmarked)),
    fault("halves: hand back of a marked member done", Plant::Leave(hand_back_marked)),
    fault("halves: 6 before 1", Plant::Leave(order_before_member)),
    fault("halves: hand back keeps an object", Plant::Leave(keeps_object)),
    fault("halves: hand back leaves the member running", Plant::Leave(keeps_running)),
    fault("halves: hand back does not mark", Plant::Leave(no_mark)),
    fault("halves: hand back clears the parts", Plant::Leave(clears_parts)),
    fault("halves: hand back clears the configuration", Plant::Leave(clears_bytes)),
    fault("halves: hand back moves the generation", Plant::Leave(moves_generation)),
    fault("halves: a wipe leaves the mark", Plant::Leave(wipe_leaves_mark)),
    fault("halves: card reset leaves marks", Plant::Leave(card_leaves_marks)),
    fault("halves: card reset leaves marked members", Plant::Leave(card_leaves_marked)),
    fault("halves: 11/7 before the opcode's test", Plant::Refuse(mark_before_opcode)),
    fault("halves: fields before 11/7", Plant::Refuse(fields_before_mark)),
    fault("halves: objects before 11/7", Plant::Refuse(objects_before_mark)),
    fault("halves: mode set of a marked member done", Plant::Leave(mode_set_done)),
    fault("halves: list commands refused", Plant::Refuse(list_refused)),
    fault("halves: 11/7 for every member", Plant::Refuse(all_refused)),
    fault("halves: a card store refused", Plant::Leave(store_refused)),
    breaking(ISOLATION, "halves: a store kept in another member", Plant::Leave(store_elsewhere)),
    fault("halves: a message reaches a marked member", Plant::Leave(message_reaches)),
    fault("halves: a restore begun on a marked member", Plant::Leave(begun)),
    fault("halves: 6/1 before 11/7 in a restore", Plant::Leave(nothing_begun_first)),
    fault("halves: 11/7 before 22/5 in a restore", Plant::Leave(mark_before_member)),
    fault("sound: mark over 1 is none", Plant::Repair(mark_byte)),
    fault("sound: a marked member that runs", Plant::Repair(marked_running)),
    fault("sound: a marked member with objects", Plant::Repair(marked_objects)),
    fault("sound: a marked member with a place", Plant::Repair(marked_place)),
    fault("is sound: mark not looked at", Plant::IsSound(mark_unread)),
    fault("is sound: an open empty place counts as none", Plant::IsSound(empty_place)),
];

/// The record of a marked member, if the card is sound and has it.
fn marked(card: &Card, member: u64) -> Option<&Member> {
    let has = card.is_sound() && card.setup.has_member(member);
    has.then(|| card.member(member)).filter(|record| record.marked)
}

/// The frame of a request for a marked member, once the group is right.
fn framed<'a>(card: &Card, request: &'a [u8]) -> Option<Frame<'a>> {
    let frame = Frame::read(request).ok()?;
    frame.check_group_type().ok()?;
    marked(card, frame.member).map(|_| frame)
}

fn wipe_unmarked(outcome: &mut Outcome) {
    let (Call::Wipe { member, generation }, 6) = (outcome.call, *outcome.answer) else { return };
    if let Some((_, after)) = outcome.cards() {
        let queues = after.member(*member).queues;
        *after.member_mut(*member) = Member::fresh(&after.setup, queues, *generation);
        *outcome.answer = 0;
    }
}

fn hand_back_marked(outcome: &mut Outcome) {
    if let (Call::HandBack(_), 6) = (outcome.call, *outcome.answer) {
        *outcome.answer = 0;
    }
}

fn order_before_member(outcome: &mut Outcome) {
    if let (Call::Wipe { .. }, 1) = (outcome.call, *outcome.answer) {
        *outcome.answer = 6;
    }
}

fn keeps_object(outcome: &mut Outcome) {
    if let Some((before, after)) = outcome.handed_back() {
        after.objects = before.objects.clone();
    }
}

fn keeps_running(outcome: &mut Outcome) {
    if let Some((_, after)) = outcome.handed_back() {
        after.mode = Mode::Running;
    }
}

fn no_mark(outcome: &mut Outcome) {
    if let Some((_, after)) = outcome.handed_back() {
        after.marked = false;
    }
}

fn clears_parts(outcome: &mut Outcome) {
    if let Some((before, after)) = outcome.handed_back() {
        let device_features = before.values.device_features;
        after.values = Values { device_features, ..Values::default() };
    }
}

fn clears_bytes(outcome: &mut Outcome) {
    if let Some((before, after)) = outcome.handed_back() {
        after.configuration = Configuration::fresh(before.configuration.generation);
    }
}

fn moves_generation(outcome: &mut Outcome) {
    if let Some((before, after)) = outcome.handed_back() {
        after.configuration.generation = before.configuration.generation.wrapping_add(1);
    }
}

fn wipe_leaves_mark(outcome: &mut Outcome) {
    if let Some((_, after, member)) = outcome.wiped() {
        after.member_mut(member).hand_back();
    }
}

fn card_leaves_marks(outcome: &mut Outcome) {
    if let Some((before, after)) = outcome.card_reset() {
        for (after, before) in after.members.iter_mut().zip(&before.members) {
            if before.marked {
                after.hand_back();
            }
        }
    }
}

fn card_leaves_marked(outcome: &mut Outcome) {
    if let Some((before, after)) = outcome.card_reset() {
        for (after, before) in after.members.iter_mut().zip(&before.members) {
            if before.marked {
                *after = before.clone();
            }
        }
    }
}

fn mark_before_opcode(card: &Card, request: &[u8], _: usize) -> Option<Refusal> {
    let frame = framed(card, request)?;
    (0x0a..=0x11).contains(&frame.opcode).then_some(Refusal::Marked)
}

fn fields_before_mark(card: &Card, request: &[u8], _: usize) -> Option<Refusal> {
    framed(card, request)?;
    let (frame, opcode) = opcode(card, request)?;
    Command::read(opcode, frame.data, &card.setup).err()
}

/// A marked member has no live object, so most commands are refused for that.
fn objects_before_mark(card: &Card, request: &[u8], _: usize) -> Option<Refusal> {
    framed(card, request)?;
    let (_, opcode) = opcode(card, request)?;
    let needs = opcode.names_member() && ![Opcode::Create, Opcode::ModeSet].contains(&opcode);
    needs.then_some(Refusal::IdNotLive)
}

fn mode_set_done(outcome: &mut Outcome) {
    let Call::Command { request, .. } = outcome.call else { return };
    let refused = outcome.status() == Some(Refusal::Marked.numbers());
    let Some((before, _)) = outcome.cards() else { return };
    let mode_set = matches!(opcode(before, request), Some((_, Opcode::ModeSet)));
    if refused && mode_set && framed(before, request).is_some() {
        outcome.reply[..8].fill(0);
    }
}

fn list_refused(card: &Card, request: &[u8], _: usize) -> Option<Refusal> {
    framed(card, request).map(|_| Refusal::Marked)
}

fn all_refused(card: &Card, request: &[u8], _: usize) -> Option<Refusal> {
    let (frame, opcode) = opcode(card, request)?;
    frame.check_member(opcode, &card.setup).ok()?;
    let any = opcode.names_member() && card.members.iter().any(|record| record.marked);
    any.then_some(Refusal::Marked)
}

/// Whether the call is a store in a marked member that was done.
fn stored(outcome: &mut Outcome) -> bool {
    let (Call::Store { member, .. }, true) = (outcome.call, outcome.done()) else { return false };
    outcome.cards().is_some_and(|(before, _)| marked(before, *member).is_some())
}

fn store_refused(outcome: &mut Outcome) {
    if stored(outcome) {
        *outcome.after = outcome.before.clone();
        *outcome.answer = 6;
    }
}

/// What is stored in a marked member stands in the first one too.
fn store_elsewhere(outcome: &mut Outcome) {
    let Call::Store { member, .. } = *outcome.call else { return };
    if stored(outcome) {
        if let Some((_, after)) = outcome.cards() {
            after.members[0].values.queue_select = after.member(member).values.queue_select;
        }
    }
}

fn message_reaches(outcome: &mut Outcome) {
    let (Call::Message { message, .. }, 0) = (outcome.call, *outcome.answer) else { return };
    let mut reply = outcome.reply.to_vec();
    let Some((before, after)) = outcome.cards() else { return };
    let mut unmarked = before.clone();
    unmarked.members.iter_mut().for_each(|record| record.marked = false);
    let written = plain_card::message(&mut unmarked, message, &mut reply);
    for (after, other) in after.members.iter_mut().zip(unmarked.members) {
        after.configuration = other.configuration;
    }
    outcome.reply.copy_from_slice(&reply);
    *outcome.answer = written;
}

/// Whether the call is one of a restore for a marked member.
fn restored(outcome: &mut Outcome) -> bool {
    let Some(member) = outcome.call.restored() else { return false };
    outcome.cards().is_some_and(|(before, _)| marked(before, member).is_some())
}

fn begun(outcome: &mut Outcome) {
    let Call::Begin(member) = *outcome.call else { return };
    if restored(outcome) {
        if let Some((_, after)) = outcome.cards() {
            after.member_mut(member).holding = Holding { held: Some(0), ..Holding::default() };
        }
        *outcome.answer = 0;
    }
}

fn nothing_begun_first(outcome: &mut Outcome) {
    if !matches!(outcome.call, Call::Begin(_)) && restored(outcome) {
        *outcome.answer = restore_answer(Err(RestoreError::NothingBegun)) as usize;
    }
}

/// A member that the card has not got counts as one that is handed back.
fn mark_before_member(outcome: &mut Outcome) {
    let no_member = restore_answer(Err(RestoreError::NoMember)) as usize;
    if outcome.call.restored().is_some() && *outcome.answer == no_member {
        *outcome.answer = restore_answer(Err(RestoreError::Marked)) as usize;
    }
}

fn mark_byte(card: &mut Vec<u8>) {
    records(card).filter(|record| record[MARK] > 1).for_each(|record| record[MARK] = 0);
}

/// The records with a mark.
fn marked_records(card: &mut [u8]) -> impl Iterator<Item = &mut [u8]> {
    records(card).filter(|record| record[MARK] == 1)
}

fn marked_running(card: &mut Vec<u8>) {
    marked_records(card).for_each(|record| record[MODE] = 1);
}

fn marked_objects(card: &mut Vec<u8>) {
    marked_records(card).for_each(|record| record[OBJECTS..HELD].fill(0));
}

fn marked_place(card: &mut Vec<u8>) {
    marked_records(card).for_each(|record| record[HELD..HELD + 2].fill(0));
}

fn mark_unread(card: &mut Vec<u8>) {
    records(card).for_each(|record| record[MARK] = 0);
}

fn empty_place(card: &mut Vec<u8>) {
    let empty = |record: &&mut [u8]| record[HELD..HELD + 2] == [1, 0];
    marked_records(card).filter(empty).for_each(|record| record[HELD] = 0);
}
