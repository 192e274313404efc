//! Faults of configuration by message (request 3 of document 02): what is read
//! and written, and the generation.

use plain_card::configuration::{Configuration, LENGTH};
use plain_card::member::Mode;
use plain_card::message::{Asked, Message};
use plain_card::Card;

use super::{breaking, fault, Fault, Outcome, Plant, Property};
use crate::call::Call;

const ISOLATION: &[Property] = &[Property::Isolation];
const EXCHANGE: &[Property] = &[Property::Exchange];

pub const FAULTS: &[Fault] = &[
    fault("message: a stale write applied", Plant::Leave(stale_applied)),
    fault("message: generation compared in 16 bits", Plant::Leave(stale_cut)),
    fault("message: a refused write moves it", Plant::Leave(refused_moves)),
    fault("message: a read moves the generation", Plant::Leave(read_moves)),
    fault("message: length 0 moves the generation", Plant::Leave(empty_moves)),
    fault("message: the same bytes do not move it", Plant::Leave(same_stays)),
    fault("message: the last generation stays", Plant::Leave(last_stays)),
    fault("message: generation before the write told", Plant::Leave(generation_before)),
    fault("message: a read past byte 12 is cut", Plant::Leave(read_cut)),
    fault("message: a write past byte 12 is cut", Plant::Leave(write_cut)),
    fault("message: offset + length wraps at 32 bits", Plant::Leave(sum_wraps)),
    fault("message: refused by a stopped member", Plant::Leave(stopped_refused)),
    fault("message: applied without room to answer", Plant::Leave(applied_unanswered)),
    fault("message: a store moves the generation", Plant::Leave(store_moves)),
    breaking(ISOLATION, "message: a wipe keeps the generation", Plant::Leave(wipe_keeps)),
    breaking(ISOLATION, "message: a wipe keeps the bytes", Plant::Leave(wipe_keeps_bytes)),
    breaking(ISOLATION, "message: a wipe adds to the generation", Plant::Leave(wipe_adds)),
    breaking(ISOLATION, "message: card reset keeps the bytes", Plant::Leave(card_keeps)),
    fault("message: card reset, member 1 alone", Plant::Leave(card_first)),
    breaking(EXCHANGE, "message: one generation for the card", Plant::Leave(one_generation)),
    breaking(ISOLATION, "message: the next member written too", Plant::Leave(written_next)),
];

/// The cards before and after a message that is answered, and the message.
fn answered<'a>(outcome: &'a mut Outcome) -> Option<(&'a Card, &'a mut Card, Message<'a>)> {
    let Call::Message { message, .. } = outcome.call else { return None };
    let message = Message::read(message).filter(|_| *outcome.answer != 0)?;
    outcome.cards().map(|(before, after)| (before, after, message))
}

/// The configuration before and after such a message, and what is asked.
fn configured<'a>(
    outcome: &'a mut Outcome,
) -> Option<(&'a Configuration, &'a mut Configuration, Asked<'a>)> {
    let (before, after, message) = answered(outcome)?;
    let before = &before.member(message.member()).configuration;
    Some((before, &mut after.member_mut(message.member()).configuration, message.asked))
}

/// Hears another message, on another card, in place of one that is answered.
fn hear_instead(outcome: &mut Outcome, mut card: Card, message: &[u8]) {
    let mut reply = outcome.reply.to_vec();
    let written = plain_card::message(&mut card, message, &mut reply);
    if let (1.., Some((_, after))) = (written, outcome.cards()) {
        *after = card;
        outcome.reply.copy_from_slice(&reply);
        *outcome.answer = written;
    }
}

/// A write is taken as one with the current generation if the rule, which is
/// given both, says so.
fn taken_as_current(outcome: &mut Outcome, rule: fn(u32, u32) -> bool) {
    let Call::Message { message, .. } = outcome.call else { return };
    let Some((before, _, heard)) = answered(outcome) else { return };
    let Asked::Write(sent, ..) = heard.asked else { return };
    let now = before.member(heard.member()).configuration.generation;
    if rule(sent, now) {
        let card = before.clone();
        let mut message = message.bytes.clone();
        message[8..12].copy_from_slice(&now.to_le_bytes());
        hear_instead(outcome, card, &message);
    }
}

fn stale_applied(outcome: &mut Outcome) {
    taken_as_current(outcome, |_, _| true);
}

fn stale_cut(outcome: &mut Outcome) {
    taken_as_current(outcome, |sent, now| sent & 0xffff == now & 0xffff);
}

/// Moves the generation of a response that has no data, or of any.
fn moves(outcome: &mut Outcome, rule: fn(Asked) -> bool) {
    let refused = *outcome.answer == 20;
    if let Some((before, after, asked)) = configured(outcome) {
        if rule(asked) && (refused || matches!(asked, Asked::Read(..))) {
            after.generation = before.generation.wrapping_add(1);
        }
    }
}

fn refused_moves(outcome: &mut Outcome) {
    moves(outcome, |asked| matches!(asked, Asked::Write(_, _, [_, ..])));
}

fn read_moves(outcome: &mut Outcome) {
    moves(outcome, |asked| matches!(asked, Asked::Read(..)));
}

fn empty_moves(outcome: &mut Outcome) {
    moves(outcome, |asked| matches!(asked, Asked::Write(_, _, [])));
}

fn same_stays(outcome: &mut Outcome) {
    if let Some((before, after, _)) = configured(outcome) {
        if before.bytes == after.bytes {
            after.generation = before.generation;
        }
    }
}

fn last_stays(outcome: &mut Outcome) {
    if let Some((before, after, _)) = configured(outcome) {
        if before.generation == u32::MAX {
            after.generation = u32::MAX;
        }
    }
}

fn generation_before(outcome: &mut Outcome) {
    if let Some((before, _, _)) = configured(outcome) {
        let generation = before.generation.to_le_bytes();
        outcome.reply[8..12].copy_from_slice(&generation);
    }
}

/// How many bytes there are from an offset on, if fewer than asked.
fn cut(offset: u32, length: usize) -> Option<usize> {
    let room = LENGTH.checked_sub(offset as usize)?;
    (length > room).then_some(room)
}

/// A read tells the bytes up to the end.
fn read_cut(outcome: &mut Outcome) {
    let Call::Message { message, .. } = outcome.call else { return };
    let Some((before, _, heard)) = answered(outcome) else { return };
    let Asked::Read(offset, length) = heard.asked else { return };
    if let Some(room) = cut(offset, length as usize) {
        let card = before.clone();
        let mut message = message.bytes.clone();
        message[12..16].copy_from_slice(&(room as u32).to_le_bytes());
        hear_instead(outcome, card, &message);
    }
}

/// A write sets the bytes up to the end.
fn write_cut(outcome: &mut Outcome) {
    if let Some((before, after, Asked::Write(generation, offset, data))) = configured(outcome) {
        if let Some(room) = cut(offset, data.len()).filter(|_| generation == before.generation) {
            after.bytes[LENGTH - room..].copy_from_slice(&data[..room]);
        }
    }
}

/// A range whose end wraps to one inside the configuration is told as zeros.
fn sum_wraps(outcome: &mut Outcome) {
    let Some((_, _, Asked::Read(offset, length))) = configured(outcome) else { return };
    let inside = offset.checked_add(length).is_none() && offset.wrapping_add(length) <= 12;
    let end = 20 + length as usize;
    if inside && length <= 12 && end <= outcome.reply.len() {
        outcome.reply[6] = end as u8;
        outcome.reply[16] = length as u8;
        outcome.reply[20..end].fill(0);
        *outcome.answer = end;
    }
}

/// The bus outcome in place of a response, which held the pattern before.
fn no_response(outcome: &mut Outcome) {
    for (at, byte) in outcome.reply.iter_mut().enumerate() {
        *byte = crate::memory::pattern(at);
    }
    *outcome.answer = 0;
    *outcome.after = outcome.before.clone();
}

fn stopped_refused(outcome: &mut Outcome) {
    let stopped = answered(outcome)
        .is_some_and(|(before, _, heard)| before.member(heard.member()).mode == Mode::Stopped);
    if stopped {
        no_response(outcome);
    }
}

/// A write is applied even if the response does not fit.
fn applied_unanswered(outcome: &mut Outcome) {
    let (Call::Message { message, .. }, 0) = (outcome.call, *outcome.answer) else { return };
    if let Some((_, after)) = outcome.cards() {
        plain_card::message(after, message, &mut [0; 32]);
    }
}

fn store_moves(outcome: &mut Outcome) {
    let Call::Store { member, .. } = *outcome.call else { return };
    if let (true, Some((_, after))) = (outcome.done(), outcome.cards()) {
        let configuration = &mut after.member_mut(member).configuration;
        configuration.generation = configuration.generation.wrapping_add(1);
    }
}

/// The configuration of a member before and after its wipe.
fn wiped<'a>(outcome: &'a mut Outcome) -> Option<(&'a Configuration, &'a mut Configuration)> {
    let (before, after, member) = outcome.wiped()?;
    Some((&before.member(member).configuration, &mut after.member_mut(member).configuration))
}

fn wipe_keeps(outcome: &mut Outcome) {
    if let Some((before, after)) = wiped(outcome) {
        after.generation = before.generation;
    }
}

fn wipe_keeps_bytes(outcome: &mut Outcome) {
    if let Some((before, after)) = wiped(outcome) {
        after.bytes = before.bytes;
    }
}

fn wipe_adds(outcome: &mut Outcome) {
    if let Some((before, after)) = wiped(outcome) {
        after.generation = after.generation.wrapping_add(before.generation);
    }
}

/// The configurations of all members before and after a reset of the card.
fn card_reset<'a>(
    outcome: &'a mut Outcome,
) -> impl Iterator<Item = (&'a Configuration, &'a mut Configuration)> {
    let cards = outcome.card_reset().into_iter();
    let records = cards.flat_map(|(before, after)| before.members.iter().zip(&mut after.members));
    records.map(|(before, after)| (&before.configuration, &mut after.configuration))
}

fn card_keeps(outcome: &mut Outcome) {
    card_reset(outcome).for_each(|(before, after)| after.bytes = before.bytes);
}

/// Only member 1 gets the generation given.
fn card_first(outcome: &mut Outcome) {
    card_reset(outcome).skip(1).for_each(|(_, after)| after.generation = 0);
}

/// A write that is applied moves the generations of all members.
fn one_generation(outcome: &mut Outcome) {
    let Some((before, after, heard)) = answered(outcome) else { return };
    let at = heard.device as usize;
    let applied = before.members[at].configuration != after.members[at].configuration;
    for (other, record) in after.members.iter_mut().enumerate().filter(|_| applied) {
        if other != at {
            record.configuration.generation = record.configuration.generation.wrapping_add(1);
        }
    }
}

fn written_next(outcome: &mut Outcome) {
    if let Some((_, after, heard)) = answered(outcome) {
        let next = heard.member() + 1;
        if after.setup.has_member(next) {
            let configuration = after.member(heard.member()).configuration.clone();
            after.member_mut(next).configuration = configuration;
        }
    }
}
