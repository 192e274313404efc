//! Faults of request frame and reply.

use plain_card::frame::{u64_at, Frame};
use plain_card::opcode::{Opcode, FRESH};
use plain_card::status::Refusal;
use plain_card::Card;

use super::tools::opcode;
use super::{breaking, fault, Fault, Outcome, Plant, Property};
use crate::memory::pattern;

pub const FAULTS: &[Fault] = &[
    fault("frame: member field cut to 32 bits", Plant::Mishear(member_cut)),
    fault("frame: opcode cut to 6 bits", Plant::Mishear(opcode_cut)),
    fault("frame: group type cut to 8 bits", Plant::Mishear(group_cut)),
    fault("frame: list commands read the member", Plant::Refuse(list_member)),
    fault("frame: 4,096 bytes refused", Plant::Refuse(longest_refused)),
    fault("frame: reserved bytes read", Plant::Refuse(reserved_read)),
    fault("list use: bits 0 and 1 always kept", Plant::Leave(list_kept)),
    fault("list query: tells the list in use", Plant::Leave(list_in_use)),
    fault("reply: reserved bytes not written", Plant::Leave(reserved_kept)),
    fault("reply: rest of the buffer cleared", Plant::Leave(rest_cleared)),
    fault("reply: refusal longer than 8 bytes", Plant::Leave(long_refusal)),
    breaking(&[Property::Isolation], "reply: tells of member 1", Plant::Leave(leak)),
];

fn member_cut(_: &Card, request: &mut Vec<u8>) {
    if let Some(high) = request.get_mut(20..24) {
        high.fill(0);
    }
}

fn opcode_cut(_: &Card, request: &mut Vec<u8>) {
    if let [low, high, ..] = request.as_mut_slice() {
        (*low, *high) = (*low & 0x3f, 0);
    }
}

fn group_cut(_: &Card, request: &mut Vec<u8>) {
    if let Some(high) = request.get_mut(3) {
        *high = 0;
    }
}

fn list_member(card: &Card, request: &[u8], _: usize) -> Option<Refusal> {
    let (frame, opcode) = opcode(card, request)?;
    let bad = !opcode.names_member() && !card.setup.has_member(frame.member);
    bad.then_some(Refusal::Member)
}

fn longest_refused(_: &Card, request: &[u8], _: usize) -> Option<Refusal> {
    (request.len() == 4096).then_some(Refusal::RequestLength)
}

fn reserved_read(_: &Card, request: &[u8], _: usize) -> Option<Refusal> {
    let reserved = request.get(4..16)?;
    reserved.iter().any(|byte| *byte != 0).then_some(Refusal::Field)
}

fn list_kept(outcome: &mut Outcome) {
    if let (true, Some((_, after))) = (outcome.succeeded(), outcome.cards()) {
        after.in_use |= FRESH;
    }
}

fn list_in_use(outcome: &mut Outcome) {
    let crate::call::Call::Command { request, .. } = outcome.call else { return };
    let query = Frame::read(request).is_ok_and(|frame| frame.opcode == Opcode::ListQuery as u16);
    if let (true, true, Some((before, _))) = (query, outcome.succeeded(), outcome.cards()) {
        let list = before.in_use.to_le_bytes();
        outcome.reply[8..16].copy_from_slice(&list);
    }
}

fn reserved_kept(outcome: &mut Outcome) {
    if outcome.status().is_some() {
        (4..8).for_each(|at| outcome.reply[at] = pattern(at));
    }
}

fn rest_cleared(outcome: &mut Outcome) {
    if outcome.status().is_some() {
        outcome.reply[*outcome.answer..].fill(0);
    }
}

fn long_refusal(outcome: &mut Outcome) {
    let refused = outcome.status().is_some_and(|status| status != (0, 0));
    if refused && outcome.reply.len() >= 16 {
        outcome.reply[8..16].fill(0);
        *outcome.answer = 16;
    }
}

/// The reserved bytes of a reply show driver features of member 1.
fn leak(outcome: &mut Outcome) {
    if let (Some(_), Some((before, _))) = (outcome.status(), outcome.cards()) {
        let told = u64_at(&before.member(1).values.driver_features, 0) as u32;
        outcome.reply[4..8].copy_from_slice(&told.to_le_bytes());
    }
}
