//! Faults of resource objects.

use plain_card::command;
use plain_card::frame::{fixed_fields, u32_at};
use plain_card::object::Kind;
use plain_card::opcode::Opcode;
use plain_card::operation::Operation;
use plain_card::status::Refusal;
use plain_card::Card;

use super::order::full;
use super::tools::{framed, operation};
use super::{breaking, fault, Fault, Outcome, Plant, Property};
use crate::call::Call;

pub const FAULTS: &[Fault] = &[
    fault("trade: every id ever made counts", Plant::Leave(every_id_counts)),
    breaking(
        &[Property::Isolation, Property::Exchange],
        "objects: limits over all members",
        Plant::Refuse(shared_limits),
    ),
    fault("objects: modify at the limit refused", Plant::Refuse(modify_at_limit)),
    fault("objects: modify beyond the limit", Plant::Leave(modify_beyond)),
    fault("objects: destroy keeps the object", Plant::Leave(destroy_keeps)),
    fault("objects: query tells get always", Plant::Leave(query_tells_get)),
    fault("objects: ids below 16 valid", Plant::Refuse(ids_below_16)),
    fault("objects: id cut to 8 bits", Plant::Mishear(id_cut)),
    fault("objects: set object serves get", Plant::Leave(either_kind)),
];

/// Create is refused once as many objects as may live have ever been made.
fn every_id_counts(outcome: &mut Outcome) {
    match outcome.call {
        Call::Wipe { member, .. } => outcome.memory.made.retain(|(m, _), _| m != member),
        Call::Setup { .. } | Call::SetupFrom { .. } | Call::Card(_) | Call::ResetCard(_) => {
            outcome.memory.made.clear();
        }
        _ => {}
    }
    let Some((member, Operation::Create(_, kind))) = outcome.operation() else { return };
    let Some((before, _)) = outcome.cards() else { return };
    let limit = usize::from(if kind == Kind::Get { before.setup.gets } else { before.setup.sets });
    if !outcome.succeeded() {
        return;
    }
    let made = outcome.memory.made.entry((member, kind.byte())).or_default();
    if *made < limit {
        *made += 1;
    } else {
        *outcome.after = outcome.before.clone();
        outcome.reply[..8].copy_from_slice(&Refusal::TooManyObjects.reply());
    }
}

/// G and S are shared by all members.
fn shared_limits(card: &Card, request: &[u8], _: usize) -> Option<Refusal> {
    let (member, Operation::Create(id, kind)) = operation(card, request)? else { return None };
    let live: usize = card.members.iter().map(|member| member.objects.count(kind)).sum();
    let limit = if kind == Kind::Get { card.setup.gets } else { card.setup.sets };
    let free = card.member(member).objects.find(id).is_none();
    (free && live >= usize::from(limit)).then_some(Refusal::TooManyObjects)
}

fn modify_at_limit(card: &Card, request: &[u8], _: usize) -> Option<Refusal> {
    let (member, Operation::Modify(id, kind)) = operation(card, request)? else { return None };
    let objects = &card.member(member).objects;
    let live = objects.find(id).is_some();
    (live && full(objects, kind, &card.setup)).then_some(Refusal::TooManyObjects)
}

fn modify_beyond(outcome: &mut Outcome) {
    let Some((member, Operation::Modify(id, kind))) = outcome.operation() else { return };
    if outcome.status() == Some(Refusal::TooManyObjects.numbers()) {
        if let Some((_, after)) = outcome.cards() {
            after.member_mut(member).objects.put(id, kind);
            outcome.reply[..8].fill(0);
        }
    }
}

fn destroy_keeps(outcome: &mut Outcome) {
    if matches!(outcome.operation(), Some((_, Operation::Destroy(_)))) {
        *outcome.after = outcome.before.clone();
    }
}

fn query_tells_get(outcome: &mut Outcome) {
    let query = matches!(outcome.operation(), Some((_, Operation::Query(_))));
    if query && outcome.succeeded() {
        outcome.reply[8] = Kind::Get.byte();
    }
}

/// Ids from G + S to 15 are only found not to be live.
fn ids_below_16(card: &Card, request: &[u8], _: usize) -> Option<Refusal> {
    let (frame, opcode) = framed(card, request)?;
    let valid = opcode == Opcode::Destroy || opcode == Opcode::Query;
    let id = valid.then(|| u32_at(&fixed_fields(frame.data), 4))?;
    (id < 16 && !card.setup.has_id(id)).then_some(Refusal::IdNotLive)
}

fn id_cut(card: &Card, request: &mut Vec<u8>) {
    let object = framed(card, request)
        .is_some_and(|(_, opcode)| opcode.names_member() && opcode != Opcode::ModeSet);
    if object {
        request.iter_mut().take(32).skip(29).for_each(|byte| *byte = 0);
    }
}

/// Metadata and parts get take a set object for a get object.
fn either_kind(outcome: &mut Outcome) {
    let (member, id) = match outcome.operation() {
        Some((member, Operation::Metadata(id, _) | Operation::GetAll(id))) => (member, id),
        Some((member, Operation::GetSelected(id, _))) => (member, id),
        _ => return,
    };
    let (Call::Command { request, .. }, Some((before, _))) = (outcome.call, outcome.cards()) else {
        return;
    };
    if before.member(member).objects.find(id) == Some(Kind::Set) {
        let mut other = before.clone();
        other.setup.gets = 8;
        other.member_mut(member).objects.put(id, Kind::Get);
        *outcome.answer = command(&mut other, request, outcome.reply);
    }
}
