//! Calls for one member that depend on another member.

use plain_card::member::Mode;
use plain_card::operation::Operation;
use plain_card::status::Refusal;
use plain_card::Card;

use super::tools::operation;
use super::{breaking, Fault, Outcome, Plant, Property};
use crate::call::Call;

const EXCHANGE: &[Property] = &[Property::Exchange];
const BOTH: &[Property] = &[Property::Isolation, Property::Exchange];

pub const FAULTS: &[Fault] = &[
    breaking(EXCHANGE, "members: a stop resumes all others", Plant::Leave(one_stopped)),
    breaking(EXCHANGE, "members: an id is live once on a card", Plant::Leave(ids_shared)),
    breaking(EXCHANGE, "members: set refused if another runs", Plant::Refuse(all_stopped)),
    breaking(EXCHANGE, "members: object count of the card told", Plant::Leave(count_told)),
    breaking(EXCHANGE, "members: a store resumes the member below", Plant::Leave(store_resumes)),
    breaking(BOTH, "members: a store marks all queue selects", Plant::Leave(store_marks)),
    breaking(EXCHANGE, "members: last one named is remembered", Plant::Leave(last_named)),
];

/// Stopping a member resumes every other.
fn one_stopped(outcome: &mut Outcome) {
    let Some((member, Operation::ModeSet(Mode::Stopped))) = outcome.operation() else { return };
    if let (true, Some((_, after))) = (outcome.succeeded(), outcome.cards()) {
        for (other, record) in (1..).zip(&mut after.members) {
            if other != member {
                record.mode = Mode::Running;
            }
        }
    }
}

/// Creating an object ends those of the same id on other members.
fn ids_shared(outcome: &mut Outcome) {
    let Some((member, Operation::Create(id, _))) = outcome.operation() else { return };
    if let (true, Some((_, after))) = (outcome.succeeded(), outcome.cards()) {
        for (other, record) in (1..).zip(&mut after.members) {
            if other != member {
                record.objects.remove(id);
            }
        }
    }
}

fn all_stopped(card: &Card, request: &[u8], _: usize) -> Option<Refusal> {
    let (member, Operation::PartsSet(id, _)) = operation(card, request)? else { return None };
    let set = card.member(member).objects.find(id) == Some(plain_card::object::Kind::Set);
    let stopped = card.member(member).mode == Mode::Stopped;
    let another = card.members.iter().any(|record| record.mode == Mode::Running);
    (set && stopped && another).then_some(Refusal::Running)
}

/// A query tells in its reserved bytes how many objects the card has.
fn count_told(outcome: &mut Outcome) {
    let query = matches!(outcome.operation(), Some((_, Operation::Query(_))));
    if let (true, true, Some((before, _))) = (query, outcome.succeeded(), outcome.cards()) {
        let live = |record: &plain_card::member::Member| record.objects.0.iter().flatten().count();
        outcome.reply[9] = before.members.iter().map(live).sum::<usize>() as u8;
    }
}

/// The member and the cards of a store that was done.
fn stored<'a>(outcome: &'a mut Outcome) -> Option<(u64, &'a mut Card)> {
    let Call::Store { member, .. } = outcome.call else { return None };
    let done = outcome.done();
    outcome.cards().filter(|_| done).map(|(_, after)| (*member, after))
}

fn store_resumes(outcome: &mut Outcome) {
    if let Some((member, after)) = stored(outcome) {
        if member > 1 {
            after.member_mut(member - 1).mode = Mode::Running;
        }
    }
}

/// The queue select of every member becomes the number of the last that the
/// data path has stored a part of.
fn store_marks(outcome: &mut Outcome) {
    if let Some((member, after)) = stored(outcome) {
        for record in &mut after.members {
            record.values.queue_select = [member as u8, 0];
        }
    }
}

/// Mode set is refused if the call before it named another member.
fn last_named(outcome: &mut Outcome) {
    let named = outcome.call.named();
    let before = outcome.memory.named;
    outcome.memory.named = named.or(before);
    let Some((member, Operation::ModeSet(_))) = outcome.operation() else { return };
    if outcome.succeeded() && before.is_some_and(|before| before != member) {
        *outcome.after = outcome.before.clone();
        outcome.reply[..8].copy_from_slice(&Refusal::Running.reply());
    }
}
