//! The five wrong programs of document 01 that have to be rejected.

use plain_card::frame::u16_at;
use plain_card::opcode::Opcode;
use plain_card::operation::{About, Operation};
use plain_card::status::Refusal;

use super::{fault, Fault, Outcome, Plant};
use crate::call::Call;

pub const FAULTS: &[Fault] = &[
    fault("program: refuses each command", Plant::Refuse(|_, _, _| Some(Refusal::RequestLength))),
    fault("program: a single fixed reply", Plant::Leave(fixed_reply)),
    fault("program: never changes the card", Plant::Leave(never_changes)),
    fault("program: obeys the first command only", Plant::Leave(first_only)),
    fault("program: makes up counts of parts", Plant::Leave(made_up_count)),
    fault("program: makes up bytes written", Plant::Leave(made_up_written)),
];

fn fixed_reply(outcome: &mut Outcome) {
    if outcome.status().is_some() {
        outcome.reply[..8].fill(0);
        *outcome.answer = 8;
    }
}

fn never_changes(outcome: &mut Outcome) {
    if matches!(outcome.call, Call::Command { .. }) {
        *outcome.after = outcome.before.clone();
    }
}

/// The first command that changes the card is obeyed, later ones are not.
fn first_only(outcome: &mut Outcome) {
    if !matches!(outcome.call, Call::Command { .. }) {
        outcome.memory.obeyed = false;
    } else if outcome.memory.obeyed {
        *outcome.after = outcome.before.clone();
    } else {
        outcome.memory.obeyed = outcome.after != outcome.before;
    }
}

/// The count is always that of one queue.
fn made_up_count(outcome: &mut Outcome) {
    let counts = matches!(outcome.operation(), Some((_, Operation::Metadata(_, About::Count))));
    if counts && outcome.succeeded() {
        outcome.reply[8] = 9;
    }
}

/// Parts get reports the whole reply buffer as written.
fn made_up_written(outcome: &mut Outcome) {
    if let Call::Command { request, room } = outcome.call {
        if outcome.succeeded() && u16_at(request, 0) == Opcode::PartsGet as u16 {
            *outcome.answer = room.length;
        }
    }
}
