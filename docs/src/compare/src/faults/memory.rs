//! What a wrong program does with its buffers, planted around the archive.

use super::{fault, Fault, Plant};
use crate::call::Call;
use crate::device::Lending;
use crate::lists::{Asked, OnLists};
use crate::memory::Lent;

pub const FAULTS: &[Fault] = &[
    fault("memory: byte behind the request read", Plant::Misuse(request_behind)),
    fault("memory: byte ahead of the request read", Plant::Misuse(request_ahead)),
    fault("memory: request read in words of 8", Plant::Misuse(request_words)),
    fault("memory: byte behind the value read", Plant::Misuse(value_behind)),
    fault("memory: byte behind the features read", Plant::Misuse(features_behind)),
    fault("memory: byte behind the queues read", Plant::Misuse(queues_behind)),
    fault("memory: byte behind a packed setup read", Plant::Misuse(setup_behind)),
    fault("memory: packed setup changed", Plant::Misuse(setup_changed)),
    fault("memory: byte behind a written setup written", Plant::Misuse(written_behind)),
    fault("memory: byte behind the fragment read", Plant::Misuse(fragment_behind)),
    fault("memory: byte behind the message read", Plant::Misuse(message_behind)),
    fault("memory: message changed", Plant::Misuse(message_changed)),
    fault("memory: byte behind the response written", Plant::Misuse(response_written)),
    fault("memory: byte behind the card read", Plant::Misuse(card_behind)),
    fault("memory: byte ahead of the card read", Plant::Misuse(card_ahead)),
    fault("memory: byte behind the card written", Plant::Misuse(card_written)),
    fault("memory: byte behind the reply read", Plant::Misuse(reply_behind)),
    fault("memory: byte behind the reply written", Plant::Misuse(reply_written)),
    fault("memory: byte ahead of the reply written", Plant::Misuse(reply_ahead)),
    fault("memory: request changed", Plant::Misuse(request_changed)),
    fault("memory: value changed", Plant::Misuse(value_changed)),
    fault("memory: features changed", Plant::Misuse(features_changed)),
    fault("memory: fragment changed", Plant::Misuse(fragment_changed)),
    fault("memory: a request at an odd offset misread", Plant::Misuse(request_offset)),
    fault("memory: a reply at offset 13 miswritten", Plant::Misuse(reply_offset)),
    fault("memory: a card at offset 15 miswritten", Plant::Misuse(card_offset)),
    fault("memory: byte behind a list read", Plant::Misuse(list_behind)),
    fault("memory: list changed", Plant::Misuse(list_changed)),
    fault("memory: byte behind a built request written", Plant::Misuse(built_behind)),
    fault("memory: byte behind a reply to read read", Plant::Misuse(reply_read_behind)),
    fault("memory: reply to read changed", Plant::Misuse(reply_read_changed)),
    fault("memory: byte behind a full capture read", Plant::Misuse(full_behind)),
    fault("memory: byte ahead of a later list read", Plant::Misuse(later_ahead)),
    fault("memory: later list changed", Plant::Misuse(later_changed)),
    fault("memory: byte behind a made list written", Plant::Misuse(made_behind)),
    fault("memory: byte behind a damaged list read", Plant::Misuse(damaged_behind)),
    fault("memory: damaged list changed", Plant::Misuse(damaged_changed)),
    fault("memory: byte behind a salvaged list written", Plant::Misuse(salvaged_behind)),
];

/// What the call reads of this name.
fn input<'a>(name: &str, call: &Call, lending: &'a mut Lending) -> Option<&'a mut Lent> {
    let at = call.inputs().iter().position(|(input, _)| *input == name)?;
    lending.inputs.get_mut(at)
}

/// Whether the call is one that is lent the card.
fn on_card(call: &Call) -> bool {
    let half = matches!(call, Call::HandBack(_) | Call::Wipe { .. });
    let event = half || matches!(call, Call::ResetCard(_) | Call::Store { .. });
    let setup = matches!(call, Call::Setup { .. } | Call::SetupFrom { .. });
    event || setup || matches!(call, Call::Command { .. } | Call::Message { .. })
}

fn read_behind(lent: &Lent) {
    lent.read_beside(lent.bytes().len() as isize);
}

fn write_behind(lent: &mut Lent) {
    let end = lent.bytes().len() as isize;
    lent.write_beside(end, 0);
}

fn change(lent: &mut Lent) {
    if let Some(last) = lent.bytes_mut().last_mut() {
        *last ^= 1;
    }
}

fn request_behind(call: &Call, lending: &mut Lending) {
    if let Some(request) = input("request", call, lending) {
        read_behind(request);
    }
}

fn request_ahead(call: &Call, lending: &mut Lending) {
    if let Some(request) = input("request", call, lending) {
        request.read_beside(-1);
    }
}

/// The last word is read whole, even if the request ends in it.
fn request_words(call: &Call, lending: &mut Lending) {
    if let Some(request) = input("request", call, lending) {
        let length = request.bytes().len();
        if length % 8 != 0 {
            request.read_beside(length.next_multiple_of(8) as isize - 1);
        }
    }
}

fn value_behind(call: &Call, lending: &mut Lending) {
    if let Some(value) = input("value", call, lending) {
        read_behind(value);
    }
}

fn features_behind(call: &Call, lending: &mut Lending) {
    if let Some(features) = input("features", call, lending) {
        read_behind(features);
    }
}

fn queues_behind(call: &Call, lending: &mut Lending) {
    if let Some(queues) = input("queues", call, lending) {
        read_behind(queues);
    }
}

fn setup_behind(call: &Call, lending: &mut Lending) {
    if let Some(setup) = input("setup", call, lending) {
        read_behind(setup);
    }
}

fn setup_changed(call: &Call, lending: &mut Lending) {
    if let Some(setup) = input("setup", call, lending) {
        change(setup);
    }
}

fn written_behind(call: &Call, lending: &mut Lending) {
    if let Call::WriteSetup { .. } = call {
        write_behind(lending.reply);
    }
}

fn fragment_behind(call: &Call, lending: &mut Lending) {
    if let Some(fragment) = input("fragment", call, lending) {
        read_behind(fragment);
    }
}

fn message_behind(call: &Call, lending: &mut Lending) {
    if let Some(message) = input("message", call, lending) {
        read_behind(message);
    }
}

fn message_changed(call: &Call, lending: &mut Lending) {
    if let Some(message) = input("message", call, lending) {
        change(message);
    }
}

fn response_written(call: &Call, lending: &mut Lending) {
    if let Call::Message { .. } = call {
        write_behind(lending.reply);
    }
}

fn card_behind(call: &Call, lending: &mut Lending) {
    if on_card(call) {
        read_behind(lending.card);
    }
}

fn card_ahead(call: &Call, lending: &mut Lending) {
    if on_card(call) {
        lending.card.read_beside(-1);
    }
}

fn card_written(call: &Call, lending: &mut Lending) {
    if on_card(call) {
        write_behind(lending.card);
    }
}

fn reply_behind(call: &Call, lending: &mut Lending) {
    if let Call::Command { .. } = call {
        read_behind(lending.reply);
    }
}

fn reply_written(call: &Call, lending: &mut Lending) {
    if let Call::Command { .. } = call {
        write_behind(lending.reply);
    }
}

fn reply_ahead(call: &Call, lending: &mut Lending) {
    if let Call::Command { .. } = call {
        lending.reply.write_beside(-1, 0);
    }
}

fn request_changed(call: &Call, lending: &mut Lending) {
    if let Some(request) = input("request", call, lending) {
        change(request);
    }
}

fn value_changed(call: &Call, lending: &mut Lending) {
    if let Some(value) = input("value", call, lending) {
        change(value);
    }
}

fn features_changed(call: &Call, lending: &mut Lending) {
    if let Some(features) = input("features", call, lending) {
        change(features);
    }
}

fn fragment_changed(call: &Call, lending: &mut Lending) {
    if let Some(fragment) = input("fragment", call, lending) {
        change(fragment);
    }
}

/// The status of a reply is wrong if the request lies at an odd offset.
fn request_offset(call: &Call, lending: &mut Lending) {
    if matches!(call, Call::Command { .. }) && lending.inputs[0].offset() % 2 == 1 {
        change_first(lending.reply);
    }
}

fn reply_offset(call: &Call, lending: &mut Lending) {
    if matches!(call, Call::Command { .. }) && lending.reply.offset() == 13 {
        change_first(lending.reply);
    }
}

fn card_offset(call: &Call, lending: &mut Lending) {
    if matches!(call, Call::ResetCard(_)) && lending.card.offset() == 15 {
        change_first(lending.card);
    }
}

fn change_first(lent: &mut Lent) {
    if let Some(first) = lent.bytes_mut().first_mut() {
        *first ^= 1;
    }
}

fn list_behind(call: &Call, lending: &mut Lending) {
    if let Some(list) = input("list", call, lending) {
        read_behind(list);
    }
}

fn list_changed(call: &Call, lending: &mut Lending) {
    if let Some(list) = input("list", call, lending) {
        change(list);
    }
}

fn built_behind(call: &Call, lending: &mut Lending) {
    if let Call::Build { .. } = call {
        write_behind(lending.reply);
    }
}

fn reply_read_behind(call: &Call, lending: &mut Lending) {
    if let Some(reply) = input("reply", call, lending) {
        read_behind(reply);
    }
}

fn reply_read_changed(call: &Call, lending: &mut Lending) {
    if let Some(reply) = input("reply", call, lending) {
        change(reply);
    }
}

fn full_behind(call: &Call, lending: &mut Lending) {
    if let Some(full) = input("full capture", call, lending) {
        read_behind(full);
    }
}

fn later_ahead(call: &Call, lending: &mut Lending) {
    if let Some(later) = input("later list", call, lending) {
        later.read_beside(-1);
    }
}

fn later_changed(call: &Call, lending: &mut Lending) {
    if let Some(later) = input("later list", call, lending) {
        change(later);
    }
}

fn made_behind(call: &Call, lending: &mut Lending) {
    if matches!(call, Call::Lists(OnLists { asked: Asked::Merge { .. }, .. })) {
        write_behind(lending.reply);
    }
}

fn damaged_behind(call: &Call, lending: &mut Lending) {
    if let Some(damaged) = input("damaged list", call, lending) {
        read_behind(damaged);
    }
}

fn damaged_changed(call: &Call, lending: &mut Lending) {
    if let Some(damaged) = input("damaged list", call, lending) {
        change(damaged);
    }
}

fn salvaged_behind(call: &Call, lending: &mut Lending) {
    if matches!(call, Call::Lists(OnLists { asked: Asked::Salvage { .. }, .. })) {
        write_behind(lending.reply);
    }
}
