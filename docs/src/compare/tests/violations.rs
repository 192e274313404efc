//! What a program does wrong with its buffers is reported and shortened like
//! any other difference.

use compare::call::Call;
use compare::device::{Archive, Device, Lending, Misuse};
use compare::exchange::Exchange;
use compare::fragments::Fragments;
use compare::isolation::Pair;
use compare::limit::Limit;
use compare::memory::Place;
use compare::round_trip::RoundTrip;
use compare::sequence::{compare, Difference};
use compare::trial::{check, Trial};

const LIMIT: Limit = Limit { count: 20_000, until: None };

fn with(misuse: Misuse) -> impl Fn() -> Box<dyn Device> {
    move || Box::new(Archive::new(Some(misuse)))
}

fn difference(misuse: Misuse) -> Difference {
    compare(3, LIMIT, None, &with(misuse)).difference.expect("it is found")
}

fn read_behind_request(call: &Call, lending: &mut Lending) {
    if let Call::Command { request, .. } = call {
        lending.inputs[0].read_beside(request.len() as isize);
    }
}

fn write_ahead_of_reply(call: &Call, lending: &mut Lending) {
    if let Call::Command { .. } = call {
        lending.reply.write_beside(-1, 0);
    }
}

fn change_value(call: &Call, lending: &mut Lending) {
    if let Call::Store { .. } = call {
        lending.inputs[0].bytes_mut().fill(0x55);
    }
}

fn change_fragment(call: &Call, lending: &mut Lending) {
    if let Call::Feed { .. } = call {
        lending.inputs[0].bytes_mut().fill(0x55);
    }
}

fn read_ahead_of_card(call: &Call, lending: &mut Lending) {
    if let Call::ResetCard(_) = call {
        lending.card.read_beside(-1);
    }
}

#[test]
fn a_read_beside_the_request_is_shortened_to_one_command() {
    let Difference { calls, what, .. } = difference(read_behind_request);
    assert_eq!(what, "  a guard page beside the request was accessed\n");
    let [Call::Command { request, .. }] = &calls[..] else { panic!("{calls:?}") };
    assert_eq!(request.place, Place::BeforePage);
}

#[test]
fn a_read_beside_the_card_keeps_the_card_where_it_shows() {
    let Difference { calls, what, .. } = difference(read_ahead_of_card);
    assert_eq!(what, "  a guard page beside the card was accessed\n");
    let [_, Call::ResetCard(_)] = &calls[..] else { panic!("{calls:?}") };
    let place = match &calls[0] {
        Call::Card(bytes) => bytes.place,
        Call::Setup { card, .. } | Call::SetupFrom { card, .. } => card.place,
        other => panic!("{other}"),
    };
    assert_eq!(place, Place::AfterPage);
}

#[test]
fn a_write_beside_the_reply_shows_at_the_usual_place() {
    let Difference { calls, what, .. } = difference(write_ahead_of_reply);
    assert_eq!(what, "  bytes ahead of the reply buffer were written\n");
    let [Call::Command { room, .. }] = &calls[..] else { panic!("{calls:?}") };
    assert_eq!(room.place, Place::USUAL);
}

#[test]
fn a_changed_value_is_told() {
    let Difference { calls, what, .. } = difference(change_value);
    assert_eq!(what, "  bytes of the value were changed\n");
    assert_eq!(calls.len(), 1);
}

#[test]
fn trials_of_properties_tell_violations_too() {
    fn told<T: Trial>(misuse: Misuse) -> String {
        check::<T>(3, LIMIT, &with(misuse)).1.expect("it is found").what
    }
    let written = "bytes ahead of the reply buffer were written";
    let changed = "bytes of the value were changed";
    assert!(told::<Pair>(change_value).contains(changed));
    assert!(told::<Exchange>(change_value).contains(changed));
    assert!(told::<Fragments>(change_fragment).contains("bytes of the fragment were changed"));
    assert!(told::<RoundTrip>(write_ahead_of_reply).contains(written));
}
