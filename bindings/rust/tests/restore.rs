//! A restore from fragments.

mod common;

use common::{capture, fresh_card, ready_card, restore, stop, GET, QUEUE, SET};
use kajurnat::{Card, PartType, Qualifier, Refusal, Request, Restore, Status};
use std::io::{self, Read, Write};

/// The numbers of a refusal.
fn numbers<T>(outcome: Result<T, Refusal>) -> (Status, Qualifier) {
    match outcome {
        Ok(_) => (Status::OK, Qualifier::OK),
        Err(refusal) => (refusal.status, refusal.qualifier),
    }
}

const NOTHING_BEGUN: (Status, Qualifier) = (Status::ENXIO, Qualifier::INVALID_COMMAND);
const NO_MEMBER: (Status, Qualifier) = (Status::EINVAL, Qualifier::INVALID_MEMBER);
const TOO_LONG: (Status, Qualifier) = (Status::EINVAL, Qualifier::INVALID_COMMAND);

/// A card whose member 1 has parts to be captured and whose member 2 is
/// stopped, and the capture.
fn card_and_parts() -> (Card, Vec<u8>) {
    let mut card = ready_card();
    card.store(1, PartType::DRV_FEATURES, 0, &[0x5a; 16]).unwrap();
    card.store(1, PartType::VQ_CFG, 0, &QUEUE).unwrap();
    stop(&mut card, 2).unwrap();
    let parts = capture(&mut card, 1).unwrap();
    (card, parts)
}

/// The card once the parts are set in member 2 by one command.
fn set_at_once(card: &Card, parts: &[u8]) -> Card {
    let mut card = card.clone();
    restore(&mut card, 2, parts).unwrap();
    card
}

#[test]
fn fragments_of_every_size_are_one_list() {
    let (fresh, parts) = card_and_parts();
    let expected = set_at_once(&fresh, &parts);
    for size in 1..=parts.len() {
        let mut card = fresh.clone();
        card.restore(2, SET, parts.chunks(size)).unwrap();
        assert_eq!(card, expected);
    }
}

#[test]
fn fragments_come_as_any_bytes() {
    let (fresh, parts) = card_and_parts();
    let expected = set_at_once(&fresh, &parts);
    let owned: Vec<Vec<u8>> = parts.chunks(9).map(<[u8]>::to_vec).collect();
    let mut card = fresh.clone();
    card.restore(2, SET, &owned).unwrap();
    assert_eq!(card, expected);
    let mut card = fresh.clone();
    card.restore(2, SET, parts.iter().map(|byte| [*byte])).unwrap();
    assert_eq!(card, expected);
}

#[test]
fn a_reader_is_copied_into_a_restore() {
    let (fresh, parts) = card_and_parts();
    let mut card = fresh.clone();
    let (first, second) = parts.split_at(100);
    let mut connection = first.chain(second);
    let mut restore = card.begin_restore(2).unwrap();
    assert_eq!(io::copy(&mut connection, &mut restore).unwrap(), parts.len() as u64);
    restore.flush().unwrap();
    restore.finish(SET).unwrap();
    assert_eq!(card, set_at_once(&fresh, &parts));
}

/// Reads a connection that breaks off into a restore of member 2.
fn broken_connection(card: &mut Card, parts: &[u8]) -> io::Result<()> {
    struct Broken;
    impl Read for Broken {
        fn read(&mut self, _: &mut [u8]) -> io::Result<usize> {
            Err(io::ErrorKind::ConnectionReset.into())
        }
    }
    let mut restore = card.begin_restore(2).map_err(io::Error::other)?;
    io::copy(&mut parts.chain(Broken), &mut restore)?;
    restore.finish(SET).map_err(io::Error::other)
}

#[test]
fn an_early_return_leaves_nothing_open() {
    let (fresh, parts) = card_and_parts();
    let mut card = fresh.clone();
    let error = broken_connection(&mut card, &parts).unwrap_err();
    assert_eq!(error.kind(), io::ErrorKind::ConnectionReset);
    assert_eq!(card, fresh);
    card.restore(2, SET, [&parts]).unwrap();
}

#[test]
fn a_restore_that_is_dropped_leaves_nothing() {
    let (fresh, parts) = card_and_parts();
    let mut card = fresh.clone();
    let mut restore = card.begin_restore(2).unwrap();
    restore.feed(&parts).unwrap();
    drop(restore);
    assert_eq!(card, fresh);
}

#[test]
fn a_list_has_1024_bytes_at_most() {
    let (fresh, parts) = card_and_parts();
    let mut card = fresh.clone();
    let mut restore = card.begin_restore(2).unwrap();
    restore.feed(&[0; Restore::MAX]).unwrap();
    restore.feed(&[]).unwrap();
    assert_eq!(numbers(restore.feed(&[0])), TOO_LONG);
    assert_eq!(numbers(restore.feed(&[])), NOTHING_BEGUN);
    assert_eq!(numbers(restore.finish(SET)), NOTHING_BEGUN);
    assert_eq!(card, fresh);
    let long = [&parts[..], &[0; 1024]];
    assert_eq!(numbers(card.restore(2, SET, long)), TOO_LONG);
    assert_eq!(card, fresh);

    let mut restore = card.begin_restore(2).unwrap();
    let error = restore.write_all(&[0; 1025]).unwrap_err();
    let refusal = error.into_inner().unwrap();
    assert_eq!(numbers::<()>(Err(*refusal.downcast().unwrap())), TOO_LONG);
}

#[test]
fn finish_answers_as_parts_set() {
    let (mut card, parts) = card_and_parts();
    let bad = (Status::EINVAL, Qualifier::INVALID_FIELD);
    let before = card.clone();
    assert_eq!(numbers(card.restore(2, GET, [&parts])), bad);
    assert_eq!(numbers(card.restore(2, 99, [&parts])), bad);
    assert_eq!(numbers(card.restore(2, SET, [&parts[1..]])), bad);
    let running = (Status::EAGAIN, Qualifier::TRYAGAIN);
    assert_eq!(numbers(card.restore(1, SET, [&parts])), running);
    assert_eq!(card, before);
    let unused = (Status::EINVAL, Qualifier::INVALID_OPCODE);
    let mut unused_card = fresh_card();
    assert_eq!(numbers(unused_card.restore(1, SET, [&parts])), unused);
    assert_eq!(unused_card, fresh_card());
}

#[test]
fn a_restore_begins_once_and_on_a_member() {
    let (mut card, _) = card_and_parts();
    for member in [0, 3, u64::MAX] {
        assert_eq!(numbers(card.begin_restore(member)), NO_MEMBER);
        assert_eq!(numbers(card.take_up_restore(member)), NO_MEMBER);
    }
    assert_eq!(numbers(card.take_up_restore(2)), NOTHING_BEGUN);
    let mut restore = card.begin_restore(2).unwrap();
    let again = (Status::EEXIST, Qualifier::INVALID_COMMAND);
    assert_eq!(numbers(restore.card().begin_restore(2)), again);
    assert_eq!(numbers(restore.finish(SET)), (Status::OK, Qualifier::OK));
}

#[test]
fn the_card_is_used_meanwhile() {
    let (fresh, parts) = card_and_parts();
    let mut card = fresh.clone();
    let (first, second) = parts.split_at(20);
    let mut restore = card.begin_restore(2).unwrap();
    assert_eq!(restore.member(), 2);
    restore.feed(first).unwrap();
    restore.card().send(Request::stop(1)).unwrap();
    let mut other = restore.card().begin_restore(1).unwrap();
    other.feed(&parts).unwrap();
    other.finish(SET).unwrap();
    restore.feed(second).unwrap();
    restore.finish(SET).unwrap();
    let mut expected = set_at_once(&fresh, &parts);
    stop(&mut expected, 1).unwrap();
    assert_eq!(card, expected);
}

#[test]
fn a_restore_that_is_left_open_is_taken_up_again() {
    let (fresh, parts) = card_and_parts();
    let (first, second) = parts.split_at(77);
    let mut card = fresh.clone();
    let mut restore = card.begin_restore(2).unwrap();
    restore.feed(first).unwrap();
    restore.leave_open();

    let mut kept = Card::from_bytes(card.into_bytes()).unwrap();
    let mut restore = kept.take_up_restore(2).unwrap();
    restore.feed(second).unwrap();
    restore.finish(SET).unwrap();
    assert_eq!(kept, set_at_once(&fresh, &parts));

    kept.begin_restore(2).unwrap().leave_open();
    drop(kept.take_up_restore(2).unwrap());
    assert_eq!(numbers(kept.take_up_restore(2)), NOTHING_BEGUN);
}

#[test]
fn a_reset_ends_a_restore() {
    let (mut card, parts) = card_and_parts();
    let mut restore = card.begin_restore(2).unwrap();
    restore.feed(&parts).unwrap();
    restore.card().hand_back(2).unwrap();
    restore.card().wipe(2, 0).unwrap();
    assert_eq!(numbers(restore.feed(&parts)), NOTHING_BEGUN);
    assert_eq!(numbers(restore.finish(SET)), NOTHING_BEGUN);
    let mut restore = card.begin_restore(2).unwrap();
    restore.feed(&parts).unwrap();
    restore.card().reset(0);
    drop(restore);
    assert_eq!(card, fresh_card());
}

#[test]
fn no_byte_of_a_guest_is_shown() {
    let (mut card, parts) = card_and_parts();
    let mut restore = card.begin_restore(2).unwrap();
    restore.feed(&parts).unwrap();
    assert_eq!(format!("{restore:?}"), "Restore { member: 2, .. }");
}
