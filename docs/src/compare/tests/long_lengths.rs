//! Lengths past 32 bits, which random sequences do not reach: the archive
//! beside the plain card, with buffers of 4 GiB and a valid length.

use compare::memory::Huge;
use kajurnat::raw;
use plain_card::host::Request;
use plain_card::object::Kind;
use plain_card::opcode::SUPPORTED;
use plain_card::{bytes, exported, setups, Card, Setup};

/// The bytes of a card with a get object and every command in use.
fn card() -> Vec<u8> {
    let mut card = Card::new(&Setup::alike(2, 4, 1, 1, [3; 16]).unwrap());
    card.in_use = SUPPORTED;
    card.members[0].objects.put(0, Kind::Get);
    bytes::write(&card)
}

/// A message that reads the configuration of member 1.
const READ: [u8; 16] = [0, 5, 0, 0, 0, 0, 16, 0, 0, 0, 0, 0, 12, 0, 0, 0];

fn capture() -> Vec<u8> {
    Request::Get(1, 0, 1, &[]).bytes()
}

/// The same answer and the same card, by archive and plain card.
fn same<T: PartialEq + std::fmt::Debug>(
    archive: impl FnOnce(&mut [u8]) -> T,
    plain: impl FnOnce(&mut [u8]) -> T,
) -> T {
    let (mut left, mut right) = (card(), card());
    let answer = archive(&mut left);
    assert_eq!((&answer, &left), (&plain(&mut right), &right));
    answer
}

#[test]
fn a_request_is_refused() {
    let mut huge = Huge::new();
    let request = huge.starting_with(&capture());
    let mut replies = [[7; 600]; 2];
    let [left, right] = &mut replies;
    let written = same(
        |card| raw::command(card, request, left),
        |card| exported::command(card, request, right),
    );
    assert_eq!((written, replies[0][0], replies[0][2]), (8, 22, 1));
    assert_eq!(replies[0], replies[1]);
}

#[test]
fn a_reply_buffer_is_long_enough() {
    let (mut left, mut right) = (Huge::new(), Huge::new());
    for few in [0, 7, 8, 452] {
        let (left, right) = (left.starting_with(&vec![7; few]), right.starting_with(&vec![7; few]));
        let written = same(
            |card| raw::command(card, &capture(), left),
            |card| exported::command(card, &capture(), right),
        );
        assert_eq!(written, 453);
        assert_eq!(left[..600], right[..600]);
    }
}

#[test]
fn a_message_is_no_whole_request() {
    let mut huge = Huge::new();
    let message = huge.starting_with(&READ);
    let mut reply = [7; 40];
    let written = same(
        |card| raw::message(card, message, &mut reply),
        |card| exported::message(card, message, &mut [7; 40]),
    );
    assert_eq!((written, reply), (0, [7; 40]));
}

#[test]
fn a_reply_buffer_is_long_enough_for_a_response() {
    let (mut left, mut right) = (Huge::new(), Huge::new());
    for few in [0, 19, 31] {
        let (left, right) = (left.starting_with(&vec![7; few]), right.starting_with(&vec![7; few]));
        let written = same(
            |card| raw::message(card, &READ, left),
            |card| exported::message(card, &READ, right),
        );
        assert_eq!(written, 32);
        assert_eq!(left[..600], right[..600]);
    }
}

#[test]
fn a_stored_value_has_a_wrong_length() {
    let mut huge = Huge::new();
    for length in [0, 16] {
        let value = huge.starting_with(&vec![7; length]);
        let answer = same(
            |card| raw::store(card, 1, 0x101, 0, value),
            |card| exported::store(card, 1, 0x101, 0, value),
        );
        assert_eq!(answer, 3);
    }
}

#[test]
fn a_fragment_is_too_long() {
    let mut huge = Huge::new();
    for length in [0, 1, 1024] {
        let fragment = huge.starting_with(&vec![7; length]);
        let answer = same(
            |card| raw::restore_feed(card, 1, fragment),
            |card| exported::restore_feed(card, 1, fragment),
        );
        assert_eq!(answer, 6 + 65_536);
        let answers = same(
            |card| [raw::restore_begin(card, 1), raw::restore_feed(card, 1, fragment)],
            |card| [exported::restore_begin(card, 1), exported::restore_feed(card, 1, fragment)],
        );
        assert_eq!(answers, [0, 22 + 65_536]);
    }
}

#[test]
fn features_have_a_wrong_length() {
    let mut huge = Huge::new();
    let features = huge.starting_with(&[7; 16]);
    let answer = same(
        |card| raw::setup(card, 2, &[4, 4], 1, 1, features),
        |card| exported::setup(card, 2, &[4, 4], 1, 1, features),
    );
    assert_eq!(answer, 4);
}

#[test]
fn queues_have_a_wrong_length() {
    let mut huge = Huge::new();
    let queues = huge.starting_with(&[4, 4]);
    let answer = same(
        |card| raw::setup(card, 2, queues, 1, 1, &[3; 16]),
        |card| exported::setup(card, 2, queues, 1, 1, &[3; 16]),
    );
    assert_eq!(answer, 4);
    let mut buffer = [7; 23];
    assert_eq!(raw::setup_write(&mut buffer, 2, queues, 1, 1, &[3; 16]), 0);
    assert_eq!(buffer, [7; 23]);
}

#[test]
fn a_packed_setup_is_too_long() {
    let mut huge = Huge::new();
    let setup = huge.starting_with(&setups::write(&Setup::alike(2, 4, 1, 1, [3; 16]).unwrap()));
    let answer =
        same(|card| raw::setup_from(card, setup), |card| exported::setup_from(card, setup));
    assert_eq!(answer, 4);
    for read in [raw::setup_read, raw::setup_read_v1] {
        let ([mut n, mut g, mut s], mut queues, mut features) = ([7; 3], [7; 16], [7; 16]);
        assert_eq!(read(setup, &mut n, &mut queues, &mut g, &mut s, &mut features), 2);
        assert_eq!(([n, g, s], queues, features), ([7; 3], [7; 16], [7; 16]));
    }
}

#[test]
fn a_card_is_not_sound() {
    let mut huge = Huge::new();
    let length = card().len();
    let card = huge.starting_with(&card());
    let mut reply = [7; 600];
    assert_eq!(raw::command(card, &capture(), &mut reply), 0);
    assert_eq!(raw::message(card, &READ, &mut reply), 0);
    assert_eq!(raw::hand_back(card, 1), 9);
    assert_eq!(raw::wipe(card, 1, 0), 9);
    assert_eq!(raw::reset_card(card, 0), 9);
    assert_eq!(raw::store(card, 1, 0x101, 0, &[7; 16]), 9);
    assert_eq!(raw::restore_begin(card, 1), 9);
    assert_eq!(raw::restore_feed(card, 1, &[7; 16]), 9);
    assert_eq!(raw::restore_finish(card, 1, 1), 9);
    assert_eq!(raw::restore_drop(card, 1), 9);
    assert_eq!((raw::is_sound(card), exported::is_sound(card)), (0, 0));
    assert_eq!(reply, [7; 600]);
    assert_eq!(card[..length], self::card());
}

#[test]
fn a_list_is_too_long_to_be_built() {
    let mut huge = Huge::new();
    for length in [0, 16] {
        let list = huge.starting_with(&vec![7; length]);
        let mut buffer = [7; 600];
        assert_eq!(raw::request_get(&mut buffer, 1, 0, 0, list), 0);
        assert_eq!(raw::request_set(&mut buffer, 1, 0, list), 0);
        assert_eq!(buffer, [7; 600]);
        assert_eq!(exported::build(&Request::Get(1, 0, 0, list), &mut buffer), 0);
        assert_eq!(exported::build(&Request::Set(1, 0, list), &mut buffer), 0);
    }
}

#[test]
fn a_buffer_for_a_request_is_long_enough() {
    let (mut left, mut right) = (Huge::new(), Huge::new());
    for few in [0, 47] {
        let (left, right) = (left.starting_with(&vec![7; few]), right.starting_with(&vec![7; few]));
        assert_eq!(raw::request_create(left, 2, 3, 1), 48);
        assert_eq!(exported::build(&Request::Create(2, 3, 1), right), 48);
        assert_eq!(left[..600], right[..600]);
    }
}

#[test]
fn a_reply_has_a_wrong_length() {
    let mut huge = Huge::new();
    let reply = huge.starting_with(&[0; 16]);
    for (opcode, what) in [(0x00, 0), (0x0c, 0), (0x0e, 0), (0x0e, 2), (0x11, 0)] {
        let [mut a, mut b, mut c, mut d] = [7; 4];
        let archive = raw::reply_read(opcode, what, reply, &mut a, &mut b, &mut c, &mut d);
        let mut numbers = [7; 4];
        let plain = exported::reply_read(opcode, what, reply, &mut numbers);
        assert_eq!((archive, [a, b, c, d]), (1, [7; 4]));
        assert_eq!((plain, numbers), (1, [7; 4]));
    }
}
