//! The card as bytes, and which bytes are a sound card.

mod common;

use common::*;
use plain_card::configuration::Configuration;
use plain_card::{bytes, exported};

/// The lengths of header and record, and where the fields of a record stand.
const HEADER: usize = 27;
const RECORD: usize = 1266;
const OBJECTS: usize = 3;
const HELD: usize = 19;
const VALUES: usize = 21;
const CONFIGURATION: usize = 226;
const GENERATION: usize = 238;
const HOLDING: usize = 242;

/// The bytes of a card with N=2, Q=2, G=1, S=2 and both members in use.
fn sample() -> Vec<u8> {
    let mut card = stopped(card(2, 2, 1, 2));
    card.store(2, 0x104, [1, 0, 0, 0, 0, 0, 0, 0], &queue(256, 9)).unwrap();
    card.members[1].configuration = Configuration { bytes: [5; 12], generation: 0x0403_0201 };
    card.restore_begin(2).unwrap();
    card.restore_feed(2, &[6; 300]).unwrap();
    bytes::write(&card)
}

/// Whether the bytes are a sound card.
fn sound(card: &[u8]) -> bool {
    let mut copy = card.to_vec();
    let sound = bytes::read(card).is_some_and(|card| card.is_sound());
    // Every entry agrees on it, and refuses without a change.
    assert_eq!(exported::is_sound(card), u8::from(sound));
    let mut reply = [PATTERN; 8];
    assert_eq!(exported::command(&mut copy, &[], &mut reply) != 0, sound);
    assert_eq!(exported::store(&mut copy, 0, 0, 0, &[]) != 9, sound);
    let read = [0, 5, 0, 0, 0, 0, 16, 0, 0, 0, 0, 0, 0, 0, 0, 0];
    let answers = sound && card[HEADER + 1] == 0;
    assert_eq!(exported::message(&mut copy, &read, &mut [PATTERN; 20]) != 0, answers);
    assert_eq!(exported::hand_back(&mut copy, 0) != 9, sound);
    assert_eq!(exported::wipe(&mut copy, 0, 0) != 9, sound);
    assert_eq!(exported::restore_begin(&mut copy, 0) != 9, sound);
    assert_eq!(exported::restore_feed(&mut copy, 0, &[]) != 9, sound);
    assert_eq!(exported::restore_finish(&mut copy, 0, 0) != 9, sound);
    assert_eq!(exported::restore_drop(&mut copy, 0) != 9, sound);
    assert_eq!(copy, card);
    assert_eq!(exported::reset_card(&mut copy, 0) != 9, sound);
    assert!(sound || (copy == card && reply == [PATTERN; 8]));
    sound
}

/// The answers of the two halves of a reset.
fn reset(card: &mut [u8], member: u64) -> [u8; 2] {
    [exported::hand_back(card, member), exported::wipe(card, member, 0)]
}

/// The sample with one byte changed.
fn with(at: usize, byte: u8) -> Vec<u8> {
    let mut card = sample();
    card[at] = byte;
    card
}

#[test]
fn the_layout() {
    let card = sample();
    assert_eq!(card.len(), HEADER + 2 * RECORD);
    assert_eq!(card[..3], [2, 1, 2]);
    assert_eq!(card[19..27], ALL.to_le_bytes());
    assert_eq!(card[HEADER..HEADER + 6], [1, 0, 2, 1, 2, 0]);
    let second = &card[HEADER + RECORD..];
    assert_eq!(second[..OBJECTS], [0, 0, 2]);
    assert_eq!(second[OBJECTS..HELD], [0; 16]);
    // A holding place of 300 bytes.
    assert_eq!(second[HELD..VALUES], [45, 1]);
    // Queue 1 follows 16 + 16 + 4 + 4 + 2 + 2 + 1 value bytes and queue 0.
    assert_eq!(second[VALUES + 45 + 32..VALUES + 45 + 64], queue(256, 9));
    assert_eq!(second[VALUES + 45 + 64..CONFIGURATION], [0; 205 - 45 - 64]);
    assert_eq!(second[CONFIGURATION..GENERATION], [5; 12]);
    assert_eq!(second[GENERATION..HOLDING], [1, 2, 3, 4]);
    assert_eq!(second[HOLDING..HOLDING + 300], [6; 300]);
    assert_eq!(second[HOLDING + 300..], [0; 724]);
}

#[test]
fn read_and_write_are_inverse() {
    let card = sample();
    assert_eq!(bytes::write(&bytes::read(&card).unwrap()), card);
    for at in 1..card.len() {
        if let Some(changed) = bytes::read(&with(at, 2)) {
            assert_eq!(bytes::write(&changed), with(at, 2));
        }
    }
}

#[test]
fn the_length_is_exact() {
    let card = sample();
    assert!(sound(&card));
    for length in [0, 26, HEADER, HEADER + RECORD, card.len() - 1] {
        assert!(!sound(&card[..length]));
    }
    assert!(!sound(&[card, vec![0]].concat()));
}

#[test]
fn the_setup_is_in_range() {
    for (at, good) in [(1, 1..=8), (2, 1..=8), (HEADER + 2, 1..=4), (HEADER + RECORD + 2, 1..=4)] {
        for byte in 0..=255 {
            assert_eq!(sound(&with(at, byte)), good.contains(&byte), "byte {at} is {byte}");
        }
    }
    assert!(!sound(&[0; HEADER]));
    for members in 1..=20 {
        let card = bytes::write(&card(1, 1, 0, 0));
        let (header, record) = card.split_at(HEADER);
        let records = record.repeat(members);
        let card = [&[members as u8], &header[1..], &records].concat();
        assert_eq!(sound(&card), members <= 16);
    }
}

#[test]
fn the_list_in_use_has_supported_bits_only() {
    for bit in 0..64 {
        let card = with(19 + bit / 8, sample()[19 + bit / 8] | 1 << (bit % 8));
        assert_eq!(sound(&card), ALL >> bit & 1 == 1);
    }
}

#[test]
fn mode_and_object_bytes_say_something() {
    for byte in 0..=255 {
        assert_eq!(sound(&with(HEADER, byte)), byte <= 1);
        // Id 2 of member 1 is free, with room for one more set object.
        assert_eq!(sound(&with(HEADER + OBJECTS + 2, byte)), byte == 0 || byte == 2);
    }
}

#[test]
fn a_mark_is_that_of_a_member_that_is_let_go() {
    // Member 1 is stopped and has objects; member 2 runs and holds bytes.
    let let_go = |member: usize| {
        let mut card = sample();
        let record = HEADER + RECORD * member;
        card[record] = 1;
        card[record + OBJECTS..record + VALUES].fill(0);
        (card, record)
    };
    for member in 0..2 {
        for byte in 0..=255 {
            let (mut card, record) = let_go(member);
            card[record + 1] = byte;
            assert_eq!(sound(&card), byte <= 1);
        }
        for (at, byte) in [(0, 0), (OBJECTS, 1), (OBJECTS + 2, 2), (HELD, 1), (HELD, 45)] {
            let (mut card, record) = let_go(member);
            card[record + at] = byte;
            assert!(sound(&card));
            card[record + 1] = 1;
            assert!(!sound(&card));
        }
    }
}

#[test]
fn objects_fit() {
    // Id 3 is not below G + S, and G get and S set objects are the most.
    assert!(!sound(&with(HEADER + OBJECTS + 3, 2)) && !sound(&with(HEADER + OBJECTS + 15, 2)));
    assert!(!sound(&with(HEADER + OBJECTS + 2, 1)));
    let mut card = with(HEADER + OBJECTS + 2, 2);
    assert!(sound(&card));
    card[HEADER + OBJECTS] = 2;
    assert!(!sound(&card));
}

#[test]
fn device_features_are_those_of_the_setup() {
    for at in 0..16 {
        assert!(!sound(&with(3 + at, 1)));
        assert!(!sound(&with(HEADER + VALUES + at, 1)));
        assert!(!sound(&with(HEADER + RECORD + VALUES + at, 1)));
    }
}

#[test]
fn other_values_are_free_and_carried() {
    // Size and enabled field of the two queues have a rule of their own.
    let queues = HEADER + VALUES + 45..HEADER + VALUES + 45 + 64;
    let ruled =
        |at: &usize| queues.contains(at) && [0, 1, 4, 5].contains(&((at - queues.start) % 32));
    for at in (HEADER + VALUES + 16..HEADER + RECORD).filter(|at| !ruled(at)) {
        let mut card = with(at, 0xff);
        assert!(sound(&card));
        let before = card.clone();
        assert_eq!(reset(&mut card, 2), [0, 0]);
        assert_eq!(card[..HEADER + RECORD], before[..HEADER + RECORD]);
        assert_eq!(reset(&mut card, 1), [0, 0]);
        assert!(card[HEADER..] == bytes::write(&common::card(2, 2, 1, 2))[HEADER..]);
    }
}

#[test]
fn a_holding_place_holds_1024_bytes_at_most() {
    for number in (0..=1100u16).chain([1280, 2049, 4096, 0x8000, 0xfffe, 0xffff]) {
        let mut card = sample();
        card[HEADER + HELD..HEADER + HELD + 2].copy_from_slice(&number.to_le_bytes());
        let read = bytes::read(&card).unwrap();
        assert_eq!(read.members[0].holding.held, number.checked_sub(1));
        assert_eq!(read.is_sound(), number <= 1025);
        assert_eq!(bytes::write(&read), card);
    }
    for (high, low, good) in [(4, 1, true), (4, 2, false), (0x80, 0, false), (0xff, 0xff, false)] {
        let mut card = with(HEADER + HELD, low);
        card[HEADER + HELD + 1] = high;
        assert_eq!(sound(&card), good);
    }
}

#[test]
fn setup_makes_a_fresh_card_or_zeros() {
    let mut card = vec![PATTERN; HEADER + 2 * RECORD];
    assert_eq!(exported::setup(&mut card, 2, &[1, 1], 1, 1, &[0; 16]), 0);
    assert_eq!(card, bytes::write(&fresh()));
    /// N, queues, G, S, and the lengths of features and card.
    type Numbers<'a> = (u64, &'a [u8], u64, u64, usize, usize);
    let two = HEADER + 2 * RECORD;
    let refused: [Numbers; 13] = [
        (0, &[], 1, 1, 16, HEADER),
        (17, &[1; 17], 1, 1, 16, HEADER + 17 * RECORD),
        (258, &[1; 2], 1, 1, 16, two),
        (2, &[0, 1], 1, 1, 16, two),
        (2, &[1, 5], 1, 1, 16, two),
        (2, &[1], 1, 1, 16, two),
        (2, &[1, 1, 1], 1, 1, 16, two),
        (2, &[1, 1], 9, 1, 16, two),
        (2, &[1, 1], 1, 9, 16, two),
        (2, &[1, 1], 1, 1 << 32 | 1, 16, two),
        (2, &[1, 1], 1, 1, 15, two),
        (2, &[1, 1], 1, 1, 16, two + 1),
        (2, &[1, 1], 1, 1, 16, 0),
    ];
    for (members, queues, gets, sets, features, length) in refused {
        let mut card = vec![PATTERN; length];
        let features = vec![0; features];
        assert_eq!(exported::setup(&mut card, members, queues, gets, sets, &features), 4);
        assert_eq!(card, vec![0; length]);
        assert!(!sound(&card));
    }
}

#[test]
fn the_length_of_a_card() {
    assert_eq!(exported::card_bytes(1), HEADER + RECORD);
    assert_eq!(exported::card_bytes(16), HEADER + 16 * RECORD);
    for members in [0, 17, 257, 1 << 32 | 1, u64::MAX] {
        assert_eq!(exported::card_bytes(members), 0);
    }
}
