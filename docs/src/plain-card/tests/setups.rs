//! Setups as bytes, and members that differ in their queues: request 9 of
//! document 02.

mod common;

use common::*;
use plain_card::exported::{self, Numbers};
use plain_card::setups::{read, read_v1, write, Unread};
use plain_card::status::{EventError, RestoreError};
use plain_card::{bytes, Card, Setup};

const FEATURES: [u8; 16] = [0xa0, 1, 2, 3, 4, 5, 6, 7, 8, 9, 10, 11, 12, 13, 14, 15];

fn setup(queues: &[u8], gets: u64, sets: u64) -> Setup {
    Setup::new(queues.len() as u64, queues, gets, sets, FEATURES).unwrap()
}

/// The setup of the worked examples, but for its features.
fn bench() -> Vec<u8> {
    write(&setup(&[1, 1], 1, 1))
}

/// Five members with 4, 1, 2, 3 and 1 queues, G = 8, S = 3.
fn five() -> Vec<u8> {
    write(&setup(&[4, 1, 2, 3, 1], 8, 3))
}

/// Both readers refuse it by the other name.
fn refused(bytes: &[u8]) {
    assert_eq!(read(bytes), Err(Unread::Refused), "{bytes:02x?}");
    let first = bytes.first().is_some_and(|byte| byte >> 4 == 2);
    let by = if first { Unread::Version2 } else { Unread::Refused };
    assert_eq!(read_v1(bytes), Err(by), "{bytes:02x?}");
}

/// The bytes with some bits of one of them changed.
fn flipped(mut bytes: Vec<u8>, at: usize, bits: u8) -> Vec<u8> {
    bytes[at] ^= bits;
    bytes
}

#[test]
fn the_setup_of_the_worked_examples_begins_11_04_40() {
    assert_eq!(bench()[..3], [0x11, 0x04, 0x40]);
    assert_eq!((bench().len(), &bench()[3..]), (19, &FEATURES[..]));
}

#[test]
fn version_2_has_two_bits_for_each_member() {
    // 0010 0100 | 00 1000 00|11 000000 | 11 00 01 10 | 00 000000
    assert_eq!(five()[..5], [0x24, 0x20, 0xc0, 0b1100_0110, 0]);
    assert_eq!((five().len(), &five()[5..]), (21, &FEATURES[..]));
    for members in 2..=16 {
        let mut queues = vec![1; members];
        queues[members - 1] = 2;
        assert_eq!(write(&setup(&queues, 0, 0)).len(), 19 + members.div_ceil(4));
    }
}

#[test]
fn equal_counts_are_version_1_and_others_version_2() {
    for members in 1..=16 {
        for count in 1..=4 {
            let equal = write(&setup(&vec![count; members], 8, 0));
            assert_eq!((equal[0] >> 4, equal.len()), (1, 19));
        }
    }
    assert_eq!(write(&setup(&[2, 1], 0, 0))[0] >> 4, 2);
}

#[test]
fn what_is_written_reads_back_the_same() {
    for gets in 0..=8 {
        for sets in 0..=8 {
            for queues in [&[1][..], &[4; 16], &[3, 2], &[1, 2, 3, 4], &[4, 4, 4, 4, 1]] {
                let whole = setup(queues, gets, sets);
                let bytes = write(&whole);
                assert_eq!(read(&bytes), Ok(whole.clone()));
                let first = if bytes[0] >> 4 == 1 { Ok(whole) } else { Err(Unread::Version2) };
                assert_eq!(read_v1(&bytes), first);
            }
        }
    }
}

#[test]
fn the_reader_of_version_1_refuses_version_2_before_all_else() {
    for low in 0..16 {
        assert_eq!(read_v1(&[0x20 | low]), Err(Unread::Version2));
        assert_eq!(read_v1(&[0x20 | low, 0xff, 0xff]), Err(Unread::Version2));
    }
    assert_eq!(read_v1(&[0x2f; 100]), Err(Unread::Version2));
    // Without bytes there is no version.
    assert_eq!(read_v1(&[]), Err(Unread::Refused));
    // The new reader never gives that name.
    assert_eq!(read(&[0x20]), Err(Unread::Refused));
}

#[test]
fn version_2_with_equal_counts_is_read() {
    let mut bytes = vec![0x22, 0x04, 0x40, 0b0101_0100];
    bytes.extend(FEATURES);
    assert_eq!(read(&bytes), Ok(setup(&[2, 2, 2], 1, 1)));
    // And written as version 1.
    assert_eq!(write(&read(&bytes).unwrap())[..3], [0x12, 0x44, 0x40]);
}

#[test]
fn other_versions_are_refused() {
    for version in (0..16).filter(|version| ![1, 2].contains(version)) {
        refused(&flipped(bench(), 0, (1 ^ version) << 4));
        refused(&flipped(five(), 0, (2 ^ version) << 4));
    }
}

#[test]
fn bits_that_have_to_be_zero() {
    for bit in 0..6 {
        refused(&flipped(bench(), 2, 1 << bit));
        refused(&flipped(five(), 2, 1 << bit));
        refused(&flipped(five(), 4, 1 << bit));
    }
    // The Q field of version 2.
    refused(&flipped(five(), 1, 0x40));
    refused(&flipped(five(), 1, 0x80));
}

#[test]
fn lengths_are_exact() {
    for good in [bench(), five()] {
        for length in 0..good.len() {
            refused(&good[..length]);
        }
        refused(&[&good[..], &[0]].concat());
        refused(&[&[good[0]], &[0; 255][..]].concat());
    }
    // The number of members says the length of version 2.
    refused(&flipped(five(), 0, 4 ^ 3));
    refused(&flipped(five(), 0, 4 ^ 8));
}

#[test]
fn numbers_out_of_range() {
    for number in 9..16 {
        for bytes in [bench(), five()] {
            let mut gets = bytes.clone();
            gets[1] = gets[1] & 0xc3 | number << 2;
            refused(&gets);
            let mut sets = bytes;
            sets[1] = sets[1] & 0xfc | number >> 2;
            sets[2] = number << 6;
            refused(&sets);
        }
    }
}

#[test]
fn the_writer_refuses_bad_setups_and_short_buffers_unwritten() {
    let write =
        |room: usize, members: u64, queues: &[u8], gets: u64, sets: u64, features: &[u8]| {
            let mut buffer = vec![PATTERN; room];
            let written = exported::setup_write(&mut buffer, members, queues, gets, sets, features);
            assert!(buffer[written..].iter().all(|byte| *byte == PATTERN));
            written
        };
    assert_eq!(write(19, 2, &[1, 1], 1, 1, &FEATURES), 19);
    assert_eq!(write(40, 2, &[1, 2], 1, 1, &FEATURES), 20);
    assert_eq!(write(18, 2, &[1, 1], 1, 1, &FEATURES), 0);
    assert_eq!(write(19, 2, &[1, 2], 1, 1, &FEATURES), 0);
    assert_eq!(write(23, 16, &[[1; 15].as_slice(), &[2]].concat(), 0, 0, &FEATURES), 23);
    assert_eq!(write(22, 16, &[[1; 15].as_slice(), &[2]].concat(), 0, 0, &FEATURES), 0);
    for (members, queues, gets, sets, features) in [
        (0, &[][..], 1, 1, 16),
        (17, &[1; 17], 1, 1, 16),
        (258, &[1; 2], 1, 1, 16),
        (2, &[1], 1, 1, 16),
        (2, &[1; 3], 1, 1, 16),
        (2, &[1, 0], 1, 1, 16),
        (2, &[5, 1], 1, 1, 16),
        (2, &[1, 1], 9, 1, 16),
        (2, &[1, 1], 1, 1 << 40, 16),
        (2, &[1, 1], 1, 1, 15),
    ] {
        assert_eq!(write(100, members, queues, gets, sets, &vec![0; features]), 0);
    }
}

/// What the readers answer and write, with buffers of these lengths.
fn told(bytes: &[u8], queues: usize, features: usize) -> [(u8, Vec<u8>); 2] {
    [exported::setup_read, exported::setup_read_v1].map(|read| {
        let mut counts = [PATTERN; 3];
        let (mut queues, mut features) = (vec![PATTERN; queues], vec![PATTERN; features]);
        let numbers = Numbers { counts: &mut counts, queues: &mut queues, features: &mut features };
        let answer = read(bytes, numbers);
        (answer, [&counts[..], &queues, &features].concat())
    })
}

#[test]
fn the_readers_tell_the_numbers_or_write_nothing() {
    let pattern = vec![PATTERN; 35];
    let numbers = |first: &[u8]| [first, &vec![0; 19 - first.len()], &FEATURES].concat();
    let two = numbers(&[2, 1, 1, 1, 1]);
    assert_eq!(told(&bench(), 16, 16), [(0, two.clone()), (0, two)]);
    let expected = numbers(&[5, 8, 3, 4, 1, 2, 3, 1]);
    assert_eq!(told(&five(), 16, 16), [(0, expected), (1, pattern.clone())]);
    assert_eq!(told(&[0x1f; 19], 16, 16), [(2, pattern.clone()), (2, pattern)]);
    for (queues, features) in [(15, 16), (17, 16), (16, 15), (16, 17), (0, 0)] {
        let pattern = vec![PATTERN; 3 + queues + features];
        assert_eq!(told(&bench(), queues, features), [(2, pattern.clone()), (2, pattern.clone())]);
        assert_eq!(told(&five(), queues, features), [(2, pattern.clone()), (1, pattern)]);
    }
}

#[test]
fn a_card_is_made_of_the_bytes() {
    let length = exported::card_bytes(5);
    let (mut from, mut direct) = (vec![1; length], vec![2; length]);
    assert_eq!(exported::setup_from(&mut from, &five()), 0);
    assert_eq!(exported::setup(&mut direct, 5, &[4, 1, 2, 3, 1], 8, 3, &FEATURES), 0);
    assert_eq!(from, direct);
    for (length, setup) in [
        (length - 1, five()),
        (length + 1, five()),
        (length, bench()),
        (length, vec![]),
        (0, five()),
    ] {
        let mut card = vec![PATTERN; length];
        assert_eq!(exported::setup_from(&mut card, &setup), 4);
        assert_eq!(card, vec![0; length]);
    }
}

/// Member 1 with three queues and member 2 with one, both stopped and with
/// objects.
fn three_and_one() -> Card {
    let mut card = stopped(Card::new(&setup(&[3, 1], 1, 1)));
    for (id, kind) in [(0, GET), (1, SET)] {
        assert_eq!(status(&mut card, &request(CREATE, 2, &object_of_kind(id, kind))), OK);
    }
    assert_eq!(status(&mut card, &request(MODE_SET, 2, &[1])), OK);
    card
}

#[test]
fn count_and_size_are_said_of_a_member() {
    let mut card = three_and_one();
    for (member, count, size) in [(1, 13, 373), (2, 9, 229)] {
        let mut told = |what| {
            let reply = reply(&mut card, &request(METADATA, member, &object_and_type(0, what)));
            u32::from_le_bytes(reply[8..12].try_into().unwrap())
        };
        assert_eq!((told(1), told(0)), (count, size));
        let get_all = request(PARTS_GET, member, &object_and_type(0, 1));
        assert_eq!(reply(&mut card, &get_all).len(), 8 + size as usize);
    }
}

#[test]
fn get_set_and_store_go_by_the_members_own_count() {
    let mut card = three_and_one();
    let asked = |member| {
        let data = [object_and_type(0, 0), header(0x104, 2, 0)].concat();
        request(PARTS_GET, member, &data)
    };
    assert_eq!((status(&mut card, &asked(1)), status(&mut card, &asked(2))), (OK, (22, 3)));
    let given =
        |member| request(PARTS_SET, member, &[object(1), part(0x104, 2, &queue(4, 1))].concat());
    assert_eq!((status(&mut card, &given(1)), status(&mut card, &given(2))), (OK, (22, 3)));
    let index = 2u64.to_le_bytes();
    assert_eq!(card.store(1, 0x105, index, &[1; 8]), Ok(()));
    assert_eq!(card.store(2, 0x105, index, &[1; 8]), Err(EventError::NoPart));
    card.restore_begin(2).unwrap();
    card.restore_feed(2, &part(0x104, 2, &queue(4, 1))).unwrap();
    assert!(matches!(card.restore_finish(2, 1), Err(RestoreError::Set(_))));
}

#[test]
fn a_capture_is_taken_by_a_member_with_more_queues_and_not_with_fewer() {
    let mut card = three_and_one();
    let capture = |card: &mut Card, member| {
        reply(card, &request(PARTS_GET, member, &object_and_type(0, 1)))[8..].to_vec()
    };
    let (three, one) = (capture(&mut card, 1), capture(&mut card, 2));
    let set = |member, list| request(PARTS_SET, member, &[object(1), list].concat());
    assert_eq!(status(&mut card, &set(1, one)), OK);
    assert_eq!(status(&mut card, &set(2, three)), (22, 3));
}

#[test]
fn soundness_looks_at_the_queues_of_the_members_own_count() {
    let mut card = three_and_one();
    card.members[1].values.queues[1] = queue(100, 1);
    assert!(card.is_sound());
    card.members[0].values.queues[2] = queue(100, 1);
    assert!(!card.is_sound());
}

#[test]
fn no_reset_changes_a_queue_count() {
    let mut card = three_and_one();
    for member in [1, 2] {
        assert_eq!((card.hand_back(member), card.wipe(member, 0)), (Ok(()), Ok(())));
    }
    assert_eq!(card.whole_setup().queues, [3, 1]);
    assert_eq!(card.reset(0), Ok(()));
    assert_eq!(card, Card::new(&setup(&[3, 1], 1, 1)));
    assert_eq!(bytes::read(&bytes::write(&card)), Some(card));
}

#[test]
fn what_stands_behind_the_count_is_made_fresh_by_a_wipe() {
    let mut card = three_and_one();
    card.members[1].values.queues[3] = [7; 32];
    card.members[1].values.notifies[2] = [7; 8];
    assert_eq!((card.hand_back(2), card.wipe(2, 0)), (Ok(()), Ok(())));
    assert_eq!(card.members[1].values.queues, [[0; 32]; 4]);
    assert_eq!(card.members[1].values.notifies, [[0; 8]; 4]);
}
