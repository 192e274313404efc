//! Queue sizes that no ring has: request 5 of document 02.

mod common;

use common::*;
use plain_card::status::{Refusal, RestoreError};
use plain_card::{bytes, exported, Card};

const BAD: (u16, u16) = (22, 3);
const QUEUES: u8 = 2;

/// Sizes and enabled fields that a queue part may not have: neither 0 nor a
/// power of two, or 0 while enabled.
const REFUSED: [(u16, u16); 12] = [
    (100, 0),
    (100, 1),
    (3, 0),
    (0x0101, 1),
    (32_767, 0),
    (32_769, 0),
    (0xc000, 0),
    (u16::MAX, 1),
    (0, 1),
    (0, 0x0100),
    (0, 0x8000),
    (0, u16::MAX),
];

/// Some that it may have.
const TAKEN: [(u16, u16); 8] =
    [(0, 0), (1, 0), (1, 1), (2, 0x0100), (256, 0), (256, u16::MAX), (32_768, 0), (32_768, 1)];

/// A card with Q = 2, member 1 stopped.
fn ready() -> Card {
    stopped(card(2, QUEUES, 1, 1))
}

/// The value of a queue part.
fn value(size: u16, enabled: u16) -> [u8; 32] {
    let mut value = queue(size, 0xff);
    value[4..6].copy_from_slice(&enabled.to_le_bytes());
    value
}

/// The answer of a card store of a queue part.
fn store(card: &mut Card, index: u64, value: &[u8]) -> u8 {
    let mut bytes = bytes::write(card);
    let answer = exported::store(&mut bytes, 1, 0x104, index, value);
    *card = bytes::read(&bytes).unwrap();
    answer
}

#[test]
fn parts_set_refuses_them_and_sets_nothing() {
    for (size, enabled) in REFUSED {
        for index in 0..u64::from(QUEUES) {
            let list = [part(0x103, 0, &[7]), part(0x104, index, &value(size, enabled))];
            assert_eq!(status(&mut ready(), &set(&list)), BAD, "{size}, {enabled}");
        }
    }
    for (size, enabled) in TAKEN {
        let mut card = ready();
        assert_eq!(status(&mut card, &set(&[part(0x104, 1, &value(size, enabled))])), OK);
        assert_eq!(card.member(1).values.queues[1], value(size, enabled));
    }
}

#[test]
fn a_card_store_answers_5() {
    for (size, enabled) in REFUSED {
        let mut card = ready();
        assert_eq!(store(&mut card, 1, &value(size, enabled)), 5, "{size}, {enabled}");
        assert_eq!(card, ready());
    }
    for (size, enabled) in TAKEN {
        let mut card = ready();
        assert_eq!(store(&mut card, 1, &value(size, enabled)), 0);
        assert_eq!(card.member(1).values.queues[1], value(size, enabled));
    }
}

#[test]
fn a_store_answers_5_after_3() {
    let bad = value(100, 1);
    assert_eq!(store(&mut ready(), 1, &bad[..31]), 3);
    assert_eq!(store(&mut ready(), 1, &[&bad[..], &[0]].concat()), 3);
    assert_eq!(store(&mut ready(), 2, &bad), 2);
    let mut bytes = bytes::write(&ready());
    assert_eq!(exported::store(&mut bytes, 3, 0x104, 0, &bad), 1);
    bytes[19] |= 4;
    assert_eq!(exported::store(&mut bytes, 1, 0x104, 0, &bad), 9);
}

#[test]
fn other_parts_have_no_size() {
    for (part_type, length) in [(0x101, 16), (0x105, 8)] {
        let any = vec![100; length];
        assert_eq!(status(&mut ready(), &set(&[part(part_type, 0, &any)])), OK);
        assert_eq!(ready().store(1, part_type, [0; 8], &any), Ok(()));
    }
}

#[test]
fn a_queue_that_the_member_has_not_got_is_skipped_whatever_its_size() {
    for index in [2, 3, 0x100] {
        let unknown = part(0x104, index, &value(100, 1));
        assert_eq!(status(&mut ready(), &set(&[flagged(1, unknown.clone())])), OK);
        assert_eq!(status(&mut ready(), &set(&[unknown])), BAD);
    }
}

#[test]
fn the_optional_bit_does_not_help_a_known_queue() {
    let known = flagged(1, part(0x104, 0, &value(100, 0)));
    assert_eq!(status(&mut ready(), &set(&[known])), BAD);
}

#[test]
fn a_restore_in_fragments_refuses_them_too() {
    let mut card = ready();
    let list = part(0x104, 0, &value(100, 1));
    card.restore_begin(1).unwrap();
    card.restore_feed(1, &list).unwrap();
    assert_eq!(card.restore_finish(1, 1), Err(RestoreError::Set(Refusal::BadList)));
    assert_eq!(card, ready());
}

#[test]
fn a_sound_card_holds_none_in_any_known_queue_of_any_member() {
    for (size, enabled) in REFUSED {
        for member in 0..2 {
            for index in 0..4 {
                let mut card = ready();
                card.members[member].values.queues[index] = value(size, enabled);
                assert_eq!(card.is_sound(), index >= usize::from(QUEUES));
                assert_eq!(exported::is_sound(&bytes::write(&card)), card.is_sound().into());
            }
        }
    }
    for (size, enabled) in TAKEN {
        let mut card = ready();
        card.members.iter_mut().for_each(|member| {
            member.values.queues = [value(size, enabled); 4];
        });
        assert!(card.is_sound());
    }
}
