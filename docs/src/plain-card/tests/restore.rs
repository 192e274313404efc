//! Restore in fragments: request 6 of document 02.

mod common;

use common::*;
use plain_card::holding::Holding;
use plain_card::member::Mode;
use plain_card::status::{restore_answer, Refusal, RestoreError};
use plain_card::{bytes, exported, Card};

/// The set object of member 1.
const SET_ID: u32 = 1;

/// A list of a few parts that member 1 takes.
fn list() -> Vec<u8> {
    let skipped = flagged(1, part(0x1ff, 7, &[8; 5]));
    let queue = part(0x104, 0, &queue(8, 3));
    [part(0x103, 0, &[4]), skipped, part(0x101, 0, &[9; 16]), queue].concat()
}

/// A good list of exactly so many bytes, 16 at least: one part that is skipped.
fn list_of(length: usize) -> Vec<u8> {
    flagged(1, part(0x5ff, 0, &vec![1; length - 16]))
}

/// The bytes held for a member, if a holding place is open.
fn held(card: &Card, member: u64) -> Option<&[u8]> {
    card.member(member).holding.bytes()
}

/// A card with member 1 stopped and these bytes held for it.
fn holding(list: &[u8]) -> Card {
    let mut card = stopped(fresh());
    assert_eq!(card.restore_begin(1), Ok(()));
    assert_eq!(card.restore_feed(1, list), Ok(()));
    assert_eq!(held(&card, 1), Some(list));
    card
}

/// The card with no holding place open for a member.
fn ended(card: &Card, member: u64) -> Card {
    let mut card = card.clone();
    card.member_mut(member).holding = Holding::default();
    card
}

/// The call is refused, and the card stands as it was.
fn refused(card: &mut Card, call: impl Fn(&mut Card) -> Result<(), RestoreError>, e: RestoreError) {
    let before = card.clone();
    assert_eq!(call(card), Err(e));
    assert_eq!(*card, before);
}

#[test]
fn fragments_are_set_as_one_list() {
    let mut at_once = stopped(fresh());
    let expected = status(&mut at_once, &set(&[list()]));
    assert_eq!(expected, OK);
    let list = list();
    for first in 0..=list.len() {
        for second in [first, (first + 1).min(list.len()), list.len()] {
            let mut card = stopped(fresh());
            assert_eq!(card.restore_begin(1), Ok(()));
            for fragment in [&list[..first], &list[first..second], &list[second..]] {
                assert_eq!(card.restore_feed(1, fragment), Ok(()));
            }
            assert_eq!(card.restore_finish(1, SET_ID), Ok(()));
            assert_eq!(card, at_once);
        }
    }
}

#[test]
fn a_list_byte_by_byte() {
    let mut card = stopped(fresh());
    assert_eq!(card.restore_begin(1), Ok(()));
    for byte in list() {
        assert_eq!(card.restore_feed(1, &[byte]), Ok(()));
        assert_eq!(card.restore_feed(1, &[]), Ok(()));
    }
    assert_eq!(held(&card, 1), Some(&list()[..]));
    assert_eq!(card.restore_finish(1, SET_ID), Ok(()));
    assert_eq!(card.member(1).values.driver_features, [9; 16]);
    assert_eq!(card.member(1).holding, Holding::default());
}

#[test]
fn finish_answers_what_parts_set_would_and_the_place_is_gone() {
    let bad = [list(), vec![0]].concat();
    let cases = [
        (stopped(fresh()), SET_ID, list(), Ok(())),
        (stopped(fresh()), SET_ID, vec![], Ok(())),
        (stopped(fresh()), 2, list(), Err(Refusal::Field)),
        (stopped(fresh()), u32::MAX, list(), Err(Refusal::Field)),
        (all_used(fresh()), SET_ID, list(), Err(Refusal::IdNotLive)),
        (stopped(fresh()), 0, list(), Err(Refusal::WrongKind)),
        (with_objects(fresh()), SET_ID, bad.clone(), Err(Refusal::Running)),
        (stopped(fresh()), SET_ID, bad, Err(Refusal::BadList)),
    ];
    for (mut card, id, list, expected) in cases {
        let mut by_command = card.clone();
        let request = request(PARTS_SET, 1, &[object(id), list.clone()].concat());
        let numbers = expected.map_or_else(Refusal::numbers, |()| OK);
        assert_eq!(status(&mut by_command, &request), numbers);
        assert_eq!(card.restore_begin(1), Ok(()));
        assert_eq!(card.restore_feed(1, &list), Ok(()));
        assert_eq!(card.restore_finish(1, id), expected.map_err(RestoreError::Set));
        assert_eq!(card, by_command);
        refused(&mut card, |card| card.restore_finish(1, id), RestoreError::NothingBegun);
    }
}

#[test]
fn finish_asks_for_parts_set_in_use() {
    for in_use in [0, 3, ALL & !(1 << 0x10)] {
        let mut card = holding(&list());
        card.in_use = in_use;
        let expected = ended(&card, 1);
        let refusal = Err(RestoreError::Set(Refusal::Opcode));
        assert_eq!(card.restore_finish(1, SET_ID), refusal);
        assert_eq!(card, expected);
        // The other calls go by no list of commands.
        assert_eq!(card.restore_begin(1), Ok(()));
        assert_eq!(card.restore_feed(1, &list()), Ok(()));
        assert_eq!(card.restore_drop(1), Ok(()));
        assert_eq!(card, expected);
    }
}

#[test]
fn finish_goes_by_the_moment() {
    // The object comes and the member stops after the last feed.
    let mut card = all_used(fresh());
    assert_eq!(card.restore_begin(1), Ok(()));
    assert_eq!(card.restore_feed(1, &list()), Ok(()));
    assert_eq!(status(&mut card, &create(SET_ID, SET)), OK);
    assert_eq!(status(&mut card, &request(MODE_SET, 1, &[1])), OK);
    assert_eq!(card.restore_finish(1, SET_ID), Ok(()));
    assert_eq!(card.member(1).values.device_status, [4]);
}

#[test]
fn a_feed_of_1024_bytes_in_all_is_kept() {
    for first in [0, 1, 16, 1008, 1023, 1024] {
        let list = list_of(1024);
        let mut card = holding(&list[..first]);
        assert_eq!(card.restore_feed(1, &list[first..]), Ok(()));
        assert_eq!(held(&card, 1), Some(&list[..]));
        assert!(card.is_sound());
        // No bytes are not past 1,024.
        assert_eq!(card.restore_feed(1, &[]), Ok(()));
        assert_eq!(held(&card, 1), Some(&list[..]));
        assert_eq!(card.restore_finish(1, SET_ID), Ok(()));
    }
}

#[test]
fn a_feed_past_1024_bytes_in_all_drops_the_place() {
    for (before, fed) in
        [(0, 1025), (1, 1024), (1023, 2), (1024, 1), (0, 1 << 16), (1, 1 << 16), (1024, 1 << 16)]
    {
        let mut card = holding(&vec![7; before]);
        let expected = ended(&card, 1);
        assert_eq!(card.restore_feed(1, &vec![7; fed]), Err(RestoreError::TooLong));
        assert_eq!(card, expected);
        assert_eq!(held(&card, 1), None);
    }
}

#[test]
fn nothing_begun_comes_first() {
    let mut card = stopped(fresh());
    for length in [0, 1, 1024, 1025, 5000, 1 << 16] {
        let fragment = vec![0; length];
        refused(&mut card, |card| card.restore_feed(1, &fragment), RestoreError::NothingBegun);
    }
    for id in [SET_ID, 0, 99] {
        refused(&mut card, |card| card.restore_finish(1, id), RestoreError::NothingBegun);
    }
    refused(&mut card, |card| card.restore_drop(1), RestoreError::NothingBegun);
}

#[test]
fn begin_while_one_is_open() {
    for list in [vec![], list()] {
        let mut card = holding(&list);
        refused(&mut card, |card| card.restore_begin(1), RestoreError::AlreadyBegun);
        assert_eq!(card.restore_finish(1, SET_ID), Ok(()));
        assert_eq!(card.restore_begin(1), Ok(()));
    }
}

#[test]
fn an_open_place_without_bytes_differs_from_none() {
    let mut card = holding(&[]);
    assert_ne!(bytes::write(&card), bytes::write(&ended(&card, 1)));
    refused(&mut card, |card| card.restore_begin(1), RestoreError::AlreadyBegun);
    assert_eq!(card.restore_drop(1), Ok(()));
    refused(&mut card, |card| card.restore_drop(1), RestoreError::NothingBegun);
}

#[test]
fn begin_needs_neither_an_object_nor_a_stopped_member() {
    let mut card = fresh();
    assert_eq!(card.members[0].mode, Mode::Running);
    assert_eq!(card.restore_begin(1), Ok(()));
    assert_eq!(card.restore_feed(1, &list()), Ok(()));
    assert_eq!(held(&card, 1), Some(&list()[..]));
}

#[test]
fn members_are_one_to_n_and_a_sound_card_comes_before_them() {
    let mut card = holding(&list());
    for member in [0, 3, 1 << 8 | 1, 1 << 32 | 1, u64::MAX] {
        refused(&mut card, |card| card.restore_begin(member), RestoreError::NoMember);
        refused(&mut card, |card| card.restore_feed(member, &[0; 2000]), RestoreError::NoMember);
        refused(&mut card, |card| card.restore_finish(member, 99), RestoreError::NoMember);
        refused(&mut card, |card| card.restore_drop(member), RestoreError::NoMember);
    }
    card.in_use = 4;
    for member in [0, 1, 2, 3] {
        refused(&mut card, |card| card.restore_begin(member), RestoreError::NotSound);
        refused(&mut card, |card| card.restore_feed(member, &[0; 2000]), RestoreError::NotSound);
        refused(&mut card, |card| card.restore_finish(member, 1), RestoreError::NotSound);
        refused(&mut card, |card| card.restore_drop(member), RestoreError::NotSound);
    }
}

#[test]
fn each_member_has_a_place_of_its_own() {
    let mut card = holding(&list());
    assert_eq!(card.restore_begin(2), Ok(()));
    assert_eq!(card.restore_feed(2, &[5; 3]), Ok(()));
    assert_eq!((held(&card, 1), held(&card, 2)), (Some(&list()[..]), Some(&[5; 3][..])));
    assert_eq!(card.restore_drop(1), Ok(()));
    assert_eq!((held(&card, 1), held(&card, 2)), (None, Some(&[5; 3][..])));
}

#[test]
fn both_resets_drop_it() {
    let mut card = holding(&list());
    assert_eq!(card.restore_begin(2), Ok(()));
    assert_eq!((card.hand_back(1), card.wipe(1, 0)), (Ok(()), Ok(())));
    assert_eq!((held(&card, 1), held(&card, 2)), (None, Some(&[][..])));
    assert_eq!(bytes::write(&card)[28 + 35..28 + 1248], [0; 1248 - 35]);
    let mut card = holding(&list());
    assert_eq!(card.reset(0), Ok(()));
    assert_eq!(bytes::write(&card), bytes::write(&fresh()));
}

#[test]
fn nothing_else_touches_it() {
    let mut card = holding(&list());
    let calls = [
        set(&[part(0x103, 0, &[1])]),
        set(&[vec![0]]),
        get_all(),
        request(MODE_SET, 1, &[0]),
        request(MODE_SET, 1, &[1]),
        modify(SET_ID, SET),
        destroy(SET_ID),
        create(SET_ID, SET),
        request(LIST_USE, 0, &ALL.to_le_bytes()),
    ];
    for call in calls {
        status(&mut card, &call);
        assert_eq!(held(&card, 1), Some(&list()[..]));
    }
    card.store(1, 0x103, [0; 8], &[1]).unwrap();
    assert_eq!(held(&card, 1), Some(&list()[..]));
    // And it touches nothing until finish.
    assert_eq!(card.member(1).values.device_status, [1]);
}

#[test]
fn bytes_that_are_not_held_are_gone_once_the_place_is() {
    // Bytes as a card, with other bytes behind what is held.
    let mut card = holding(&list());
    card.member_mut(1).holding.room[1023] = 9;
    assert!(card.is_sound());
    for mut card in [card.clone(), ended(&card, 1)] {
        card.member_mut(1).holding.room[1023] = 9;
        if held(&card, 1).is_none() {
            assert_eq!(card.restore_begin(1), Ok(()));
        }
        let mut dropped = card.clone();
        assert_eq!(dropped.restore_drop(1), Ok(()));
        assert_eq!(dropped.member(1).holding, Holding::default());
        assert_eq!(card.restore_finish(1, SET_ID), Ok(()));
        assert_eq!(card.member(1).holding, Holding::default());
    }
}

#[test]
fn the_numbers_of_the_answers() {
    let number = |error| restore_answer(Err(error));
    assert_eq!(restore_answer(Ok(())), 0);
    assert_eq!(number(RestoreError::NotSound), 9);
    assert_eq!(number(RestoreError::NoMember), 22 + 65_536 * 5);
    assert_eq!(number(RestoreError::AlreadyBegun), 17 + 65_536);
    assert_eq!(number(RestoreError::NothingBegun), 6 + 65_536);
    assert_eq!(number(RestoreError::TooLong), 22 + 65_536);
    assert_eq!(number(RestoreError::Set(Refusal::Running)), 11 + 65_536 * 7);
    assert_eq!(number(RestoreError::Set(Refusal::Opcode)), 22 + 65_536 * 2);
}

#[test]
fn the_calls_over_bytes() {
    let mut card = bytes::write(&stopped(fresh()));
    let before = card.clone();
    assert_eq!(exported::restore_feed(&mut card, 1, &list()), 6 + 65_536);
    assert_eq!(card, before);
    assert_eq!(exported::restore_begin(&mut card, 1), 0);
    assert_eq!(exported::restore_begin(&mut card, 1), 17 + 65_536);
    assert_eq!(exported::restore_feed(&mut card, 1, &list()), 0);
    assert_eq!(exported::restore_finish(&mut card, 1, SET_ID), 0);
    let mut by_command = bytes::read(&before).unwrap();
    assert_eq!(status(&mut by_command, &set(&[list()])), OK);
    assert_eq!(card, bytes::write(&by_command));
    assert_eq!(exported::restore_begin(&mut card[1..], 1), 9);
}
