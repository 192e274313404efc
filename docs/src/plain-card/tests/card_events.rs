//! Setup, resets and the card store.

mod common;

use common::*;
use plain_card::member::{Member, Mode};
use plain_card::status::EventError;
use plain_card::{Card, Setup};

/// A card on which everything of both members differs from fresh.
fn busy() -> Card {
    let mut card = stopped(card(2, 2, 1, 1));
    assert_eq!(status(&mut card, &request(CREATE, 2, &object_of_kind(0, SET))), OK);
    for member in [1, 2] {
        card.store(member, 0x101, [0; 8], &[1; 16]).unwrap();
        card.store(member, 0x104, [1, 0, 0, 0, 0, 0, 0, 0], &queue(2, 2)).unwrap();
    }
    card
}

#[test]
fn a_fresh_card() {
    let setup = Setup::alike(3, 2, 1, 1, [7; 16]).unwrap();
    let card = Card::new(&setup);
    assert!(card.is_sound());
    assert_eq!((card.in_use, card.members.len()), (3, 3));
    for member in &card.members {
        assert_eq!(member, &Member::fresh(&setup.common, 2, 0));
        assert_eq!(member.mode, Mode::Running);
        assert_eq!(member.values.device_features, [7; 16]);
        assert_eq!(member.values.queues, [[0; 32]; 4]);
    }
}

#[test]
fn reset_of_a_member_changes_nothing_else() {
    let before = busy();
    let mut card = before.clone();
    assert_eq!((card.hand_back(1), card.wipe(1, 7)), (Ok(()), Ok(())));
    assert_eq!(card.members[0], Member::fresh(&card.setup, 2, 7));
    assert_eq!(card.members[1], before.members[1]);
    assert_eq!((&card.setup, card.in_use), (&before.setup, before.in_use));
}

#[test]
fn reset_of_the_whole_card() {
    let mut card = busy();
    assert_eq!(card.reset(7), Ok(()));
    assert_eq!(card, Card::fresh(&card.whole_setup(), 7));
    assert_eq!(card.reset(0), Ok(()));
    assert_eq!(card, common::card(2, 2, 1, 1));
}

#[test]
fn store_sets_one_part_in_either_mode() {
    for mode in [Mode::Running, Mode::Stopped] {
        let mut card = busy();
        card.members[0].mode = mode;
        let mut expected = card.clone();
        expected.members[0].values.queues[1] = queue(256, 9);
        assert_eq!(card.store(1, 0x104, [1, 0, 0, 0, 0, 0, 0, 0], &queue(256, 9)), Ok(()));
        assert_eq!(card, expected);
    }
}

#[test]
fn store_ignores_selector_bytes_not_named() {
    let mut card = busy();
    assert_eq!(card.store(1, 0x103, [0xff; 8], &[5]), Ok(()));
    assert_eq!(card.store(1, 0x105, [1, 0, 9, 9, 9, 9, 9, 9], &[5; 8]), Ok(()));
    assert_eq!(card.store(1, 0x102, [22, 0, 0, 0, 9, 9, 9, 9], &[5; 2]), Ok(()));
    assert_eq!(card.store(1, 0x102, [22, 0, 0, 1, 0, 0, 0, 0], &[5; 2]), Err(EventError::NoPart));
    let values = &card.members[0].values;
    assert_eq!((values.device_status, values.notifies[1]), ([5], [5; 8]));
    assert_eq!(values.queue_select, [5; 2]);
}

#[test]
fn refusals_in_their_order() {
    let before = busy();
    let mut card = before.clone();
    for member in [0, 3, 1 << 32 | 1, u64::MAX] {
        assert_eq!(card.hand_back(member), Err(EventError::NoMember));
        assert_eq!(card.wipe(member, 7), Err(EventError::NoMember));
        assert_eq!(card.store(member, 0x999, [0; 8], &[]), Err(EventError::NoMember));
    }
    for part_type in [0x100, 0x106, 0x600] {
        assert_eq!(card.store(1, part_type, [0; 8], &[]), Err(EventError::NoPart));
    }
    let features = before.setup.features;
    assert_eq!(card.store(1, 0x100, [0; 8], &features), Err(EventError::NoPart));
    assert_eq!(card.store(1, 0x104, [2, 0, 0, 0, 0, 0, 0, 0], &[0; 32]), Err(EventError::NoPart));
    for length in [0, 15, 17] {
        let value = vec![0; length];
        assert_eq!(card.store(1, 0x101, [0; 8], &value), Err(EventError::WrongLength));
    }
    assert_eq!(card, before);
}

#[test]
fn an_unsound_card_answers_9_first() {
    let mut card = busy();
    card.in_use = 4;
    let before = card.clone();
    assert_eq!(card.reset(7), Err(EventError::NotSound));
    assert_eq!(card.hand_back(9), Err(EventError::NotSound));
    assert_eq!(card.wipe(9, 7), Err(EventError::NotSound));
    assert_eq!(card.store(9, 0x999, [0; 8], &[]), Err(EventError::NotSound));
    assert_eq!(card, before);
}

#[test]
fn the_numbers_of_the_answers() {
    let answer = plain_card::status::answer;
    assert_eq!(answer(Ok(())), 0);
    assert_eq!(answer(Err(EventError::NoMember)), 1);
    assert_eq!(answer(Err(EventError::NoPart)), 2);
    assert_eq!(answer(Err(EventError::WrongLength)), 3);
    assert_eq!(answer(Err(EventError::BadSetup)), 4);
    assert_eq!(answer(Err(EventError::BadQueueSize)), 5);
    assert_eq!(answer(Err(EventError::WrongMark)), 6);
    assert_eq!(answer(Err(EventError::NotSound)), 9);
}
