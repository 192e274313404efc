//! Reset of a member in two halves: request 10 of document 02.

mod common;

use common::*;
use plain_card::configuration::Configuration;
use plain_card::holding::Holding;
use plain_card::member::{Member, Mode};
use plain_card::object::Objects;
use plain_card::status::{restore_answer, EventError, Refusal, RestoreError};
use plain_card::{message, Card};

const TRY_AGAIN: (u16, u16) = (11, 7);

/// A card on which everything of both members differs from fresh, and bytes are
/// held for member 1.
fn busy() -> Card {
    let mut card = with_objects(card(2, 2, 1, 1));
    assert_eq!(status(&mut card, &request(CREATE, 2, &object_of_kind(0, SET))), OK);
    for member in [1, 2] {
        card.store(member, 0x104, [1, 0, 0, 0, 0, 0, 0, 0], &queue(8, 2)).unwrap();
        card.member_mut(member).configuration = Configuration { bytes: [3; 12], generation: 9 };
    }
    card.restore_begin(1).unwrap();
    card.restore_feed(1, &[1, 2, 3]).unwrap();
    card
}

/// The same with member 1 handed back.
fn handed_back() -> Card {
    let mut card = busy();
    assert_eq!(card.hand_back(1), Ok(()));
    assert!(card.is_sound());
    card
}

#[test]
fn hand_back_ends_objects_and_holding_place_stops_and_marks() {
    let mut expected = busy();
    let record = expected.member_mut(1);
    record.objects = Objects::default();
    record.holding = Holding::default();
    record.mode = Mode::Stopped;
    record.marked = true;
    // Parts, configuration and generation stay, and so does the other member.
    assert_eq!(handed_back(), expected);
}

#[test]
fn wipe_makes_everything_fresh_with_the_generation_given() {
    let mut card = handed_back();
    assert_eq!(card.wipe(1, 77), Ok(()));
    let mut expected = busy();
    *expected.member_mut(1) = Member::fresh(&expected.setup, 2, 77);
    assert_eq!(card, expected);
    assert!(!card.member(1).marked);
}

#[test]
fn the_wrong_half_answers_6_and_changes_nothing() {
    let mut card = handed_back();
    assert_eq!(card.hand_back(1), Err(EventError::WrongMark));
    assert_eq!(card.wipe(2, 5), Err(EventError::WrongMark));
    assert_eq!(card, handed_back());
    assert_eq!(card.wipe(1, 5), Ok(()));
    let wiped = card.clone();
    assert_eq!(card.wipe(1, 6), Err(EventError::WrongMark));
    assert_eq!(card, wiped);
}

#[test]
fn six_comes_after_9_and_1() {
    let mut card = handed_back();
    assert_eq!(card.hand_back(3), Err(EventError::NoMember));
    assert_eq!(card.wipe(0, 5), Err(EventError::NoMember));
    card.in_use = 4;
    assert_eq!(card.hand_back(1), Err(EventError::NotSound));
    assert_eq!(card.wipe(2, 5), Err(EventError::NotSound));
}

#[test]
fn every_command_that_names_the_member_answers_11_7() {
    let mut card = handed_back();
    for opcode in [CREATE, MODIFY, QUERY, DESTROY, METADATA, PARTS_GET, PARTS_SET, MODE_SET] {
        // Whatever length, fields and object.
        for data in [vec![], vec![0; 24], vec![0xff; 40], vec![0; 4072]] {
            assert_eq!(status(&mut card, &request(opcode, 1, &data)), TRY_AGAIN);
            assert_eq!(status_in(&mut card, &request(opcode, 1, &data), 8), TRY_AGAIN);
        }
    }
    assert_eq!(card, handed_back());
}

#[test]
fn steps_1_to_5_come_first() {
    let mut card = handed_back();
    assert_eq!(reply_in(&mut card, &request(MODE_SET, 1, &[1]), 7), []);
    assert_eq!(status(&mut card, &request(MODE_SET, 1, &[0; 4073])), (22, 1));
    assert_eq!(status(&mut card, &request_of_group(2, MODE_SET, 1, &[1])), (22, 4));
    assert_eq!(status(&mut card, &request(0x12, 1, &[1])), (22, 2));
    assert_eq!(status(&mut card, &request(MODE_SET, 3, &[1])), (22, 5));
    assert_eq!(status(&mut card, &request(LIST_USE, 0, &3u64.to_le_bytes())), OK);
    assert_eq!(status(&mut card, &request(MODE_SET, 1, &[1])), (22, 2));
}

#[test]
fn other_members_and_the_list_commands_go_on() {
    let mut card = handed_back();
    assert_eq!(status(&mut card, &request(LIST_QUERY, 1, &[])), OK);
    assert_eq!(status(&mut card, &request(LIST_USE, 1, &ALL.to_le_bytes())), OK);
    assert_eq!(status(&mut card, &request(MODE_SET, 2, &[1])), OK);
}

#[test]
fn card_stores_still_work() {
    let mut card = handed_back();
    assert_eq!(card.store(1, 0x103, [0; 8], &[4]), Ok(()));
    assert_eq!(card.store(1, 0x103, [0; 8], &[]), Err(EventError::WrongLength));
    let mut expected = handed_back();
    expected.member_mut(1).values.device_status = [4];
    assert_eq!(card, expected);
}

#[test]
fn calls_of_a_restore_answer_11_7_right_after_22_5() {
    let mut card = handed_back();
    let refused = Err(RestoreError::Marked);
    assert_eq!(restore_answer(refused), 11 + 65_536 * 7);
    assert_eq!(card.restore_begin(1), refused);
    // Ahead of 6/1 and 22/1, and of what a parts set would be refused for.
    assert_eq!(card.restore_feed(1, &[]), refused);
    assert_eq!(card.restore_feed(1, &[0; 2000]), refused);
    assert_eq!(card.restore_finish(1, 99), refused);
    assert_eq!(card.restore_drop(1), refused);
    assert_eq!(card, handed_back());
    assert_eq!(card.restore_begin(3), Err(RestoreError::NoMember));
    assert_eq!(card.restore_begin(2), Ok(()));
    // A finish on a member that runs has these numbers too, and ends the place.
    assert_eq!(card.restore_finish(2, 0), Err(RestoreError::Set(Refusal::Running)));
    assert_eq!(card, handed_back());
}

#[test]
fn messages_get_the_bus_outcome() {
    let mut card = handed_back();
    let read = |device| [0, 5, device, 0, 0, 0, 16, 0, 0, 0, 0, 0, 1, 0, 0, 0];
    let mut reply = [PATTERN; 32];
    assert_eq!(message(&mut card, &read(0), &mut reply), 0);
    assert_eq!((&card, reply), (&handed_back(), [PATTERN; 32]));
    assert_eq!(message(&mut card, &read(1), &mut reply), 21);
}

#[test]
fn a_reset_of_the_whole_card_wipes_all() {
    let mut card = handed_back();
    assert_eq!(card.reset(4), Ok(()));
    assert_eq!(card, Card::fresh(&card.whole_setup(), 4));
}

#[test]
fn a_fresh_member_may_be_handed_back_too() {
    let mut card = fresh();
    assert_eq!((card.hand_back(2), card.wipe(2, 0)), (Ok(()), Ok(())));
    assert_eq!(card, fresh());
}
