//! What the card's own firmware reads.

use plain_card::exported::{self, configuration, load, member, setup_of};
use plain_card::loads::Summary;

/// Two members, of one and of two queues, with a get and a set object each.
fn card() -> Vec<u8> {
    let mut card = vec![0; exported::card_bytes(2)];
    assert_eq!(exported::setup(&mut card, 2, &[1, 2], 1, 1, &[7; 16]), 0);
    card
}

const NONE: Summary = Summary { state: 9, queues: 9, gets: 9, sets: 9, held: 9 };

#[test]
fn a_load_gives_what_was_stored() {
    let mut card = card();
    let mut queue = [0xaa; 32];
    queue[..2].copy_from_slice(&[64, 0]);
    assert_eq!(exported::store(&mut card, 2, 0x104, 1, &queue), 0);
    for state in ["running", "marked"] {
        let mut value = [0xee; 32];
        assert_eq!(load(&card, 2, 0x104, 1, &mut value), 0, "{state}");
        assert_eq!(value, queue, "{state}");
        exported::hand_back(&mut card, 2);
    }
    assert_eq!(exported::wipe(&mut card, 2, 5), 0);
    let mut value = [0xee; 32];
    assert_eq!(load(&card, 2, 0x104, 1, &mut value), 0);
    assert_eq!(value, [0; 32]);
}

#[test]
fn device_features_are_loaded() {
    let mut value = [0; 16];
    assert_eq!(load(&card(), 1, 0x100, 0, &mut value), 0);
    assert_eq!(value, [7; 16]);
}

#[test]
fn the_first_refusal_answers_and_nothing_is_written() {
    let (good, mut value) = (card(), [0xee; 31]);
    let mut bad = good.clone();
    bad[0] = 0;
    assert_eq!(load(&bad, 3, 0x106, 0, &mut value), 9);
    assert_eq!(load(&good, 3, 0x106, 0, &mut value), 1);
    assert_eq!(load(&good, 1, 0x106, 0, &mut value), 2);
    assert_eq!(load(&good, 1, 0x104, 1, &mut value), 2);
    assert_eq!(load(&good, 2, 0x104, 1, &mut value), 3);
    assert_eq!(value, [0xee; 31]);
}

#[test]
fn a_member_is_told_in_numbers() {
    let mut card = card();
    let mut summary = NONE;
    assert_eq!(member(&card, 3, &mut summary), 1);
    assert_eq!(member(&[], 1, &mut summary), 9);
    assert_eq!(summary, NONE);
    assert_eq!(member(&card, 2, &mut summary), 0);
    assert_eq!(summary, Summary { state: 0, queues: 2, gets: 0, sets: 0, held: 0 });
    assert_eq!(exported::restore_begin(&mut card, 2), 0);
    assert_eq!(exported::restore_feed(&mut card, 2, &[1, 2, 3]), 0);
    assert_eq!(member(&card, 2, &mut summary), 0);
    assert_eq!(summary.held, 4);
    assert_eq!(exported::hand_back(&mut card, 2), 0);
    assert_eq!(member(&card, 2, &mut summary), 0);
    assert_eq!(summary, Summary { state: 2, queues: 2, gets: 0, sets: 0, held: 0 });
}

#[test]
fn a_configuration_is_told_with_its_generation() {
    let mut card = card();
    assert_eq!(exported::reset_card(&mut card, 9), 0);
    let (mut bytes, mut generation) = ([0xee; 12], 0);
    assert_eq!(configuration(&card, 1, &mut bytes[..11], &mut generation), 3);
    assert_eq!((bytes, generation), ([0xee; 12], 0));
    assert_eq!(configuration(&card, 1, &mut bytes, &mut generation), 0);
    assert_eq!((bytes, generation), ([0; 12], 9));
}

#[test]
fn the_setup_of_a_card_makes_such_a_card() {
    let card = card();
    let mut setup = [0xee; 23];
    assert_eq!(setup_of(&card, &mut setup[..19]), 0);
    assert_eq!(setup, [0xee; 23]);
    assert_eq!(setup_of(&card, &mut setup), 20);
    let mut again = vec![0xee; card.len()];
    assert_eq!(exported::setup_from(&mut again, &setup[..20]), 0);
    assert_eq!(again, card);
    assert_eq!(setup_of(&card[1..], &mut setup), 0);
}
