//! A full capture and a later list of what changed.

mod common;

use common::{capture, ready_card, restore, stop, QUEUE, SETUP};
use kajurnat::{Difference, DifferenceError, PartType};

/// A part with flags 0.
fn part(part_type: PartType, selector: u64, value: &[u8]) -> Vec<u8> {
    let length = value.len() as u32;
    let header = [&part_type.0.to_le_bytes()[..], &[0; 2], &selector.to_le_bytes()];
    [&header.concat(), &length.to_le_bytes()[..], value].concat()
}

/// A packed setup, a full capture and a later list of two parts.
fn pair() -> (Vec<u8>, Vec<u8>, Vec<u8>) {
    let mut card = ready_card();
    card.store(1, PartType::DRV_FEATURES, 0, &[0x5a; 16]).unwrap();
    let full = capture(&mut card, 1).unwrap();
    let status = part(PartType::DEVICE_STATUS, 0, &[15]);
    let queue = part(PartType::VQ_CFG, 0x77_0000, &QUEUE);
    (SETUP.to_bytes().unwrap(), full, [queue, status].concat())
}

#[test]
fn a_value_is_a_part_of_one_of_the_lists_and_lives_as_long() {
    let (setup, full, later) = pair();
    let (status, driver) = {
        let setup = setup.clone();
        let night = Difference::new(&setup, 1, &full, &later);
        let driver = night.find(PartType::DRV_FEATURES, 0).unwrap();
        (night.find(PartType::DEVICE_STATUS, 0).unwrap(), driver)
    };
    assert_eq!((status, driver), (&[15][..], &[0x5a; 16][..]));
    assert!(later.as_ptr_range().contains(&status.as_ptr()));
    assert!(full.as_ptr_range().contains(&driver.as_ptr()));
}

#[test]
fn setting_the_made_list_is_setting_both() {
    let (setup, full, later) = pair();
    let merged = Difference::new(&setup, 2, &full, &later).merge().unwrap();
    let mut both = ready_card();
    stop(&mut both, 2).unwrap();
    let mut one = both.clone();
    restore(&mut both, 2, &full).unwrap();
    restore(&mut both, 2, &later).unwrap();
    restore(&mut one, 2, &merged).unwrap();
    assert_eq!(one, both);
    assert_eq!(capture(&mut one, 2).unwrap(), merged);
}

#[test]
fn each_refusal_has_its_name() {
    let (setup, full, later) = pair();
    let refused = |setup: &[u8], member, full: &[u8], later: &[u8]| {
        let night = Difference::new(setup, member, full, later);
        let found = night.find(PartType::DEVICE_STATUS, 0).unwrap_err();
        let mut buffer = [0xee; 300];
        assert_eq!(night.merge_into(&mut buffer), Err(found));
        assert_eq!(buffer, [0xee; 300]);
        found
    };
    assert_eq!(refused(&setup[1..], 1, &full, &later), DifferenceError::BadSetup);
    for member in [0, 3, (1 << 32) + 1] {
        assert_eq!(refused(&setup, member, &full, &later), DifferenceError::BadSetup);
    }
    assert_eq!(refused(&setup, 1, &full[1..], &later[1..]), DifferenceError::BadFull);
    assert_eq!(refused(&setup, 1, &full[32..], &later[1..]), DifferenceError::BadLater);
    assert_eq!(refused(&setup, 1, &full[32..], &later), DifferenceError::LacksPart);
    let night = Difference::new(&setup, 1, &full, &later);
    assert_eq!(night.find(PartType::VQ_CFG, 1), Err(DifferenceError::NoSuchPart));
}

#[test]
fn a_buffer_has_room_for_the_list_or_stays() {
    let (setup, full, later) = pair();
    let night = Difference::new(&setup, 1, &full, &later);
    let mut buffer = [0xee; 228];
    assert_eq!(night.merge_into(&mut buffer), Err(DifferenceError::ShortBuffer));
    assert_eq!(buffer, [0xee; 228]);
    let mut buffer = [0xee; 230];
    assert_eq!(night.merge_into(&mut buffer).unwrap(), night.merge().unwrap());
    assert_eq!(buffer[229], 0xee);
}
