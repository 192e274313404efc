//! Salvage of a torn capture.

mod common;

use common::{capture, ready_card, restore, stop, QUEUE, SETUP};
use kajurnat::{Dropped, PartType, SalvageRefused, Salvaged};

const NONE: Dropped = Dropped { unknown: 0, copies: 0, wrongly_sized: 0, wrongly_valued: 0 };

/// A packed setup and a capture.
fn setup_and_capture() -> (Vec<u8>, Vec<u8>) {
    let mut card = ready_card();
    card.store(1, PartType::DRV_FEATURES, 0, &[0x5a; 16]).unwrap();
    card.store(1, PartType::VQ_CFG, 0, &QUEUE).unwrap();
    (SETUP.to_bytes().unwrap(), capture(&mut card, 1).unwrap())
}

#[test]
fn a_whole_capture_comes_back() {
    let (setup, capture) = setup_and_capture();
    let salvaged = Salvaged::new(&setup, 1, &capture).unwrap();
    assert_eq!((&salvaged.list, salvaged.dropped, salvaged.left), (&capture, NONE, 0));
    assert_eq!(salvaged.kept, [true; 9]);
}

#[test]
fn a_capture_cut_anywhere_is_salvaged_and_set() {
    let (setup, capture) = setup_and_capture();
    let mut card = ready_card();
    stop(&mut card, 2).unwrap();
    for length in 0..capture.len() {
        let salvaged = Salvaged::new(&setup, 2, &capture[..length]).unwrap();
        assert!(salvaged.kept.is_sorted_by(|part, next| part >= next));
        assert_eq!(salvaged.dropped, NONE);
        restore(&mut card, 2, &salvaged.list).unwrap();
    }
}

#[test]
fn parts_are_dropped_for_their_causes() {
    let (setup, capture) = setup_and_capture();
    let (features, status) = (&capture[..32], &capture[140..157]);
    assert_eq!(status[..2], [3, 1]);
    let mut other = features.to_vec();
    other[31] ^= 1;
    let mut short = status[..16].to_vec();
    short[12] = 0;
    let unknown = [9; 12].into_iter().chain([0; 4]).collect();
    let damaged = [other, short, unknown, capture.clone(), status.to_vec(), vec![7]].concat();
    let salvaged = Salvaged::new(&setup, 1, &damaged).unwrap();
    let dropped = Dropped { unknown: 1, copies: 1, wrongly_sized: 1, wrongly_valued: 1 };
    assert_eq!((salvaged.list, salvaged.dropped, salvaged.left), (capture, dropped, 1));
}

#[test]
fn refusals() {
    let (setup, capture) = setup_and_capture();
    for member in [0, 3, (1 << 32) + 1] {
        assert_eq!(Salvaged::new(&setup, member, &capture), Err(SalvageRefused));
    }
    assert_eq!(Salvaged::new(&setup[1..], 1, &capture), Err(SalvageRefused));
    assert!(Salvaged::new(&setup, 1, &[0; 4064]).is_ok());
    assert_eq!(Salvaged::new(&setup, 1, &[0; 4065]), Err(SalvageRefused));
}
