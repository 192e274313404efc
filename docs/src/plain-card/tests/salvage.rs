//! Salvage of a torn capture (request 8 of document 02).

mod common;

use common::{flagged, header, part, queue, set, status, stopped, OK};
use plain_card::exported::{self, Report};
use plain_card::list::LONGEST;
use plain_card::part::{inventory, Part};
use plain_card::salvage::{salvage, Salvaged};
use plain_card::setups;
use plain_card::{Card, Setup};

const FEATURES: [u8; 16] = [7; 16];
const NONE: [u32; 4] = [0; 4];

/// Two members with 1 and 3 queues.
fn setup() -> Setup {
    Setup::new(2, &[1, 3], 1, 1, FEATURES).unwrap()
}

fn salvaged(damaged: &[u8]) -> Salvaged {
    let salvaged = salvage(&setup(), 1, damaged).unwrap();
    let mut card = stopped(Card::new(&Setup::alike(1, 1, 1, 1, FEATURES).unwrap()));
    assert_eq!(
        status(&mut card, &set(std::slice::from_ref(&salvaged.list))),
        OK,
        "step 10 passes it"
    );
    assert_eq!(salvaged.list.len(), 157 + 72);
    salvaged
}

/// The numbers dropped and left over.
fn numbers(damaged: &[u8]) -> ([u32; 4], u32) {
    let Salvaged { dropped, left, .. } = salvaged(damaged);
    (dropped, left)
}

/// The parts that were kept.
fn kept(damaged: &[u8]) -> Vec<Part> {
    let kept = salvaged(damaged).kept;
    inventory(1).zip(kept).filter(|(_, kept)| *kept).map(|(part, _)| part).collect()
}

fn parts(queues: u8) -> Vec<Vec<u8>> {
    let value = |name: Part| match name {
        Part::DeviceFeatures => FEATURES.to_vec(),
        Part::Queue(index) => queue(128, index).to_vec(),
        name => vec![0x5a; name.length() as usize],
    };
    inventory(queues).map(|name| part(name.part_type(), selector(name), &value(name))).collect()
}

fn selector(part: Part) -> u64 {
    u64::from_le_bytes(part.selector())
}

#[test]
fn a_whole_list_comes_back_with_all_kept_and_zeros() {
    for (member, queues) in [(1, 1), (2, 3)] {
        let mut list = parts(queues);
        list[0][2] = 1;
        let expected = list.concat();
        list.reverse();
        let noise = list.iter().map(|part| flagged(0xf0, part.clone())).collect::<Vec<_>>();
        for damaged in [&expected, &list.concat(), &noise.concat()] {
            let salvaged = salvage(&setup(), member, damaged).unwrap();
            assert_eq!(salvaged.list, expected);
            assert_eq!(salvaged.kept, vec![true; list.len()]);
            assert_eq!((salvaged.dropped, salvaged.left), (NONE, 0));
        }
    }
}

#[test]
fn what_is_missing_is_fresh() {
    let fresh = salvaged(&[]);
    assert_eq!(fresh.kept, [false; 9]);
    assert_eq!((fresh.dropped, fresh.left), (NONE, 0));
    assert_eq!(fresh.list[16..32], FEATURES);
    assert_eq!(fresh.list[48..64], [0; 16]);
    let status = salvaged(&part(0x103, 0, &[9]));
    assert_eq!(
        status.list.iter().zip(&fresh.list).filter(|(ours, fresh)| ours != fresh).count(),
        1
    );
}

#[test]
fn every_part_outside_the_inventory_is_dropped_each_time() {
    let optional = flagged(1, part(0x200, 0, &[1; 3]));
    let queue = part(0x104, 1, &queue(1, 0));
    let list = [optional.clone(), optional, queue, part(0x700, 0, &[]), part(0x103, 0, &[9])];
    assert_eq!(numbers(&list.concat()), ([4, 0, 0, 0], 0));
    assert_eq!(kept(&list.concat()), [Part::DeviceStatus]);
}

#[test]
fn the_first_copy_that_is_allowed_is_kept() {
    let list = [
        part(0x103, 0, &[1, 1]),
        part(0x103, 0, &[2]),
        part(0x103, 0, &[3]),
        part(0x103, 0, &[4, 4]),
    ];
    let salvaged = salvaged(&list.concat());
    assert_eq!(salvaged.dropped, [0, 2, 1, 0], "a wrongly sized copy after it is a copy");
    assert!(salvaged.list.windows(17).any(|bytes| bytes == part(0x103, 0, &[2])));
}

#[test]
fn values_are_judged_by_request_5_and_the_setup() {
    let list = [
        part(0x104, 0, &queue(100, 0)),
        part(0x104, 0, &queue(0, 1)),
        part(0x100, 0, &[8; 16]),
        part(0x100, 0, &[8; 15]),
    ];
    assert_eq!(numbers(&list.concat()), ([0, 0, 1, 3], 0));
    assert_eq!(kept(&list.concat()), []);
    let good = [list.concat(), part(0x100, 0, &FEATURES), part(0x104, 0, &queue(1, 1))].concat();
    assert_eq!(kept(&good), [Part::DeviceFeatures, Part::Queue(0)]);
}

#[test]
fn it_stops_at_what_runs_past_the_end() {
    let status = part(0x103, 0, &[9]);
    let behind = part(0x101, 0, &[5; 16]);
    for torn in [
        header(0x103, 0, 1),
        header(0x101, 0, u32::MAX),
        [header(0x200, 0, 33), behind.clone()].concat(),
        status[..15].to_vec(),
        vec![0],
    ] {
        let list = [status.clone(), torn.clone()].concat();
        assert_eq!(numbers(&list), (NONE, torn.len() as u32));
        assert_eq!(kept(&list), [Part::DeviceStatus]);
    }
    assert_eq!(numbers(&[status, header(0x200, 0, 32), behind].concat()), ([1, 0, 0, 0], 0));
}

#[test]
fn refusals() {
    assert!(salvage(&setup(), 1, &[0; LONGEST]).is_some());
    assert!(salvage(&setup(), 1, &[0; LONGEST + 1]).is_none());
    for member in [0, 3, 257, (1 << 32) + 1, u64::MAX] {
        assert!(salvage(&setup(), member, &[]).is_none());
    }
}

/// The bytes written, and whether list or report was changed.
fn exported_salvage(setup: &[u8], damaged: &[u8], lengths: [usize; 3]) -> (usize, bool) {
    let mut list = vec![0xa5; lengths[0]];
    let mut kept = vec![0xa5; lengths[1]];
    let mut dropped = vec![0xa5; lengths[2]];
    let mut left = 0xa5;
    let report = Report { kept: &mut kept, dropped: &mut dropped, left: &mut left };
    let written = exported::salvage(setup, 1, damaged, &mut list, report);
    let stands = |bytes: &[u8], from: usize| bytes[from..].iter().all(|byte| *byte == 0xa5);
    assert!(written == 0 || stands(&list, written) && stands(&kept, 9));
    let untouched = stands(&list, 0) && stands(&kept, 0) && dropped.iter().all(|it| *it == 0xa5);
    (written, !untouched || left != 0xa5)
}

#[test]
fn a_refusal_writes_nothing() {
    let good = setups::write(&setup());
    let damaged = part(0x103, 0, &[9]);
    for lengths in [[229, 9, 4], [300, 15, 6]] {
        assert_eq!(exported_salvage(&good, &damaged, lengths), (229, true));
    }
    for lengths in [[228, 9, 4], [229, 8, 4], [229, 9, 3], [0; 3]] {
        assert_eq!(exported_salvage(&good, &damaged, lengths), (0, false));
    }
    assert_eq!(exported_salvage(&good[1..], &damaged, [300; 3]), (0, false));
    assert_eq!(exported_salvage(&good, &[0; LONGEST + 1], [300; 3]), (0, false));
}
