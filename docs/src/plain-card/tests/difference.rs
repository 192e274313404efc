//! A full capture and a later list of what changed (request 7 of document 02).

mod common;

use common::{
    flagged, get_all, header, part, queue, reply, request, set, status, stopped, OK, PARTS_SET,
};
use plain_card::difference::{Found, List, Pair, Refused};
use plain_card::exported::{difference_find, difference_merge};
use plain_card::part::{inventory, Part};
use plain_card::setups;
use plain_card::{Card, Setup};

const FEATURES: [u8; 16] = [7; 16];

/// Two members with 1 and 3 queues.
fn setup() -> Setup {
    Setup::new(2, &[1, 3], 1, 1, FEATURES).unwrap()
}

/// A value that the part may have, of this byte.
fn value(part: Part, byte: u8) -> Vec<u8> {
    match part {
        Part::DeviceFeatures => FEATURES.to_vec(),
        Part::Queue(_) => queue(128, byte).to_vec(),
        _ => vec![byte; part.length() as usize],
    }
}

/// The parts of a full capture of a member with so many queues.
fn full_parts(queues: u8) -> Vec<Vec<u8>> {
    inventory(queues).map(|part| [&part.header(), &value(part, 1)[..]].concat()).collect()
}

fn full(queues: u8) -> Vec<u8> {
    full_parts(queues).concat()
}

/// A later list: device status, and a queue under unnamed selector bytes and
/// other flags.
fn later() -> Vec<u8> {
    let queue = part(0x104, 0x5a5a_5a5a_5a5a_0000, &queue(64, 9));
    [part(0x103, 0, &[15]), flagged(0xff, queue)].concat()
}

fn find(member: u64, full: &[u8], later: &[u8], part_type: u16) -> Result<Vec<u8>, Refused> {
    let pair = Pair::new(&setup(), member, full, later)?;
    Ok(pair.find(part_type, [0; 8])?.value.to_vec())
}

fn merge(member: u64, full: &[u8], later: &[u8]) -> Result<Vec<u8>, Refused> {
    Pair::new(&setup(), member, full, later).map(|pair| pair.merged())
}

#[test]
fn a_value_is_that_of_the_later_list_or_else_of_the_full_capture() {
    let (full, later) = (full(1), later());
    let pair = Pair::new(&setup(), 1, &full, &later).unwrap();
    let status = Found { list: List::Later, at: 16, value: &[15] };
    assert_eq!(pair.find(0x103, [0; 8]), Ok(status));
    let driver = Found { list: List::Full, at: 48, value: &[1; 16] };
    assert_eq!(pair.find(0x101, [0; 8]), Ok(driver));
    for part in inventory(1) {
        let Found { list, at, value } = pair.find(part.part_type(), part.selector()).unwrap();
        let list = if list == List::Full { &full } else { &later };
        assert_eq!(list[at..][..value.len()].as_ptr(), value.as_ptr(), "no copy");
        assert_eq!(value.len(), part.length() as usize);
    }
}

#[test]
fn a_value_outlives_the_pair_that_it_was_looked_up_in() {
    let (full, later) = (full(1), later());
    let found = Pair::new(&setup(), 1, &full, &later).unwrap().find(0x103, [0; 8]).unwrap();
    assert_eq!(found.value, [15]);
}

#[test]
fn selector_bytes_not_named_are_ignored() {
    let (full, later) = (full(1), later());
    let pair = Pair::new(&setup(), 1, &full, &later).unwrap();
    assert_eq!(pair.find(0x103, [9; 8]), pair.find(0x103, [0; 8]));
    let noise = [0, 0, 9, 9, 9, 9, 9, 9];
    assert_eq!(pair.find(0x104, noise).unwrap().value, queue(64, 9));
    assert_eq!(pair.find(0x104, [0, 1, 0, 0, 0, 0, 0, 0]), Err(Refused::Part));
}

#[test]
fn the_made_list_has_each_part_once_in_the_tables_order_with_its_headers() {
    let mut expected = full_parts(1);
    expected[6] = part(0x103, 0, &[15]);
    expected[7] = part(0x104, 0, &queue(64, 9));
    let mut shuffled = full_parts(1);
    shuffled.reverse();
    let shuffled = [shuffled.concat(), flagged(1, part(0x200, 0, &[0; 9]))].concat();
    assert_eq!(merge(1, &full(1), &later()), Ok(expected.concat()));
    assert_eq!(merge(1, &shuffled, &later()), Ok(expected.concat()));
    assert_eq!(merge(2, &full(3), &[]), Ok(full(3)));
    assert_eq!(merge(1, &full(1), &[]).unwrap().len(), 157 + 72);
}

#[test]
fn setting_the_made_list_leaves_the_member_as_setting_both() {
    let fresh = stopped(Card::new(&Setup::alike(1, 1, 1, 1, FEATURES).unwrap()));
    let (full, later) = (full(1), later());
    let (mut both, mut one) = (fresh.clone(), fresh);
    assert_eq!(status(&mut both, &set(std::slice::from_ref(&full))), OK);
    assert_eq!(status(&mut both, &set(std::slice::from_ref(&later))), OK);
    let merged = merge(1, &full, &later).unwrap();
    assert_eq!(status(&mut one, &set(std::slice::from_ref(&merged))), OK);
    assert_eq!(one, both);
    assert_eq!(reply(&mut both, &get_all())[8..], merged);
    assert_eq!(merge(1, &merged, &[]), Ok(merged), "it is a full capture");
}

#[test]
fn a_list_is_refused_where_step_10_refuses_it() {
    let fresh = stopped(Card::new(&Setup::alike(1, 1, 1, 1, FEATURES).unwrap()));
    let status_part = part(0x103, 0, &[1]);
    for bad in [
        status_part[..16].to_vec(),
        header(0x103, 0, u32::MAX),
        part(0x200, 0, &[]),
        flagged(1, part(0x600, 0, &[])),
        part(0x104, 1, &queue(1, 0)),
        part(0x103, 0, &[1; 2]),
        part(0x104, 0, &queue(100, 0)),
        part(0x104, 0, &queue(0, 1)),
        part(0x100, 0, &[8; 16]),
        [&status_part[..], &status_part].concat(),
    ] {
        let set = request(PARTS_SET, 1, &[vec![0, 0, 0, 0, 1, 0, 0, 0], bad.clone()].concat());
        assert_eq!(status(&mut fresh.clone(), &set), (22, 3));
        assert_eq!(merge(1, &full(1), &bad), Err(Refused::Later));
        assert_eq!(merge(1, &bad, &[]), Err(Refused::Full));
        assert_eq!(find(1, &full(1), &bad, 0x103), Err(Refused::Later));
    }
}

#[test]
fn the_length_of_a_list_has_no_other_limit() {
    let long = flagged(1, part(0x5ff, 0, &vec![0; 70_000]));
    let lists = [[full(1), long.clone()].concat(), [long, later()].concat()];
    assert_eq!(merge(1, &lists[0], &lists[1]), merge(1, &full(1), &later()));
}

#[test]
fn a_capture_that_lacks_any_part_is_not_full() {
    for lacking in 0..full_parts(1).len() {
        let mut parts = full_parts(1);
        let removed = parts.remove(lacking);
        assert_eq!(merge(1, &parts.concat(), &removed), Err(Refused::Lacking));
        assert_eq!(find(1, &parts.concat(), &[], 0x103), Err(Refused::Lacking));
    }
    assert_eq!(merge(1, &[], &[]), Err(Refused::Lacking));
}

#[test]
fn a_capture_goes_by_the_queues_of_the_member() {
    assert_eq!(merge(2, &full(1), &[]), Err(Refused::Lacking));
    assert_eq!(merge(1, &full(3), &[]), Err(Refused::Full));
    assert_eq!(find(2, &full(3), &[], 0x101), Ok(vec![1; 16]));
}

#[test]
fn a_number_that_is_no_member_is_a_bad_setup() {
    for member in [0, 3, 257, (1 << 32) + 1, u64::MAX] {
        assert_eq!(merge(member, &full(1), &[]), Err(Refused::Setup));
        assert_eq!(find(member, &[1], &[1], 0), Err(Refused::Setup));
    }
}

/// The answer of the making, the bytes written, and whether the buffer stands.
fn exported_merge(setup: &[u8], full: &[u8], later: &[u8], room: usize) -> (u8, u64, bool) {
    let mut buffer = vec![0xa5; room];
    let mut written = 99;
    let answer = difference_merge(setup, 1, [full, later], &mut buffer, &mut written);
    let untouched =
        buffer.get(written as usize..).is_some_and(|rest| rest.iter().all(|b| *b == 0xa5));
    (answer, written, untouched)
}

#[test]
fn the_first_refusal_that_applies_is_given() {
    let good = setups::write(&setup());
    let bad_full = [full(1), vec![0]].concat();
    let bad_later = [1];
    let lacking = &full(1)[32..];
    let refused = |number| (number, 0, true);
    assert_eq!(exported_merge(&good[1..], &bad_full, &bad_later, 0), refused(1));
    assert_eq!(exported_merge(&good, &bad_full, &bad_later, 0), refused(2));
    assert_eq!(exported_merge(&good, lacking, &bad_later, 0), refused(3));
    assert_eq!(exported_merge(&good, lacking, &[], 0), refused(4));
    assert_eq!(exported_merge(&good, &full(1), &[], 228), refused(6));
    assert_eq!(exported_merge(&good, &full(1), &[], 229), (0, 229, true));
    assert_eq!(exported_merge(&good, &full(1), &[], 300), (0, 229, true));
    let find = |lists: [&[u8]; 2], part_type| {
        let mut place = (9, 9, 9);
        (difference_find(&good, 1, lists, part_type, 0, &mut place), place)
    };
    assert_eq!(find([lacking, &[]], 0x106), (4, (0, 0, 0)));
    assert_eq!(find([&full(1), &[]], 0x106), (5, (0, 0, 0)));
    assert_eq!(find([&full(1), &[]], 0x101), (0, (0, 48, 16)));
    assert_eq!(find([&full(1), &later()], 0x103), (0, (1, 16, 1)));
}
