//! Every row of the status table, and which of two neighbours comes first.

mod common;

use common::*;

#[test]
fn step_1_writes_nothing() {
    let query = request(LIST_QUERY, 0, &[]);
    for room in 0..8 {
        assert_eq!(reply_in(&mut fresh(), &query, room), []);
    }
    let mut unsound = fresh();
    unsound.in_use = 1 << 2;
    assert_eq!(reply(&mut unsound, &query), []);
}

#[test]
fn step_1_before_2() {
    assert_eq!(reply_in(&mut fresh(), &[], 7), []);
    assert_eq!(reply_in(&mut fresh(), &[], 8), [22, 0, 1, 0, 0, 0, 0, 0]);
}

#[test]
fn step_2_request_length() {
    let mut card = stopped(fresh());
    let query = request(LIST_QUERY, 0, &[]);
    assert_eq!(status(&mut card, &query[..23]), (22, 1));
    assert_eq!(status(&mut card, &query), OK);
    // An unknown optional part fills a parts set to the longest request.
    let filled = |length: usize| set(&[flagged(1, part(0x5ff, 0, &vec![0; length - 48]))]);
    assert_eq!(filled(4096).len(), 4096);
    assert_eq!(status(&mut card, &filled(4096)), OK);
    assert_eq!(status(&mut card, &filled(4097)), (22, 1));
}

#[test]
fn step_2_before_3() {
    let bad_group = request_of_group(2, LIST_QUERY, 0, &[]);
    assert_eq!(status(&mut fresh(), &bad_group[..23]), (22, 1));
    assert_eq!(status(&mut fresh(), &bad_group), (22, 4));
}

#[test]
fn step_3_group_type() {
    for group in [0, 2, 0x0101, 0x0100, 0xffff] {
        assert_eq!(status(&mut fresh(), &request_of_group(group, 0, 0, &[])), (22, 4));
    }
}

#[test]
fn step_3_before_4() {
    assert_eq!(status(&mut fresh(), &request_of_group(0, 0x02, 0, &[])), (22, 4));
    assert_eq!(status(&mut fresh(), &request(0x02, 0, &[])), (22, 2));
}

#[test]
fn step_4_opcodes_not_supported() {
    let mut card = all_used(fresh());
    for opcode in (2..0x0a).chain(0x12..0x200).chain([0x4000, 0x400a, 0xffff]) {
        assert_eq!(status(&mut card, &request(opcode, 1, &[])), (22, 2));
    }
}

#[test]
fn step_4_opcodes_not_in_use() {
    let mut card = all_used(fresh());
    card.in_use = ALL & !(1 << MODE_SET);
    assert_eq!(status(&mut card, &request(MODE_SET, 1, &[1])), (22, 2));
    assert_eq!(status(&mut card, &create(0, GET)), OK);
}

#[test]
fn step_4_the_list_commands_may_be_absent() {
    let mut card = fresh();
    assert_eq!(status(&mut card, &request(LIST_USE, 0, &(1u64 << 17).to_le_bytes())), OK);
    assert_eq!(status(&mut card, &request(LIST_QUERY, 0, &[])), (22, 2));
    assert_eq!(status(&mut card, &request(LIST_USE, 0, &ALL.to_le_bytes())), (22, 2));
    assert_eq!(status(&mut card, &request(MODE_SET, 1, &[1])), OK);
}

#[test]
fn step_4_before_5() {
    assert_eq!(status(&mut fresh(), &request(MODE_SET, 9, &[1])), (22, 2));
    assert_eq!(status(&mut all_used(fresh()), &request(MODE_SET, 9, &[1])), (22, 5));
}

#[test]
fn step_5_the_member_field_has_64_bits() {
    let mut card = all_used(fresh());
    for member in [0, 3, 1 << 8 | 1, 1 << 32 | 1, 1 << 63 | 2, u64::MAX] {
        for opcode in CREATE..=MODE_SET {
            assert_eq!(status(&mut card, &request(opcode, member, &[])), (22, 5));
        }
    }
}

#[test]
fn step_5_the_list_commands_do_not_read_it() {
    let mut card = fresh();
    assert_eq!(status(&mut card, &request(LIST_QUERY, u64::MAX, &[])), OK);
    assert_eq!(status(&mut card, &request(LIST_USE, 9, &ALL.to_le_bytes())), OK);
}

#[test]
fn step_5_before_7() {
    let mut card = all_used(fresh());
    assert_eq!(status(&mut card, &request(MODE_SET, 3, &[2])), (22, 5));
    assert_eq!(status(&mut card, &request(MODE_SET, 1, &[2])), (22, 3));
}

/// Whether every value of byte `at` of the data but the `good` ones gives 22/3.
fn only(good: &[u8], at: usize, opcode: u16, data: &[u8]) {
    for byte in 0..=255 {
        let mut data = data.to_vec();
        data[at] = byte;
        let mut card = with_objects(fresh());
        let refused = status(&mut card, &request(opcode, 1, &data)) == (22, 3);
        assert_eq!(refused, !good.contains(&byte), "opcode {opcode:#x}, byte {at} is {byte}");
    }
}

#[test]
fn step_7_mask_bits() {
    for bit in 0..64 {
        let mask = 1u64 << bit;
        let expected = if ALL & mask != 0 { OK } else { (22, 3) };
        assert_eq!(status(&mut fresh(), &request(LIST_USE, 0, &mask.to_le_bytes())), expected);
    }
}

#[test]
fn step_7_object_type_and_flags() {
    // Each on a live object of the right kind, so that the field alone refuses.
    for at in [0, 1] {
        only(&[0], at, MODIFY, &object_of_kind(0, GET));
        only(&[0], at, QUERY, &object_and_flags(0));
        only(&[0], at, DESTROY, &object(0));
        only(&[0], at, METADATA, &object_and_type(0, 0));
        only(&[0], at, PARTS_GET, &object_and_type(0, 0));
        only(&[0], at, PARTS_SET, &object(1));
        only(&[0], at, CREATE, &object_of_kind(0, GET));
    }
    for at in 8..16 {
        only(&[0], at, CREATE, &object_of_kind(0, GET));
        only(&[0], at, MODIFY, &object_of_kind(0, GET));
        only(&[0], at, QUERY, &object_and_flags(0));
    }
}

#[test]
fn step_7_ids() {
    // Ids 0 and 1 are valid. Byte 4 alone can name one; 5 to 7 must be zero.
    only(&[0, 1], 4, QUERY, &object_and_flags(0));
    only(&[0, 1], 4, DESTROY, &object(0));
    for at in 5..8 {
        only(&[0], at, CREATE, &object_of_kind(0, GET));
        only(&[0], at, MODIFY, &object_of_kind(0, GET));
        only(&[0], at, QUERY, &object_and_flags(0));
        only(&[0], at, DESTROY, &object(0));
        only(&[0], at, METADATA, &object_and_type(0, 0));
        only(&[0], at, PARTS_GET, &object_and_type(0, 0));
        only(&[0], at, PARTS_SET, &object(1));
    }
}

#[test]
fn step_7_no_id_is_valid_without_objects() {
    let mut card = all_used(card(1, 1, 0, 0));
    assert_eq!(status(&mut card, &create(0, GET)), (22, 3));
    assert_eq!(status(&mut card, &destroy(0)), (22, 3));
    assert_eq!(status(&mut card, &metadata(0)), (22, 3));
}

#[test]
fn step_7_kind_type_and_mode_bytes() {
    only(&[0, 1], 16, CREATE, &object_of_kind(0, GET));
    only(&[0, 1], 16, MODIFY, &object_of_kind(0, GET));
    only(&[0, 1, 2], 8, METADATA, &object_and_type(0, 0));
    only(&[0, 1], 8, PARTS_GET, &object_and_type(0, 0));
    only(&[0, 1], 0, MODE_SET, &[0]);
}

#[test]
fn step_7_headers_with_get_all() {
    let mut card = with_objects(fresh());
    let data = [object_and_type(0, 1), header(0x103, 0, 0)].concat();
    assert_eq!(status(&mut card, &request(PARTS_GET, 1, &data)), (22, 3));
    assert_eq!(status(&mut card, &get(&[header(0x103, 0, 0)])), OK);
}

#[test]
fn step_7_reserved_bytes_are_ignored() {
    // The reserved bytes of the frame, of the object header and behind a kind
    // or type byte at `at` of the data.
    let noisy = |mut request: Vec<u8>, at: usize| {
        request[4..16].fill(0xff);
        request[26..28].fill(0xff);
        request[24 + at + 1..].fill(0xff);
        request
    };
    let mut card = with_objects(card(1, 1, 2, 1));
    assert_eq!(status(&mut card, &noisy(create(2, GET), 16)), OK);
    assert_eq!(status(&mut card, &noisy(modify(2, GET), 16)), OK);
    assert_eq!(status(&mut card, &noisy(metadata(2), 8)), OK);
    assert_eq!(status(&mut card, &noisy(get_all(), 8)), OK);
    assert_eq!(status(&mut card, &noisy(destroy(2), 7)), OK);
}

#[test]
fn step_7_before_8() {
    let mut card = with_objects(fresh());
    // A bad kind on a live id, a bad type byte on an id that is not live.
    assert_eq!(status(&mut card, &create(0, 2)), (22, 3));
    assert_eq!(status(&mut card, &create(0, GET)), (17, 1));
    assert_eq!(status(&mut card, &destroy(0)), OK);
    assert_eq!(status(&mut card, &metadata(3)), (22, 3));
    assert_eq!(status(&mut card, &metadata(0)), (6, 1));
}

#[test]
fn step_8_ids_not_live() {
    let mut card = all_used(card(1, 1, 2, 2));
    let not_live = [
        modify(3, GET),
        request(QUERY, 1, &object_and_flags(3)),
        destroy(3),
        request(METADATA, 1, &object_and_type(3, 0)),
        request(PARTS_GET, 1, &object_and_type(3, 1)),
        request(PARTS_SET, 1, &object(3)),
    ];
    for request in not_live {
        assert_eq!(status(&mut card, &request), (6, 1));
    }
}

#[test]
fn step_8_live_before_limit() {
    // Both G and S are reached; the live id answers first.
    let mut card = with_objects(fresh());
    assert_eq!(status(&mut card, &create(1, GET)), (17, 1));
    let mut none = all_used(common::card(1, 1, 0, 1));
    assert_eq!(status(&mut none, &create(0, GET)), (28, 1));
    assert_eq!(status(&mut none, &modify(0, GET)), (6, 1));
}

#[test]
fn step_8_limits() {
    let mut card = all_used(card(1, 1, 2, 1));
    assert_eq!(status(&mut card, &create(0, SET)), OK);
    assert_eq!(status(&mut card, &create(1, SET)), (28, 1));
    assert_eq!(status(&mut card, &create(1, GET)), OK);
    assert_eq!(status(&mut card, &create(2, GET)), OK);
    // To the same kind at the limit, and to a kind that is full.
    assert_eq!(status(&mut card, &modify(0, SET)), OK);
    assert_eq!(status(&mut card, &modify(1, GET)), OK);
    assert_eq!(status(&mut card, &modify(0, GET)), (28, 1));
    assert_eq!(status(&mut card, &modify(1, SET)), (28, 1));
    // A destroyed object gives its room back.
    assert_eq!(status(&mut card, &destroy(0)), OK);
    assert_eq!(status(&mut card, &modify(1, SET)), OK);
}

#[test]
fn step_8_wrong_kinds() {
    let mut card = with_objects(fresh());
    assert_eq!(status(&mut card, &request(METADATA, 1, &object_and_type(1, 0))), (22, 3));
    assert_eq!(status(&mut card, &request(PARTS_GET, 1, &object_and_type(1, 1))), (22, 3));
    assert_eq!(status(&mut card, &request(PARTS_SET, 1, &object(0))), (22, 3));
}

#[test]
fn step_8_objects_are_counted_per_member() {
    let mut card = with_objects(fresh());
    assert_eq!(status(&mut card, &request(CREATE, 2, &object_of_kind(0, GET))), OK);
    assert_eq!(status(&mut card, &request(CREATE, 2, &object_of_kind(1, SET))), OK);
}

#[test]
fn step_8_before_9() {
    // Member 1 runs.
    let mut card = with_objects(fresh());
    assert_eq!(status(&mut card, &request(PARTS_SET, 1, &object(0))), (22, 3));
    assert_eq!(status(&mut card, &set(&[])), (11, 7));
    assert_eq!(status(&mut card, &destroy(1)), OK);
    assert_eq!(status(&mut card, &set(&[])), (6, 1));
}

#[test]
fn step_9_before_10() {
    let bad_list = set(&[vec![0]]);
    assert_eq!(status(&mut with_objects(fresh()), &bad_list), (11, 7));
    assert_eq!(status(&mut stopped(fresh()), &bad_list), (22, 3));
}

#[test]
fn step_9_other_commands_work_in_either_mode() {
    for mut card in [with_objects(fresh()), stopped(fresh())] {
        assert_eq!(status(&mut card, &metadata(0)), OK);
        assert_eq!(status(&mut card, &get_all()), OK);
        assert_eq!(status(&mut card, &modify(0, GET)), OK);
        assert_eq!(status(&mut card, &request(MODE_SET, 1, &[1])), OK);
        assert_eq!(status(&mut card, &request(MODE_SET, 1, &[1])), OK);
        assert_eq!(status(&mut card, &request(MODE_SET, 1, &[0])), OK);
        assert_eq!(status(&mut card, &request(MODE_SET, 1, &[0])), OK);
    }
}

#[test]
fn step_10_before_11() {
    let mut card = with_objects(fresh());
    let bad = get(&[header(0x101, 0, 0), header(0x106, 0, 0)]);
    let good = get(&[header(0x101, 0, 0)]);
    assert_eq!(status_in(&mut card, &bad, 8), (22, 3));
    assert_eq!(status_in(&mut card, &good, 8), (12, 6));
}

#[test]
fn step_11_one_byte_short_and_exact() {
    let mut card = with_objects(fresh());
    let needs = [
        (request(LIST_QUERY, 0, &[]), 16),
        (request(QUERY, 1, &object_and_flags(1)), 16),
        (metadata(0), 16),
        (metadata(1), 16),
        (metadata(2), 160),
        (get_all(), 237),
        (get(&[header(0x103, 0, 0)]), 25),
        (get(&[]), 8),
        (request(LIST_USE, 0, &ALL.to_le_bytes()), 8),
        (request(MODE_SET, 1, &[1]), 8),
        (set(&[]), 8),
        (modify(0, GET), 8),
        (destroy(1), 8),
        (create(1, SET), 8),
    ];
    for (request, need) in needs {
        if need > 8 {
            assert_eq!(status_in(&mut card, &request, 8), (12, 6));
            assert_eq!(status_in(&mut card, &request, need - 1), (12, 6));
        }
        assert_eq!(status_in(&mut card, &request, need), OK);
        assert!(reply_in(&mut card.clone(), &request, need + 1).len() <= need);
    }
}

#[test]
fn step_12_query_tells_the_kind() {
    let mut card = with_objects(fresh());
    let query = |id| request(QUERY, 1, &object_and_flags(id));
    assert_eq!(reply(&mut card, &query(0)), [0; 16]);
    assert_eq!(reply(&mut card, &query(1)), [0, 0, 0, 0, 0, 0, 0, 0, 1, 0, 0, 0, 0, 0, 0, 0]);
}

#[test]
fn step_12_counts_and_sizes_for_every_number_of_queues() {
    for queues in 1..=4u8 {
        let mut card = with_objects(card(1, queues, 1, 1));
        let count = 7 + 2 * queues;
        let size = 157 + 72 * usize::from(queues);
        assert_eq!(reply(&mut card, &metadata(1))[8], count);
        assert_eq!(reply(&mut card, &metadata(0))[8..10], (size as u16).to_le_bytes());
        assert_eq!(reply(&mut card, &metadata(2)).len(), 16 + 16 * usize::from(count));
        assert_eq!(reply(&mut card, &get_all()).len(), 8 + size);
    }
}
