//! The worked examples of document 01, "Shown on the bench".

mod common;

use common::*;

#[test]
fn b1_list_query() {
    let expected = [0, 0, 0, 0, 0, 0, 0, 0, 0x03, 0xFC, 0x03, 0, 0, 0, 0, 0];
    assert_eq!(reply(&mut fresh(), &request(LIST_QUERY, 0, &[])), expected);
}

#[test]
fn b2_create_is_not_in_use_on_a_fresh_card() {
    let expected = [0x16, 0, 0x02, 0, 0, 0, 0, 0];
    assert_eq!(reply(&mut fresh(), &request(CREATE, 0, &[])), expected);
}

#[test]
fn b3_group_before_opcode() {
    assert_eq!(status(&mut fresh(), &request_of_group(2, 0xffff, 0, &[])), (22, 4));
}

#[test]
fn b4_members_are_one_to_n() {
    let mut card = all_used(fresh());
    assert_eq!(status(&mut card, &request(MODE_SET, 0, &[1])), (22, 5));
    assert_eq!(status(&mut card, &request(MODE_SET, 3, &[1])), (22, 5));
    assert_eq!(status(&mut card, &request(MODE_SET, 2, &[1])), OK);
}

#[test]
fn b5_to_b7_objects() {
    let mut card = all_used(fresh());
    assert_eq!(status(&mut card, &create(0, GET)), OK);
    assert_eq!(status(&mut card, &create(0, GET)), (17, 1));
    assert_eq!(status(&mut card, &create(1, GET)), (28, 1));
    assert_eq!(status(&mut card, &create(2, GET)), (22, 3));
    assert_eq!(status(&mut card, &create(1, SET)), OK);
    assert_eq!(status(&mut card, &destroy(0)), OK);
    assert_eq!(status(&mut card, &create(0, GET)), OK);
}

#[test]
fn b8_parts_set_on_a_running_member() {
    assert_eq!(status(&mut with_objects(fresh()), &set(&[])), (11, 7));
}

#[test]
fn b9_count_and_size() {
    let mut card = with_objects(fresh());
    assert_eq!(reply(&mut card, &metadata(1))[8..], [9, 0, 0, 0, 0, 0, 0, 0]);
    assert_eq!(reply(&mut card, &metadata(0))[8..], [229, 0, 0, 0, 0, 0, 0, 0]);
}

#[test]
fn b10_selected_parts_come_in_table_order() {
    let mut card = with_objects(fresh());
    card.store(1, 0x103, [0; 8], &[7]).unwrap();
    card.store(1, 0x105, [0; 8], &[1, 2, 3, 4, 5, 6, 7, 8]).unwrap();
    let reply = reply(&mut card, &get(&[header(0x105, 0, 0), header(0x103, 0, 0)]));
    let parts = [part(0x103, 0, &[7]), part(0x105, 0, &[1, 2, 3, 4, 5, 6, 7, 8])];
    assert_eq!(reply, [vec![0; 8], parts.concat()].concat());
    assert_eq!(reply.len(), 49);
}

#[test]
fn b11_a_part_named_twice_refuses_the_list() {
    let mut card = stopped(fresh());
    let twice = [part(0x101, 0, &[1; 16]), part(0x101, 0, &[2; 16])];
    assert_eq!(status(&mut card, &set(&twice)), (22, 3));
    assert_eq!(card.member(1).values.driver_features, [0; 16]);
}

#[test]
fn b12_get_all_needs_237_bytes() {
    let mut card = with_objects(fresh());
    assert_eq!(status_in(&mut card, &get_all(), 236), (12, 6));
    let reply = reply_in(&mut card, &get_all(), 237);
    assert_eq!((reply.len(), &reply[..8]), (237, &[0; 8][..]));
}

#[test]
fn metadata_list() {
    let headers = [
        flagged(1, header(0x100, 0, 16)),
        header(0x101, 0, 16),
        header(0x102, 0, 4),
        header(0x102, 8, 4),
        header(0x102, 16, 2),
        header(0x102, 22, 2),
        header(0x103, 0, 1),
        header(0x104, 0, 32),
        header(0x105, 0, 8),
    ];
    let reply = reply(&mut with_objects(fresh()), &metadata(2));
    let count = [9, 0, 0, 0, 0, 0, 0, 0];
    assert_eq!(reply, [vec![0; 8], count.to_vec(), headers.concat()].concat());
    assert_eq!(reply.len(), 160);
}
