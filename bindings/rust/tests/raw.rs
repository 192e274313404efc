//! The functions of the archive on lent slices.

use kajurnat::{raw, Setup};

/// A sound card with two members.
fn sound_card() -> Vec<u8> {
    let mut card = vec![0; raw::card_bytes(2)];
    assert_eq!(raw::setup(&mut card, 2, &[1, 1], 1, 1, &[3; 16]), 0);
    card
}

#[test]
fn the_bindings_are_for_version_5() {
    assert_eq!(raw::version(), 5);
}

#[test]
fn a_sound_card_is_told_from_other_bytes() {
    let sound = sound_card();
    assert_eq!(raw::is_sound(&sound), 1);
    assert_eq!(raw::is_sound(&sound[1..]), 0);
    assert_eq!(raw::is_sound(&[sound, vec![0]].concat()), 0);
    assert_eq!(raw::is_sound(&[]), 0);
    assert_eq!(raw::is_sound(&vec![0; raw::card_bytes(2)]), 0);
}

#[test]
fn card_bytes_grow_by_one_record_a_member() {
    for members in Setup::MEMBERS {
        let setup = Setup::alike(members, 1, 0, 0, [0; 16]);
        assert_eq!(raw::card_bytes(members.into()), setup.card_bytes());
        assert_eq!(setup.card_bytes(), 27 + 1266 * usize::from(members));
    }
    for members in [0, 17, (1 << 32) + 1, u64::MAX] {
        assert_eq!(raw::card_bytes(members), 0);
    }
}

#[test]
fn a_refused_setup_leaves_zeros() {
    let length = raw::card_bytes(2);
    let features = [3; 16];
    let refused = |length: usize, numbers: [u64; 3], queues: &[u8], features: &[u8]| {
        let [members, gets, sets] = numbers;
        let mut card = vec![0xee; length];
        let answer = raw::setup(&mut card, members, queues, gets, sets, features);
        assert_eq!(answer, 4);
        assert!(card.iter().all(|&byte| byte == 0));
        let mut setup = [0xee; 23];
        let written = raw::setup_write(&mut setup, members, queues, gets, sets, features);
        assert!(written == 0 && setup == [0xee; 23] || length != raw::card_bytes(2));
    };
    refused(length, [0, 1, 1], &[], &features);
    refused(length, [17, 1, 1], &[1; 17], &features);
    refused(length, [(1 << 32) + 2, 1, 1], &[1; 2], &features);
    refused(length, [2, 1, 1], &[1, 0], &features);
    refused(length, [2, 1, 1], &[5, 1], &features);
    refused(length, [2, 1, 1], &[1], &features);
    refused(length, [2, 1, 1], &[1; 3], &features);
    refused(length, [2, 9, 1], &[1; 2], &features);
    refused(length, [2, 1, u64::MAX], &[1; 2], &features);
    refused(length, [2, 1, 1], &[1; 2], &[]);
    refused(length, [2, 1, 1], &[1; 2], &[3; 15]);
    refused(length, [2, 1, 1], &[1; 2], &[3; 17]);
    refused(length - 1, [2, 1, 1], &[1; 2], &features);
    refused(length + 1, [2, 1, 1], &[1; 2], &features);
    refused(0, [2, 1, 1], &[1; 2], &features);
    let mut card = vec![0xee; length];
    assert_eq!(raw::setup_from(&mut card, &[0x11; 19]), 4);
    assert!(card.iter().all(|&byte| byte == 0));
}

#[test]
fn a_card_that_is_not_sound_is_refused() {
    for mut card in [vec![], vec![0; 27], vec![0xff; raw::card_bytes(2)]] {
        let before = card.clone();
        let mut reply = [0xee; 16];
        assert_eq!(raw::command(&mut card, &[0; 24], &mut reply), 0);
        assert_eq!(reply, [0xee; 16]);
        let read = [0, 5, 0, 0, 0, 0, 16, 0, 0, 0, 0, 0, 0, 0, 0, 0];
        let mut response = [0xee; 20];
        assert_eq!(raw::message(&mut card, &read, &mut response), 0);
        assert_eq!(response, [0xee; 20]);
        assert_eq!(raw::hand_back(&mut card, 1), 9);
        assert_eq!(raw::wipe(&mut card, 1, 0), 9);
        assert_eq!(raw::reset_card(&mut card, 0), 9);
        assert_eq!(raw::store(&mut card, 1, 0x103, 0, &[1]), 9);
        assert_eq!(raw::restore_begin(&mut card, 1), 9);
        assert_eq!(raw::restore_feed(&mut card, 1, &[1]), 9);
        assert_eq!(raw::restore_finish(&mut card, 1, 1), 9);
        assert_eq!(raw::restore_drop(&mut card, 1), 9);
        assert_eq!(card, before);
    }
}

#[test]
fn the_first_cause_is_the_answer() {
    let mut card = sound_card();
    assert_eq!(raw::store(&mut card, 3, 0x106, 0, &[]), 1);
    assert_eq!(raw::store(&mut card, 1, 0x106, 0, &[]), 2);
    assert_eq!(raw::store(&mut card, 1, 0x103, 0, &[]), 3);
    assert_eq!(raw::store(&mut card, 1, 0x104, 0, &[100; 31]), 3);
    assert_eq!(raw::store(&mut card, 1, 0x104, 0, &[100; 32]), 5);
    assert_eq!(raw::store(&mut card, 1, 0x103, 0, &[1]), 0);
    assert_eq!((raw::hand_back(&mut card, 3), raw::wipe(&mut card, 3, 0)), (1, 1));
    assert_eq!(raw::wipe(&mut card, 1, 0), 6);
    assert_eq!((raw::hand_back(&mut card, 1), raw::hand_back(&mut card, 1)), (0, 6));
    assert_eq!(raw::restore_begin(&mut card, 1), 11 + 65_536 * 7);
    assert_eq!(raw::wipe(&mut card, 1, 0), 0);
    assert_eq!(card, sound_card());
}

#[test]
fn bytes_past_the_reply_keep_their_values() {
    let mut card = sound_card();
    let mut reply = [0xee; 32];
    assert_eq!(raw::command(&mut card, &[], &mut reply), 8);
    assert_eq!(reply[..8], [22, 0, 1, 0, 0, 0, 0, 0]);
    assert_eq!(reply[8..], [0xee; 24]);

    let mut list_query = [0; 24];
    assert_eq!(raw::request_list_query(&mut list_query), 24);
    assert_eq!(raw::command(&mut card, &list_query, &mut reply), 16);
    assert_eq!(reply[..8], [0; 8]);
    assert_eq!(reply[8..16], [0x03, 0xfc, 0x03, 0, 0, 0, 0, 0]);
    assert_eq!(reply[16..], [0xee; 16]);
}

#[test]
fn a_reply_buffer_under_eight_bytes_is_not_written() {
    let mut card = sound_card();
    for length in 0..8 {
        let mut reply = vec![0xee; length];
        assert_eq!(raw::command(&mut card, &[0; 24], &mut reply), 0);
        assert!(reply.iter().all(|&byte| byte == 0xee));
    }
}

#[test]
fn a_request_is_built_whole_or_not_at_all() {
    type Build = fn(&mut [u8]) -> usize;
    let builders: [(usize, Build); 10] = [
        (24, raw::request_list_query),
        (32, |request| raw::request_list_use(request, u64::MAX)),
        (48, |request| raw::request_create(request, u64::MAX, u32::MAX, 0xff)),
        (48, |request| raw::request_modify(request, u64::MAX, u32::MAX, 0xff)),
        (40, |request| raw::request_query(request, u64::MAX, u32::MAX)),
        (32, |request| raw::request_destroy(request, u64::MAX, u32::MAX)),
        (40, |request| raw::request_metadata(request, u64::MAX, u32::MAX, 0xff)),
        (43, |request| raw::request_get(request, u64::MAX, u32::MAX, 0xff, &[0xff; 3])),
        (35, |request| raw::request_set(request, u64::MAX, u32::MAX, &[0xff; 3])),
        (25, |request| raw::request_mode(request, u64::MAX, 0xff)),
    ];
    for (length, build) in builders {
        for short in 0..length {
            let mut request = vec![0xee; short];
            assert_eq!(build(&mut request), 0);
            assert!(request.iter().all(|&byte| byte == 0xee));
        }
        let mut request = [0xee; 5000];
        assert_eq!(build(&mut request), length);
        assert!(request[length..].iter().all(|&byte| byte == 0xee));
        assert_eq!(request[2..16], [1, 0, 0, 0, 0, 0, 0, 0, 0, 0, 0, 0, 0, 0]);
    }
}

#[test]
fn a_request_over_4096_bytes_is_not_built() {
    let mut request = [0xee; 5000];
    assert_eq!(raw::request_get(&mut request, 1, 0, 0, &[0; 4057]), 0);
    assert_eq!(raw::request_set(&mut request, 1, 0, &[0; 4065]), 0);
    assert_eq!(request, [0xee; 5000]);
    assert_eq!(raw::request_get(&mut request, 1, 0, 0, &[0; 4056]), 4096);
    assert_eq!(raw::request_set(&mut request, 1, 0, &[0; 4064]), 4096);
}

#[test]
fn a_reply_is_read_or_nothing_is_written() {
    let read = |opcode, what, reply: &[u8]| {
        let [mut a, mut b, mut c, mut d] = [0xeeee; 4];
        let answer = raw::reply_read(opcode, what, reply, &mut a, &mut b, &mut c, &mut d);
        (answer, [a, b, c, d])
    };
    assert_eq!(read(0x11, 0, &[11, 0, 7, 0, 0, 0, 0, 0]), (0, [11, 7, 11, 7]));
    assert_eq!(read(0x11, 0, &[1, 2, 3, 4, 0, 0, 0, 0]), (0, [22, 1, 0x201, 0x403]));
    assert_eq!(read(0x0e, 1, &[0; 16]), (0, [0; 4]));
    let refused = (1, [0xeeee; 4]);
    assert_eq!(read(0x11, 0, &[0; 7]), refused);
    assert_eq!(read(0x11, 0, &[0; 9]), refused);
    assert_eq!(read(0x11, 0, &[22, 0, 1, 0, 0, 0, 0, 0, 0]), refused);
    assert_eq!(read(0x02, 0, &[0; 8]), refused);
    assert_eq!(read(0x0e, 2, &[0, 0, 0, 0, 0, 0, 0, 0, 1, 0, 0, 0, 0, 0, 0, 0]), refused);
}
