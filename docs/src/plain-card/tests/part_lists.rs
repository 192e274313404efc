//! Lists of parts, asked and given: every rule of step 10.

mod common;

use common::*;

const BAD: (u16, u16) = (22, 3);

/// Status of a parts set on a stopped member with Q = 2.
fn set_status(parts: &[Vec<u8>]) -> (u16, u16) {
    status(&mut stopped(card(2, 2, 1, 1)), &set(parts))
}

/// Status of a parts get with Q = 2.
fn get_status(headers: &[Vec<u8>]) -> (u16, u16) {
    status(&mut with_objects(card(2, 2, 1, 1)), &get(headers))
}

#[test]
fn an_empty_list_succeeds() {
    assert_eq!(set_status(&[]), OK);
    assert_eq!(get_status(&[]), OK);
}

#[test]
fn asked_parts_have_to_exist() {
    assert_eq!(get_status(&[header(0x104, 1, 0)]), OK);
    for unknown in [
        header(0x104, 2, 0),
        header(0x105, 2, 0),
        header(0x104, 0x101, 0),
        header(0x102, 4, 0),
        header(0x102, 0x10008, 0),
        header(0x106, 0, 0),
        header(0, 0, 0),
        header(0x600, 0, 0),
        flagged(1, header(0x106, 0, 0)),
    ] {
        assert_eq!(get_status(&[header(0x101, 0, 0), unknown]), BAD);
    }
}

#[test]
fn asked_twice_refuses() {
    assert_eq!(get_status(&[header(0x101, 0, 0), header(0x101, 0, 0)]), BAD);
    assert_eq!(get_status(&[header(0x102, 8, 0), header(0x103, 0, 0), header(0x102, 8, 0)]), BAD);
    // The same part under selector bytes that are not read.
    assert_eq!(get_status(&[header(0x103, 0, 0), header(0x103, 7, 0)]), BAD);
    assert_eq!(get_status(&[header(0x104, 0, 0), header(0x104, 1 << 16, 0)]), BAD);
    assert_eq!(get_status(&[header(0x104, 0, 0), header(0x104, 1, 0)]), OK);
    assert_eq!(get_status(&[header(0x104, 0, 0), header(0x105, 0, 0)]), OK);
}

#[test]
fn only_type_and_selector_of_an_asked_header_are_read() {
    let mut card = with_objects(card(2, 2, 1, 1));
    let plain = reply(&mut card, &get(&[header(0x104, 1, 0), header(0x103, 0, 0)]));
    let mut noisy = [header(0x104, 0xffff_ffff_ffff_0001, u32::MAX), header(0x103, u64::MAX, 9)];
    noisy.iter_mut().for_each(|header| header[2..4].fill(0xff));
    assert_eq!(reply(&mut card, &get(&noisy)), plain);
}

#[test]
fn all_parts_asked_in_reverse_are_a_full_capture() {
    let mut card = with_objects(card(1, 4, 1, 1));
    let headers = reply(&mut card, &metadata(2))[16..].to_vec();
    let reversed: Vec<Vec<u8>> = headers.chunks(16).rev().map(<[u8]>::to_vec).collect();
    assert_eq!(reply(&mut card, &get(&reversed)), reply(&mut card, &get_all()));
}

#[test]
fn given_parts_are_set_whole() {
    let mut card = stopped(card(2, 2, 1, 1));
    let parts = [
        part(0x105, 1, &[6; 8]),
        part(0x101, 0, &[1; 16]),
        part(0x102, 22, &[2; 2]),
        part(0x103, 0, &[3]),
        part(0x104, 1, &queue(32_768, 0xff)),
    ];
    assert_eq!(status(&mut card, &set(&parts)), OK);
    let values = &card.member(1).values;
    assert_eq!(values.driver_features, [1; 16]);
    assert_eq!(values.queue_select, [2; 2]);
    assert_eq!(values.device_status, [3]);
    assert_eq!(values.queues, [[0; 32], queue(32_768, 0xff), [0; 32], [0; 32]]);
    assert_eq!(values.notifies, [[0; 8], [6; 8], [0; 8], [0; 8]]);
    assert_eq!(card.member(2), common::card(2, 2, 1, 1).member(2));
}

#[test]
fn nothing_is_set_if_a_later_part_is_bad() {
    let mut card = stopped(card(2, 2, 1, 1));
    let parts = [part(0x101, 0, &[1; 16]), part(0x103, 0, &[3]), part(0x106, 0, &[])];
    assert_eq!(status(&mut card, &set(&parts)), BAD);
    assert_eq!(card.member(1).values.driver_features, [0; 16]);
}

#[test]
fn a_header_past_the_end_refuses() {
    let whole = part(0x103, 0, &[3]);
    for cut in 1..16 {
        assert_eq!(set_status(&[whole.clone(), whole[..cut].to_vec()]), BAD);
    }
}

#[test]
fn a_value_past_the_end_refuses() {
    let whole = part(0x101, 0, &[3; 16]);
    for cut in 16..32 {
        assert_eq!(set_status(&[whole[..cut].to_vec()]), BAD);
    }
    let skipped = flagged(1, part(0x200, 0, &[3; 16]));
    assert_eq!(set_status(&[skipped[..31].to_vec()]), BAD);
    assert_eq!(set_status(&[skipped]), OK);
}

#[test]
fn a_length_never_wraps() {
    for length in [1, 0xffff, 0x1_0000, 0x8000_0000, 0xffff_fff0, u32::MAX] {
        assert_eq!(set_status(&[flagged(1, header(0x200, 0, length))]), BAD);
    }
}

#[test]
fn parts_not_got() {
    let unknown = [(0x106, 0), (0x5ff, 0), (0, 0), (0x104, 2), (0x102, 4), (0x105, 0x100)];
    for (part_type, selector) in unknown {
        let with_flags = |flags| flagged(flags, part(part_type, selector, &[1, 2, 3]));
        assert_eq!(set_status(&[with_flags(0)]), BAD);
        assert_eq!(set_status(&[with_flags(0xfe)]), BAD);
        assert_eq!(set_status(&[with_flags(1)]), OK);
        assert_eq!(set_status(&[with_flags(1), with_flags(1)]), OK);
    }
    for part_type in [0x600, 0x601, 0xffff] {
        assert_eq!(set_status(&[flagged(1, part(part_type, 0, &[]))]), BAD);
    }
}

#[test]
fn a_skipped_part_sets_nothing() {
    let mut card = stopped(card(1, 2, 1, 1));
    let before = card.clone();
    assert_eq!(status(&mut card, &set(&[flagged(1, part(0x104, 2, &[9; 32]))])), OK);
    assert_eq!(card, before);
}

#[test]
fn known_parts_have_the_length_of_the_table() {
    for (part_type, selector, length) in [
        (0x100, 0, 16),
        (0x101, 0, 16),
        (0x102, 0, 4),
        (0x102, 8, 4),
        (0x102, 16, 2),
        (0x102, 22, 2),
        (0x103, 0, 1),
        (0x104, 1, 32),
        (0x105, 1, 8),
    ] {
        for given in 0..40 {
            let expected = if given == length { OK } else { BAD };
            assert_eq!(set_status(&[part(part_type, selector, &vec![0; given])]), expected);
            let optional = flagged(1, part(part_type, selector, &vec![0; given]));
            assert_eq!(set_status(&[optional]), expected);
        }
    }
}

#[test]
fn given_twice_refuses() {
    let one = part(0x104, 0, &queue(1, 1));
    let two = part(0x104, 1, &queue(1, 1));
    assert_eq!(set_status(&[one.clone(), two.clone()]), OK);
    assert_eq!(set_status(&[one.clone(), two, one.clone()]), BAD);
    // The same part under selector bytes that are not read.
    assert_eq!(set_status(&[one, part(0x104, 0xff << 16, &queue(1, 1))]), BAD);
    assert_eq!(set_status(&[part(0x103, 1, &[1]), part(0x103, 2, &[1])]), BAD);
    assert_eq!(set_status(&[part(0x100, 0, &[0; 16]), part(0x100, 0, &[0; 16])]), BAD);
}

#[test]
fn flags_of_a_known_part_are_not_read() {
    for flags in 0..=255 {
        assert_eq!(set_status(&[flagged(flags, part(0x101, 0, &[1; 16]))]), OK);
        assert_eq!(set_status(&[flagged(flags, part(0x100, 0, &[0; 16]))]), OK);
    }
}

#[test]
fn device_features_are_compared_and_never_set() {
    for at in 0..16 {
        let mut features = [0; 16];
        features[at] = 1;
        assert_eq!(set_status(&[part(0x100, 0, &features)]), BAD);
        assert_eq!(set_status(&[flagged(1, part(0x100, 0, &features))]), BAD);
    }
    assert_eq!(set_status(&[part(0x100, u64::MAX, &[0; 16])]), OK);
}

#[test]
fn a_full_capture_is_accepted_elsewhere_and_comes_back() {
    let mut source = with_objects(card(2, 4, 1, 1));
    let mut byte = 0;
    let mut value = |length: usize| (0..length).map(|_| (byte, byte += 1).0).collect::<Vec<u8>>();
    for (part_type, selector, length) in
        [(0x101, 0u64, 16), (0x102, 16, 2), (0x103, 0, 1), (0x105, 2, 8)]
    {
        source.store(1, part_type, selector.to_le_bytes(), &value(length)).unwrap();
    }
    source.store(1, 0x104, 3u64.to_le_bytes(), &queue(512, 0xfe)).unwrap();
    let capture = reply(&mut source, &get_all());
    let mut target = stopped(card(2, 4, 1, 1));
    assert_eq!(status(&mut target, &set(&[capture[8..].to_vec()])), OK);
    assert_eq!(reply(&mut target, &get_all()), capture);
}
