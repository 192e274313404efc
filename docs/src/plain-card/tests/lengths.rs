//! Request 2 of document 02: requests of any length are understood.

mod common;

use common::*;
use plain_card::member::Mode;
use plain_card::Card;

const FIELD: (u16, u16) = (22, 3);

/// Get object 1 and set object 2 are live, object 0 is not; member 1 is
/// stopped.
fn ready() -> Card {
    let mut card = all_used(card(1, 1, 2, 1));
    assert_eq!(status(&mut card, &create(1, GET)), OK);
    assert_eq!(status(&mut card, &create(2, SET)), OK);
    assert_eq!(status(&mut card, &request(MODE_SET, 1, &[1])), OK);
    card
}

/// Data of each command that succeeds on [`ready`]: its fixed fields, whole.
fn whole() -> Vec<(u16, Vec<u8>)> {
    vec![
        (LIST_QUERY, vec![]),
        (LIST_USE, ALL.to_le_bytes().to_vec()),
        (CREATE, object_of_kind(0, GET)),
        (MODIFY, object_of_kind(1, GET)),
        (QUERY, object_and_flags(1)),
        (DESTROY, object(1)),
        (METADATA, object_and_type(1, 2)),
        (PARTS_GET, object_and_type(1, 0)),
        (PARTS_SET, object(2)),
        (MODE_SET, vec![1]),
    ]
}

/// Reply and card after a command.
fn outcome(opcode: u16, data: &[u8]) -> (Vec<u8>, Card) {
    let mut card = ready();
    (reply(&mut card, &request(opcode, 1, data)), card)
}

#[test]
fn missing_bytes_read_as_zero() {
    for (opcode, data) in whole() {
        for length in 0..=data.len() {
            let mut padded = data[..length].to_vec();
            padded.resize(data.len(), 0);
            let cut = outcome(opcode, &data[..length]);
            assert_eq!(cut, outcome(opcode, &padded), "{opcode:#x}, {length} bytes");
        }
    }
}

#[test]
fn no_length_alone_refuses() {
    for (opcode, data) in whole() {
        for length in 0..60 {
            let mut data = data.clone();
            data.resize(length, 0);
            let mut card = ready();
            let status = status(&mut card, &request(opcode, 1, &data));
            assert_ne!(status, (22, 1), "{opcode:#x}, {length} bytes");
        }
    }
}

#[test]
fn a_cut_field_keeps_the_bytes_that_came() {
    let mut card = ready();
    // One byte of the id.
    assert_eq!(status(&mut card, &request(DESTROY, 1, &[0, 0, 0, 0, 1])), OK);
    assert_eq!(status(&mut card, &request(DESTROY, 1, &[0, 0, 0, 0, 1])), (6, 1));
    assert_eq!(status(&mut card, &request(DESTROY, 1, &[0, 0, 0, 0, 0, 1])), FIELD);
    // One byte of type and flags.
    assert_eq!(status(&mut card, &request(QUERY, 1, &[1])), FIELD);
    let flags = [object(2), vec![1]].concat();
    assert_eq!(status(&mut card, &request(QUERY, 1, &flags)), FIELD);
    assert_eq!(status(&mut card, &request(QUERY, 1, &flags[..8])), OK);
}

#[test]
fn a_missing_id_is_id_0() {
    for opcode in [MODIFY, QUERY, DESTROY, METADATA, PARTS_GET, PARTS_SET] {
        for length in 0..=4 {
            let mut card = ready();
            let cut = request(opcode, 1, &vec![0; length]);
            assert_eq!(status(&mut card, &cut), (6, 1), "{opcode:#x}");
        }
    }
    let mut card = ready();
    assert_eq!(status(&mut card, &request(CREATE, 1, &[])), OK);
    assert_eq!(status(&mut card, &request(CREATE, 1, &[])), (17, 1));
}

#[test]
fn a_create_ends_with_its_kind() {
    let mut card = ready();
    let set = object_of_kind(0, SET);
    // There is room for a get object and for no set object.
    assert_eq!(status(&mut card, &request(CREATE, 1, &set[..17])), (28, 1));
    assert_eq!(status(&mut card, &request(CREATE, 1, &set[..16])), OK);
}

#[test]
fn bytes_past_the_fixed_fields_are_ignored() {
    let open = [LIST_USE, PARTS_GET, PARTS_SET];
    for (opcode, data) in whole().into_iter().filter(|(opcode, _)| !open.contains(opcode)) {
        let plain = outcome(opcode, &data);
        assert_eq!(plain.0[..8], [0; 8]);
        for more in [1, 2, 7, 8, 16, 100, 4072 - data.len()] {
            let longer = [data.clone(), vec![0xff; more]].concat();
            assert_eq!(outcome(opcode, &longer), plain, "{opcode:#x}, {more} bytes more");
        }
    }
}

#[test]
fn list_use_reads_one_long_mask() {
    for length in 0..=40 {
        let mut mask = ALL.to_le_bytes().to_vec();
        mask.resize(length, 0);
        let mut card = ready();
        assert_eq!(status(&mut card, &request(LIST_USE, 0, &mask)), OK);
        mask.resize(8, 0);
        assert_eq!(card.in_use.to_le_bytes(), mask[..]);
    }
}

#[test]
fn list_use_refuses_every_bit_past_63() {
    for bit in (64..72).chain([127, 128, 129, 191, 192, 4072 * 8 - 1]) {
        for length in [bit / 8 + 1, (bit / 64 + 1) * 8] {
            let mut mask = ALL.to_le_bytes().to_vec();
            mask.resize(length, 0);
            mask[bit / 8] |= 1 << (bit % 8);
            assert_eq!(status(&mut ready(), &request(LIST_USE, 0, &mask)), FIELD, "bit {bit}");
        }
    }
}

#[test]
fn a_cut_mask_keeps_unsupported_bits() {
    assert_eq!(status(&mut ready(), &request(LIST_USE, 0, &[0x07])), FIELD);
    let mut card = ready();
    assert_eq!(status(&mut card, &request(LIST_USE, 0, &[0x03, 0xfc])), OK);
    assert_eq!(card.in_use, 0xfc03);
}

#[test]
fn empty_list_use_blocks_every_command_until_a_card_reset() {
    let mut card = ready();
    assert_eq!(status(&mut card, &request(LIST_USE, 0, &[])), OK);
    for (opcode, data) in whole() {
        assert_eq!(status(&mut card, &request(opcode, 1, &data)), (22, 2));
    }
    card.hand_back(1).unwrap();
    card.wipe(1, 0).unwrap();
    assert_eq!(status(&mut card, &request(LIST_USE, 0, &ALL.to_le_bytes())), (22, 2));
    card.reset(0).unwrap();
    assert_eq!(status(&mut card, &request(LIST_USE, 0, &ALL.to_le_bytes())), OK);
}

#[test]
fn empty_mode_set_resumes() {
    let mut card = ready();
    assert_eq!(status(&mut card, &request(MODE_SET, 1, &[])), OK);
    assert_eq!(card.member(1).mode, Mode::Running);
    assert_eq!(status(&mut card, &request(MODE_SET, 1, &[1, 0xff])), OK);
    assert_eq!(card.member(1).mode, Mode::Stopped);
}

#[test]
fn any_byte_with_get_all_counts_as_headers() {
    for more in 1..40 {
        for byte in [0, 1, 0xff] {
            let with = |id| [object_and_type(id, 1), vec![byte; more]].concat();
            // Step 7: ahead of an id that is not live.
            assert_eq!(status(&mut ready(), &request(PARTS_GET, 1, &with(0))), FIELD);
            assert_eq!(status(&mut ready(), &request(PARTS_GET, 1, &with(1))), FIELD);
        }
    }
}

#[test]
fn get_all_may_end_with_its_type_byte() {
    let all = object_and_type(1, 1);
    for length in 9..=16 {
        assert_eq!(outcome(PARTS_GET, &all[..length]), outcome(PARTS_GET, &all));
    }
}

#[test]
fn an_incomplete_header_refuses_at_step_10() {
    let status_header = header(0x103, 0, 0);
    for whole in [vec![], header(0x101, 0, 0), [header(0x101, 0, 0), header(0x105, 0, 0)].concat()]
    {
        for length in 1..16 {
            let asks = |id| {
                let data = [&object_and_type(id, 0), &whole, &status_header[..length]].concat();
                request(PARTS_GET, 1, &data)
            };
            let mut card = ready();
            // After an id that is not live and before a short buffer.
            assert_eq!(status(&mut card, &asks(0)), (6, 1));
            assert_eq!(status(&mut card, &asks(1)), FIELD);
            assert_eq!(status_in(&mut card, &asks(1), 8), FIELD);
        }
    }
}

#[test]
fn a_get_without_all_fixed_fields_asks_for_nothing() {
    let asks = object_and_type(1, 0);
    for length in 5..=16 {
        let mut card = ready();
        assert_eq!(reply(&mut card, &request(PARTS_GET, 1, &asks[..length])), [0; 8]);
    }
}

#[test]
fn a_set_without_all_fixed_fields_sets_nothing() {
    for length in 5..=8 {
        let (reply, card) = outcome(PARTS_SET, &object(2)[..length]);
        assert_eq!((reply, card), (vec![0; 8], ready()));
    }
}

#[test]
fn a_set_list_is_as_document_01_has_it() {
    let list = part(0x101, 0, &[7; 16]);
    for length in 0..=32 {
        let mut card = ready();
        let data = [&object(2), &list[..length]].concat();
        let expected = if length == 0 || length == 32 { OK } else { FIELD };
        assert_eq!(status(&mut card, &request(PARTS_SET, 1, &data)), expected);
    }
}

#[test]
fn request_and_reply_buffer_keep_their_limits() {
    let mut card = ready();
    let query = request(LIST_QUERY, 0, &[0xff; 4073]);
    assert_eq!(status(&mut card, &query[..23]), (22, 1));
    assert_eq!(status(&mut card, &query[..24]), OK);
    assert_eq!(status(&mut card, &query[..4096]), OK);
    assert_eq!(status(&mut card, &query), (22, 1));
    assert_eq!(status_in(&mut card, &query[..30], 15), (12, 6));
    assert_eq!(status_in(&mut card, &query[..30], 16), OK);
}
