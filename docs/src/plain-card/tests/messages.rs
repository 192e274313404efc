//! Configuration by message: request 3 of document 02, layouts of source 003.

mod common;

use common::*;
use plain_card::configuration::Configuration;
use plain_card::member::Member;
use plain_card::{message, Card};

const GET_CONFIG: u8 = 0x05;
const SET_CONFIG: u8 = 0x06;
const TOKEN: [u8; 2] = [0xcd, 0xab];

/// Two members; the configuration of member 2 has bytes 1 to 12 and generation
/// 7.
fn ready() -> Card {
    let mut card = fresh();
    card.members[1].configuration =
        Configuration { bytes: std::array::from_fn(|at| at as u8 + 1), generation: 7 };
    card
}

/// A message for device 1, member 2, with a right size.
fn to_device_1(id: u8, payload: &[u8]) -> Vec<u8> {
    let size = (8 + payload.len()) as u16;
    [&[0, id, 1, 0], &TOKEN[..], &size.to_le_bytes(), payload].concat()
}

fn read(offset: u32, length: u32) -> Vec<u8> {
    to_device_1(GET_CONFIG, &[offset.to_le_bytes(), length.to_le_bytes()].concat())
}

fn write(generation: u32, offset: u32, data: &[u8]) -> Vec<u8> {
    let fields = [generation, offset, data.len() as u32].map(u32::to_le_bytes).concat();
    to_device_1(SET_CONFIG, &[&fields, data].concat())
}

/// The response of device 1.
fn response(id: u8, generation: u32, offset: u32, data: &[u8]) -> Vec<u8> {
    let size = (20 + data.len()) as u16;
    let fields = [generation, offset, data.len() as u32].map(u32::to_le_bytes).concat();
    [&[1, id, 1, 0], &TOKEN[..], &size.to_le_bytes(), &fields, data].concat()
}

/// The bytes written to a buffer of this length; the rest has to stand.
fn answer_in(card: &mut Card, bytes: &[u8], room: usize) -> Vec<u8> {
    let sound = card.is_sound();
    let mut reply = vec![PATTERN; room];
    let written = message(card, bytes, &mut reply);
    assert!(reply[written..].iter().all(|byte| *byte == PATTERN));
    assert_eq!(card.is_sound(), sound);
    reply.truncate(written);
    reply
}

fn answer(card: &mut Card, bytes: &[u8]) -> Vec<u8> {
    answer_in(card, bytes, 100)
}

/// The message is answered so, and the card stands as it was.
fn unchanged(bytes: &[u8], expected: &[u8]) {
    let mut card = ready();
    assert_eq!(answer(&mut card, bytes), expected);
    assert_eq!(card, ready());
}

/// The bus outcome: no reply bytes and no change.
fn bus(bytes: &[u8]) {
    unchanged(bytes, &[]);
}

#[test]
fn a_new_card_has_zeros_and_generation_0() {
    for member in fresh().members {
        assert_eq!(member.configuration, Configuration { bytes: [0; 12], generation: 0 });
    }
}

#[test]
fn a_read_tells_bytes_and_generation() {
    let all: Vec<u8> = (1..=12).collect();
    for offset in 0..12 {
        for length in 1..=12 - offset {
            let (from, to) = (offset as usize, (offset + length) as usize);
            let expected = response(GET_CONFIG, 7, offset, &all[from..to]);
            unchanged(&read(offset, length), &expected);
        }
    }
}

#[test]
fn a_write_is_applied_echoed_and_moves_the_generation() {
    for offset in 0..12u8 {
        for length in 1..=12 - offset {
            let mut card = ready();
            let data = vec![0xee; length.into()];
            let written = answer(&mut card, &write(7, offset.into(), &data));
            assert_eq!(written, response(SET_CONFIG, 8, offset.into(), &data));
            let mut expected = ready();
            let configuration = &mut expected.members[1].configuration;
            configuration.generation = 8;
            configuration.bytes[offset.into()..(offset + length).into()].fill(0xee);
            assert_eq!(card, expected);
        }
    }
}

#[test]
fn a_write_of_the_bytes_that_are_there_moves_the_generation() {
    let mut card = ready();
    assert_eq!(answer(&mut card, &write(7, 2, &[3, 4])), response(SET_CONFIG, 8, 2, &[3, 4]));
    assert_eq!(card.members[1].configuration.generation, 8);
}

#[test]
fn the_generation_goes_from_the_last_to_0() {
    let mut card = ready();
    card.members[1].configuration.generation = 4_294_967_295;
    assert_eq!(answer(&mut card, &write(4_294_967_295, 0, &[9])), response(SET_CONFIG, 0, 0, &[9]));
    assert_eq!(answer(&mut card, &write(0, 0, &[8])), response(SET_CONFIG, 1, 0, &[8]));
}

#[test]
fn a_stale_generation_answers_length_0() {
    for stale in [0, 6, 8, 7 | 1 << 16, 7 | 1 << 31, u32::MAX] {
        unchanged(&write(stale, 3, &[1, 2]), &response(SET_CONFIG, 7, 3, &[]));
    }
}

#[test]
fn past_byte_12_answers_length_0_with_the_offset_asked() {
    for (offset, length) in
        [(0, 13), (11, 2), (12, 1), (13, 1), (1 << 16, 1), (u32::MAX, 1), (u32::MAX, 2)]
    {
        unchanged(&read(offset, length), &response(GET_CONFIG, 7, offset, &[]));
        let data = vec![5; length as usize];
        unchanged(&write(7, offset, &data), &response(SET_CONFIG, 7, offset, &[]));
    }
    // The sum does not wrap at 16 or 32 bits.
    for (offset, length) in [(4, u32::MAX - 3), (1, 0xffff), (1, u32::MAX), (u32::MAX, u32::MAX)] {
        unchanged(&read(offset, length), &response(GET_CONFIG, 7, offset, &[]));
    }
}

#[test]
fn length_0_is_a_no_op_whatever_offset_and_generation() {
    for offset in [0, 12, 13, u32::MAX] {
        unchanged(&read(offset, 0), &response(GET_CONFIG, 7, offset, &[]));
        for generation in [7, 6, 0] {
            unchanged(&write(generation, offset, &[]), &response(SET_CONFIG, 7, offset, &[]));
        }
    }
}

#[test]
fn reserved_type_bits_are_ignored_and_zero_in_the_response() {
    for bits in 0..64 {
        let mut message = read(0, 1);
        message[0] = bits << 2;
        unchanged(&message, &response(GET_CONFIG, 7, 0, &[1]));
    }
}

#[test]
fn a_response_or_a_bus_message_is_no_request() {
    for low in 1..4 {
        for message in [read(0, 1), write(7, 0, &[1])] {
            bus(&[&[low | 0xf0], &message[1..]].concat());
            bus(&[&[low], &message[1..]].concat());
        }
    }
}

#[test]
fn the_message_id_is_compared_whole() {
    for id in (0..=255).filter(|id| ![GET_CONFIG, SET_CONFIG].contains(id)) {
        bus(&to_device_1(id, &[0; 8]));
        bus(&to_device_1(id, &[0; 12]));
    }
}

#[test]
fn all_lengths_agree() {
    for good in [read(0, 4), write(7, 0, &[1, 2, 3, 4])] {
        // Bytes handed over and msg_size.
        for length in 0..good.len() {
            bus(&good[..length]);
        }
        bus(&[&good[..], &[0]].concat());
        for size in [0, good.len() as u16 - 1, good.len() as u16 + 1, good.len() as u16 | 0x100] {
            bus(&[&good[..6], &size.to_le_bytes(), &good[8..]].concat());
        }
    }
    // The kind's own layout.
    bus(&to_device_1(GET_CONFIG, &[0; 7]));
    bus(&to_device_1(GET_CONFIG, &[0; 9]));
    bus(&to_device_1(GET_CONFIG, &[0; 12]));
    bus(&to_device_1(SET_CONFIG, &[0; 11]));
    // The length field of a write.
    for length in [0, 3, 5, 4 | 1 << 16, 4 | 1 << 31, u32::MAX] {
        let mut message = write(7, 0, &[1, 2, 3, 4]);
        message[16..20].copy_from_slice(&u32::to_le_bytes(length));
        bus(&message);
    }
}

#[test]
fn the_longest_write_is_a_whole_request_and_a_longer_one_is_not() {
    let data = vec![1; 65_516];
    unchanged(&write(7, 0, &data[..65_515]), &response(SET_CONFIG, 7, 0, &[]));
    // Its size cannot be told: it is 0 in 16 bits.
    bus(&write(7, 0, &data));
    let wrapped = write(7, 0, &vec![1; 65_536 + 4]);
    assert_eq!(wrapped[6..8], [24, 0]);
    bus(&wrapped);
}

#[test]
fn device_d_speaks_for_member_d_plus_1() {
    let mut message = read(0, 2);
    message[2..4].copy_from_slice(&[0, 0]);
    let mut expected = response(GET_CONFIG, 0, 0, &[0, 0]);
    expected[2..4].copy_from_slice(&[0, 0]);
    unchanged(&message, &expected);
    for device in [2, 3, 0x100, 0x101, 65_535] {
        message[2..4].copy_from_slice(&u16::to_le_bytes(device));
        bus(&message);
    }
}

#[test]
fn the_buffer_has_room_for_the_response_of_this_request() {
    let cases = [
        (read(0, 4), 24),
        (read(0, 12), 32),
        (read(12, 4), 20),
        (read(0, 0), 20),
        (write(7, 0, &[1; 4]), 24),
        (write(6, 0, &[1; 4]), 20),
        (write(7, 9, &[1; 4]), 20),
        (write(7, 0, &[]), 20),
    ];
    for (message, need) in cases {
        for room in 0..need {
            let mut card = ready();
            assert_eq!(answer_in(&mut card, &message, room), []);
            assert_eq!(card, ready());
        }
        assert_eq!(answer_in(&mut ready(), &message, need).len(), need);
    }
}

#[test]
fn an_unsound_card_gives_the_bus_outcome() {
    let mut card = ready();
    card.in_use = 4;
    let before = card.clone();
    for message in [read(0, 1), write(7, 0, &[1])] {
        assert_eq!(answer(&mut card, &message), []);
        assert_eq!(card, before);
    }
}

#[test]
fn mode_objects_and_list_in_use_do_not_matter() {
    for in_use in [0, 3, ALL] {
        for mode in [0, 1] {
            let mut card = with_objects(ready());
            assert_eq!(status(&mut card, &request(MODE_SET, 2, &[mode])), OK);
            card.in_use = in_use;
            let expected = response(SET_CONFIG, 8, 0, &[4]);
            assert_eq!(answer(&mut card, &write(7, 0, &[4])), expected);
        }
    }
}

#[test]
fn the_configuration_is_no_part() {
    let mut card = stopped(fresh());
    card.members[0].configuration = Configuration { bytes: [9; 12], generation: 7 };
    let capture = reply(&mut card, &get_all());
    let mut other = stopped(fresh());
    assert_eq!(reply(&mut other, &get_all()), capture);
    // Neither a set nor a store changes it or moves the generation.
    assert_eq!(status(&mut card, &set(&[capture[8..].to_vec()])), OK);
    card.store(1, 0x103, [0; 8], &[1]).unwrap();
    let configuration = Configuration { bytes: [9; 12], generation: 7 };
    assert_eq!(card.members[0].configuration, configuration);
}

#[test]
fn resets_give_the_generation_to_start_from() {
    let mut card = ready();
    assert_eq!((card.hand_back(2), card.wipe(2, 77)), (Ok(()), Ok(())));
    assert_eq!(card.members[1], Member::fresh(&card.setup, 1, 77));
    assert_eq!(card.members[0].configuration.generation, 0);
    assert_eq!(answer(&mut card, &read(0, 1)), response(GET_CONFIG, 77, 0, &[0]));
    assert_eq!(card.reset(u32::MAX), Ok(()));
    for member in &card.members {
        assert_eq!(member.configuration, Configuration::fresh(u32::MAX));
    }
    assert!(card.wipe(1, 5).is_err() && card.wipe(3, 5).is_err());
    assert!(card.members.iter().all(|member| member.configuration.generation == u32::MAX));
}
