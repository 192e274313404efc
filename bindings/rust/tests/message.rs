//! Configuration by message.

mod common;

use common::fresh_card;
use kajurnat::{BadResponse, Card, Message, MessageTooLong, NoResponse, Response};

/// The bytes read or written, and the generation.
fn hear(card: &mut Card, message: &Message) -> (Vec<u8>, u32) {
    let mut buffer = [0xee; Response::MAX];
    let response = card.message(message, &mut buffer).expect("there is a response");
    let response = message.read(response).expect("it is a response to the message");
    (response.data().to_vec(), response.generation())
}

#[test]
fn a_configuration_is_written_and_read() {
    let mut card = fresh_card();
    let write = |generation, data: &[u8]| Message::set_config(1, generation, 3, data).unwrap();
    assert_eq!(hear(&mut card, &write(0, &[7, 8, 9])), (vec![7, 8, 9], 1));
    assert_eq!(hear(&mut card, &write(0, &[1, 2, 3])), (vec![], 1));
    assert_eq!(hear(&mut card, &write(1, &[])), (vec![], 1));
    assert_eq!(hear(&mut card, &write(1, &[5; 10])), (vec![], 1));
    let all = vec![0, 0, 0, 7, 8, 9, 0, 0, 0, 0, 0, 0];
    assert_eq!(hear(&mut card, &Message::get_config(1, 0, 12)), (all, 1));
    assert_eq!(hear(&mut card, &Message::get_config(1, 0, 13)), (vec![], 1));
    assert_eq!(hear(&mut card, &Message::get_config(0, 3, 3)), (vec![0; 3], 0));
}

#[test]
fn a_reset_gives_the_generation_to_start_from() {
    let mut card = fresh_card();
    let read = Message::get_config(1, 0, 1);
    hear(&mut card, &Message::set_config(1, 0, 0, &[9]).unwrap());
    card.hand_back(2).unwrap();
    assert_eq!(card.message(&read, &mut [0; Response::MAX]), Err(NoResponse));
    card.wipe(2, u32::MAX).unwrap();
    assert_eq!(hear(&mut card, &read), (vec![0], u32::MAX));
    let write = Message::set_config(1, u32::MAX, 0, &[9]).unwrap();
    assert_eq!(hear(&mut card, &write), (vec![9], 0));
    card.reset(5);
    assert_eq!(hear(&mut card, &read), (vec![0], 5));
}

#[test]
fn the_bus_outcome_changes_nothing() {
    let mut card = fresh_card();
    let write = Message::set_config(1, 0, 0, &[9; 4]).unwrap();
    let mut other = write.as_bytes().to_vec();
    other.push(0);
    let no_device = Message::get_config(2, 0, 1);
    let mut buffer = [0xee; Response::MAX];
    assert_eq!(card.message(&other, &mut buffer), Err(NoResponse));
    assert_eq!(card.message(no_device, &mut buffer), Err(NoResponse));
    assert_eq!(card.message(&write, &mut buffer[..23]), Err(NoResponse));
    assert_eq!(card, fresh_card());
    assert_eq!(buffer, [0xee; Response::MAX]);
    assert_eq!(card.message(&write, &mut buffer[..24]).map(<[u8]>::len), Ok(24));
}

#[test]
fn messages_have_the_layout_of_virtio_msg() {
    let read = Message::get_config(0x0201, 3, 4).with_token(0x0605);
    assert_eq!(read.as_bytes(), [0, 5, 1, 2, 5, 6, 16, 0, 3, 0, 0, 0, 4, 0, 0, 0]);
    let write = Message::set_config(1, 7, 3, &[9, 8]).unwrap();
    let fields = [7, 0, 0, 0, 3, 0, 0, 0, 2, 0, 0, 0, 9, 8];
    assert_eq!(write.as_bytes()[..8], [0, 6, 1, 0, 0, 0, 22, 0]);
    assert_eq!(write.as_bytes()[8..], fields);
}

#[test]
fn a_message_has_at_most_65535_bytes() {
    let data = vec![1; 65_516];
    let longest = Message::set_config(0, 0, 0, &data[..65_515]).unwrap();
    assert_eq!(longest.as_bytes().len(), 65_535);
    assert_eq!(hear(&mut fresh_card(), &longest), (vec![], 0));
    let error = MessageTooLong { length: 65_536 };
    assert_eq!(Message::set_config(0, 0, 0, &data), Err(error));
}

#[test]
fn other_bytes_are_no_response() {
    let read = Message::get_config(1, 2, 3);
    let mut buffer = [0; Response::MAX];
    let mut card = fresh_card();
    let good = card.message(&read, &mut buffer).unwrap().to_vec();
    let with = |at: usize, byte: u8| {
        let mut changed = good.clone();
        changed[at] = byte;
        changed
    };
    assert!(read.read(&good).is_ok());
    // Reserved bits and the token are not looked at.
    assert!(read.read(&with(0, 0xfd)).is_ok() && read.read(&with(4, 9)).is_ok());
    for (at, byte) in [(0, 0), (0, 3), (1, 6), (2, 0), (3, 1), (6, 22), (12, 1), (16, 2), (19, 1)] {
        assert_eq!(read.read(&with(at, byte)), Err(BadResponse { length: 23 }));
    }
    for length in 0..good.len() {
        assert_eq!(read.read(&good[..length]), Err(BadResponse { length }));
    }
    // A part of what was asked is no answer.
    let mut part = with(6, 22);
    part[16] = 2;
    assert_eq!(read.read(&part[..22]), Err(BadResponse { length: 22 }));
    assert!(Message::get_config(1, 1, 3).read(&good).is_err());
}
