//! Faults of the header and the lengths of a message (request 3 of document 02).

use plain_card::frame::u16_at;
use plain_card::message::{Message, SET_CONFIG};

use super::{fault, Fault, Outcome, Plant};
use crate::call::Call;

pub const FAULTS: &[Fault] = &[
    fault("message: device d taken for member d", Plant::Replace(device_one_less)),
    fault("message: device number cut to 8 bits", Plant::Replace(device_cut)),
    fault("message: a response heard as a request", Plant::Replace(response_heard)),
    fault("message: a bus message heard", Plant::Replace(bus_heard)),
    fault("message: upper bits of the id ignored", Plant::Replace(id_cut)),
    fault("message: reserved type bits refused", Plant::Replace(reserved_refused)),
    fault("message: bytes past its size ignored", Plant::Replace(padding_ignored)),
    fault("message: its size not looked at", Plant::Replace(size_unread)),
    fault("message: length of a write not compared", Plant::Replace(length_unread)),
    fault("message: length of a write cut to 16 bits", Plant::Replace(length_cut)),
    fault("message: over 264 bytes refused", Plant::Replace(long_refused)),
    fault("message: room of 32 bytes wanted", Plant::Replace(room_for_most)),
    fault("message: room for the data sent wanted", Plant::Replace(room_for_sent)),
    fault("message: token not copied", Plant::Leave(|outcome| answer(outcome, 4, &[0, 0]))),
    fault("message: device number not copied", Plant::Leave(|outcome| answer(outcome, 2, &[0, 0]))),
    fault("message: response of type 0", Plant::Leave(|outcome| answer(outcome, 0, &[0]))),
    fault("message: reserved type bits copied", Plant::Leave(type_copied)),
    fault("message: offset of a refusal is 0", Plant::Leave(offset_lost)),
    fault("message: size of the request told", Plant::Leave(request_size)),
];

/// Changes a message.
fn change(call: &mut Call, change: impl Fn(&mut Vec<u8>)) {
    if let Call::Message { message, .. } = call {
        change(&mut message.bytes);
    }
}

/// Changes a message that is at least so long.
fn change_from(call: &mut Call, length: usize, change: impl Fn(&mut Vec<u8>)) {
    self::change(call, |message| {
        if message.len() >= length {
            change(message);
        }
    });
}

fn device_one_less(call: &mut Call) {
    change_from(call, 4, |message| {
        let device = u16_at(message, 2).wrapping_sub(1);
        message[2..4].copy_from_slice(&device.to_le_bytes());
    });
}

fn device_cut(call: &mut Call) {
    change_from(call, 4, |message| message[3] = 0);
}

fn response_heard(call: &mut Call) {
    change_from(call, 1, |message| message[0] &= !1);
}

fn bus_heard(call: &mut Call) {
    change_from(call, 1, |message| message[0] &= !2);
}

fn id_cut(call: &mut Call) {
    change_from(call, 2, |message| message[1] &= 0x3f);
}

fn reserved_refused(call: &mut Call) {
    change_from(call, 1, |message| {
        if message[0] & 0xfc != 0 {
            message.clear();
        }
    });
}

fn padding_ignored(call: &mut Call) {
    change_from(call, 8, |message| message.truncate(u16_at(message, 6).max(8).into()));
}

fn size_unread(call: &mut Call) {
    change_from(call, 8, |message| {
        let size = message.len() as u16;
        message[6..8].copy_from_slice(&size.to_le_bytes());
    });
}

fn length_unread(call: &mut Call) {
    change_from(call, 20, |message| {
        if message[1] == SET_CONFIG {
            let length = message.len() as u32 - 20;
            message[16..20].copy_from_slice(&length.to_le_bytes());
        }
    });
}

fn length_cut(call: &mut Call) {
    change_from(call, 20, |message| {
        if message[1] == SET_CONFIG {
            message[18..20].fill(0);
        }
    });
}

fn long_refused(call: &mut Call) {
    change_from(call, 265, Vec::clear);
}

/// Refuses a message whose reply buffer is shorter.
fn want_room(call: &mut Call, need: impl Fn(&[u8]) -> usize) {
    if let Call::Message { message, room } = call {
        if room.length < need(message) {
            message.bytes.clear();
        }
    }
}

fn room_for_most(call: &mut Call) {
    want_room(call, |_| 32);
}

/// A write wants room for its data even if it is not applied.
fn room_for_sent(call: &mut Call) {
    want_room(call, |message| match message.get(1) {
        Some(&SET_CONFIG) => message.len(),
        _ => 0,
    });
}

/// Puts bytes in a response.
fn answer(outcome: &mut Outcome, at: usize, bytes: &[u8]) {
    if matches!(outcome.call, Call::Message { .. }) && *outcome.answer != 0 {
        outcome.reply[at..at + bytes.len()].copy_from_slice(bytes);
    }
}

fn type_copied(outcome: &mut Outcome) {
    if let Call::Message { message, .. } = outcome.call {
        if let Some(byte) = message.first() {
            answer(outcome, 0, &[byte | 1]);
        }
    }
}

fn offset_lost(outcome: &mut Outcome) {
    if *outcome.answer == 20 {
        answer(outcome, 12, &[0; 4]);
    }
}

fn request_size(outcome: &mut Outcome) {
    if let Call::Message { message, .. } = outcome.call {
        if Message::read(message).is_some() {
            answer(outcome, 6, &(message.len() as u16).to_le_bytes());
        }
    }
}
