//! A get-all that succeeds.

use plain_card::bytes::{HEADER, QUEUES, RECORD, VALUES};
use plain_card::opcode::Opcode;

use super::named;
use super::sound::sound;

/// The request of a get-all has this length.
const REQUEST: usize = 40;
/// The longest reply of a get-all: four queues.
const LONGEST: usize = 8 + 157 + 72 * 4;

/// A get-all, unless it is refused.
pub fn capture(card: &[u8], request: &[u8], reply: &mut [u8]) -> Option<usize> {
    let (header, records) = card.split_first_chunk::<HEADER>()?;
    let request: &[u8; REQUEST] = request.try_into().ok()?;
    if !sound::<{ Opcode::PartsGet as u16 }>(header, records) || request[32] != 1 {
        return None;
    }
    let (start, object) = named(header, request, Opcode::PartsGet)?;
    let record = records[start..].first_chunk::<RECORD>()?;
    if record[object] != 1 {
        return None;
    }
    match record[QUEUES] {
        1 => write::<1>(record, reply),
        2 => write::<2>(record, reply),
        3 => write::<3>(record, reply),
        _ => write::<4>(record, reply),
    }
}

/// Writes the reply of a get-all for Q queues, if there is room.
fn write<const Q: usize>(record: &[u8; RECORD], reply: &mut [u8]) -> Option<usize> {
    let length = 8 + 157 + 72 * Q;
    let reply = reply.get_mut(..length)?;
    let template = const { template(Q) };
    reply.copy_from_slice(&template[..length]);
    let values = &record[VALUES..];
    let mut copy = |to: usize, from: usize, length: usize| {
        reply[to..to + length].copy_from_slice(&values[from..from + length]);
    };
    copy(24, 0, 16);
    copy(56, 16, 16);
    copy(88, 32, 4);
    copy(108, 36, 4);
    copy(128, 40, 2);
    copy(146, 42, 2);
    copy(164, 44, 1);
    for queue in 0..Q {
        copy(181 + 48 * queue, 45 + 32 * queue, 32);
    }
    for queue in 0..Q {
        copy(181 + 48 * Q + 24 * queue, 173 + 8 * queue, 8);
    }
    Some(length)
}

/// The reply of a get-all with all values zero.
const fn template(queues: usize) -> [u8; LONGEST] {
    let mut reply = [0; LONGEST];
    let fixed = [
        (8, 0x00, 0, 16),
        (40, 0x01, 0, 16),
        (72, 0x02, 0, 4),
        (92, 0x02, 8, 4),
        (112, 0x02, 16, 2),
        (130, 0x02, 22, 2),
        (148, 0x03, 0, 1),
    ];
    let mut row = 0;
    while row < fixed.len() {
        let (at, part_type, selector, length) = fixed[row];
        reply = with_header(reply, at, part_type, selector, length);
        row += 1;
    }
    reply[10] = 1;
    let mut queue = 0;
    while queue < queues {
        reply = with_header(reply, 165 + 48 * queue, 0x04, queue as u8, 32);
        reply = with_header(reply, 165 + 48 * queues + 24 * queue, 0x05, queue as u8, 8);
        queue += 1;
    }
    reply
}

/// The reply with a header; of type, selector and length one byte differs.
const fn with_header(
    mut reply: [u8; LONGEST],
    at: usize,
    part_type: u8,
    selector: u8,
    length: u8,
) -> [u8; LONGEST] {
    reply[at] = part_type;
    reply[at + 1] = 1;
    reply[at + 4] = selector;
    reply[at + 12] = length;
    reply
}
