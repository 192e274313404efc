//! Random requests to build and replies to read.

use plain_card::frame::{DATA, LONGEST};
use plain_card::opcode::{Opcode, SUPPORTED};
use plain_card::part::HEADER;
use plain_card::Card;

use super::{command, length, list, place, placed, queues_of, Favoured};
use crate::call::Call;
use crate::fields::Fields;
use crate::memory::Room;
use crate::random::Random;

/// A call of the host's half. The card is one that replies may come from.
pub fn call(random: &mut Random, card: &Card, favoured: Favoured) -> Call {
    if random.chance(50) {
        build(random)
    } else {
        read(random, card, favoured)
    }
}

/// A request with any fields, in a buffer of its length or of another.
fn build(random: &mut Random) -> Call {
    let fields = fields(random);
    let list = match fields.opcode {
        Opcode::PartsGet | Opcode::PartsSet => any_list(random),
        _ => vec![],
    };
    let need = DATA + fields.opcode.fixed_length() + list.len();
    let length = match random.weighted(&[35, 20, 15, 8, 12, 5, 5]) {
        0 => need,
        1 => need - 1,
        2 => need + 1 + random.below(40),
        3 => 0,
        4 => random.below(need),
        5 => random.pick(&[LONGEST - 1, LONGEST, LONGEST + 1]),
        _ => length::wrong(random, need.min(LONGEST)),
    };
    let list = placed(random, list);
    Call::Build { fields, list, room: Room { length, place: place(random) } }
}

fn fields(random: &mut Random) -> Fields {
    let member = random.below(18) as u64;
    let id = random.below(18) as u32;
    let any_byte = random.byte();
    Fields {
        opcode: random.pick(&Opcode::ALL),
        member: if random.chance(50) { random.bits() } else { member },
        id: if random.chance(50) { random.bits() as u32 } else { id },
        byte: random.pick(&[0, 1, 2, 3, 0xff, any_byte]),
        mask: if random.chance(70) { random.bits() } else { SUPPORTED },
    }
}

/// A list of any bytes: short, of whole headers, at the longest, or longer.
fn any_list(random: &mut Random) -> Vec<u8> {
    let length = match random.weighted(&[20, 30, 25, 20, 5]) {
        0 => 0,
        1 => random.below(64),
        2 => HEADER * random.below(20),
        3 => {
            let fixed = random.pick(&[Opcode::PartsGet, Opcode::PartsSet]).fixed_length();
            LONGEST - DATA - fixed + 1 - random.below(3)
        }
        _ => {
            let few = random.below(64);
            length::wrong(random, few)
        }
    };
    random.bytes(length)
}

/// A reply to a command: one that a card gives or one made up, as it is or cut,
/// extended or with other numbers; now and then read as the answer to another
/// command.
fn read(random: &mut Random, card: &Card, favoured: Favoured) -> Call {
    let (mut opcode, mut what, mut reply) = match random.weighted(&[35, 60, 5]) {
        0 => given(random, card, favoured),
        1 => made_up(random, card),
        _ => {
            let length = random.below(40);
            (random.below(20) as u16, random.below(4) as u8, random.bytes(length))
        }
    };
    if random.chance(12) {
        opcode = match random.below(3) {
            0 => random.below(20) as u16,
            1 => opcode | 1 << (5 + random.below(11)),
            _ => random.bits() as u16,
        };
    }
    if random.chance(12) {
        what = random.byte();
    }
    if random.chance(25) {
        change_numbers(random, &mut reply);
    }
    if random.chance(25) {
        change_length(random, &mut reply);
    }
    Call::Read { opcode, what, reply: placed(random, reply) }
}

/// Opcode, type byte and reply of a command on the card.
fn given(random: &mut Random, card: &Card, favoured: Favoured) -> (u16, u8, Vec<u8>) {
    let Call::Command { request, room } = command::command(random, card, favoured) else {
        unreachable!("a command is drawn")
    };
    let mut reply = vec![0; room.length];
    let written = plain_card::command(&mut card.clone(), &request, &mut reply);
    reply.truncate(written);
    let byte = |at: usize| request.get(at).copied().unwrap_or(0);
    (u16::from_le_bytes([byte(0), byte(1)]), byte(DATA + 8), reply)
}

/// Opcode, type byte and reply, with a result that the command may have.
fn made_up(random: &mut Random, card: &Card) -> (u16, u8, Vec<u8>) {
    let opcode = random.pick(&Opcode::ALL);
    let what = random.pick(&[0, 1, 2, 2, 2, 3]);
    let mut reply = vec![0; 8];
    match opcode {
        Opcode::Metadata if what == 2 => reply.extend(header_list(random)),
        Opcode::ListQuery | Opcode::Query | Opcode::Metadata => reply.extend(random.bytes(8)),
        Opcode::PartsGet => reply.extend(list::given(random, card, queues_of(card, 1))),
        _ => {}
    }
    (opcode as u16, what, reply)
}

/// A count and as many headers, or another number of bytes, or a count that
/// gives this number of bytes if it is cut.
fn header_list(random: &mut Random) -> Vec<u8> {
    let count = random.below(20);
    let bytes = HEADER * count;
    let length = match random.weighted(&[60, 20, 20]) {
        0 => bytes,
        1 => random.pick(&[bytes + 1, bytes.saturating_sub(1), bytes + 16]),
        _ => random.below(bytes + 17),
    };
    let high = random.pick(&[0, 0, 0, 0, 1 << 8, 1 << 12, 1 << 16, 1 << 28, 1 << 31]);
    let mut list = (count as u32 | high).to_le_bytes().to_vec();
    list.extend(random.bytes(4));
    list.extend(random.bytes(length));
    list
}

/// Another status, qualifier or reserved bytes; what is not there stays so.
fn change_numbers(random: &mut Random, reply: &mut [u8]) {
    let known = random.pick(&[0, 6, 11, 12, 17, 22, 28]);
    let any = random.bits() as u16;
    let near = random.below(40) as u16;
    let status = random.pick(&[known, near, any, 0x100, 0x116]);
    let qualifier = random.pick(&[near % 10, 7, 8, any, 0x100, 0x101]);
    let field = match random.below(4) {
        0 => (0, status.to_le_bytes().to_vec()),
        1 | 2 => (2, qualifier.to_le_bytes().to_vec()),
        _ => (4, random.bytes(4)),
    };
    let (at, bytes) = field;
    reply.iter_mut().skip(at).zip(bytes).for_each(|(byte, other)| *byte = other);
}

/// Cuts the reply anywhere, more often at its head, or puts bytes behind it.
fn change_length(random: &mut Random, reply: &mut Vec<u8>) {
    match random.below(4) {
        0 => reply.truncate(random.below(9)),
        1 => reply.truncate(random.below(reply.len() + 1)),
        2 => reply.resize(reply.len() + random.pick(&[1, 8, 16]), 0),
        _ => {
            let more = random.below(40);
            reply.extend(random.bytes(more));
        }
    }
}

#[cfg(test)]
mod tests {
    use super::*;
    use crate::draw::sound_card;
    use plain_card::exported::reply_read;
    use std::collections::BTreeSet;

    #[test]
    fn requests_are_built_and_refused_of_every_command() {
        let mut random = Random::new(1, 0);
        let mut drawn = BTreeSet::new();
        let mut lengths = BTreeSet::new();
        for _ in 0..20_000 {
            let Call::Build { fields, list, room } = build(&mut random) else { unreachable!() };
            let need = DATA + fields.opcode.fixed_length() + list.len();
            let built = need <= room.length && need <= LONGEST;
            drawn.insert((fields.opcode as u16, built, room.length.cmp(&need)));
            lengths.insert(need);
        }
        // Built in the exact length and more, refused in less and where it is
        // over 4,096 bytes in any of the three.
        assert_eq!(drawn.len(), 10 * 3 + 2 * 2);
        assert!(lengths.contains(&4096) && lengths.contains(&4097));
    }

    #[test]
    fn replies_are_read_and_refused_of_every_command() {
        let mut random = Random::new(1, 0);
        let mut drawn = BTreeSet::new();
        for _ in 0..20_000 {
            let card = sound_card(&mut random);
            let favoured = Favoured::draw(&mut random);
            let call = read(&mut random, &card, favoured);
            let Call::Read { opcode, what, reply } = call else { unreachable!() };
            let mut numbers = [0; 4];
            let answer = reply_read(opcode, what, &reply, &mut numbers);
            let success = reply.starts_with(&[0, 0]);
            if Opcode::from_number(opcode).is_some() && reply.len() >= 8 {
                drawn.insert((opcode, answer, success));
            }
        }
        assert_eq!(drawn.len(), 10 * 4);
    }
}
