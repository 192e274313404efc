//! Soundness of the whole card, over its bytes.

use plain_card::bytes::{
    FEATURES, HEADER, HELD, IN_USE, MARK, MODE, OBJECTS, QUEUES, RECORD, VALUES,
};
use plain_card::frame::{array_at, u16_at, u64_at};
use plain_card::holding::ROOM;
use plain_card::opcode::SUPPORTED;

/// Soundness of the whole card. Each command has a copy of its own, which is then
/// compiled into it: one copy for both took more instructions.
pub fn sound<const OPCODE: u16>(header: &[u8; HEADER], records: &[u8]) -> bool {
    let [members, gets, sets] = array_at(header, 0);
    let setup = (members.wrapping_sub(1) < 16)
        & (gets <= 8)
        & (sets <= 8)
        & (u64_at(header, IN_USE) & !SUPPORTED == 0);
    let long = records.len() == RECORD * usize::from(members);
    if !(setup && long && rings(records)) {
        return false;
    }
    let features: [u8; 16] = array_at(header, FEATURES);
    let most: [u8; IDS] = array_at(&MOST, IDS - usize::from(gets + sets));
    records.chunks_exact(RECORD).all(|record| {
        let objects: [u8; IDS] = array_at(record, OBJECTS);
        within(&objects, &most) & (record[VALUES..VALUES + 16] == features)
            && record[MODE] < 2
            && u16_at(record, HELD) <= 1 + ROOM as u16
            && (record[MARK] == 0 || let_go(record))
            && sum(&objects, |byte| byte % 2) <= gets
            && sum(&objects, |byte| byte / 2) <= sets
    })
}

/// One object byte for each id that any setup allows.
const IDS: usize = 16;

/// What object bytes may be at most, those of sixteen ids first and then those of
/// no ids: from entry 16 - n on where n are ids.
const MOST: [u8; 2 * IDS] = {
    let mut most = [0; 2 * IDS];
    let mut id = 0;
    while id < IDS {
        most[id] = 2;
        id += 1;
    }
    most
};

/// Whether each object byte is at most the number beside it.
fn within(objects: &[u8; IDS], most: &[u8; IDS]) -> bool {
    objects.iter().zip(most).fold(true, |within, (byte, most)| within & (byte <= most))
}

/// Whether a record with a mark is that of a stopped member without objects and
/// holding place.
#[cold]
fn let_go(record: &[u8]) -> bool {
    record[MARK] == 1
        && record[MODE] == 1
        && record[OBJECTS..HELD + 2].iter().all(|byte| *byte == 0)
}

/// Where size and enabled field stand in the first eight bytes of a queue.
const SIZE_AND_ENABLED: u64 = 0xffff_0000_ffff;

/// Whether every record has 1 to 4 queues, of sizes that rings have: at once if
/// all have as many as the first, else one record after the other.
fn rings(records: &[u8]) -> bool {
    let alike = match records[QUEUES] {
        1 => rings_of::<1>(records),
        2 => rings_of::<2>(records),
        3 => rings_of::<3>(records),
        4 => rings_of::<4>(records),
        _ => return false,
    };
    let single = records.len() == RECORD;
    alike || !single && records.chunks_exact(RECORD).all(rings)
}

/// Whether every record has Q queues, of such sizes. There is no exit before the
/// end.
fn rings_of<const Q: usize>(records: &[u8]) -> bool {
    let (bad, other) = records.chunks_exact(RECORD).fold((0, 0), |(bad, other), record| {
        let sizes =
            (0..Q).fold(bad, |bad, queue| bad | no_ring(u64_at(record, VALUES + 45 + 32 * queue)));
        (sizes, other | record[QUEUES] ^ Q as u8)
    });
    (bad & SIZE_AND_ENABLED == 0) & (other == 0)
}

/// Whether the first eight bytes of a queue are of a size that rings have.
pub fn is_ring(queue: u64) -> bool {
    no_ring(queue) & SIZE_AND_ENABLED == 0
}

/// Of these two fields, bits that are set if the size has two bits or more, or
/// is 0 with an enabled field: 0 less one, and no other size less one, has all
/// upper bits.
fn no_ring(queue: u64) -> u64 {
    queue & (queue & 0xffff).wrapping_sub(1)
}

/// A sum over the object bytes, which the compiler makes vector additions.
fn sum(objects: &[u8; IDS], term: impl Fn(u8) -> u8) -> u8 {
    objects.iter().fold(0, |sum, byte| sum.wrapping_add(term(*byte)))
}
