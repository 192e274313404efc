//! What is timed as members, queues and lists grow.

use plain_card::part::{inventory, HEADER, OPTIONAL};
use plain_card::Card;

use super::work::{captures, full_card, list, selected_get, set, Work};
use crate::call::Call;
use crate::part_bytes::any_part;

/// A call, and what grows.
pub struct Growth {
    /// The call.
    pub call: &'static str,
    /// What grows.
    pub along: &'static str,
    /// What is timed, each with the number of what grows.
    pub points: Vec<(usize, Work)>,
}

impl Growth {
    fn new<const N: usize>(
        call: &'static str,
        along: &'static str,
        numbers: [usize; N],
        card: impl Fn(usize) -> Card,
        calls: impl Fn(&Card, u64, usize) -> Vec<Call>,
    ) -> Growth {
        let work = |number| {
            let work = Work::new(call, card(number), |card, member| calls(card, member, number));
            let rounds = 20 * 16 / work.times();
            (number, Work { rounds, ..work })
        };
        Growth { call, along, points: numbers.map(work).into() }
    }

    /// With turns of so many rounds: a long turn is interrupted where other work
    /// runs.
    fn in_rounds(self, rounds: usize) -> Growth {
        self.each(|work| Work { rounds, ..work })
    }

    /// By the fastest plain Rust too.
    fn and_fastest(self) -> Growth {
        self.each(Work::and_fastest)
    }

    fn each(self, change: impl Fn(Work) -> Work) -> Growth {
        let points = self.points.into_iter().map(|(number, work)| (number, change(work)));
        Growth { points: points.collect(), ..self }
    }
}

/// What is plotted, row by row.
pub fn all() -> Vec<Growth> {
    let largest = |_| full_card(16, 4);
    let members = |members| full_card(members as u64, 4);
    let queues = |queues| full_card(16, queues as u8);
    let capture = |card: &Card, member, _| captures(card, member);
    let restore = |card: &Card, member, _| vec![set(member, &list(card, member))];
    let (get_all, set_all) = ("parts get of all parts", "parts set of a full capture");
    vec![
        Growth::new(get_all, "members", MEMBERS, members, capture).and_fastest(),
        Growth::new(get_all, "queues of each member", QUEUES, queues, capture).and_fastest(),
        Growth::new("parts get of some parts", "headers", HEADERS, largest, asked),
        Growth::new(set_all, "members", MEMBERS, members, restore).and_fastest(),
        Growth::new(set_all, "queues of each member", QUEUES, queues, restore).and_fastest(),
        Growth::new("parts set, unknown parts behind", "bytes", BYTES, largest, with_unknown)
            .and_fastest()
            .in_rounds(2),
    ]
}

const MEMBERS: [usize; 3] = [1, 4, 16];
const QUEUES: [usize; 4] = [1, 2, 3, 4];
const HEADERS: [usize; 4] = [1, 4, 8, 15];
/// From a full capture to the longest list.
const BYTES: [usize; 4] = [445, 1600, 2800, 4064];

/// A get of the first parts of the inventory.
fn asked(_: &Card, member: u64, headers: usize) -> Vec<Call> {
    selected_get(member, &inventory(4).take(headers).collect::<Vec<_>>())
}

/// A set of a full capture with parts behind it that the member has not got and
/// that are skipped: they have no value, but for the last one, which fills up.
fn with_unknown(card: &Card, member: u64, length: usize) -> Vec<Call> {
    let mut list = list(card, member);
    while list.len() < length {
        let rest = length - list.len() - HEADER;
        let value = if rest < HEADER { rest } else { 0 };
        list.extend(any_part(0x200, OPTIONAL, 0, &vec![0; value]));
    }
    assert_eq!(list.len(), length);
    vec![set(member, &list)]
}
