//! Which rows of the tables of documents 01 and 02 a comparison has reached.

use std::fmt;

use plain_card::frame::u16_at;
use plain_card::message::{Asked, Message};
use plain_card::opcode::Opcode;

use crate::call::Call;
use crate::device::Seen;
use crate::lists::Asked as Lists;
use crate::loads::Load;

/// A table: the kinds of calls, and the names and numbers of their answers.
struct Table {
    rows: &'static [&'static str],
    columns: &'static [(&'static str, u32)],
}

/// The number of a status and its qualifier.
const fn pair(status: u16, qualifier: u16) -> u32 {
    status as u32 | (qualifier as u32) << 16
}

/// What stands for no bytes written.
const NONE: u32 = u32::MAX;

/// Commands and their statuses in the order of their steps; 0 bytes written
/// stand first.
const COMMANDS: Table = Table {
    rows: &[
        "list query",
        "list use",
        "object create",
        "object modify",
        "object query",
        "object destroy",
        "parts metadata",
        "parts get",
        "parts set",
        "mode set",
        "other requests",
    ],
    columns: &[
        ("none", NONE),
        ("22/1", pair(22, 1)),
        ("22/4", pair(22, 4)),
        ("22/2", pair(22, 2)),
        ("22/5", pair(22, 5)),
        ("22/3", pair(22, 3)),
        ("17/1", pair(17, 1)),
        ("6/1", pair(6, 1)),
        ("28/1", pair(28, 1)),
        ("11/7", pair(11, 7)),
        ("12/6", pair(12, 6)),
        ("0/0", pair(0, 0)),
    ],
};

/// Calls of a restore and their answers in order.
const RESTORES: Table = Table {
    rows: &["restore begin", "restore feed", "restore finish", "restore drop"],
    columns: &[
        ("9", 9),
        ("22/5", pair(22, 5)),
        ("17/1", pair(17, 1)),
        ("6/1", pair(6, 1)),
        ("22/1", pair(22, 1)),
        ("22/2", pair(22, 2)),
        ("22/3", pair(22, 3)),
        ("11/7", pair(11, 7)),
        ("0/0", pair(0, 0)),
    ],
};

/// Events and their answers in order.
const EVENTS: Table = Table {
    rows: &[
        "setup",
        "hand back",
        "wipe",
        "reset of the card",
        "card store",
        "is sound",
        "load",
        "member",
        "configuration",
    ],
    columns: &[("9", 9), ("1", 1), ("2", 2), ("3", 3), ("5", 5), ("6", 6), ("4", 4), ("0", 0)],
};

/// Messages and the bytes of what becomes of them; any data is more than 20.
const MESSAGES: Table = Table {
    rows: &["message: read", "message: write", "other messages"],
    columns: &[("none", 0), ("length 0", 20), ("data", 21)],
};

/// What is built, read, written, salvaged or packed, and whether it is done.
const HOST: Table = Table {
    rows: &["request built", "reply read", "setup written", "list salvaged", "setup of a card"],
    columns: &[("refused", 0), ("done", 1)],
};

/// The readers of setups and their answers.
const READERS: Table =
    Table { rows: &["setup, version 1", "setup, both"], columns: &[("1", 1), ("2", 2), ("0", 0)] };

/// Calls on a pair of lists, and their answers in order.
const PAIRS: Table = Table {
    rows: &["part looked up", "one list made"],
    columns: &[("1", 1), ("2", 2), ("3", 3), ("4", 4), ("5", 5), ("6", 6), ("0", 0)],
};

static TABLES: [Table; 7] = [COMMANDS, RESTORES, EVENTS, MESSAGES, HOST, READERS, PAIRS];
/// The row that counts whether the card is sound.
const SOUND: (usize, usize) = (2, 5);

/// The most rows of a table.
const ROWS: usize = 11;
/// The most columns of a table, and one for answers that have none.
const COLUMNS: usize = 13;

/// How often a kind of call was answered in one way, by table, row and column.
#[derive(Default)]
pub struct Coverage([[[u64; COLUMNS]; ROWS]; 7]);

impl Coverage {
    /// Counts a call and its answer, and whether the card after it is sound.
    pub fn note(&mut self, call: &Call, seen: &Seen) {
        self.count(SOUND, seen.sound.into());
        let answer = seen.answer as u32;
        match call {
            Call::CardBytes(_) | Call::Card(_) => {}
            Call::Command { request, .. } => self.count((0, command(request)), status(seen)),
            Call::Begin(_) => self.count((1, 0), answer),
            Call::Feed { .. } => self.count((1, 1), answer),
            Call::Finish { .. } => self.count((1, 2), answer),
            Call::Drop(_) => self.count((1, 3), answer),
            Call::Setup { .. } | Call::SetupFrom { .. } => self.count((2, 0), answer),
            Call::HandBack(_) => self.count((2, 1), answer),
            Call::Wipe { .. } => self.count((2, 2), answer),
            Call::ResetCard(_) => self.count((2, 3), answer),
            Call::Store { .. } => self.count((2, 4), answer),
            Call::Message { message, .. } => self.count((3, kind(message)), answer.min(21)),
            Call::Build { .. } => self.count((4, 0), answer.min(1)),
            Call::Read { .. } => self.count((4, 1), u32::from(answer == 0)),
            Call::WriteSetup { .. } => self.count((4, 2), answer.min(1)),
            Call::ReadSetup { first, .. } => self.count((5, usize::from(!first)), answer),
            Call::Lists(call) => match call.asked {
                Lists::Find { .. } => self.count((6, 0), answer),
                Lists::Merge { .. } => self.count((6, 1), answer % 256),
                Lists::Salvage { .. } => self.count((4, 3), answer.min(1)),
            },
            Call::Load(call) => match call {
                Load::Part { .. } => self.count((2, 6), answer),
                Load::Member(_) => self.count((2, 7), answer),
                Load::Configuration { .. } => self.count((2, 8), answer),
                Load::Setup(_) => self.count((4, 4), answer.min(1)),
            },
        }
    }

    fn count(&mut self, (table, row): (usize, usize), answer: u32) {
        let column = TABLES[table].columns.iter().position(|(_, known)| *known == answer);
        self.0[table][row][column.unwrap_or(COLUMNS - 1)] += 1;
    }
}

/// The row of the command that a request's opcode is of.
fn command(request: &[u8]) -> usize {
    let opcode = (request.len() >= 2).then(|| u16_at(request, 0));
    let row = Opcode::ALL.iter().position(|known| Some(*known as u16) == opcode);
    row.unwrap_or(Opcode::ALL.len())
}

/// The row of a message's kind, if it is a whole request.
fn kind(message: &[u8]) -> usize {
    match Message::read(message).map(|message| message.asked) {
        Some(Asked::Read(..)) => 0,
        Some(Asked::Write(..)) => 1,
        None => 2,
    }
}

fn status(seen: &Seen) -> u32 {
    let reply = seen.reply.bytes();
    match seen.answer {
        0 => NONE,
        _ => pair(u16_at(reply, 0), u16_at(reply, 2)),
    }
}

impl fmt::Display for Coverage {
    fn fmt(&self, f: &mut fmt::Formatter) -> fmt::Result {
        let most = self.0.as_flattened().as_flattened().iter().max();
        let digits = most.map_or(1, |most| most.to_string().len());
        for (Table { rows, columns }, counts) in TABLES.iter().zip(&self.0) {
            let widest = columns.iter().map(|(name, _)| name.len()).max().unwrap_or(0);
            let width = digits.max(widest) + 1;
            write!(f, "{:<18}", "")?;
            columns.iter().try_for_each(|(name, _)| write!(f, "{name:>width$}"))?;
            writeln!(f)?;
            for (name, counts) in rows.iter().zip(counts) {
                write!(f, "{name:<18}")?;
                counts[..columns.len()]
                    .iter()
                    .try_for_each(|count| write!(f, "{count:>width$}"))?;
                writeln!(f)?;
            }
        }
        Ok(())
    }
}
