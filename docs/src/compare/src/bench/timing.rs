//! One run: the programs take turns at the same calls.

use std::hint::black_box;
use std::time::Instant;

use super::median;
use super::program::{make_next, Program, Which};
use super::work::{Work, REPLY};
use crate::call::Call;

/// How many turns each program has.
const TURNS: usize = 100;

/// What a run shows of one program.
#[derive(Clone, Copy, Debug, PartialEq)]
pub struct Time {
    /// The median of the nanoseconds for one member.
    pub nanoseconds: f64,
    /// The median of the ratios, turn by turn, of the archive's time to this one's.
    pub ratio: f64,
}

/// A program with its own copy of the calls.
struct Turn {
    program: Box<dyn Program>,
    calls: Vec<Call>,
}

/// The times of each program, once they were seen to answer alike.
pub fn run(work: &Work) -> Vec<Time> {
    check(work);
    let mut all: Vec<Turn> = work.programs.iter().map(|which| Turn::new(work, *which)).collect();
    let turns: Vec<Vec<f64>> =
        (0..TURNS).map(|_| all.iter_mut().map(|turn| turn.time(work)).collect()).collect();
    let of = |index: usize| Time {
        nanoseconds: median(turns.iter().map(|turn| turn[index])),
        ratio: median(turns.iter().map(|turn| turn[0] / turn[index])),
    };
    (0..all.len()).map(of).collect()
}

/// How many rounds are counted.
pub const COUNTED: usize = 10;

/// Has one program make the calls as often, inside [`counted`].
pub fn count(work: &Work, which: Which) {
    let mut turn = Turn::new(work, which);
    turn.program.round(&mut turn.calls, &mut [0; REPLY]);
    counted(&mut turn);
}

/// The part of the program whose instructions are counted, by this name.
#[inline(never)]
fn counted(turn: &mut Turn) {
    let mut reply = [0; REPLY];
    for _ in 0..COUNTED {
        turn.program.round(&mut turn.calls, &mut reply);
    }
    black_box(reply);
}

impl Turn {
    fn new(work: &Work, which: Which) -> Turn {
        Turn { program: which.with(&work.card), calls: work.calls.clone() }
    }

    /// Nanoseconds for one member in one turn.
    fn time(&mut self, work: &Work) -> f64 {
        let mut reply = [0; REPLY];
        let start = Instant::now();
        for _ in 0..work.rounds {
            self.program.round(&mut self.calls, &mut reply);
        }
        start.elapsed().as_nanos() as f64 / (work.rounds * work.times()) as f64
    }
}

/// Every call succeeds, twice over, with the same answer, reply bytes and card by
/// all programs.
fn check(work: &Work) {
    let mut programs: Vec<_> = work.programs.iter().map(|which| which.with(&work.card)).collect();
    let mut calls = work.calls.clone();
    for at in (0..calls.len()).chain(0..calls.len()) {
        let call = &mut calls[at];
        let heard: Vec<_> = programs
            .iter_mut()
            .map(|program| {
                let mut reply = [0xa5; REPLY];
                (program.hear(call, &mut reply), reply, program.card())
            })
            .collect();
        assert!(heard.iter().all(|this| *this == heard[0]), "{}: {call}: not alike", work.name);
        let (answer, reply, _) = &heard[0];
        assert!(succeeds(call, *answer, reply), "{}: {call}: refused", work.name);
        make_next(call, reply);
    }
}

/// Whether a call does what it asks.
fn succeeds(call: &Call, answer: usize, reply: &[u8]) -> bool {
    match call {
        Call::Command { .. } => answer >= 8 && reply[..8] == [0; 8],
        Call::Message { message, .. } => answer == message.len(),
        _ => answer == 0,
    }
}
