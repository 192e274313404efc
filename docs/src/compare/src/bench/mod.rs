//! The timing: the archive, the plain card and the fastest plain Rust make the
//! same calls in one process, in turns.
//!
//! | module | holds |
//! |---|---|
//! | [`program`] | what is timed: programs, each with a card of its own |
//! | [`work`], [`growth`] | the calls: each that is made often, and some as members, queues and lists grow |
//! | [`timing`] | one run: turns, and medians over them |
//! | [`runs`] | many runs, each a process of its own, and instructions by callgrind |
//! | [`table`], [`plot`] | the figures as a table and as a picture |
//! | [`machine`] | what they were measured on |

pub mod growth;
pub mod machine;
pub mod plot;
pub mod program;
pub mod runs;
pub mod table;
pub mod timing;
pub mod work;

/// The middle one of the numbers, of which there is one at least.
pub fn median(numbers: impl IntoIterator<Item = f64>) -> f64 {
    let mut sorted: Vec<f64> = numbers.into_iter().collect();
    sorted.sort_by(f64::total_cmp);
    sorted[sorted.len() / 2]
}
