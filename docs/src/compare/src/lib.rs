//! The verified archive beside the plain card.
//!
//! | module | holds |
//! |---|---|
//! | [`call`], [`fields`], [`lists`], [`loads`], [`device`] | calls, and the two cards that hear them |
//! | [`memory`] | the buffers of a call, where what it does beside them shows |
//! | [`draw`], [`part_bytes`], [`random`] | random calls, biased to deep states |
//! | [`sequence`], [`agreed`], [`coverage`] | the comparison: random sequences on both cards, and what they reach |
//! | [`trial`], [`limit`] | how properties are tried on one device, and for how long |
//! | [`isolation`] | demand 3, tried on random pairs of sequences |
//! | [`round_trip`] | the round trip of demand 2, tried on random cards |
//! | [`exchange`] | neighbouring calls for different members, tried in both orders |
//! | [`fragments`] | a list restored in fragments, tried with two ways to cut it |
//! | [`halves`] | built requests, sent to a card, and its replies, read |
//! | [`shrink`], [`show`] | the shortest sequence found that shows a difference, as text |
//! | [`faults`] | planted faults that the above have to find |
//! | [`sheets`] | the yearly sheet: streams, the program, and planted faults |
//! | [`bench`], [`fast`] | the timing, and the fastest plain Rust over bytes for it |
//! | [`arguments`] | the arguments of the programs |

#![deny(unsafe_code)]

pub mod agreed;
pub mod arguments;
pub mod bench;
pub mod call;
pub mod coverage;
pub mod device;
pub mod draw;
pub mod exchange;
pub mod fast;
pub mod faults;
pub mod fields;
pub mod fragments;
pub mod halves;
pub mod isolation;
pub mod limit;
pub mod lists;
pub mod loads;
pub mod memory;
pub mod part_bytes;
pub mod random;
pub mod round_trip;
pub mod sequence;
pub mod sheets;
pub mod show;
pub mod shrink;
pub mod trial;
