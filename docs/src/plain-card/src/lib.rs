//! An independent plain Rust card and host, written from document 01 and
//! requests 1 to 3 and 5 to 11 of document 02 alone.
//!
//! It is the readable, executable version of these and the reference that the
//! verified archive is compared with. It shares no code with the archive. Terms
//! of these documents (card, sound, fresh, list in use, card store, holding
//! place, hand back, wipe, mark) are used as they stand there.
//!
//! Start with [`command`](mod@command): the status table is two functions, one line a step.
//!
//! | module | holds |
//! |---|---|
//! | [`setup`], [`setups`], [`card`], [`member`], [`object`], [`part`], [`queue`], [`values`], [`holding`], [`configuration`] | the card and what it is made of |
//! | [`frame`], [`opcode`], [`operation`] | from request bytes to what is asked: steps 2 to 7 |
//! | [`list`] | lists of parts, asked and given: step 10 |
//! | [`command`](mod@command), [`effect`] | the steps in order, and what a command does |
//! | [`event`] | hand back and wipe, reset of the card, card store |
//! | [`loads`] | what the card's own firmware reads |
//! | [`restore`] | restore in fragments |
//! | [`message`](mod@message) | configuration by message |
//! | [`difference`] | a full capture and a later list of what changed |
//! | [`salvage`](mod@salvage) | a torn capture |
//! | [`figures`] | a year of captures, counted |
//! | [`status`] | the numbers of the answers |
//! | [`host`] | requests built from their fields, replies read |
//! | [`bytes`], [`exported`] | the card as bytes, and the archive's functions over them |

#![forbid(unsafe_code)]
#![deny(missing_docs)]

pub mod bytes;
pub mod card;
pub mod command;
pub mod configuration;
pub mod difference;
pub mod effect;
pub mod event;
pub mod exported;
pub mod figures;
pub mod frame;
pub mod holding;
pub mod host;
pub mod list;
pub mod loads;
pub mod member;
pub mod message;
pub mod object;
pub mod opcode;
pub mod operation;
pub mod part;
pub mod queue;
pub mod restore;
pub mod salvage;
pub mod setup;
pub mod setups;
pub mod status;
pub mod values;

pub use card::Card;
pub use command::command;
pub use message::message;
pub use setup::Setup;
