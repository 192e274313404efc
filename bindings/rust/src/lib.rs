//! Safe bindings to Kajurnat, the verified control plane of a virtio card
//! with up to sixteen member devices.
//!
//! A [`Card`] takes group administration commands as bytes and answers in
//! bytes. Its host builds a [`Request`] from the fields of a command and reads
//! the reply, resets the card or takes a member back; its data path stores the
//! parts of its members. What every call answers, and the card after it, is
//! proved of the archive that this package links; the bindings are not part of
//! the proof.
//!
//! ```
//! use kajurnat::{Card, Kind, Opcode, PartType, Qualifier, Request, Setup};
//!
//! // Two members with one queue each, and room for one get and one set object.
//! let setup = Setup::alike(2, 1, 1, 1, [0; 16]);
//! let mut card = Card::new(&setup)?;
//!
//! // Put every command in use.
//! card.send(Request::list_use(Opcode::SUPPORTED))?;
//!
//! // The data path of member 1 sets the device status.
//! card.store(1, PartType::DEVICE_STATUS, 0, &[0x0f])?;
//!
//! // Stop member 1 and capture it.
//! card.send(Request::create(1, 0, Kind::Get))?;
//! card.send(Request::stop(1))?;
//! let parts = card.send(Request::capture(1, 0))?;
//!
//! // Set what was captured in member 2.
//! card.send(Request::create(2, 1, Kind::Set))?;
//! card.send(Request::stop(2))?;
//! card.send(Request::set(2, 1, &parts)?)?;
//!
//! // There is no member 3; the refusal says so.
//! let refusal = card.send(Request::stop(3)).unwrap_err();
//! assert_eq!(refusal.qualifier, Qualifier::INVALID_MEMBER);
//! assert_eq!(
//!     refusal.to_string(),
//!     "the card refused the command: status 22 (EINVAL), qualifier 5 (INVALID_MEMBER)"
//! );
//!
//! // The data path lets go of member 1, and its next guest finds nothing of the
//! // last one.
//! card.hand_back(1)?;
//! card.wipe(1, 0)?;
//! # Ok::<(), Box<dyn std::error::Error>>(())
//! ```
//!
//! The card's own firmware follows it with [`Card::load`], [`Card::member`] and
//! [`Card::configuration`], which change nothing.
//!
//! A list of parts that comes over a slow connection is set with
//! [`Card::restore`] or a [`Restore`], fragment by fragment. On a bus without
//! PCI, a [`Message`] reads or writes the configuration of a member. Of a full
//! capture and a later list of what changed, a [`Difference`] gives one part or
//! one list. Of a torn capture, [`Salvaged`] is a list that a member takes.
//!
//! # Features
//!
//! `std`, on by default, makes a [`Restore`] a `std::io::Write`. Without it the
//! package needs `alloc` alone.
//!
//! # Linking
//!
//! The build links `libkajurnat.a` from the directory that the environment
//! variable `KAJURNAT_LIB_DIR` names, or from where `make lib` writes it in the
//! repository: for x86-64, and with `TARGET=` for 64-bit Arm, 64-bit RISC-V and
//! x86-64 without an operating system. The build takes that of cargo's target.
//! `cargo check` and `cargo doc` do without it.

#![no_std]
#![deny(missing_docs)]
#![deny(unsafe_code)]

extern crate alloc;
#[cfg(feature = "std")]
extern crate std;

mod card;
mod difference;
mod event;
mod load;
mod message;
mod number;
mod part;
pub mod raw;
mod reply;
mod request;
mod restore;
mod salvage;
mod setup;
mod status;

pub use card::{Card, NotSound};
pub use difference::{Difference, DifferenceError};
pub use event::EventError;
pub use load::{Configuration, LoadError, Member, State};
pub use message::{BadResponse, Message, MessageId, MessageTooLong, NoResponse, Response};
pub use part::{capture_bytes, part_count, PartType};
pub use raw::version;
pub use reply::{BadReply, Refusal, Reply, ReplyTooShort};
pub use request::{Kind, Metadata, Opcode, Request, RequestTooLong};
pub use restore::Restore;
pub use salvage::{Dropped, SalvageRefused, Salvaged};
pub use setup::{BadSetup, Setup, SetupError};
pub use status::{Qualifier, Status};

/// The version of the library, of these bindings and of the header; that of a
/// card's bytes is [`version`].
pub const VERSION: &str = env!("CARGO_PKG_VERSION");
