//! The host's half (request 1 of document 02): requests built from their
//! fields, and replies read as the answer to the command sent.
//!
//! It shares constants and the reading of little-endian numbers with the card's
//! half and no more: no line that reads a request or writes a reply.

mod reply;
mod request;

pub use reply::{read, Answer};
pub use request::Request;
