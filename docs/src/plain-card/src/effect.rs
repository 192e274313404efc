//! What a command on a member does once its object and mode allow it.

use std::collections::BTreeSet;

use crate::list::{self, Given};
use crate::member::{Member, Mode};
use crate::object::Kind;
use crate::operation::{About, Operation};
use crate::part::{inventory, Part, HEADER};
use crate::status::Refusal;

/// An effect: either a change of the record or a result that is told.
pub enum Effect<'a> {
    /// Create and modify.
    PutObject(u32, Kind),
    /// Destroy.
    RemoveObject(u32),
    /// Mode set.
    SetMode(Mode),
    /// Parts set.
    SetParts(Given<'a>),
    /// Query.
    TellKind(Kind),
    /// Metadata.
    TellAbout(About),
    /// Parts get, all.
    TellAll,
    /// Parts get, selected.
    TellParts(BTreeSet<Part>),
}

impl<'a> Effect<'a> {
    /// Step 10: the effect, unless a list of parts is bad.
    pub fn of(operation: Operation<'a>, member: &Member) -> Result<Self, Refusal> {
        let queues = member.queues;
        Ok(match operation {
            Operation::Create(id, kind) => Effect::PutObject(id, kind),
            Operation::Modify(id, kind) => Effect::PutObject(id, kind),
            Operation::Query(id) => Effect::TellKind(member.objects.live(id)?),
            Operation::Destroy(id) => Effect::RemoveObject(id),
            Operation::Metadata(_, about) => Effect::TellAbout(about),
            Operation::GetSelected(_, headers) => Effect::TellParts(list::asked(headers, queues)?),
            Operation::GetAll(_) => Effect::TellAll,
            Operation::PartsSet(_, list) => {
                Effect::SetParts(list::given(list, &member.values, queues)?)
            }
            Operation::ModeSet(mode) => Effect::SetMode(mode),
        })
    }

    /// The length of the result, of a member with `queues` queues.
    pub fn result_length(&self, queues: u8) -> usize {
        match self {
            Effect::TellKind(_) | Effect::TellAbout(About::Size | About::Count) => 8,
            Effect::TellAbout(About::List) => 8 + HEADER * inventory(queues).count(),
            Effect::TellAll => size(inventory(queues)),
            Effect::TellParts(parts) => size(parts.iter().copied()),
            _ => 0,
        }
    }

    /// Changes the record or writes the result, and tells the result's length.
    pub fn perform(self, member: &mut Member, result: &mut [u8]) -> usize {
        let queues = member.queues;
        match self {
            Effect::PutObject(id, kind) => member.objects.put(id, kind),
            Effect::RemoveObject(id) => member.objects.remove(id),
            Effect::SetMode(mode) => member.mode = mode,
            Effect::SetParts(parts) => {
                for (part, value) in parts {
                    member.values.get_mut(part).copy_from_slice(value);
                }
            }
            Effect::TellKind(kind) => return put_number(result, u32::from(kind.byte())),
            Effect::TellAbout(about) => return put_about(result, about, queues),
            Effect::TellAll => return put_parts(result, member, inventory(queues)),
            Effect::TellParts(parts) => return put_parts(result, member, parts.into_iter()),
        }
        0
    }
}

/// The length of parts with their headers.
fn size(parts: impl Iterator<Item = Part>) -> usize {
    parts.map(Part::size).sum()
}

/// Writes what a metadata command asks.
fn put_about(result: &mut [u8], about: About, queues: u8) -> usize {
    let count = inventory(queues).count() as u32;
    match about {
        About::Size => put_number(result, size(inventory(queues)) as u32),
        About::Count => put_number(result, count),
        About::List => inventory(queues)
            .fold(put_number(result, count), |at, part| put(result, at, &part.header())),
    }
}

/// Writes a 4-byte number and 4 zero bytes.
fn put_number(result: &mut [u8], number: u32) -> usize {
    put(result, 0, &u64::from(number).to_le_bytes())
}

/// Writes parts, each a header and a value.
fn put_parts(result: &mut [u8], member: &Member, parts: impl Iterator<Item = Part>) -> usize {
    parts.fold(0, |at, part| {
        let at = put(result, at, &part.header());
        put(result, at, member.values.get(part))
    })
}

/// Writes bytes at `at` and tells where they end.
pub fn put(result: &mut [u8], at: usize, bytes: &[u8]) -> usize {
    let end = at + bytes.len();
    result[at..end].copy_from_slice(bytes);
    end
}
