//! What a request asks: step 7 of the status table.

use crate::frame::{behind, fixed_fields, u16_at, u32_at, u64_at};
use crate::member::Mode;
use crate::object::Kind;
use crate::opcode::{Opcode, SUPPORTED};
use crate::setup::Common;
use crate::status::Refusal;

/// A command with its fields.
#[derive(Clone, Copy, Debug, PartialEq, Eq)]
pub enum Command<'a> {
    /// Tell the supported commands.
    ListQuery,
    /// The mask becomes the list in use.
    ListUse(u64),
    /// An operation on the member that the request names.
    OnMember(Operation<'a>),
}

/// An operation on a member. Lists are still bytes: step 10 reads them.
#[derive(Clone, Copy, Debug, PartialEq, Eq)]
pub enum Operation<'a> {
    /// Add an object.
    Create(u32, Kind),
    /// Give an object a new kind.
    Modify(u32, Kind),
    /// Tell the kind of an object.
    Query(u32),
    /// Remove an object.
    Destroy(u32),
    /// Tell about the parts.
    Metadata(u32, About),
    /// Tell the parts that the headers name.
    GetSelected(u32, &'a [u8]),
    /// Tell all parts.
    GetAll(u32),
    /// Set the parts of the list.
    PartsSet(u32, &'a [u8]),
    /// Stop or resume.
    ModeSet(Mode),
}

/// What a metadata command asks.
#[derive(Clone, Copy, Debug, PartialEq, Eq)]
pub enum About {
    /// The size of all parts with their headers.
    Size,
    /// The number of parts.
    Count,
    /// The number of parts and their headers.
    List,
}

impl<'a> Command<'a> {
    /// Step 7: the fields. Data may have any length; bytes past the fixed
    /// fields are a list of parts, bits of a mask, or ignored.
    pub fn read(opcode: Opcode, data: &'a [u8], setup: &Common) -> Result<Self, Refusal> {
        let fields = &fixed_fields(data);
        let more = behind(data, opcode.fixed_length());
        let operation = match opcode {
            Opcode::ListQuery => return Ok(Command::ListQuery),
            Opcode::ListUse => return Ok(Command::ListUse(mask(fields, more)?)),
            Opcode::Create => Operation::Create(flagged_id(fields, setup)?, kind(fields)?),
            Opcode::Modify => Operation::Modify(flagged_id(fields, setup)?, kind(fields)?),
            Opcode::Query => Operation::Query(flagged_id(fields, setup)?),
            Opcode::Destroy => Operation::Destroy(id(fields, setup)?),
            Opcode::Metadata => Operation::Metadata(id(fields, setup)?, about(fields)?),
            Opcode::PartsGet => get(id(fields, setup)?, fields, more)?,
            Opcode::PartsSet => Operation::PartsSet(id(fields, setup)?, more),
            Opcode::ModeSet => Operation::ModeSet(mode(fields)?),
        };
        Ok(Command::OnMember(operation))
    }
}

/// The mask of list use, of any length: supported bits only. None of them is
/// past the first 64, so what follows these is zero.
fn mask(fields: &[u8], more: &[u8]) -> Result<u64, Refusal> {
    let mask = u64_at(fields, 0);
    let supported = mask & !SUPPORTED == 0 && more.iter().all(|byte| *byte == 0);
    Refusal::Field.unless(supported)?;
    Ok(mask)
}

/// The object header: type 0 and a valid id.
fn id(fields: &[u8], setup: &Common) -> Result<u32, Refusal> {
    let id = u32_at(fields, 4);
    Refusal::Field.unless(u16_at(fields, 0) == 0 && setup.has_id(id))?;
    Ok(id)
}

/// The object header and flags that are zero.
fn flagged_id(fields: &[u8], setup: &Common) -> Result<u32, Refusal> {
    Refusal::Field.unless(u64_at(fields, 8) == 0)?;
    id(fields, setup)
}

/// The kind of create and modify.
fn kind(fields: &[u8]) -> Result<Kind, Refusal> {
    Kind::from_byte(fields[16]).ok_or(Refusal::Field)
}

/// The type byte of metadata.
fn about(fields: &[u8]) -> Result<About, Refusal> {
    match fields[8] {
        0 => Ok(About::Size),
        1 => Ok(About::Count),
        2 => Ok(About::List),
        _ => Err(Refusal::Field),
    }
}

/// The type byte of parts get; with get-all any byte that follows counts as
/// headers given.
fn get<'a>(id: u32, fields: &[u8], headers: &'a [u8]) -> Result<Operation<'a>, Refusal> {
    match fields[8] {
        0 => Ok(Operation::GetSelected(id, headers)),
        1 if headers.is_empty() => Ok(Operation::GetAll(id)),
        _ => Err(Refusal::Field),
    }
}

/// The mode byte: bit 0 set stops, clear resumes.
fn mode(fields: &[u8]) -> Result<Mode, Refusal> {
    match fields[0] {
        0 => Ok(Mode::Running),
        1 => Ok(Mode::Stopped),
        _ => Err(Refusal::Field),
    }
}
