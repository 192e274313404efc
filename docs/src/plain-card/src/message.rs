//! Configuration by message (request 3 of document 02): the virtio-msg front of
//! source 003, for reading and writing a member's configuration.

use crate::card::Card;
use crate::configuration::Configuration;
use crate::frame::{u16_at, u32_at};

/// The length of a message's header.
pub const HEADER: usize = 8;
/// The message id of a read.
pub const GET_CONFIG: u8 = 0x05;
/// The message id of a write.
pub const SET_CONFIG: u8 = 0x06;
/// The bit of the type byte that is set in a response.
pub const RESPONSE: u8 = 0b01;
/// The bit of the type byte that is set in a bus message.
pub const BUS_MESSAGE: u8 = 0b10;
/// The length of the fields of a read.
pub const READ: usize = 8;
/// The length of the fields of a write and of a response, ahead of the data.
pub const FIELDS: usize = 12;

/// A whole request of one of the two kinds.
#[derive(Clone, Copy, Debug, PartialEq, Eq)]
pub struct Message<'a> {
    /// The device number; device d speaks for member d + 1.
    pub device: u16,
    /// What the bus knows the answer by.
    pub token: u16,
    /// What is asked.
    pub asked: Asked<'a>,
}

/// What a message asks.
#[derive(Clone, Copy, Debug, PartialEq, Eq)]
pub enum Asked<'a> {
    /// Offset and length of the bytes to tell.
    Read(u32, u32),
    /// The generation that the driver knows, the offset and the bytes to write.
    Write(u32, u32, &'a [u8]),
}

/// Hears a message and answers in `reply`. The number is that of the bytes
/// written; 0 is the bus outcome, with nothing written and nothing changed. A
/// member that is handed back gives it too.
pub fn message(card: &mut Card, message: &[u8], reply: &mut [u8]) -> usize {
    respond(card, message, reply).unwrap_or(0)
}

/// Writes the response, if there is one and it fits, and then changes the
/// configuration.
fn respond(card: &mut Card, message: &[u8], reply: &mut [u8]) -> Option<usize> {
    let message = Message::read(message).filter(|_| card.is_sound())?;
    let member = Some(message.member()).filter(|member| card.setup.has_member(*member))?;
    let record = Some(card.member_mut(member)).filter(|record| !record.marked)?;
    let configuration = &mut record.configuration;
    let (response, after) = message.response(configuration);
    reply.get_mut(..response.len())?.copy_from_slice(&response);
    *configuration = after;
    Some(response.len())
}

impl<'a> Message<'a> {
    /// The message in these bytes, if they are one whole request of the two
    /// kinds: neither a response nor a bus message, with lengths that all agree.
    /// Bits 2 to 7 of the type are ignored.
    pub fn read(bytes: &'a [u8]) -> Option<Message<'a>> {
        let (header, payload) = bytes.split_at_checked(HEADER)?;
        let request = header[0] & (RESPONSE | BUS_MESSAGE) == 0;
        let whole = usize::from(u16_at(header, 6)) == bytes.len();
        let asked = match header[1] {
            GET_CONFIG => read(payload)?,
            SET_CONFIG => write(payload)?,
            _ => return None,
        };
        let message = Message { device: u16_at(header, 2), token: u16_at(header, 4), asked };
        (request && whole).then_some(message)
    }

    /// The member that the device speaks for.
    pub fn member(&self) -> u64 {
        u64::from(self.device) + 1
    }

    /// The response, and the configuration then. A read or write that is not
    /// done has length 0 and no data.
    fn response(&self, before: &Configuration) -> (Vec<u8>, Configuration) {
        let mut after = before.clone();
        let (id, offset, data) = match self.asked {
            Asked::Read(offset, length) => (GET_CONFIG, offset, before.read(offset, length)),
            Asked::Write(generation, offset, data) => {
                (SET_CONFIG, offset, after.write(generation, offset, data))
            }
        };
        let size = HEADER + FIELDS + data.len();
        let mut response = vec![RESPONSE, id];
        response.extend(self.device.to_le_bytes());
        response.extend(self.token.to_le_bytes());
        response.extend((size as u16).to_le_bytes());
        response.extend(after.generation.to_le_bytes());
        response.extend(offset.to_le_bytes());
        response.extend((data.len() as u32).to_le_bytes());
        response.extend(data);
        (response, after)
    }
}

/// The fields of a read.
fn read(payload: &[u8]) -> Option<Asked<'_>> {
    (payload.len() == READ).then(|| Asked::Read(u32_at(payload, 0), u32_at(payload, 4)))
}

/// The fields of a write, with as many bytes of data as they say.
fn write(payload: &[u8]) -> Option<Asked<'_>> {
    let (fields, data) = payload.split_at_checked(FIELDS)?;
    let agrees = u32_at(fields, 8) as usize == data.len();
    agrees.then(|| Asked::Write(u32_at(fields, 0), u32_at(fields, 4), data))
}
