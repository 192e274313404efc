//! Reading and writing a member's configuration by message.

use crate::number::wire_number;
use alloc::vec::Vec;
use core::fmt;

wire_number! {
    /// What a virtio-msg request is for.
    MessageId, "{:#04x}",
    /// Reads configuration bytes.
    GET_CONFIG = 0x05,
    /// Writes configuration bytes.
    SET_CONFIG = 0x06,
}

/// The bit of the type byte that is set in a response, and the one of a bus
/// message.
const RESPONSE: u8 = 0b01;
const BUS: u8 = 0b10;

/// A virtio-msg request that reads or writes the configuration of a member, for
/// a card on a bus without PCI. Device number d speaks for member d + 1.
///
/// A driver hands [`Message::as_bytes`] to the bus and reads the response that
/// comes back with [`Message::read`]; a card in this process hears it with
/// [`Card::message`](crate::Card::message).
///
/// ```
/// use kajurnat::{Card, Message, Response, Setup};
///
/// let setup = Setup::alike(2, 1, 1, 1, [0; 16]);
/// let mut card = Card::new(&setup)?;
/// let mut buffer = [0; Response::MAX];
///
/// // Member 2, which starts with generation 0, gets four bytes.
/// let write = Message::set_config(1, 0, 8, &[1, 2, 3, 4])?;
/// let response = write.read(card.message(&write, &mut buffer)?)?;
/// assert_eq!((response.data(), response.generation()), (&[1, 2, 3, 4][..], 1));
///
/// // The generation has moved, so the same write is not applied again.
/// let response = write.read(card.message(&write, &mut buffer)?)?;
/// assert_eq!((response.data(), response.generation()), (&[][..], 1));
///
/// let read = Message::get_config(1, 6, 3);
/// let response = read.read(card.message(&read, &mut buffer)?)?;
/// assert_eq!(response.data(), [0, 0, 1]);
/// # Ok::<(), Box<dyn std::error::Error>>(())
/// ```
#[derive(Clone, Debug, PartialEq, Eq)]
pub struct Message {
    bytes: Vec<u8>,
    /// Where the configuration bytes that are asked for or sent stand.
    offset: u32,
    /// How many they are.
    length: u32,
}

impl Message {
    /// The length of the header.
    pub const HEADER: usize = 8;

    /// The length of a member's configuration.
    pub const CONFIG_BYTES: usize = 12;

    /// Asks for so many configuration bytes of a device from an offset on.
    #[must_use]
    pub fn get_config(device: u16, offset: u32, length: u32) -> Self {
        let bytes = bytes(MessageId::GET_CONFIG, device, 16, &[offset, length], &[]);
        Self { bytes, offset, length }
    }

    /// Writes configuration bytes of a device from an offset on, if the
    /// generation is the device's.
    ///
    /// # Errors
    ///
    /// [`MessageTooLong`] if the message would be over 65,535 bytes.
    pub fn set_config(
        device: u16,
        generation: u32,
        offset: u32,
        data: &[u8],
    ) -> Result<Self, MessageTooLong> {
        let size = Response::FIXED + data.len();
        let size = u16::try_from(size).map_err(|_| MessageTooLong { length: size })?;
        let length = data.len() as u32;
        let fields = [generation, offset, length];
        let bytes = bytes(MessageId::SET_CONFIG, device, size, &fields, data);
        Ok(Self { bytes, offset, length })
    }

    /// The message with a token, by which a bus knows the response again. It is
    /// 0 otherwise.
    #[must_use]
    pub fn with_token(mut self, token: u16) -> Self {
        self.bytes[4..6].copy_from_slice(&token.to_le_bytes());
        self
    }

    /// The bytes of the message.
    #[must_use]
    pub fn as_bytes(&self) -> &[u8] {
        &self.bytes
    }

    /// Reads the bytes of a whole response to this message. The token is the
    /// bus's and is not looked at.
    ///
    /// # Errors
    ///
    /// [`BadResponse`] if they are no response to it.
    pub fn read<'r>(&self, response: &'r [u8]) -> Result<Response<'r>, BadResponse> {
        let bad = BadResponse { length: response.len() };
        let (fixed, data) = response.split_at_checked(Response::FIXED).ok_or(bad)?;
        let number = |at: usize| u32::from_le_bytes([0, 1, 2, 3].map(|byte| fixed[at + byte]));
        let size = usize::from(u16::from_le_bytes([fixed[6], fixed[7]]));
        let sent = number(16) as usize;
        let good = fixed[0] & (RESPONSE | BUS) == RESPONSE
            && fixed[1..4] == self.bytes[1..4]
            && number(12) == self.offset
            && (size, sent) == (response.len(), data.len())
            && [0, self.length as usize].contains(&sent);
        if good {
            Ok(Response { generation: number(8), data })
        } else {
            Err(bad)
        }
    }
}

/// The bytes of a request of this size, with token 0.
fn bytes(id: MessageId, device: u16, size: u16, fields: &[u32], data: &[u8]) -> Vec<u8> {
    let mut bytes = Vec::with_capacity(size.into());
    bytes.extend([0, id.0 as u8]);
    bytes.extend(device.to_le_bytes());
    bytes.extend([0; 2]);
    bytes.extend(size.to_le_bytes());
    bytes.extend(fields.iter().flat_map(|field| field.to_le_bytes()));
    bytes.extend(data);
    bytes
}

impl AsRef<[u8]> for Message {
    fn as_ref(&self) -> &[u8] {
        &self.bytes
    }
}

/// A response to a [`Message`].
#[derive(Clone, Copy, Debug, PartialEq, Eq)]
pub struct Response<'r> {
    generation: u32,
    data: &'r [u8],
}

impl<'r> Response<'r> {
    /// The length of a response without data.
    pub const FIXED: usize = 20;

    /// The longest response of any card.
    pub const MAX: usize = Self::FIXED + Message::CONFIG_BYTES;

    /// The generation of the device's configuration, after the message.
    #[must_use]
    pub const fn generation(&self) -> u32 {
        self.generation
    }

    /// The bytes read, or the bytes written as they were sent. There are none
    /// if nothing was read or written: of length 0, past the end of the
    /// configuration, or with a generation that is not the device's.
    #[must_use]
    pub const fn data(&self) -> &'r [u8] {
        self.data
    }
}

/// A message would be longer than its header can tell.
#[derive(Clone, Copy, Debug, PartialEq, Eq)]
pub struct MessageTooLong {
    /// The length that it would have.
    pub length: usize,
}

impl fmt::Display for MessageTooLong {
    fn fmt(&self, f: &mut fmt::Formatter<'_>) -> fmt::Result {
        write!(f, "a message of {} bytes: it has 65535 at most", self.length)
    }
}

impl core::error::Error for MessageTooLong {}

/// Bytes are no response to the message that was sent.
#[derive(Clone, Copy, Debug, PartialEq, Eq)]
pub struct BadResponse {
    /// Their length.
    pub length: usize,
}

impl fmt::Display for BadResponse {
    fn fmt(&self, f: &mut fmt::Formatter<'_>) -> fmt::Result {
        write!(f, "{} bytes that are no response to the message", self.length)
    }
}

impl core::error::Error for BadResponse {}

/// The bus outcome: a message gets no response, and nothing is changed. It is
/// not one whole request that reads or writes a configuration, the card has no
/// such device, its member is marked, or the buffer is too short for the
/// response.
#[derive(Clone, Copy, Debug, PartialEq, Eq)]
pub struct NoResponse;

impl fmt::Display for NoResponse {
    fn fmt(&self, f: &mut fmt::Formatter<'_>) -> fmt::Result {
        f.write_str("the card gives no response to the message")
    }
}

impl core::error::Error for NoResponse {}
