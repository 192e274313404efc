//! The configuration of a member (request 3 of document 02).

/// The length of a member's configuration.
pub const LENGTH: usize = 12;

/// The configuration bytes of a member, and the generation that tells of their
/// changes.
#[derive(Clone, Debug, PartialEq, Eq)]
pub struct Configuration {
    /// The bytes.
    pub bytes: [u8; LENGTH],
    /// Moved by one with each write that is applied.
    pub generation: u32,
}

impl Configuration {
    /// Fresh: all bytes zero, with a generation to start from.
    pub fn fresh(generation: u32) -> Configuration {
        Configuration { bytes: [0; LENGTH], generation }
    }

    /// So many bytes from an offset on; none if that is past the end.
    pub fn read(&self, offset: u32, length: u32) -> &[u8] {
        let start = offset as usize;
        self.bytes.get(start..start + length as usize).unwrap_or_default()
    }

    /// Writes bytes from an offset on and tells what was written: all of them,
    /// or nothing if that is past the end or the generation is stale. Nothing
    /// to write is no write.
    pub fn write<'a>(&mut self, generation: u32, offset: u32, data: &'a [u8]) -> &'a [u8] {
        let start = offset as usize;
        match self.bytes.get_mut(start..start + data.len()) {
            Some(bytes) if generation == self.generation && !data.is_empty() => {
                bytes.copy_from_slice(data);
                self.generation = self.generation.wrapping_add(1);
                data
            }
            _ => &[],
        }
    }
}
