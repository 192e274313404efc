//! The holding place of a member (request 6 of document 02).

/// The most bytes that a holding place takes.
pub const ROOM: usize = 1024;

/// The holding place of a member: the bytes of a list that have come so far.
#[derive(Clone, Debug, PartialEq, Eq)]
pub struct Holding {
    /// How many bytes it holds, if one is open. An open one that holds none
    /// differs from none.
    pub held: Option<u16>,
    /// The bytes held, and what stands behind them. Soundness does not look at
    /// what stands behind, and the calls leave it zero where it was zero.
    pub room: [u8; ROOM],
}

impl Default for Holding {
    /// None is open.
    fn default() -> Self {
        Holding { held: None, room: [0; ROOM] }
    }
}

impl Holding {
    /// Whether it may stand in a sound card: no more is held than there is room
    /// for.
    pub fn fits(&self) -> bool {
        usize::from(self.held.unwrap_or(0)) <= ROOM
    }

    /// The bytes held, if one is open. It fits.
    pub fn bytes(&self) -> Option<&[u8]> {
        self.held.map(|held| &self.room[..usize::from(held)])
    }

    /// Adds a fragment behind the bytes held, if it all fits. One is open.
    pub fn add(&mut self, fragment: &[u8]) -> bool {
        let held = usize::from(self.held.unwrap_or(0));
        if fragment.len() > ROOM - held {
            return false;
        }
        let end = held + fragment.len();
        self.room[held..end].copy_from_slice(fragment);
        self.held = Some(end as u16);
        true
    }
}
