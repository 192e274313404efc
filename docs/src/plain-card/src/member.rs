//! A member's record.

use crate::configuration::Configuration;
use crate::holding::Holding;
use crate::object::Objects;
use crate::setup::{Common, QUEUES};
use crate::values::Values;

/// Whether a member runs.
#[derive(Clone, Copy, Debug, Default, PartialEq, Eq)]
pub enum Mode {
    /// It runs; its parts cannot be set by a command.
    #[default]
    Running,
    /// It is stopped.
    Stopped,
}

/// The record of a member: its mode, its mark, its queue count, its live
/// objects, its parts, its configuration and its holding place.
#[derive(Clone, Debug, PartialEq, Eq)]
pub struct Member {
    /// Running or stopped.
    pub mode: Mode,
    /// Whether it is handed back and waits for its wipe.
    pub marked: bool,
    /// Q, the number of its queues; no reset changes it.
    pub queues: u8,
    /// The live objects.
    pub objects: Objects,
    /// The values of the parts.
    pub values: Values,
    /// The configuration and its generation; no part.
    pub configuration: Configuration,
    /// The holding place of a restore in fragments.
    pub holding: Holding,
}

impl Member {
    /// A fresh member runs, has no objects, has device features as in the
    /// setup and every other part all zero. Its configuration is zero, with the
    /// generation given. No holding place is open. It has no mark.
    pub fn fresh(setup: &Common, queues: u8, generation: u32) -> Member {
        Member {
            mode: Mode::Running,
            marked: false,
            queues,
            objects: Objects::default(),
            values: Values { device_features: setup.features, ..Values::default() },
            configuration: Configuration::fresh(generation),
            holding: Holding::default(),
        }
    }

    /// Whether the record may stand in a sound card of this setup.
    pub fn is_sound(&self, setup: &Common) -> bool {
        QUEUES.contains(&self.queues)
            && self.objects.fit(setup)
            && self.values.device_features == setup.features
            && self.values.queues_allowed(self.queues)
            && self.holding.fits()
            && (!self.marked || self.is_let_go())
    }

    /// Whether it is stopped, with no live object and no holding place.
    fn is_let_go(&self) -> bool {
        self.mode == Mode::Stopped
            && self.objects == Objects::default()
            && self.holding.held.is_none()
    }

    /// Ends objects and holding place, stops the member and marks it. Parts and
    /// configuration stay as they are.
    pub fn hand_back(&mut self) {
        self.objects = Objects::default();
        self.holding = Holding::default();
        self.mode = Mode::Stopped;
        self.marked = true;
    }
}
