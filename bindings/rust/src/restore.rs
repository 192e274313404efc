//! Restoring a member from a list that comes in fragments.

use crate::card::Card;
use crate::raw;
use crate::reply::Refusal;
use crate::status::{Qualifier, Status};
use alloc::vec::Vec;
use core::fmt;
use core::mem;

/// A restore that has begun: the fragments of a list of parts that have come so
/// far, kept in the member's holding place on the card.
///
/// Fragments end anywhere. [`Restore::finish`] does what one parts set of the
/// joined bytes would do. A restore that is dropped instead, by an early return
/// too, drops the holding place:
///
/// ```
/// # use kajurnat::{Card, Kind, Opcode, PartType, Request, Setup};
/// # let setup = Setup::alike(2, 1, 1, 1, [0; 16]);
/// # let mut card = Card::new(&setup)?;
/// # card.send(Request::list_use(Opcode::SUPPORTED))?;
/// # card.send(Request::create(1, 0, Kind::Get))?;
/// # card.send(Request::create(2, 1, Kind::Set))?;
/// # card.send(Request::stop(2))?;
/// # let parts = card.send(Request::capture(1, 0))?;
/// # let connection = parts.chunks(7);
/// let mut restore = card.begin_restore(2)?;
/// for fragment in connection {
///     restore.feed(fragment)?;
/// }
/// restore.finish(1)?;
/// # Ok::<(), Box<dyn std::error::Error>>(())
/// ```
///
/// It is a [`std::io::Write`] too, so that [`std::io::copy`] feeds it.
///
/// Other calls of the card go through [`Restore::card`] meanwhile. Nothing but
/// a restore of the same member, its hand back and wipe, and a reset of the card
/// touches its holding place.
pub struct Restore<'c, B: AsMut<[u8]> = Vec<u8>> {
    card: &'c mut Card<B>,
    member: u64,
}

impl Restore<'_> {
    /// The most bytes of a list that comes in fragments.
    pub const MAX: usize = 1024;
}

impl<'c, B: AsMut<[u8]>> Restore<'c, B> {
    /// Opens the holding place of a member.
    pub(crate) fn begin(card: &'c mut Card<B>, member: u64) -> Result<Self, Refusal> {
        read(raw::restore_begin(card.bytes_mut(), member))?;
        Ok(Self { card, member })
    }

    /// Takes up a holding place that is open: a feed of no bytes changes none,
    /// and is refused if there is none.
    pub(crate) fn take_up(card: &'c mut Card<B>, member: u64) -> Result<Self, Refusal> {
        read(raw::restore_feed(card.bytes_mut(), member, &[]))?;
        Ok(Self { card, member })
    }

    /// Adds a fragment of any length.
    ///
    /// # Errors
    ///
    /// [`Refusal`] with [`Status::EINVAL`] if the fragments are over
    /// [`Restore::MAX`] in all. The holding place is then gone: what is fed
    /// after that is refused with [`Status::ENXIO`]. With [`Status::EAGAIN`] if
    /// the member was handed back meanwhile.
    pub fn feed(&mut self, fragment: &[u8]) -> Result<(), Refusal> {
        read(raw::restore_feed(self.card.bytes_mut(), self.member, fragment))
    }

    /// Sets the parts of the list that was fed, through the set object of this
    /// id: all of them or none. The restore is then over, whatever the answer.
    ///
    /// # Errors
    ///
    /// [`Refusal`] as that of [`Request::set`](crate::Request::set) with the
    /// whole list, or with [`Status::ENXIO`] if the holding place is gone. The
    /// member's parts are then unchanged.
    pub fn finish(self, id: u32) -> Result<(), Refusal> {
        let answer = raw::restore_finish(self.card.bytes_mut(), self.member, id);
        // Nothing is left to drop.
        mem::forget(self);
        read(answer)
    }

    /// Leaves the holding place open, so that the card can be used without this
    /// restore, or kept as bytes; [`Card::take_up_restore`] goes on with it.
    pub fn leave_open(self) {
        mem::forget(self);
    }

    /// The member that is restored.
    #[must_use]
    pub const fn member(&self) -> u64 {
        self.member
    }

    /// The card, for other calls while the restore goes on.
    #[must_use]
    pub fn card(&mut self) -> &mut Card<B> {
        self.card
    }
}

impl<B: AsMut<[u8]>> Drop for Restore<'_, B> {
    /// Drops the holding place, if it is still open.
    fn drop(&mut self) {
        let _ = raw::restore_drop(self.card.bytes_mut(), self.member);
    }
}

impl<B: AsMut<[u8]>> fmt::Debug for Restore<'_, B> {
    /// The member only: the fragments hold addresses of guest memory.
    fn fmt(&self, f: &mut fmt::Formatter<'_>) -> fmt::Result {
        f.debug_struct("Restore").field("member", &self.member).finish_non_exhaustive()
    }
}

/// What is written is fed: all of it, or it is an error.
#[cfg(feature = "std")]
impl<B: AsMut<[u8]>> std::io::Write for Restore<'_, B> {
    fn write(&mut self, fragment: &[u8]) -> std::io::Result<usize> {
        self.feed(fragment).map_err(std::io::Error::other)?;
        Ok(fragment.len())
    }

    fn flush(&mut self) -> std::io::Result<()> {
        Ok(())
    }
}

/// Reads the archive's answer to a call of a restore on a sound card.
fn read(answer: u32) -> Result<(), Refusal> {
    assert!(answer != NOT_SOUND, "a sound card takes part in a restore");
    let (status, qualifier) = (Status(answer as u16), Qualifier((answer >> 16) as u16));
    match status {
        Status::OK => Ok(()),
        _ => Err(Refusal { status, qualifier, sent_status: status, sent_qualifier: qualifier }),
    }
}

/// The answer for bytes that are not a sound card.
const NOT_SOUND: u32 = 9;
