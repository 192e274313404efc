//! A card in memory that it owns or is lent.

use crate::event::EventError;
use crate::message::NoResponse;
use crate::part::PartType;
use crate::raw;
use crate::reply::{Refusal, Reply, ReplyTooShort};
use crate::request::Request;
use crate::restore::Restore;
use crate::setup::{BadSetup, Setup, SetupError};
use alloc::vec;
use alloc::vec::Vec;
use core::borrow::Borrow;
use core::fmt;

/// A sound card in memory `B`: a `Vec<u8>` of its own, a lent `&mut [u8]`, an
/// array, or another type that gives its bytes.
///
/// A card is sound when it is made or taken up, and every call leaves it so:
/// this is proved of the archive. A refusal changes nothing, but for what
/// [`Restore`] says of the holding place.
///
/// ```
/// use kajurnat::{Card, PartType, Setup};
///
/// const SETUP: Setup = Setup::alike(1, 2, 1, 1, [0; 16]);
///
/// // A card that owns its memory.
/// let mut card = Card::new(&SETUP)?;
/// card.store(1, PartType::VQ_NOTIFY_CFG, 1, &[7; 8])?;
///
/// // A card that is lent an array, for as long as `lent` is used.
/// let mut memory = [0; SETUP.card_bytes()];
/// let mut lent = Card::new_in(&SETUP, &mut memory)?;
/// lent.store(1, PartType::VQ_NOTIFY_CFG, 1, &[7; 8])?;
/// assert_eq!(lent, card);
///
/// // The bytes are the whole card. They may be kept, and taken up again.
/// let mut again = Card::from_bytes(&mut memory)?;
/// again.hand_back(1)?;
/// again.wipe(1, 0)?;
/// assert_eq!(again, Card::new(&SETUP)?);
/// # Ok::<(), Box<dyn std::error::Error>>(())
/// ```
///
/// # Panics
///
/// The memory has to give the same bytes each time, as those of the standard
/// library do. If it gives others, and these are not a sound card, the call
/// panics.
#[derive(Clone)]
pub struct Card<B = Vec<u8>> {
    memory: B,
}

impl Card {
    /// A fresh card in memory of its own: the two list commands are in use;
    /// every member runs, is not marked, has no objects and no open holding
    /// place, all its parts are zero but the device features, and so are its
    /// configuration and generation.
    ///
    /// # Errors
    ///
    /// [`SetupError`] names the first number that is out of range.
    pub fn new(setup: &Setup) -> Result<Self, SetupError> {
        Self::new_in(setup, vec![0; setup.card_bytes()])
    }

    /// A fresh card of a packed setup, of either version: see
    /// [`Setup::to_bytes`].
    ///
    /// # Errors
    ///
    /// [`BadSetup::Refused`] if the bytes are no packed setup.
    pub fn from_setup(bytes: &[u8]) -> Result<Self, BadSetup> {
        let mut memory = vec![0; Setup::from_bytes(bytes)?.card_bytes()];
        match raw::setup_from(&mut memory, bytes) {
            0 => Ok(Self { memory }),
            _ => Err(BadSetup::Refused),
        }
    }
}

impl<B: AsRef<[u8]>> Card<B> {
    /// The card that these bytes are. Bytes that are lent without `mut` are a
    /// card to look at: they tell its setup.
    ///
    /// # Errors
    ///
    /// [`NotSound`] if they are not a sound card.
    pub fn from_bytes(bytes: B) -> Result<Self, NotSound> {
        match raw::is_sound(bytes.as_ref()) {
            1 => Ok(Self { memory: bytes }),
            _ => Err(NotSound),
        }
    }

    /// The setup that the card was made with.
    #[must_use]
    pub fn setup(&self) -> Setup {
        Setup::of_card(self.as_bytes())
    }

    /// The bytes of the card, to be kept or moved as they are. They are a
    /// card for the same [`version`](crate::version).
    #[must_use]
    pub fn as_bytes(&self) -> &[u8] {
        self.memory.as_ref()
    }

    /// The memory of the card, given up.
    #[must_use]
    pub fn into_bytes(self) -> B {
        self.memory
    }
}

impl<B: AsMut<[u8]>> Card<B> {
    /// A fresh card, as [`Card::new`] makes it, in this memory. What the
    /// memory held before does not matter.
    ///
    /// # Errors
    ///
    /// [`SetupError`] if a number is out of range or the memory is not
    /// [`Setup::card_bytes`] long. The memory is then filled with zeros.
    pub fn new_in(setup: &Setup, mut memory: B) -> Result<Self, SetupError> {
        let bytes = memory.as_mut();
        let answer = raw::setup(
            bytes,
            setup.members.into(),
            setup.counts(),
            setup.gets.into(),
            setup.sets.into(),
            &setup.features,
        );
        match answer {
            0 => Ok(Self { memory }),
            _ => Err(SetupError::cause(setup, bytes.len())),
        }
    }

    /// Carries out one command and gives its result.
    ///
    /// ```
    /// # use kajurnat::{Card, Opcode, Request, Setup};
    /// # let setup = Setup::alike(1, 1, 1, 1, [0; 16]);
    /// # let mut card = Card::new(&setup)?;
    /// let mask = card.send(Request::list_query())?;
    /// assert_eq!(mask, Opcode::SUPPORTED.to_le_bytes());
    /// # Ok::<(), Box<dyn std::error::Error>>(())
    /// ```
    ///
    /// # Errors
    ///
    /// [`Refusal`] if the card refuses the command. The card is then
    /// unchanged.
    pub fn send(&mut self, request: impl Borrow<Request>) -> Result<Vec<u8>, Refusal> {
        let request = request.borrow();
        let mut buffer = [0; Reply::MAX];
        let reply = self.command(request, &mut buffer);
        let reply = reply.expect("the buffer has room for every reply");
        let reply = request.read(reply).expect("a sound card answers the command sent");
        reply.result().map(<[u8]>::to_vec)
    }

    /// Carries out one command that came as bytes, a [`Request`] or any
    /// others, and gives the reply, which it writes at the start of the
    /// buffer: what a device does that is handed a request and a place for the
    /// reply. [`Reply::MAX`] bytes are always enough. The bytes past the reply
    /// keep their values.
    ///
    /// # Errors
    ///
    /// [`ReplyTooShort`] if the buffer is under [`Reply::HEAD`] bytes. It is
    /// then not written, and the card is unchanged.
    pub fn command<'r>(
        &mut self,
        request: impl AsRef<[u8]>,
        reply: &'r mut [u8],
    ) -> Result<&'r [u8], ReplyTooShort> {
        let buffer = reply.len();
        if buffer < Reply::HEAD {
            return Err(ReplyTooShort { buffer });
        }
        let written = raw::command(self.memory.as_mut(), request.as_ref(), reply);
        assert!(written != 0, "a sound card replies to every command");
        Ok(&reply[..written])
    }

    /// Hears one virtio-msg request that came as bytes, a
    /// [`Message`](crate::Message) or any others, and gives the response, which
    /// it writes at the start of the buffer.
    /// [`Response::MAX`](crate::Response::MAX) bytes are always enough. The
    /// bytes past the response keep their values.
    ///
    /// # Errors
    ///
    /// [`NoResponse`] is the bus outcome: nothing is written, and the card is
    /// unchanged.
    pub fn message<'r>(
        &mut self,
        message: impl AsRef<[u8]>,
        reply: &'r mut [u8],
    ) -> Result<&'r [u8], NoResponse> {
        match raw::message(self.memory.as_mut(), message.as_ref(), reply) {
            0 => Err(NoResponse),
            written => Ok(&reply[..written]),
        }
    }

    /// Sets the parts of a list that comes in fragments, through the set object
    /// of this id, once they are all there: all parts or none. Fragments end
    /// anywhere.
    ///
    /// ```
    /// # use kajurnat::{Card, Kind, Opcode, Request, Setup};
    /// # let setup = Setup::alike(1, 1, 1, 1, [0; 16]);
    /// # let mut card = Card::new(&setup)?;
    /// # card.send(Request::list_use(Opcode::SUPPORTED))?;
    /// # card.send(Request::create(1, 0, Kind::Get))?;
    /// # card.send(Request::create(1, 1, Kind::Set))?;
    /// # card.send(Request::stop(1))?;
    /// let parts = card.send(Request::capture(1, 0))?;
    /// card.restore(1, 1, parts.chunks(5))?;
    /// # Ok::<(), Box<dyn std::error::Error>>(())
    /// ```
    ///
    /// # Errors
    ///
    /// [`Refusal`] as that of [`Card::begin_restore`], [`Restore::feed`] or
    /// [`Restore::finish`]. Nothing is then set, and no holding place is left
    /// open but one that was.
    pub fn restore<I>(&mut self, member: u64, id: u32, fragments: I) -> Result<(), Refusal>
    where
        I: IntoIterator,
        I::Item: AsRef<[u8]>,
    {
        let mut restore = self.begin_restore(member)?;
        for fragment in fragments {
            restore.feed(fragment.as_ref())?;
        }
        restore.finish(id)
    }

    /// Begins a restore of a member from fragments that come one at a time. It
    /// needs neither an object nor a stopped member until it is finished.
    ///
    /// # Errors
    ///
    /// The first that applies: [`Refusal`] with [`Qualifier::INVALID_MEMBER`]
    /// if the card has no such member, with [`Status::EAGAIN`] if it is marked,
    /// with [`Status::EEXIST`] if its holding place is open: see
    /// [`Card::take_up_restore`].
    ///
    /// [`Qualifier::INVALID_MEMBER`]: crate::Qualifier::INVALID_MEMBER
    /// [`Status::EAGAIN`]: crate::Status::EAGAIN
    /// [`Status::EEXIST`]: crate::Status::EEXIST
    pub fn begin_restore(&mut self, member: u64) -> Result<Restore<'_, B>, Refusal> {
        Restore::begin(self, member)
    }

    /// Goes on with a restore of a member that was left open.
    ///
    /// # Errors
    ///
    /// The first that applies: [`Refusal`] with [`Qualifier::INVALID_MEMBER`]
    /// if the card has no such member, with [`Status::EAGAIN`] if it is marked,
    /// with [`Status::ENXIO`] if its holding place is not open.
    ///
    /// [`Qualifier::INVALID_MEMBER`]: crate::Qualifier::INVALID_MEMBER
    /// [`Status::EAGAIN`]: crate::Status::EAGAIN
    /// [`Status::ENXIO`]: crate::Status::ENXIO
    pub fn take_up_restore(&mut self, member: u64) -> Result<Restore<'_, B>, Refusal> {
        Restore::take_up(self, member)
    }

    /// The bytes of the card, to be lent to the archive.
    pub(crate) fn bytes_mut(&mut self) -> &mut [u8] {
        self.memory.as_mut()
    }

    /// The first half of a member's reset, so that the data path has time to
    /// let go of its guest: the member's objects and its holding place are
    /// ended, and it is stopped and marked. Until [`Card::wipe`] every command
    /// that is in use and every restore for it is refused with
    /// [`Status::EAGAIN`], and no message reaches it; [`Card::store`] still
    /// works.
    ///
    /// # Errors
    ///
    /// The first that applies of [`EventError::NoSuchMember`] and
    /// [`EventError::WrongMark`].
    ///
    /// [`Status::EAGAIN`]: crate::Status::EAGAIN
    pub fn hand_back(&mut self, member: u64) -> Result<(), EventError> {
        EventError::from_answer(raw::hand_back(self.memory.as_mut(), member))
    }

    /// The second half: makes a member that is marked fresh, with its queue
    /// count, and changes nothing else. Its configuration starts from this
    /// generation, so that the count does not tell of the former guest.
    ///
    /// # Errors
    ///
    /// The first that applies of [`EventError::NoSuchMember`] and
    /// [`EventError::WrongMark`].
    pub fn wipe(&mut self, member: u64, generation: u32) -> Result<(), EventError> {
        EventError::from_answer(raw::wipe(self.memory.as_mut(), member, generation))
    }

    /// Makes the whole card fresh, marked members too; the setup stays. The
    /// configuration of every member starts from this generation.
    pub fn reset(&mut self, generation: u32) {
        let answer = raw::reset_card(self.memory.as_mut(), generation);
        EventError::from_answer(answer).expect("a sound card can be reset");
    }

    /// Sets one part of one member, running, stopped or marked, as the data
    /// path does. `selector` is the index of the queue or the offset of the
    /// field, and is not read for other parts.
    ///
    /// # Errors
    ///
    /// The first that applies of [`EventError::NoSuchMember`],
    /// [`EventError::NoSuchPart`], [`EventError::WrongLength`] and
    /// [`EventError::BadQueueSize`].
    pub fn store(
        &mut self,
        member: u64,
        part_type: PartType,
        selector: u64,
        value: &[u8],
    ) -> Result<(), EventError> {
        let answer = raw::store(self.memory.as_mut(), member, part_type.0, selector, value);
        EventError::from_answer(answer)
    }
}

/// Cards are equal if their bytes are, whatever memory these are in.
impl<A: AsRef<[u8]>, B: AsRef<[u8]>> PartialEq<Card<B>> for Card<A> {
    fn eq(&self, other: &Card<B>) -> bool {
        self.as_bytes() == other.as_bytes()
    }
}

impl<B: AsRef<[u8]>> Eq for Card<B> {}

impl<B: AsRef<[u8]>> fmt::Debug for Card<B> {
    /// The setup only: the parts hold addresses of guest memory.
    fn fmt(&self, f: &mut fmt::Formatter<'_>) -> fmt::Result {
        f.debug_struct("Card").field("setup", &self.setup()).finish_non_exhaustive()
    }
}

/// Bytes are not a sound card.
#[derive(Clone, Copy, Debug, PartialEq, Eq)]
pub struct NotSound;

impl fmt::Display for NotSound {
    fn fmt(&self, f: &mut fmt::Formatter<'_>) -> fmt::Result {
        f.write_str("the bytes are not a sound card")
    }
}

impl core::error::Error for NotSound {}
