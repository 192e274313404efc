//! Restore in fragments (request 6 of document 02): begin, feed, finish and
//! drop, for one member.

use crate::card::Card;
use crate::command::answer;
use crate::holding::Holding;
use crate::host::Request;
use crate::status::RestoreError;

impl Card {
    /// Opens a holding place that holds no bytes.
    pub fn restore_begin(&mut self, member: u64) -> Result<(), RestoreError> {
        let holding = self.holding(member)?;
        RestoreError::AlreadyBegun.unless(holding.held.is_none())?;
        holding.held = Some(0);
        Ok(())
    }

    /// Adds a fragment to the bytes held. If they are over 1,024 in all, the
    /// holding place is dropped.
    pub fn restore_feed(&mut self, member: u64, fragment: &[u8]) -> Result<(), RestoreError> {
        let holding = self.begun(member)?;
        if holding.add(fragment) {
            return Ok(());
        }
        *holding = Holding::default();
        Err(RestoreError::TooLong)
    }

    /// Does what one parts set of the bytes held would do, with a reply buffer
    /// that is long enough. Whatever the answer, the holding place is then
    /// gone.
    pub fn restore_finish(&mut self, member: u64, id: u32) -> Result<(), RestoreError> {
        let list = self.begun(member)?.bytes().unwrap_or_default().to_vec();
        let outcome = answer(self, &Request::Set(member, id, &list).bytes(), &mut []);
        self.member_mut(member).holding = Holding::default();
        outcome.map(|_| ()).map_err(RestoreError::Set)
    }

    /// Drops the holding place.
    pub fn restore_drop(&mut self, member: u64) -> Result<(), RestoreError> {
        *self.begun(member)? = Holding::default();
        Ok(())
    }

    /// The holding place of a member, open or not: what every call looks for
    /// before all else.
    fn holding(&mut self, member: u64) -> Result<&mut Holding, RestoreError> {
        RestoreError::NotSound.unless(self.is_sound())?;
        RestoreError::NoMember.unless(self.setup.has_member(member))?;
        let record = self.member_mut(member);
        RestoreError::Marked.unless(!record.marked)?;
        Ok(&mut record.holding)
    }

    /// The holding place of a member, which has to be open.
    fn begun(&mut self, member: u64) -> Result<&mut Holding, RestoreError> {
        let holding = self.holding(member)?;
        RestoreError::NothingBegun.unless(holding.held.is_some())?;
        Ok(holding)
    }
}
