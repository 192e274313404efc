//! The functions that work on lists of parts under the bytes of a setup.

use crate::difference::{Found, Pair, Refused};
use crate::salvage::{self, CAUSES};
use crate::setups;

/// Where a value looked up stands: the list (0 full, 1 later), the start and the
/// length in it. All are 0 if it is refused.
pub type Place = (u8, u64, u64);

/// Looks a part up in a pair of lists: 0, or the number of a refusal.
pub fn difference_find(
    setup: &[u8],
    member: u64,
    [full, later]: [&[u8]; 2],
    part_type: u16,
    selector: u64,
    place: &mut Place,
) -> u8 {
    let found = pair(setup, member, full, later)
        .and_then(|pair| pair.find(part_type, selector.to_le_bytes()));
    let told = found.map(|Found { list, at, value }| (list as u8, at as u64, value.len() as u64));
    *place = told.unwrap_or_default();
    told.map_or_else(|refused| refused as u8, |_| 0)
}

/// Makes one list of a pair of lists: 0 and the bytes written, or the number of
/// a refusal and 0.
pub fn difference_merge(
    setup: &[u8],
    member: u64,
    [full, later]: [&[u8]; 2],
    merged: &mut [u8],
    written: &mut u64,
) -> u8 {
    let made = pair(setup, member, full, later).and_then(|pair| pair.merge(merged));
    *written = made.unwrap_or_default() as u64;
    made.map_or_else(|refused| refused as u8, |_| 0)
}

/// A pair of lists under the bytes of a setup.
fn pair<'a>(
    setup: &[u8],
    member: u64,
    full: &'a [u8],
    later: &'a [u8],
) -> Result<Pair<'a>, Refused> {
    let setup = setups::read(setup).map_err(|_| Refused::Setup)?;
    Pair::new(&setup, member, full, later)
}

/// What a salvage reports into. There is room for a byte for each part of the
/// inventory (1 kept, 0 filled) and for the four counts, or it is refused.
pub struct Report<'a> {
    /// For each part whether it was kept.
    pub kept: &'a mut [u8],
    /// The number dropped for each cause.
    pub dropped: &'a mut [u32],
    /// The bytes left over.
    pub left: &'a mut u32,
}

/// Salvages a damaged list; tells the bytes written to `list`, or 0 if it is
/// refused, and nothing is written.
pub fn salvage(
    setup: &[u8],
    member: u64,
    damaged: &[u8],
    list: &mut [u8],
    report: Report,
) -> usize {
    let setup = setups::read(setup).ok();
    let salvaged = setup.and_then(|setup| salvage::salvage(&setup, member, damaged));
    let Some(salvaged) = salvaged else { return 0 };
    let (length, parts) = (salvaged.list.len(), salvaged.kept.len());
    let (Some(list), Some(kept), Some(dropped)) =
        (list.get_mut(..length), report.kept.get_mut(..parts), report.dropped.get_mut(..CAUSES))
    else {
        return 0;
    };
    list.copy_from_slice(&salvaged.list);
    kept.iter_mut().zip(salvaged.kept).for_each(|(byte, kept)| *byte = kept.into());
    dropped.copy_from_slice(&salvaged.dropped);
    *report.left = salvaged.left;
    length
}
