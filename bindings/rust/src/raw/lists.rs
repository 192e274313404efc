//! Lists of parts under a packed setup: a full capture and a later list, and a
//! torn capture.

use super::abi;

/// Looks up one part in a full capture and a later list of what changed, under a
/// packed setup of either version and for one member of it. `selector` is the
/// eight selector bytes as a little-endian number.
///
/// Answers 0; `list` is 0 for the full capture or 1 for the later list, and the
/// value starts at `at` in it and has `len` bytes. Else answers the first that
/// applies, and the three are 0: 1 bad setup, or no such member; 2 the full
/// capture is bad, or 3 the later list, as parts set has it; 4 the full capture
/// lacks a part; 5 the member has no such part.
#[must_use]
#[allow(clippy::too_many_arguments)]
pub fn difference_find(
    setup: &[u8],
    member: u64,
    full: &[u8],
    later: &[u8],
    part_type: u16,
    selector: u64,
    list: &mut u8,
    at: &mut u64,
    len: &mut u64,
) -> u8 {
    // SAFETY: each pointer and length are those of one slice, and the other
    // pointers those of one number each; all are borrowed for the call (the
    // numbers mutably, so they overlap no other).
    unsafe {
        abi::kajurnat_difference_find(
            setup.as_ptr(),
            setup.len(),
            member,
            full.as_ptr(),
            full.len(),
            later.as_ptr(),
            later.len(),
            part_type,
            selector,
            list,
            at,
            len,
        )
    }
}

/// Makes one list of a full capture and a later list, at the start of `merged`:
/// each part of the member once, in the order and with the headers of a capture.
///
/// Answers 0, and `written` is its length; the bytes of `merged` past it keep
/// their values. Else answers the first that applies, with nothing written to
/// `merged` and 0 to `written`: 1 to 4 as [`difference_find`], 6 `merged` is too
/// short.
#[must_use]
pub fn difference_merge(
    setup: &[u8],
    member: u64,
    full: &[u8],
    later: &[u8],
    merged: &mut [u8],
    written: &mut u64,
) -> u8 {
    // SAFETY: as in `difference_find`; `merged` is borrowed mutably too.
    unsafe {
        abi::kajurnat_difference_merge(
            setup.as_ptr(),
            setup.len(),
            member,
            full.as_ptr(),
            full.len(),
            later.as_ptr(),
            later.len(),
            merged.as_mut_ptr(),
            merged.len(),
            written,
        )
    }
}

/// Makes a list that parts set takes of a damaged list, at the start of `list`,
/// under a packed setup of either version and for one member of it. Returns its
/// length.
///
/// `kept` has a byte for each part of the member, in order: 1 kept, 0 filled with
/// the fresh value. `dropped` has the number of parts dropped for each of four
/// causes: unknown, a copy, wrongly sized, wrongly valued. `left` is the number of
/// bytes left over, from the start of the header it stopped at. The bytes and
/// counts past these keep their values.
///
/// Returns 0, with nothing written, if the damaged list is over 4,064 bytes, the
/// setup is bad or has no such member, or `list`, `kept` or `dropped` is too
/// short.
#[must_use]
pub fn salvage(
    setup: &[u8],
    member: u64,
    damaged: &[u8],
    list: &mut [u8],
    kept: &mut [u8],
    dropped: &mut [u32],
    left: &mut u32,
) -> usize {
    // SAFETY: each pointer and length are those of one slice, and `left` is one
    // number; all are borrowed for the call (what is written mutably, so it
    // overlaps no other).
    unsafe {
        abi::kajurnat_salvage(
            setup.as_ptr(),
            setup.len(),
            member,
            damaged.as_ptr(),
            damaged.len(),
            list.as_mut_ptr(),
            list.len(),
            kept.as_mut_ptr(),
            kept.len(),
            dropped.as_mut_ptr(),
            dropped.len(),
            left,
        )
    }
}
