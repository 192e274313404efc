//! The functions of the host's half.

use super::abi;

/// Builds a list query. This and the builders below write the request at the
/// start of `request` and return its length. They return 0, with nothing
/// written, if it is over 4,096 bytes or too long for `request`.
#[must_use]
pub fn request_list_query(request: &mut [u8]) -> usize {
    // SAFETY: pointer and length are those of one slice, which is borrowed
    // mutably for the call; so it is in the builders below.
    unsafe { abi::kajurnat_request_list_query(request.as_mut_ptr(), request.len()) }
}

/// Builds a list use.
#[must_use]
pub fn request_list_use(request: &mut [u8], mask: u64) -> usize {
    // SAFETY: as in `request_list_query`.
    unsafe { abi::kajurnat_request_list_use(request.as_mut_ptr(), request.len(), mask) }
}

/// Builds an object create.
#[must_use]
pub fn request_create(request: &mut [u8], member: u64, id: u32, kind: u8) -> usize {
    // SAFETY: as in `request_list_query`.
    unsafe { abi::kajurnat_request_create(request.as_mut_ptr(), request.len(), member, id, kind) }
}

/// Builds an object modify.
#[must_use]
pub fn request_modify(request: &mut [u8], member: u64, id: u32, kind: u8) -> usize {
    // SAFETY: as in `request_list_query`.
    unsafe { abi::kajurnat_request_modify(request.as_mut_ptr(), request.len(), member, id, kind) }
}

/// Builds an object query.
#[must_use]
pub fn request_query(request: &mut [u8], member: u64, id: u32) -> usize {
    // SAFETY: as in `request_list_query`.
    unsafe { abi::kajurnat_request_query(request.as_mut_ptr(), request.len(), member, id) }
}

/// Builds an object destroy.
#[must_use]
pub fn request_destroy(request: &mut [u8], member: u64, id: u32) -> usize {
    // SAFETY: as in `request_list_query`.
    unsafe { abi::kajurnat_request_destroy(request.as_mut_ptr(), request.len(), member, id) }
}

/// Builds a parts metadata; `what` is its type byte.
#[must_use]
pub fn request_metadata(request: &mut [u8], member: u64, id: u32, what: u8) -> usize {
    // SAFETY: as in `request_list_query`.
    unsafe { abi::kajurnat_request_metadata(request.as_mut_ptr(), request.len(), member, id, what) }
}

/// Builds a parts get; `which` is its type byte.
#[must_use]
pub fn request_get(request: &mut [u8], member: u64, id: u32, which: u8, headers: &[u8]) -> usize {
    // SAFETY: as in `request_list_query`; pointer and length of the headers
    // are those of another slice, which is borrowed for the call.
    unsafe {
        abi::kajurnat_request_get(
            request.as_mut_ptr(),
            request.len(),
            member,
            id,
            which,
            headers.as_ptr(),
            headers.len(),
        )
    }
}

/// Builds a parts set.
#[must_use]
pub fn request_set(request: &mut [u8], member: u64, id: u32, list: &[u8]) -> usize {
    // SAFETY: as in `request_get`.
    unsafe {
        abi::kajurnat_request_set(
            request.as_mut_ptr(),
            request.len(),
            member,
            id,
            list.as_ptr(),
            list.len(),
        )
    }
}

/// Builds a mode set.
#[must_use]
pub fn request_mode(request: &mut [u8], member: u64, mode: u8) -> usize {
    // SAFETY: as in `request_list_query`.
    unsafe { abi::kajurnat_request_mode(request.as_mut_ptr(), request.len(), member, mode) }
}

/// Reads a reply as the answer to a command; `what` is the type byte of a
/// parts metadata, and is not read for another opcode.
///
/// Answers 0 and writes the status and the qualifier to act on, and both as
/// they were sent; the result is the reply from byte 8. Answers 1, with
/// nothing written, if the reply is under 8 bytes or of the wrong length for
/// its command and status, or the opcode is none of the ten.
#[must_use]
pub fn reply_read(
    opcode: u16,
    what: u8,
    reply: &[u8],
    status: &mut u16,
    qualifier: &mut u16,
    sent_status: &mut u16,
    sent_qualifier: &mut u16,
) -> u8 {
    // SAFETY: pointer and length are those of one slice, and the other
    // pointers those of one number each; all are borrowed for the call (the
    // numbers mutably, so they overlap no other).
    unsafe {
        abi::kajurnat_reply_read(
            opcode,
            what,
            reply.as_ptr(),
            reply.len(),
            status,
            qualifier,
            sent_status,
            sent_qualifier,
        )
    }
}
