//! Calls on lists of parts, by the archive and by the plain functions.

use kajurnat::raw;
use plain_card::exported::{self, Report};
use plain_card::frame::u32_at;

use crate::lists::{Asked, OnLists, FOUND};
use crate::memory::{pattern, Lent};

/// The answer of the archive, which is lent these inputs.
pub fn archive(call: &OnLists, inputs: &[Lent], reply: &mut [u8]) -> usize {
    let [setup, rest @ ..] = inputs else { unreachable!("every call has a setup") };
    let (setup, member) = (setup.bytes(), call.member);
    let list = |at: usize| rest[at].bytes();
    match &call.asked {
        Asked::Find { part_type, selector, .. } => found_into(reply, |(which, at, len)| {
            let (full, later) = (list(0), list(1));
            raw::difference_find(setup, member, full, later, *part_type, *selector, which, at, len)
        }),
        Asked::Merge { .. } => {
            made(|written| raw::difference_merge(setup, member, list(0), list(1), reply, written))
        }
        Asked::Salvage { report, .. } => salvaged(reply, *report, |to, report| {
            let Report { kept, dropped, left } = report;
            raw::salvage(setup, member, list(0), to, kept, dropped, left)
        }),
    }
}

/// The answer of the plain functions.
pub fn plain(call: &OnLists, reply: &mut [u8]) -> usize {
    let OnLists { setup, member, asked } = call;
    match asked {
        Asked::Find { lists: [full, later], part_type, selector } => found_into(reply, |place| {
            let lists: [&[u8]; 2] = [full, later];
            exported::difference_find(setup, *member, lists, *part_type, *selector, place)
        }),
        Asked::Merge { lists: [full, later], .. } => made(|written| {
            exported::difference_merge(setup, *member, [full, later], reply, written)
        }),
        Asked::Salvage { damaged, report, .. } => salvaged(reply, *report, |list, report| {
            exported::salvage(setup, *member, damaged, list, report)
        }),
    }
}

/// Looks a part up and puts the three numbers of its place in a buffer.
fn found_into(buffer: &mut [u8], find: impl FnOnce(&mut exported::Place) -> u8) -> usize {
    let any = u64::from_le_bytes(std::array::from_fn(pattern));
    let mut place = (pattern(0), any, any);
    let answer = find(&mut place);
    let (list, at, length) = place;
    let numbers = [&[list][..], &at.to_le_bytes(), &length.to_le_bytes()].concat();
    buffer[..FOUND].copy_from_slice(&numbers);
    answer.into()
}

/// Makes a list: the answer, and 256 times the number of bytes written.
fn made(make: impl FnOnce(&mut u64) -> u8) -> usize {
    let mut written = u64::from(u16::MAX);
    let answer = make(&mut written);
    usize::from(answer) + 256 * written as usize
}

/// Salvages a list into a buffer that holds, one behind the other, the bytes left
/// over, as many counts and bytes of a report as said, and the list.
fn salvaged(
    buffer: &mut [u8],
    [kept, dropped]: [usize; 2],
    salvage: impl FnOnce(&mut [u8], Report) -> usize,
) -> usize {
    let (numbers, rest) = buffer.split_at_mut(4 + 4 * dropped);
    let (kept, list) = rest.split_at_mut(kept);
    let mut all: Vec<u32> = (0..=dropped).map(|index| u32_at(numbers, 4 * index)).collect();
    let (left, dropped) = all.split_first_mut().expect("there is room for it");
    let written = salvage(list, Report { kept, dropped, left });
    for (place, number) in numbers.chunks_exact_mut(4).zip(all) {
        place.copy_from_slice(&number.to_le_bytes());
    }
    written
}
