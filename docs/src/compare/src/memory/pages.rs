//! Pages between two guard pages, which cannot be accessed.
//!
//! An access of a guard page is noted and the page is then opened, so that the
//! call goes on and is reported and shortened like any other difference.

#![allow(unsafe_code)]

use std::cell::RefCell;
use std::ffi::{c_int, c_void};
use std::ptr;
use std::sync::atomic::{AtomicBool, AtomicUsize, Ordering};
use std::sync::{Mutex, MutexGuard, OnceLock, PoisonError};

use super::libc;

const PAGE: usize = 4096;
/// How many bytes lie between the two guard pages.
pub const ROOM: usize = 40 * PAGE;
const STRIDE: usize = PAGE + ROOM + PAGE;
/// How many buffers can be lent at a time.
const COUNT: usize = 128;

/// Where the first of all pages starts.
static BASE: AtomicUsize = AtomicUsize::new(0);
/// Whether a guard page of the `index`-th was accessed.
static ACCESSED: [AtomicBool; COUNT] = [const { AtomicBool::new(false) }; COUNT];

/// Pages that nobody else has until they are dropped.
pub struct Pages {
    index: usize,
}

impl Pages {
    /// Pages that are free. There are more than are ever lent at a time.
    pub fn take() -> Pages {
        let index = SPARE.with_borrow_mut(|spare| spare.0.pop());
        Pages { index: index.unwrap_or_else(|| free().pop().expect("there are free pages")) }
    }

    /// The bytes between the two guard pages.
    pub fn bytes(&self) -> &[u8] {
        // SAFETY: the bytes are mapped for the life of the process, and no
        // other `Pages` has this index.
        unsafe { std::slice::from_raw_parts(self.start(), ROOM) }
    }

    /// The same bytes, to be changed.
    pub fn bytes_mut(&mut self) -> &mut [u8] {
        // SAFETY: as above, and `self` is borrowed mutably.
        unsafe { std::slice::from_raw_parts_mut(self.start(), ROOM) }
    }

    /// The byte at `at`, which may be one of a guard page.
    pub fn read(&self, at: isize) -> u8 {
        // SAFETY: the byte is mapped; if it is one of a guard page, that is
        // opened.
        unsafe { ptr::read_volatile(self.place(at)) }
    }

    /// Writes the byte at `at`, which may be one of a guard page.
    pub fn write(&mut self, at: isize, byte: u8) {
        // SAFETY: as for `read`, and `self` is borrowed mutably.
        unsafe { ptr::write_volatile(self.place(at), byte) }
    }

    /// Whether a guard page was accessed since last asked. It cannot be
    /// accessed again afterwards.
    pub fn accessed(&mut self) -> bool {
        let accessed = ACCESSED[self.index].load(Ordering::SeqCst);
        if accessed {
            ACCESSED[self.index].store(false, Ordering::SeqCst);
            close(self.index);
        }
        accessed
    }

    fn start(&self) -> *mut u8 {
        let base = BASE.load(Ordering::SeqCst);
        ptr::with_exposed_provenance_mut(base + STRIDE * self.index + PAGE)
    }

    fn place(&self, at: isize) -> *mut u8 {
        assert!((-(PAGE as isize)..(ROOM + PAGE) as isize).contains(&at));
        self.start().wrapping_offset(at)
    }
}

impl Drop for Pages {
    fn drop(&mut self) {
        self.accessed();
        SPARE.with_borrow_mut(|spare| spare.0.push(self.index));
    }
}

/// The indices of pages that a thread has dropped, for its next buffers.
struct Spare(Vec<usize>);

thread_local! {
    static SPARE: RefCell<Spare> = const { RefCell::new(Spare(vec![])) };
}

impl Drop for Spare {
    /// The thread ends; others may have them.
    fn drop(&mut self) {
        free().append(&mut self.0);
    }
}

/// The indices of free pages; the first use maps all pages.
fn free() -> MutexGuard<'static, Vec<usize>> {
    static FREE: OnceLock<Mutex<Vec<usize>>> = OnceLock::new();
    let free = FREE.get_or_init(|| {
        map_all();
        Mutex::new((0..COUNT).collect())
    });
    free.lock().unwrap_or_else(PoisonError::into_inner)
}

/// Maps all pages and has accesses of guard pages noted.
fn map_all() {
    BASE.store(libc::map(STRIDE * COUNT, 0).expose_provenance(), Ordering::SeqCst);
    let action = libc::SigAction {
        handler: note,
        mask: [0; 16],
        flags: libc::SA_SIGINFO_ONSTACK,
        restorer: 0,
    };
    // SAFETY: the handler does only what a handler may.
    let set = unsafe { libc::sigaction(libc::SIGSEGV, &action, ptr::null_mut()) };
    assert!(set == 0, "accesses of guard pages cannot be noted");
    (0..COUNT).for_each(close);
}

/// Makes the pages on both sides guard pages, at first or again.
fn close(index: usize) {
    let before = BASE.load(Ordering::SeqCst) + STRIDE * index;
    for page in [before, before + PAGE + ROOM] {
        assert!(protect(page, libc::PROT_NONE), "a guard page cannot be made");
    }
}

fn protect(page: usize, protection: c_int) -> bool {
    let page = ptr::with_exposed_provenance_mut::<c_void>(page);
    // SAFETY: the page is mapped and is none of those that `bytes` gives.
    unsafe { libc::mprotect(page, PAGE, protection) == 0 }
}

/// Notes an access of a guard page and opens the page. Any other fault ends
/// the process, as it would without this.
extern "C" fn note(_: c_int, info: *const libc::SigInfo, _: *mut c_void) {
    // SAFETY: the kernel gives the address of the fault.
    let address = unsafe { (*info).address };
    let at = address.wrapping_sub(BASE.load(Ordering::SeqCst));
    let opened = at < STRIDE * COUNT && {
        ACCESSED[at / STRIDE].store(true, Ordering::SeqCst);
        protect(address - address % PAGE, libc::PROT_READ_WRITE)
    };
    if !opened {
        // SAFETY: the default action takes no argument of ours.
        unsafe { libc::signal(libc::SIGSEGV, libc::SIG_DFL) };
    }
}
