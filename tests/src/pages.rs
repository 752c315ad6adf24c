//! Zero bytes that take address space and no memory, for messages and logs longer than a machine can
//! hold, and memory between closed pages. Linux on a 64-bit machine only.

use std::os::raw::{c_int, c_void};

const PROT_NONE: c_int = 0x00;
const PROT_READ: c_int = 0x01;
const PROT_WRITE: c_int = 0x02;
const MAP_PRIVATE: c_int = 0x02;
const MAP_ANONYMOUS: c_int = 0x20;
const MAP_NORESERVE: c_int = 0x4000;

extern "C" {
    fn mmap(
        address: *mut c_void,
        len: usize,
        protection: c_int,
        flags: c_int,
        file: c_int,
        offset: i64,
    ) -> *mut c_void;
    fn mprotect(address: *mut c_void, len: usize, protection: c_int) -> c_int;
}

fn map(len: usize, protection: c_int) -> *mut u8 {
    let flags = MAP_PRIVATE | MAP_ANONYMOUS | MAP_NORESERVE;
    // SAFETY: a new mapping with no file behind it touches nothing that exists.
    let start = unsafe { mmap(std::ptr::null_mut(), len, protection, flags, -1, 0) };
    assert_ne!(start as isize, -1, "no address space for {len} bytes");
    start.cast()
}

/// `len` zero bytes that stay for as long as the process lasts.
pub fn zeros(len: usize) -> &'static [u8] {
    let start = map(len, PROT_READ);
    // SAFETY: the mapping has len bytes to read, nothing writes to it, and it is never removed.
    unsafe { std::slice::from_raw_parts(start, len) }
}

/// `len` zero bytes to write that stay for as long as the process lasts. Those that are written take
/// memory.
pub fn zeros_to_write(len: usize) -> &'static mut [u8] {
    let start = map(len, PROT_READ | PROT_WRITE);
    // SAFETY: the mapping has len bytes to read and write, nothing else uses it, and it is never
    // removed.
    unsafe { std::slice::from_raw_parts_mut(start, len) }
}

/// A length that is whole pages, whatever the machine's pages are.
const PAGES: usize = 1 << 16;

/// Memory with a closed page before it and another behind it, which stays for as long as the process
/// lasts. Whoever reads or writes a byte of a closed page is ended by a signal.
pub struct Enclosed(&'static mut [u8]);

impl Enclosed {
    /// Room for so many bytes, or some more.
    pub fn with_room(len: usize) -> Self {
        let len = (len / PAGES + 1) * PAGES;
        let start = map(PAGES + len + PAGES, PROT_NONE);
        // SAFETY: the bytes between the first pages and the last ones are within the mapping. They are
        // opened, nothing else uses them, and they are never removed.
        let open = unsafe {
            let open = start.add(PAGES);
            let done = mprotect(open.cast(), len, PROT_READ | PROT_WRITE);
            assert_eq!(done, 0, "pages that do not open");
            std::slice::from_raw_parts_mut(open, len)
        };
        Enclosed(open)
    }

    /// These bytes, with a closed page where they begin, or where they end. Also no bytes begin or end
    /// there.
    pub fn lend(&mut self, bytes: &[u8], edge: Edge) -> &mut [u8] {
        let lent = match edge {
            Edge::Begin => &mut self.0[..bytes.len()],
            Edge::End => {
                let start = self.0.len() - bytes.len();
                &mut self.0[start..]
            }
        };
        lent.copy_from_slice(bytes);
        lent
    }
}

/// Where lent bytes touch a closed page.
#[derive(Clone, Copy, Debug)]
pub enum Edge {
    Begin,
    End,
}
