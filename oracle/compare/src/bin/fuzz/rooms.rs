//! Memory that is lent: pages that may not be touched stand in front of it and behind it, and a buffer ends right before the one or begins right after
//! the other. What a call may only read is lent through a view that cannot be written.
use std::{
    ffi::{c_char, c_int, c_void},
    ptr, slice,
};

unsafe extern "C" {
    fn mmap(addr: *mut c_void, length: usize, prot: c_int, flags: c_int, fd: c_int, offset: i64) -> *mut c_void;
    fn memfd_create(name: *const c_char, flags: u32) -> c_int;
    fn ftruncate(fd: c_int, length: i64) -> c_int;
}

const NONE: c_int = 0;
const READ: c_int = 1;
const READ_WRITE: c_int = 3;
const SHARED: c_int = 0x01;
const PRIVATE: c_int = 0x02;
const FIXED: c_int = 0x10;
const ANONYMOUS: c_int = 0x20;

const PAGE: usize = 4096;
/// The bytes of a room.
const SIZE: usize = 256 * PAGE;
/// So many bytes beside a buffer, on the side without a page that may not be touched, are poisoned and looked at afterwards.
const MARGIN: usize = 1024;
const POISON: u8 = 0xa5;
/// The most cells that a buffer may have.
pub const MOST: usize = (SIZE - MARGIN) / 8;

fn map(at: *mut u8, length: usize, prot: c_int, flags: c_int, fd: c_int) -> *mut u8 {
    let p = unsafe { mmap(at.cast(), length, prot, flags, fd, 0) };
    assert!(p as isize != -1, "mmap: {}", std::io::Error::last_os_error());
    p.cast()
}

/// Pages of both processes after a fork.
pub fn shared(length: usize) -> *mut u8 {
    map(ptr::null_mut(), length, READ_WRITE, SHARED | ANONYMOUS, -1)
}

/// The file's bytes between two pages that may not be touched.
fn view(fd: c_int, prot: c_int) -> *mut u8 {
    let all = map(ptr::null_mut(), SIZE + 2 * PAGE, NONE, PRIVATE | ANONYMOUS, -1);
    map(all.wrapping_add(PAGE), SIZE, prot, SHARED | FIXED, fd)
}

/// Where a buffer touches a page that may not be touched.
#[derive(Clone, Copy, Debug, PartialEq)]
pub enum Side {
    Front,
    Back,
}

/// The place of one buffer.
pub struct Room {
    ours: *mut u8,
    theirs: *mut u8,
    start: usize,
    side: Side,
    before: Vec<u8>,
}

impl Room {
    pub fn new(writable: bool) -> Self {
        let fd = unsafe { memfd_create(c"room".as_ptr(), 0) };
        assert!(fd >= 0 && unsafe { ftruncate(fd, SIZE as i64) } == 0, "memfd: {}", std::io::Error::last_os_error());
        let ours = view(fd, READ_WRITE);
        let theirs = if writable { ours } else { view(fd, READ) };
        Room { ours, theirs, start: 0, side: Side::Back, before: vec![] }
    }

    /// Lends these bytes; the margin beside them is poisoned.
    pub fn lend(&mut self, bytes: &[u8], side: Side) -> *mut u8 {
        assert!(bytes.len() + MARGIN <= SIZE);
        self.side = side;
        self.start = if side == Side::Back { SIZE - bytes.len() } else { 0 };
        self.before.clear();
        self.before.extend_from_slice(bytes);
        unsafe {
            ptr::copy_nonoverlapping(bytes.as_ptr(), self.ours.add(self.start), bytes.len());
            ptr::write_bytes(self.ours.add(self.margin()), POISON, MARGIN);
            self.theirs.add(self.start)
        }
    }

    fn margin(&self) -> usize {
        match self.side {
            Side::Back => self.start - MARGIN,
            Side::Front => self.before.len(),
        }
    }

    /// The lent bytes as they are now.
    pub fn bytes(&self) -> &[u8] {
        unsafe { slice::from_raw_parts(self.ours.add(self.start), self.before.len()) }
    }

    pub fn before(&self) -> &[u8] {
        &self.before
    }

    pub fn untouched(&self) -> bool {
        self.bytes() == self.before
    }

    pub fn margin_kept(&self) -> bool {
        unsafe { slice::from_raw_parts(self.ours.add(self.margin()), MARGIN) }.iter().all(|b| *b == POISON)
    }
}
