//! Stretches of shared memory, one for each slice that a call is lent, each between two pages that
//! nobody may touch. A slice is laid against the one page or the other, so that a step over that end
//! stops the program; at its other end are guard bytes, which are compared.

use std::ffi::{c_char, c_int, c_long, c_void, CStr};

extern "C" {
    fn mmap(
        at: *mut c_void,
        size: usize,
        prot: c_int,
        flags: c_int,
        fd: c_int,
        from: c_long,
    ) -> *mut c_void;
    fn mprotect(at: *mut c_void, size: usize, prot: c_int) -> c_int;
    fn memfd_create(name: *const c_char, flags: u32) -> c_int;
    fn ftruncate(fd: c_int, size: c_long) -> c_int;
    fn sysconf(name: c_int) -> c_long;
}

const READ_WRITE: c_int = 3;
const SHARED: c_int = 1;
const PAGE_SIZE: c_int = 30;

/// The most slices that a call is lent.
const STRETCHES: usize = 6;

/// How many bytes each stretch has: enough for 128 numbers at each of 65,535 ticks. What is never touched costs
/// nothing.
const SIZE: usize = 1 << 25;

/// So many guard bytes lie at a slice's other end.
pub const GUARD: usize = 4_096;

pub struct Fences {
    base: *mut u8,
    pub file: i32,
    pub total: usize,
    pub page: usize,
}

/// Where a slice lies: its offset and number of bytes, and of elements, and at which end of its
/// stretch.
#[derive(Clone, Copy, Debug)]
pub struct Place {
    pub offset: usize,
    pub length: usize,
    pub count: usize,
    pub at_end: bool,
}

impl Place {
    /// The slice and its guard bytes: where they begin, how many they are, and where in them the
    /// slice begins.
    pub fn guarded(self) -> (usize, usize, usize) {
        let before = if self.at_end { GUARD } else { 0 };
        (self.offset - before, self.length + GUARD, before)
    }
}

impl Fences {
    pub fn new() -> Fences {
        let name = CStr::from_bytes_with_nul(b"fences\0").expect("a name of C");
        let page = unsafe { sysconf(PAGE_SIZE) } as usize;
        let total = page + STRETCHES * (SIZE + page);
        let file = unsafe { memfd_create(name.as_ptr(), 0) };
        assert!(file >= 0, "no shared memory");
        assert_eq!(unsafe { ftruncate(file, total as c_long) }, 0, "no room in shared memory");
        let base = unsafe { mmap(std::ptr::null_mut(), total, READ_WRITE, SHARED, file, 0) };
        assert!(base as isize != -1, "shared memory cannot be mapped");
        let fences = Fences { base: base.cast(), file, total, page };
        for offset in fences.fences() {
            let fence = unsafe { fences.base.add(offset) };
            assert_eq!(unsafe { mprotect(fence.cast(), page, 0) }, 0, "no fence");
        }
        fences
    }

    /// The offsets of the pages that nobody may touch.
    pub fn fences(&self) -> Vec<usize> {
        (0..=STRETCHES).map(|at| at * (SIZE + self.page)).collect()
    }

    /// Whether a slice of so many bytes has room.
    pub fn fits(length: usize) -> bool {
        length + GUARD <= SIZE
    }

    /// The place of a slice of so many elements of a size, against the fence after it or before it.
    pub fn place(&self, which: usize, count: usize, size: usize, at_end: bool) -> Place {
        let (start, length) = (self.page + which * (SIZE + self.page), count * size);
        assert!(Fences::fits(length), "the slice is longer than its stretch");
        let offset = if at_end { start + SIZE - length } else { start };
        Place { offset, length, count, at_end }
    }

    #[cfg(linked)]
    pub fn address(&self, place: Place) -> *mut u8 {
        unsafe { self.base.add(place.offset) }
    }

    /// So many bytes from an offset on.
    pub fn bytes(&self, offset: usize, length: usize) -> &[u8] {
        unsafe { std::slice::from_raw_parts(self.base.add(offset), length) }
    }

    pub fn bytes_mut(&mut self, offset: usize, length: usize) -> &mut [u8] {
        unsafe { std::slice::from_raw_parts_mut(self.base.add(offset), length) }
    }
}
