//! Slices that stand against a page that faults on touch.
use std::ffi::{c_char, c_int, c_uint, c_void};
use std::marker::PhantomData;

unsafe extern "C" {
    fn mmap(at: *mut c_void, len: usize, access: c_int, flags: c_int, file: c_int, offset: i64) -> *mut c_void;
    fn memfd_create(name: *const c_char, flags: c_uint) -> c_int;
    fn ftruncate(file: c_int, len: i64) -> c_int;
    fn getpagesize() -> c_int;
}

// Linux's numbers
const NO_ACCESS: c_int = 0;
const READ: c_int = 1;
const WRITE: c_int = 2;
const SHARED: c_int = 1;
const PRIVATE: c_int = 2;
const FIXED: c_int = 0x10;
const ANONYMOUS: c_int = 0x20;

/// What a call may do with a slice.
#[derive(Clone, Copy, PartialEq, Eq)]
pub enum Access {
    Read,
    ReadWrite,
}

/// What stands around a slice.
const AROUND: u8 = 0xA5;

/// Memory between two pages that fault on touch, for one slice at its start or at its end. It is mapped twice: once for
/// this program, and once for the calls, where what is only to be read faults when it is written.
pub struct Pages<T> {
    own: *mut u8,
    given: *mut u8,
    size: usize,
    page: usize,
    /// Where the slice stands, and how many bytes it has.
    at: usize,
    len: usize,
    /// A page of what stands around.
    around: Vec<u8>,
    of: PhantomData<T>,
}

impl<T: Copy> Pages<T> {
    /// Memory for a slice of up to `most`.
    pub fn new(most: usize, access: Access) -> Pages<T> {
        // SAFETY: new mappings, the last of them inside the one before
        unsafe {
            let page = getpagesize() as usize;
            let size = (most * size_of::<T>()).next_multiple_of(page);
            let file = memfd_create(c"slice".as_ptr(), 0);
            assert!(file >= 0 && ftruncate(file, size as i64) == 0, "no memory to map");
            let map = |at: *mut c_void, len, access, flags, file| {
                let mapped = mmap(at, len, access, flags, file, 0);
                assert!(mapped as isize != -1, "not mapped");
                mapped.cast::<u8>()
            };
            let null = std::ptr::null_mut();
            let own = map(null, size, READ | WRITE, SHARED, file);
            let all = map(null, size + 2 * page, NO_ACCESS, PRIVATE | ANONYMOUS, -1);
            let access = if access == Access::Read { READ } else { READ | WRITE };
            let given = map(all.add(page).cast(), size, access, SHARED | FIXED, file);
            let around = vec![AROUND; page];
            let mut pages = Pages { own, given, size, page, at: 0, len: 0, around, of: PhantomData };
            pages.place(&[], false);
            pages
        }
    }

    /// The most that a slice can have.
    pub fn most(&self) -> usize {
        self.size / size_of::<T>()
    }

    /// The part of the slice's last page, or of its first, that is not the slice's.
    fn around(&self) -> (usize, usize) {
        if self.at == 0 {
            (self.len, (self.len / self.page * self.page + self.page).min(self.size))
        } else {
            (self.at / self.page * self.page, self.at)
        }
    }

    /// Places a slice that holds this, at the memory's end or at its start.
    pub fn place(&mut self, list: &[T], at_end: bool) {
        self.len = size_of_val(list);
        assert!(self.len <= self.size);
        self.at = if at_end { self.size - self.len } else { 0 };
        let (from, to) = self.around();
        // SAFETY: within the mapping
        unsafe {
            self.own.add(from).write_bytes(AROUND, to - from);
            self.own.add(self.at).copy_from(list.as_ptr().cast(), self.len);
        }
    }

    /// The slice as a call is given it, to read.
    pub fn given(&self) -> &[T] {
        // SAFETY: within the mapping; T is a number, and the start is a multiple of its size
        unsafe { std::slice::from_raw_parts(self.given.add(self.at).cast(), self.len / size_of::<T>()) }
    }

    /// The slice as a call is given it, to store in.
    pub fn given_mut(&mut self) -> &mut [T] {
        // SAFETY: as above
        unsafe { std::slice::from_raw_parts_mut(self.given.add(self.at).cast(), self.len / size_of::<T>()) }
    }

    /// What stands there now.
    pub fn now(&self) -> &[T] {
        // SAFETY: as above
        unsafe { std::slice::from_raw_parts(self.own.add(self.at).cast(), self.len / size_of::<T>()) }
    }

    /// Whether the rest of the slice's page is as it was.
    pub fn kept_around(&self) -> bool {
        let (from, to) = self.around();
        // SAFETY: within the mapping
        let now = unsafe { std::slice::from_raw_parts(self.own.add(from), to - from) };
        now == &self.around[..now.len()]
    }
}
