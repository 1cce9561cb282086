//! Memory between two pages that fault when they are touched. What is lent lies right beside one.
use std::cell::Cell;
use std::ffi::{c_int, c_void};
use std::fmt::Debug;
use std::ptr::{self, NonNull};
use std::slice;

/// The size of a page of x86-64.
const PAGE: usize = 4096;

/// On the side where no page faults, so many bytes hold a pattern.
const MARGIN: [u8; 256] = [0xa5; 256];

/// For `mmap`: memory of this process alone, and of no file.
const PRIVATE: c_int = 0x02;
const ANONYMOUS: c_int = 0x20;
const NO_FILE: c_int = -1;

unsafe extern "C" {
    fn mmap(
        address: *mut c_void,
        length: usize,
        access: c_int,
        flags: c_int,
        file: c_int,
        offset: i64,
    ) -> *mut c_void;
    fn mprotect(address: *mut c_void, length: usize, access: c_int) -> c_int;
    fn munmap(address: *mut c_void, length: usize) -> c_int;
}

/// Where the faulting page is: it ends before the first lent value, or begins behind the last.
#[derive(Clone, Copy, Debug)]
pub enum Side {
    Before,
    Behind,
}

/// What is done without a fault. The numbers are those of `mmap` and `mprotect`.
#[derive(Clone, Copy, Debug, PartialEq)]
pub enum Access {
    Nothing = 0,
    Reading = 1,
    Writing = 3,
}

/// Pages that can be lent, between two that fault.
pub struct Pages {
    /// What is lent in them.
    what: &'static str,
    first: NonNull<u8>,
    length: usize,
    access: Cell<Access>,
}

impl Pages {
    /// Enough for so many bytes and the margin.
    pub fn new(what: &'static str, bytes: usize) -> Self {
        let length = (bytes + MARGIN.len()).next_multiple_of(PAGE);
        let whole = PAGE + length + PAGE;
        let access = Access::Nothing;
        let flags = PRIVATE | ANONYMOUS;
        // SAFETY: new pages, wherever the system puts them; nothing that is in use is touched.
        let start = unsafe { mmap(ptr::null_mut(), whole, access as c_int, flags, NO_FILE, 0) };
        assert_ne!(start.addr(), usize::MAX, "no memory");
        Self {
            what,
            first: NonNull::new(start.cast::<u8>().wrapping_add(PAGE)).expect("a second page"),
            length,
            access: access.into(),
        }
    }

    /// Lends these values for a call that may do so much with them.
    pub fn lend<T: Copy>(&mut self, side: Side, values: &[T], access: Access) -> Lent<'_, T> {
        self.allow(Access::Writing);
        let bytes = size_of_val(values);
        assert!(bytes + MARGIN.len() <= self.length, "too much is lent");
        let (first, margin) = match side {
            Side::Before => (0, bytes),
            Side::Behind => (self.length - bytes, self.length - bytes - MARGIN.len()),
        };
        // SAFETY: both places are in the pages, which may be written and which no reference points
        // to. The first value is aligned: pages are, at both ends, and so is each value after another.
        let (first, margin) = unsafe {
            let first = self.first.add(first).cast::<T>();
            let margin = self.first.add(margin).cast();
            first.copy_from_nonoverlapping(NonNull::from(values).cast(), values.len());
            margin.write(MARGIN);
            (first, margin)
        };
        self.allow(access);
        Lent {
            pages: self,
            first,
            count: values.len(),
            margin,
        }
    }

    fn allow(&self, access: Access) {
        if self.access.replace(access) != access {
            let first = self.first.as_ptr().cast();
            // SAFETY: the pages that `new` has mapped, while no reference points to them.
            let result = unsafe { mprotect(first, self.length, access as c_int) };
            assert_eq!(result, 0, "mprotect");
        }
    }
}

impl Drop for Pages {
    fn drop(&mut self) {
        let start = self.first.as_ptr().wrapping_sub(PAGE).cast();
        // SAFETY: all that `new` has mapped; nothing is lent any more.
        unsafe { munmap(start, PAGE + self.length + PAGE) };
    }
}

/// Values that are lent.
pub struct Lent<'p, T> {
    pages: &'p Pages,
    first: NonNull<T>,
    count: usize,
    margin: NonNull<[u8; MARGIN.len()]>,
}

impl<T: Copy + Debug + PartialEq> Lent<'_, T> {
    pub fn as_ptr(&self) -> *mut T {
        self.first.as_ptr()
    }

    pub fn len(&self) -> usize {
        self.count
    }

    /// After the call these values must be held, and the margin must be as it was.
    pub fn must_hold(self, values: &[T]) -> Result<(), String> {
        if self.pages.access.get() == Access::Nothing {
            self.pages.allow(Access::Reading);
        }
        // SAFETY: both are in the pages, which may be read and which nothing writes now.
        let (held, margin) = unsafe {
            let held = slice::from_raw_parts(self.first.as_ptr(), self.count);
            (held, self.margin.as_ref())
        };
        let what = self.pages.what;
        if held != values {
            Err(format!("the {what} are {held:?} instead of {values:?}"))
        } else if *margin != MARGIN {
            Err(format!("{margin:?} was written beside the {what}"))
        } else {
            Ok(())
        }
    }
}

#[cfg(test)]
mod tests {
    use super::*;
    use std::fs::File;
    use std::io;
    use std::os::fd::AsRawFd;

    unsafe extern "C" {
        fn read(file: c_int, bytes: *mut u8, count: usize) -> isize;
        fn write(file: c_int, bytes: *const u8, count: usize) -> isize;
    }

    /// What can be done with a byte, tried by the system, which tells a fault instead of ending us.
    fn access_to(byte: *mut u8) -> Access {
        let (_reader, pipe) = io::pipe().expect("a pipe");
        let zeros = File::open("/dev/zero").expect("a file of zeros");
        // SAFETY: the system copies one byte, or nothing if that would be a fault.
        let (taken, put) = unsafe {
            let taken = write(pipe.as_raw_fd(), byte, 1);
            (taken, read(zeros.as_raw_fd(), byte, 1))
        };
        match (taken, put) {
            (1, 1) => Access::Writing,
            (1, _) => Access::Reading,
            _ => Access::Nothing,
        }
    }

    fn words(count: u64) -> Vec<u64> {
        (1..=count).collect()
    }

    /// So many words lent on each side, and what can be done with the bytes at their ends: that
    /// before the first, the first, the last and that behind the last.
    #[test]
    fn only_lent_values_can_be_touched_beside_the_faulting_page() {
        let mut pages = Pages::new("words", 900 * 8);
        for access in [Access::Nothing, Access::Reading, Access::Writing] {
            for count in [1, 2, 511, 512, 513, 900] {
                let [before, behind] = [Side::Before, Side::Behind].map(|side| {
                    let lent = pages.lend(side, &words(count), access);
                    let first = lent.as_ptr().cast::<u8>();
                    let end = first.wrapping_add(8 * lent.len());
                    let ends = [first.wrapping_sub(1), first, end.wrapping_sub(1), end];
                    ends.map(access_to)
                });
                let nothing = Access::Nothing;
                assert_eq!(before, [nothing, access, access, access], "{count} words");
                assert_eq!(behind, [access, access, access, nothing], "{count} words");
            }
        }
    }

    #[test]
    fn no_values_lie_at_a_faulting_page() {
        let mut pages = Pages::new("words", 0);
        let before = pages
            .lend(Side::Before, &words(0), Access::Writing)
            .as_ptr();
        assert_eq!(
            access_to(before.cast::<u8>().wrapping_sub(1)),
            Access::Nothing
        );
        let behind = pages
            .lend(Side::Behind, &words(0), Access::Writing)
            .as_ptr();
        assert_eq!(access_to(behind.cast()), Access::Nothing);
    }

    #[test]
    fn values_are_held_until_they_are_written() {
        let mut pages = Pages::new("words", 80);
        for side in [Side::Before, Side::Behind] {
            for access in [Access::Nothing, Access::Reading, Access::Writing] {
                assert_eq!(
                    pages.lend(side, &words(9), access).must_hold(&words(9)),
                    Ok(())
                );
                assert!(
                    pages
                        .lend(side, &words(9), access)
                        .must_hold(&words(8))
                        .is_err()
                );
            }
            let lent = pages.lend(side, &words(9), Access::Writing);
            // SAFETY: the last word that is lent.
            unsafe { lent.as_ptr().add(8).write(7) };
            assert!(lent.must_hold(&words(9)).is_err());
        }
    }

    #[test]
    fn the_margin_must_stay_as_it_was() {
        let mut pages = Pages::new("bytes", 4);
        for (side, places) in [(Side::Before, 4..260), (Side::Behind, -256..0)] {
            for place in places {
                let lent = pages.lend(side, b"text", Access::Writing);
                // SAFETY: a byte of the margin.
                unsafe { lent.as_ptr().offset(place).write(0) };
                assert!(lent.must_hold(b"text").is_err(), "place {place}");
            }
        }
    }

    #[test]
    #[should_panic(expected = "too much is lent")]
    fn values_must_fit() {
        Pages::new("bytes", 0).lend(Side::Before, &[0; PAGE], Access::Writing);
    }
}
