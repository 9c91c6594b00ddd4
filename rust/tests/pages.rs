//! The pages on both sides of a slice fault on touch, and so does what is only to be read when it is written. A touch is
//! tried by a process of its own, which a fault kills.
use std::hint::black_box;
use std::os::unix::process::ExitStatusExt;
use std::process::Command;

use compare::pages::{Access, Pages};

const TOUCH: &str = "TOUCH";
const SIGSEGV: i32 = 11;

/// Touches a place that is `by` places away from the start or the end of a slice, by a read or a write.
fn touch(access: Access, len: usize, at_end: bool, by: isize, write: bool) {
    let mut pages: Pages<u32> = Pages::new(2000, access);
    pages.place(&vec![7; len], at_end);
    let edge = if at_end { len as isize } else { 0 };
    let place = pages.given_mut().as_mut_ptr().wrapping_offset(edge + by);
    unsafe {
        if write {
            black_box(place).write_volatile(8);
        } else {
            black_box(black_box(place).read_volatile());
        }
    }
}

/// The touches: what a slice may do, its length, which end it stands at, the place from that end, and whether it is
/// written; then whether that faults.
const TOUCHES: [(Access, usize, bool, isize, bool, bool); 11] = [
    (Access::ReadWrite, 10, false, 0, true, false),
    (Access::ReadWrite, 10, true, -1, true, false),
    (Access::Read, 10, true, -1, false, false),
    (Access::ReadWrite, 10, false, -1, false, true),
    (Access::ReadWrite, 10, true, 0, false, true),
    (Access::ReadWrite, 10, true, 0, true, true),
    (Access::ReadWrite, 0, false, -1, false, true),
    (Access::ReadWrite, 0, true, 0, false, true),
    (Access::ReadWrite, 1024, true, 0, false, true),
    (Access::Read, 10, false, 0, true, true),
    (Access::Read, 10, true, -1, true, true),
];

#[test]
fn touches() {
    if let Ok(number) = std::env::var(TOUCH) {
        let (access, len, at_end, by, write, _) = TOUCHES[number.parse::<usize>().unwrap()];
        return touch(access, len, at_end, by, write);
    }
    for (i, &(_, len, at_end, by, write, faults)) in TOUCHES.iter().enumerate() {
        let mut touched = Command::new(std::env::current_exe().unwrap());
        let status = touched.args(["--exact", "touches"]).env(TOUCH, i.to_string()).output().unwrap().status;
        let wanted = if faults { status.signal() == Some(SIGSEGV) } else { status.success() };
        assert!(wanted, "{i} (of {len}, at the end: {at_end}, by {by}, written: {write}): {status}");
    }
}

#[test]
fn around() {
    for (len, at_end, by) in [(10, false, 10), (10, true, -1), (0, false, 0), (1024, false, 1024), (1500, true, -1)] {
        let mut pages: Pages<u32> = Pages::new(3000, Access::ReadWrite);
        pages.place(&vec![7; len], at_end);
        let start = pages.given_mut().as_mut_ptr();
        if len > 0 {
            unsafe { start.write_volatile(8) };
        }
        assert!(pages.kept_around());
        unsafe { start.wrapping_offset(by).write_volatile(8) };
        assert!(!pages.kept_around(), "of {len}, at the end: {at_end}");
    }
}
