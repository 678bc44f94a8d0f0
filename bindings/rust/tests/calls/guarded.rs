//! Memory between pages that nobody may touch: a call that reads or writes one item outside of what it was lent ends the process.
use crate::asked::cases;
use erbighenti::Tables;
use std::ffi::{c_int, c_long, c_void};
use std::os::unix::process::ExitStatusExt;
use std::process::Command;

extern "C" {
    fn mmap(place: *mut c_void, length: usize, protection: c_int, flags: c_int, file: c_int, offset: c_long) -> *mut c_void;
    fn mprotect(place: *mut c_void, length: usize, protection: c_int) -> c_int;
    fn munmap(place: *mut c_void, length: usize) -> c_int;
}

const NONE: c_int = 0;
const READ_WRITE: c_int = 3;
const PRIVATE_ANONYMOUS: c_int = 0x22;
/// a multiple of every page size in use
const PAGE: usize = 1 << 16;

/// Where in its pages a run stands: right behind the page before, or right before the page behind.
#[derive(Clone, Copy, Debug)]
enum Side {
    Front,
    Back,
}

/// Pages to be read and written, with one before and one behind that are neither.
struct Guarded {
    all: *mut u8,
    inner: usize,
}

impl Guarded {
    fn new(bytes: usize) -> Guarded {
        let inner = bytes.div_ceil(PAGE).max(1) * PAGE;
        // SAFETY: new memory of the system's choice, of which the inner pages alone are opened.
        unsafe {
            let all = mmap(std::ptr::null_mut(), inner + 2 * PAGE, NONE, PRIVATE_ANONYMOUS, -1, 0);
            assert!(all as isize != -1, "no memory");
            assert_eq!(mprotect(all.cast::<u8>().add(PAGE).cast(), inner, READ_WRITE), 0);
            Guarded { all: all.cast(), inner }
        }
    }

    /// A run of so many items that touches a guard.
    fn run<T: Copy>(&mut self, length: usize, side: Side) -> &mut [T] {
        let bytes = length * std::mem::size_of::<T>();
        assert!(bytes <= self.inner);
        let before = match side {
            Side::Front => PAGE,
            Side::Back => PAGE + self.inner - bytes,
        };
        // SAFETY: inside the inner pages, aligned since both ends of them are, and any bits are an integer.
        unsafe { std::slice::from_raw_parts_mut(self.all.add(before).cast(), length) }
    }

    fn copy<T: Copy>(&mut self, items: &[T], side: Side) -> &[T] {
        let run = self.run(items.len(), side);
        run.copy_from_slice(items);
        run
    }
}

impl Drop for Guarded {
    fn drop(&mut self) {
        // SAFETY: what `new` got, whole.
        unsafe { munmap(self.all.cast(), self.inner + 2 * PAGE) };
    }
}

#[test]
fn nothing_outside_is_touched() {
    let cases = cases(36, 300);
    let largest = 1 << 20;
    let mut held: Vec<Guarded> = (0..6).map(|_| Guarded::new(largest)).collect();
    let [nodes, rules, connections, words, area, room] = &mut held[..] else { unreachable!() };
    for side in [Side::Front, Side::Back] {
        for one in &cases.asked {
            let run = &cases.runs[one.over];
            let tables = Tables {
                nodes: nodes.copy(&run.nodes, side),
                rules: rules.copy(&run.rules, side),
                connections: connections.copy(&run.connections, side),
            };
            let (area_len, room_len) = one.lengths();
            let fault = one.fault_of(tables, words.copy(one.words(), side), area.run(area_len, side), room.run(room_len, side));
            assert!(fault.is_none(), "{side:?}: {fault:?}");
        }
    }
}

/// The guards themselves, tried in a process of its own: a read one item past a run ends it by a signal, on either side.
#[test]
fn the_guards_hold() {
    const TOUCH: &str = "ERBIGHENTI_TOUCH";
    if let Ok(which) = std::env::var(TOUCH) {
        let mut held = Guarded::new(64);
        let back = which == "back";
        let run: &mut [u8] = held.run(64, if back { Side::Back } else { Side::Front });
        // SAFETY: there is none, if the guards hold: the process ends here.
        unsafe { std::ptr::read_volatile(if back { run.as_ptr().add(64) } else { run.as_ptr().sub(1) }) };
        return;
    }
    for which in ["front", "back"] {
        let mut again = Command::new(std::env::current_exe().expect("this program"));
        let out = again.args(["--exact", "guarded::the_guards_hold"]).env(TOUCH, which).output().expect("a process");
        assert_eq!(out.status.signal(), Some(11), "{which}: {:?}", out.status);
    }
}
