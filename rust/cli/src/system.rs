//! What std has no call for: signals, and the width of the terminal. No other file of the program has
//! `unsafe`.
#![allow(unsafe_code)] // Each call is to the C library, which std stands on too, with plain numbers.

use std::ffi::{c_int, c_ulong};
use std::io::{self, IsTerminal};
use std::os::fd::AsRawFd;
use std::sync::atomic::{AtomicI32, Ordering};

unsafe extern "C" {
    fn signal(number: c_int, handler: usize) -> usize;
    fn raise(number: c_int) -> c_int;
    fn ioctl(file: c_int, request: c_ulong, ...) -> c_int;
}

const DEFAULT: usize = 0;
const IGNORED: usize = 1;
/// The terminal hung up, Ctrl-C, and the plain request to end.
const ENDING: [c_int; 3] = [1, 2, 15];
/// Of Linux, on x86-64 and on Arm.
const WINDOW_SIZE: c_ulong = 0x5413;

static CAUGHT: AtomicI32 = AtomicI32::new(0);

/// A second one of the same ends the program at once.
extern "C" fn caught(number: c_int) {
    CAUGHT.store(number, Ordering::Relaxed);
    // SAFETY: `signal` may be called within a handler.
    unsafe { signal(number, DEFAULT) };
}

/// From now on a signal to end is kept, to be asked for; one that is ignored, as by nohup, stays so.
pub fn catch_endings() {
    let handler = caught as extern "C" fn(c_int) as usize;
    for number in ENDING {
        // SAFETY: the handler stores a number and calls `signal`, and nothing else.
        unsafe {
            if signal(number, handler) == IGNORED {
                signal(number, IGNORED);
            }
        }
    }
}

/// Whether the program was asked to end.
pub fn ending() -> bool {
    CAUGHT.load(Ordering::Relaxed) != 0
}

/// Ends the program as the signal would have: who started it sees that.
pub fn end() -> ! {
    let number = CAUGHT.load(Ordering::Relaxed);
    // SAFETY: without a handler the signal ends the program.
    unsafe {
        signal(number, DEFAULT);
        raise(number);
    }
    std::process::exit(128 + number)
}

/// How many columns the terminal of standard error has, if it is one and says so.
pub fn columns() -> Option<usize> {
    let errors = io::stderr();
    let mut size = [0_u16; 4];
    if !errors.is_terminal() {
        return None;
    }
    // SAFETY: the request fills four numbers of 16 bits: rows, columns, and twice pixels.
    let answer = unsafe { ioctl(errors.as_raw_fd(), WINDOW_SIZE, size.as_mut_ptr()) };
    (answer == 0 && size[1] > 0).then_some(size[1].into())
}
