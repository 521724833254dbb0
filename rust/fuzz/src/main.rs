//! What libFuzzer calls with each input; it has the `main`.
#![no_main]

use std::process::abort;
use std::slice::from_raw_parts;

/// Ends the run on a mismatch: libFuzzer keeps the input then.
#[allow(unsafe_code)] // libFuzzer lends `length` bytes for the call.
#[unsafe(no_mangle)]
extern "C" fn LLVMFuzzerTestOneInput(bytes: *const u8, length: usize) -> i32 {
    let input = match length {
        0 => &[],
        _ => unsafe { from_raw_parts(bytes, length) },
    };
    let found = match (cfg!(feature = "maps"), cfg!(feature = "fault")) {
        (false, false) => fuzz::mismatch(aznifrem::call, input),
        (false, true) => fuzz::mismatch(fuzz::faulty, input),
        (true, false) => fuzz::map_mismatch(aznifrem::read, input),
        (true, true) => fuzz::map_mismatch(fuzz::faulty_reader, input),
    };
    if let Some(text) = found {
        eprintln!("{text}");
        abort();
    }
    0
}
