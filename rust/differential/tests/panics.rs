//! Panics behind the entry, and elsewhere. The hook is the process's: this file has one test.

use std::panic::{catch_unwind, set_hook};
use std::sync::atomic::{AtomicUsize, Ordering::Relaxed};

use aznifrem::Lent;
use differential::{Checker, Tally};

static PRINTED: AtomicUsize = AtomicUsize::new(0);

/// Stands in for a library, a binding or a model that panics on some codes.
fn panicking(code: &[u8], limit: u64, rooms: &mut Lent) -> u64 {
    assert!(!code.contains(&0x57), "a JUMPI is too much");
    aznifrem::call(code, limit, rooms)
}

#[test]
fn a_panic_is_told_with_its_code_and_seed_and_any_other_prints() {
    set_hook(Box::new(|_| {
        PRINTED.fetch_add(1, Relaxed);
    }));
    let checker = Checker {
        port: panicking,
        ..Checker::LIBRARY
    };
    let mut tally = Tally::default();
    tally.add(&checker, &[0x30, 0x30, 0x57, 0x00], 5, "a test");
    tally.add(&checker, &[0x30, 0x30, 0x56, 0x00], 6, "a test");
    assert_eq!((tally.same, tally.different), (1, 1));
    let text = &tally.written_out[0];
    assert!(text.starts_with("a test: panic\n  code     30305700\n  smaller  57 "));
    assert!(text.contains("--seed 5 "), "{text}");
    assert!(text.contains("panicked at "), "{text}");
    assert!(text.ends_with("a JUMPI is too much"), "{text}");
    assert_eq!(PRINTED.load(Relaxed), 0, "those are caught");
    assert!(catch_unwind(|| panic!("elsewhere")).is_err());
    assert_eq!(PRINTED.load(Relaxed), 1, "this one is not");
}
