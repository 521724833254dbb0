//! Document 01's rows are the Rust's.

use model::ops::{Row, row};

#[test]
fn no_row_differs() {
    let rust = oracle::rows().map(|row| Row {
        size: row.size,
        taken: row.stack_in,
        given: row.stack_out,
        known: row.known,
    });
    let differ: Vec<u8> = (0..=255)
        .filter(|b| row(*b) != rust[usize::from(*b)])
        .collect();
    assert_eq!(differ, [0u8; 0]);
}
