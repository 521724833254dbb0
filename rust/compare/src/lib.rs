//! What moved between two maps of a contract: a row for each fact that differs, and a verdict. What each
//! row means, and what *equal up to addresses* means, stands in `docs/DIFF.md`.
//!
//! It is plain Rust, tested and not proved: `tests` holds it to statements of the same made another way.

#![warn(missing_docs)]

mod code;
mod facts;
mod json;
mod matching;
mod nearest;
mod rows;
mod text;
mod totals;
mod verdict;

pub use code::{Coded, NotTheCode};
pub use facts::{Face, Leads, faces};
pub use json::{quoted, rows_json, totals_json};
pub use matching::{Matching, OLD, matching};
pub use nearest::nearest;
pub use rows::{Row, rows};
pub use totals::{Totals, is_unresolved};
pub use verdict::{Judged, Verdict, judge, judge_coded, judge_matched, judge_matched_coded};
