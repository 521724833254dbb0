//! The proved library against the unchanged Rust, on the same codes.
//!
//! The Rust says every block, type, path and destination; the model, which is held against the
//! Rust by `agree`, says what the Rust does not have: records, energy, refusals, lower limits.

mod archives;
mod check;
mod damage;
mod families;
mod inspections;
mod json;
mod lend;
mod logs;
mod mismatch;
mod nearby;
mod panics;
mod port;
mod reports;
mod sessions;
mod shrink;
mod stored;
mod tally;

pub use archives::{Archives, Salvager, check as check_archive, run as salvage_archives};
pub use check::{Checker, Verdict};
pub use families::{FAMILIES, Family};
pub use inspections::{
    INSPECTOR, Inspecting, Inspections, Inspector, check as check_inspection, run as inspect_maps,
};
pub use lend::{Given, call as fenced_call, call_json as fenced_call_json};
pub use logs::{Call, Follower, Index, Logs, check as check_log, ring, run as follow_logs, shared};
pub use mismatch::Mismatch;
pub use port::{ChoicePort, JsonPort, ModePort, Port};
pub use reports::{ReportPort, Reports, run as run_reports};
pub use sessions::{Entry, check as check_session};
pub use shrink::smaller;
pub use stored::{Maps, Reader, check as check_map, run as read_maps};
pub use tally::Tally;
