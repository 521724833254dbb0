//! Maps drawn: as text for Graphviz, and as a page that a browser shows with no network.
//!
//! It is plain Rust, tested and not proved.

#![warn(missing_docs)]

mod dot;
mod graph;
mod layout;
mod page;
mod svg;

pub use dot::{dot, dot_beside};
pub use page::{Page, Shown};
