//! The crate evfmt from its nine published files, unchanged, with what they lack: this crate root and the
//! Unicode tables.
//!
//! The files are not part of this repository. `build/main.rs` says where it looks for them; it copies them
//! to the build's own folder, beside the tables that it makes from the repository's two data files.
//!
//! The root re-exports what the examples in the nine files use. [`internals`] is not evfmt's: it shows what the
//! nine files keep to the crate and the comparison needs.

#![forbid(unsafe_code)]
#![warn(missing_docs)]
// The nine files have a helper for tests that are not among them.
#![cfg_attr(test, allow(dead_code))]

include!(concat!(env!("OUT_DIR"), "/evfmt/modules.rs"));

pub mod internals;

pub use analysis::{Finding, NonCanonicality, analyze_scan_item};
pub use formatter::{FormatResult, format_text};
pub use policy::Policy;
pub use policy_key_set::PolicyKeySet;
pub use presentation::Presentation;
pub use scanner::{ScanItem, ScanKind, Scanner, scan};
