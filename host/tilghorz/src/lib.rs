//! Formats the emoji selectors FE0E and FE0F of a text under a policy, and touches nothing else.
//!
//! The work is done by a proved library after C functions; this crate is the way to it from Rust. A text is bytes:
//! that they are well-formed UTF-8 is tested by the library, which says where they are not. Every function gives its
//! result or a [`Refusal`], for all texts, policies, offsets, decisions and buffers.
//!
//! ```
//! use tilghorz::{Policy, Refusal};
//!
//! let policy = Policy::default();
//! let text = "1\u{FE0E} \u{2764}".as_bytes();
//! assert_eq!(&*tilghorz::format(text, &policy)?, "1 \u{2764}\u{FE0E}".as_bytes());
//! assert_eq!(tilghorz::format_str("I \u{2764} it", &policy)?, "I \u{2764}\u{FE0E} it");
//!
//! let findings = tilghorz::findings(text, &policy)?;
//! let first = findings.get(0).expect("a finding");
//! assert_eq!((first.start, first.end, first.counts.policy_redundant), (0, 4, 1));
//! assert_eq!((first.char_span(), first.utf16_span()), (0..2, 0..2));
//! assert_eq!(&*tilghorz::mend(text, &policy, 0, &[])?, "1 \u{2764}".as_bytes());
//!
//! let around = tilghorz::around(text, &policy, 0..5)?;
//! assert_eq!((around.inside.len(), around.sharing.len()), (1, 0));
//! let nearest = tilghorz::nearest(text, &policy, 4)?.expect("a finding");
//! assert_eq!((nearest.finding.start, nearest.distance), (0, 1));
//!
//! let damaged = tilghorz::format(b"good\xFF", &policy);
//! assert_eq!(damaged, Err(Refusal::NotWellFormed { valid_up_to: 4 }));
//! let repaired = tilghorz::repair(b"good\xFF")?;
//! assert_eq!((&*repaired.text, repaired.replaced), ("good\u{FFFD}".as_bytes(), 1));
//! # Ok::<(), Refusal>(())
//! ```
//!
//! - [`format()`], [`mend`], [`findings`] and [`items`] allocate what they return; [`format_into`] and [`mend_into`]
//!   write to the caller's buffer, and [`filed`] says which bytes to keep then. [`format_str`] formats a string.
//! - [`mend`] takes decisions; [`default_decisions`] has those that formatting makes.
//! - A [`Finding`] and an [`Item`] have their start and end in bytes, in characters and in UTF-16 units.
//! - [`around`] has the findings inside a stretch of bytes and those that only share a byte with it; [`nearest`] has the
//!   finding nearest to an offset.
//! - [`cut`] says where a text may be cut for two workers; [`parts()`] cuts it for several.
//! - [`repair`] takes damaged text in, which the others refuse; [`repair_into`] writes to the caller's buffer.
//! - [`Feed`] formats a thread that comes in pieces; [`FeedWriter`] and [`FeedReader`] do it between a writer or a
//!   reader and another.
//! - [`Policy`] is the default one, one from bytes, one from a text that is a policy sheet, or one with members added and
//!   taken. It is written as a sheet. Its bytes begin with the Unicode version of the tables, [`version()`]. A [`Key`] is
//!   what its sets hold.
//! - [`tips`] lists the single memberships of a policy that decide a text, each as a [`Tip`].
//! - [`Store`] keeps account of what up to 16 clients file.
//! - [`sys`] has the C functions as they cross. It is the only module with unsafe code.
//!
//! The folder `examples/` has a host that formats a queue of messages, one that follows a thread by a feed, and one that
//! files into a store.
//!
//! # Errors
//!
//! All calls of the library have one error type, [`Refusal`], with a name, a number and a value for each cause. Each
//! function lists those that it can give. A call that is refused has written to no buffer.
//!
//! # Panics
//!
//! No function of this crate panics, whatever it is given. Every one that calls the library panics if the library answers
//! what `include/tilghorz.h` does not have. Then another library was linked.
//!
//! # Threads
//!
//! All types can be sent to another thread and shared by several, [`FeedWriter`] and [`FeedReader`] if the writer or the
//! reader in them can. The library keeps no state of its own.
//!
//! "Document 01" in comments is the specification, "The selector formatter: records from byte to sealed text";
//! "document 02" is the list of changes after it.

#![deny(unsafe_code)]
#![warn(missing_docs, missing_debug_implementations)]

mod answer;
mod calls;
mod feed;
mod finding;
mod item;
mod key;
mod names;
mod parts;
mod policy;
mod presentation;
mod refusal;
mod store;
pub mod sys;
pub mod table;
mod tip;
mod version;

pub use calls::{Around, Formatted, Nearest, Repaired, RepairedLen};
pub use calls::{
    around, cut, default_decisions, filed, findings, format, format_into, format_str, items, mend,
    mend_into, nearest, repair, repair_into, tips,
};
pub use feed::{Feed, FeedReader, FeedWriter};
pub use finding::{Counts, Finding};
pub use item::{Item, ItemKind};
pub use key::{Context, Key, KeySet, NoEntry, ParseKeyError, variation_entries};
pub use names::ParseNameError;
pub use parts::{Parts, parts};
pub use policy::{Policy, SingletonRule};
pub use presentation::Presentation;
pub use refusal::Refusal;
pub use store::Store;
pub use table::{Row, Table};
pub use tip::Tip;
pub use version::{Version, version};

/// The length of the longest text that is not refused: [`Refusal::TextTooLong`].
pub const LONGEST_TEXT: usize = 16_777_216;

/// The kit that proved and made the linked library, as `rt version` prints it. Of a library that was made elsewhere it may be
/// unknown.
pub const KIT: &str = env!("TILGHORZ_KIT");

/// The host in Rust of docs/FIRST-HOUR.md, as a test.
#[cfg(doctest)]
#[doc = include_str!("../../../docs/FIRST-HOUR.md")]
struct FirstHour;
