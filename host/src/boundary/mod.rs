//! The boundary, which no proof covers: what crosses it as a pointer and a length. The calls are made on slices of
//! every small length and of lengths around each limit, with outputs that are exactly full or one byte off, at every
//! alignment, and on empty slices of each kind.
//!
//! | module | does |
//! |---|---|
//! | [`placed`] | puts the bytes of an input to a place in memory, between bytes that would change the answer |
//! | [`case`] | makes a call with each slice at its place, and compares answer, output, and all that stands around |
//! | [`cases`] | makes the cases: sizes, lengths of policies and decisions, and drawn ones |
//! | [`feeds`] | makes the calls on feeds |
//! | [`sheets`] | makes the calls on sheets |
//! | [`carries`] | makes the calls that carry a policy over |
//! | [`near`] | makes the calls around a stretch and for the nearest finding |
//! | [`stores`] | makes the calls on stores |
//! | [`cuts`] | cuts bytes |
//! | [`command`] | the command line of the program `boundary` |
//!
//! An input that is read past its end gives another answer where the bytes after it count. Where it stands at the end
//! of its allocation, or fills it, valgrind tells a byte that is read or written outside.

pub mod carries;
pub mod case;
pub mod cases;
pub mod command;
pub mod cuts;
pub mod feeds;
pub mod near;
pub mod placed;
pub mod sheets;
pub mod stores;
