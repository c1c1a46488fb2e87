//! An independent reading of document 01 and of the changes of document 02, written from their sentences, and neither
//! from the crate's code nor from the port's.
//!
//! What the crate has too (items, counts, replacements, formatted text) is held to the crate by tests. What it lacks
//! (refusals, the tag report, listing, mending, the book of a list of calls) the port is compared with here. Only the
//! Unicode tables and the default policy come from elsewhere: from the crate as built by the wrapper, which document 01
//! names for both.
//!
//! | module | sets out |
//! |---|---|
//! | [`utf8`] | well-formed texts |
//! | [`repair`] | the repaired text and the number of replacements |
//! | [`characters`] | what a character is |
//! | [`policy`] | which bytes are a policy, and its rule for a base |
//! | [`items`] | the grammar of items, and the tag report, as document 02, (i), has it |
//! | [`rules`] | counts and replacements |
//! | [`positions`] | characters and UTF-16 units before an offset |
//! | [`calls`] | formatting, listing, mending, scanning and repairing, with their refusals |
//! | [`near`] | the findings around a stretch, and the nearest finding |
//! | [`cut`] | where a text may be cut for two workers |
//! | [`book`] | a list of mending calls |
//! | [`feed`] | a thread that comes in pieces |
//! | [`kept`] | feeds in lent bytes |
//! | [`sheet`] | policy sheets: their form, their meaning, and the sheet that is written |
//! | [`carry`] | a policy carried over from the tables of another version |
//! | [`tips`] | the single memberships whose flip alters the formatted text |
//! | [`store`] | storage that clients share |
//! | [`programs`] | what the two programs write |

pub mod book;
pub mod calls;
pub mod carry;
pub mod characters;
pub mod cut;
pub mod feed;
pub mod items;
pub mod kept;
pub mod near;
pub mod policy;
pub mod positions;
pub mod programs;
pub mod repair;
pub mod rules;
pub mod sheet;
pub mod store;
pub mod tips;
pub mod utf8;
