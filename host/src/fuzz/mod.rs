//! The target of the fuzzer: an input of bytes is read as a list of calls, and each call is held to the independent reading
//! of documents 01 and 02.
//!
//! A byte chooses a step, and the bytes after it say more. A step makes one of the C functions' calls ([`names`]), or it
//! changes what the next calls are handed: the text, the policy, a feed or a store. Every call is made on slices between
//! bytes that are watched. The answer and every byte of every buffer must be those of the reading. The bytes of a feed and
//! of a store are the library's own; they must stay after a refusal, and all later calls on them must be those of the
//! reading. For bytes that are no feed or no store the answer is the program's choice: then a refusal must write nothing, the
//! bytes after a result must stay, and the same call must give the same again.
//!
//! | module | does |
//! |---|---|
//! | [`input`] | reads the bytes of an input |
//! | [`tokens`] | says what a byte stands for in a text and in a sheet |
//! | [`machine`] | has the text and the policy, and makes the calls on them |
//! | [`policies`] | makes the calls on sheets, on old policies and on the tables |
//! | [`feeds`], [`stores`] | make the calls on feeds and on stores |
//! | [`free`] | makes a call whose answer is the program's choice |
//! | [`counted`] | counts the calls of each function |
//! | [`corpus`] | reads and writes the stored inputs |
//!
//! The fuzzer itself is the package `fuzz`. The stored inputs are replayed without it: by the tests here beside planted
//! faults, and by a test of the package `compare` on the linked library.

pub mod corpus;
pub mod counted;
pub mod feeds;
pub mod free;
pub mod input;
pub mod machine;
pub mod policies;
pub mod stores;
pub mod tokens;

pub use machine::{names, run};
