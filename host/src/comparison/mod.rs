//! The comparison of an implementation of [`Calls`](crate::calls::Calls) with the crate evfmt, with the standard library
//! and with the independent reading of documents 01 and 02.
//!
//! | module | does |
//! |---|---|
//! | [`lent`] | makes a call with a lent buffer, and compares the answer and every byte of the buffer |
//! | [`tables`] | compares the default policy and the variation entries |
//! | [`text_case`] | compares all that the calls do to one text under one policy |
//! | [`list_case`] | compares a list of mending calls with its book |
//! | [`tip_case`] | compares the memberships that decide one text under one policy |
//! | [`repair_case`] | compares what taking in does to one damaged text |
//! | [`near_case`] | compares the findings around a stretch and the nearest finding |
//! | [`cut_case`] | compares where a text may be cut, and the joined results of its parts |
//! | [`feed_case`] | compares a list of calls on a feed |
//! | [`feed_lists`] | makes such lists: threads cut in every way and at random, with refused calls between |
//! | [`feed_states`] | makes calls on bytes that are no feed |
//! | [`sheet_case`] | compares reading one sheet, and writing the sheet of one policy |
//! | [`sheets`] | makes sheets: every short one, drawn, damaged and long ones |
//! | [`carry_case`] | compares carrying a policy over, and makes old lists and old policies |
//! | [`store_case`] | compares a list of calls on a store, and makes calls on bytes that are no store |
//! | [`store_lists`] | makes such lists: drawn ones, with refused calls between, and full stores |
//! | [`texts`], [`policies`] | make the texts and policies: exhaustive, random, damaged |
//! | [`limits`] | makes texts around the limits |
//! | [`published`] | takes texts from Unicode's lists of emoji |
//! | [`reduce`] | makes a text or a list with a difference smaller |
//! | [`run`], [`report`] | runs all of it, within bounds, and reports the first difference |
//! | [`programs`] | compares the two programs |
//! | [`faults`], [`faulty`] and the modules whose names begin with `faulty_` | faults that are planted into calls |
//! | [`command`] | the command line of the program |

pub mod carry_case;
pub mod command;
pub mod cut_case;
pub mod faults;
pub mod faulty;
pub mod faulty_carry;
pub mod faulty_cut;
pub mod faulty_feed;
pub mod faulty_near;
pub mod faulty_sheet;
pub mod faulty_store;
pub mod feed_case;
pub mod feed_lists;
pub mod feed_states;
pub mod lent;
pub mod limits;
pub mod list_case;
pub mod near_case;
pub mod policies;
pub mod programs;
pub mod published;
pub mod reduce;
pub mod repair_case;
pub mod report;
pub mod run;
pub mod sheet_case;
pub mod sheets;
pub mod store_case;
pub mod store_lists;
pub mod tables;
pub mod text_case;
pub mod texts;
pub mod tip_case;
