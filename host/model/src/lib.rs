//! An independent model of document 01: the disc, the ledger, the thirteen calls
//! and the book that the cut rule speaks of. It is written from the text of
//! documents 01 and 02 alone and shares nothing with the recording core, so that
//! the two can be held against each other.
//!
//! Document 01's words stand in quotes at each definition, and document 02's
//! with its name. The trade words have field terms as identifiers: the ledger is
//! a [`Volume`], a table is a VAT (virtual allocation table), a page of the book
//! is a [`Snapshot`] and the book a [`History`].
//!
//! Bottom to top:
//!
//! - [`fields`]: little-endian fields; [`extent`]: extents as descriptors name them;
//! - [`answer`]: the two numbers that each call answers, and the refusals;
//! - [`time`]: timestamps, their limits, and the minutes that they tell;
//! - [`table`]: the table sector at block b; [`own`]: the sectors of its own that a
//!   table may lie in;
//! - [`anchor`]: the pointer that a closing records, and its tag;
//! - [`run`]: the entry of a run longer than a block, and what it shows;
//! - [`disc`]: image and kinds, the newest table, the walk back, runs, whether it is
//!   closed, recording;
//! - [`ledger`]: the volume's working state and when it fits the disc;
//! - [`save`]: what a save records of a table;
//! - [`roles`]: what each sector is used for, by a scan and from the history;
//! - [`effect`]: what a call does; [`calls`]: the thirteen calls;
//! - [`book`]: pages and draft, what the cut rule promises.
//!
//! [`Volume`]: ledger::Volume
//! [`Snapshot`]: book::Snapshot
//! [`History`]: book::History

#![forbid(unsafe_code)]

pub mod anchor;
pub mod answer;
pub mod book;
pub mod calls;
pub mod disc;
pub mod effect;
pub mod extent;
pub mod fields;
pub mod ledger;
pub mod own;
pub mod roles;
pub mod run;
pub mod save;
pub mod table;
pub mod time;
