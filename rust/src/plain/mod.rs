//! The published steps, plainly: no index, no search by halves, every definition as it is worded in the
//! paper (the scope of the box join: questions, steps, numbers). Only `looks` has an index
//! and a search by halves beside that; `checks` has the check of a listing, sentence by sentence.

mod boxes;
mod checks;
mod course;
mod looks;
mod questions;
mod run;

pub use boxes::{bits, box_holds, gap_box, interval_holds, resolve, top, unit};
pub use checks::check_listing;
pub use course::{course, Entry};
pub use looks::{Look, Scan, Tree};
pub use questions::{read, Contents, Question, Table};
pub use run::{run, run_by, run_by_tree, Run};

/// A store holds this many boxes at most, however long it is.
pub const MOST_BOXES: usize = 65_536;

/// A question has this many attributes at most.
pub const MOST_ATTRIBUTES: usize = 12;

/// In place of a table's number of rows, this marks an open table; no rows follow.
pub const OPEN: u16 = 65_535;

/// In place of a table's number of attributes, this marks a range table: it has one attribute, and pairs in place of
/// rows.
pub const RANGE: u16 = 65_535;

/// The numbers of all refusals of a question. A refusal is told by standing here, not by being small.
pub const REFUSALS: [u8; 13] = [1, 2, 3, 4, 5, 6, 7, 8, 9, 10, 11, 12, 28];

/// Is this the number of a refusal of a question?
pub fn is_refusal(number: u8) -> bool {
    REFUSALS.contains(&number)
}

/// The number where a check of a listing and its records fails.
pub const CHECK_FAILS: u8 = 22;

/// How many 32-bit numbers a store record has: an interval for each attribute, a kind and two origins.
pub const RECORD: usize = MOST_ATTRIBUTES + 3;

pub const GAP: u32 = 0;
pub const TUPLE: u32 = 1;
pub const RESOLVENT: u32 = 2;
