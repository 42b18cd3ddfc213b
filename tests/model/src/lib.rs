//! An independent model of the axle store, to test the proved engine with.
//!
//! `store` says what a store is and what each call answers, in the words of docs/FORMAT.md and with no concern for speed.
//! `recovery` does so for recover, and says how a course of calls must end; `courses` runs all courses of one call. `walks` has the
//! walk to a position. `former` has insert and delete of older versions, which did not wipe, and recover of those in which the count was a
//! word as any other. `samples` has stores to try the calls on; `alterations` has the words that are altered in them, and values for these.
//! `script` has the operations that the program `cases` runs, and the lines that it must print; `compare` holds what the program printed
//! against those lines. `listing` has the text of the listing program.

pub mod alterations;
pub mod compare;
pub mod courses;
pub mod former;
pub mod listing;
pub mod random;
pub mod recovery;
pub mod samples;
pub mod script;
pub mod store;
pub mod walks;
