//! The calls of include/axle.h: how C makes them, and what the model says that they answer and leave. Beside them read, on words, of
//! crate word_exports.
//!
//! `figures` has what is told of them beforehand. `memory` lends bytes to them. `stores` has stores to try them on.

pub mod figures;
pub mod memory;
pub mod stores;

use model::recovery::{due_of_delete, due_of_insert, recover};
use model::store::{self, Answer};

mod c {
    extern "C" {
        pub fn axle_format(store: *mut u8, store_len: usize, lists: u16, nodes: u16, record_words: u16) -> u32;
        pub fn axle_check(store: *const u8, store_len: usize) -> u32;
        pub fn axle_length(store: *const u8, store_len: usize, list: u16) -> u32;
        pub fn axle_insert(
            store: *mut u8,
            store_len: usize,
            list: u16,
            position: u16,
            start: u16,
            record: *const u8,
            record_len: usize,
            allowance: u16,
        ) -> u32;
        pub fn axle_insert_several(
            store: *mut u8,
            store_len: usize,
            list: u16,
            position: u16,
            start: u16,
            records: *const u8,
            records_len: usize,
            allowance: u16,
        ) -> u32;
        pub fn axle_delete(store: *mut u8, store_len: usize, list: u16, position: u16, allowance: u16) -> u32;
        pub fn axle_recover(store: *mut u8, store_len: usize, allowance: u16) -> u32;
        pub fn axle_mark_worn(store: *mut u8, store_len: usize, cell: u16) -> u32;
        pub fn axle_insert_several_first_cell(
            store: *const u8,
            store_len: usize,
            list: u16,
            position: u16,
            start: u16,
            records: *const u8,
            records_len: usize,
        ) -> u32;
        pub fn axle_insert_several_last_cell(
            store: *const u8,
            store_len: usize,
            list: u16,
            position: u16,
            start: u16,
            records: *const u8,
            records_len: usize,
        ) -> u32;
        pub fn axle_insert_several_stores(
            store: *const u8,
            store_len: usize,
            list: u16,
            position: u16,
            start: u16,
            records: *const u8,
            records_len: usize,
        ) -> u32;
        pub fn axle_recover_stores(store: *const u8, store_len: usize) -> u32;
        pub fn words_read(words: *const u16, len: usize, list: u16, position: u16) -> u32;
    }
}

/// No call needs a larger allowance.
pub const ENOUGH: u16 = 65_535;

pub const DONE: u32 = 65_536;
pub const STOPPED: u32 = 131_072;

/// A call but for the store and the allowance. Records are given in bytes.
#[derive(Clone, Debug, PartialEq, Eq)]
pub enum Call {
    Format { lists: u16, nodes: u16, width: u16 },
    Check,
    Length { list: u16 },
    Insert { list: u16, position: u16, start: u16, record: Vec<u8> },
    InsertSeveral { list: u16, position: u16, start: u16, records: Vec<u8> },
    Delete { list: u16, position: u16 },
    Recover,
    MarkWorn { cell: u16 },
}

use Call::*;

impl Call {
    pub fn name(&self) -> &'static str {
        match self {
            Format { .. } => "format",
            Check => "check",
            Length { .. } => "length",
            Insert { .. } => "insert",
            InsertSeveral { .. } => "insert_several",
            Delete { .. } => "delete",
            Recover => "recover",
            MarkWorn { .. } => "mark_worn",
        }
    }

    /// The bytes of its records.
    pub fn records(&self) -> &[u8] {
        match self {
            Insert { record, .. } => record,
            InsertSeveral { records, .. } => records,
            _ => &[],
        }
    }

    /// The words of its records. No record of a store is empty: records of no words are answered as those of an odd number of bytes.
    fn record_words(&self) -> Vec<u16> {
        if self.records().len() % 2 == 1 {
            vec![]
        } else {
            words_of(self.records())
        }
    }

    /// The stores of an insert, a delete or a mark that is not refused.
    pub fn whole(&self, width: usize) -> u16 {
        let records = self.records().len() / 2 / width;
        match self {
            Delete { .. } => width as u16 + 4,
            MarkWorn { .. } => 1,
            _ => (records * (width + 6)) as u16,
        }
    }

    /// The stores of an insert, a delete or a mark that count as made if it is cut after so many.
    pub fn due(&self, width: usize, made: u16) -> u16 {
        match self {
            Delete { .. } => due_of_delete(width, made),
            MarkWorn { .. } => made,
            _ => due_of_insert(width, made).min(self.whole(width)),
        }
    }

    /// Makes the call. No bytes are lent as NULL. `records` holds the bytes of an insert's records.
    pub fn make(&self, store: &mut [u8], records: &[u8], allowance: u16) -> u32 {
        let len = store.len();
        let at = if len == 0 { std::ptr::null_mut() } else { store.as_mut_ptr() };
        let (from, size) = lent(records);
        // Each pointer and length are those of a slice, or NULL and 0; the calls read and write nothing else.
        unsafe {
            match *self {
                Format { lists, nodes, width } => c::axle_format(at, len, lists, nodes, width),
                Check => c::axle_check(at, len),
                Length { list } => c::axle_length(at, len, list),
                Insert { list, position, start, .. } => {
                    c::axle_insert(at, len, list, position, start, from, size, allowance)
                }
                InsertSeveral { list, position, start, .. } => {
                    c::axle_insert_several(at, len, list, position, start, from, size, allowance)
                }
                Delete { list, position } => c::axle_delete(at, len, list, position, allowance),
                Recover => c::axle_recover(at, len, allowance),
                MarkWorn { cell } => c::axle_mark_worn(at, len, cell),
            }
        }
    }

    /// What the model answers, and the bytes that it leaves.
    pub fn expected(&self, store: &[u8], allowance: u16) -> (u32, Vec<u8>) {
        if store.len() % 2 == 1 {
            return (4, store.to_vec());
        }
        let (mut words, records) = (words_of(store), self.record_words());
        let answer = match *self {
            Format { lists, nodes, width } => store::format(&mut words, lists, nodes, width).into(),
            Check => store::check(&words).into(),
            Length { list } => store::length(&words, list).map_or_else(u32::from, |n| DONE + u32::from(n)),
            Insert { list, position, start, .. } => {
                number_of(store::insert(&mut words, list, position, start, &records, allowance))
            }
            InsertSeveral { list, position, start, .. } => {
                number_of(store::insert_several(&mut words, list, position, start, &records, allowance))
            }
            Delete { list, position } => number_of(store::delete(&mut words, list, position, allowance)),
            Recover => number_of(recover(&mut words, allowance)),
            MarkWorn { cell } => number_of(store::mark_worn(&mut words, cell)),
        };
        (answer, bytes_of(&words))
    }
}

/// Where bytes lie that are lent, and how many they are. No bytes are lent as NULL.
fn lent(bytes: &[u8]) -> (*const u8, usize) {
    (if bytes.is_empty() { std::ptr::null() } else { bytes.as_ptr() }, bytes.len())
}

/// Read on words: 65,536 and the first word of the record, or 0 if it is refused.
pub fn read(words: &[u16], list: u16, position: u16) -> u32 {
    // The pointer and the length are those of a slice; the call reads nothing else.
    unsafe { c::words_read(words.as_ptr(), words.len(), list, position) }
}

/// What the model answers.
pub fn expected_read(words: &[u16], list: u16, position: u16) -> u32 {
    store::read(words, list, position).map_or(0, |record| DONE + u32::from(record[0]))
}

pub fn number_of(answer: Answer) -> u32 {
    match answer {
        Answer::Refused(n) => n.into(),
        Answer::Done(n) => DONE + u32::from(n),
        Answer::Stopped(n) => STOPPED + u32::from(n),
    }
}

/// The answer of a call that stores.
pub fn answer_of(number: u32) -> Answer {
    let n = number as u16;
    match number {
        STOPPED.. => Answer::Stopped(n),
        DONE.. => Answer::Done(n),
        _ => Answer::Refused(n),
    }
}

pub fn bytes_of(words: &[u16]) -> Vec<u8> {
    words.iter().flat_map(|word| word.to_le_bytes()).collect()
}

/// The words of an even number of bytes.
pub fn words_of(bytes: &[u8]) -> Vec<u16> {
    bytes.chunks_exact(2).map(|pair| u16::from_le_bytes([pair[0], pair[1]])).collect()
}
