//! The log of a child's calls, in memory that its parent reads after the kill: the arguments of each call, whether it has begun, and
//! its answer when it has returned.

use crate::MOST_RECORDS;
use interface::memory::Mapped;
use interface::Call;
use std::sync::atomic::{AtomicU32, Ordering::AcqRel, Ordering::Acquire, Ordering::Release};

/// The most calls of a log.
pub const CALLS: usize = 1 << 13;

/// The most bytes of a call's records.
const RECORDS: usize = MOST_RECORDS * 26;

#[repr(C)]
struct Entry {
    /// 0, or 1 once the call has begun, or 2 once the answer is written.
    state: AtomicU32,
    answer: AtomicU32,
    /// 0 for a delete, 1 for an insert, 2 for an insert of several records.
    kind: u16,
    list: u16,
    position: u16,
    start: u16,
    /// The bytes of the records, and their number.
    records: [u8; RECORDS],
    size: u16,
}

pub struct Log(Mapped);

impl Log {
    pub fn new() -> Log {
        Log(Mapped::new(CALLS * std::mem::size_of::<Entry>(), None))
    }

    fn entries(&mut self) -> &mut [Entry] {
        // The mapping has room for so many, is aligned to a page, and any bytes are an entry.
        unsafe { std::slice::from_raw_parts_mut(self.0.bytes().as_mut_ptr().cast(), CALLS) }
    }

    /// By the parent, before a child begins.
    pub fn clear(&mut self) {
        self.entries().iter_mut().take_while(|entry| entry.state.swap(0, AcqRel) != 0).for_each(drop);
    }

    /// By the child: the arguments of call `i`, before it is made.
    pub fn announce(&mut self, i: usize, call: &Call) {
        let entry = &mut self.entries()[i];
        (entry.kind, entry.list, entry.position, entry.start) = match *call {
            Call::Insert { list, position, start, .. } => (1, list, position, start),
            Call::InsertSeveral { list, position, start, .. } => (2, list, position, start),
            Call::Delete { list, position } => (0, list, position, 0),
            _ => unreachable!("a child inserts and deletes"),
        };
        let size = call.records().len();
        entry.records[..size].copy_from_slice(call.records());
        entry.size = size as u16;
    }

    /// By the child: makes call `i`, noted before and after.
    pub fn noted(&mut self, i: usize, make: impl FnOnce() -> u32) {
        let entry = &mut self.entries()[i];
        entry.state.store(1, Release);
        let answer = make();
        entry.answer.store(answer, Release);
        entry.state.store(2, Release);
    }

    /// Has the first call begun, and has it been answered?
    pub fn first(&mut self) -> (bool, bool) {
        let state = self.entries()[0].state.load(Acquire);
        (state > 0, state == 2)
    }

    /// By the parent: the calls, each with its answer. The last may have none.
    pub fn calls(&mut self) -> Vec<(Call, Option<u32>)> {
        let mut calls = vec![];
        for entry in self.entries().iter() {
            let state = entry.state.load(Acquire);
            if state == 0 {
                break;
            }
            let Entry { list, position, start, .. } = *entry;
            let records = entry.records[..entry.size.into()].to_vec();
            let call = match entry.kind {
                1 => Call::Insert { list, position, start, record: records },
                2 => Call::InsertSeveral { list, position, start, records },
                _ => Call::Delete { list, position },
            };
            calls.push((call, (state == 2).then(|| entry.answer.load(Acquire))));
        }
        calls
    }
}
