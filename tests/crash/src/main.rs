//! A crash test with real processes. A child inserts and deletes in a store in a shared file and is killed at a random moment. Its
//! parent then finds one of the states that the interrupted call may leave (`states`), recovers, and compares every byte, every
//! list and the worn nodes with plain sequences that follow the log. A second part stops a child after each instruction of a call, a mark
//! too. The last line is 'N passed, M failed'.

mod counts;
mod kills;
mod log;
mod plain;
mod process;
mod states;
mod steps;

use counts::Counts;
use interface::memory::Mapped;
use interface::stores::record;
use interface::{bytes_of, words_of, Call, DONE, ENOUGH};
use model::random::Random;
use model::store::{self, Shape};
use plain::Plain;
use states::State;
use std::os::unix::io::AsRawFd;

/// The most records of a call.
pub const MOST_RECORDS: usize = 4;

/// Random bytes to take records from.
pub fn pool(random: &mut Random) -> Vec<u8> {
    record(random, 32 + MOST_RECORDS * 13)
}

/// A random insert, of one record or several, or delete; so many nodes are not worn. A few are refused: beyond the list's end, or with
/// too few nodes free.
pub fn random_call(random: &mut Random, shape: Shape, usable: usize, lengths: &[usize], pool: &[u8]) -> Call {
    let list = random.below(shape.lists);
    let all: usize = lengths.iter().sum();
    let (beyond, list_number) = (usize::from(random.below(50) == 0), list as u16);
    if lengths[list] == 0 || random.below(usable + 1) >= all {
        let (position, start) = (random.between(0, lengths[list]) + beyond, shape.lists + random.below(shape.nodes));
        let (list, position, start) = (list_number, position as u16, start as u16);
        let (from, number) = (random.below(64), random.between(0, MOST_RECORDS));
        let records = pool[from..][..2 * shape.width * number.max(1)].to_vec();
        return match number {
            0 => Call::Insert { list, position, start, record: records },
            _ => Call::InsertSeveral { list, position, start, records },
        };
    }
    let position = if beyond == 1 { lengths[list] } else { random.below(lengths[list]) };
    Call::Delete { list: list_number, position: position as u16 }
}

/// Are the lists of the store the plain sequences?
pub fn same_lists(bytes: &[u8], plain: &Plain) -> bool {
    let (words, shape) = (words_of(bytes), plain.shape);
    let record = |cell: usize| words[shape.cell(cell) + 3..][..shape.width].to_vec();
    let found = store::lists(&words, shape);
    let found = found.map(|lists| -> Vec<Vec<(usize, Vec<u16>)>> {
        lists.iter().map(|list| list.iter().map(|&cell| (cell, record(cell))).collect()).collect()
    });
    found.as_ref() == Some(&plain.lists)
}

/// Recovery of a state that a call left, and what is due after it: the lists, wiped records in the free nodes, and the worn nodes. Then
/// `plain` is what the store holds. Is it?
pub fn recovered(counts: &mut Counts, store: &mut [u8], plain: &mut Plain, call: &Call, state: &State) -> bool {
    let (expected, left) = Call::Recover.expected(store, ENOUGH);
    let answer = Call::Recover.make(store, &[], ENOUGH);
    let (lost, width) = (state.lost(call, plain), plain.shape.width);
    counts.holds(answer == expected && store == left, || format!("recover: answer {answer}, not {expected}; {state:?}"));
    counts.holds(if lost { answer == 12 } else { answer >= DONE }, || {
        format!("recover: answer {answer}; {call:?}, {state:?}")
    });
    if let (true, Some((low, byte))) = (lost, state.torn) {
        store[low] = byte;
        Call::Recover.make(store, &[], ENOUGH);
    }
    plain.make_first(call, if lost { call.due(width, state.made) } else { state.due(call, width) });
    let kept = plain.same_worn(&words_of(store));
    plain.words = words_of(store);
    let sound = Call::Check.make(store, &[], 0);
    let due = sound == 0 && same_lists(store, plain) && kept;
    counts.holds(due, || format!("check {sound}, the lists, or the worn nodes; {call:?}, {state:?}"));
    due
}

/// A store in a file of its own that is gone when this ends.
pub fn in_file(plain: &Plain) -> Mapped {
    let bytes = bytes_of(&plain.words);
    let path = std::env::temp_dir().join(format!("axle-crash-{}", std::process::id()));
    std::fs::write(&path, &bytes).expect("a file");
    let file = std::fs::OpenOptions::new().read(true).write(true).open(&path).expect("the file");
    std::fs::remove_file(&path).expect("the file");
    Mapped::new(bytes.len(), Some(file.as_raw_fd()))
}

fn main() {
    let mut counts = Counts::default();
    let mut random = Random::new(2107);
    kills::kills(&mut counts, &mut random);
    steps::steps(&mut counts, &mut random);
    steps::enumerated(&mut counts, &mut random);
    println!("{} passed, {} failed", counts.passed, counts.failed);
    std::process::exit(i32::from(counts.failed > 0));
}
