//! The plain implementation against the model: the same answers and the same bytes.

use crate::plain;
use model::alterations::pairs;
use model::random::Random;
use model::recovery;
use model::samples::{all_two_sequences, carriers, every_store, likely, remain, wear, TwoSequences};
use model::store::{self, store_of, Answer, Shape};
use std::collections::{BTreeMap, BTreeSet};

const ENOUGH: u16 = 65_535;

fn bytes_of(words: &[u16]) -> Vec<u8> {
    words.iter().flat_map(|w| w.to_le_bytes()).collect()
}

fn words_of(bytes: &[u8]) -> Vec<u16> {
    bytes.chunks_exact(2).map(|b| u16::from_le_bytes([b[0], b[1]])).collect()
}

fn number(answer: Answer) -> u32 {
    match answer {
        Answer::Refused(n) => n.into(),
        Answer::Done(n) => 65_536 + u32::from(n),
        Answer::Stopped(n) => 131_072 + u32::from(n),
    }
}

/// A call with its arguments, but for the store.
#[derive(Clone, Debug)]
enum Call {
    Format(u16, u16, u16),
    Check,
    Length(u16),
    Insert(u16, u16, u16, Vec<u8>, u16),
    InsertSeveral(u16, u16, u16, Vec<u8>, u16),
    Delete(u16, u16, u16),
    MarkWorn(u16),
    Recover(u16),
}

impl Call {
    fn name(&self) -> &'static str {
        match self {
            Call::Format(..) => "format",
            Call::Check => "check",
            Call::Length(_) => "length",
            Call::Insert(..) => "insert",
            Call::InsertSeveral(..) => "insert_several",
            Call::Delete(..) => "delete",
            Call::MarkWorn(_) => "mark_worn",
            Call::Recover(_) => "recover",
        }
    }

    fn plain(&self, bytes: &mut [u8]) -> u32 {
        match self {
            Call::Format(l, n, p) => plain::format(bytes, *l, *n, *p),
            Call::Check => plain::check(bytes),
            Call::Length(k) => plain::length(bytes, *k),
            Call::Insert(k, p, s, record, a) => plain::insert(bytes, *k, *p, *s, record, *a),
            Call::InsertSeveral(k, p, s, records, a) => plain::insert_several(bytes, *k, *p, *s, records, *a),
            Call::Delete(k, p, a) => plain::delete(bytes, *k, *p, *a),
            Call::MarkWorn(cell) => plain::mark_worn(bytes, *cell),
            Call::Recover(a) => plain::recover(bytes, *a),
        }
    }

    /// The model's answer. A store of odd length is refused before all else; records of odd length have no number of words,
    /// so it is none that fits.
    fn model(&self, bytes: &mut [u8]) -> u32 {
        if bytes.len() % 2 == 1 {
            return 4;
        }
        let mut words = words_of(bytes);
        let answer = match self {
            Call::Format(l, n, p) => store::format(&mut words, *l, *n, *p).into(),
            Call::Check => store::check(&words).into(),
            Call::Length(k) => store::length(&words, *k).map_or_else(u32::from, |n| 65_536 + u32::from(n)),
            Call::Insert(k, p, s, record, a) => {
                let record = if record.len() % 2 == 1 { vec![0; 14] } else { words_of(record) };
                number(store::insert(&mut words, *k, *p, *s, &record, *a))
            }
            Call::InsertSeveral(k, p, s, records, a) => {
                let records = if records.len() % 2 == 1 { vec![] } else { words_of(records) };
                number(store::insert_several(&mut words, *k, *p, *s, &records, *a))
            }
            Call::Delete(k, p, a) => number(store::delete(&mut words, *k, *p, *a)),
            Call::MarkWorn(cell) => number(store::mark_worn(&mut words, *cell)),
            Call::Recover(a) => number(recovery::recover(&mut words, *a)),
        };
        bytes.copy_from_slice(&bytes_of(&words));
        answer
    }
}

/// Figures as answers: each is added to 65,536, and a refusal's number is that of each.
fn told<const N: usize>(figures: Result<[u16; N], u16>) -> [u32; N] {
    figures.map_or_else(|number| [number.into(); N], |figures| figures.map(|figure| 65_536 + u32::from(figure)))
}

/// The answers seen: a refusal's number, or 65,536 for all that are done and 131,072 for all that are stopped.
#[derive(Default)]
struct Seen(BTreeMap<&'static str, BTreeSet<u32>>);

impl Seen {
    /// Makes the call on the bytes both ways and compares: the answer.
    fn compare(&mut self, bytes: &mut [u8], call: &Call) -> u32 {
        let found = bytes.to_vec();
        let mut expected = bytes.to_vec();
        let answer = call.plain(bytes);
        assert_eq!(answer, call.model(&mut expected), "{call:?} on {found:?}");
        assert!(bytes == expected, "the bytes after {call:?} on {found:?}");
        self.note(call.name(), answer);
        match call {
            Call::InsertSeveral(k, p, s, records, ENOUGH) => self.foretold(&found, [*k, *p, *s], records, answer),
            Call::Recover(ENOUGH) => self.needed(&found, answer),
            _ => (),
        }
        answer
    }

    fn note(&mut self, name: &'static str, answer: u32) {
        let kind = if answer < 65_536 { answer } else { answer >> 16 << 16 };
        self.0.entry(name).or_default().insert(kind);
    }

    /// What is told of an insert of several records that answers so: as by the model.
    fn foretold(&mut self, bytes: &[u8], [list, position, start]: [u16; 3], records: &[u8], answer: u32) {
        let found = [
            plain::insert_several_first_cell(bytes, list, position, start, records),
            plain::insert_several_last_cell(bytes, list, position, start, records),
            plain::insert_several_stores(bytes, list, position, start, records),
        ];
        let words = if records.len() % 2 == 1 { vec![] } else { words_of(records) };
        let figures = store::insert_several_figures(&words_of(bytes), list, position, start, &words);
        let odd = bytes.len() % 2 == 1;
        let expected = told(if odd { Err(4) } else { figures.map(|told| [told.first, told.last, told.stores]) });
        assert_eq!((found, found[2]), (expected, answer), "told of {list} {position} {start} on {bytes:?}");
        self.note("insert_several_figures", answer);
    }

    /// What is told of a recovery that answers so: as by the model.
    fn needed(&mut self, bytes: &[u8], answer: u32) {
        let stores = recovery::recover_stores(&words_of(bytes)).map(|stores| [stores]);
        let [expected] = told(if bytes.len() % 2 == 1 { Err(4) } else { stores });
        let found = plain::recover_stores(bytes);
        assert_eq!((found, found), (expected, answer), "told of recover on {bytes:?}");
        self.note("recover_stores", answer);
    }

    /// The call, made with an allowance, at every allowance up to two more than it needs.
    fn allowances(&mut self, bytes: &[u8], call: impl Fn(u16) -> Call) {
        for allowance in (0..).chain([ENOUGH]) {
            let answer = self.compare(&mut bytes.to_vec(), &call(allowance));
            if answer < 65_536 || (answer < 131_072 && u32::from(allowance) > answer - 65_536) {
                break;
            }
        }
        self.compare(&mut bytes.to_vec(), &call(ENOUGH));
    }

    /// Reads both ways and compares: the record, or the number of the refusal.
    fn read(&mut self, bytes: &[u8], list: u16, position: u16) {
        let words = words_of(bytes);
        let record = store::read(&words, list, position).map(bytes_of).map_err(u32::from);
        let expected = if bytes.len() % 2 == 1 { Err(4) } else { record };
        let found = plain::read(bytes, list, position);
        assert_eq!(found.map(<[u8]>::to_vec), expected, "read {list} {position} on {bytes:?}");
        self.0.entry("read").or_default().insert(found.map_or_else(|refusal| refusal, |_| 65_536));
    }

    fn all(&self, expected: &[(&str, &[u32])]) {
        for (name, answers) in expected {
            let answers: BTreeSet<u32> = answers.iter().copied().collect();
            assert_eq!(self.0.get(name), Some(&answers), "the answers of {name}");
        }
    }
}

fn deal(random: &mut Random, shape: Shape) -> Vec<Vec<usize>> {
    let mut cells: Vec<usize> = shape.node_cells().collect();
    random.shuffle(&mut cells);
    let used = if random.below(4) == 0 { shape.nodes } else { random.between(0, shape.nodes) };
    let mut lists = vec![vec![]; shape.lists];
    for &cell in &cells[..used] {
        lists[random.below(shape.lists)].push(cell);
    }
    lists
}

/// Alters a word that lists are decided by, to a value that may well stand there.
fn alter(random: &mut Random, shape: Shape, words: &mut [u16]) {
    let cell = random.below(shape.lists + shape.nodes);
    let i = random.below(if cell < shape.lists { 4 } else { 3 });
    words[shape.cell(cell) + i] = likely(random, shape, i);
}

/// Alters the count of a list and an identifier of it.
fn miscount(random: &mut Random, shape: Shape, [count, identifier]: [usize; 2], words: &mut [u16]) {
    words[count] = likely(random, shape, 3);
    words[identifier] = likely(random, shape, 0);
}

/// Lets two sequences fit a list, by some of the free nodes. The count is the length of one of them, or any.
fn double(random: &mut Random, shape: Shape, lists: &[Vec<usize>], words: &mut [u16]) {
    let list = random.below(shape.lists);
    let free = carriers(words, 0);
    let others = &free[..random.between(0, free.len().min(3))];
    let two = TwoSequences::random(random, list, &lists[list], others);
    two.put(words);
    words[shape.cell(list) + 3] = match random.below(3) {
        2 => likely(random, shape, 3),
        way => two.sequence(way).len() as u16,
    };
}

/// Spoils what questions 1 to 4 ask about.
fn spoil(random: &mut Random, bytes: &mut Vec<u8>) {
    match random.below(4) {
        0 => bytes.truncate(random.between(0, 20)),
        1 => bytes.resize(bytes.len() + random.pick(&[1, 2, 3]), 0),
        2 => bytes[random.below(16)] = random.pick(&[0, 1, 2, 255]),
        _ => bytes.truncate(bytes.len() - random.pick(&[1, 2])),
    }
}

fn record(random: &mut Random, shape: Shape) -> Vec<u8> {
    let length = if random.below(12) == 0 { random.between(0, 27) } else { 2 * shape.width };
    (0..length).map(|_| random.word() as u8).collect()
}

/// All calls on a store, with arguments that may be out of range.
fn calls(seen: &mut Seen, random: &mut Random, shape: Shape, bytes: &[u8]) {
    let list = random.below(shape.lists + 1) as u16;
    let position = random.below(shape.nodes / shape.lists + 2) as u16;
    let lowest = if random.below(9) == 0 { 0 } else { shape.lists };
    let start = random.between(lowest, shape.lists + shape.nodes) as u16;
    let record = record(random, shape);
    seen.compare(&mut bytes.to_vec(), &Call::Check);
    seen.compare(&mut bytes.to_vec(), &Call::Length(list));
    seen.read(bytes, list, position);
    seen.allowances(bytes, |a| Call::Insert(list, position, start, record.clone(), a));
    let records = record.repeat(random.between(1, 4));
    seen.allowances(bytes, |a| Call::InsertSeveral(list, position, start, records.clone(), a));
    seen.allowances(bytes, |a| Call::Delete(list, position, a));
    seen.compare(&mut bytes.to_vec(), &Call::MarkWorn(start));
    seen.allowances(bytes, Call::Recover);
}

fn shape(random: &mut Random, turn: usize) -> Shape {
    let nodes = random.between(1, if turn % 8 == 0 { 40 } else { 7 });
    Shape::new(random.between(1, if turn % 5 == 0 { 8 } else { 3 }), nodes, random.between(1, 13))
}

/// Sound, damaged, doubled and spoilt stores of many shapes.
#[test]
fn many_stores() {
    let mut random = Random::new(3);
    let mut seen = Seen::default();
    for turn in 0..15_000 {
        let shape = shape(&mut random, turn);
        let lists = deal(&mut random, shape);
        let mut words = store_of(shape, &lists, || random.word());
        match turn % 4 {
            0 => (),
            1 => double(&mut random, shape, &lists, &mut words),
            2 => (0..random.between(1, 5)).for_each(|_| alter(&mut random, shape, &mut words)),
            _ => (0..40).for_each(|_| alter(&mut random, shape, &mut words)),
        }
        let mut bytes = bytes_of(&words);
        if turn % 9 == 0 {
            spoil(&mut random, &mut bytes);
        }
        calls(&mut seen, &mut random, shape, &bytes);
    }
    seen.all(&[
        ("check", &[0, 1, 2, 3, 4, 6]),
        ("length", &[1, 2, 3, 4, 5, 6, 65_536]),
        ("read", &[1, 2, 3, 4, 5, 6, 7, 65_536]),
        ("insert", &[1, 2, 3, 4, 5, 6, 7, 8, 9, 10, 65_536, 131_072]),
        ("insert_several", &[1, 2, 3, 4, 5, 6, 7, 8, 9, 10, 65_536, 131_072]),
        ("delete", &[1, 2, 3, 4, 5, 6, 7, 65_536, 131_072]),
        ("mark_worn", &[1, 2, 3, 4, 6, 8, 13, 65_536]),
        ("recover", &[1, 2, 3, 4, 11, 12, 65_536, 131_072]),
        ("insert_several_figures", &[1, 2, 3, 4, 5, 6, 7, 8, 9, 10, 65_536]),
        ("recover_stores", &[1, 2, 3, 4, 11, 12, 65_536]),
    ]);
}

/// Words of few values behind a right head: links that lead anywhere, rings among them.
#[test]
fn random_words() {
    let mut random = Random::new(4);
    let mut seen = Seen::default();
    for turn in 0..5_000 {
        let shape = shape(&mut random, turn);
        let mut words = store_of(shape, &vec![vec![]; shape.lists], || 0);
        for i in 0..shape.lists + shape.nodes {
            let at = shape.cell(i);
            words[at] = random.pick(&[42_400, 42_400, 42_401, 0]);
            words[at + 1] = random.below(shape.lists + shape.nodes) as u16;
            words[at + 2] = random.below(shape.lists + shape.nodes) as u16;
        }
        calls(&mut seen, &mut random, shape, &bytes_of(&words));
    }
}

/// All two sequences of up to four nodes that fit a list, of equal and of different lengths, with each count. The one whose length is the
/// count is left, if it is one alone; else recovery refuses.
#[test]
fn two_sequences() {
    let shape = Shape::new(2, 5, 1);
    let mut seen = Seen::default();
    let mut told = [0; 3];
    for two in all_two_sequences(1, &[2, 3, 4, 5]) {
        let mut words = store_of(shape, &[vec![], vec![]], || 0);
        two.put(&mut words);
        for count in 0..6 {
            words[shape.cell(1) + 3] = count;
            let mut bytes = bytes_of(&words);
            seen.allowances(&bytes, Call::Recover);
            let answer = seen.compare(&mut bytes, &Call::Recover(ENOUGH));
            let mut sequences = vec![two.sequence(0), two.sequence(1)];
            sequences.retain(|sequence| sequence.len() == usize::from(count));
            told[sequences.len()] += 1;
            if let [sequence] = &sequences[..] {
                let left = store::lists(&words_of(&bytes), shape);
                assert_eq!(left, Some(vec![vec![], sequence.clone()]), "{two:?}, count {count}");
            } else {
                assert_eq!(answer, 12, "{two:?}, count {count}");
            }
        }
    }
    assert!(told.iter().all(|&n| n > 100), "{told:?}");
}

/// All stores of few nodes and likely words, records apart: recovered, or refused.
#[test]
fn every_small_store() {
    let mut seen = Seen::default();
    for (lists, nodes) in [(1, 1), (1, 2), (2, 1)] {
        every_store(Shape::new(lists, nodes, 1), |words| {
            seen.compare(&mut bytes_of(words), &Call::Recover(ENOUGH));
        });
    }
    seen.all(&[("recover", &[11, 12, 65_536])]);
}

/// The count and an identifier altered in every list: recovery puts both back, the identifier first.
#[test]
fn count_and_identifier() {
    let mut random = Random::new(14);
    let mut seen = Seen::default();
    let mut most = 0;
    for turn in 0..4_000 {
        let shape = shape(&mut random, turn);
        let lists = deal(&mut random, shape);
        let words = store_of(shape, &lists, || random.word());
        let sound = wear(&mut random, words, 0);
        let mut words = sound.clone();
        for pairs in pairs(&sound).expect("a sound store") {
            let pair = random.pick(&pairs);
            miscount(&mut random, shape, pair, &mut words);
        }
        let mut bytes = bytes_of(&words);
        seen.allowances(&bytes, Call::Recover);
        let stores = (0..words.len()).filter(|&at| words[at] != sound[at]).count() as u32;
        assert_eq!(seen.compare(&mut bytes, &Call::Recover(ENOUGH)), 65_536 + stores);
        assert!(bytes == bytes_of(&sound), "other lists than before: {words:?}");
        most = most.max(stores);
    }
    assert_eq!(most, 16);
}

/// A cut insert or delete, an altered word in the other lists or their count and an identifier, and recovery. In some stores nodes are worn.
#[test]
fn recovery_after_cuts() {
    let mut random = Random::new(5);
    let mut seen = Seen::default();
    for turn in 0..4_000 {
        let shape = shape(&mut random, turn);
        let lists = deal(&mut random, shape);
        let words = store_of(shape, &lists, || random.word());
        let mut bytes = bytes_of(&if turn % 2 == 0 { wear(&mut random, words, 1) } else { words });
        let list = random.below(shape.lists);
        let position = random.between(0, lists[list].len()) as u16;
        let allowance = random.below(shape.width + 7) as u16;
        let start = random.pick(&shape.node_cells().collect::<Vec<_>>()) as u16;
        let call = match turn % 3 {
            0 => Call::Insert(list as u16, position, start, vec![7; 2 * shape.width], allowance),
            1 => Call::InsertSeveral(list as u16, position, start, vec![7; 6 * shape.width], 3 * allowance),
            _ => Call::Delete(list as u16, position, allowance),
        };
        let pairs = pairs(&words_of(&bytes)).expect("a sound store");
        seen.compare(&mut bytes, &call);
        let mut words = words_of(&bytes);
        for (_, pairs) in pairs.iter().enumerate().filter(|&(other, _)| other != list) {
            let [count, identifier] = random.pick(pairs);
            match random.below(5) {
                0 => words[count] = likely(&mut random, shape, 3),
                1 => miscount(&mut random, shape, [count, identifier], &mut words),
                _ => {
                    let i = random.below(3);
                    words[identifier + i] = likely(&mut random, shape, i);
                }
            }
        }
        let mut bytes = bytes_of(&words);
        seen.allowances(&bytes, Call::Recover);
        assert!(seen.compare(&mut bytes, &Call::Recover(ENOUGH)) >= 65_536, "recovery is refused");
        assert_eq!(seen.compare(&mut bytes, &Call::Check), 0);
    }
}

/// Shapes on both sides of every size of room, the largest store among them.
#[test]
fn sizes_of_room() {
    let mut random = Random::new(6);
    let mut seen = Seen::default();
    for (lists, nodes, width) in [(1, 31, 2), (1, 32, 2), (8, 24, 1), (8, 248, 1), (8, 249, 1), (8, 2000, 13)] {
        let shape = Shape::new(lists, nodes, width);
        for changes in 0..4 {
            let dealt = deal(&mut random, shape);
            let mut words = store_of(shape, &dealt, || random.word());
            (0..changes).for_each(|_| alter(&mut random, shape, &mut words));
            calls(&mut seen, &mut random, shape, &bytes_of(&words));
        }
    }
}

/// As many records as are free, from every kind of starting cell; one too many; the largest store.
#[test]
fn several_records() {
    let mut random = Random::new(8);
    let mut seen = Seen::default();
    for turn in 0..3_000 {
        let shape = shape(&mut random, turn);
        let lists = deal(&mut random, shape);
        let bytes = bytes_of(&store_of(shape, &lists, || random.word()));
        let list = random.below(shape.lists);
        let position = random.between(0, lists[list].len()) as u16;
        let start = (shape.lists + random.below(shape.nodes)) as u16;
        let free = shape.nodes - lists.concat().len();
        for number in [free, free + 1] {
            let records: Vec<u8> = (0..2 * shape.width * number).map(|_| random.word() as u8).collect();
            let allowance = if turn % 2 == 0 { ENOUGH } else { random.between(0, (shape.width + 6) * number) as u16 };
            seen.compare(&mut bytes.clone(), &Call::InsertSeveral(list as u16, position, start, records, allowance));
        }
    }
    let largest = bytes_of(&store_of(Shape::new(8, 2000, 13), &vec![vec![]; 8], || 0));
    for allowance in [20_000, ENOUGH] {
        let records = (0..52_000).map(|_| random.word() as u8).collect();
        seen.compare(&mut largest.clone(), &Call::InsertSeveral(7, 0, 1000, records, allowance));
    }
}

/// Read and delete in one list of all nodes: at its ends, in its middle, and behind its last member.
#[test]
fn positions_of_a_long_list() {
    let mut random = Random::new(9);
    let mut seen = Seen::default();
    for nodes in [1, 2, 3, 1999, 2000] {
        let shape = Shape::new(1, nodes, 13);
        let mut cells: Vec<usize> = shape.node_cells().collect();
        random.shuffle(&mut cells);
        let bytes = bytes_of(&store_of(shape, &[cells], || random.word()));
        let middle = nodes / 2;
        for position in [0, 1, middle.saturating_sub(1), middle, middle + 1, nodes - 1, nodes].map(|p| p as u16) {
            seen.read(&bytes, 0, position);
            seen.allowances(&bytes, |a| Call::Delete(0, position, a));
        }
    }
    seen.all(&[("read", &[7, 65_536]), ("delete", &[7, 65_536, 131_072])]);
}

/// Stores with worn nodes, sound, damaged and spoilt: marks on all cells and on the two numbers behind them, and all calls.
#[test]
fn worn_nodes() {
    let mut random = Random::new(11);
    let mut seen = Seen::default();
    for turn in 0..3_000 {
        let shape = shape(&mut random, turn);
        let lists = deal(&mut random, shape);
        let words = store_of(shape, &lists, || random.word());
        let mut words = wear(&mut random, words, turn % 2);
        match turn % 5 {
            0..=2 => (),
            3 => alter(&mut random, shape, &mut words),
            _ => (0..random.between(2, 40)).for_each(|_| alter(&mut random, shape, &mut words)),
        }
        let mut bytes = bytes_of(&words);
        if turn % 9 == 0 {
            spoil(&mut random, &mut bytes);
        }
        for cell in 0..=shape.lists + shape.nodes + 1 {
            seen.compare(&mut bytes.clone(), &Call::MarkWorn(cell as u16));
        }
        calls(&mut seen, &mut random, shape, &bytes);
    }
    seen.all(&[("mark_worn", &[1, 2, 3, 4, 6, 8, 13, 65_536])]);
}

/// Older stores, with remains in free nodes, sound but for these, damaged and spoilt. Each word of a record altered alone: in a free node
/// it is noticed and wiped, in members and worn nodes not.
#[test]
fn older_stores() {
    let mut random = Random::new(13);
    let mut seen = Seen::default();
    for turn in 0..1_500 {
        let shape = shape(&mut random, turn);
        let lists = deal(&mut random, shape);
        let words = store_of(shape, &lists, || random.word());
        let sound = wear(&mut random, words, 0);
        let mut words = remain(&mut random, sound.clone());
        match turn % 4 {
            0 | 1 => (),
            2 => alter(&mut random, shape, &mut words),
            _ => (0..random.between(2, 40)).for_each(|_| alter(&mut random, shape, &mut words)),
        }
        let mut bytes = bytes_of(&words);
        if turn % 9 == 0 {
            spoil(&mut random, &mut bytes);
        }
        calls(&mut seen, &mut random, shape, &bytes);
        for at in shape.node_cells().flat_map(|cell| shape.record(cell)).filter(|_| turn % 10 == 0) {
            let mut words = sound.clone();
            words[at] ^= 1 << random.below(16);
            seen.compare(&mut bytes_of(&words), &Call::Check);
            seen.allowances(&bytes_of(&words), Call::Recover);
        }
    }
    seen.all(&[("check", &[0, 1, 2, 3, 4, 6]), ("recover", &[1, 2, 3, 4, 11, 65_536, 131_072])]);
}

/// The largest store with as many stores as recovery can make: two in each list, then each node's identifier and record.
#[test]
fn most_stores() {
    let shape = Shape::new(8, 2000, 13);
    let mut words = vec![9; shape.size()];
    words[..shape.cell(8)].copy_from_slice(&store_of(shape, &vec![vec![]; 8], || 0)[..shape.cell(8)]);
    for list in 0..8 {
        words[shape.cell(list) + list % 3] = 77;
        words[shape.cell(list) + 3] = 77;
    }
    let mut seen = Seen::default();
    assert_eq!(seen.compare(&mut bytes_of(&words), &Call::Recover(ENOUGH)), 65_536 + 28_016);
    for allowance in [0, 1, 2, 15, 16, 17, 2015, 2016, 2017, 28_015, 28_016, ENOUGH] {
        let mut bytes = bytes_of(&words);
        seen.compare(&mut bytes, &Call::Recover(allowance));
        seen.compare(&mut bytes, &Call::Recover(ENOUGH));
        assert_eq!(seen.compare(&mut bytes, &Call::Check), 0);
    }
}

#[test]
fn formats() {
    let mut random = Random::new(7);
    let mut seen = Seen::default();
    for turn in 0..3_000 {
        let shape = shape(&mut random, turn);
        let mut given = [shape.lists as u16, shape.nodes as u16, shape.width as u16];
        let mut bytes: Vec<u8> = (0..2 * shape.size()).map(|_| random.word() as u8).collect();
        match random.below(4) {
            0 => given[random.below(3)] = random.pick(&[0, 9, 14, 2001, 65_535]),
            1 => bytes.truncate(bytes.len() - random.between(1, 4)),
            _ => (),
        }
        seen.compare(&mut bytes, &Call::Format(given[0], given[1], given[2]));
    }
    seen.all(&[("format", &[0, 3, 4])]);
}
