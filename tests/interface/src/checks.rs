//! Calls held against the model, counted.

use interface::memory::Block;
use interface::stores::{record, unworn};
use interface::{read, words_of, Call, Call::*, DONE, ENOUGH, STOPPED};
use model::random::Random;
use model::samples::{deal, wear};
use model::store::{open, Shape};
use std::collections::{BTreeMap, BTreeSet};

/// At most so many failures are told.
const TOLD: usize = 20;

/// Longer than the largest store.
pub const MOST_BYTES: usize = 64_200;

/// What was told of a call on a store.
struct Told {
    bytes: Vec<u8>,
    call: Call,
    figures: Vec<u32>,
}

impl Told {
    fn nothing() -> Told {
        Told { bytes: vec![], call: Check, figures: vec![] }
    }

    fn is_of(&self, bytes: &[u8], call: &Call) -> bool {
        self.bytes == bytes && self.call == *call
    }
}

/// The cell that holds the record at the position, by the forward links.
fn cell_at(words: &[u16], list: u16, position: usize) -> u16 {
    let shape = open(words).expect("a store");
    (0..=position).fold(list, |cell, _| words[shape.cell(cell.into()) + 1])
}

/// The figures of a call that answered so and left these bytes: the number of its refusal, or where its records are and its stores.
fn figures_of(call: &Call, answer: u32, left: &[u8]) -> Vec<u32> {
    match *call {
        InsertSeveral { list, position, ref records, .. } if answer >= DONE => {
            let words = words_of(left);
            let (first, number) = (usize::from(position), records.len() / 2 / usize::from(words[6]));
            let cell = |position| DONE + u32::from(cell_at(&words, list, position));
            vec![cell(first), cell(first + number - 1), answer]
        }
        _ => vec![answer; call.figures().len()],
    }
}

/// An insert of some records, by the numbers at the front of the bytes.
fn some_insert(bytes: &[u8], turn: usize) -> Call {
    let number =
        |at: usize, most: u16| bytes.get(at..at + 2).map_or(1, |word| u16::from_le_bytes([word[0], word[1]]).clamp(1, most));
    let [lists, nodes, width] = [(8, 8), (10, 2000), (12, 13)].map(|(at, most)| usize::from(number(at, most)));
    let (list, start) = ((turn % lists) as u16, (lists + turn % nodes) as u16);
    InsertSeveral { list, position: 0, start, records: vec![7; (1 + turn % 3) * 2 * width] }
}

pub struct Tests {
    pub random: Random,
    store: Block,
    record: Block,
    turn: usize,
    asks: usize,
    /// What was told last of an insert of several records, and of a recovery.
    told: [Told; 2],
    pub passed: usize,
    pub failed: usize,
    pub courses: usize,
    /// The answers of each call.
    pub seen: BTreeMap<&'static str, BTreeSet<u32>>,
}

impl Tests {
    pub fn new(seed: u64) -> Tests {
        Tests {
            random: Random::new(seed),
            store: Block::new(MOST_BYTES),
            record: Block::new(MOST_BYTES),
            turn: 0,
            asks: 0,
            told: [Told::nothing(), Told::nothing()],
            passed: 0,
            failed: 0,
            courses: 0,
            seen: BTreeMap::new(),
        }
    }

    pub fn holds(&mut self, right: bool, text: impl FnOnce() -> String) {
        if right {
            self.passed += 1;
            return;
        }
        self.failed += 1;
        if self.failed <= TOLD {
            println!("FAILED: {}", text());
        }
    }

    /// Makes the call on these bytes and holds it against the model. Gives its answer and the bytes that it left.
    pub fn call(&mut self, bytes: &[u8], call: &Call, allowance: u16) -> (u32, Vec<u8>) {
        self.call_leaves(bytes, call, allowance, &call.expected(bytes, allowance))
    }

    /// Makes the call on these bytes and holds it against what it must answer and leave, and what is told of it and of a recovery beforehand.
    /// Gives what it did.
    pub fn call_leaves(&mut self, bytes: &[u8], call: &Call, allowance: u16, expected: &(u32, Vec<u8>)) -> (u32, Vec<u8>) {
        if let Some(several) = call.as_several() {
            self.foretold(bytes, &several);
        }
        let needed = self.foretold(bytes, &Recover)[0];
        let record = call.records();
        self.turn += 1;
        self.store.put(bytes, self.turn);
        self.record.put(record, self.turn / 3);
        let answer = call.make(self.store.lent(), self.record.lent(), allowance);
        let left = self.store.lent().to_vec();
        let intact = self.store.intact() && self.record.intact() && self.record.lent() == record;
        self.seen.entry(call.name()).or_default().insert(answer);
        self.holds((answer, &left) == (expected.0, &expected.1) && intact, || {
            let what = if intact { "the bytes left" } else { "canaries or record" };
            format!("{call:?} with {allowance}: answer {answer}, expected {}, or {what}; {bytes:?}", expected.0)
        });
        if *call == Recover {
            self.remains(needed, answer, &left);
        }
        (answer, left)
    }

    /// What is told of an insert of several records on these bytes, or of a recovery: it is what the model tells, and what the call does on a
    /// copy with enough allowance. Where a recovery is told of, so is an insert.
    pub fn foretold(&mut self, bytes: &[u8], call: &Call) -> Vec<u32> {
        let kind = usize::from(*call == Recover);
        if self.told[kind].is_of(bytes, call) {
            return self.told[kind].figures.clone();
        }
        if *call == Recover {
            self.told_and_done(bytes, &some_insert(bytes, self.asks));
        }
        let (figures, model) = (self.told_and_done(bytes, call), call.expected_figures(bytes));
        self.holds(figures == model, || format!("of {call:?} is told {figures:?}, by the model {model:?}; {bytes:?}"));
        self.told[kind] = Told { bytes: bytes.to_vec(), call: call.clone(), figures: figures.clone() };
        figures
    }

    /// What is told of it is what it does on a copy with enough allowance.
    fn told_and_done(&mut self, bytes: &[u8], call: &Call) -> Vec<u32> {
        let figures = self.asked(bytes, call);
        let answer = call.make(self.store.lent(), self.record.lent(), ENOUGH);
        let done = figures_of(call, answer, self.store.lent());
        self.holds(figures == done, || format!("of {call:?} is told {figures:?}, and done is {done:?}; {bytes:?}"));
        figures
    }

    /// What is told of it. The bytes and the records are put where nobody may write.
    pub fn asked(&mut self, bytes: &[u8], call: &Call) -> Vec<u32> {
        self.asks += 1;
        self.store.put(bytes, self.asks);
        self.record.put(call.records(), self.asks / 3);
        let (store, record) = (self.store.sealed(), self.record.sealed());
        let figures: Vec<u32> = call.figures().iter().map(|figure| figure.ask(call, store, record)).collect();
        for (figure, &told) in call.figures().iter().zip(&figures) {
            self.seen.entry(figure.name()).or_default().insert(told);
        }
        figures
    }

    /// A recovery that was cut has the other stores left of so many, one that is done none; one that is refused is refused again.
    fn remains(&mut self, needed: u32, answer: u32, left: &[u8]) {
        let expected = match answer {
            STOPPED.. => needed.wrapping_sub(answer - STOPPED),
            DONE.. => DONE,
            number => number,
        };
        let told = self.asked(left, &Recover);
        self.holds(told == [expected], || {
            format!("a recovery of {needed}, answered {answer}, leaves {expected}, told {told:?}; {left:?}")
        });
    }

    /// Reads on these words: the answer is this one, and the words and the bytes round them are as they were.
    pub fn reads(&mut self, words: &[u16], list: u16, position: u16, expected: u32) {
        self.turn += 1;
        self.store.put_words(words, self.turn);
        let answer = read(self.store.lent_words(), list, position);
        let intact = self.store.lent_words() == words && self.store.intact();
        self.holds(answer == expected && intact, || {
            format!("read {list} {position}: answer {answer}, expected {expected}, or words or canaries; {words:?}")
        });
    }

    /// At every allowance up to one above the number of stores, and with enough. Gives the bytes left then.
    pub fn at_each_allowance(&mut self, bytes: &[u8], call: &Call) -> Vec<u8> {
        let (answer, left) = self.call(bytes, call, ENOUGH);
        let stores = matches!(call, Insert { .. } | InsertSeveral { .. } | Delete { .. } | Recover);
        let whole = if stores && answer >= DONE { answer as u16 } else { 0 };
        for allowance in 0..=if stores { whole + 1 } else { 0 } {
            self.call(bytes, call, allowance);
        }
        left
    }

    /// Check, length, the inserts, delete and recover at every allowance: for each list and one beyond, at random and wrong places. Marks
    /// of random cells and of those just outside the nodes.
    pub fn all_calls(&mut self, bytes: &[u8], shape: Shape) {
        self.call(bytes, &Check, 0);
        self.at_each_allowance(bytes, &Recover);
        let (first, end) = (shape.lists, shape.lists + shape.nodes);
        for cell in [first + self.random.below(shape.nodes), first + self.random.below(shape.nodes), first - 1, end] {
            self.call(bytes, &MarkWorn { cell: cell as u16 }, 0);
        }
        for list in 0..=shape.lists as u16 {
            self.call(bytes, &Length { list }, 0);
            let length = self.random.between(0, shape.nodes / shape.lists + 1) as u16;
            for position in [0, length, length + 1] {
                self.at_each_allowance(bytes, &Delete { list, position });
            }
            let starts = [shape.lists - 1, shape.lists + shape.nodes, shape.lists + self.random.below(shape.nodes)];
            let start = if self.random.below(8) == 0 { self.random.pick(&starts) } else { starts[2] } as u16;
            let record = self.records(shape, 1);
            self.at_each_allowance(bytes, &Insert { list, position: length, start, record });
            let number = self.random.between(1, 3);
            let records = self.records(shape, number);
            self.at_each_allowance(bytes, &InsertSeveral { list, position: length, start, records });
        }
    }

    /// The bytes of so many records; a few have another width, or lack a byte.
    fn records(&mut self, shape: Shape, number: usize) -> Vec<u8> {
        let width = if self.random.below(8) == 0 { self.random.between(0, 14) } else { shape.width };
        let mut records = record(&mut self.random, width * number);
        records.truncate(records.len() - usize::from(self.random.below(16) == 0 && width > 0));
        records
    }

    pub fn shape(&mut self, nodes: usize) -> Shape {
        let lists = if self.random.below(4) == 0 { 8 } else { 3 };
        let width = if self.random.below(4) == 0 { 13 } else { 3 };
        Shape::new(self.random.between(1, lists), self.random.between(1, nodes), self.random.between(1, width))
    }

    /// A sound store. Of the nodes in no list some are worn, or all.
    pub fn sound_store(&mut self, shape: Shape) -> (Vec<Vec<usize>>, Vec<u16>) {
        let used = self.random.between(0, shape.nodes);
        let lists = deal(&mut self.random, shape, used);
        let words = unworn(&mut self.random, shape, &lists);
        let words = wear(&mut self.random, words, 0);
        (lists, words)
    }
}
