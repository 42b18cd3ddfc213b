//! Every position of a list, and some beyond its end, in lists of 0 to 9 members and in the longest: delete and the inserts, and read on
//! words.

use crate::checks::Tests;
use interface::stores::{deal_lengths, record, unworn};
use interface::{bytes_of, expected_read, words_of, Call, Call::*, DONE, ENOUGH, STOPPED};
use model::random::Random;
use model::samples::with_worn;
use model::store::Shape;
use model::walks::{delete_stores, insert_stores};

/// The first word of the record in a cell: no cell number, count or identifier.
fn told(cell: usize) -> u16 {
    10_000 + cell as u16
}

/// A sound store, and one of its lists. Each record, of worn nodes too, tells its cell.
struct Tried {
    shape: Shape,
    words: Vec<u16>,
    bytes: Vec<u8>,
    list: usize,
    members: Vec<usize>,
    free: Vec<usize>,
}

impl Tried {
    /// Lists of these lengths, of which one is tried, and so many nodes free and worn.
    fn new(random: &mut Random, lengths: &[usize], list: usize, free: usize, worn: usize, width: usize) -> Tried {
        let shape = Shape::new(lengths.len(), lengths.iter().sum::<usize>() + free + worn, width);
        let mut lists = deal_lengths(random, shape, &[lengths, &[free, worn]].concat());
        let worn = lists.pop().expect("the worn nodes");
        let free = lists.pop().expect("the free nodes");
        let mut words = with_worn(unworn(random, shape, &lists), &worn);
        lists.iter().flatten().chain(&worn).for_each(|&cell| words[shape.cell(cell) + 3] = told(cell));
        Tried { shape, bytes: bytes_of(&words), words, list, members: lists[list].clone(), free }
    }

    /// Every position, that behind the last member, one more and the largest number.
    fn positions(&self) -> impl Iterator<Item = u16> {
        (0..=self.members.len() as u16 + 1).chain([65_535])
    }

    fn delete(&self, position: u16) -> Call {
        Delete { list: self.list as u16, position }
    }

    /// An insert of a record, and of one and three by the call for several. The starting cell is any node.
    fn inserts(&self, random: &mut Random, position: u16) -> [Call; 3] {
        let (list, start) = (self.list as u16, (self.shape.lists + random.below(self.shape.nodes)) as u16);
        let mut records = |number: usize| record(random, number * self.shape.width);
        [
            Insert { list, position, start, record: records(1) },
            InsertSeveral { list, position, start, records: records(1) },
            InsertSeveral { list, position, start, records: records(3) },
        ]
    }

    /// The number with which a delete or insert is refused.
    fn refusal(&self, call: &Call) -> Option<u32> {
        let (length, records) = (self.members.len(), call.records().len() / 2 / self.shape.width);
        match *call {
            Delete { position, .. } => (usize::from(position) >= length).then_some(7),
            Insert { position, .. } | InsertSeveral { position, .. } if usize::from(position) > length => Some(7),
            _ => (records > self.free.len()).then_some(10),
        }
    }

    /// What a delete or insert answers with enough allowance and with none.
    fn answers(&self, call: &Call) -> [(u16, u32); 2] {
        let whole = DONE + u32::from(call.whole(self.shape.width));
        [(ENOUGH, whole), (0, STOPPED)].map(|(allowance, answer)| (allowance, self.refusal(call).unwrap_or(answer)))
    }

    /// The words that a delete, or an insert into the only free node, leaves with enough allowance: its stores follow from the walk.
    fn left(&self, call: &Call) -> Vec<u16> {
        let stores = match *call {
            _ if self.refusal(call).is_some() => vec![],
            Delete { position, .. } => delete_stores(&self.words, self.list, position.into()),
            Insert { position, ref record, .. } => {
                insert_stores(&self.words, self.list, position.into(), self.free[0], &words_of(record))
            }
            _ => unreachable!("neither delete nor insert"),
        };
        let mut words = self.words.clone();
        stores.into_iter().for_each(|(at, value)| words[at] = value);
        words
    }

    /// What read answers: the record of the member at the position.
    fn read(&self, position: u16) -> u32 {
        self.members.get(usize::from(position)).map_or(0, |&cell| DONE + u32::from(told(cell)))
    }
}

/// Lists with 0 to 9 members: alone, and first, in the middle and last of 3 and of 8. Full stores, and such with free and worn nodes.
fn small(random: &mut Random) -> Vec<Tried> {
    let mut all = vec![];
    for n in 0..=9 {
        for (lists, list) in [(1, 0), (3, 0), (3, 1), (3, 2), (8, 0), (8, 4), (8, 7)] {
            let lengths: Vec<usize> = (0..lists).map(|k| if k == list { n } else { (k + n) % 3 }).collect();
            // A store has a node.
            let least = usize::from(lengths == [0]);
            for width in [1, 4, 13] {
                let others = [(least, 0), (least, 2), (2, n % 3), (5, 1)];
                all.extend(others.map(|(free, worn)| Tried::new(random, &lengths, list, free, worn, width)));
            }
        }
    }
    all
}

/// A list in the largest stores of one list and of eight, with so many nodes free: beside one list all other nodes are members, beside
/// eight some are worn. The other lists are empty.
fn long(random: &mut Random, free: usize) -> [Tried; 2] {
    [(1, 0, 0), (8, 5, 10)].map(|(lists, list, worn)| {
        let lengths: Vec<usize> = (0..lists).map(|k| if k == list { 2000 - free - worn } else { 0 }).collect();
        Tried::new(random, &lengths, list, free, worn, 13)
    })
}

impl Tests {
    /// The call with enough allowance and with none.
    fn whole_and_none(&mut self, tried: &Tried, call: &Call) {
        for (allowance, expected) in tried.answers(call) {
            let (answer, _) = self.call(&tried.bytes, call, allowance);
            self.holds(answer == expected, || format!("{call:?} with {allowance}: answer {answer}, expected {expected}"));
        }
    }

    /// The call with enough allowance; at every tenth position it is held against the whole model too.
    fn by_walk(&mut self, tried: &Tried, call: &Call, position: u16) {
        let [(_, answer), _] = tried.answers(call);
        self.call_leaves(&tried.bytes, call, ENOUGH, &(answer, bytes_of(&tried.left(call))));
        if position % 10 == 0 {
            self.call(&tried.bytes, call, ENOUGH);
        }
    }
}

/// Delete and the inserts in small stores.
pub fn small_stores(t: &mut Tests) {
    for tried in small(&mut t.random) {
        for position in tried.positions() {
            t.whole_and_none(&tried, &tried.delete(position));
            for call in tried.inserts(&mut t.random, position) {
                t.whole_and_none(&tried, &call);
            }
        }
    }
}

/// Delete in lists of 2,000 members, and insert in lists of 1,999; the same in lists of ten less beside worn nodes.
pub fn longest(t: &mut Tests) {
    for tried in long(&mut t.random, 0) {
        for position in tried.positions() {
            t.by_walk(&tried, &tried.delete(position), position);
        }
    }
    for tried in long(&mut t.random, 1) {
        for position in tried.positions() {
            let [insert, ..] = tried.inserts(&mut t.random, position);
            t.by_walk(&tried, &insert, position);
        }
    }
}

/// Read on the words of small stores.
pub fn small_reads(t: &mut Tests) {
    for tried in small(&mut t.random) {
        for position in tried.positions() {
            let (list, expected) = (tried.list as u16, tried.read(position));
            t.reads(&tried.words, list, position, expected);
            let model = expected_read(&tried.words, list, position);
            t.holds(model == expected, || format!("read {list} {position}: the model's {model}; {:?}", tried.words));
        }
    }
}

/// Read on the words of lists of 2,000 members, and of ten less beside worn nodes.
pub fn longest_reads(t: &mut Tests) {
    for tried in long(&mut t.random, 0) {
        for position in tried.positions() {
            t.reads(&tried.words, tried.list as u16, position, tried.read(position));
        }
    }
}
