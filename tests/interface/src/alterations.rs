//! Altered words. In a sound store one, two or three altered to other values are noticed, among each header's four, the
//! identifiers of all nodes and the links of the members; one is put back by recovery. Four can make another sound store. All
//! other words are free, but for the records of free nodes, which are 0.
//!
//! Changes to and from 65,535 on a node in no list are excepted. From 0 to 65,535 is not noticed, nor is the way back if the node has zero
//! record words; nothing is stored, and it hides no other alteration. From 65,535 to another value is noticed, and recovery stores 0 to it
//! and to the record.

use crate::checks::Tests;
use interface::stores::{alteration, edit, sound};
use interface::{bytes_of, words_of, Call::*, ENOUGH};
use model::alterations::{adversarial, mended, noticeable, noticed};
use model::random::Random;
use model::samples::{all_lists_and_worn, carriers, deal, with_worn};
use model::store::{all_lists, check, open, store_of, Shape, WordStore, IDENTIFIER};
use std::collections::{BTreeMap, BTreeSet};

/// A store that is altered in place: its words for the model, its bytes for the archive.
struct Store {
    words: Vec<u16>,
    bytes: Vec<u8>,
}

impl Store {
    fn new(words: &[u16]) -> Store {
        Store { words: words.to_vec(), bytes: bytes_of(words) }
    }

    fn put(&mut self, at: usize, value: u16) {
        self.words[at] = value;
        self.bytes[2 * at..2 * at + 2].copy_from_slice(&value.to_le_bytes());
    }

    /// Puts these words. Gives what was there.
    fn exchange(&mut self, words: &[WordStore]) -> Vec<WordStore> {
        let old = words.iter().map(|&(at, _)| (at, self.words[at])).collect();
        words.iter().for_each(|&(at, value)| self.put(at, value));
        old
    }
}

/// A word, and the values that it is altered to.
type Choice = (usize, Vec<u16>);

/// For each of these words every adversarial value, the identifier behind the last, one less and one more; never its own.
fn choices(words: &[u16], places: &[usize]) -> Vec<Choice> {
    let shape = open(words).expect("a store");
    let values = |right: u16| {
        let mut values: BTreeSet<u16> = adversarial(shape).into_iter().collect();
        values.extend([IDENTIFIER + shape.lists as u16, right.wrapping_sub(1), right.wrapping_add(1)]);
        values.remove(&right);
        values.into_iter().collect()
    };
    places.iter().map(|&at| (at, values(words[at]))).collect()
}

/// So many of these words with other values: such as may well stand there, or stand elsewhere.
fn alterations(random: &mut Random, words: &[u16], places: &[usize], number: usize) -> Vec<WordStore> {
    let shape = open(words).expect("a store");
    let mut chosen = BTreeMap::new();
    while chosen.len() < number {
        let cells = random.pick(&[shape.lists, shape.lists + shape.nodes]);
        let cell = random.below(cells);
        let (at, value) = alteration(random, shape, words, cell);
        let value = if random.below(3) == 0 { words[random.pick(places)] } else { value };
        if places.binary_search(&at).is_ok() && value != words[at] {
            chosen.insert(at, value);
        }
    }
    chosen.into_iter().collect()
}

/// The words where altered ones are noticed.
fn places(words: &[u16]) -> Vec<usize> {
    noticeable(words).expect("a sound store")
}

/// The words behind the first eight that may hold anything: the other ones, but for the records of free nodes.
fn free(words: &[u16]) -> Vec<usize> {
    let shape = open(words).expect("a store");
    let mut fixed = places(words);
    fixed.extend(carriers(words, 0).into_iter().flat_map(|cell| shape.record(cell)));
    (8..words.len()).filter(|at| !fixed.contains(at)).collect()
}

/// All sound stores of one and two lists over one and two nodes, each node in no list free or worn. The links of such nodes are those of
/// another such store, where they may be members, or 65,535. A member's record is 7.
fn small_stores() -> BTreeSet<Vec<u16>> {
    let mut all = BTreeSet::new();
    for (lists, nodes) in [(1, 1), (1, 2), (2, 1), (2, 2)] {
        let shape = Shape::new(lists, nodes, 1);
        let dealt = all_lists(lists, &shape.node_cells().collect::<Vec<_>>());
        let mut others: Vec<Vec<u16>> = dealt.iter().map(|lists| store_of(shape, lists, || 0)).collect();
        others.push(vec![65_535; shape.size()]);
        for (lists, worn) in all_lists_and_worn(shape) {
            for other in &others {
                let mut nodes = other[shape.cell(shape.lists)..].iter();
                let mut words = store_of(shape, &lists, || *nodes.next().expect("a word"));
                lists.iter().flatten().for_each(|&cell| words[shape.cell(cell) + 3] = 7);
                all.insert(with_worn(words, &worn));
            }
        }
    }
    all
}

impl Tests {
    /// Check answers so, and the model too. By one turn in 29 it is asked what a recovery needs.
    fn answered(&mut self, store: &mut Store, number: u16) {
        let (answer, model) = (Check.make(&mut store.bytes, &[], 0), check(&store.words));
        self.holds((answer, model) == (number.into(), number), || {
            format!("check: answer {answer}, the model's {model}, expected {number}; {:?}", store.words)
        });
        if self.passed % 29 == 0 {
            self.foretold(&store.bytes, &Recover);
        }
    }

    /// Check answers so with these words altered, and the model too. They are put back.
    fn answered_with(&mut self, store: &mut Store, altered: &[WordStore], number: u16) {
        let right = store.exchange(altered);
        self.answered(store, number);
        store.exchange(&right);
    }

    /// Up to so many of the words altered in every way, beside those that are, are noticed if one of them is. They are put back.
    fn all_noticed(&mut self, store: &mut Store, sound: &[u16], choices: &[Choice], most: usize, before: bool) {
        for (i, (at, values)) in choices.iter().enumerate() {
            for &value in values {
                store.put(*at, value);
                let seen = before || noticed(sound, &[(*at, value)]);
                self.answered(store, if seen { 6 } else { 0 });
                if most > 1 {
                    self.all_noticed(store, sound, &choices[i + 1..], most - 1, seen);
                }
            }
            store.put(*at, sound[*at]);
        }
    }

    /// One altered word is put back, or becomes what it must, by one store, and with no allowance it is left as it is. If it may stay
    /// nothing is stored; if it was the mark of a worn node, its record is wiped too.
    fn put_back(&mut self, sound: &[u16], altered: WordStore) {
        let mut store = Store::new(sound);
        store.exchange(&[altered]);
        let left = mended(sound, altered);
        let differing = (0..left.len()).filter(|&at| left[at] != store.words[at]);
        let stores: Vec<WordStore> = differing.map(|at| (at, left[at])).collect();
        self.recovers(&store.words, &stores);
    }

    /// Two sound stores that differ in four words, each made of the other: noticed with some of the four, not with all.
    fn four_apart(&mut self, one: &[u16], other: &[u16]) {
        for (from, to) in [(one, other), (other, one)] {
            let differing = places(from).into_iter().filter(|&at| from[at] != to[at]);
            let all: Vec<WordStore> = differing.map(|at| (at, to[at])).collect();
            let mut store = Store::new(from);
            for chosen in 0..1 << all.len() {
                let altered: Vec<WordStore> = (0..all.len()).filter(|i| chosen >> i & 1 == 1).map(|i| all[i]).collect();
                self.answered_with(&mut store, &altered, if [0, 4].contains(&altered.len()) { 0 } else { 6 });
                if altered.len() == 1 {
                    self.put_back(from, altered[0]);
                }
            }
            store.exchange(&all);
            self.holds(all.len() == 4 && store.words == to, || format!("four words apart: {all:?} on {from:?}"));
        }
    }
}

/// All small sound stores: one, two and three words altered in every way are noticed, by the model too.
pub fn up_to_three(t: &mut Tests) {
    for words in small_stores() {
        let mut store = Store::new(&words);
        t.all_noticed(&mut store, &words, &choices(&words, &places(&words)), 3, false);
        t.answered(&mut store, 0);
    }
}

/// The same stores: one word altered in every way is put back.
pub fn put_back(t: &mut Tests) {
    for words in small_stores() {
        for (at, values) in choices(&words, &places(&words)) {
            values.into_iter().for_each(|value| t.put_back(&words, (at, value)));
        }
    }
}

/// Some of the words altered at random, in stores up to the largest.
pub fn larger_stores(t: &mut Tests) {
    let mut stores: Vec<(Vec<u16>, usize)> = vec![];
    for _ in 0..400 {
        let shape = t.shape(60);
        stores.push((t.sound_store(shape).1, 60));
    }
    for (lists, nodes, width, used) in [
        (8, 300, 2, 290),
        (1, 700, 13, 256),
        (5, 1000, 1, 500),
        (8, 2000, 1, 1990),
        (8, 2000, 13, 1000),
        (1, 2000, 13, 2000),
    ] {
        let shape = Shape::new(lists, nodes, width);
        let dealt = deal(&mut t.random, shape, used);
        stores.push((sound(&mut t.random, shape, &dealt), 2000));
    }
    for (words, turns) in stores {
        let (places, mut store) = (places(&words), Store::new(&words));
        for _ in 0..turns {
            let number = t.random.pick(&[1, 2, 2, 3, 3, 3, 3, 3, 3, 3]);
            let altered = alterations(&mut t.random, &words, &places, number);
            t.answered_with(&mut store, &altered, if noticed(&words, &altered) { 6 } else { 0 });
            if number == 1 {
                t.put_back(&words, altered[0]);
            }
        }
        t.answered(&mut store, 0);
    }
}

/// Four altered words that are not noticed: a member with zero record words leaves its list or comes back, or it and a node in no list with
/// the same links change places. That node is free or worn, and so is the member then.
pub fn four_words(t: &mut Tests) {
    let smallest = Shape::new(1, 1, 1);
    t.four_apart(&store_of(smallest, &[vec![]], || 0), &store_of(smallest, &[vec![1]], || 0));
    for turn in 0..300 {
        let shape = if turn % 60 == 0 { Shape::new(8, 1999, 13) } else { t.shape(40) };
        let shape = Shape { nodes: shape.nodes + 1, ..shape };
        let used = t.random.between(1, shape.nodes - 1);
        let lists = deal(&mut t.random, shape, used);
        let mut words = sound(&mut t.random, shape, &lists);
        lists.iter().flatten().for_each(|&cell| words[shape.record(cell)].fill(0));
        let deleted = edit(&mut t.random, &words, &lists, 1).expected(&bytes_of(&words), ENOUGH).1;
        t.four_apart(&words, &words_of(&deleted));
        let members = lists.concat();
        let node = shape.node_cells().find(|cell| !members.contains(cell)).expect("a node in no list");
        let (x, y) = (shape.cell(t.random.pick(&members)), shape.cell(node));
        words.copy_within(x + 1..x + 3, y + 1);
        let mut other = words.clone();
        other.swap(x, y);
        other[shape.cell(words[x + 1].into()) + 2] = node as u16;
        other[shape.cell(words[x + 2].into()) + 1] = node as u16;
        t.four_apart(&words, &other);
    }
}

/// The links of nodes in no list, the records of members and worn nodes: altered one by one in small stores, all at once in larger ones.
pub fn free_words(t: &mut Tests) {
    for words in small_stores() {
        let mut store = Store::new(&words);
        for (at, values) in choices(&words, &free(&words)) {
            values.into_iter().for_each(|value| t.answered_with(&mut store, &[(at, value)], 0));
        }
    }
    for _ in 0..400 {
        let shape = t.shape(60);
        let (_, words) = t.sound_store(shape);
        let altered: Vec<WordStore> = free(&words).into_iter().map(|at| (at, t.random.word())).collect();
        t.answered_with(&mut Store::new(&words), &altered, 0);
    }
}
