//! Wiped records. Older stores, which have remains of records in their free nodes, are refused until they are recovered. The memory of a
//! deleted record, and of one whose insert was cut, is searched for its words. Records of members and of worn nodes stay.

use crate::checks::Tests;
use crate::courses::{every_alteration, named};
use crate::worn::{lists_of, wipes, with_words};
use interface::stores::{edit, record, unworn};
use interface::{bytes_of, expected_read, words_of, Call, Call::*, DONE, ENOUGH, STOPPED};
use model::former::{self, wiped};
use model::recovery::Course;
use model::samples::{carriers, deal, older_stores, remain, wear};
use model::store::{open, ordered, store_of, Shape, WordStore, IDENTIFIER, WORN};

/// The wipes that recovery of an older store makes: all its stores.
fn all_wipes(older: &[u16]) -> Vec<WordStore> {
    carriers(older, 0).into_iter().flat_map(|cell| wipes(older, cell)).collect()
}

/// The words after an insert of one record, or a delete, of a version that did not wipe.
fn formerly(call: &Call, words: &[u16], allowance: u16) -> Vec<u16> {
    let mut left = words.to_vec();
    match *call {
        Insert { list, position, start, ref record } => {
            former::insert(&mut left, list, position, start, &words_of(record), allowance)
        }
        Delete { list, position } => former::delete(&mut left, list, position, allowance),
        _ => unreachable!("one record inserted or deleted"),
    };
    left
}

/// The stores of such a call.
fn former_stores(call: &Call, width: usize) -> u16 {
    match call {
        Delete { .. } => 4,
        _ => width as u16 + 6,
    }
}

/// Such calls at every position of a list with so many members.
fn former_calls(list: u16, members: usize) -> Vec<Call> {
    let of = |position| [Insert { list, position, start: 2, record: vec![1, 2] }, Delete { list, position }];
    (0..=members as u16).flat_map(of).collect()
}

impl Tests {
    /// A former call on an older store, cut; then these alterations, recoveries with these allowances, and a whole one.
    fn former_course(&mut self, older: &[u16], call: &Call, allowance: u16, altered: &[WordStore], recoveries: &[u16]) {
        let width = open(older).expect("a store").width;
        let new = formerly(call, older, call.due(width, allowance));
        let found = with_words(&formerly(call, older, allowance), altered);
        let course = Course::new(older, named(call), &new, &found);
        self.ends(course, &found, recoveries, || format!("former {call:?} with {allowance}, {altered:?} on {older:?}"));
    }

    /// A store of the shape with remains in free nodes, of which there is one, and its lists. Some nodes are worn.
    fn older_store(&mut self, shape: Shape) -> (Vec<Vec<usize>>, Vec<u16>) {
        let used = self.random.below(shape.nodes);
        let lists = deal(&mut self.random, shape, used);
        let words = unworn(&mut self.random, shape, &lists);
        let words = wear(&mut self.random, words, 1);
        (lists, remain(&mut self.random, words))
    }

    /// Every call but recover is refused with 6.
    fn all_refused(&mut self, older: &[u16]) {
        let shape = open(older).expect("a store");
        let start = (shape.lists + self.random.below(shape.nodes)) as u16;
        let one = record(&mut self.random, shape.width);
        for list in 0..shape.lists as u16 {
            self.stores(older, &Length { list }, 0, 6, &[]);
            self.reads(older, list, 0, 0);
            self.refused(older, &Insert { list, position: 0, start, record: one.clone() }, 6);
            self.refused(older, &InsertSeveral { list, position: 0, start, records: one.clone() }, 6);
            self.refused(older, &Delete { list, position: 0 }, 6);
        }
        self.stores(older, &Check, 0, 6, &[]);
        for cell in [0, start, shape.node_cells().end as u16] {
            self.stores(older, &MarkWorn { cell }, 0, 6, &[]);
        }
    }

    /// Every call but recover is refused. Recovery makes the wipes alone. Then each call works.
    fn older(&mut self, older: &[u16]) {
        self.all_refused(older);
        self.recovers(older, &all_wipes(older));
        let (sound, shape) = (wiped(older), open(older).expect("a store"));
        self.stores(&sound, &Check, 0, 0, &[]);
        self.all_calls(&bytes_of(&sound), shape);
    }

    /// Each word of each record made not 0: noticed and wiped in a free node. In members and worn nodes nothing is noticed or stored.
    fn each_word(&mut self, sound: &[u16]) {
        let shape = open(sound).expect("a store");
        for cell in shape.node_cells() {
            for at in shape.record(cell) {
                let words = with_words(sound, &[(at, 1 << self.random.below(16))]);
                let free = sound[shape.cell(cell)] == 0;
                self.stores(&words, &Check, 0, if free { 6 } else { 0 }, &[]);
                self.reads(&words, 0, 0, expected_read(&words, 0, 0));
                self.recovers(&words, &[(at, 0)][..usize::from(free)]);
            }
        }
    }

    /// Worn nodes are as they were, and so are the records of these members.
    fn keeps(&mut self, before: &[u16], left: &[u16], members: &[usize]) {
        let shape = open(before).expect("a store");
        let worn = carriers(before, WORN).into_iter().map(|cell| shape.node(cell));
        let kept = worn.chain(members.iter().map(|&cell| shape.record(cell)));
        let kept = kept.into_iter().all(|words| left[words.clone()] == before[words]);
        self.holds(kept, || format!("what is kept of {before:?}: {left:?}"));
    }

    /// No word of the record is in the store outside the worn nodes.
    fn nowhere(&mut self, left: &[u16], record: &[u16]) {
        let shape = open(left).expect("a store");
        let worn: Vec<usize> = carriers(left, WORN).into_iter().flat_map(|cell| shape.node(cell)).collect();
        let found = (0..left.len()).find(|at| record.contains(&left[*at]) && !worn.contains(at));
        self.holds(found.is_none(), || format!("word {found:?} of {record:?} remains: {left:?}"));
    }

    /// The delete, cut after each of its stores; then a recovery cut everywhere, and a whole one. The record is there before the central
    /// store, and nowhere after.
    fn deleted(&mut self, sound: &[u16], list: usize, position: usize) {
        let (shape, lists) = (open(sound).expect("a store"), lists_of(sound));
        let (cell, call) = (lists[list][position], Delete { list: list as u16, position: position as u16 });
        let record = sound[shape.record(cell)].to_vec();
        let others: Vec<usize> = lists.concat().into_iter().filter(|&other| other != cell).collect();
        let (answer, left) = self.call(&bytes_of(sound), &call, ENOUGH);
        self.holds(answer == DONE + 4 + shape.width as u32, || format!("{call:?}: answer {answer}"));
        self.nowhere(&words_of(&left), &record);
        for allowance in 0..=shape.width as u16 + 4 {
            let (_, cut) = self.call(&bytes_of(sound), &call, allowance);
            self.keeps(sound, &words_of(&cut), &others);
            for first in 0..=shape.width as u16 + 2 {
                let (_, left) = self.call(&cut, &Recover, first);
                self.keeps(sound, &words_of(&left), &others);
                let (_, left) = self.call(&left, &Recover, ENOUGH);
                let left = words_of(&left);
                self.keeps(sound, &left, &others);
                if allowance < 2 {
                    self.holds(left == sound, || format!("{call:?} cut after {allowance}: {left:?}"));
                } else {
                    self.nowhere(&left, &record);
                }
            }
        }
    }

    /// An insert, cut after each of its stores; then a recovery cut everywhere, and a whole one. The record is nowhere before the central
    /// store.
    fn inserted(&mut self, sound: &[u16], list: usize, position: usize) {
        let (shape, members) = (open(sound).expect("a store"), lists_of(sound).concat());
        let (start, stores) = (shape.lists as u16, shape.width as u16 + 6);
        let record: Vec<u16> = (0..shape.width as u16).map(|i| 30_000 + i).collect();
        let call = Insert { list: list as u16, position: position as u16, start, record: bytes_of(&record) };
        for allowance in 0..=stores {
            let (_, cut) = self.call(&bytes_of(sound), &call, allowance);
            for first in 0..=stores {
                let (_, left) = self.call(&cut, &Recover, first);
                let (_, left) = self.call(&left, &Recover, ENOUGH);
                let left = words_of(&left);
                self.keeps(sound, &left, &members);
                if allowance < stores - 1 {
                    self.nowhere(&left, &record);
                }
            }
        }
    }
}

/// All older stores of some small shapes.
pub fn small_stores(t: &mut Tests) {
    for (lists, nodes, width) in [(1, 1, 1), (1, 2, 2), (2, 2, 1), (1, 3, 1)] {
        for (_, older) in older_stores(Shape::new(lists, nodes, width)) {
            t.older(&older);
        }
    }
}

/// Random older stores, of every width.
pub fn refused_until_recovered(t: &mut Tests) {
    for turn in 0..60 {
        let shape = if turn < 13 { Shape::new(2, 5, turn + 1) } else { t.shape(if turn % 3 == 0 { 20 } else { 6 }) };
        let (_, older) = t.older_store(shape);
        t.older(&older);
    }
}

/// Records of every width, in members, free nodes and a worn one; then random stores.
pub fn single_words(t: &mut Tests) {
    for width in 1..=13 {
        let shape = Shape::new(2, 6, width);
        let sound = store_of(shape, &[vec![2, 4], vec![5]], || t.random.word());
        t.each_word(&with_words(&sound, &[(shape.cell(7), WORN)]));
    }
    for turn in 0..150 {
        let shape = t.shape(if turn % 5 == 0 { 30 } else { 6 });
        let (_, sound) = t.sound_store(shape);
        t.each_word(&sound);
    }
}

/// Stores whose members' records have words that stand nowhere else: each member deleted, and a record inserted into each list.
pub fn nothing_remains(t: &mut Tests) {
    for turn in 0..60 {
        let shape = if turn < 13 { Shape::new(2, 4, turn + 1) } else { t.shape(5) };
        let used = t.random.between(1, shape.nodes);
        let lists = deal(&mut t.random, shape, used);
        let mut sound = wear(&mut t.random, store_of(shape, &lists, || 0), 0);
        for (i, at) in lists.concat().into_iter().flat_map(|cell| shape.record(cell)).enumerate() {
            sound[at] = 20_000 + i as u16;
        }
        for (list, sequence) in lists.iter().enumerate() {
            (0..sequence.len()).for_each(|position| t.deleted(&sound, list, position));
            let position = t.random.between(0, sequence.len());
            t.inserted(&sound, list, position);
        }
    }
}

/// Recoveries of older stores, cut everywhere, with an orphan and a fault: members and worn nodes keep their records.
pub fn kept(t: &mut Tests) {
    for turn in 0..200 {
        let shape = t.shape(if turn % 4 == 0 { 12 } else { 5 });
        let (lists, older) = t.older_store(shape);
        let orphan = shape.cell(carriers(&older, 0)[0]);
        let fault = shape.cell(t.random.below(shape.lists)) + 3;
        let found = with_words(&older, &[(orphan, IDENTIFIER), (fault, 77)]);
        let whole = (2 + all_wipes(&older).len()) as u16;
        for allowance in 0..=whole {
            let (answer, left) = t.call(&bytes_of(&found), &Recover, allowance);
            let expected = if allowance < whole { STOPPED } else { DONE } + u32::from(allowance);
            t.holds(answer == expected, || format!("recover with {allowance}: answer {answer} on {found:?}"));
            t.keeps(&older, &words_of(&left), &lists.concat());
        }
    }
}

/// All older stores of two lists over two nodes: every former call, every cut of it, every word of the other list altered, and its count with
/// each identifier, every cut of a recovery.
pub fn every_course(t: &mut Tests) {
    let shape = Shape::new(2, 2, 1);
    for (lists, older) in older_stores(shape) {
        for (list, members) in lists.iter().enumerate() {
            let alterations = every_alteration(&older, 1 - list);
            for call in former_calls(list as u16, members.len()) {
                for allowance in 0..=former_stores(&call, 1) {
                    for altered in &alterations {
                        (0..6).for_each(|first| t.former_course(&older, &call, allowance, altered, &[first]));
                    }
                }
            }
        }
    }
}

/// Courses that begin with a former call on an older store, up to the largest.
pub fn courses(t: &mut Tests) {
    let mut shapes: Vec<Shape> = (0..250).map(|turn| t.shape(if turn % 2 == 0 { 4 } else { 12 })).collect();
    shapes.extend([Shape::new(8, 300, 2), Shape::new(5, 1000, 1), Shape::new(8, 2000, 13)]);
    for shape in shapes {
        let (lists, older) = t.older_store(shape);
        for turn in 0..4 {
            let call = edit(&mut t.random, &older, &lists, turn % 2);
            let whole = former_stores(&call, shape.width);
            let some = vec![turn as u16, whole - 1, whole];
            for allowance in if shape.nodes < 100 { (0..=whole).collect() } else { some } {
                let (altered, recoveries) = (t.altered(&older, &lists, named(&call)), t.cuts());
                t.former_course(&older, &call, allowance, &altered, &recoveries);
            }
        }
    }
}

/// The largest store with as many stores as recovery can make; and half full beside worn nodes, every free node wiped.
pub fn most_stores(t: &mut Tests) {
    let shape = Shape::new(8, 2000, 13);
    let mut words = vec![9; shape.size()];
    words[..shape.cell(8)].copy_from_slice(&store_of(shape, &vec![vec![]; 8], || 0)[..shape.cell(8)]);
    (0..8).for_each(|list| words[shape.cell(list) + list % 3] = 77);
    (0..8).for_each(|list| words[shape.cell(list) + 3] = 77);
    let most = (2 * 8 + 2000 + 13 * 2000) as u16;
    for (allowance, answer) in [(ENOUGH, DONE), (most, DONE), (most - 1, STOPPED), (2016, STOPPED), (2017, STOPPED)] {
        let (found, left) = t.call(&bytes_of(&words), &Recover, allowance);
        let stores = u32::from(allowance.min(most));
        t.holds(found == answer + stores, || format!("recover with {allowance}: answer {found}"));
        t.call(&left, &Recover, ENOUGH);
    }
    let dealt = deal(&mut t.random, shape, 1000);
    let words = unworn(&mut t.random, shape, &dealt);
    let mut older = wear(&mut t.random, words, 500);
    carriers(&older, 0).into_iter().for_each(|cell| older[shape.record(cell)].fill(5));
    t.all_refused(&older);
    let whole = all_wipes(&older).len() as u16;
    for allowance in [0, 1, 13, whole / 2, whole - 1, whole, ENOUGH] {
        let (_, left) = t.call(&bytes_of(&older), &Recover, allowance);
        t.keeps(&older, &words_of(&left), &dealt.concat());
    }
    t.holds(ordered(&older, shape) == Some(dealt) && whole >= 13 * 500, || "the lists of an older store".into());
}

/// Runs of all calls from stores that were older ones.
pub fn runs(t: &mut Tests) {
    for turn in 0..60 {
        let shape = t.shape(if turn % 3 == 0 { 40 } else { 8 });
        let (_, older) = t.older_store(shape);
        let sound = t.follow(&older, &Recover, ENOUGH);
        t.run(sound);
    }
}
