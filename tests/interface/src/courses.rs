//! Courses: an insert, of one record or several, or a delete, alterations in the lists that it does not name, recoveries.

use crate::checks::Tests;
use crate::worn::with_words;
use interface::stores::{alteration, altered_to, edit, sound};
use interface::{answer_of, bytes_of, words_of, Call, Call::*, ENOUGH};
use model::alterations::{adversarial, alterable, pairs};
use model::recovery::Course;
use model::samples::{all_lists_and_worn, deal, with_worn};
use model::store::{open, store_of, Answer, Shape, WordStore, IDENTIFIER, WORN};
use std::panic::{catch_unwind, AssertUnwindSafe};

/// The list of the call that a course begins with.
pub fn named(call: &Call) -> u16 {
    match *call {
        Insert { list, .. } | InsertSeveral { list, .. } | Delete { list, .. } => list,
        _ => unreachable!("a course begins with an insert or delete"),
    }
}

impl Tests {
    /// One insert or delete on a sound store, cut; then these alterations, in each list that it does not name at most one, or the count and
    /// an identifier; then recoveries with these allowances, and a whole one. It must end as `Course` says.
    fn course(&mut self, sound: &[u16], call: &Call, allowance: u16, altered: &[(usize, u16)], recoveries: &[u16]) {
        let bytes = bytes_of(sound);
        let width = open(sound).expect("a store").width;
        let new = words_of(&call.expected(&bytes, call.due(width, allowance)).1);
        let (_, left) = self.call(&bytes, call, allowance);
        let found = with_words(&words_of(&left), altered);
        let course = Course::new(sound, named(call), &new, &found);
        self.ends(course, &found, recoveries, || format!("{call:?} with {allowance}, {altered:?} on {sound:?}"));
    }

    /// Recoveries of the store that a course finds, with these allowances, and a whole one. It must end as it says.
    pub fn ends(&mut self, mut course: Course, found: &[u16], recoveries: &[u16], told: impl FnOnce() -> String) {
        self.courses += 1;
        let mut bytes = bytes_of(found);
        let mut answers = vec![];
        for &allowance in recoveries.iter().chain(&[ENOUGH]) {
            let (answer, left) = self.call(&bytes, &Recover, allowance);
            answers.push((answer_of(answer), allowance));
            bytes = left;
        }
        let done = matches!(answers.last(), Some((Answer::Done(_), _)));
        let ended = catch_unwind(AssertUnwindSafe(|| {
            answers.iter().for_each(|&(answer, allowance)| course.recovered(answer, allowance));
            course.ended(&words_of(&bytes));
        }));
        self.holds(done && ended.is_ok(), || format!("a course: {}", told()));
        self.call(&bytes, &Check, 0);
    }

    /// Words to alter in some of the lists that a course does not name: one of a list, or the count and an identifier.
    pub fn altered(&mut self, words: &[u16], lists: &[Vec<usize>], named: u16) -> Vec<WordStore> {
        let shape = open(words).expect("a store");
        let mut altered = vec![];
        for (list, sequence) in lists.iter().enumerate().filter(|&(list, _)| list != usize::from(named)) {
            let cell = [&[list][..], sequence].concat()[self.random.below(sequence.len() + 1)];
            match self.random.below(6) {
                0 => (),
                1 | 2 => altered
                    .extend([(cell, 0), (list, 3)].map(|(cell, i)| altered_to(&mut self.random, shape, words, cell, i))),
                _ => altered.push(alteration(&mut self.random, shape, words, cell)),
            }
        }
        altered
    }

    /// The allowances of some recoveries that are cut.
    pub fn cuts(&mut self) -> Vec<u16> {
        (0..self.random.below(4)).map(|_| self.random.pick(&[0, 1, 1, 2, 3, 5])).collect()
    }

    /// A random course that begins so.
    fn random_course(&mut self, sound: &[u16], lists: &[Vec<usize>], call: &Call, allowance: usize) {
        let (altered, recoveries) = (self.altered(sound, lists, named(call)), self.cuts());
        self.course(sound, call, allowance as u16, &altered, &recoveries);
    }

    /// Random courses from a store of these lists. Each call is cut after every number of its stores, or after some.
    fn courses(&mut self, shape: Shape, lists: &[Vec<usize>], edits: usize, everywhere: bool) {
        let sound = sound(&mut self.random, shape, lists);
        for turn in 0..edits {
            let call = edit(&mut self.random, &sound, lists, turn);
            let whole = usize::from(call.whole(shape.width));
            let some = vec![self.random.below(whole), whole - 1 - turn % 3, self.random.between(0, whole)];
            for allowance in if everywhere { (0..=whole).collect() } else { some } {
                self.random_course(&sound, lists, &call, allowance);
            }
        }
        self.random_course(&sound, lists, &Delete { list: shape.lists as u16, position: 0 }, 4);
    }
}

/// The alterations of a list: each word that may be altered, to every cell number and identifier; the count with each identifier, to wrong
/// counts, and to the identifiers, 0 and 65,535.
pub fn every_alteration(words: &[u16], list: usize) -> Vec<Vec<WordStore>> {
    let shape = open(words).expect("a store");
    let (places, pairs) = (alterable(words).expect("an ordered store"), pairs(words).expect("an ordered store"));
    let values = adversarial(shape);
    let mut all: Vec<Vec<WordStore>> =
        places[list].iter().flat_map(|&at| values.iter().map(move |&v| vec![(at, v)])).collect();
    for &[count, identifier] in &pairs[list] {
        let right = (words[count], words[identifier]);
        for told in [0, 1, 2, WORN].into_iter().filter(|&told| told != right.0) {
            let carried = [0, IDENTIFIER, IDENTIFIER + 1, WORN].into_iter().filter(|&value| value != right.1);
            all.extend(carried.map(|value| vec![(identifier, value), (count, told)]));
        }
    }
    all
}

/// All courses of two lists over two nodes: every sound store, every call, every cut of it, every word of the other list altered
/// to every cell number and identifier, and its count with each identifier, every cut of one recovery.
pub fn every_course(t: &mut Tests) {
    let shape = Shape::new(2, 2, 1);
    let nodes = shape.node_cells().collect::<Vec<_>>();
    for (lists, worn) in all_lists_and_worn(shape) {
        let sound = with_worn(store_of(shape, &lists, || 7), &worn);
        for (list, members) in lists.iter().enumerate() {
            let alterations = every_alteration(&sound, 1 - list);
            for position in 0..=members.len() as u16 {
                let (list, start) = (list as u16, nodes[1] as u16);
                for call in [
                    Insert { list, position, start, record: vec![1, 2] },
                    InsertSeveral { list, position, start, records: vec![1, 2, 3, 4] },
                    Delete { list, position },
                ] {
                    for allowance in 0..=call.whole(1) {
                        for altered in &alterations {
                            for cut in 0..3 {
                                t.course(&sound, &call, allowance, altered, &[cut]);
                            }
                        }
                    }
                }
            }
        }
    }
}

/// Courses on small stores.
pub fn small_courses(t: &mut Tests) {
    for turn in 0..300 {
        let shape = t.shape(if turn % 2 == 0 { 4 } else { 12 });
        let used = t.random.between(0, shape.nodes);
        let lists = deal(&mut t.random, shape, used);
        t.courses(shape, &lists, 6, true);
    }
}

/// Courses on larger stores, up to the largest.
pub fn large_courses(t: &mut Tests) {
    for (lists, nodes, width, used, edits) in [
        (8, 30, 13, 20, 40),
        (5, 100, 1, 99, 40),
        (8, 300, 2, 290, 40),
        (1, 300, 13, 256, 20),
        (3, 700, 2, 690, 20),
        (5, 1000, 1, 500, 20),
        (8, 2000, 1, 1990, 30),
        (8, 2000, 13, 1000, 30),
    ] {
        let shape = Shape::new(lists, nodes, width);
        let dealt = deal(&mut t.random, shape, used);
        t.courses(shape, &dealt, edits, false);
    }
}
