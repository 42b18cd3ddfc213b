//! What is told beforehand: the cells and the stores of an insert of several records, the stores of a recovery. Every call on a store asks for
//! it (`Tests::call_leaves`); here are the corners, with what must be told counted up by hand.

use crate::checks::Tests;
use crate::worn::with_words;
use interface::stores::{record, unworn};
use interface::{bytes_of, Call, Call::*, DONE, ENOUGH, STOPPED};
use model::random::Random;
use model::samples::{all_lists_and_worn, carriers, deal, remain, spoil, wear, with_worn};
use model::store::{open, store_of, Shape, IDENTIFIER};

/// The free nodes of a sound store, counting up from this one and on from the first after the last.
fn free_from(words: &[u16], start: usize) -> Vec<usize> {
    let nodes = open(words).expect("a store").node_cells();
    let free = carriers(words, 0);
    (start..nodes.end).chain(nodes.start..start).filter(|cell| free.contains(cell)).collect()
}

/// What must be told of an insert of so many records, if its questions up to 8 are answered yes.
fn of_records(words: &[u16], start: usize, number: usize) -> Vec<u32> {
    let (free, width) = (free_from(words, start), open(words).expect("a store").width);
    match number {
        0 => vec![9; 3],
        _ if number > free.len() => vec![10; 3],
        _ => [free[0], free[number - 1], number * (width + 6)].map(|figure| DONE + figure as u32).to_vec(),
    }
}

/// An insert of so many records into a list.
fn insert(random: &mut Random, words: &[u16], list: usize, start: usize, number: usize) -> Call {
    let shape = open(words).expect("a store");
    let position = random.between(0, words[shape.cell(list) + 3].into()) as u16;
    let records = record(random, number * shape.width);
    InsertSeveral { list: list as u16, position, start: start as u16, records }
}

impl Tests {
    /// This is told of the call. The model tells the same, and the call does it.
    fn tells(&mut self, words: &[u16], call: &Call, expected: &[u32]) {
        let told = self.foretold(&bytes_of(words), call);
        self.holds(told == expected, || format!("of {call:?} is told {told:?}, expected {expected:?}; {words:?}"));
    }

    /// This is told of the call, whatever the model tells.
    fn asked_tells(&mut self, words: &[u16], call: &Call, expected: &[u32]) {
        let told = self.asked(&bytes_of(words), call);
        self.holds(told == expected, || format!("of {call:?} is told {told:?}, expected {expected:?}; {words:?}"));
    }

    /// With a byte more 4 is told of the call.
    fn odd(&mut self, words: &[u16], call: &Call) {
        let told = self.foretold(&[bytes_of(words), vec![0]].concat(), call);
        self.holds(told.iter().all(|&number| number == 4), || {
            format!("of {call:?} on an odd number of bytes is told {told:?}")
        });
    }

    /// So many records from this cell on, into each list.
    fn tells_of(&mut self, words: &[u16], start: usize, number: usize) {
        for list in 0..open(words).expect("a store").lists {
            let call = insert(&mut self.random, words, list, start, number);
            self.tells(words, &call, &of_records(words, start, number));
        }
    }
}

/// Each node a member, free or worn, in every combination of up to six: every number of records up to one more than nodes are free, from
/// every node on.
pub fn small_stores(t: &mut Tests) {
    for nodes in [1, 2, 3, 4, 6] {
        let shape = Shape::new(1 + nodes % 2, nodes, 1 + nodes % 3);
        for choice in 0..3usize.pow(nodes as u32) {
            let kind = |i: usize| choice / 3usize.pow(i as u32) % 3;
            let [members, worn] = [0, 1].map(|of| shape.node_cells().filter(move |cell| kind(cell - shape.lists) == of));
            let mut lists = vec![vec![]; shape.lists];
            members.for_each(|cell| lists[cell % shape.lists].push(cell));
            let words = with_worn(unworn(&mut t.random, shape, &lists), &worn.collect::<Vec<_>>());
            for start in shape.node_cells() {
                (0..=free_from(&words, start).len() + 1).for_each(|number| t.tells_of(&words, start, number));
            }
        }
    }
}

/// Larger stores, with free nodes scattered among members and worn ones: few records, as many as nodes are free, and one more. What the
/// records hold does not matter.
pub fn scattered(t: &mut Tests) {
    for turn in 0..400 {
        let shape = t.shape(if turn % 2 == 0 { 12 } else { 80 });
        let (_, words) = t.sound_store(shape);
        let free = carriers(&words, 0).len();
        let (first, last) = (shape.lists, shape.lists + shape.nodes - 1);
        for start in [first, last, first + t.random.below(shape.nodes)] {
            for number in [1, 2, t.random.between(1, free.max(1)), free, free + 1] {
                t.tells_of(&words, start, number);
            }
        }
        if let InsertSeveral { list, position, start, records } = insert(&mut t.random, &words, 0, last, free) {
            let blank = InsertSeveral { list, position, start, records: vec![0; records.len()] };
            t.tells(&words, &blank, &of_records(&words, last, free));
        }
    }
}

/// The largest stores: 2,000 records of 13 words, from the first node, the last and others; one more. Then all free nodes beside members and
/// worn ones.
pub fn largest(t: &mut Tests) {
    for lists in [1, 8] {
        let shape = Shape::new(lists, 2000, 13);
        let empty = unworn(&mut t.random, shape, &vec![vec![]; lists]);
        let dealt = deal(&mut t.random, shape, 700);
        let half = unworn(&mut t.random, shape, &dealt);
        let half = wear(&mut t.random, half, 500);
        for words in [empty, half] {
            let free = carriers(&words, 0).len();
            for start in [lists, lists + 1, lists + 255, lists + 1000, lists + 1998, lists + 1999] {
                for number in [1, 2, 256, free - 1, free, free + 1, 2000, 2001] {
                    let call = insert(&mut t.random, &words, lists / 2, start, number);
                    t.asked_tells(&words, &call, &of_records(&words, start, number));
                }
            }
        }
    }
}

/// Every combination of reasons to refuse an insert of several records: the first question decides, for each of its figures. A store of an odd
/// number of bytes comes before all, and records of an odd number of bytes in their turn.
pub fn refusals(t: &mut Tests) {
    let shape = Shape::new(2, 5, 2);
    let sound = with_worn(store_of(shape, &[vec![5], vec![2]], || 7), &[4]);
    for reasons in 0..1 << 10 {
        let has = |number: usize| reasons >> (number - 1) & 1 == 1;
        let mut words = sound.clone();
        if has(6) {
            words[shape.cell(t.random.pick(&[0, 1, 2, 5]))] = t.random.pick(&[0, 7]);
        }
        spoil(&mut t.random, &mut words, [has(2), has(3), has(4)]);
        if has(1) {
            words.truncate(t.random.below(8));
        }
        let list = if has(5) { t.random.pick(&[2, 65_535]) } else { 1 };
        let position = if has(7) { t.random.pick(&[2, 65_535]) } else { t.random.pick(&[0, 1]) };
        let start = if has(8) { t.random.pick(&[0, 1, 7, 65_535]) } else { t.random.pick(&[2, 3, 4, 5, 6]) };
        let fewer = t.random.pick(&[4, 8]);
        let len = if has(10) { 12 } else { fewer } - if has(9) { t.random.pick(&[1, 2, 3]) } else { 0 };
        let call = InsertSeveral { list, position, start, records: record(&mut t.random, 7)[..len].to_vec() };
        let none = InsertSeveral { list, position, start, records: vec![] };
        let first = (1..=10).find(|&number| has(number));
        let figures = || of_records(&words, start.into(), len / 4);
        t.tells(&words, &call, &first.map_or_else(figures, |number| vec![number as u32; 3]));
        t.tells(&words, &none, &[first.map_or(9, |number| number.min(9) as u32); 3]);
        t.odd(&words, &call);
    }
}

/// Every combination of reasons to refuse a recovery.
pub fn refused_recoveries(t: &mut Tests) {
    let shape = Shape::new(2, 4, 1);
    let sound = store_of(shape, &[vec![2], vec![3]], || 7);
    let none = [(shape.cell(1) + 1, 9), (shape.cell(1) + 2, 9)];
    let two = [(shape.cell(4), IDENTIFIER + 1), (shape.cell(4) + 1, 1), (shape.cell(4) + 2, 1), (shape.cell(1) + 1, 4)];
    let some = [(shape.cell(5), 7), (shape.cell(0), 7)];
    for (altered, last) in [(&[][..], DONE), (&some, DONE + 2), (&none, 11), (&two, 12)] {
        for reasons in 0..1 << 4 {
            let has = |number: usize| reasons >> (number - 1) & 1 == 1;
            let mut words = with_words(&sound, altered);
            spoil(&mut t.random, &mut words, [has(2), has(3), has(4)]);
            if has(1) {
                words.truncate(t.random.below(8));
            }
            let expected = (1..=4).find(|&number| has(number)).map_or(last, |number| number as u32);
            t.tells(&words, &Recover, &[expected]);
            t.odd(&words, &Recover);
        }
    }
}

/// A sound store needs no store.
pub fn sound_stores(t: &mut Tests) {
    for (lists, nodes) in [(1, 1), (1, 3), (2, 2), (3, 2)] {
        let shape = Shape::new(lists, nodes, 1);
        for (lists, worn) in all_lists_and_worn(shape) {
            t.tells(&with_worn(store_of(shape, &lists, || 7), &worn), &Recover, &[DONE]);
        }
    }
    for turn in 0..200 {
        let shape = if turn % 20 == 0 { Shape::new(8, 2000, 13) } else { t.shape(60) };
        let (_, words) = t.sound_store(shape);
        t.tells(&words, &Recover, &[DONE]);
    }
}

/// As many stores as recovery can make, of mends, clears and wipes: told at first, and after cuts how many are left, up to the largest store.
pub fn most_stores(t: &mut Tests) {
    for (lists, nodes, width) in [(1, 1, 1), (2, 3, 2), (8, 8, 13), (8, 100, 3), (8, 2000, 13)] {
        let shape = Shape::new(lists, nodes, width);
        let mut words = vec![9; shape.size()];
        words[..shape.cell(lists)].copy_from_slice(&store_of(shape, &vec![vec![]; lists], || 0)[..shape.cell(lists)]);
        (0..lists).for_each(|list| words[shape.cell(list) + list % 3] = 77);
        (0..lists).for_each(|list| words[shape.cell(list) + 3] = 77);
        let (most, bytes) = (2 * lists + nodes + width * nodes, bytes_of(&words));
        t.tells(&words, &Recover, &[DONE + most as u32]);
        let near = |cut: usize| [2 * lists, 2 * lists + nodes, most].iter().any(|&end| cut.abs_diff(end) < 3);
        for cut in (0..=most).filter(|&cut| most < 1000 || cut % 997 == 0 || near(cut)) {
            let answer = if cut < most { STOPPED } else { DONE } + cut as u32;
            let (found, left) = t.call(&bytes, &Recover, cut as u16);
            t.holds(found == answer, || format!("recover with {cut}: answer {found}"));
            let told = t.asked(&left, &Recover);
            t.holds(told == [DONE + (most - cut) as u32], || format!("told {told:?} after {cut} of {most} stores"));
        }
    }
}

/// Damaged stores recovered store by store: each time one less is told.
pub fn one_by_one(t: &mut Tests) {
    for turn in 0..300 {
        let shape = t.shape(if turn % 3 == 0 { 12 } else { 5 });
        let (_, words) = t.sound_store(shape);
        let mut words = remain(&mut t.random, words);
        for cell in carriers(&words, 0).into_iter().step_by(2) {
            words[shape.cell(cell)] = 7;
        }
        (0..shape.lists).for_each(|list| words[shape.cell(list) + t.random.pick(&[0, 3])] ^= 0x100);
        let (mut bytes, mut told) = (bytes_of(&words), t.foretold(&bytes_of(&words), &Recover)[0]);
        while told > DONE {
            let (answer, left) = t.call(&bytes, &Recover, 1);
            bytes = left;
            let next = t.foretold(&bytes, &Recover)[0];
            let right = next + 1 == told && answer == if told > DONE + 1 { STOPPED + 1 } else { DONE + 1 };
            t.holds(right, || format!("told {told}, answer {answer}, told {next}; {bytes:?}"));
            told = if right { next } else { DONE };
        }
        t.call(&bytes, &Recover, ENOUGH);
    }
}
