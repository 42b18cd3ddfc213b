//! Wiped records through every call of the model, and older stores, with remains of records in their free nodes.

use model::alterations::{adversarial, alterable, pairs};
use model::former::{self, wiped};
use model::random::Random;
use model::recovery::{due_of_delete, due_of_insert, recover, Course};
use model::samples::{carriers, deal, older_stores, remain, wear};
use model::store::{self, check, delete, insert, insert_several, length, mark_worn, ordered, read, store_of};
use model::store::{Answer, Shape, WordStore, WORN};

const ENOUGH: u16 = 65_535;

/// Every call but recover is refused with 6 at any allowance, and stores nothing. Recover makes the wipes alone, lowest word first, and then
/// the calls are not refused so.
#[test]
fn refused_until_recovered() {
    let mut random = Random::new(1);
    for turn in 0..1_000 {
        let shape =
            Shape::new(random.between(1, 4), random.between(1, if turn % 9 == 0 { 40 } else { 6 }), random.between(1, 13));
        let used = random.below(shape.nodes);
        let dealt = deal(&mut random, shape, used);
        let sound = store_of(shape, &dealt, || random.word());
        let sound = wear(&mut random, sound, 1);
        let older = remain(&mut random, sound.clone());
        let start = (shape.lists + random.below(shape.nodes)) as u16;
        let record = vec![7; shape.width];
        let mut left = older.clone();
        assert_eq!(check(&older), 6);
        for list in 0..shape.lists as u16 {
            assert_eq!((length(&older, list), read(&older, list, 0)), (Err(6), Err(6)));
            for allowance in [0, 1, ENOUGH] {
                assert_eq!(insert(&mut left, list, 0, start, &record, allowance), Answer::Refused(6));
                assert_eq!(insert_several(&mut left, list, 0, start, &record, allowance), Answer::Refused(6));
                assert_eq!(delete(&mut left, list, 0, allowance), Answer::Refused(6));
            }
        }
        assert_eq!((mark_worn(&mut left, start), &left), (Answer::Refused(6), &older));
        let remains: Vec<usize> = (0..older.len()).filter(|&at| older[at] != sound[at]).collect();
        for allowance in [0, 1, remains.len() / 2, remains.len()] {
            let mut cut = older.clone();
            let done = if allowance < remains.len() { Answer::Stopped } else { Answer::Done };
            assert_eq!(recover(&mut cut, allowance as u16), done(allowance as u16));
            let mut expected = older.clone();
            remains[..allowance].iter().for_each(|&at| expected[at] = 0);
            assert_eq!(cut, expected);
        }
        assert_eq!((recover(&mut left, ENOUGH), &left), (Answer::Done(remains.len() as u16), &sound));
        assert_eq!((check(&left), length(&left, 0)), (0, Ok(dealt[0].len() as u16)));
        let first = carriers(&left, 0)[0] as u16;
        assert_eq!(insert(&mut left.clone(), 0, 0, start, &record, 0), Answer::Stopped(0));
        assert_eq!(mark_worn(&mut left, first), Answer::Done(1));
    }
}

/// A former insert of the record 8, or delete.
#[derive(Clone, Copy)]
enum Former {
    Insert { list: u16, position: u16, start: u16 },
    Delete { list: u16, position: u16 },
}

impl Former {
    fn run(self, words: &[u16], allowance: u16) -> Vec<u16> {
        let mut left = words.to_vec();
        match self {
            Former::Insert { list, position, start } => {
                former::insert(&mut left, list, position, start, &[8], allowance);
            }
            Former::Delete { list, position } => drop(former::delete(&mut left, list, position, allowance)),
        }
        left
    }

    /// Its list, its number of stores, and those that count as made after so many.
    fn told(self, allowance: u16) -> (u16, u16, u16) {
        match self {
            Former::Insert { list, .. } => (list, 7, due_of_insert(1, allowance)),
            Former::Delete { list, .. } => (list, 4, due_of_delete(1, allowance)),
        }
    }
}

/// The former calls on a store of these lists.
fn former_calls(shape: Shape, lists: &[Vec<usize>]) -> Vec<Former> {
    let mut calls = vec![];
    for (list, sequence) in lists.iter().enumerate() {
        for position in 0..=sequence.len() as u16 {
            let (list, start) = (list as u16, shape.lists as u16);
            calls.extend([Former::Insert { list, position, start }, Former::Delete { list, position }]);
        }
    }
    calls
}

/// The alterations of a list of an ordered store: each word that may be altered, and the count with each identifier, to each of some values.
fn altered(shape: Shape, older: &[u16], list: usize) -> Vec<Vec<WordStore>> {
    let (places, pairs) = (alterable(older).expect("an ordered store"), pairs(older).expect("an ordered store"));
    let mut all = vec![];
    for value in adversarial(shape) {
        all.extend(places[list].iter().map(|&at| vec![(at, value)]));
        let counts = [0, 1, 65_535].into_iter().flat_map(|count| pairs[list].iter().map(move |&pair| (count, pair)));
        all.extend(counts.map(|(count, [at, identifier])| vec![(at, count), (identifier, value)]));
    }
    all
}

/// All older stores of one and two lists over two nodes, every former call, each cut of it, each word of the other list altered to each of
/// some values, and its count with each identifier, each cut of two recoveries: they end as they must.
#[test]
fn former_courses() {
    let mut courses = 0;
    for shape in [Shape::new(1, 2, 1), Shape::new(2, 2, 1)] {
        for (lists, older) in older_stores(shape) {
            for call in former_calls(shape, &lists) {
                for allowance in 0..=call.told(0).1 {
                    let (named, _, due) = call.told(allowance);
                    let (cut, new) = (call.run(&older, allowance), call.run(&older, due));
                    let others = (0..shape.lists).filter(|&list| list != usize::from(named));
                    for altered in others.flat_map(|list| altered(shape, &older, list)).chain([vec![]]) {
                        let mut found = cut.clone();
                        altered.into_iter().for_each(|(at, value)| found[at] = value);
                        courses += every_cut(&Course::new(&older, named, &new, &found), &found);
                    }
                }
            }
        }
    }
    assert!(courses > 100_000, "{courses} courses");
}

/// Recoveries of the store that is found, the first two cut everywhere: how many.
fn every_cut(course: &Course, found: &[u16]) -> usize {
    let whole = match recover(&mut found.to_vec(), ENOUGH) {
        Answer::Done(n) => n,
        other => panic!("recovery of {found:?}: {other:?}"),
    };
    let mut courses = 0;
    for first in 0..=whole {
        for second in 0..=whole - first {
            let (mut course, mut words) = (course.clone(), found.to_vec());
            for allowance in [first, second, ENOUGH] {
                let answer = recover(&mut words, allowance);
                course.recovered(answer, allowance);
            }
            course.ended(&words);
            courses += 1;
        }
    }
    courses
}

/// The words of a record are nowhere in the store once it is deleted, whole or cut and then recovered with a cut too. Until its central store
/// the record is read as it was.
#[test]
fn nothing_remains() {
    let mut random = Random::new(2);
    for _ in 0..150 {
        let shape = Shape::new(random.between(1, 3), random.between(1, 6), random.between(1, 13));
        let used = random.between(1, shape.nodes);
        let dealt = deal(&mut random, shape, used);
        // Each word of a member's record is another, and none of them stands elsewhere but in worn nodes.
        let mut sound = wear(&mut random, store_of(shape, &dealt, || 0), 0);
        for (i, at) in dealt.concat().into_iter().flat_map(|cell| shape.record(cell)).enumerate() {
            sound[at] = 20_000 + i as u16;
        }
        let list = random.pick(&(0..shape.lists).filter(|&k| !dealt[k].is_empty()).collect::<Vec<_>>());
        let position = random.below(dealt[list].len());
        let record = sound[shape.record(dealt[list][position])].to_vec();
        let worn: Vec<usize> = carriers(&sound, WORN).into_iter().flat_map(|cell| shape.node(cell)).collect();
        for allowance in 0..=shape.width as u16 + 4 {
            let mut cut = sound.clone();
            delete(&mut cut, list as u16, position as u16, allowance);
            for first in 0..=shape.width as u16 + 2 {
                let mut words = cut.clone();
                recover(&mut words, first);
                recover(&mut words, ENOUGH);
                let kept = read(&words, list as u16, position as u16) == Ok(&record);
                let left = (0..words.len()).filter(|at| record.contains(&words[*at]) && !worn.contains(at)).count();
                assert_eq!((kept, left), (allowance < 2, if allowance < 2 { shape.width } else { 0 }), "{words:?}");
            }
        }
    }
}

/// Worn nodes and members keep their records through deletes and recoveries, and the remains of others go.
#[test]
fn what_is_kept() {
    let mut random = Random::new(3);
    for _ in 0..600 {
        let shape = Shape::new(random.between(1, 3), random.between(2, 8), random.between(1, 4));
        let used = random.between(0, shape.nodes - 1);
        let dealt = deal(&mut random, shape, used);
        let words = wear(&mut random, store_of(shape, &dealt, || 9), 1);
        let older = remain(&mut random, words.clone());
        let mut left = older.clone();
        assert_eq!(
            recover(&mut left, ENOUGH),
            Answer::Done((0..older.len()).filter(|&at| older[at] != words[at]).count() as u16)
        );
        for cell in carriers(&older, WORN) {
            assert_eq!(left[shape.node(cell)], older[shape.node(cell)]);
        }
        assert!(dealt.concat().iter().all(|&cell| left[shape.record(cell)] == older[shape.record(cell)]));
        assert_eq!((left, ordered(&older, shape)), (wiped(&older), store::lists(&words, shape)));
    }
}

/// The largest store: each node carries an identifier and remains in every word of its record, each list has a fault and a wrong count.
#[test]
fn most_stores() {
    let shape = Shape::new(8, 2000, 13);
    let sound = store_of(shape, &vec![vec![]; 8], || 0);
    let mut found = vec![9; shape.size()];
    found[..shape.cell(8)].copy_from_slice(&sound[..shape.cell(8)]);
    (0..8).for_each(|list| found[shape.cell(list) + list % 3] = 77);
    (0..8).for_each(|list| found[shape.cell(list) + 3] = 77);
    let most = 2 * 8 + 2000 + 13 * 2000;
    for (allowance, answer) in
        [(ENOUGH, Answer::Done(most)), (most, Answer::Done(most)), (most - 1, Answer::Stopped(most - 1))]
    {
        let mut left = found.clone();
        assert_eq!(recover(&mut left, allowance), answer);
        assert_eq!(check(&left), if answer == Answer::Done(most) { 0 } else { 6 });
        assert!(shape.node_cells().all(|cell| left[shape.cell(cell) + 1..][..2] == [9, 9]), "the links stay");
    }
}
