//! The parts of the script that recover.

use crate::edits::{formatted, random_edit, Edit, Edit::*, ENOUGH};
use crate::{altered, values_for, Script};
use model::alterations::adversarial;
use model::courses::{Call, Courses};
use model::recovery::{recover, Course};
use model::samples::{all_lists_and_worn, carriers, wear, with_worn, TwoSequences};
use model::script::Operation::*;
use model::store::{self, store_of, Answer, Shape, IDENTIFIER, WORN};

impl Script {
    /// Recover, and its answer.
    pub fn recover(&mut self, allowance: u16) -> Answer {
        let answer = recover(&mut self.words.clone(), allowance);
        self.add(Recover { allowance });
        answer
    }

    /// Recovers these words.
    fn recover_from(&mut self, words: &[u16], allowance: u16) {
        self.load(words);
        self.recover(allowance);
    }

    /// Recovers these words at every allowance up to one above the number of stores, and with enough.
    pub fn recover_at_each(&mut self, words: &[u16]) {
        let whole = match recover(&mut words.to_vec(), ENOUGH) {
            Answer::Done(n) => n,
            _ => 0,
        };
        for allowance in 0..=whole + 1 {
            self.recover_from(words, allowance);
        }
        self.recover_from(words, ENOUGH);
        self.add(Check);
    }

    /// A value to put at word `i` of a cell.
    fn value(&mut self, shape: Shape, cell: usize, i: usize) -> (usize, u16) {
        let at = shape.cell(cell) + i;
        let values = values_for(shape, cell < shape.lists, i, self.words[at]);
        (at, self.random.pick(&values))
    }

    /// A random word of the header or of a cell's identifier and links, altered.
    fn alteration(&mut self, shape: Shape, cell: usize) -> (usize, u16) {
        let i = self.random.below(if cell < shape.lists { 4 } else { 3 });
        self.value(shape, cell, i)
    }
}

/// The two records of the marked store, and its cuts and damage: each row at every allowance.
pub fn marked_store(s: &mut Script) {
    let shape = Shape::new(1, 3, 1);
    formatted(s, shape);
    let first = Insertion { list: 0, position: 0, start: 2, record: vec![700] };
    let second = Insertion { list: 0, position: 1, start: 2, record: vec![512] };
    s.add(first.with(ENOUGH));
    let c2 = s.words.clone();
    s.add(second.with(ENOUGH));
    let c3 = s.words.clone();
    for (words, edit) in
        [(&c2, &second), (&c3, &Deletion { list: 0, position: 0 }), (&c3, &Deletion { list: 0, position: 1 })]
    {
        for allowance in 0..=edit.whole(shape) {
            s.load(words);
            s.add(edit.with(allowance));
            let cut = s.words.clone();
            s.recover_at_each(&cut);
        }
    }
    let c9 = altered(&c2, &[(12, 42_400), (13, 0), (14, 0), (9, 1)]);
    s.recover_at_each(&c9);
    for count in 0..4 {
        // in the place of cell 2, and before it
        s.recover_from(&altered(&c9, &[(11, count)]), ENOUGH);
        s.recover_at_each(&altered(&c9, &[(13, 2), (11, count)]));
        s.recover_at_each(&altered(&c3, &[(20, 9), (11, count)]));
    }
    for at in [8, 9, 10, 11, 12, 13, 14, 15, 16, 17, 18] {
        s.recover_from(&altered(&c9, &[(at, c9[at] + 1)]), ENOUGH);
    }
    let c10 = altered(&c3, &[(9, 9), (10, 9)]);
    s.recover_at_each(&c10);
    for changes in [[(9, 9), (10, 3)], [(9, 2), (10, 9)], [(9, 9), (11, 1)], [(10, 2), (17, 0)]] {
        s.recover_from(&altered(&c3, &changes), ENOUGH);
    }
}

/// Questions 1 to 4: less than eight words and few more, each of the first eight altered, a wrong length.
pub fn short_stores(s: &mut Script) {
    let shape = Shape::new(1, 1, 1);
    let whole = [s.sound(shape, &[vec![1]]), vec![0; 2]].concat();
    for size in 0..=whole.len() {
        for allowance in [0, 1, ENOUGH] {
            s.recover_from(&whole[..size], allowance);
        }
    }
    for at in 0..8 {
        for value in [0, 1, whole[at].wrapping_sub(1), whole[at] + 1, whole[at] | 0x100, 65_535] {
            for allowance in [0, ENOUGH] {
                s.recover_from(&altered(&whole[..16], &[(at, value)]), allowance);
            }
        }
    }
}

/// Stores of one list and one node over a few values.
pub fn smallest_stores(s: &mut Script) {
    let shape = Shape::new(1, 1, 1);
    let identifiers = [IDENTIFIER, 0, WORN];
    let links = [0, 1, 2];
    let places: [(usize, &[u16]); 7] = [
        (8, &identifiers[..2]),
        (9, &links),
        (10, &links),
        (11, &links),
        (12, &identifiers),
        (13, &links[..2]),
        (14, &links[..2]),
    ];
    let words = s.sound(shape, &[vec![]]);
    let all: usize = places.iter().map(|(_, values)| values.len()).product();
    for mut choice in 0..all {
        let mut changes = vec![];
        for (at, values) in places {
            changes.push((at, values[choice % values.len()]));
            choice /= values.len();
        }
        let allowance = s.random.pick(&[0, 1, 2, ENOUGH, ENOUGH, ENOUGH, ENOUGH]);
        s.recover_from(&altered(&words, &changes), allowance);
    }
}

/// Each word of the headers, and the first four of each node, altered alone, and then with a second one.
pub fn altered_words(s: &mut Script) {
    for (lists, nodes, width, used) in [(1, 2, 1, 2), (2, 5, 7, 3), (3, 8, 4, 6), (8, 10, 3, 8)] {
        let shape = Shape::new(lists, nodes, width);
        let dealt = s.deal(shape, used);
        let words = s.sound(shape, &dealt);
        s.recover_from(&words, ENOUGH);
        for cell in 0..lists + nodes {
            for i in 0..4 {
                let at = shape.cell(cell) + i;
                let mut values = values_for(shape, cell < lists, i, words[at]);
                s.random.shuffle(&mut values);
                for &value in values.iter().take(6) {
                    s.recover_from(&altered(&words, &[(at, value)]), ENOUGH);
                    s.load(&words);
                    let cell = s.random.below(lists + nodes);
                    let second = s.alteration(shape, cell);
                    let allowance = s.random.pick(&[0, 1, 2, ENOUGH, ENOUGH]);
                    s.recover_from(&altered(&words, &[(at, value), second]), allowance);
                }
            }
        }
    }
}

/// Two sequences fit, with the count of the one, of the other and of none; with one more word altered, one of them or none.
pub fn several_fit(s: &mut Script) {
    for (lists, nodes, width) in [(1, 2, 1), (1, 4, 1), (2, 4, 8), (3, 7, 5), (8, 12, 2), (5, 30, 1)] {
        let shape = Shape::new(lists, nodes, width);
        for turn in 0..8 {
            let dealt = s.deal(shape, (nodes - 2).max(1));
            let words = s.sound(shape, &dealt);
            let list = dealt.iter().position(|sequence| !sequence.is_empty()).expect("a member");
            let others = &carriers(&words, 0)[..turn % 2];
            let two = TwoSequences::random(&mut s.random, list, &dealt[list], others);
            let mut twice = words.clone();
            two.put(&mut twice);
            let lengths = [0, 1].map(|way| two.sequence(way).len() as u16);
            for count in [lengths[0], lengths[1], lengths[turn % 2] + 1] {
                twice[shape.cell(list) + 3] = count;
                s.recover_from(&twice, ENOUGH);
                s.recover_from(&twice, 1);
            }
            for cell in [list, two.sequence(turn % 2).pop().unwrap_or(list)] {
                let change = s.alteration(shape, cell);
                s.recover_from(&altered(&twice, &[change]), ENOUGH);
                s.load(&twice);
            }
        }
    }
}

/// Every list sound, with wrong words or two sequences of which one is taken, with two of which none is, or with no sequence: the first that
/// has a reason decides.
pub fn several_reasons(s: &mut Script) {
    let shape = Shape::new(3, 12, 2);
    let lists = [vec![5, 3], vec![9], vec![7, 14, 4]];
    let words = s.sound_with(shape, &lists, &[6, 11, 13]);
    // node 10 + k beside the first member of list k, or in its place
    let two = |list: usize, beside: bool| {
        let other = vec![10 + list];
        let (block, after) = if beside { (vec![], &lists[list][..]) } else { (vec![lists[list][0]], &lists[list][1..]) };
        let blocks = if list == 1 { [block, other] } else { [other, block] };
        TwoSequences { list, before: vec![], blocks, after: after.to_vec() }
    };
    for choice in 0..64 {
        let mut found = words.clone();
        for (list, members) in lists.iter().enumerate() {
            let (header, length) = (shape.cell(list), members.len() as u16);
            match (choice >> (2 * list) & 3, list) {
                (0, _) => {}
                (1, 0) => (found[header], found[header + 3]) = (77, 7),
                (1, _) => {
                    two(list, true).put(&mut found);
                    found[header + 3] = length + list as u16 % 2;
                }
                (2, 2) => {
                    two(list, true).put(&mut found);
                    found[header + 3] = length + 2;
                }
                (2, _) => two(list, false).put(&mut found),
                _ => (found[header + 1], found[header + 2]) = (13, 13),
            }
        }
        for allowance in [0, ENOUGH] {
            s.recover_from(&found, allowance);
        }
        found[s.random.pick(&[2, 4, 5, 7])] = 0;
        s.recover_from(&found, ENOUGH);
    }
}

/// Sound stores with some words of headers and nodes altered to values that may well stand there, and words that are
/// nothing but such values.
pub fn random_damage(s: &mut Script) {
    for turn in 0..500 {
        let (most, width) = if turn % 2 == 0 { (4, 1) } else { (9, 13) };
        let shape = Shape::new(s.random.between(1, 3), s.random.between(1, most), width);
        let used = s.random.between(0, shape.nodes);
        let dealt = s.deal(shape, used);
        let words = wear(&mut s.random, store_of(shape, &dealt, || 0), 0);
        s.load(&words);
        let altered_words = if turn % 10 == 9 { 40 } else { s.random.between(1, 4) };
        let changes: Vec<(usize, u16)> = (0..altered_words)
            .map(|_| {
                let cell = s.random.below(shape.lists + shape.nodes);
                s.alteration(shape, cell)
            })
            .collect();
        let allowance = s.random.pick(&[0, 1, 2, ENOUGH, ENOUGH, ENOUGH]);
        s.recover_from(&altered(&words, &changes), allowance);
        s.add(Check);
    }
}

/// A fault in every list, in every second beside a wrong count, and some nodes that wrongly carry an identifier, beside worn ones, at every
/// allowance.
pub fn many_stores(s: &mut Script) {
    for (lists, nodes, width, used, carrying) in [(1, 4, 1, 1, 2), (3, 6, 8, 3, 2), (5, 10, 3, 6, 3), (8, 23, 2, 14, 6)] {
        let shape = Shape::new(lists, nodes, width);
        let dealt = s.deal(shape, used);
        let sound = s.sound_with(shape, &dealt, &[]);
        let sound = wear(&mut s.random, sound, carrying);
        s.load(&sound);
        let mut words = sound.clone();
        for (list, sequence) in dealt.iter().enumerate() {
            let cell = [&[list][..], sequence].concat()[s.random.below(sequence.len() + 1)];
            let i = s.random.below(if cell == list { 4 } else { 3 });
            words[shape.cell(cell) + i] ^= 0x4000;
            if list % 2 == 0 {
                words[shape.cell(list) + 3] = 0x4000;
            }
        }
        for &cell in carriers(&sound, 0).iter().take(carrying) {
            words[shape.cell(cell)] = s.random.pick(&[1, WORN - 1, IDENTIFIER, IDENTIFIER + 7]);
        }
        s.recover_at_each(&words);
        s.load(&words);
        for _ in 0..2 * lists + carrying + 1 {
            s.recover(1);
        }
    }
}

/// One insert or delete on the sound store that is there, with an allowance, and what follows.
pub fn course(s: &mut Script, shape: Shape, edit: &Edit, allowance: u16, most: usize) {
    let sound = s.words.clone();
    let mut new = sound.clone();
    edit.with(edit.due(shape, allowance)).run(&mut new);
    s.add(edit.with(allowance));
    finish(s, shape, &sound, edit.list(), &new, most);
}

/// After an insert or delete on an ordered store: at most one word altered in each list that it does not name, or its count and an
/// identifier; recover calls with small allowances, and one with enough. It must end as `Course` says. `new` are the words with the stores
/// that count as made.
pub fn finish(s: &mut Script, shape: Shape, old: &[u16], named: usize, new: &[u16], most: usize) {
    let lists = store::ordered(old, shape).expect("an ordered store");
    let mut found = s.words.clone();
    for (list, sequence) in lists.iter().enumerate().filter(|&(list, _)| list != named) {
        let cell = [&[list][..], sequence].concat()[s.random.below(sequence.len() + 1)];
        let altered = match s.random.below(6) {
            0 => vec![],
            1 | 2 => vec![s.value(shape, cell, 0), s.value(shape, list, 3)],
            _ => vec![s.alteration(shape, cell)],
        };
        altered.into_iter().for_each(|(at, value)| found[at] = value);
    }
    s.load(&found);
    let mut course = Course::new(old, named as u16, new, &found);
    for _ in 0..s.random.between(0, most) {
        let allowance = s.random.pick(&[0, 1, 1, 2, 3, 5]);
        let answer = s.recover(allowance);
        course.recovered(answer, allowance);
    }
    let answer = s.recover(ENOUGH);
    assert!(matches!(answer, Answer::Done(_)), "the last recover call of a course is not done");
    course.recovered(answer, ENOUGH);
    course.ended(&s.words);
    s.add(Check);
}

/// Courses: each call cut after every number of its stores, the next on what the last left; and a call that names no list.
pub fn courses(s: &mut Script) {
    for (lists, nodes, width, edits, most) in [
        (1, 3, 1, 6, 1),
        (2, 3, 1, 8, 1),
        (2, 6, 6, 6, 3),
        (3, 7, 5, 8, 3),
        (4, 12, 2, 8, 3),
        (8, 9, 3, 8, 4),
        (8, 30, 13, 4, 4),
        (5, 40, 1, 8, 3),
        (8, 100, 1, 6, 4),
    ] {
        let shape = Shape::new(lists, nodes, width);
        let dealt = s.deal(shape, nodes * 2 / 3);
        let words = s.sound(shape, &dealt);
        s.load(&words);
        for turn in 0..edits {
            let words = s.words.clone();
            let dealt = store::lists(&words, shape).expect("a sound store");
            let edit = random_edit(s, shape, &dealt, turn % 2 == 0);
            for allowance in 0..=edit.whole(shape) {
                s.load(&words);
                course(s, shape, &edit, allowance, most);
            }
        }
        course(s, shape, &Deletion { list: lists, position: 0 }, ENOUGH, most);
    }
}

/// Every insert and delete that the store allows, and those just beyond, with all their courses. A second word is altered too.
fn every_course(s: &mut Script, shape: Shape, lists: &[Vec<usize>], starts: &[usize], other: (usize, u16)) {
    let values = adversarial(shape);
    for call in every_call(lists, starts) {
        s.add(AllCourses(Courses { call, other: (other.0 as u16, other.1), values: values.clone() }));
    }
}

/// Such calls of one list, beside a wrong count of another.
fn every_course_beside(s: &mut Script, shape: Shape, lists: &[Vec<usize>], starts: &[usize], other: (usize, u16)) {
    let identifiers = (0..shape.lists as u16).map(|k| IDENTIFIER + k);
    let values: Vec<u16> = identifiers.chain([0, WORN]).collect();
    let count = (shape.cell(other.0) + 3) as u16;
    for call in every_call(lists, starts).into_iter().filter(|call| usize::from(call.list) != other.0) {
        s.add(AllCourses(Courses { call, other: (count, other.1), values: values.clone() }));
    }
}

/// Every insert and delete at the positions of the lists and just beyond.
fn every_call(lists: &[Vec<usize>], starts: &[usize]) -> Vec<Call> {
    let mut calls = vec![];
    for (list, sequence) in lists.iter().enumerate() {
        for position in 0..=sequence.len() {
            calls.push((list, position, 0));
            calls.extend(starts.iter().map(|&start| (list, position, start)));
        }
    }
    let call =
        |(list, position, start)| Call { list: list as u16, position: position as u16, start: start as u16, record: 77 };
    calls.into_iter().map(call).collect()
}

/// No word of a small store.
pub const NOWHERE: (usize, u16) = (65_535, 0);

/// All courses of all calls on small stores: on all sound stores of one and of two lists over two nodes, with a wrong count in the other list
/// too; on some of two and three lists over three nodes, with alterations in both other lists.
pub fn every_course_of_small_stores(s: &mut Script) {
    for lists in [1, 2] {
        let shape = Shape::new(lists, 2, 1);
        let nodes: Vec<usize> = shape.node_cells().collect();
        for (turn, (sequences, worn)) in all_lists_and_worn(shape).into_iter().enumerate() {
            s.load(&with_worn(store_of(shape, &sequences, || 0), &worn));
            every_course(s, shape, &sequences, &nodes, NOWHERE);
            for other in 0..if lists == 2 { 2 } else { 0 } {
                let wrong = [0, 1, 2, 65_535].into_iter().filter(|&count| count != sequences[other].len() as u16);
                let count = wrong.cycle().nth(turn).expect("a wrong count");
                every_course_beside(s, shape, &sequences, &nodes[turn % 2..=turn % 2], (other, count));
            }
        }
    }
    let shape = Shape::new(2, 3, 1);
    for (sequences, worn) in [
        (vec![vec![], vec![3, 2]], &[][..]),
        (vec![vec![4], vec![2]], &[]),
        (vec![vec![], vec![2]], &[3]),
        (vec![vec![3, 4], vec![2]], &[]),
        (vec![vec![4, 2, 3], vec![]], &[]),
    ] {
        let words = s.sound_with(shape, &sequences, worn);
        s.load(&words);
        every_course(s, shape, &sequences, &[3], NOWHERE);
    }
    let shape = Shape::new(3, 3, 1);
    let alterations = [(0, 1, 3), (4, 2, 5), (4, 0, 0), (1, 3, 1), (1, 1, 3), (2, 2, 4), (5, 1, 3), (5, 0, IDENTIFIER)];
    for (sequences, worn, alterations) in [
        ([vec![4], vec![], vec![5]], &[][..], &alterations[..]),
        ([vec![4], vec![], vec![]], &[5], &[(0, 1, 5), (4, 0, WORN), (2, 2, 5)]),
    ] {
        let words = s.sound_with(shape, &sequences, worn);
        s.load(&words);
        for &(cell, i, value) in alterations {
            every_course(s, shape, &sequences, &[3], (shape.cell(cell) + i, value));
        }
    }
}

/// Random courses on large stores, each on what the last left.
pub fn large_courses(s: &mut Script) {
    for (lists, nodes, width, used, courses) in
        [(1, 300, 13, 200, 20), (3, 700, 2, 690, 20), (5, 1000, 1, 500, 20), (8, 2000, 1, 1990, 30)]
    {
        let shape = Shape::new(lists, nodes, width);
        let dealt = s.deal(shape, used);
        let words = s.plain(shape, &dealt);
        s.load(&words);
        for turn in 0..courses {
            let dealt = store::lists(&s.words, shape).expect("a sound store");
            let edit = random_edit(s, shape, &dealt, turn % 2 == 0);
            let allowance = s.random.below(usize::from(edit.whole(shape)) + 2) as u16;
            course(s, shape, &edit, allowance, 5);
        }
    }
}

/// The largest store: a fault in every list, as many stores as can be, one list of all nodes, links that never meet the
/// header, links that skip a block of a list.
pub fn largest(s: &mut Script) {
    let shape = Shape::new(8, 2000, 13);
    let dealt = s.deal(shape, 1990);
    let words = s.plain(shape, &dealt);
    s.load(&words);
    for turn in 0..3 {
        let edit = random_edit(s, shape, &dealt, turn % 2 == 0);
        for allowance in [edit.whole(shape) - 3, edit.whole(shape) - 1] {
            s.load(&words);
            course(s, shape, &edit, allowance, 2);
        }
    }
    let (first, last) = (dealt[3][0], *dealt[3].last().expect("a member"));
    let middle = dealt[3][dealt[3].len() / 2];
    for changes in [
        vec![(shape.cell(last) + 1, first as u16)],
        vec![(shape.cell(last) + 1, first as u16), (shape.cell(first) + 2, last as u16)],
        vec![(shape.cell(middle) + 1, middle as u16)],
        vec![(shape.cell(middle) + 2, 2008), (shape.cell(middle), 0)],
        vec![(shape.cell(last) + 1, 4)],
    ] {
        s.recover_from(&altered(&words, &changes), ENOUGH);
        s.load(&words);
    }
    // a block left out by the forward link before it, or by the back link behind it: the count tells the length of the one or the other
    let (header, [i, j]) = (shape.cell(3), [dealt[3].len() / 3, dealt[3].len() / 2]);
    let skipped = [(shape.cell(dealt[3][i]) + 1, dealt[3][j] as u16), (shape.cell(dealt[3][j]) + 2, dealt[3][i] as u16)];
    for skipping in skipped {
        for missing in [0, j - i - 1, 1] {
            let count = (header + 3, (dealt[3].len() - missing) as u16);
            s.recover_from(&altered(&words, &[skipping, count]), ENOUGH);
            s.load(&words);
        }
    }
    let mut all: Vec<usize> = shape.node_cells().collect();
    s.random.shuffle(&mut all);
    let one: Vec<Vec<usize>> = (0..8).map(|k| if k == 5 { all.clone() } else { vec![] }).collect();
    let words = store_of(shape, &one, || 0);
    s.load(&words);
    for (cell, i, value) in [(all[1000], 1, 2008), (all[1999], 1, 8), (all[0], 2, 65_535), (5, 3, 1999), (all[7], 0, 0)] {
        s.recover_from(&altered(&words, &[(shape.cell(cell) + i, value)]), ENOUGH);
    }
    // the headers say empty, each with a fault and a wrong count: every node is in no list
    let mut empty = altered(&words, &[(shape.cell(5) + 1, 5), (shape.cell(5) + 2, 5)]);
    for list in 0..8 {
        empty[shape.cell(list) + list % 3] = 77;
        empty[shape.cell(list) + 3] = 77;
    }
    s.recover_from(&empty, ENOUGH);
    s.load(&empty);
    for allowance in [2015, 0, ENOUGH, ENOUGH] {
        s.recover(allowance);
    }
}
