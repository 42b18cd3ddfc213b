//! The parts of the script that insert several records in one call.

use crate::edits::{every_use, formatted, Edit, Edit::*, ENOUGH};
use crate::recoveries::course;
use crate::Script;
use model::samples::{carriers, spoil};
use model::script::Operation::*;
use model::store::Shape;

impl Script {
    /// The insertion of so many random records.
    fn insertions(&mut self, shape: Shape, list: usize, position: usize, start: usize, number: usize) -> Edit {
        let size = number * shape.width;
        Insertions { list, position, start, size, repeated: self.record(size) }
    }
}

/// A store whose free cells are scattered among members and worn cells: the first is free.
fn scattered(s: &mut Script, shape: Shape) -> (Vec<Vec<usize>>, Vec<usize>) {
    let mut lists = vec![vec![]; shape.lists];
    let members: Vec<usize> = shape.node_cells().filter(|cell| (cell - shape.lists) % 3 == 1).collect();
    for cell in members.into_iter().rev() {
        lists[s.random.below(shape.lists)].push(cell);
    }
    let worn: Vec<usize> = shape.node_cells().filter(|cell| (cell - shape.lists) % 6 == 3).collect();
    let words = s.sound_with(shape, &lists, &worn);
    s.load(&words);
    (lists, carriers(&words, 0))
}

/// One to four records at every allowance, from every kind of starting cell: the first free one, a member, the last cell, from which the
/// search goes on at cell L. One record is inserted by insert too.
pub fn cuts(s: &mut Script) {
    for (lists, nodes, width, most) in [(1, 7, 1, 4), (2, 7, 2, 4), (3, 9, 5, 3), (8, 7, 13, 2)] {
        let shape = Shape::new(lists, nodes, width);
        let (dealt, free) = scattered(s, shape);
        for number in 1..=most {
            let list = s.random.below(lists);
            let position = s.random.between(0, dealt[list].len());
            let start = [free[0], lists + 1, lists + nodes - 1, free[free.len() - 2]][number - 1];
            let edit = s.insertions(shape, list, position, start, number);
            s.cut(shape, &edit);
            if let (1, Insertions { repeated, .. }) = (number, &edit) {
                let record = repeated.clone();
                s.cut(shape, &Insertion { list, position, start, record });
            }
        }
    }
}

/// Every set of free and worn cells and every starting cell: as many records as are free, and one more.
pub fn searches(s: &mut Script) {
    let shape = Shape::new(2, 4, 1);
    for (lists, words) in every_use(s, shape) {
        s.load(&words);
        let free = carriers(&words, 0).len();
        for start in shape.node_cells() {
            let list = s.random.below(2);
            let position = s.random.between(0, lists[list].len());
            for number in [free, free + 1] {
                let edit = s.insertions(shape, list, position, start, number.max(1));
                s.attempt(&edit, ENOUGH);
            }
        }
    }
}

/// Every number of words, with few nodes free and with none; each argument at the ends of its range and beyond.
pub fn limits(s: &mut Script) {
    let shape = Shape::new(3, 7, 4);
    let roomy = [vec![5, 3, 8], vec![], vec![4]];
    let full = [vec![5, 3, 8, 9], vec![7], vec![4]];
    for lists in [roomy, full] {
        let words = s.sound_with(shape, &lists, &[6]);
        s.load(&words);
        let mut edits = vec![];
        for size in (0..=17).chain([20, 28, 32, 65, 4096, 8000, 8004, 32_096, 32_100]) {
            edits.push(Insertions { list: 0, position: 1, start: 6, size, repeated: vec![9, 8, 7] });
        }
        for (list, position, start) in
            [(3, 0, 3), (65_535, 0, 3), (0, 4, 3), (0, 65_535, 3), (1, 0, 2), (1, 0, 10), (1, 0, 65_535), (2, 1, 9)]
        {
            edits.push(s.insertions(shape, list, position, start, 2));
        }
        for edit in &edits {
            for allowance in [0, ENOUGH] {
                s.attempt(edit, allowance);
            }
        }
    }
}

/// Questions 1 to 4: less than eight words and few more, each of the first eight altered.
pub fn short_stores(s: &mut Script) {
    let shape = Shape::new(1, 2, 1);
    let edit = Insertions { list: 0, position: 0, start: 1, size: 2, repeated: vec![7] };
    let whole = [s.sound(shape, &[vec![]]), vec![0; 2]].concat();
    for size in 0..=whole.len() {
        s.load(&whole[..size]);
        let allowance = s.random.pick(&[0, ENOUGH]);
        s.attempt(&edit, allowance);
    }
    for at in 0..8 {
        for value in [whole[at].wrapping_sub(1), whole[at] + 1, 65_535] {
            s.load(&crate::altered(&whole[..shape.size()], &[(at, value)]));
            for allowance in [0, ENOUGH] {
                s.attempt(&edit, allowance);
            }
        }
    }
}

/// Several reasons to refuse at once, in every combination: the first question decides.
pub fn several_reasons(s: &mut Script) {
    let shape = Shape::new(2, 6, 2);
    let roomy = s.sound_with(shape, &[vec![7, 2], vec![4]], &[6]);
    let full = s.sound_with(shape, &[vec![7, 2], vec![4, 3]], &[6]);
    for reasons in 0..512 {
        let has = |i: usize| reasons >> (8 - i) & 1 == 1;
        let mut words = if has(0) { full.clone() } else { roomy.clone() };
        spoil(&mut s.random, &mut words, [has(1), has(2), has(4)]);
        if has(3) {
            words[s.random.pick(&[8, 9, 10, 11, 16, 17, 18])] = 77;
        }
        s.load(&words);
        let list = if has(5) { 2 } else { 0 };
        let position = if has(6) { 4 } else { 1 };
        let start = if has(7) { s.random.pick(&[0, 1, 8, 65_535]) } else { 5 };
        let size = if has(8) { s.random.pick(&[0, 3, 5]) } else { 4 };
        let allowance = s.random.pick(&[0, ENOUGH]);
        s.attempt(&Insertions { list, position, start, size, repeated: vec![6, 5] }, allowance);
    }
}

/// Courses: one to four records cut after every number of stores, alterations in the other lists, recoveries.
pub fn courses(s: &mut Script) {
    for (lists, nodes, width, most, numbers) in
        [(1, 6, 1, 1, 3..=3), (2, 9, 1, 3, 1..=4), (3, 9, 3, 3, 2..=3), (8, 12, 13, 4, 2..=2)]
    {
        let shape = Shape::new(lists, nodes, width);
        for number in numbers {
            let (dealt, _) = scattered(s, shape);
            let words = s.words.clone();
            let list = s.random.below(lists);
            let position = s.random.between(0, dealt[list].len());
            let start = s.node(shape);
            let edit = s.insertions(shape, list, position, start, number);
            for allowance in 0..=edit.whole(shape) {
                s.load(&words);
                course(s, shape, &edit, allowance, most);
            }
        }
    }
    let shape = Shape::new(5, 300, 1);
    for _ in 0..6 {
        let dealt = s.deal(shape, 100);
        let words = s.plain(shape, &dealt);
        s.load(&words);
        let (list, start) = (s.random.below(5), s.node(shape));
        let position = s.random.between(0, dealt[list].len());
        let edit = Insertions { list, position, start, size: 100, repeated: vec![3, 1, 4] };
        let allowance = s.random.below(701) as u16;
        course(s, shape, &edit, allowance, 3);
    }
}

/// The largest store, filled by one call of 38,000 stores; cut before the last of them and recovered; one record too many. A smaller one
/// filled beside worn nodes.
pub fn largest(s: &mut Script) {
    let shape = Shape::new(8, 2000, 13);
    let of = |size| Insertions { list: 3, position: 0, start: 1000, size, repeated: (1..=64).collect() };
    formatted(s, shape);
    s.add(of(26_013).with(ENOUGH));
    s.add(of(26_001).with(0));
    s.add(of(26_000).with(37_999));
    s.add(Recover { allowance: ENOUGH });
    s.ask(3, 1999);
    formatted(s, shape);
    s.add(of(26_000).with(ENOUGH));
    for position in [0, 1, 1007, 1008, 1999, 2000] {
        s.ask(3, position);
    }
    s.add(of(13).with(ENOUGH));
    s.add(Deletion { list: 3, position: 1000 }.with(ENOUGH));
    s.add(of(26).with(ENOUGH));
    s.add(of(13).with(ENOUGH));
    let shape = Shape::new(8, 300, 1);
    let of = |size| Insertions { list: 3, position: 0, start: 200, size, repeated: (1..=64).collect() };
    formatted(s, shape);
    for cell in [8, 200, 201, 307] {
        s.add(MarkWorn { cell });
    }
    s.add(of(297).with(ENOUGH));
    s.add(of(296).with(7 * 296 - 1));
    s.add(Recover { allowance: ENOUGH });
    for position in [0, 104, 105, 295] {
        s.ask(3, position);
    }
    s.add(of(1).with(ENOUGH));
}
