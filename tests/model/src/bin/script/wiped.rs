//! The parts of the script that wipe: cut deletes, and older stores, which have remains of records in their free nodes.

use crate::edits::{random_edit, Edit, Edit::*, ENOUGH};
use crate::recoveries::{finish, NOWHERE};
use crate::{altered, Script};
use model::alterations::adversarial;
use model::courses::{Call, Courses};
use model::former;
use model::samples::{carriers, older_stores, remain};
use model::script::Operation::*;
use model::store::{self, store_of, Shape, WORN};

/// The words after a former insert or delete with this allowance.
fn formerly(words: &[u16], edit: &Edit, allowance: u16) -> Vec<u16> {
    let mut left = words.to_vec();
    match *edit {
        Insertion { list, position, start, ref record } => {
            former::insert(&mut left, list as u16, position as u16, start as u16, record, allowance)
        }
        Deletion { list, position } => former::delete(&mut left, list as u16, position as u16, allowance),
        Insertions { .. } => unreachable!("one record at a time"),
    };
    left
}

impl Script {
    /// A random store of these lists, some nodes worn, and remains in others.
    fn older(&mut self, shape: Shape, lists: &[Vec<usize>]) -> Vec<u16> {
        let words = self.sound(shape, lists);
        remain(&mut self.random, words)
    }

    /// Every call that asks whether the store is sound. The store is put back after each.
    fn every_call(&mut self, shape: Shape, list: usize) {
        self.ask(list, 0);
        let (start, allowance) = (self.node(shape), self.random.pick(&[0, ENOUGH]));
        let insertion = self.insertion(shape, list, 0, start);
        let insertions = Insertions { list, position: 0, start, size: shape.width, repeated: vec![6, 5] };
        for edit in [insertion, insertions, Deletion { list, position: 0 }] {
            self.attempt(&edit, allowance);
        }
        self.mark(start);
    }
}

/// All small older stores: each call is refused with 6, recovery cut everywhere, and then each call works.
pub fn older_small_stores(s: &mut Script) {
    for (lists, nodes, width) in [(1, 1, 1), (1, 2, 3), (2, 2, 1), (1, 3, 2)] {
        let shape = Shape::new(lists, nodes, width);
        for (lists, words) in older_stores(shape) {
            let list = s.random.below(lists.len());
            s.load(&words);
            s.every_call(shape, list);
            s.recover_at_each(&words);
            s.every_call(shape, list);
        }
    }
}

/// Each record word of the free nodes made not 0, alone, and each of the worn nodes and members.
pub fn single_words(s: &mut Script) {
    for (lists, nodes, width) in [(1, 3, 2), (2, 6, 3), (3, 4, 13)] {
        let shape = Shape::new(lists, nodes, width);
        let dealt = s.deal(shape, nodes / 3);
        let sound = s.sound(shape, &dealt);
        for at in shape.node_cells().flat_map(|cell| shape.record(cell)) {
            let value = s.random.pick(&[1, 0x100, WORN]);
            s.load(&altered(&sound, &[(at, value)]));
            s.add(Check);
            s.recover(ENOUGH);
            s.load(&sound);
        }
    }
}

/// A delete cut after each of its stores, and each cut of the recovery.
pub fn deletes(s: &mut Script) {
    for (lists, nodes, width, used) in [(1, 1, 1, 1), (2, 4, 3, 3), (1, 3, 13, 2)] {
        let shape = Shape::new(lists, nodes, width);
        let dealt = s.deal(shape, used);
        let sound = s.sound(shape, &dealt);
        let list = dealt.iter().position(|sequence| !sequence.is_empty()).expect("a member");
        let edit = Deletion { list, position: dealt[list].len() - 1 };
        for allowance in 0..=edit.whole(shape) {
            s.load(&sound);
            s.add(edit.with(allowance));
            let cut = s.words.clone();
            s.recover_at_each(&cut);
        }
    }
}

/// Courses that begin with a former insert or delete on an older store, cut everywhere.
pub fn former_courses(s: &mut Script) {
    for (lists, nodes, width, edits, most) in [(1, 3, 1, 6, 2), (2, 4, 2, 6, 3), (3, 7, 3, 6, 3), (8, 12, 13, 4, 4)] {
        let shape = Shape::new(lists, nodes, width);
        for turn in 0..edits {
            let dealt = s.deal(shape, nodes * 2 / 3);
            let older = s.older(shape, &dealt);
            let edit = random_edit(s, shape, &dealt, turn % 2 == 0);
            let whole = if let Deletion { .. } = edit { 4 } else { edit.whole(shape) };
            for allowance in 0..=whole {
                let (found, new) = (formerly(&older, &edit, allowance), formerly(&older, &edit, edit.due(shape, allowance)));
                s.load(&found);
                finish(s, shape, &older, edit.list(), &new, most);
            }
        }
    }
}

/// All courses of the store that is there, after a call that is refused; every list may be altered.
fn courses_of_none(s: &mut Script, shape: Shape, values: Vec<u16>) {
    let call = Call { list: shape.lists as u16, position: 0, start: 0, record: 0 };
    s.add(AllCourses(Courses { call, other: (NOWHERE.0 as u16, NOWHERE.1), values }));
}

/// All courses of older small stores; and of what a former insert or delete leaves of some of them, cut everywhere.
pub fn every_course(s: &mut Script) {
    for (lists, nodes, width) in [(1, 2, 1), (2, 2, 1), (1, 2, 2)] {
        let shape = Shape::new(lists, nodes, width);
        for (_, words) in older_stores(shape) {
            s.load(&words);
            courses_of_none(s, shape, adversarial(shape));
        }
    }
    for (lists, nodes, sequences) in [(1, 2, vec![vec![2]]), (2, 3, vec![vec![3], vec![4]])] {
        let shape = Shape::new(lists, nodes, 1);
        let mut older = store_of(shape, &sequences, || 7);
        carriers(&older, 0).into_iter().for_each(|cell| older[shape.record(cell)].fill(5));
        let insertion = Insertion { list: 0, position: 1, start: lists, record: vec![8] };
        for (edit, whole) in [(insertion, 7), (Deletion { list: 0, position: 0 }, 4)] {
            for allowance in 0..=whole {
                s.load(&formerly(&older, &edit, allowance));
                courses_of_none(s, shape, vec![0, nodes as u16, WORN]);
            }
        }
    }
}

/// The largest store with remains in every record word, an identifier on every node, a fault and a wrong count in every list: as many stores
/// as can be.
pub fn largest(s: &mut Script) {
    let shape = Shape::new(8, 2000, 13);
    let mut head = store_of(shape, &vec![vec![]; 8], || 0)[..shape.cell(8)].to_vec();
    (0..8).for_each(|list| head[shape.cell(list) + list % 3] = 77);
    (0..8).for_each(|list| head[shape.cell(list) + 3] = 77);
    let most = (2 * 8 + 2000 + 13 * 2000) as u16;
    for allowances in [&[most][..], &[most - 1, 0, 1, 0], &[15, 1, 2000, 1, 12_999, 13_000, ENOUGH]] {
        s.add(Fill { size: shape.size() as u16, value: 9 });
        s.add(PutAll { at: 0, values: head.clone() });
        s.add(Check);
        for &allowance in allowances {
            s.recover(allowance);
        }
        s.ask(7, 0);
    }
    let insertion = s.insertion(shape, 7, 0, 2007);
    s.add(insertion.with(ENOUGH));
    s.cut(shape, &Deletion { list: 7, position: 0 });
    let last = shape.record(2006).end - 1;
    s.add(Put { at: last as u16, value: 1 });
    s.every_call(shape, 7);
    s.recover(0);
    s.recover(ENOUGH);
    assert_eq!(store::check(&s.words), 0);
}
