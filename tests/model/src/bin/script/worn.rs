//! The parts of the script that mark nodes worn.

use crate::edits::{formatted, random_edit, Edit::*, ENOUGH};
use crate::{altered, Script};
use model::samples::{all_lists_and_worn, carriers, spoil, with_worn};
use model::script::Operation::*;
use model::store::{self, store_of, Answer, Shape, IDENTIFIER, WORN};

impl Script {
    /// Marks the cell, and puts the store back.
    pub fn mark(&mut self, cell: usize) {
        let words = self.words.clone();
        self.add(MarkWorn { cell: cell as u16 });
        self.load(&words);
    }

    /// Marks each cell and what lies just beyond, and puts the store back after each.
    fn mark_each(&mut self, shape: Shape) {
        for cell in (0..=shape.node_cells().end + 1).chain([65_535]) {
            self.mark(cell);
        }
    }

    /// Inserts one record and several, from this cell on, and puts the store back after each.
    fn insert_from(&mut self, shape: Shape, list: usize, position: usize, start: usize) {
        let insertion = self.insertion(shape, list, position, start);
        self.attempt(&insertion, ENOUGH);
        for number in [1, 2] {
            let repeated = self.record(shape.width);
            let size = number * shape.width;
            self.attempt(&Insertions { list, position, start, size, repeated }, ENOUGH);
        }
    }
}

/// The marked store with cell 2 worn: the records go past it, to cells 3 and 1. Every cut is recovered.
pub fn marked_store(s: &mut Script) {
    let shape = Shape::new(1, 3, 1);
    formatted(s, shape);
    s.mark_each(shape);
    s.add(MarkWorn { cell: 2 });
    s.mark_each(shape);
    for (position, word) in [(0, 700), (1, 512)] {
        let edit = Insertion { list: 0, position, start: 2, record: vec![word] };
        let words = s.words.clone();
        for allowance in 0..edit.whole(shape) {
            s.add(edit.with(allowance));
            s.mark(2);
            s.mark(3);
            let cut = s.words.clone();
            s.recover_at_each(&cut);
            s.load(&words);
        }
        s.add(edit.with(ENOUGH));
        s.ask(0, position);
        s.mark_each(shape);
    }
    s.insert_from(shape, 0, 0, 2);
    let words = s.words.clone();
    for allowance in 0..=5 {
        s.add(Deletion { list: 0, position: 0 }.with(allowance));
        let cut = s.words.clone();
        s.recover_at_each(&cut);
        s.load(&words);
    }
    s.add(Deletion { list: 0, position: 0 }.with(ENOUGH));
    s.mark_each(shape);
    s.add(MarkWorn { cell: 3 });
    s.insert_from(shape, 0, 0, 2);
    s.ask(0, 0);
}

/// Questions 1 to 4: less than eight words and few more, each of the first eight altered, a wrong length.
pub fn short_stores(s: &mut Script) {
    let shape = Shape::new(1, 1, 1);
    let whole = [s.sound_with(shape, &[vec![]], &[]), vec![0; 2]].concat();
    for size in 0..=whole.len() {
        s.load(&whole[..size]);
        for cell in [1, 0, 2] {
            s.mark(cell);
        }
    }
    for at in 0..8 {
        for value in [whole[at].wrapping_sub(1), whole[at] + 1, whole[at] | 0x100, 65_535] {
            s.load(&altered(&whole[..shape.size()], &[(at, value)]));
            s.mark(1);
        }
    }
}

/// All sound stores of some small shapes, each cell marked; then recovered.
pub fn small_stores(s: &mut Script) {
    for (lists, nodes) in [(1, 1), (1, 2), (2, 2), (2, 3)] {
        let shape = Shape::new(lists, nodes, 1);
        for (lists, worn) in all_lists_and_worn(shape) {
            s.load(&with_worn(store_of(shape, &lists, || 0), &worn));
            s.mark_each(shape);
            s.add(Check);
            s.recover(ENOUGH);
        }
    }
}

/// Several reasons to refuse at once, in every combination: the first question decides.
pub fn several_reasons(s: &mut Script) {
    let shape = Shape::new(2, 5, 2);
    let sound = s.sound_with(shape, &[vec![5], vec![2]], &[4]);
    for reasons in 0..16 {
        let has = |i: usize| reasons >> i & 1 == 1;
        // free, a member, worn, and no node
        for cell in [3, 6, 2, 5, 4, 0, 1, 7, 65_535] {
            let mut words = sound.clone();
            spoil(&mut s.random, &mut words, [has(0), has(1), has(2)]);
            if has(3) {
                words[s.random.pick(&[8, 9, 10, 11, 12, 16, 17, 18, 21, 26])] = 77;
            }
            s.load(&words);
            s.mark(cell);
        }
    }
}

/// Cells at the ends of their range, beyond and far off; each word of the cells altered alone.
pub fn limits(s: &mut Script) {
    let shape = Shape::new(3, 7, 4);
    let words = s.sound_with(shape, &[vec![5, 3, 8], vec![], vec![4]], &[6]);
    s.load(&words);
    for cell in [0, 2, 3, 9, 10, 255, 256 + 7, 512 + 9, 2007, 2008, 0x8000 + 7, 42_400, 65_534] {
        s.mark(cell);
    }
    for cell in 0..shape.lists + shape.nodes {
        for i in 0..4 {
            for value in [0, 1, IDENTIFIER, WORN] {
                s.load(&altered(&words, &[(shape.cell(cell) + i, value)]));
                let marked = s.random.pick(&[7, 7, 9, cell]);
                s.mark(marked);
            }
        }
        s.load(&words);
    }
}

/// All nodes worn, or all that are in no list: no call finds one to use.
pub fn worn_out(s: &mut Script) {
    for (lists, nodes, width, used) in [(1, 1, 1, 0), (3, 7, 2, 0), (2, 6, 1, 4), (8, 20, 13, 0), (8, 30, 2, 9)] {
        let shape = Shape::new(lists, nodes, width);
        let dealt = s.deal(shape, used);
        let words = s.sound_with(shape, &dealt, &[]);
        let words = with_worn(words.clone(), &carriers(&words, 0));
        s.load(&words);
        s.mark_each(shape);
        for start in [lists, s.node(shape), lists + nodes - 1] {
            let list = s.random.below(lists);
            s.insert_from(shape, list, 0, start);
        }
        for allowance in [0, ENOUGH] {
            s.recover(allowance);
        }
        s.ask_all(shape, &dealt);
        for list in 0..lists {
            s.attempt(&Deletion { list, position: 0 }, ENOUGH);
        }
    }
}

/// One node is free. From the starting cell up to it all are worn; behind it are members, or they are worn too.
pub fn passed_over(s: &mut Script) {
    for (lists, nodes, width) in [(1, 5, 1), (3, 6, 2), (8, 13, 13)] {
        let shape = Shape::new(lists, nodes, width);
        for start in shape.node_cells() {
            let behind = s.random.between(0, nodes - 1);
            let ring: Vec<usize> = (start..lists + nodes).chain(lists..start).collect();
            let (passed, rest) = ring.split_at(behind);
            let mut dealt = vec![vec![]; lists];
            rest[1..].iter().filter(|_| start % 3 > 0).for_each(|&cell| dealt[cell % lists].push(cell));
            let worn = if start % 3 > 0 { passed.to_vec() } else { [passed, &rest[1..]].concat() };
            let words = s.sound_with(shape, &dealt, &worn);
            s.load(&words);
            let list = s.random.below(lists);
            let position = s.random.between(0, dealt[list].len());
            s.insert_from(shape, list, position, start);
            s.mark(rest[0]);
        }
    }
}

/// Worn is judged after membership. A member's or header's identifier is 65,535, and nodes in no list carry 65,535 and other
/// identifiers, in every combination, at every allowance.
pub fn recoveries(s: &mut Script) {
    let shape = Shape::new(1, 2, 1);
    let words = s.sound_with(shape, &[vec![1]], &[]);
    s.recover_at_each(&altered(&words, &[(12, WORN), (16, 7)]));
    let shape = Shape::new(2, 5, 1);
    let words = s.sound_with(shape, &[vec![4, 2], vec![6]], &[5]);
    let identifier = |cell| shape.cell(cell);
    for choice in 0..4 * 3 * 3 * 3 {
        let members = [(identifier(4), WORN), (identifier(2), WORN), (identifier(0), WORN), (identifier(4), IDENTIFIER)];
        let changes = [
            members[choice % 4],
            (identifier(6), [IDENTIFIER + 1, WORN, 0][choice / 4 % 3]),
            (identifier(3), [0, WORN, 7][choice / 12 % 3]),
            (identifier(5), [0, WORN, IDENTIFIER][choice / 36]),
        ];
        s.recover_at_each(&altered(&words, &changes));
    }
}

/// Inserts, deletes, marks and recoveries by turns. A call may be cut, and then recoveries too; the last is whole.
pub fn runs(s: &mut Script) {
    for (lists, nodes, width, calls) in [(1, 4, 1, 60), (2, 9, 2, 100), (8, 40, 1, 150), (3, 120, 3, 150)] {
        let shape = Shape::new(lists, nodes, width);
        let dealt = s.deal(shape, nodes / 2);
        let words = s.sound(shape, &dealt);
        s.load(&words);
        for turn in 0..calls {
            let lists = store::lists(&s.words, shape).expect("a sound store");
            let (cell, free) = (s.random.below(shape.node_cells().end + 1), carriers(&s.words, 0));
            if turn % 6 == 5 && (free.len() > nodes / 4 || !free.contains(&cell)) {
                s.add(MarkWorn { cell: cell as u16 });
                continue;
            }
            let edit = random_edit(s, shape, &lists, turn % 40 < 20);
            let allowance = s.random.below(usize::from(edit.whole(shape)) + 4) as u16;
            s.add(edit.with(allowance));
            s.mark(cell);
            while !matches!(s.recover(turn as u16 % 3), Answer::Done(_)) {
                if s.random.below(2) == 0 {
                    s.recover(ENOUGH);
                }
            }
        }
        let lists = store::lists(&s.words, shape).expect("a sound store");
        s.ask_all(shape, &lists);
    }
}

/// The largest store that the last part left: a node is deleted and marked. Then all nodes worn, and all but one.
pub fn largest(s: &mut Script) {
    let shape = Shape::new(8, 2000, 13);
    let (member, worn) = (store::lists(&s.words, shape).expect("a sound store")[2][0], carriers(&s.words, WORN)[0]);
    s.add(Deletion { list: 2, position: 0 }.with(ENOUGH));
    s.insert_from(shape, 2, 0, worn);
    s.mark(member);
    s.add(MarkWorn { cell: member as u16 });
    for cell in [member, worn, 0, 7, 8, 2007, 2008, 65_535] {
        s.mark(cell);
    }
    s.insert_from(shape, 2, 0, member);
    s.recover(ENOUGH);
    let empty = store_of(shape, &vec![vec![]; 8], || 0);
    s.add(Fill { size: shape.size() as u16, value: 65_535 });
    s.add(PutAll { at: 0, values: empty[..shape.cell(8)].to_vec() });
    s.ask(5, 0);
    for cell in [7, 8, 1000, 2007, 2008] {
        s.mark(cell);
    }
    s.insert_from(shape, 5, 0, 1000);
    s.recover(0);
    let free = shape.cell(1500) as u16;
    s.add(Put { at: free, value: 0 });
    for start in [8, 1500, 1501] {
        s.insert_from(shape, 5, 0, start);
    }
    s.add(MarkWorn { cell: 1500 });
    s.add(MarkWorn { cell: 1500 });
    s.add(Put { at: free, value: 1 });
    s.recover(ENOUGH);
    s.add(MarkWorn { cell: 1500 });
}
