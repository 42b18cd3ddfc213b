//! The parts of the script that insert and delete.

use crate::{altered, values_for, Script};
use model::recovery::{due_of_delete, due_of_insert};
use model::samples::{all_lists_and_worn, carriers, spoil, with_worn};
use model::script::{Operation, Operation::*, LONGEST};
use model::store::{self, store_of, Shape, IDENTIFIER, WORN};

/// No call needs a larger allowance.
pub const ENOUGH: u16 = 65_535;

/// A call that stores but for its allowance. Several records have `size` words in all: those of `repeated`, over and over.
#[derive(Clone)]
pub enum Edit {
    Insertion { list: usize, position: usize, start: usize, record: Vec<u16> },
    Insertions { list: usize, position: usize, start: usize, size: usize, repeated: Vec<u16> },
    Deletion { list: usize, position: usize },
}

use Edit::*;

impl Edit {
    pub fn with(&self, allowance: u16) -> Operation {
        match *self {
            Insertion { list, position, start, ref record } => Insert {
                list: list as u16,
                position: position as u16,
                start: start as u16,
                record: record.clone(),
                allowance,
            },
            Insertions { list, position, start, size, ref repeated } => InsertSeveral {
                list: list as u16,
                position: position as u16,
                start: start as u16,
                size: size as u16,
                repeated: repeated.clone(),
                allowance,
            },
            Deletion { list, position } => Delete { list: list as u16, position: position as u16, allowance },
        }
    }

    pub fn list(&self) -> usize {
        match *self {
            Insertion { list, .. } | Insertions { list, .. } | Deletion { list, .. } => list,
        }
    }

    /// The number of its stores.
    pub fn whole(&self, shape: Shape) -> u16 {
        match self {
            Insertion { record, .. } => record.len() as u16 + 6,
            Insertions { size, .. } => (size / shape.width * (shape.width + 6)) as u16,
            Deletion { .. } => shape.width as u16 + 4,
        }
    }

    /// The stores that count as made if it is cut after so many.
    pub fn due(&self, shape: Shape, allowance: u16) -> u16 {
        match self {
            Deletion { .. } => due_of_delete(shape.width, allowance),
            _ => due_of_insert(shape.width, allowance),
        }
    }
}

impl Script {
    /// Random words, some of them such as links, counts and identifiers.
    pub fn record(&mut self, size: usize) -> Vec<u16> {
        (0..size)
            .map(|_| match self.random.below(6) {
                0 => self.random.pick(&[0, 1, 65_535, IDENTIFIER]),
                1 => self.random.below(20) as u16,
                _ => self.random.word(),
            })
            .collect()
    }

    /// The insertion of a random record.
    pub fn insertion(&mut self, shape: Shape, list: usize, position: usize, start: usize) -> Edit {
        Insertion { list, position, start, record: self.record(shape.width) }
    }

    /// A random node.
    pub fn node(&mut self, shape: Shape) -> usize {
        shape.lists + self.random.below(shape.nodes)
    }

    /// The call, and the store put back.
    pub fn attempt(&mut self, edit: &Edit, allowance: u16) {
        let words = self.words.clone();
        self.add(edit.with(allowance));
        self.load(&words);
    }

    /// Asks for a check, and if the store is not sound makes one more call, which is refused.
    fn aftermath(&mut self, shape: Shape, list: usize) {
        self.add(Check);
        if store::check(&self.words) == 0 {
            return;
        }
        let allowance = self.random.pick(&[0, 1, ENOUGH]);
        let call = match self.random.below(4) {
            0 => Length { list: list as u16 },
            1 => Deletion { list, position: 0 }.with(allowance),
            _ => self.insertion(shape, list, 0, shape.lists).with(allowance),
        };
        self.add(call);
    }

    /// The call at every allowance from 0 to one above the number of its stores. The store is put back after each.
    pub fn cut(&mut self, shape: Shape, edit: &Edit) {
        let words = self.words.clone();
        for allowance in 0..=edit.whole(shape) + 1 {
            self.add(edit.with(allowance));
            self.aftermath(shape, 0);
            self.load(&words);
        }
    }
}

/// A formatted store.
pub fn formatted(s: &mut Script, shape: Shape) {
    let value = s.random.word();
    s.add(Fill { size: shape.size() as u16, value });
    s.add(Format { lists: shape.lists as u16, nodes: shape.nodes as u16, width: shape.width as u16 });
}

/// The marked store by calls, each cut everywhere and then done.
pub fn marked_store(s: &mut Script) {
    let shape = Shape::new(1, 3, 1);
    formatted(s, shape);
    for (position, word) in [(0, 700), (1, 512)] {
        let edit = Insertion { list: 0, position, start: 2, record: vec![word] };
        s.cut(shape, &edit);
        s.add(edit.with(ENOUGH));
        s.ask(0, position);
    }
    for position in 0..4 {
        s.attempt(&Insertion { list: 0, position, start: 2, record: vec![9] }, ENOUGH);
    }
    for position in 0..2 {
        s.cut(shape, &Deletion { list: 0, position });
    }
    s.add(Deletion { list: 0, position: 0 }.with(5));
    s.ask(0, 0);
    s.add(Deletion { list: 0, position: 0 }.with(5));
    s.ask(0, 0);
}

/// Questions 1 to 4: less than eight words and few more, each of the first eight altered, a wrong length.
pub fn short_stores(s: &mut Script) {
    let shape = Shape::new(1, 1, 1);
    let insertion = Insertion { list: 0, position: 0, start: 1, record: vec![7] };
    let deletion = Deletion { list: 0, position: 0 };
    let whole = [s.sound(shape, &[vec![1]]), vec![0; 2]].concat();
    for size in 0..=whole.len() {
        s.load(&whole[..size]);
        for allowance in [0, ENOUGH] {
            s.attempt(&insertion, allowance);
            s.attempt(&deletion, allowance);
        }
    }
    let empty = s.sound(shape, &[vec![]]);
    for words in [&empty[..], &whole[..16]] {
        for at in 0..8 {
            for value in [words[at].wrapping_sub(1), words[at] + 1, words[at] | 0x100, 65_535] {
                s.load(&altered(words, &[(at, value)]));
                let allowance = s.random.pick(&[0, ENOUGH]);
                s.attempt(&insertion, allowance);
                s.attempt(&deletion, allowance);
            }
        }
    }
}

/// One list and one node, which is free, a member or worn: every argument that is right and those just beyond.
pub fn smallest_stores(s: &mut Script) {
    let shape = Shape::new(1, 1, 1);
    for (sequence, worn) in [(vec![], &[][..]), (vec![1], &[]), (vec![], &[1])] {
        let words = s.sound_with(shape, &[sequence], worn);
        s.load(&words);
        for (list, position) in [(0, 0), (0, 1), (0, 2), (1, 0), (1, 1)] {
            for allowance in [0, ENOUGH] {
                s.attempt(&Deletion { list, position }, allowance);
                for start in [0, 1, 2, 65_535] {
                    for size in 0..3 {
                        let record = s.record(size);
                        s.attempt(&Insertion { list, position, start, record }, allowance);
                    }
                }
            }
        }
        let insertion = s.insertion(shape, 0, 0, 1);
        s.cut(shape, &insertion);
        s.cut(shape, &Deletion { list: 0, position: 0 });
    }
}

/// All sound stores of some small shapes: an insert at every position and a delete of every member, and just beyond.
pub fn small_stores(s: &mut Script) {
    for (lists, nodes) in [(1, 2), (1, 3), (2, 2), (2, 3)] {
        let shape = Shape::new(lists, nodes, 1);
        for (lists, worn) in all_lists_and_worn(shape) {
            s.load(&with_worn(store_of(shape, &lists, || 0), &worn));
            for (list, sequence) in lists.iter().enumerate() {
                for position in 0..=sequence.len() + 1 {
                    let start = s.node(shape);
                    let insertion = s.insertion(shape, list, position, start);
                    s.attempt(&insertion, ENOUGH);
                }
                for position in 0..=sequence.len() {
                    s.attempt(&Deletion { list, position }, ENOUGH);
                }
            }
        }
    }
}

/// Every width, and in it every allowance: into an empty list, at the front, inside and at the end; by turns of the only member, the
/// first, one inside and the last, at the ends of the range of all four. The lists' cells are interleaved.
pub fn cuts(s: &mut Script) {
    for width in 1..=13 {
        let shape = Shape::new(3 + width % 6, s.random.between(8, 14), width);
        let mut cells: Vec<usize> = shape.node_cells().collect();
        s.random.shuffle(&mut cells);
        let mut order: Vec<usize> = (0..shape.lists).collect();
        s.random.shuffle(&mut order);
        let [empty, single, several] = [order[0], order[1], order[2]];
        let mut lists = vec![vec![]; shape.lists];
        lists[single] = cells[..1].to_vec();
        lists[several] = cells[1..5].to_vec();
        for &list in &order[3..] {
            lists[list] = cells[5..].iter().copied().filter(|c| c % shape.lists == list).take(1).collect();
        }
        let words = s.sound(shape, &lists);
        s.load(&words);
        let inside = s.random.between(1, 3);
        for (list, position) in [(empty, 0), (single, 1), (several, 0), (several, inside), (several, 4)] {
            let start = s.node(shape);
            let insertion = s.insertion(shape, list, position, start);
            s.cut(shape, &insertion);
        }
        let deletions = [(single, 0), (several, 0), (several, 1), (several, 3)];
        for (i, (list, position)) in deletions.into_iter().enumerate() {
            if i == width % 4 || [1, 13].contains(&width) {
                s.cut(shape, &Deletion { list, position });
            }
        }
    }
    for _ in 0..12 {
        let shape = Shape::new(s.random.between(1, 8), s.random.between(1, 20), s.random.between(1, 13));
        let used = s.random.between(0, shape.nodes);
        let lists = s.deal(shape, used);
        let words = s.sound(shape, &lists);
        s.load(&words);
        for growing in [true, false] {
            let edit = random_edit(s, shape, &lists, growing);
            s.cut(shape, &edit);
        }
    }
}

/// A record deleted and inserted again in the same cell: the stores of the record and the links change nothing, and count. All other
/// nodes are members or worn.
pub fn equal_values(s: &mut Script) {
    for (lists, nodes, width, position) in [(1, 1, 1, 0), (1, 3, 2, 2), (2, 4, 3, 1), (3, 6, 13, 0)] {
        let shape = Shape::new(lists, nodes, width);
        let mut cells: Vec<usize> = shape.node_cells().collect();
        s.random.shuffle(&mut cells);
        let mut sequences = vec![vec![]; lists];
        sequences[lists - 1] = cells[..nodes.min(3)].to_vec();
        let words = s.sound_with(shape, &sequences, &cells[nodes.min(3)..]);
        s.load(&words);
        let (list, start) = (lists - 1, sequences[lists - 1][position]);
        let record = store::read(&words, list as u16, position as u16).expect("a member").to_vec();
        s.add(Deletion { list, position }.with(ENOUGH));
        s.cut(shape, &Insertion { list, position, start, record });
    }
}

/// The stores in which each node is free, a member or worn, in every combination; the list of a member is random.
pub fn every_use(s: &mut Script, shape: Shape) -> Vec<(Vec<Vec<usize>>, Vec<u16>)> {
    let mut all = vec![];
    for choice in 0..3usize.pow(shape.nodes as u32) {
        let (mut choice, mut lists, mut worn) = (choice, vec![vec![]; shape.lists], vec![]);
        for cell in shape.node_cells() {
            match choice % 3 {
                0 => (),
                1 => lists[s.random.below(shape.lists)].push(cell),
                _ => worn.push(cell),
            }
            choice /= 3;
        }
        let words = with_worn(store_of(shape, &lists, || 0), &worn);
        all.push((lists, words));
    }
    all
}

/// The search of a free cell: every set of free and worn cells and every starting cell; the only free cell just before the start.
pub fn searches(s: &mut Script) {
    let shape = Shape::new(3, 4, 1);
    for (lists, words) in every_use(s, shape) {
        s.load(&words);
        for start in shape.node_cells() {
            let list = s.random.below(3);
            let position = s.random.between(0, lists[list].len());
            let insertion = s.insertion(shape, list, position, start);
            s.attempt(&insertion, ENOUGH);
        }
    }
    let shape = Shape::new(8, 20, 2);
    let lists = s.deal(shape, 15);
    let full = s.sound_with(shape, &lists, &[]);
    let full = with_worn(full.clone(), &carriers(&full, 0));
    s.load(&full);
    for (list, sequence) in lists.iter().enumerate() {
        for (position, &cell) in sequence.iter().enumerate() {
            s.add(Deletion { list, position }.with(ENOUGH));
            let next = if cell == 27 { 8 } else { cell + 1 };
            for start in [next, cell, 8, 27] {
                let other = s.random.below(8);
                let insertion = s.insertion(shape, other, 0, start);
                s.attempt(&insertion, ENOUGH);
            }
            let insertion = s.insertion(shape, list, position, next);
            if position == 1 {
                s.cut(shape, &insertion);
            }
            s.add(insertion.with(ENOUGH));
            s.add(insertion.with(ENOUGH));
        }
    }
    let insertion = s.insertion(shape, 0, 0, 8);
    s.cut(shape, &insertion);
}

/// Each argument at the ends of its range, beyond, and far off, with no allowance and with enough.
pub fn limits(s: &mut Script) {
    let shape = Shape::new(3, 7, 4);
    let lists = [vec![5, 3, 8], vec![], vec![4]];
    let words = s.sound_with(shape, &lists, &[6]);
    s.load(&words);
    let mut edits = vec![];
    for list in [0, 1, 2, 3, 4, 7, 8, 255, 256, 257, 42_400, 65_535] {
        edits.push(s.insertion(shape, list, 0, 3));
        edits.push(Deletion { list, position: 0 });
    }
    for (list, sequence) in lists.iter().enumerate() {
        let n = sequence.len();
        for position in [n.saturating_sub(1), n, n + 1, n + 2, n | 0x100, n | 0x8000, 65_535] {
            edits.push(s.insertion(shape, list, position, 9));
            edits.push(Deletion { list, position });
        }
    }
    for start in [0, 1, 2, 3, 4, 8, 9, 10, 11, 255, 256 + 4, 2007, 2008, 0x8000 + 4, 42_400, 65_535] {
        edits.push(s.insertion(shape, 0, 1, start));
        edits.push(s.insertion(shape, 1, 1, start));
    }
    for size in [0, 1, 2, 3, 4, 5, 6, 12, 13, 14, 19, LONGEST - 1, LONGEST] {
        let record = s.record(size);
        for (position, start) in [(0, 3), (0, 2), (4, 3)] {
            edits.push(Insertion { list: 0, position, start, record: record.clone() });
        }
    }
    for edit in &edits {
        for allowance in [0, ENOUGH] {
            s.attempt(edit, allowance);
        }
    }
    for edit in [s.insertion(shape, 0, 1, 9), s.insertion(shape, 1, 0, 4), Deletion { list: 0, position: 2 }] {
        for allowance in [19, 20, 255, 256, 257, 258, 512, 4096, 32_767, 32_768, 32_769, 65_280, 65_534] {
            s.attempt(&edit, allowance);
        }
    }
    let full = s.sound_with(shape, &[vec![5, 3, 8, 9], vec![7], vec![4]], &[6]);
    s.load(&full);
    for edit in &edits {
        let allowance = s.random.pick(&[0, ENOUGH]);
        s.attempt(edit, allowance);
    }
}

/// Several reasons to refuse at once, in every combination: the first question decides.
pub fn several_reasons(s: &mut Script) {
    let shape = Shape::new(2, 10, 3);
    let roomy = s.sound_with(shape, &[vec![7, 2, 9], vec![4]], &[3, 11]);
    let full = s.sound_with(shape, &[vec![7, 2, 9, 3], vec![4, 8, 10]], &[5, 6, 11]);
    for reasons in 0..512 {
        let has = |i: usize| reasons >> (8 - i) & 1 == 1;
        let mut words = if has(0) { full.clone() } else { roomy.clone() };
        spoil(&mut s.random, &mut words, [has(1), has(2), has(4)]);
        if has(3) {
            words[s.random.pick(&[8, 9, 10, 11, 16, 17, 18])] = 77;
        }
        s.load(&words);
        let list = if has(5) { 2 } else { 0 };
        let position = if has(6) { 7 } else { 0 };
        let start = if has(7) { s.random.pick(&[0, 1, 12, 65_535]) } else { 2 };
        let record = s.record(if has(8) { 2 } else { 3 });
        let allowance = s.random.pick(&[0, ENOUGH]);
        s.attempt(&Insertion { list, position, start, record }, allowance);
        if !has(7) && !has(8) {
            s.attempt(&Deletion { list, position }, allowance);
        }
    }
}

/// Each word of the headers, and the first four of each node, altered alone.
pub fn damage(s: &mut Script) {
    let shape = Shape::new(3, 8, 4);
    let lists = [vec![6, 3, 9], vec![], vec![10, 5]];
    let words = s.sound(shape, &lists);
    s.load(&words);
    for cell in 0..shape.lists + shape.nodes {
        for i in 0..4 {
            let at = shape.cell(cell) + i;
            for value in values_for(shape, cell < shape.lists, i, words[at]) {
                s.load(&altered(&words, &[(at, value)]));
                let list = s.random.pick(&[0, 0, 1, 2]);
                let edit = match s.random.below(5) {
                    0 | 1 => s.insertion(shape, list, 0, 3),
                    2 => Deletion { list, position: 0 },
                    _ => continue,
                };
                s.attempt(&edit, ENOUGH);
            }
        }
        s.load(&words);
    }
}

/// A random call: most have right arguments.
pub fn random_edit(s: &mut Script, shape: Shape, lists: &[Vec<usize>], growing: bool) -> Edit {
    let list = s.random.below(shape.lists);
    let n = lists[list].len();
    let beyond = usize::from(s.random.below(40) == 0);
    if s.random.below(10) < if growing { 8 } else { 2 } {
        let start = if s.random.below(40) == 0 { s.random.pick(&[0, shape.node_cells().end]) } else { s.node(shape) };
        let position = s.random.between(0, n + beyond);
        s.insertion(shape, list, position, start)
    } else {
        let position = s.random.between(0, (n + beyond).saturating_sub(1));
        Deletion { list, position }
    }
}

/// Inserts and deletes, by turns more of these and more of those, so that the lists fill and empty. A call that is cut and
/// leaves a store that is not sound is taken back. Up to a third of the nodes are marked worn on the way.
fn history(s: &mut Script, shape: Shape, calls: usize) {
    formatted(s, shape);
    let mut growing = true;
    for turn in 1..=calls {
        let lists = store::lists(&s.words, shape).expect("a sound store");
        let free = carriers(&s.words, 0);
        if s.random.below(3) == 0 {
            growing = lists.concat().is_empty() || (growing && !free.is_empty());
        }
        if s.random.below(30) == 0 && !free.is_empty() && carriers(&s.words, WORN).len() < shape.nodes / 3 {
            let cell = s.random.pick(&free) as u16;
            s.add(MarkWorn { cell });
        }
        let words = s.words.clone();
        let edit = random_edit(s, shape, &lists, growing);
        let whole = edit.whole(shape);
        let allowance = match s.random.below(16) {
            0 => s.random.below(whole.into()) as u16,
            1 => whole,
            2 => whole + 1,
            _ => ENOUGH,
        };
        s.add(edit.with(allowance));
        if store::check(&s.words) != 0 {
            s.aftermath(shape, 0);
            s.load(&words);
        }
        if turn % 150 == 0 || turn == calls {
            let lists = store::lists(&s.words, shape).expect("a sound store");
            s.ask_all(shape, &lists);
        }
    }
}

/// Long histories in stores of several shapes.
pub fn histories(s: &mut Script) {
    for (lists, nodes, width, calls) in [
        (1, 1, 1, 100),
        (1, 3, 1, 250),
        (2, 4, 1, 300),
        (8, 2, 1, 150),
        (3, 9, 2, 400),
        (8, 5, 3, 300),
        (5, 12, 13, 300),
        (4, 30, 2, 600),
        (1, 60, 1, 500),
        (8, 100, 4, 800),
        (2, 250, 1, 600),
    ] {
        history(s, Shape::new(lists, nodes, width), calls);
    }
}

/// The largest store: empty, with three nodes left beside worn ones, and full.
pub fn largest(s: &mut Script) {
    let shape = Shape::new(8, 2000, 13);
    formatted(s, shape);
    for start in [8, 9, 1000, 2006, 2007, 7, 2008, 65_535] {
        let insertion = s.insertion(shape, 7, 0, start);
        s.attempt(&insertion, ENOUGH);
    }
    let insertion = s.insertion(shape, 0, 0, 2007);
    s.cut(shape, &insertion);
    let lists = s.deal(shape, 1990);
    let words = store_of(shape, &lists, || 0);
    let mut others = carriers(&words, 0);
    s.random.shuffle(&mut others);
    s.load(&with_worn(words, &others[3..]));
    for (list, position) in [(0, 0), (3, lists[3].len() / 2), (7, lists[7].len())] {
        let start = s.node(shape);
        let insertion = s.insertion(shape, list, position, start);
        s.cut(shape, &insertion);
        s.add(insertion.with(ENOUGH));
    }
    s.ask(7, lists[7].len());
    for start in [8, 1000, 2007] {
        let insertion = s.insertion(shape, 2, 0, start);
        s.attempt(&insertion, ENOUGH);
    }
    for (list, position) in [(0, 0), (4, lists[4].len() / 2), (7, lists[7].len())] {
        s.cut(shape, &Deletion { list, position });
    }
    for turn in 0..40 {
        let lists = store::lists(&s.words, shape).expect("a sound store");
        let list = s.random.below(8);
        let position = s.random.below(lists[list].len());
        s.add(Deletion { list, position }.with(17));
        let cell = lists[list][position];
        let next = if cell == 2007 { 8 } else { cell + 1 };
        let other = s.random.below(8);
        let start = if turn % 2 == 0 { next } else { s.node(shape) };
        let insertion = s.insertion(shape, other, 0, start);
        s.add(insertion.with(ENOUGH));
        s.ask(other, 0);
    }
    let lists = store::lists(&s.words, shape).expect("a sound store");
    for (list, position) in [(0, lists[0].len()), (0, 65_535), (8, 0), (65_535, 0)] {
        s.attempt(&Deletion { list, position }, ENOUGH);
        let insertion = s.insertion(shape, list, (position + 1).min(65_535), 8);
        s.attempt(&insertion, ENOUGH);
    }
}
