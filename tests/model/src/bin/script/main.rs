//! script: writes the script of the program `cases` to standard output, the same at each run.

mod edits;
mod recoveries;
mod several;
mod wiped;
mod worn;

use model::random::Random;
use model::samples::{deal, spoil, wear, with_worn};
use model::script::{Operation, Operation::*, CAPACITY};
use model::store::{self, store_of, Shape, IDENTIFIER, WORN};
use std::io::Write;
use std::ops::Range;

/// A script that grows, and the store as the script leaves it.
struct Script {
    bytes: Vec<u8>,
    words: Vec<u16>,
    random: Random,
}

impl Script {
    fn add(&mut self, operation: Operation) {
        self.bytes.extend(operation.words().iter().flat_map(|w| w.to_le_bytes()));
        // courses leave the store as it is
        if !matches!(operation, AllCourses(_)) {
            operation.run(&mut self.words);
        }
    }

    /// Brings the store to these words. Only what differs is written, near differences in one entry.
    fn load(&mut self, target: &[u16]) {
        if self.words.len() != target.len() {
            self.add(Fill { size: target.len() as u16, value: 0 });
        }
        for range in differences(&self.words, target) {
            let at = range.start as u16;
            match target[range] {
                [value] => self.add(Put { at, value }),
                ref values => self.add(PutAll { at, values: values.to_vec() }),
            }
        }
    }

    fn ask(&mut self, list: usize, position: usize) {
        self.add(Check);
        self.add(Length { list: list as u16 });
        self.add(Read { list: list as u16, position: position as u16 });
    }

    /// Asks about the words with some changes, and puts them back.
    fn ask_with(&mut self, changes: &[(usize, u16)], list: usize, position: usize) {
        let words = self.words.clone();
        self.load(&altered(&words, changes));
        self.ask(list, position);
        self.load(&words);
    }

    /// Every length and record of a sound store, and what lies just beyond.
    fn ask_all(&mut self, shape: Shape, lists: &[Vec<usize>]) {
        self.add(Check);
        for list in [shape.lists, 65_535] {
            self.add(Length { list: list as u16 });
            self.add(Read { list: list as u16, position: 0 });
        }
        for (list, sequence) in lists.iter().enumerate() {
            self.add(Length { list: list as u16 });
            for position in (0..=sequence.len() + 1).chain([65_535]) {
                self.add(Read { list: list as u16, position: position as u16 });
            }
        }
    }

    /// A sound store of these lists and worn nodes, with random records and free links.
    fn sound_with(&mut self, shape: Shape, lists: &[Vec<usize>], worn: &[usize]) -> Vec<u16> {
        with_worn(store_of(shape, lists, || self.random.word()), worn)
    }

    /// A sound store of these lists, with random records and free links. Of the other nodes some are worn, and one is free.
    fn sound(&mut self, shape: Shape, lists: &[Vec<usize>]) -> Vec<u16> {
        let words = self.sound_with(shape, lists, &[]);
        wear(&mut self.random, words, 1)
    }

    /// The same with records of 0, and 0 in the free links of most nodes.
    fn plain(&mut self, shape: Shape, lists: &[Vec<usize>]) -> Vec<u16> {
        wear(&mut self.random, store_of(shape, lists, || 0), 1)
    }

    /// Deals `used` nodes to the lists, in random order.
    fn deal(&mut self, shape: Shape, used: usize) -> Vec<Vec<usize>> {
        deal(&mut self.random, shape, used)
    }
}

/// The ranges in which the two differ. Those with few equal words between them are one.
fn differences(a: &[u16], b: &[u16]) -> Vec<Range<usize>> {
    let mut ranges: Vec<Range<usize>> = vec![];
    for i in (0..a.len()).filter(|&i| a[i] != b[i]) {
        match ranges.last_mut() {
            Some(last) if i < last.end + 3 => last.end = i + 1,
            _ => ranges.push(i..i + 1),
        }
    }
    ranges
}

fn altered(words: &[u16], changes: &[(usize, u16)]) -> Vec<u16> {
    let mut words = words.to_vec();
    for &(at, value) in changes {
        words[at] = value;
    }
    words
}

/// Stores of less than eight words, and of few more: nothing in them, the beginning of a sound one, anything.
fn short_stores(s: &mut Script) {
    s.ask(0, 0);
    let shape = Shape::new(1, 1, 1);
    let whole = [s.sound(shape, &[vec![1]]), vec![0; 4]].concat();
    for size in 0..=20 {
        s.load(&vec![0; size]);
        s.ask(0, 0);
        s.load(&whole[..size]);
        s.ask(0, 0);
        let random: Vec<u16> = (0..size).map(|_| s.random.word()).collect();
        s.load(&random);
        s.ask(0, 0);
    }
}

/// Anything, and anything behind a right beginning, at many lengths.
fn garbage(s: &mut Script) {
    for size in (21..60).step_by(3).chain([64, 65, 100, 255, 256, 500, 1000]) {
        let random: Vec<u16> = (0..size).map(|_| s.random.word()).collect();
        s.load(&random);
        s.ask(0, 0);
        s.load(&[&[82, 66, 83, 1, 1, 1, 1, 0], &random[8..]].concat());
        s.ask(0, 0);
    }
    for _ in 0..60 {
        let shape = Shape::new(s.random.between(1, 4), s.random.between(1, 6), s.random.between(1, 3));
        let mut words = store_of(shape, &vec![vec![]; shape.lists], || 0);
        for word in &mut words[8..] {
            *word = match s.random.below(5) {
                0 => s.random.word(),
                1 => IDENTIFIER + s.random.below(shape.lists) as u16,
                2 => s.random.pick(&[0, WORN]),
                _ => s.random.below(shape.lists + shape.nodes) as u16,
            };
        }
        s.load(&words);
        let list = s.random.below(shape.lists + 1);
        s.ask(list, 0);
    }
}

/// Each of the first eight words altered, alone and with another.
fn heads(s: &mut Script) {
    let shape = Shape::new(2, 4, 2);
    let words = s.sound_with(shape, &[vec![4, 2], vec![3]], &[5]);
    s.load(&words);
    s.ask(0, 1);
    for (at, &right) in words[..8].iter().enumerate() {
        for value in [0, 1, right.wrapping_sub(1), right + 1, right.swap_bytes(), right | 0x100, right | 0x8000, 65_535] {
            s.ask_with(&[(at, value)], 0, 1);
        }
        for other in 0..8 {
            s.ask_with(&[(at, right + 1), (other, 65_535)], 1, 0);
        }
    }
}

/// L, N and P at the ends of their ranges and outside, with the right length and one word more or less.
fn ranges(s: &mut Script) {
    for lists in [0, 1, 8, 9, 65_535] {
        for nodes in [0, 1, 2000, 2001, 65_535] {
            for width in [0, 1, 13, 14, 65_535] {
                let shape = Shape::new(lists, nodes, width);
                let size = shape.size().min(CAPACITY - 1);
                for size in [size - 1, size, size + 1] {
                    s.add(Fill { size: size as u16, value: 0 });
                    let head = [82, 66, 83, 1, lists as u16, nodes as u16, width as u16, 0];
                    s.add(PutAll { at: 0, values: head.to_vec() });
                    s.add(Check);
                    if shape.in_range() || lists + nodes + width < 30 {
                        s.ask(lists, 0);
                        s.ask(0, 0);
                    }
                }
            }
        }
    }
}

/// Format with each number in range and outside, at the right length and others, over words that are not 0.
fn formats(s: &mut Script) {
    for lists in [0, 1, 2, 7, 8, 9, 42_400, 65_535] {
        for nodes in [0, 1, 2, 1999, 2000, 2001, 65_535] {
            for width in [0, 1, 2, 12, 13, 14, 65_535] {
                let shape = Shape::new(lists, nodes, width);
                let size = shape.size().min(CAPACITY - 1);
                let sizes = if shape.in_range() { vec![size - 1, size, size + 1] } else { vec![size] };
                for size in sizes {
                    let value = s.random.word() | 1;
                    s.add(Fill { size: size as u16, value });
                    s.add(Format { lists: lists as u16, nodes: nodes as u16, width: width as u16 });
                }
            }
        }
    }
    for size in (0..9).chain([15, 17, 24, 25]) {
        s.add(Fill { size, value: 9 });
        s.add(Format { lists: 1, nodes: 1, width: 1 });
        s.add(Format { lists: 0, nodes: 1, width: 1 });
    }
    for (lists, nodes, width) in [(1, 1, 1), (1, 3, 1), (3, 4, 2), (8, 10, 13), (8, 2000, 1), (8, 2000, 13), (1, 2000, 13)] {
        let shape = Shape::new(lists, nodes, width);
        s.add(Fill { size: shape.size() as u16, value: 42_401 });
        s.add(Format { lists: lists as u16, nodes: nodes as u16, width: width as u16 });
        s.ask_all(shape, &vec![vec![]; lists]);
    }
}

/// The marked store of docs/FORMAT.md: C1 to C3 one store at a time, then the stores of C4 to C10.
fn marked_store(s: &mut Script) {
    s.add(Fill { size: 24, value: 5 });
    s.add(Format { lists: 1, nodes: 3, width: 1 });
    s.ask(0, 0);
    let first = [(19, 700), (17, 0), (18, 0), (16, 42_400), (11, 1), (9, 2), (10, 2)];
    let second = [(23, 512), (21, 0), (22, 2), (20, 42_400), (11, 2), (17, 3), (10, 3)];
    for (at, value) in first.into_iter().chain(second) {
        s.add(Put { at, value });
        s.ask(0, 0);
        s.ask(0, 1);
    }
    s.ask_with(&[(10, 2)], 0, 0);
    s.ask_with(&[(10, 2), (17, 0)], 0, 0);
    s.ask_with(&[(22, 0)], 0, 0);
    s.ask_with(&[(22, 0), (9, 3)], 0, 0);
    s.ask_with(&[(22, 0), (9, 3), (11, 1)], 0, 0);
    s.ask_with(&[(22, 0), (9, 3), (11, 1), (16, 0)], 0, 0);
    s.ask_with(&[(9, 9), (10, 9)], 0, 0);
    s.ask_with(&[(20, 0), (17, 0), (10, 2), (11, 1), (12, 42_400), (9, 1)], 0, 0);
    for value in [WORN, WORN - 1] {
        s.ask_with(&[(12, value)], 0, 0);
        s.ask_with(&[(16, value)], 0, 0);
        s.ask_with(&[(8, value)], 0, 0);
        s.ask_with(&[(22, 0), (9, 3), (11, 1), (16, value)], 0, 0);
    }
}

/// All stores of one list and one node whose header and node hold certain values: each differs from the last in one word.
fn smallest_stores(s: &mut Script) {
    let shape = Shape::new(1, 1, 1);
    let (identifiers, links) = ([IDENTIFIER, 0, IDENTIFIER + 1, WORN], [0, 1, 2]);
    let places: [(usize, &[u16]); 7] =
        [(8, &identifiers[..3]), (9, &links), (10, &links), (11, &links), (12, &identifiers), (13, &links), (14, &links)];
    let words = s.sound(shape, &[vec![]]);
    s.load(&altered(&words, &places.map(|(at, values)| (at, values[0]))));
    let mut digits = [0usize; 7];
    let mut up = [true; 7];
    loop {
        s.add(Check);
        if store::check(&s.words) == 0 {
            s.ask(0, 0);
            s.ask(0, 1);
        }
        let i = match (0..7).find(|&i| digits[i] != if up[i] { places[i].1.len() - 1 } else { 0 }) {
            Some(i) => i,
            None => break,
        };
        digits[i] = if up[i] { digits[i] + 1 } else { digits[i] - 1 };
        for turned in &mut up[..i] {
            *turned = !*turned;
        }
        let (at, values) = places[i];
        s.add(Put { at: at as u16, value: values[digits[i]] });
    }
}

/// Sound stores of many shapes: empty, full, one member each, all in one list, interleaved.
fn sound_stores(s: &mut Script) {
    for turn in 0..70 {
        let shape = Shape::new(s.random.between(1, 8), s.random.between(1, 12), s.random.between(1, 13));
        let lists = match turn % 7 {
            0 => s.deal(shape, 0),
            1 => s.deal(shape, shape.nodes),
            2 => (0..shape.lists).map(|k| shape.node_cells().skip(k).take(1).collect()).collect(),
            3 => {
                let list = s.random.below(shape.lists);
                let all: Vec<usize> = s.deal(shape, shape.nodes).concat();
                (0..shape.lists).map(|k| if k == list { all.clone() } else { vec![] }).collect()
            }
            _ => {
                let used = s.random.between(0, shape.nodes);
                s.deal(shape, used)
            }
        };
        let words = s.sound(shape, &lists);
        s.load(&words);
        s.ask_all(shape, &lists);
    }
    for (lists, nodes, width) in [(4, 60, 2), (1, 100, 1), (8, 80, 3), (8, 8, 13)] {
        let shape = Shape::new(lists, nodes, width);
        let lists = s.deal(shape, nodes * 3 / 4);
        let words = s.sound(shape, &lists);
        s.load(&words);
        s.ask_all(shape, &lists);
    }
}

/// Values to put in the place of a cell's word `i`: identifiers, links, or counts.
fn values_for(shape: Shape, header: bool, i: usize, right: u16) -> Vec<u16> {
    let cells = (shape.lists + shape.nodes) as u16;
    match i {
        0 => (0..=shape.lists as u16).map(|k| IDENTIFIER + k).chain([0, 1, IDENTIFIER - 1, 65_535]).collect(),
        3 if header => vec![right.wrapping_sub(1), right + 1, 0, shape.nodes as u16, right | 0x100, 65_535],
        3 => vec![right ^ 1, 0, 65_535],
        _ => (0..=cells + 1).chain([right | 0x100, 2008, 65_535]).collect(),
    }
}

/// Each word of the headers, and the first four of each node, altered alone: a member's record and a free node's links leave
/// the store sound.
fn altered_words(s: &mut Script) {
    for (lists, nodes, width, used) in
        [(1, 1, 1, 1), (1, 3, 1, 1), (2, 3, 2, 3), (2, 5, 1, 3), (3, 5, 2, 3), (4, 7, 1, 5), (8, 10, 3, 8)]
    {
        let shape = Shape::new(lists, nodes, width);
        let dealt = s.deal(shape, used);
        let words = s.sound(shape, &dealt);
        s.load(&words);
        for cell in 0..lists + nodes {
            for i in 0..4 {
                let at = shape.cell(cell) + i;
                for value in values_for(shape, cell < lists, i, words[at]) {
                    s.load(&altered(&words, &[(at, value)]));
                    s.add(Check);
                    if s.random.below(4) == 0 {
                        let (list, position) = (s.random.below(lists + 1), s.random.below(3));
                        s.add(Length { list: list as u16 });
                        s.add(Read { list: list as u16, position: position as u16 });
                    }
                }
            }
            s.load(&words);
        }
        s.ask_all(shape, &dealt);
    }
}

/// Kinds of damage that take several words, on two lists of three members and one list of none. Node 6 is free, node 8 worn.
fn damage(s: &mut Script) {
    let shape = Shape::new(3, 8, 1);
    let [a, b, c] = [7, 3, 9];
    let [x, y, z] = [4, 10, 5];
    let words = s.sound_with(shape, &[vec![a, b, c], vec![], vec![x, y, z]], &[8]);
    s.load(&words);
    let identifier = |cell: usize| shape.cell(cell);
    let forward = |cell: usize| shape.cell(cell) + 1;
    let back = |cell: usize| shape.cell(cell) + 2;
    let count = |list: usize| shape.cell(list) + 3;
    let number = |cell: usize| cell as u16;
    let cases: Vec<Vec<(usize, u16)>> = vec![
        // the last member leads to another list's header, in one direction and in both
        vec![(forward(c), 1)],
        vec![(forward(c), 2)],
        vec![(forward(c), 2), (back(2), number(c))],
        vec![(forward(c), 1), (back(1), number(c)), (back(0), 0)],
        // a header leads to another header
        vec![(forward(1), 0), (back(1), 0)],
        vec![(forward(0), 1), (back(0), 1)],
        vec![(forward(0), 2), (back(0), 2), (forward(2), 0), (back(2), 0)],
        // a ring that never meets the header
        vec![(forward(c), number(a))],
        vec![(forward(c), number(b))],
        vec![(forward(c), number(c))],
        vec![(forward(c), number(a)), (back(a), number(c))],
        vec![(forward(a), number(a)), (back(a), number(a))],
        vec![(forward(b), number(a)), (back(a), number(b))],
        // the members' ring beside a header that says empty
        vec![(forward(0), 0), (back(0), 0)],
        vec![(forward(0), 0), (back(0), 0), (count(0), 0)],
        vec![(forward(0), 0), (back(0), 0), (count(0), 0), (forward(c), number(a)), (back(a), number(c))],
        vec![(forward(0), 0), (back(0), 0), (count(0), 0), (identifier(a), 0), (identifier(b), 0), (identifier(c), 0)],
        // the lists' headers change places, with their identifiers or without
        vec![(forward(0), number(x)), (back(0), number(z)), (forward(2), number(a)), (back(2), number(c))],
        vec![(forward(0), number(x)), (back(0), number(z)), (back(x), 0), (forward(z), 0)],
        vec![(identifier(0), IDENTIFIER + 2), (identifier(2), IDENTIFIER)],
        vec![(forward(0), 1), (back(0), 1), (forward(1), number(a)), (back(1), number(c)), (forward(c), 1), (back(a), 1)],
        // the same list, every word of it right for list 1
        vec![
            (forward(0), 0),
            (back(0), 0),
            (count(0), 0),
            (forward(1), number(a)),
            (back(1), number(c)),
            (count(1), 3),
            (forward(c), 1),
            (back(a), 1),
            (identifier(a), IDENTIFIER + 1),
            (identifier(b), IDENTIFIER + 1),
            (identifier(c), IDENTIFIER + 1),
        ],
        // counts
        vec![(count(0), 2)],
        vec![(count(0), 4)],
        vec![(count(0), 2), (count(1), 1)],
        vec![(count(0), 2), (count(2), 4)],
        vec![(count(1), 8)],
        // identifiers
        vec![(identifier(b), IDENTIFIER + 2)],
        vec![(identifier(b), 0)],
        vec![(identifier(a), IDENTIFIER + 2), (identifier(b), IDENTIFIER + 2), (identifier(c), IDENTIFIER + 2)],
        vec![(identifier(0), 0)],
        vec![(identifier(1), IDENTIFIER)],
        // two lists share a member, or one list goes on into the other
        vec![(forward(b), number(y))],
        vec![(forward(b), number(y)), (back(y), number(b))],
        vec![(forward(c), number(x)), (back(x), number(c)), (forward(z), 0), (back(0), number(z)), (count(0), 6)],
        // a member left out, with the count or without, and in one direction only
        vec![(forward(a), number(c)), (back(c), number(a))],
        vec![(forward(a), number(c)), (back(c), number(a)), (count(0), 2)],
        vec![(forward(a), number(c)), (back(c), number(a)), (count(0), 2), (identifier(b), 0)],
        vec![(forward(a), number(c))],
        vec![(back(c), number(a))],
        // the order turned round, in one direction and in both
        vec![(forward(0), number(c)), (forward(c), number(b)), (forward(b), number(a)), (forward(a), 0)],
        vec![
            (forward(0), number(c)),
            (forward(c), number(b)),
            (forward(b), number(a)),
            (forward(a), 0),
            (back(0), number(a)),
            (back(a), number(b)),
            (back(b), number(c)),
            (back(c), 0),
        ],
        // a free node that carries an identifier, and looks like a list's only member
        vec![(identifier(6), IDENTIFIER)],
        vec![(identifier(6), IDENTIFIER + 3)],
        vec![(identifier(6), 1)],
        vec![(identifier(6), IDENTIFIER + 1), (forward(6), 1), (back(6), 1)],
        vec![(identifier(6), IDENTIFIER + 1), (forward(6), 1), (back(6), 1), (forward(1), 6)],
        vec![(identifier(6), IDENTIFIER + 1), (forward(6), 1), (back(6), 1), (forward(1), 6), (back(1), 6)],
        vec![(identifier(6), IDENTIFIER + 1), (forward(6), 1), (back(6), 1), (forward(1), 6), (back(1), 6), (count(1), 1)],
        vec![(identifier(6), IDENTIFIER + 1), (forward(6), 6), (back(6), 6)],
        vec![(forward(1), 6), (back(1), 6), (forward(6), 1), (back(6), 1), (count(1), 1)],
        // a free node's links, and a worn one's
        vec![(forward(6), 0), (back(6), 0)],
        vec![(forward(6), 65_535), (back(6), 11)],
        vec![(forward(8), 0), (back(8), 0)],
        vec![(forward(8), 1), (back(8), 65_535)],
        // the identifier 65,535 on a free node, on members and headers
        vec![(identifier(6), WORN)],
        vec![(identifier(b), WORN)],
        vec![(identifier(a), WORN), (identifier(b), WORN), (identifier(c), WORN)],
        vec![(identifier(1), WORN)],
        vec![(identifier(b), WORN), (identifier(8), IDENTIFIER)],
        // a worn node is free, or carries something else
        vec![(identifier(8), 0)],
        vec![(identifier(8), 1)],
        vec![(identifier(8), IDENTIFIER)],
        // a worn node that looks like a list's only member
        vec![(forward(8), 1), (back(8), 1), (forward(1), 8)],
        vec![(forward(8), 1), (back(8), 1), (forward(1), 8), (back(1), 8), (count(1), 1)],
        vec![(forward(8), 1), (back(8), 1), (forward(1), 8), (back(1), 8), (count(1), 1), (identifier(8), IDENTIFIER + 1)],
        // a member left out and worn
        vec![(forward(a), number(c)), (back(c), number(a)), (identifier(b), WORN)],
        vec![(forward(a), number(c)), (back(c), number(a)), (count(0), 2), (identifier(b), WORN)],
        // links outside the cells
        vec![(forward(0), 11)],
        vec![(back(0), 65_535)],
        vec![(forward(b), 11), (back(c), 11)],
        vec![(forward(b), 2008)],
        vec![(forward(b), 32_768 + number(c))],
        vec![(forward(1), 11), (back(1), 11)],
    ];
    for changes in &cases {
        for (list, position) in [(0, 2), (1, 0), (2, 0)] {
            s.ask_with(changes, list, position);
        }
    }
}

/// Several reasons to refuse at once: the first question decides.
fn several_reasons(s: &mut Script) {
    let shape = Shape::new(2, 4, 1);
    for reasons in 0..64 {
        let has = |i: usize| reasons >> i & 1 == 1;
        let mut words = s.sound_with(shape, &[vec![3, 2], vec![4]], &[5]);
        spoil(&mut s.random, &mut words, [has(0), has(1), has(2)]);
        if has(3) {
            words[s.random.pick(&[8, 9, 10, 11, 12, 13, 14, 15])] = 77;
        }
        s.load(&words);
        s.ask(if has(4) { 2 } else { 0 }, if has(5) { 2 } else { 0 });
    }
}

/// Sound stores with some words of headers and nodes altered to values that may well stand there.
fn random_damage(s: &mut Script) {
    for turn in 0..800 {
        let shape = Shape::new(s.random.between(1, 3), s.random.between(1, if turn % 10 == 0 { 9 } else { 5 }), 1);
        let used = s.random.between(0, shape.nodes);
        let dealt = s.deal(shape, used);
        let words = wear(&mut s.random, store_of(shape, &dealt, || 0), 0);
        s.load(&words);
        for _ in 0..3 {
            let changes: Vec<(usize, u16)> = (0..s.random.between(1, 3))
                .map(|_| {
                    let cell = s.random.below(shape.lists + shape.nodes);
                    let i = s.random.below(if cell < shape.lists { 4 } else { 3 });
                    let at = shape.cell(cell) + i;
                    let values = values_for(shape, cell < shape.lists, i, words[at]);
                    (at, s.random.pick(&values))
                })
                .collect();
            s.load(&altered(&words, &changes));
            s.add(Check);
        }
    }
}

/// The largest store: formatted, in eight lists beside worn nodes, in one list, and damaged.
fn largest(s: &mut Script) {
    let shape = Shape::new(8, 2000, 13);
    s.add(Fill { size: shape.size() as u16, value: 65_535 });
    s.add(Format { lists: 8, nodes: 2000, width: 13 });
    let mut all: Vec<usize> = shape.node_cells().collect();
    s.random.shuffle(&mut all);
    let eight: Vec<Vec<usize>> = (0..8).map(|k| all[248 * k..248 * (k + 1)].to_vec()).collect();
    let one: Vec<Vec<usize>> = (0..8).map(|k| if k == 5 { all.clone() } else { vec![] }).collect();
    for lists in [eight, one] {
        let mut words = s.plain(shape, &lists);
        for i in shape.node_cells() {
            words[shape.cell(i) + 3 + i % 13] = i as u16;
        }
        s.load(&words);
        for (list, sequence) in lists.iter().enumerate() {
            let n = sequence.len();
            for position in [0, 1, n / 2, n.saturating_sub(1), n, n + 1, 65_535] {
                s.ask(list, position);
            }
        }
        s.ask(8, 0);
        let last = *lists[5].last().unwrap();
        for (at, value) in [
            (shape.cell(last), 0),
            (shape.cell(last), IDENTIFIER + 8),
            (shape.cell(last) + 1, last as u16),
            (shape.cell(last) + 1, lists[5][0] as u16),
            (shape.cell(last) + 1, 2008),
            (shape.cell(last) + 2, 5),
            (shape.cell(5) + 3, lists[5].len() as u16 - 1),
            (shape.cell(5) + 3, lists[5].len() as u16 + 1),
            (shape.cell(0), 0),
            (shape.cell(7) + 1, 8),
            (shape.cell(2007) + 15, 1234),
        ] {
            s.ask_with(&[(at, value)], 5, lists[5].len() - 1);
        }
    }
    for size in [32_039, 32_041, 32_100] {
        s.add(Fill { size, value: 0 });
        s.add(PutAll { at: 0, values: vec![82, 66, 83, 1, 8, 2000, 13, 0] });
        s.ask(0, 0);
        s.add(Format { lists: 8, nodes: 2000, width: 13 });
    }
}

fn main() -> std::io::Result<()> {
    let mut script = Script { bytes: vec![], words: vec![], random: Random::new(8518) };
    for part in [
        short_stores,
        garbage,
        heads,
        ranges,
        formats,
        marked_store,
        smallest_stores,
        sound_stores,
        altered_words,
        damage,
        several_reasons,
        random_damage,
        largest,
        edits::marked_store,
        edits::short_stores,
        edits::smallest_stores,
        edits::small_stores,
        edits::cuts,
        edits::equal_values,
        edits::searches,
        edits::limits,
        edits::several_reasons,
        edits::damage,
        edits::histories,
        edits::largest,
        worn::largest,
        worn::marked_store,
        worn::short_stores,
        worn::small_stores,
        worn::several_reasons,
        worn::limits,
        worn::worn_out,
        worn::passed_over,
        worn::recoveries,
        worn::runs,
        recoveries::marked_store,
        recoveries::short_stores,
        recoveries::smallest_stores,
        recoveries::altered_words,
        recoveries::several_fit,
        recoveries::several_reasons,
        recoveries::random_damage,
        recoveries::many_stores,
        recoveries::courses,
        recoveries::every_course_of_small_stores,
        recoveries::large_courses,
        recoveries::largest,
        several::cuts,
        several::searches,
        several::limits,
        several::short_stores,
        several::several_reasons,
        several::courses,
        several::largest,
        wiped::older_small_stores,
        wiped::single_words,
        wiped::deletes,
        wiped::former_courses,
        wiped::every_course,
        wiped::largest,
    ] {
        part(&mut script);
    }
    std::io::stdout().write_all(&script.bytes)
}
