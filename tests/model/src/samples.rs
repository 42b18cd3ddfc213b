//! Stores to try the calls on: which nodes are members of which list, which of the others are worn, what remains in the free ones, what
//! makes a store refused, and damage that leaves a list two sequences or any.

use crate::random::Random;
use crate::recovery::asked;
use crate::store::{all_lists, in_no_list, open, sequences, store_of, Shape, WordStore, IDENTIFIER, WORN};

/// Deals so many nodes to the lists, in random order.
pub fn deal(random: &mut Random, shape: Shape, used: usize) -> Vec<Vec<usize>> {
    let mut cells: Vec<usize> = shape.node_cells().collect();
    random.shuffle(&mut cells);
    let mut lists = vec![vec![]; shape.lists];
    for &cell in &cells[..used] {
        lists[random.below(shape.lists)].push(cell);
    }
    lists
}

/// The nodes that carry this identifier, lowest first: of a sound store the free ones carry 0, the worn ones 65,535.
pub fn carriers(words: &[u16], identifier: u16) -> Vec<usize> {
    let shape = open(words).expect("a store");
    shape.node_cells().filter(|&cell| words[shape.cell(cell)] == identifier).collect()
}

/// The store with these nodes worn. Where a word of their records is 0 it becomes 9.
pub fn with_worn(mut words: Vec<u16>, cells: &[usize]) -> Vec<u16> {
    let shape = open(&words).expect("a store");
    for &cell in cells {
        words[shape.cell(cell)] = WORN;
        words[shape.record(cell)].iter_mut().filter(|word| **word == 0).for_each(|word| *word = 9);
    }
    words
}

/// The store with remains of records in some of its free nodes, in some words or in all. If a node is free one word at least is not 0.
pub fn remain(random: &mut Random, mut words: Vec<u16>) -> Vec<u16> {
    let shape = open(&words).expect("a store");
    let mut cells = carriers(&words, 0);
    random.shuffle(&mut cells);
    cells.truncate(random.between(cells.len().min(1), cells.len()));
    for record in cells.into_iter().map(|cell| shape.record(cell)) {
        let whole = random.below(2) == 0;
        let at = random.below(record.len());
        for (i, word) in words[record].iter_mut().enumerate() {
            if whole || i == at || random.below(3) == 0 {
                *word = anything(random, shape).max(1);
            }
        }
    }
    words
}

/// The store with some of its free nodes worn, every second with anything in its links and record; so many stay free, if there are.
/// By one turn in four none is worn.
pub fn wear(random: &mut Random, mut words: Vec<u16>, least: usize) -> Vec<u16> {
    let shape = open(&words).expect("a store");
    let mut cells = carriers(&words, 0);
    random.shuffle(&mut cells);
    let most = if random.below(4) == 0 { 0 } else { cells.len().saturating_sub(least) };
    cells.truncate(random.between(most.min(1), most));
    for &cell in &cells {
        if random.below(2) == 0 {
            words[shape.node(cell)].iter_mut().for_each(|word| *word = anything(random, shape));
        }
        words[shape.cell(cell)] = WORN;
    }
    words
}

/// A random word, such as a link or identifier by two turns of three.
fn anything(random: &mut Random, shape: Shape) -> u16 {
    match random.below(3) {
        0 => random.below(shape.lists + shape.nodes + 1) as u16,
        1 => IDENTIFIER + random.below(shape.lists) as u16,
        _ => random.word(),
    }
}

/// Gives the words the reasons 2, 3 and 4 to refuse them, those that are asked for.
pub fn spoil(random: &mut Random, words: &mut Vec<u16>, [head, numbers, length]: [bool; 3]) {
    if head {
        words[random.pick(&[0, 1, 2, 3, 7])] = 9;
    }
    if numbers {
        words[random.pick(&[4, 5, 6])] = random.pick(&[0, 2001, 65_535]);
    }
    if length {
        words.push(0);
    }
}

/// Every set of the cells.
fn subsets(cells: &[usize]) -> Vec<Vec<usize>> {
    let chosen = |set: usize| (0..cells.len()).filter(|i| set >> i & 1 == 1).map(|i| cells[i]).collect();
    (0..1 << cells.len()).map(chosen).collect()
}

/// Every choice of the lists' sequences, each with every choice of the worn nodes among the others.
pub fn all_lists_and_worn(shape: Shape) -> Vec<(Vec<Vec<usize>>, Vec<usize>)> {
    let mut all = vec![];
    for lists in all_lists(shape.lists, &shape.node_cells().collect::<Vec<_>>()) {
        all.extend(subsets(&in_no_list(shape, &lists)).into_iter().map(|worn| (lists.clone(), worn)));
    }
    all
}

/// The older stores of the shape, with their lists: every choice of lists and worn nodes, with remains in some of the free nodes, in every
/// combination.
pub fn older_stores(shape: Shape) -> Vec<(Vec<Vec<usize>>, Vec<u16>)> {
    let mut all = vec![];
    for (lists, worn) in all_lists_and_worn(shape) {
        let sound = with_worn(store_of(shape, &lists, || 7), &worn);
        for cells in subsets(&carriers(&sound, 0)).into_iter().filter(|cells| !cells.is_empty()) {
            let mut words = sound.clone();
            cells.into_iter().for_each(|cell| words[shape.record(cell)].fill(5));
            all.push((lists.clone(), words));
        }
    }
    all
}

/// Two sequences that fit a list. Both begin with `before` and end with `after`. Between these the forward links lead through the one
/// block, the back links through the other: either may be empty, and they share no node.
#[derive(Clone, Debug)]
pub struct TwoSequences {
    pub list: usize,
    pub before: Vec<usize>,
    pub blocks: [Vec<usize>; 2],
    pub after: Vec<usize>,
}

impl TwoSequences {
    /// A block of the list's members, or none of them, and the other nodes in its place: by forward links or by back links.
    pub fn random(random: &mut Random, list: usize, members: &[usize], others: &[usize]) -> TwoSequences {
        let from = random.between(0, members.len());
        let to = random.between(from, members.len());
        let mut blocks = [members[from..to].to_vec(), others.to_vec()];
        random.shuffle(&mut blocks);
        TwoSequences { list, before: members[..from].to_vec(), blocks, after: members[to..].to_vec() }
    }

    /// The sequence by forward links, or by back links.
    pub fn sequence(&self, way: usize) -> Vec<usize> {
        [&self.before[..], &self.blocks[way], &self.after].concat()
    }

    /// The one word that the sequence lacks: by forward links the back of the cell behind its block, by back links the forward of the cell
    /// before it.
    pub fn lacks(&self, shape: Shape, way: usize) -> WordStore {
        let sequence = self.sequence(way);
        let first = self.before.len();
        let ring = |i: usize| if i == 0 { self.list } else { *sequence.get(i - 1).unwrap_or(&self.list) };
        match way {
            0 => {
                let last = first + self.blocks[0].len();
                (shape.cell(ring(last + 1)) + 2, ring(last) as u16)
            }
            _ => (shape.cell(ring(first)) + 1, ring(first + 1) as u16),
        }
    }

    /// Puts what both ask, but for the one word that each lacks. The count stays.
    pub fn put(&self, words: &mut [u16]) {
        let shape = open(words).expect("a store");
        for way in [0, 1] {
            let (lacked, count) = (self.lacks(shape, way).0, shape.cell(self.list) + 3);
            let asked = asked(shape, self.list, &self.sequence(way)).into_iter();
            asked.filter(|&(at, _)| at != lacked && at != count).for_each(|(at, value)| words[at] = value);
        }
    }
}

/// All pairs of different sequences of these nodes that can fit the list at once.
pub fn all_two_sequences(list: usize, cells: &[usize]) -> Vec<TwoSequences> {
    let mut all = vec![];
    for nodes in sequences(cells) {
        for (i, j) in (0..=nodes.len()).flat_map(|i| (i..=nodes.len()).map(move |j| (i, j))) {
            all.extend((j.max(i + 1)..=nodes.len()).map(|k| TwoSequences {
                list,
                before: nodes[..i].to_vec(),
                blocks: [nodes[i..j].to_vec(), nodes[j..k].to_vec()],
                after: nodes[k..].to_vec(),
            }));
        }
    }
    all
}

/// A value that may well stand at word `i` of a cell.
pub fn likely(random: &mut Random, shape: Shape, i: usize) -> u16 {
    match (i, random.below(8)) {
        (_, 0) => random.pick(&[0, 1, 65_535]),
        (0, 1..=4) => IDENTIFIER + random.below(shape.lists) as u16,
        (0, _) => random.pick(&[0, WORN]),
        _ => random.below(shape.lists + shape.nodes + 1) as u16,
    }
}

/// A small store with a few words altered, by one turn in ten nearly all; by one in three the back links of a list lead through another
/// sequence, and so do some of its forward links.
pub fn damaged(random: &mut Random, turn: usize) -> Vec<u16> {
    let shape = Shape::new(random.between(1, 3), random.between(1, 4), 1);
    let (used, others) = (random.between(0, shape.nodes), random.between(0, shape.nodes));
    let dealt = deal(random, shape, used);
    let mut words = wear(random, store_of(shape, &dealt, || 0), 0);
    for _ in 0..if turn % 10 == 0 { 40 } else { random.between(0, 6) } {
        let cell = random.below(shape.lists + shape.nodes);
        let i = random.below(if cell < shape.lists { 4 } else { 3 });
        words[shape.cell(cell) + i] = likely(random, shape, i);
    }
    if turn % 3 == 0 {
        let (list, other) = (random.below(shape.lists), deal(random, shape, others));
        let forward = |at: usize| (0..shape.lists + shape.nodes).any(|cell| at == shape.cell(cell) + 1);
        for (at, value) in asked(shape, list, &other[list]) {
            if !forward(at) || random.below(4) == 0 {
                words[at] = value;
            }
        }
    }
    words
}

/// Every store of the shape whose words are among these: identifiers of lists and 0, but each header has its own or 0; every cell number
/// and one beyond; every count up to one more than the nodes. Records are 0.
pub fn every_store(shape: Shape, mut with: impl FnMut(&[u16])) {
    let numbers = |most: usize| (0..=most as u16).collect::<Vec<_>>();
    let (links, counts) = (numbers(shape.lists + shape.nodes), numbers(shape.nodes + 1));
    let mut places: Vec<(usize, Vec<u16>)> = vec![];
    for cell in 0..shape.lists + shape.nodes {
        let own = if cell < shape.lists { cell..cell + 1 } else { 0..shape.lists };
        places.push((shape.cell(cell), own.map(|k| IDENTIFIER + k as u16).chain([0]).collect()));
        places.extend([1, 2].map(|i| (shape.cell(cell) + i, links.clone())));
        places.extend((cell < shape.lists).then(|| (shape.cell(cell) + 3, counts.clone())));
    }
    let mut words = store_of(shape, &vec![vec![]; shape.lists], || 0);
    for mut choice in 0..places.iter().map(|(_, values)| values.len()).product() {
        for (at, values) in &places {
            words[*at] = values[choice % values.len()];
            choice /= values.len();
        }
        with(&words);
    }
}

#[cfg(test)]
mod tests {
    use super::*;
    use crate::store::{check, lists, ordered};
    use std::collections::BTreeSet;

    /// Each node of one list over two is a member, free or worn.
    #[test]
    fn choices() {
        let all = all_lists_and_worn(Shape::new(1, 2, 1));
        assert_eq!(all.len(), 4 + 2 * 2 + 2);
        assert_eq!(all.iter().collect::<BTreeSet<_>>().len(), all.len());
        assert!(all.contains(&(vec![vec![]], vec![1, 2])) && all.contains(&(vec![vec![2]], vec![1])));
    }

    /// One list over two nodes: with remains in one free node or the other, or in both; or in the only one, beside a member or a worn node.
    #[test]
    fn older() {
        let shape = Shape::new(1, 2, 2);
        let all = older_stores(shape);
        assert_eq!((all.len(), all.iter().collect::<BTreeSet<_>>().len()), (3 + 2 + 2, 3 + 2 + 2));
        assert!(all.iter().all(|(lists, words)| check(words) == 6 && ordered(words, shape).as_ref() == Some(lists)));
        let mut random = Random::new(3);
        for (_, words) in all {
            let remains = remain(&mut random, words.clone());
            assert!(check(&remains) == 6 && carriers(&remains, WORN) == carriers(&words, WORN));
        }
    }

    /// Worn stores are sound and have the same lists. Every number of worn nodes occurs that leaves enough free.
    #[test]
    fn worn_stores() {
        let mut random = Random::new(2);
        let shape = Shape::new(2, 6, 2);
        let mut seen = BTreeSet::new();
        for _ in 0..500 {
            let dealt = deal(&mut random, shape, 2);
            let words = wear(&mut random, store_of(shape, &dealt, || 0), 1);
            assert_eq!(lists(&words, shape), Some(dealt));
            let (free, worn) = (carriers(&words, 0), carriers(&words, WORN));
            assert_eq!(free.len() + worn.len(), 4);
            let junk = worn.iter().filter(|&&cell| words[shape.node(cell)][1..].iter().any(|&word| word != 0)).count();
            seen.insert((worn.len(), junk));
        }
        assert_eq!(seen, (0..=3).flat_map(|n| (0..=n).map(move |junk| (n, junk))).collect());
    }

    /// One list over two nodes: of one node two pairs, of two nodes seven. With what it lacks and its length as count each is the list.
    #[test]
    fn two_sequences() {
        let shape = Shape::new(1, 2, 1);
        let all = all_two_sequences(0, &[1, 2]);
        let lengths = |two: &TwoSequences| [0, 1].map(|way| two.sequence(way).len());
        assert_eq!(all.len(), 2 * 2 + 2 * 7);
        assert_eq!(all.iter().filter(|two| lengths(two) == [1, 1]).count(), 2);
        assert_eq!(all.iter().filter(|two| lengths(two) == [0, 2]).count(), 2);
        for two in all {
            let mut words = store_of(shape, &[vec![]], || 9);
            two.put(&mut words);
            for way in [0, 1] {
                let (at, value) = two.lacks(shape, way);
                assert_ne!(words[at], value);
                let mut mended = words.clone();
                (mended[at], mended[11]) = (value, lengths(&two)[way] as u16);
                let others = two.blocks[1 - way].iter().map(|&cell| shape.cell(cell));
                others.for_each(|at| mended[at] = 0);
                assert_eq!(ordered(&mended, shape), Some(vec![two.sequence(way)]), "{two:?}");
            }
        }
    }

    /// One list over one node, with two identifiers, three links and three counts. Sound are the empty list beside a free node with any links,
    /// and the node as a member.
    #[test]
    fn every_small_store() {
        let (mut all, mut sound) = (BTreeSet::new(), 0);
        every_store(Shape::new(1, 1, 1), |words| {
            all.insert(words.to_vec());
            sound += usize::from(check(words) == 0);
        });
        assert_eq!((all.len(), sound), (2 * 2 * 3usize.pow(4) * 3, 3 * 3 + 1));
    }
}
