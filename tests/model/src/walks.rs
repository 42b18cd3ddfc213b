//! A walk to a cell of a list: a state whose step follows one link, from the header, the shorter way round. It is run with a budget of
//! steps, and has then arrived at a cell, or the budget is spent. The stores of insert and delete follow from where it arrives.

use crate::store::{identifier_of, open, Shape, WordStore};

/// Where a walk stands, the links that it has yet to follow, and whether these lead ahead or back.
#[derive(Clone, Copy)]
struct Walk {
    at: usize,
    left: usize,
    ahead: bool,
}

/// What a walk comes to.
#[derive(Clone, Copy, Debug, PartialEq, Eq)]
pub enum Walked {
    At(usize),
    Spent,
}

impl Walk {
    /// To cell q of the ring of a list with n members: its header, then the members. Cell q lies q links ahead of the header and
    /// n + 1 - q behind it.
    fn toward(list: usize, n: usize, q: usize) -> Walk {
        assert!(q <= n, "the ring has no cell {q}");
        if q <= n - q {
            Walk { at: list, left: q, ahead: true }
        } else {
            Walk { at: list, left: n + 1 - q, ahead: false }
        }
    }

    /// One link followed.
    fn step(self, words: &[u16], shape: Shape) -> Walk {
        let link = shape.cell(self.at) + if self.ahead { 1 } else { 2 };
        Walk { at: words[link].into(), left: self.left - 1, ahead: self.ahead }
    }
}

/// The budget that always arrives in a list with n members: half of them, rounded up.
pub fn half(n: usize) -> usize {
    n / 2 + n % 2
}

/// What the walk to cell q of the list's ring comes to with this budget, and the number of steps that it made.
pub fn walk(words: &[u16], list: usize, q: usize, budget: usize) -> (Walked, usize) {
    let shape = open(words).expect("a store");
    let mut walk = Walk::toward(list, words[shape.cell(list) + 3].into(), q);
    let mut steps = 0;
    while walk.left > 0 {
        if steps == budget {
            return (Walked::Spent, steps);
        }
        walk = walk.step(words, shape);
        steps += 1;
    }
    (Walked::At(walk.at), steps)
}

/// The cell of the list's ring at which the walk with that budget arrives.
pub fn seek(words: &[u16], list: usize, q: usize) -> usize {
    let shape = open(words).expect("a store");
    match walk(words, list, q, half(words[shape.cell(list) + 3].into())) {
        (Walked::At(cell), _) => cell,
        (Walked::Spent, _) => panic!("the walk to cell {q} of list {list} does not arrive"),
    }
}

/// The stores of an insert: a free cell goes behind the cell at which the walk arrives.
pub fn insert_stores(words: &[u16], list: usize, position: usize, cell: usize, record: &[u16]) -> Vec<WordStore> {
    let shape = open(words).expect("a store");
    let (before, count) = (seek(words, list, position), shape.cell(list) + 3);
    let after = words[shape.cell(before) + 1];
    let mut stores: Vec<WordStore> = (shape.cell(cell) + 3..).zip(record.iter().copied()).collect();
    stores.extend([
        (shape.cell(cell) + 1, after),
        (shape.cell(cell) + 2, before as u16),
        (shape.cell(cell), identifier_of(list)),
        (count, words[count] + 1),
        (shape.cell(before) + 1, cell as u16),
        (shape.cell(after.into()) + 2, cell as u16),
    ]);
    stores
}

/// The stores of a delete: the cell at which the walk arrives is taken out from between those that its links name, and its record wiped.
pub fn delete_stores(words: &[u16], list: usize, position: usize) -> Vec<WordStore> {
    let shape = open(words).expect("a store");
    let (cell, count) = (shape.cell(seek(words, list, position + 1)), shape.cell(list) + 3);
    let (after, before) = (words[cell + 1], words[cell + 2]);
    let mut stores = vec![
        (shape.cell(after.into()) + 2, before),
        (shape.cell(before.into()) + 1, after),
        (count, words[count] - 1),
        (cell, 0),
    ];
    stores.extend((0..shape.width).map(|i| (cell + 3 + i, 0)));
    stores
}

#[cfg(test)]
mod tests {
    use super::*;
    use crate::random::Random;
    use crate::samples::wear;
    use crate::store::{delete, insert, lists, make, read, store_of};

    /// A sound store, and the ring of one of its lists: the header and the members.
    struct Ring {
        words: Vec<u16>,
        shape: Shape,
        list: usize,
        cells: Vec<usize>,
    }

    impl Ring {
        /// In a store whose lists have so many members each; so many nodes are in none, and some of them worn. The cells are dealt at
        /// random.
        fn new(random: &mut Random, lengths: &[usize], list: usize, others: usize) -> Ring {
            let shape = Shape::new(lengths.len(), lengths.iter().sum::<usize>() + others, random.between(1, 3));
            let mut nodes: Vec<usize> = shape.node_cells().collect();
            random.shuffle(&mut nodes);
            let sequences: Vec<Vec<usize>> = lengths.iter().map(|&n| nodes.drain(..n).collect()).collect();
            let words = store_of(shape, &sequences, || random.word());
            let words = wear(random, words, 1);
            assert_eq!(lists(&words, shape).as_ref(), Some(&sequences));
            Ring { words, shape, list, cells: [&[list][..], &sequences[list]].concat() }
        }

        /// The number of members.
        fn n(&self) -> usize {
            self.cells.len() - 1
        }

        /// The links to cell q the shorter way round.
        fn links(&self, q: usize) -> usize {
            q.min(self.n() + 1 - q)
        }

        fn walk(&self, q: usize, budget: usize) -> (Walked, usize) {
            walk(&self.words, self.list, q, budget)
        }

        /// With fewer steps than links the budget is spent; with more the walk arrives all the same.
        fn holds(&self, q: usize, budget: usize) {
            let links = self.links(q);
            let expected = if budget < links { (Walked::Spent, budget) } else { (Walked::At(self.cells[q]), links) };
            assert_eq!(self.walk(q, budget), expected, "cell {q} of {:?} with {budget}", self.cells);
        }

        /// Half of the members, rounded up, arrives at every cell; rounded down, it is spent on the way to one if their number is odd.
        fn half_arrives(&self) {
            let n = self.n();
            for q in 0..=n {
                let arrived = (Walked::At(self.cells[q]), self.links(q));
                assert_eq!(self.walk(q, half(n)), arrived, "cell {q} of {:?}", self.cells);
            }
            let spent = (0..=n).filter(|&q| self.walk(q, n / 2).0 == Walked::Spent).count();
            assert_eq!(spent, n % 2, "half rounded down in {:?}", self.cells);
        }
    }

    /// Lists with 0 to 9 members: alone, and first, in the middle and last among others.
    fn small_rings() -> Vec<Ring> {
        let mut random = Random::new(5);
        let mut rings = vec![];
        for n in 0..=9 {
            for others in [1, 4] {
                rings.push(Ring::new(&mut random, &[n], 0, others));
                rings.push(Ring::new(&mut random, &[n, 2, 0], 0, others));
                rings.push(Ring::new(&mut random, &[3, n, 1], 1, others));
                rings.push(Ring::new(&mut random, &[0, 1, 4, 2, 3, 1, 2, n], 7, others));
            }
        }
        rings
    }

    /// The list of the marked store: the records 700 and 512 in cells 2 and 3.
    #[test]
    fn marked_store() {
        let words = store_of(Shape::new(1, 3, 1), &[vec![2, 3]], || 7);
        let with = |budget| [0, 1, 2].map(|q| walk(&words, 0, q, budget));
        assert_eq!(with(0), [(Walked::At(0), 0), (Walked::Spent, 0), (Walked::Spent, 0)]);
        assert_eq!(with(1), [(Walked::At(0), 0), (Walked::At(2), 1), (Walked::At(3), 1)]);
        assert_eq!(with(2), with(1));
        assert_eq!([0, 1, 2, 3, 9, 1999, 2000].map(half), [0, 1, 1, 2, 5, 1000, 1000]);
    }

    /// Every budget up to one more than members, to every cell.
    #[test]
    fn every_budget() {
        for ring in small_rings() {
            for q in 0..=ring.n() {
                (0..=ring.n() + 1).for_each(|budget| ring.holds(q, budget));
            }
            ring.half_arrives();
        }
    }

    /// The longest lists: alone in the store, beside empty lists and worn nodes, and beside a member of another.
    #[test]
    fn longest() {
        let mut random = Random::new(6);
        for (lengths, list) in [(&[2000][..], 0), (&[0, 0, 0, 0, 0, 1991, 0, 0], 5), (&[1, 1999], 1)] {
            let ring = Ring::new(&mut random, lengths, list, 2000 - lengths.iter().sum::<usize>());
            for q in 0..=ring.n() {
                let links = ring.links(q);
                for budget in [0, links.saturating_sub(1), links, half(ring.n()), ring.n() + 1] {
                    ring.holds(q, budget);
                }
            }
            ring.half_arrives();
        }
    }

    /// A walk follows links of one kind: the others may lead anywhere.
    #[test]
    fn one_way() {
        for ring in small_rings() {
            for link in [1, 2] {
                let mut words = ring.words.clone();
                ring.cells.iter().for_each(|&cell| words[ring.shape.cell(cell) + link] = 65_535);
                for q in (0..=ring.n()).filter(|&q| q == 0 || (q <= ring.n() - q) == (link == 2)) {
                    let walked = walk(&words, ring.list, q, half(ring.n()));
                    assert_eq!(walked, (Walked::At(ring.cells[q]), ring.links(q)), "cell {q} of {:?}", ring.cells);
                }
            }
        }
    }

    /// Read gives the record of the cell at which the walk arrives; insert and delete make the stores that follow from it, at every
    /// allowance.
    #[test]
    fn calls() {
        for Ring { words, shape, list, cells } in small_rings() {
            let (k, start) = (list as u16, shape.lists);
            let free = shape.node_cells().find(|&cell| words[shape.cell(cell)] == 0).expect("a free node");
            for position in 0..cells.len() {
                let record: Vec<u16> = (1..).take(shape.width).collect();
                let stores = insert_stores(&words, list, position, free, &record);
                for allowance in 0..=stores.len() as u16 + 1 {
                    let mut left = words.clone();
                    let answer = insert(&mut left, k, position as u16, start as u16, &record, allowance);
                    assert_eq!((answer, left), make(&words, &stores, allowance));
                }
            }
            for position in 0..cells.len() - 1 {
                let cell = seek(&words, list, position + 1);
                assert_eq!(read(&words, k, position as u16), Ok(&words[shape.cell(cell) + 3..][..shape.width]));
                let stores = delete_stores(&words, list, position);
                for allowance in 0..=stores.len() as u16 + 1 {
                    let mut left = words.clone();
                    let answer = delete(&mut left, k, position as u16, allowance);
                    assert_eq!((answer, left), make(&words, &stores, allowance));
                }
            }
        }
    }
}
