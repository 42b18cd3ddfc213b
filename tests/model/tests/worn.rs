//! Worn nodes through every call of the model.

use model::alterations::{alterable, pairs};
use model::random::Random;
use model::recovery::recover;
use model::samples::{carriers, deal, wear, with_worn};
use model::store::{self, check, delete, insert, insert_several, length, mark_worn, open, store_of, Answer, Shape, WORN};
use std::collections::BTreeMap;

const ENOUGH: u16 = 65_535;

fn random_shape(random: &mut Random, nodes: usize) -> Shape {
    Shape::new(random.between(1, 4), random.between(1, nodes), random.between(1, 3))
}

/// The number of members, of free and of worn nodes. An insert takes as many records as nodes are free, and not one more.
fn uses(words: &[u16]) -> [usize; 3] {
    let shape = open(words).expect("a store");
    let lengths = (0..shape.lists as u16).map(|list| usize::from(length(words, list).expect("a sound store"))).sum();
    let taken = |number: usize| {
        let records = vec![7; number * shape.width];
        insert_several(&mut words.to_vec(), 0, 0, shape.lists as u16, &records, 0) == Answer::Stopped(0)
    };
    let free = carriers(words, 0).len();
    assert!((free == 0 || taken(free)) && !taken(free + 1), "{free} nodes are free in {words:?}");
    [lengths, free, carriers(words, WORN).len()]
}

/// All nodes worn: no insert finds a node, none can be marked, and the store is sound.
#[test]
fn all_worn() {
    let mut random = Random::new(1);
    for turn in 0..200 {
        let shape = if turn == 0 { Shape::new(8, 2000, 13) } else { random_shape(&mut random, 9) };
        let words = store_of(shape, &vec![vec![]; shape.lists], || random.word());
        let words = with_worn(words, &shape.node_cells().collect::<Vec<_>>());
        let mut left = words.clone();
        assert_eq!(check(&words), 0);
        for allowance in [0, ENOUGH] {
            assert_eq!(recover(&mut left, allowance), Answer::Done(0));
        }
        for list in 0..shape.lists as u16 {
            assert_eq!(length(&words, list), Ok(0));
            assert_eq!(delete(&mut left, list, 0, ENOUGH), Answer::Refused(7));
        }
        for start in shape.node_cells().map(|cell| cell as u16) {
            let record = vec![7; shape.width];
            assert_eq!(insert(&mut left, 0, 0, start, &record, ENOUGH), Answer::Refused(10));
            assert_eq!(insert_several(&mut left, 0, 0, start, &record, ENOUGH), Answer::Refused(10));
            assert_eq!(mark_worn(&mut left, start), Answer::Refused(13));
            if turn == 0 && start > 20 {
                break;
            }
        }
        assert_eq!(left, words);
    }
}

/// Worn nodes only from the starting cell up to the one free node, and members elsewhere: it is used, by both inserts. Two records do not
/// find place.
#[test]
fn worn_up_to_the_free_node() {
    for nodes in 1..8 {
        let shape = Shape::new(2, nodes, 1);
        for start in shape.node_cells() {
            for passed in 0..nodes {
                let ring: Vec<usize> = (start..2 + nodes).chain(2..start).collect();
                let (worn, free, members) = (&ring[..passed], ring[passed], &ring[passed + 1..]);
                let sound = with_worn(store_of(shape, &[members.to_vec(), vec![]], || 9), worn);
                assert_eq!(uses(&sound), [members.len(), 1, passed]);
                let mut single = sound.clone();
                assert_eq!(insert(&mut single, 1, 0, start as u16, &[5], ENOUGH), Answer::Done(7));
                assert_eq!(store::lists(&single, shape), Some(vec![members.to_vec(), vec![free]]));
                assert_eq!(carriers(&single, WORN), carriers(&sound, WORN));
                let mut several = sound.clone();
                assert_eq!(insert_several(&mut several, 1, 0, start as u16, &[5], ENOUGH), Answer::Done(7));
                assert_eq!(several, single);
                assert_eq!(insert_several(&mut several, 1, 0, start as u16, &[5], ENOUGH), Answer::Refused(10));
                assert_eq!(insert_several(&mut sound.clone(), 1, 0, start as u16, &[5, 6], ENOUGH), Answer::Refused(10));
            }
        }
    }
}

/// Each refusal of mark_worn. Whatever other reasons there are, the first question decides, and nothing is stored.
#[test]
fn refused_marks() {
    let shape = Shape::new(2, 5, 2);
    let sound = with_worn(store_of(shape, &[vec![5], vec![2]], || 7), &[4]);
    for reasons in 0..16 {
        let has = |i: usize| reasons >> i & 1 == 1;
        let mut found = sound.clone();
        if has(0) {
            found[7] = 1;
        }
        if has(1) {
            found[5] = 2001;
        }
        if has(2) {
            found.push(0);
        }
        if has(3) {
            found[shape.cell(3)] = WORN - 1;
        }
        let asked_first = (0..4).find(|&i| has(i)).map(|i| [2, 3, 4, 6][i]);
        let nodes = [(3, None), (6, None), (2, Some(13)), (5, Some(13)), (4, Some(13))];
        let others = [0, 1, 7, 8, 65_535].map(|cell| (cell, Some(8)));
        for (cell, asked_last) in nodes.into_iter().chain(others) {
            let mut left = found.clone();
            let expected = asked_first.or(asked_last).map_or(Answer::Done(1), Answer::Refused);
            assert_eq!(mark_worn(&mut left, cell), expected, "cell {cell} of {found:?}");
            let stored: Vec<usize> = (0..left.len()).filter(|&at| left[at] != found[at]).collect();
            let node = shape.cell(cell.into());
            assert_eq!(stored, if expected == Answer::Done(1) { vec![node] } else { vec![] });
            let short = &mut left[..7];
            assert_eq!(mark_worn(short, cell), Answer::Refused(1));
        }
    }
}

/// A store, and the words of each node that is worn.
struct Run {
    words: Vec<u16>,
    worn: BTreeMap<usize, Vec<u16>>,
}

impl Run {
    fn new(words: Vec<u16>) -> Run {
        let shape = open(&words).expect("a store");
        let worn = carriers(&words, WORN).into_iter().map(|cell| (cell, words[shape.node(cell)].to_vec())).collect();
        Run { words, worn }
    }

    /// Every worn node is as it was.
    fn kept(&self, shape: Shape) {
        for (&cell, node) in &self.worn {
            assert_eq!(&self.words[shape.node(cell)], node, "worn node {cell} of {:?}", self.words);
        }
    }

    /// The store is sound; each node is free, worn or a member.
    fn counted(&self, shape: Shape) {
        let [lengths, free, worn] = uses(&self.words);
        assert_eq!((lengths + free + worn, worn), (shape.nodes, self.worn.len()), "{:?}", self.words);
        self.kept(shape);
    }

    /// Any call with random arguments, some of them wrong, and any allowance. The list that it names.
    fn call(&mut self, random: &mut Random, shape: Shape) -> usize {
        let (list, cells) = (random.below(shape.lists), shape.lists + shape.nodes);
        let k = list as u16;
        let most = length(&self.words, k).expect("a sound store");
        let (position, start) = (random.between(0, usize::from(most) + 1) as u16, random.between(shape.lists, cells) as u16);
        let number = random.between(1, 3);
        let cut = random.below(number * (shape.width + 6)) as u16;
        let allowance = random.pick(&[cut, ENOUGH]);
        let words = &mut self.words;
        match random.below(9) {
            0 | 1 => drop(insert(words, k, position, start, &vec![7; shape.width], allowance)),
            2 => drop(insert_several(words, k, position, start, &vec![8; number * shape.width], allowance)),
            3..=5 => drop(delete(words, k, position, allowance)),
            6 => drop(recover(words, allowance)),
            _ => {
                let cell = random.below(cells + 1);
                if mark_worn(words, cell as u16) == Answer::Done(1) {
                    let node = words[shape.node(cell)].to_vec();
                    assert!(self.worn.insert(cell, node).is_none(), "a worn node is marked again");
                }
            }
        }
        list
    }

    /// What a power cut leaves, with a word altered in some of the lists that the call did not name, or the count and an identifier; then
    /// recoveries, cut and whole.
    fn recovered(&mut self, random: &mut Random, shape: Shape, named: usize, sound: &[u16]) {
        let (places, pairs) = (alterable(sound).expect("a sound store"), pairs(sound).expect("a sound store"));
        for list in (0..shape.lists).filter(|&list| list != named) {
            let altered = match random.below(3) {
                0 => vec![],
                1 => vec![random.pick(&places[list])],
                _ => random.pick(&pairs[list]).to_vec(),
            };
            altered.into_iter().for_each(|at| self.words[at] = random.pick(&[0, 7, WORN, 42_400]));
        }
        self.kept(shape);
        for allowance in [random.below(3) as u16, random.below(3) as u16, ENOUGH] {
            let answer = recover(&mut self.words, allowance);
            assert!(!matches!(answer, Answer::Refused(_)), "recovery is refused: {answer:?}");
            self.kept(shape);
        }
    }
}

/// Random runs of all calls. After each the lengths, the free and the worn nodes add up to N; a worn node keeps all its words, also
/// through cut calls, alterations in the lists, and cut recoveries.
#[test]
fn runs() {
    let mut random = Random::new(4);
    let (mut marked, mut cut) = (0, 0);
    for turn in 0..800 {
        let shape = random_shape(&mut random, if turn % 5 == 0 { 20 } else { 6 });
        let used = random.between(0, shape.nodes);
        let dealt = deal(&mut random, shape, used);
        let words = store_of(shape, &dealt, || random.word());
        let mut run = Run::new(wear(&mut random, words, 0));
        let before = run.worn.len();
        for _ in 0..12 {
            let sound = run.words.clone();
            let named = run.call(&mut random, shape);
            run.kept(shape);
            if check(&run.words) != 0 || random.below(6) == 0 {
                cut += 1;
                run.recovered(&mut random, shape, named, &sound);
            }
            run.counted(shape);
        }
        marked += run.worn.len() - before;
    }
    assert!(marked > 150 && cut > 1_000, "{marked} marked, {cut} cut");
}
