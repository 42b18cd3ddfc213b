//! What recover answers and leaves, what is told of it beforehand, and how a course of calls that ends with it must end.
//!
//! A sequence of different nodes fits a list if at most one word other than the count differs from what it asks of the header and of its
//! members. If one alone fits it is chosen, whatever the count; of several the one whose length is the count. If one is chosen for each
//! list, the differing words are stored, list 0 first, of each list the count last, then 0 to each identifier of a node in none of them
//! that is neither 0 nor 65,535, lowest cell first, then 0 to each record word of a node in none that is not worn, lowest word first. Words
//! that are 0 already are not stored.

use crate::store::{
    act, check, identifier_of, lists, make, open, ordered, sequences, to_be_blank, walk, Answer, Shape, WordStore, WORN,
};
use std::collections::BTreeSet;

/// In stores of at most so many nodes the fitting sequences are found by enumeration too.
const FEW_NODES: usize = 4;

/// What a sequence asks of the list's header and of its members. The count comes last.
pub(crate) fn asked(shape: Shape, list: usize, sequence: &[usize]) -> Vec<WordStore> {
    let mut way = vec![list];
    way.extend(sequence);
    way.push(list);
    let mut asked = vec![];
    for w in way.windows(2) {
        asked.push((shape.cell(w[0]), identifier_of(list)));
        asked.push((shape.cell(w[0]) + 1, w[1] as u16));
        asked.push((shape.cell(w[1]) + 2, w[0] as u16));
    }
    asked.push((shape.cell(list) + 3, sequence.len() as u16));
    asked
}

/// What the sequence asks and the words do not hold.
pub(crate) fn differing(words: &[u16], shape: Shape, list: usize, sequence: &[usize]) -> Vec<WordStore> {
    asked(shape, list, sequence).into_iter().filter(|&(at, value)| words[at] != value).collect()
}

fn fits(words: &[u16], shape: Shape, list: usize, sequence: &[usize]) -> bool {
    let count = shape.cell(list) + 3;
    differing(words, shape, list, sequence).iter().filter(|&&(at, _)| at != count).count() <= 1
}

type Sequences = BTreeSet<Vec<usize>>;

/// The sequences that fit, found among all that there are.
fn by_enumeration(shape: Shape, fits: impl Fn(&[usize]) -> bool) -> Sequences {
    sequences(&shape.node_cells().collect::<Vec<_>>()).into_iter().filter(|s| fits(s)).collect()
}

/// The sequences that fit the list, found by links: with one link wrong at most, all forward links are right or all back links.
fn by_links(words: &[u16], shape: Shape, list: usize, fits: impl Fn(&[usize]) -> bool) -> Sequences {
    let forward = walk(words, shape, list, 1);
    let back = walk(words, shape, list, 2).map(|s| s.into_iter().rev().collect());
    forward.into_iter().chain(back).filter(|s: &Vec<usize>| fits(s)).collect()
}

/// The sequences that fit the list.
pub(crate) fn fitting(words: &[u16], shape: Shape, list: usize, fits: impl Fn(&[usize]) -> bool) -> Vec<Vec<usize>> {
    let found = by_links(words, shape, list, &fits);
    if shape.nodes <= FEW_NODES {
        assert_eq!(found, by_enumeration(shape, &fits), "the model disagrees with itself on {words:?}");
    }
    found.into_iter().collect()
}

/// The sequence that is chosen for the list, or the number of the refusal: 11 if none fits, 12 if several do and the count is the length
/// of none or of more than one of them.
fn chosen(words: &[u16], shape: Shape, list: usize) -> Result<Vec<usize>, u16> {
    let found = fitting(words, shape, list, |sequence| fits(words, shape, list, sequence));
    let count = usize::from(words[shape.cell(list) + 3]);
    let told: Vec<Vec<usize>> = found.iter().filter(|sequence| sequence.len() == count).cloned().collect();
    match (&found[..], &told[..]) {
        ([], _) => Err(11),
        ([only], _) | (_, [only]) => Ok(only.clone()),
        _ => Err(12),
    }
}

/// The words that must be 0 beside these lists, in recover's order: of the nodes in none that are not worn first the identifiers, then the
/// record words.
fn cleared(words: &[u16], shape: Shape, lists: &[Vec<usize>]) -> Vec<usize> {
    let cells = to_be_blank(words, shape, lists);
    let identifiers = cells.iter().map(|&cell| shape.cell(cell));
    identifiers.chain(cells.iter().flat_map(|&cell| shape.record(cell))).collect()
}

/// The stores that bring each list to the sequence chosen for it, list 0 first, and clear and wipe what is beside them; or the number of
/// the first refusal. All made, they leave a sound store of these sequences.
pub(crate) fn plan_by(
    words: &[u16],
    chosen: impl Fn(Shape, usize) -> Result<Vec<usize>, u16>,
) -> Result<Vec<WordStore>, u16> {
    let shape = open(words)?;
    let sequences: Vec<Vec<usize>> = (0..shape.lists).map(|list| chosen(shape, list)).collect::<Result<_, _>>()?;
    let mut stores: Vec<WordStore> = vec![];
    for (list, sequence) in sequences.iter().enumerate() {
        stores.extend(differing(words, shape, list, sequence));
    }
    stores.extend(cleared(words, shape, &sequences).into_iter().filter(|&at| words[at] != 0).map(|at| (at, 0)));
    assert!(stores.len() <= 2 * shape.lists + shape.nodes + shape.width * shape.nodes, "recover goes beyond its bound");
    let (_, left) = make(words, &stores, stores.len() as u16);
    assert_eq!(lists(&left, shape), Some(sequences), "recover does not leave a sound store");
    Ok(stores)
}

/// The stores of recover in their order, or the number of the refusal.
pub(crate) fn recover_plan(words: &[u16]) -> Result<Vec<WordStore>, u16> {
    plan_by(words, |shape, list| chosen(words, shape, list))
}

/// Recover.
pub fn recover(words: &mut [u16], allowance: u16) -> Answer {
    act(words, recover_plan(words), allowance)
}

/// The number of stores that a whole recover makes, or the number of its refusal. Nothing is stored.
pub fn recover_stores(words: &[u16]) -> Result<u16, u16> {
    recover_plan(words).map(|stores| stores.len() as u16)
}

/// The stores of an insert, of one record or several, that count as made if it is cut after so many: all of each record whose central
/// store was made. Record i has the stores from i × (P + 6) on, and its central one is the fifth behind its P words.
pub fn due_of_insert(width: usize, allowance: u16) -> u16 {
    let central = |i: usize| i * (width + 6) + width + 5;
    ((0..2000).take_while(|&i| central(i) <= allowance.into()).count() * (width + 6)) as u16
}

/// The stores of a delete that count as made: all, four and one for each record word, if the second, the central one, was made.
pub fn due_of_delete(width: usize, allowance: u16) -> u16 {
    if allowance < 2 {
        0
    } else {
        4 + width as u16
    }
}

/// A course: an insert or delete on an ordered store, alterations in the lists that it does not name, then recover calls. The insert or
/// delete may be a former one.
#[derive(Clone)]
pub struct Course {
    /// The store that the recover calls find.
    found: Vec<u16>,
    /// The store that they must leave.
    last: Vec<u16>,
    /// The words of the worn nodes before the call: places and values.
    worn: Vec<WordStore>,
    /// The number of their stores so far.
    stores: usize,
}

impl Course {
    /// `new` are the words that the call leaves if it is made with exactly the stores that count as made: those before it, if
    /// none does or it is refused.
    pub fn new(old: &[u16], list: u16, new: &[u16], found: &[u16]) -> Course {
        let shape = open(old).expect("a store");
        let sequences = |words| ordered(words, shape).expect("an ordered store");
        let (before, after) = (sequences(old), sequences(new));
        let mut last = found.to_vec();
        let mut members = vec![];
        for k in 0..shape.lists {
            let (words, sequence) = if k == usize::from(list) { (new, &after[k]) } else { (old, &before[k]) };
            let header = shape.cell(k)..shape.cell(k) + 4;
            last[header.clone()].copy_from_slice(&words[header]);
            for node in sequence.iter().map(|&cell| shape.node(cell)) {
                last[node.clone()].copy_from_slice(&words[node]);
            }
            members.push(sequence.clone());
        }
        cleared(found, shape, &members).into_iter().for_each(|at| last[at] = 0);
        let worn = shape.node_cells().filter(|&cell| old[shape.cell(cell)] == WORN);
        let worn = worn.flat_map(|cell| shape.node(cell)).map(|at| (at, old[at])).collect();
        Course { found: found.to_vec(), last, worn, stores: 0 }
    }

    /// After a recover call.
    pub fn recovered(&mut self, answer: Answer, allowance: u16) {
        match answer {
            Answer::Stopped(n) => {
                assert_eq!(n, allowance, "stopped before the allowance is spent");
                self.stores += usize::from(n);
            }
            Answer::Done(n) => {
                assert!(n <= allowance, "done beyond the allowance");
                self.stores += usize::from(n);
            }
            Answer::Refused(n) => panic!("recovery refused {n} in a course: {:?}", self.found),
        }
    }

    /// At the end, the last recover call done.
    pub fn ended(&self, words: &[u16]) {
        assert_eq!(words, self.last, "a course does not end as it must");
        assert_eq!(check(words), 0, "a course does not end with a sound store");
        assert!(self.worn.iter().all(|&(at, value)| words[at] == value), "a worn node is not as it was: {words:?}");
        let changed = (0..words.len()).filter(|&i| words[i] != self.found[i]).count();
        assert_eq!(self.stores, changed, "the numbers of stores do not add up");
    }
}

#[cfg(test)]
mod tests {
    use super::*;
    use crate::alterations::pairs;
    use crate::former;
    use crate::random::Random;
    use crate::samples::{
        all_two_sequences, carriers, damaged, deal, every_store, likely, remain, wear, with_worn, TwoSequences,
    };
    use crate::store::{delete, format, insert, insert_several, store_of};

    const ENOUGH: u16 = 65_535;

    fn with(words: &[u16], changes: &[WordStore]) -> Vec<u16> {
        let mut words = words.to_vec();
        changes.iter().for_each(|&(at, value)| words[at] = value);
        words
    }

    /// Recovery of the words at every allowance makes these stores in their order. Their number is told beforehand, and after a cut that of
    /// the others.
    fn stores(words: &[u16], expected: &[WordStore]) {
        assert_eq!(recover_stores(words), Ok(expected.len() as u16));
        for allowance in 0..expected.len() as u16 + 2 {
            let mut left = words.to_vec();
            let n = expected.len().min(allowance.into());
            let answer = recover(&mut left, allowance);
            let number = n as u16;
            assert_eq!(answer, if n < expected.len() { Answer::Stopped(number) } else { Answer::Done(number) });
            assert_eq!(left, with(words, &expected[..n]));
            assert_eq!(recover_stores(&left), Ok((expected.len() - n) as u16));
        }
    }

    /// Recovery of the words is refused with this number, which is told beforehand.
    fn refused(words: &[u16], number: u16) {
        assert_eq!(recover_stores(words), Err(number));
        for allowance in [0, 1, ENOUGH] {
            let mut left = words.to_vec();
            assert_eq!((recover(&mut left, allowance), &left[..]), (Answer::Refused(number), words));
        }
    }

    /// C4 to C7, C9 and C10 of the marked store.
    #[test]
    fn marked_store() {
        let mut c2 = vec![7; 24];
        assert_eq!(format(&mut c2, 1, 3, 1), 0);
        insert(&mut c2, 0, 0, 2, &[700], ENOUGH);
        let mut c3 = c2.clone();
        insert(&mut c3, 0, 1, 2, &[512], ENOUGH);
        stores(&c3, &[]);
        let inserted = |allowance| {
            let mut words = c2.clone();
            insert(&mut words, 0, 1, 2, &[512], allowance);
            words
        };
        stores(&inserted(1), &[(23, 0)]);
        stores(&inserted(4), &[(20, 0), (23, 0)]);
        stores(&inserted(5), &[(11, 1), (20, 0), (23, 0)]);
        stores(&inserted(6), &[(10, 3)]);
        let deleted = |allowance| {
            let mut words = c3.clone();
            delete(&mut words, 0, 0, allowance);
            words
        };
        stores(&deleted(1), &[(22, 2)]);
        stores(&deleted(2), &[(11, 1), (16, 0), (19, 0)]);
        stores(&deleted(3), &[(16, 0), (19, 0)]);
        stores(&deleted(4), &[(19, 0)]);
        stores(&deleted(5), &[]);
        refused(&with(&c2, &[(12, 42_400), (13, 0), (14, 0), (9, 1)]), 12);
        refused(&with(&c3, &[(9, 9), (10, 9)]), 11);
    }

    /// C9 of the marked store, where both sequences have one member, with each count. Then cell 1 stands before cell 2, not in its place: the
    /// count tells which of the two sequences is taken.
    #[test]
    fn marked_counts() {
        let mut c2 = store_of(Shape::new(1, 3, 1), &[vec![2]], || 0);
        (c2[15], c2[19]) = (5, 700);
        for count in [0, 1, 2, 3, 4, 65_535] {
            refused(&with(&c2, &[(12, 42_400), (13, 0), (14, 0), (9, 1), (11, count)]), 12);
            let before = with(&c2, &[(12, 42_400), (13, 2), (14, 0), (9, 1), (11, count)]);
            match count {
                1 => stores(&before, &[(9, 2), (12, 0), (15, 0)]),
                2 => stores(&before, &[(18, 1)]),
                _ => refused(&before, 12),
            }
        }
    }

    /// All pairs of sequences over up to four nodes, and each count. Of equal lengths neither is taken; of two lengths the one that is the
    /// count. Then one word of the list is stored, and the nodes of the other block are cleared and wiped.
    #[test]
    fn each_count() {
        for nodes in 1..=4 {
            let shape = Shape::new(1, nodes, 1);
            let cells: Vec<usize> = shape.node_cells().collect();
            for two in all_two_sequences(0, &cells) {
                let mut words = store_of(shape, &[vec![]], || 0);
                two.put(&mut words);
                cells.iter().for_each(|&cell| words[shape.cell(cell) + 3] = 7);
                let lengths = [0, 1].map(|way| two.sequence(way).len());
                for count in (0..=nodes + 1).chain([65_535]) {
                    words[11] = count as u16;
                    let told: Vec<usize> = (0..2).filter(|&way| lengths[way] == count).collect();
                    if let [way] = told[..] {
                        let others =
                            || cells.iter().filter(|cell| !two.sequence(way).contains(cell)).map(|&c| shape.cell(c));
                        let carrying = others().filter(|&at| words[at] != 0).map(|at| (at, 0));
                        let expected = [two.lacks(shape, way)].into_iter().chain(carrying);
                        stores(&words, &expected.chain(others().map(|at| (at + 3, 0))).collect::<Vec<_>>());
                    } else {
                        refused(&words, 12);
                    }
                }
            }
        }
    }

    /// One sequence alone fits: it is taken whatever the count. The count is stored last, and alone if the other word is right.
    #[test]
    fn whatever_the_count() {
        let c3 = store_of(Shape::new(1, 3, 1), &[vec![2, 3]], || 0);
        for count in [0, 1, 3, 4, 9, 65_535] {
            stores(&with(&c3, &[(11, count)]), &[(11, 2)]);
            for at in [8, 9, 10, 16, 17, 18, 20, 21, 22] {
                let found = with(&c3, &[(at, 9), (11, count)]);
                stores(&found, &[(at, c3[at]), (11, 2)]);
                let mut cut = found.clone();
                assert_eq!((recover(&mut cut, 1), &cut), (Answer::Stopped(1), &with(&c3, &[(11, count)])));
            }
        }
        let shape = Shape::new(2, 2, 1);
        let sound = store_of(shape, &[vec![3], vec![2]], || 0);
        let found = with(&sound, &[(8, 1), (11, 0), (15, 7), (16, 42_400)]);
        stores(&found, &[(8, 42_400), (11, 1), (16, 42_401), (15, 1)]);
    }

    /// Nothing is promised of the count and a link: the smallest store, its header's forward and count both 0, ends empty.
    #[test]
    fn count_and_link() {
        let shape = Shape::new(1, 1, 1);
        let sound = store_of(shape, &[vec![1]], || 7);
        let mut words = with(&sound, &[(9, 0), (11, 0)]);
        stores(&words, &[(10, 0), (12, 0), (15, 0)]);
        recover(&mut words, ENOUGH);
        assert_eq!(lists(&words, shape), Some(vec![vec![]]));
        stores(&with(&sound, &[(9, 0)]), &[(9, 1)]);
    }

    /// The first list with a reason decides.
    #[test]
    fn first_list() {
        let shape = Shape::new(2, 4, 1);
        let sound = store_of(shape, &[vec![2], vec![3]], || 0);
        let twice = |list: usize, free: usize| {
            let k = list as u16;
            [
                (shape.cell(free), identifier_of(list)),
                (shape.cell(free) + 1, k),
                (shape.cell(free) + 2, k),
                (shape.cell(list) + 1, free as u16),
            ]
        };
        let none = |list: usize| [(shape.cell(list) + 1, 9), (shape.cell(list) + 2, 9)];
        for (changes, number) in [
            ([&twice(0, 4)[..], &none(1)].concat(), 12),
            ([&none(0)[..], &twice(1, 4)].concat(), 11),
            ([&twice(0, 4)[..], &twice(1, 5)].concat(), 12),
            (twice(1, 5).to_vec(), 12),
            (none(1).to_vec(), 11),
            ([&none(1)[..], &[(7, 1)]].concat(), 2),
            ([&none(1)[..], &[(9, 0), (11, 2)]].concat(), 12),
            ([&none(1)[..], &[(9, 0), (11, 0)]].concat(), 11),
            ([&twice(1, 5)[..], &[(8, 0), (11, 9)]].concat(), 12),
        ] {
            refused(&with(&sound, &changes), number);
        }
    }

    /// Worn is judged after membership: a member or header with identifier 65,535 is mended, and its record stays; of the nodes in no list
    /// those with it keep all words. All others are cleared and wiped, the identifiers first.
    #[test]
    fn worn_nodes() {
        let shape = Shape::new(1, 2, 1);
        let words = with(&store_of(shape, &[vec![1]], || 5), &[(17, 0), (18, 0)]);
        stores(&with(&words, &[(12, WORN), (16, 7)]), &[(12, 42_400), (16, 0)]);
        stores(&with(&words, &[(12, WORN), (16, 7), (19, 8)]), &[(12, 42_400), (16, 0), (19, 0)]);
        stores(&with(&words, &[(12, WORN), (19, 8)]), &[(12, 42_400), (19, 0)]);
        stores(&with(&words, &[(12, WORN), (16, WORN), (19, 8)]), &[(12, 42_400)]);
        stores(&with(&words, &[(16, WORN), (17, 0), (18, 0), (19, 8)]), &[]);
        let shape = Shape::new(3, 8, 2);
        let sound = with_worn(store_of(shape, &[vec![7, 3], vec![], vec![10]], || 9), &[5, 8]);
        stores(&sound, &[]);
        let identifier = |cell| shape.cell(cell);
        let altered = [(identifier(7), WORN), (identifier(1), WORN), (identifier(10), WORN)];
        let mended = altered.map(|(at, _)| (at, sound[at]));
        stores(&with(&sound, &altered), &mended);
        let others = [(identifier(4), 7), (identifier(6), WORN), (identifier(8), WORN - 1), (identifier(9), 42_400)];
        let remains = [(identifier(6) + 3, 1), (identifier(9) + 4, 1)];
        let cleared = [(identifier(4), 0), (identifier(8), 0), (identifier(9), 0)];
        let wiped = [(identifier(8) + 3, 0), (identifier(8) + 4, 0), (identifier(9) + 4, 0)];
        let found = with(&with(&sound, &others), &remains);
        stores(&found, &[&cleared[..], &wiped].concat());
        stores(&with(&found, &altered), &[&mended[..], &cleared, &wiped].concat());
        let record = [(identifier(5) + 3, 0), (identifier(5) + 4, 0)];
        stores(&with(&sound, &[(identifier(5), 0)]), &record);
        stores(&with(&sound, &[(identifier(5), 42_401)]), &[&[(identifier(5), 0)][..], &record].concat());
    }

    /// A cut insert uses no worn node, and what it leaves of one is as it was; of the node that it uses recovery clears the identifier
    /// and wipes the record.
    #[test]
    fn cut_beside_worn_nodes() {
        let shape = Shape::new(1, 4, 1);
        let mut sound = with_worn(store_of(shape, &[vec![1]], || 0), &[2, 4]);
        sound[17..20].copy_from_slice(&[0, 1, 9]);
        let cut = |allowance| {
            let mut words = sound.clone();
            insert(&mut words, 0, 1, 2, &[5], allowance);
            words
        };
        stores(&cut(3), &[(23, 0)]);
        stores(&cut(4), &[(20, 0), (23, 0)]);
        stores(&cut(5), &[(11, 1), (20, 0), (23, 0)]);
        stores(&cut(6), &[(10, 3)]);
        assert!((0..8).all(|allowance| carriers(&cut(allowance), WORN) == [2, 4]));
        assert!((0..8).all(|allowance| cut(allowance)[16..20] == sound[16..20]));
    }

    /// Lists of some of the nodes.
    fn random_lists(random: &mut Random, shape: Shape) -> Vec<Vec<usize>> {
        let used = random.between(0, shape.nodes);
        deal(random, shape, used)
    }

    /// Both ways find the same sequences in damaged stores. All numbers of fitting sequences occur: none, one and two.
    #[test]
    fn both_ways_agree() {
        let mut random = Random::new(7);
        let mut seen = [0; 3];
        for turn in 0..40_000 {
            let words = damaged(&mut random, turn);
            let shape = open(&words).expect("a store");
            for list in 0..shape.lists {
                let found = by_links(&words, shape, list, |s| fits(&words, shape, list, s));
                assert_eq!(found, by_enumeration(shape, |s| fits(&words, shape, list, s)), "{words:?}");
                seen[found.len()] += 1;
            }
        }
        assert!(seen.iter().all(|&n| n > 100), "{seen:?}");
    }

    /// Is recovery not refused? Then after the first stores of its plan the plan is the rest.
    fn later_runs(words: &[u16]) -> bool {
        let stores = match recover_plan(words) {
            Ok(stores) => stores,
            Err(_) => return false,
        };
        for made in 0..=stores.len() {
            let (_, left) = make(words, &stores, made as u16);
            assert_eq!(recover_plan(&left).as_deref(), Ok(&stores[made..]), "after {made} stores on {words:?}");
        }
        true
    }

    /// Later runs choose the same sequences: in all small stores, in damaged ones, and where two sequences fit and other lists lack the
    /// count and an identifier.
    #[test]
    fn later_runs_of_any_store() {
        let mut accepted = [0; 3];
        for (lists, nodes) in [(1, 1), (1, 2), (2, 1)] {
            every_store(Shape::new(lists, nodes, 1), |words| accepted[0] += usize::from(later_runs(words)));
        }
        let mut random = Random::new(8);
        for turn in 0..15_000 {
            accepted[1] += usize::from(later_runs(&damaged(&mut random, turn)));
        }
        for _ in 0..4_000 {
            let shape = Shape::new(random.between(1, 3), random.between(2, 7), random.between(1, 2));
            let used = random.between(1, shape.nodes - 1);
            let dealt = deal(&mut random, shape, used);
            let mut words = store_of(shape, &dealt, || 7);
            let (list, others) = (random.below(shape.lists), carriers(&words, 0));
            for pairs in pairs(&words).expect("a sound store") {
                let [count, identifier] = random.pick(&pairs);
                (words[count], words[identifier]) = (likely(&mut random, shape, 3), likely(&mut random, shape, 0));
            }
            let others = &others[..random.between(0, others.len())];
            let two = TwoSequences::random(&mut random, list, &dealt[list], others);
            two.put(&mut words);
            words[shape.cell(list) + 3] = two.sequence(random.below(2)).len() as u16;
            accepted[2] += usize::from(later_runs(&words));
        }
        assert!(accepted.iter().all(|&n| n > 1_000), "{accepted:?}");
    }

    /// The central stores of records of one word are the sixth, the thirteenth, the twentieth and so on.
    #[test]
    fn due() {
        let whole = |allowance| due_of_insert(1, allowance) / 7;
        assert_eq!([0, 5, 6, 7, 12, 13, 19, 20].map(whole), [0, 0, 1, 1, 1, 2, 2, 3]);
        assert_eq!([37_998, 37_999, ENOUGH].map(|allowance| due_of_insert(13, allowance) / 19), [1999, 2000, 2000]);
        let of_delete = |width, allowances: [u16; 5]| allowances.map(|allowance| due_of_delete(width, allowance));
        assert_eq!((of_delete(1, [0, 1, 2, 4, 5]), of_delete(13, [0, 1, 2, 16, 17])), ([0, 0, 5, 5, 5], [0, 0, 17, 17, 17]));
    }

    /// Courses from ordered stores of many shapes end as they must. A list that is not named has a word altered, or the count and an
    /// identifier. By one turn in three the store is an older one, and the insert or delete a former one, or one of now, which is refused.
    #[test]
    fn courses() {
        let mut random = Random::new(9);
        let mut older = 0;
        for turn in 0..12_000 {
            let nodes = random.between(1, if turn % 4 == 0 { 12 } else { 5 });
            let shape = Shape::new(random.between(1, if turn % 5 == 0 { 8 } else { 3 }), nodes, random.between(1, 3));
            let lists = random_lists(&mut random, shape);
            let sound = store_of(shape, &lists, || random.word());
            let sound = wear(&mut random, sound, turn % 2);
            let old = if turn % 3 == 0 { remain(&mut random, sound.clone()) } else { sound.clone() };
            older += usize::from(old != sound);
            let beyond = usize::from(random.below(20) == 0);
            let named = random.below(shape.lists + beyond);
            let position = random.between(0, lists.get(named).map_or(0, |s| s.len())) as u16;
            let start = (shape.lists + random.below(shape.nodes)) as u16;
            let kind = random.below(if turn % 3 == 0 { 5 } else { 3 });
            let number = if kind == 2 { random.between(1, 4) } else { 1 };
            let records: Vec<u16> = (0..number * shape.width).map(|_| random.word()).collect();
            let call = |words: &mut [u16], allowance| match kind {
                0 => insert(words, named as u16, position, start, &records, allowance),
                1 => delete(words, named as u16, position, allowance),
                2 => insert_several(words, named as u16, position, start, &records, allowance),
                3 => former::insert(words, named as u16, position, start, &records, allowance),
                _ => former::delete(words, named as u16, position, allowance),
            };
            let allowance = random.below(number * (shape.width + 6) + 2) as u16;
            let mut found = old.clone();
            let answer = call(&mut found, allowance);
            assert!(kind > 2 || old == sound || matches!(answer, Answer::Refused(5 | 6)), "{answer:?} on {old:?}");
            let deletes = [1, 4].contains(&kind);
            let due = if deletes { due_of_delete(shape.width, allowance) } else { due_of_insert(shape.width, allowance) };
            let mut new = old.clone();
            call(&mut new, due);
            for (list, sequence) in lists.iter().enumerate().filter(|&(list, _)| list != named) {
                let cell = [&[list][..], sequence].concat()[random.below(sequence.len() + 1)];
                let i = random.below(if cell == list { 4 } else { 3 });
                match random.below(6) {
                    0 => (),
                    1 | 2 => {
                        found[shape.cell(cell)] = likely(&mut random, shape, 0);
                        found[shape.cell(list) + 3] = likely(&mut random, shape, 3);
                    }
                    _ => found[shape.cell(cell) + i] = likely(&mut random, shape, i),
                }
            }
            let mut course = Course::new(&old, named as u16, &new, &found);
            let mut words = found;
            for _ in 0..random.below(4) {
                let allowance = random.below(4) as u16;
                let answer = recover(&mut words, allowance);
                course.recovered(answer, allowance);
            }
            let answer = recover(&mut words, ENOUGH);
            assert!(matches!(answer, Answer::Done(_)));
            course.recovered(answer, ENOUGH);
            course.ended(&words);
        }
        assert!(older > 2_000, "{older}");
    }
}
