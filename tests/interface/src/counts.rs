//! Counts. Of two sequences that fit a list the count tells the one that is taken: if it is the length of neither or of both, recovery is
//! refused with 12. One that fits alone is taken whatever the count. The count is stored behind the other word of its list, and a list
//! with its count and an identifier altered comes back whole. What recovery accepted while the count was a word as any other it does as it
//! did.

use crate::checks::Tests;
use crate::worn::{wipes, with_words};
use interface::stores::sound;
use interface::{bytes_of, number_of, Call::*, DONE, ENOUGH, STOPPED};
use model::alterations::{adversarial, pairs};
use model::former;
use model::random::Random;
use model::samples::{all_lists_and_worn, all_two_sequences, carriers, damaged, deal, likely, with_worn, TwoSequences};
use model::store::{open, store_of, Shape, WordStore};

/// The stores of the lists, one after the other, then 0 to the identifiers of these nodes, and to what remains in their records.
fn mended(words: &[u16], lists: Vec<Vec<WordStore>>, mut others: Vec<usize>) -> Vec<WordStore> {
    let shape = open(words).expect("a store");
    others.sort_unstable();
    let cleared = others.iter().map(|&cell| (shape.cell(cell), 0));
    let wiped = others.iter().flat_map(|&cell| wipes(words, cell));
    lists.concat().into_iter().chain(cleared).chain(wiped).collect()
}

/// The count of a list and one of its identifiers, altered to any values.
fn miscounted(random: &mut Random, words: &[u16], pairs: &[[usize; 2]]) -> [WordStore; 2] {
    let shape = open(words).expect("a store");
    let [count, identifier] = random.pick(pairs);
    let anything = random.word();
    let told = random.pick(&[words[count] + 1, words[count].wrapping_sub(1), 0, shape.nodes as u16, anything]);
    [(identifier, likely(random, shape, 0)), (count, told)]
}

/// The stores that put these words back: of those that differ, in their order.
fn put_back(sound: &[u16], altered: &[WordStore]) -> Vec<WordStore> {
    altered.iter().filter(|&&(at, value)| sound[at] != value).map(|&(at, _)| (at, sound[at])).collect()
}

/// The first cuts, and those around the end.
fn some_cuts(stores: &[WordStore]) -> Vec<usize> {
    let whole = stores.len();
    let mut cuts = vec![0, 1, 2, 3, whole / 2, whole.saturating_sub(1), whole];
    cuts.retain(|&cut| cut <= whole);
    cuts.sort_unstable();
    cuts.dedup();
    cuts
}

impl Tests {
    /// Recovery makes these stores. Cut after so many it has made the first of them, and the next one makes the others.
    fn cut_after(&mut self, words: &[u16], stores: &[WordStore], cuts: Vec<usize>) {
        let whole = stores.len();
        for made in cuts {
            let answer = if made < whole { STOPPED } else { DONE } + made as u32;
            let left = self.stores(words, &Recover, made as u16, answer, &stores[..made]);
            self.stores(&left, &Recover, ENOUGH, DONE + (whole - made) as u32, &stores[made..]);
        }
    }

    /// Two sequences of a list of the sound store, with each of these counts. In the other lists these words are altered.
    fn told(&mut self, sound: &[u16], two: &TwoSequences, counts: &[u16], altered: &[Vec<WordStore>]) {
        let shape = open(sound).expect("a store");
        let mut found = with_words(sound, &altered.concat());
        two.put(&mut found);
        for &count in counts {
            found[shape.cell(two.list) + 3] = count;
            let told: Vec<usize> = (0..2).filter(|&way| two.sequence(way).len() == usize::from(count)).collect();
            if let [way] = told[..] {
                let mut lists: Vec<Vec<WordStore>> = altered.iter().map(|altered| put_back(sound, altered)).collect();
                lists[two.list] = vec![two.lacks(shape, way)];
                let stores = mended(&found, lists, two.blocks[1 - way].clone());
                let cuts = if shape.nodes < 20 { (0..=stores.len()).collect() } else { some_cuts(&stores) };
                self.cut_after(&found, &stores, cuts);
            } else {
                self.refused(&found, &Recover, 12);
            }
        }
    }
}

/// All pairs of sequences over up to three nodes, in one list and in the second of two, and each count. In their records something remains.
pub fn every_count(t: &mut Tests) {
    for (lists, nodes) in [(1, 1), (1, 2), (1, 3), (2, 1), (2, 2), (2, 3)] {
        let shape = Shape::new(lists, nodes, 1);
        let cells: Vec<usize> = shape.node_cells().collect();
        let counts: Vec<u16> = (0..=nodes as u16 + 1).chain([65_535]).collect();
        for two in all_two_sequences(lists - 1, &cells) {
            let mut words = store_of(shape, &vec![vec![]; lists], || 0);
            let nodes = two.blocks.iter().chain([&two.before, &two.after]).flatten();
            nodes.for_each(|&cell| words[shape.cell(cell) + 3] = 7);
            t.told(&words, &two, &counts, &vec![vec![]; lists]);
            if lists == 2 {
                t.told(&words, &two, &counts, &[vec![(8, 0), (11, 9)], vec![]]);
            }
        }
    }
}

/// Lists up to the longest: a block of members that a forward link leaves out, or a back link, and free nodes beside the members or in the
/// place of some. Each length as count, those beside them and far ones. In some of the other lists the count and an identifier are altered.
pub fn long_lists(t: &mut Tests) {
    let mut shapes: Vec<Shape> = (0..400).map(|turn| t.shape(if turn % 2 == 0 { 8 } else { 60 })).collect();
    let large = [(1, 300, 2), (8, 700, 1), (3, 1000, 13), (1, 2000, 1), (8, 2000, 13), (1, 2000, 13)];
    shapes.extend(large.into_iter().cycle().take(36).map(|(lists, nodes, width)| Shape::new(lists, nodes, width)));
    for shape in shapes {
        let used = t.random.between(shape.nodes / 2, shape.nodes);
        let lists = deal(&mut t.random, shape, used);
        let words = sound(&mut t.random, shape, &lists);
        let longest = (0..shape.lists).max_by_key(|&list| lists[list].len()).expect("a list");
        let list = if t.random.below(2) == 0 { longest } else { t.random.below(shape.lists) };
        let mut others = carriers(&words, 0);
        let most = t.random.below(20);
        others.truncate(t.random.pick(&[0, 1, most]));
        let two = TwoSequences::random(&mut t.random, list, &lists[list], &others);
        if two.sequence(0) == two.sequence(1) {
            continue;
        }
        let pairs = pairs(&words).expect("a sound store");
        let mut altered = vec![vec![]; shape.lists];
        for other in (0..shape.lists).filter(|&other| other != list) {
            if t.random.below(2) == 0 {
                altered[other] = miscounted(&mut t.random, &words, &pairs[other]).to_vec();
            }
        }
        let [forward, back] = [0, 1].map(|way| two.sequence(way).len() as u16);
        let counts = [forward, back, forward + 1, back.wrapping_sub(1), (forward + back) / 2, 0, forward ^ 0x100, 65_535];
        t.told(&words, &two, &counts, &altered);
    }
}

/// Lengths that differ in the high byte alone: of a list's 600 members 256 are left out, or 512.
pub fn high_bytes(t: &mut Tests) {
    let shape = Shape::new(2, 600, 1);
    let members: Vec<usize> = shape.node_cells().rev().collect();
    let words = sound(&mut t.random, shape, &[vec![], members.clone()]);
    for (from, to) in [(0, 256), (40, 296), (344, 600), (0, 512), (88, 600)] {
        let mut blocks = [members[from..to].to_vec(), vec![]];
        for _ in 0..2 {
            blocks.reverse();
            let (before, after) = (members[..from].to_vec(), members[to..].to_vec());
            let two = TwoSequences { list: 1, before, blocks: blocks.clone(), after };
            t.told(&words, &two, &[88, 344, 600, 856, 0], &[vec![], vec![]]);
        }
    }
}

/// What a list of a sound store with these members becomes, and the number with which recovery is refused then: sound, its count and its
/// header's identifier wrong, with two sequences of which the count tells the one, the other, none or both, without a sequence.
fn becomes(words: &mut [u16], list: usize, members: &[usize], free: usize, kind: usize) -> Option<u32> {
    let (header, length) = (open(words).expect("a store").cell(list), members.len() as u16);
    let put = |words: &mut [u16], replaced: usize, count: u16| {
        let (block, after) = members.split_at(replaced);
        let blocks = if list == 1 { [block.to_vec(), vec![free]] } else { [vec![free], block.to_vec()] };
        TwoSequences { list, before: vec![], blocks, after: after.to_vec() }.put(words);
        words[header + 3] = count;
    };
    match kind {
        0 => return None,
        1 => (words[header], words[header + 3]) = (1, 77),
        2..=4 => put(words, 0, length + kind as u16 - 2),
        5 => put(words, 1, length),
        _ => (words[header + 1], words[header + 2]) = (77, 77),
    }
    [None, None, None, None, Some(12), Some(12), Some(11)][kind]
}

/// Three lists, each made what it can be, in every combination: the first that has a reason decides.
pub fn first_list(t: &mut Tests) {
    let shape = Shape::new(3, 12, 2);
    let lists = [vec![5, 3], vec![9], vec![7, 14, 4]];
    let words = with_worn(store_of(shape, &lists, || 7), &[6, 11]);
    for choice in 0..7usize.pow(3) {
        let mut found = words.clone();
        let kinds = [choice % 7, choice / 7 % 7, choice / 49];
        let numbers: Vec<Option<u32>> =
            (0..3).map(|list| becomes(&mut found, list, &lists[list], [8, 10, 12][list], kinds[list])).collect();
        match numbers.into_iter().flatten().next() {
            Some(number) => t.refused(&found, &Recover, number),
            None => {
                let (answer, _) = t.call(&bytes_of(&found), &Recover, ENOUGH);
                t.holds(answer >= DONE, || format!("recover: answer {answer} on {found:?}"));
            }
        }
    }
}

/// The count and an identifier, the header's or a member's: in one list of all small sound stores, altered to every cell number and
/// identifier; in every list of stores up to the largest, to any values. The store comes back whole, by two stores for each list at most.
pub fn back_whole(t: &mut Tests) {
    for (lists, nodes) in [(1, 1), (1, 2), (2, 2), (3, 1)] {
        let shape = Shape::new(lists, nodes, 1);
        for (lists, worn) in all_lists_and_worn(shape) {
            let words = with_worn(store_of(shape, &lists, || 7), &worn);
            for [count, identifier] in pairs(&words).expect("a sound store").concat() {
                for told in adversarial(shape) {
                    let value = t.random.pick(&adversarial(shape));
                    let altered = [(identifier, value), (count, told)];
                    let stores = put_back(&words, &altered);
                    t.cut_after(&with_words(&words, &altered), &stores, (0..=stores.len()).collect());
                }
            }
        }
    }
    let mut shapes: Vec<Shape> = (0..600).map(|turn| t.shape(if turn % 2 == 0 { 5 } else { 40 })).collect();
    let large = [Shape::new(8, 2000, 13), Shape::new(8, 2000, 1), Shape::new(5, 1000, 7), Shape::new(1, 2000, 13)];
    shapes.extend(large.into_iter().cycle().take(20));
    for shape in shapes {
        let (_, words) = t.sound_store(shape);
        let pairs = pairs(&words).expect("a sound store");
        let altered: Vec<WordStore> = pairs.iter().flat_map(|of| miscounted(&mut t.random, &words, of)).collect();
        let stores = put_back(&words, &altered);
        t.holds(stores.len() <= 2 * shape.lists, || format!("{} stores in {} lists", stores.len(), shape.lists));
        let cuts = if shape.nodes < 100 { (0..=stores.len()).collect() } else { some_cuts(&stores) };
        t.cut_after(&with_words(&words, &altered), &stores, cuts);
    }
}

/// Nothing is promised of the count and a link: the smallest store, its header's forward and count both 0, ends empty. With the count alone
/// wrong, or a link that leads nowhere, it comes back.
pub fn count_and_link(t: &mut Tests) {
    let shape = Shape::new(1, 1, 1);
    let words = store_of(shape, &[vec![1]], || 7);
    for (altered, stores) in [
        ([(9, 0), (11, 0)], vec![(10, 0), (12, 0), (15, 0)]),
        ([(10, 0), (11, 0)], vec![(9, 0), (12, 0), (15, 0)]),
        ([(9, 2), (11, 0)], vec![(9, 1), (11, 1)]),
        ([(9, 0), (11, 1)], vec![(9, 1)]),
        ([(9, 1), (11, 0)], vec![(11, 1)]),
    ] {
        t.cut_after(&with_words(&words, &altered), &stores, (0..=stores.len()).collect());
    }
    t.refused(&with_words(&words, &[(9, 0), (11, 2)]), &Recover, 12);
}

/// Damaged stores: where recovery of former versions was not refused, nothing is different. That is so of a share of them.
pub fn as_before(t: &mut Tests) {
    let (mut accepted, mut refused) = (0, 0);
    for turn in 0..8000 {
        let words = match turn % 4 {
            0 => {
                let shape = t.shape(if turn % 100 == 0 { 300 } else { 20 });
                let (lists, words) = t.sound_store(shape);
                let altered = t.altered(&words, &lists, shape.lists as u16);
                with_words(&words, &altered)
            }
            _ => damaged(&mut t.random, turn),
        };
        let mut left = words.clone();
        for allowance in [0, 1, t.random.below(4) as u16, ENOUGH] {
            left.copy_from_slice(&words);
            let answer = number_of(former::recover(&mut left, allowance));
            if answer >= DONE || answer == 12 {
                t.call_leaves(&bytes_of(&words), &Recover, allowance, &(answer, bytes_of(&left)));
                accepted += 1;
            } else {
                refused += 1;
            }
        }
    }
    t.holds(accepted > 8_000 && refused > 2_000, || format!("{accepted} as before, {refused} refused"));
}
