//! Words to alter, and what to alter them to.

use crate::store::{open, ordered, Shape, WordStore, IDENTIFIER, WORN};
use std::ops::Range;

/// The words that may be altered in each list of an ordered store, one of each: the header's four, and a member's identifier, forward and
/// back.
pub fn alterable(words: &[u16]) -> Option<Vec<Vec<usize>>> {
    let shape = open(words).ok()?;
    let lists = ordered(words, shape)?;
    let of = |(k, sequence): (usize, &Vec<usize>)| {
        let header = (0..4).map(|i| shape.cell(k) + i);
        let members = sequence.iter().flat_map(|&cell| (0..3).map(move |i| shape.cell(cell) + i));
        header.chain(members).collect()
    };
    Some(lists.iter().enumerate().map(of).collect())
}

/// The words that may be altered together in each list of an ordered store, a pair of each: the count, and the identifier of the header or of
/// a member.
pub fn pairs(words: &[u16]) -> Option<Vec<Vec<[usize; 2]>>> {
    let shape = open(words).ok()?;
    let lists = ordered(words, shape)?;
    let of = |(k, sequence): (usize, &Vec<usize>)| {
        [&[k][..], sequence].concat().into_iter().map(|cell| [shape.cell(k) + 3, shape.cell(cell)]).collect()
    };
    Some(lists.iter().enumerate().map(of).collect())
}

/// The words of a sound store of which one, two or three altered are noticed: each header's four, the identifiers of all nodes, the
/// links of the members. Lowest first.
pub fn noticeable(words: &[u16]) -> Option<Vec<usize>> {
    let shape = open(words).ok()?;
    let mut places = alterable(words)?.concat();
    places.extend(shape.node_cells().map(|cell| shape.cell(cell)));
    places.sort_unstable();
    places.dedup();
    Some(places)
}

/// The record of the node in no list whose identifier this word of a sound store is.
fn record_in_no_list(words: &[u16], at: usize) -> Option<Range<usize>> {
    let shape = open(words).expect("a store");
    let nodes = shape.cell(shape.lists);
    let identifier = at >= nodes && (at - nodes) % (3 + shape.width) == 0;
    (identifier && [0, WORN].contains(&words[at])).then_some(at + 3..at + 3 + shape.width)
}

/// What recovery leaves of a sound store with one such word altered. It is put back; but the identifier of a node in no list becomes 0, with
/// zero record words, or stays if it is 65,535. So changes to and from 65,535 there are not put back.
pub fn mended(words: &[u16], (at, value): WordStore) -> Vec<u16> {
    let mut left = words.to_vec();
    match record_in_no_list(words, at) {
        Some(_) if value == WORN => left[at] = WORN,
        Some(record) => {
            left[at] = 0;
            left[record].fill(0);
        }
        None => (),
    }
    left
}

/// Are these altered words of a sound store, three at most, noticed? Not if all of them mark free nodes or make worn ones free that have zero
/// record words.
pub fn noticed(words: &[u16], altered: &[WordStore]) -> bool {
    let blank = |record: Range<usize>| words[record].iter().all(|&word| word == 0);
    let passes = |&(at, value): &WordStore| match record_in_no_list(words, at) {
        Some(record) => value == WORN || (value == 0 && blank(record)),
        None => value == words[at],
    };
    !altered.iter().all(passes)
}

/// The values that a word of a cell is altered to: every cell number and one beyond, every identifier, 65,535.
pub fn adversarial(shape: Shape) -> Vec<u16> {
    let cells = 0..=(shape.lists + shape.nodes) as u16;
    let identifiers = (0..shape.lists as u16).map(|k| IDENTIFIER + k);
    cells.chain(identifiers).chain([65_535]).collect()
}

#[cfg(test)]
mod tests {
    use super::*;
    use crate::recovery::{recover, recover_plan};
    use crate::samples::{all_lists_and_worn, with_worn};
    use crate::store::{check, store_of, Answer};

    /// Two lists of one member each, and a node in none, free or worn.
    #[test]
    fn places() {
        let shape = Shape::new(2, 3, 2);
        let mut words = store_of(shape, &[vec![3], vec![2]], || 7);
        for identifier in [0, WORN] {
            words[26] = identifier;
            assert_eq!(alterable(&words), Some(vec![vec![8, 9, 10, 11, 21, 22, 23], vec![12, 13, 14, 15, 16, 17, 18]]));
            let places = [8, 9, 10, 11, 12, 13, 14, 15, 16, 17, 18, 21, 22, 23, 26];
            assert_eq!(noticeable(&words), Some(places.to_vec()));
        }
        assert_eq!(pairs(&words), Some(vec![vec![[11, 8], [11, 21]], vec![[15, 12], [15, 16]]]));
        words[26] = 1;
        assert_eq!((alterable(&words), pairs(&words), noticeable(&words)), (None, None, None));
    }

    /// Changes to and from 65,535 on a node in no list are not put back, and all others are.
    #[test]
    fn exceptions() {
        let shape = Shape::new(1, 4, 2);
        let mut words = with_worn(store_of(shape, &[vec![1]], || 7), &[2, 4]);
        words[shape.record(4)].fill(0);
        let [member, worn, free, blank] = [1, 2, 3, 4].map(|cell| shape.cell(cell));
        let with = |changes: &[WordStore]| {
            let mut words = words.clone();
            changes.iter().for_each(|&(at, value)| words[at] = value);
            words
        };
        for at in noticeable(&words).expect("a sound store") {
            for value in adversarial(shape).into_iter().filter(|&value| value != words[at]) {
                let excepted = [worn, blank].contains(&at) || (at == free && value == WORN);
                assert_eq!(mended(&words, (at, value)) != words, excepted, "word {at} is {value}");
            }
        }
        for altered in [(member, WORN), (8, WORN), (9, WORN), (member + 1, WORN), (free, 7), (free, 42_400)] {
            assert_eq!((mended(&words, altered), noticed(&words, &[altered])), (words.clone(), true));
        }
        for altered in [(free, WORN), (blank, 0)] {
            assert_eq!((mended(&words, altered), noticed(&words, &[altered])), (with(&[altered]), false));
        }
        for value in [0, 7, 42_400] {
            let left = with(&[(worn, 0), (worn + 3, 0), (worn + 4, 0)]);
            assert_eq!((mended(&words, (worn, value)), noticed(&words, &[(worn, value)])), (left, true));
        }
        assert!(!noticed(&words, &[(free, WORN), (blank, 0)]) && !noticed(&words, &[]));
        assert!(noticed(&words, &[(free, WORN), (worn, 0)]) && noticed(&words, &[(blank, 0), (member, WORN)]));
    }

    /// All sound stores of one and two lists over two nodes: of one altered word recovery leaves that, with one store or none; if a
    /// worn node is free then, with one more for each word of its record.
    #[test]
    fn one_word() {
        for shape in [Shape::new(1, 2, 1), Shape::new(2, 2, 1)] {
            for (lists, worn) in all_lists_and_worn(shape) {
                let words = with_worn(store_of(shape, &lists, || 7), &worn);
                for at in noticeable(&words).expect("a sound store") {
                    for value in adversarial(shape) {
                        let expected = mended(&words, (at, value));
                        let mut found = words.clone();
                        found[at] = value;
                        assert_eq!(check(&found) == 6, noticed(&words, &[(at, value)]));
                        let stores = (0..found.len()).filter(|&at| found[at] != expected[at]).count() as u16;
                        assert_eq!((recover(&mut found, 2), found), (Answer::Done(stores), expected));
                    }
                }
            }
        }
    }

    /// All sound stores of one and two lists over two nodes, and of three over one: the count and an identifier of one list altered to any of
    /// some values come back, the identifier first.
    #[test]
    fn count_and_identifier() {
        for shape in [Shape::new(1, 2, 1), Shape::new(2, 2, 1), Shape::new(3, 1, 1)] {
            for (lists, worn) in all_lists_and_worn(shape) {
                let words = with_worn(store_of(shape, &lists, || 7), &worn);
                for [count, identifier] in pairs(&words).expect("a sound store").concat() {
                    for (told, carried) in all_of(&adversarial(shape)) {
                        let mut found = words.clone();
                        (found[count], found[identifier]) = (told, carried);
                        let wrong = [identifier, count].into_iter().filter(|&at| found[at] != words[at]);
                        let wrong: Vec<WordStore> = wrong.map(|at| (at, words[at])).collect();
                        assert_eq!(recover_plan(&found), Ok(wrong), "{found:?}");
                    }
                }
            }
        }
    }

    /// All pairs of the values.
    fn all_of(values: &[u16]) -> Vec<(u16, u16)> {
        values.iter().flat_map(|&a| values.iter().map(move |&b| (a, b))).collect()
    }
}
