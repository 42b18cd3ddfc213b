//! Sound stores, and words altered to values that may well stand there.

use crate::{bytes_of, Call};
use model::random::Random;
use model::samples::{carriers, wear};
use model::store::{open, store_of, Shape, IDENTIFIER, WORN};

/// Deals so many nodes to each list.
pub fn deal_lengths(random: &mut Random, shape: Shape, lengths: &[usize]) -> Vec<Vec<usize>> {
    let mut cells: Vec<usize> = shape.node_cells().collect();
    random.shuffle(&mut cells);
    lengths.iter().map(|&length| cells.drain(..length).collect()).collect()
}

/// A sound store of these lists; free words and records are random, some of them such as links and identifiers. No node is worn.
pub fn unworn(random: &mut Random, shape: Shape, lists: &[Vec<usize>]) -> Vec<u16> {
    store_of(shape, lists, || match random.below(6) {
        0 => random.pick(&[0, 1, 65_535, IDENTIFIER]),
        1 => random.below(20) as u16,
        _ => random.word(),
    })
}

/// Such a store. Of the other nodes some are worn, and one is free.
pub fn sound(random: &mut Random, shape: Shape, lists: &[Vec<usize>]) -> Vec<u16> {
    let words = unworn(random, shape, lists);
    wear(random, words, 1)
}

/// A value to put at word `i` of a cell.
fn value(random: &mut Random, shape: Shape, i: usize, right: u16) -> u16 {
    match (i, random.below(8)) {
        (_, 0) => random.pick(&[0, 1, 65_535]),
        (_, 1) => right ^ 1 << random.below(16),
        (0, 2..=5) => IDENTIFIER + random.below(shape.lists) as u16,
        (0, _) => random.pick(&[0, WORN]),
        _ => random.below(shape.lists + shape.nodes + 1) as u16,
    }
}

/// Word `i` of the cell, and what it is altered to.
pub fn altered_to(random: &mut Random, shape: Shape, words: &[u16], cell: usize, i: usize) -> (usize, u16) {
    let at = shape.cell(cell) + i;
    (at, value(random, shape, i, words[at]))
}

/// A word of the header, or of the node's identifier and links, and what it is altered to.
pub fn alteration(random: &mut Random, shape: Shape, words: &[u16], cell: usize) -> (usize, u16) {
    let i = random.below(if cell < shape.lists { 4 } else { 3 });
    altered_to(random, shape, words, cell, i)
}

pub fn record(random: &mut Random, width: usize) -> Vec<u8> {
    bytes_of(&(0..width).map(|_| random.word()).collect::<Vec<_>>())
}

/// By turns an insert, a delete and an insert of some records, on a sound store of these lists. It is not refused, but if it must: no
/// node is free, or every list is empty.
pub fn edit(random: &mut Random, sound: &[u16], lists: &[Vec<usize>], turn: usize) -> Call {
    let shape = open(sound).expect("a store");
    let list = random.below(shape.lists);
    if turn % 3 != 1 {
        let (position, start) = (random.between(0, lists[list].len()), shape.lists + random.below(shape.nodes));
        let (list, position, start) = (list as u16, position as u16, start as u16);
        if turn % 3 == 0 {
            return Call::Insert { list, position, start, record: record(random, shape.width) };
        }
        let number = random.between(1, carriers(sound, 0).len().clamp(1, 4));
        let records = record(random, number * shape.width);
        return Call::InsertSeveral { list, position, start, records };
    }
    let filled: Vec<usize> = (0..shape.lists).filter(|&k| !lists[k].is_empty()).collect();
    let list = if filled.is_empty() { list } else { random.pick(&filled) };
    let position = if lists[list].is_empty() { 0 } else { random.below(lists[list].len()) };
    Call::Delete { list: list as u16, position: position as u16 }
}
