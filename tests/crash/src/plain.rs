//! Plain sequences of records, and the words of the store that holds them.

use interface::{words_of, Call, DONE};
use model::samples::{carriers, with_worn};
use model::store::{store_of, Shape, WordStore, IDENTIFIER, WORN};

/// Each list's cells and records in their order, and every word of the store.
#[derive(Clone)]
pub struct Plain {
    pub shape: Shape,
    pub lists: Vec<Vec<(usize, Vec<u16>)>>,
    pub words: Vec<u16>,
}

impl Plain {
    /// Empty lists. Every eighth node is worn. The words that are free hold anything.
    pub fn empty(shape: Shape) -> Plain {
        let worn: Vec<usize> = shape.node_cells().step_by(8).collect();
        let words = with_worn(store_of(shape, &vec![vec![]; shape.lists], || 0x1357), &worn);
        Plain { shape, lists: vec![vec![]; shape.lists], words }
    }

    pub fn lengths(&self) -> Vec<usize> {
        self.lists.iter().map(Vec::len).collect()
    }

    /// The number of nodes that are not worn.
    pub fn usable(&self) -> usize {
        self.shape.nodes - carriers(&self.words, WORN).len()
    }

    /// Are the worn nodes the same in these words?
    pub fn same_worn(&self, words: &[u16]) -> bool {
        let worn = carriers(&self.words, WORN);
        let node = |&cell: &usize| self.shape.node(cell);
        carriers(words, WORN) == worn && worn.iter().map(node).all(|node| words[node.clone()] == self.words[node])
    }

    /// The first free cell from `start` on.
    fn free_cell(&self, start: usize) -> Option<usize> {
        let nodes = self.shape.node_cells();
        (start..nodes.end).chain(nodes.start..start).find(|&cell| self.words[self.shape.cell(cell)] == 0)
    }

    fn store(&mut self, stores: &[WordStore]) {
        stores.iter().for_each(|&(at, value)| self.words[at] = value);
    }

    /// The cells before and behind a place of the list.
    fn around(&self, list: usize, before: usize, behind: usize) -> (usize, usize) {
        let members = &self.lists[list];
        let a = if before == 0 { list } else { members[before - 1].0 };
        (a, members.get(behind).map_or(list, |member| member.0))
    }

    /// Makes the call whole, and says its answer.
    pub fn make(&mut self, call: &Call) -> u32 {
        self.make_first(call, u16::MAX)
    }

    /// Makes the first stores of the call, so many: none, all, or of an insert of several records all of the first records.
    pub fn make_first(&mut self, call: &Call, stores: u16) -> u32 {
        let records = usize::from(stores) / (self.shape.width + 6);
        match *call {
            _ if stores == 0 => DONE,
            Call::Insert { list, position, start, ref record } => {
                self.insert(list.into(), position.into(), start.into(), words_of(record))
            }
            Call::InsertSeveral { list, position, start, records: ref all } => {
                self.insert_several(list.into(), position.into(), start.into(), words_of(all), records)
            }
            Call::Delete { list, position } => self.delete(list.into(), position.into()),
            Call::MarkWorn { cell } => self.mark(cell.into()),
            _ => unreachable!("a child inserts, deletes and marks"),
        }
    }

    fn insert(&mut self, list: usize, position: usize, start: usize, record: Vec<u16>) -> u32 {
        if position > self.lists[list].len() {
            return 7;
        }
        let cell = match self.free_cell(start) {
            Some(cell) => cell,
            None => return 10,
        };
        let (a, b) = self.around(list, position, position);
        let (shape, at) = (self.shape, self.shape.cell(cell));
        self.words[at + 3..][..record.len()].copy_from_slice(&record);
        self.lists[list].insert(position, (cell, record));
        self.store(&[
            (at + 1, b as u16),
            (at + 2, a as u16),
            (at, IDENTIFIER + list as u16),
            (shape.cell(list) + 3, self.lists[list].len() as u16),
            (shape.cell(a) + 1, cell as u16),
            (shape.cell(b) + 2, cell as u16),
        ]);
        DONE + shape.width as u32 + 6
    }

    /// Inserts the first records, so many at most.
    fn insert_several(&mut self, list: usize, position: usize, start: usize, all: Vec<u16>, most: usize) -> u32 {
        let (width, nodes) = (self.shape.width, self.shape.node_cells());
        if position > self.lists[list].len() {
            return 7;
        }
        if self.lengths().iter().sum::<usize>() + all.len() / width > self.usable() {
            return 10;
        }
        let mut start = start;
        for (i, record) in all.chunks(width).take(most).enumerate() {
            self.insert(list, position + i, start, record.to_vec());
            start = nodes.start + (self.lists[list][position + i].0 + 1 - nodes.start) % self.shape.nodes;
        }
        DONE + (all.len() / width * (width + 6)) as u32
    }

    fn delete(&mut self, list: usize, position: usize) -> u32 {
        if position >= self.lists[list].len() {
            return 7;
        }
        let (a, b) = self.around(list, position, position + 1);
        let (cell, _) = self.lists[list].remove(position);
        let shape = self.shape;
        self.store(&[
            (shape.cell(b) + 2, a as u16),
            (shape.cell(a) + 1, b as u16),
            (shape.cell(list) + 3, self.lists[list].len() as u16),
            (shape.cell(cell), 0),
        ]);
        self.words[shape.record(cell)].fill(0);
        DONE + shape.width as u32 + 4
    }

    /// Marks a node.
    fn mark(&mut self, cell: usize) -> u32 {
        let at = self.shape.cell(cell);
        if self.words[at] != 0 {
            return 13;
        }
        self.store(&[(at, WORN)]);
        DONE + 1
    }
}
