//! The stores that the calls are measured on.

use bench::plain;
use model::random::Random;
use model::store::{store_of, Shape};

/// So many nodes are members, in shuffled order, as many in each list.
fn dealt(random: &mut Random, shape: Shape, members: usize) -> Vec<Vec<usize>> {
    let mut cells: Vec<usize> = shape.node_cells().collect();
    random.shuffle(&mut cells);
    let mut lists = vec![vec![]; shape.lists];
    for (i, &cell) in cells[..members].iter().enumerate() {
        lists[i % shape.lists].push(cell);
    }
    lists
}

/// The bytes of a sound store with these lists.
fn bytes_of(random: &mut Random, shape: Shape, lists: &[Vec<usize>]) -> Vec<u8> {
    store_of(shape, lists, || random.word()).iter().flat_map(|w| w.to_le_bytes()).collect()
}

/// (L, N, P) = (1, 20, 4), (8, 200, 8), (8, 2000, 13).
pub fn shapes() -> [Shape; 3] {
    [Shape::new(1, 20, 4), Shape::new(8, 200, 8), Shape::new(8, 2000, 13)]
}

/// A sound store whose nodes are all members of its one list, in shuffled order.
pub fn one_list(nodes: usize) -> (Shape, Vec<u8>) {
    let mut random = Random::new(1);
    let shape = Shape::new(1, nodes, 13);
    let lists = dealt(&mut random, shape, nodes);
    (shape, bytes_of(&mut random, shape, &lists))
}

#[derive(Clone, Copy, PartialEq, Eq)]
pub enum Fill {
    /// All nodes but one are members.
    Full,
    /// Every second node is a member.
    Half,
}

impl Fill {
    pub fn name(self) -> &'static str {
        match self {
            Fill::Full => "full",
            Fill::Half => "half",
        }
    }
}

/// A sound store: members in shuffled order, as many in each list, and an insert that it takes.
pub struct Sample {
    pub shape: Shape,
    pub fill: Fill,
    pub bytes: Vec<u8>,
    pub list: u16,
    pub position: u16,
    pub start: u16,
    pub record: Vec<u8>,
    lists: Vec<Vec<usize>>,
}

impl Sample {
    pub fn new(shape: Shape, fill: Fill) -> Sample {
        let mut random = Random::new(1);
        let used = match fill {
            Fill::Full => shape.nodes - 1,
            Fill::Half => shape.nodes / 2,
        };
        let lists = dealt(&mut random, shape, used);
        let bytes = bytes_of(&mut random, shape, &lists);
        let list = shape.lists / 2;
        let record = (0..2 * shape.width).map(|i| i as u8).collect();
        let (position, start) = (lists[list].len() / 2, shape.lists);
        let (list, position, start) = (list as u16, position as u16, start as u16);
        Sample { shape, fill, bytes, list, position, start, record, lists }
    }

    /// The nodes in no list.
    fn free_cells(&self) -> impl Iterator<Item = usize> + '_ {
        self.shape.node_cells().filter(|cell| !self.lists.iter().any(|list| list.contains(cell)))
    }

    /// The first of them.
    pub fn free_cell(&self) -> u16 {
        self.free_cells().next().expect("a free node") as u16
    }

    /// The first and the last of them.
    pub fn free_ends(&self) -> (usize, usize) {
        (self.free_cell().into(), self.free_cells().last().expect("a free node"))
    }

    pub fn length(&self) -> usize {
        self.lists[usize::from(self.list)].len()
    }

    /// The number of free nodes.
    pub fn free(&self) -> usize {
        self.shape.nodes - self.lists.iter().map(Vec::len).sum::<usize>()
    }

    /// The store after an insert that was cut after so many stores.
    pub fn cut(&self, stores: usize) -> Vec<u8> {
        let mut bytes = self.bytes.clone();
        plain::insert(&mut bytes, self.list, self.position, self.start, &self.record, stores as u16);
        bytes
    }

    /// The store as older versions left it: every free node holds a record.
    pub fn older(&self) -> Vec<u8> {
        let mut bytes = self.bytes.clone();
        for record in self.free_cells().map(|cell| self.shape.record(cell)) {
            bytes[2 * record.start..2 * record.end].copy_from_slice(&self.record);
        }
        bytes
    }

    /// The store with one word wrong in each list: the forward link of its middle member, the next list's back link, then an
    /// identifier, then a count, and so on.
    pub fn faulty(&self) -> Vec<u8> {
        let mut bytes = self.bytes.clone();
        for (list, members) in self.lists.iter().enumerate() {
            let middle = self.shape.cell(members[members.len() / 2]);
            let word = [middle + 1, middle + 2, middle, self.shape.cell(list) + 3][list % 4];
            bytes[2 * word] ^= 0x55;
        }
        bytes
    }

    /// The store with two words wrong in each list: the identifier of its middle member, and the count.
    pub fn miscounted(&self) -> Vec<u8> {
        let mut bytes = self.bytes.clone();
        for (list, members) in self.lists.iter().enumerate() {
            let middle = self.shape.cell(members[members.len() / 2]);
            bytes[2 * middle] ^= 0x55;
            bytes[2 * (self.shape.cell(list) + 3)] ^= 0x55;
        }
        bytes
    }
}
