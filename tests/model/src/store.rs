//! A store is a slice of words. Here is what its words mean, when it is sound, and what format, check, length, read, insert,
//! insert_several, delete and mark_worn answer and leave, and what is told of insert_several beforehand. What recover does is in
//! `recovery`.

use std::collections::HashSet;
use std::ops::Range;

/// The identifier of list 0.
pub const IDENTIFIER: u16 = 42_400;

/// The identifier of a worn node.
pub const WORN: u16 = 65_535;

/// Stores of at most so many nodes are judged by enumeration too.
pub const FEW_NODES: usize = 5;

/// L, N and P.
#[derive(Clone, Copy, Debug, PartialEq, Eq)]
pub struct Shape {
    pub lists: usize,
    pub nodes: usize,
    pub width: usize,
}

impl Shape {
    pub fn new(lists: usize, nodes: usize, width: usize) -> Shape {
        Shape { lists, nodes, width }
    }

    pub fn in_range(self) -> bool {
        (1..=8).contains(&self.lists) && (1..=2000).contains(&self.nodes) && (1..=13).contains(&self.width)
    }

    /// The words of a store.
    pub fn size(self) -> usize {
        8 + 4 * self.lists + (3 + self.width) * self.nodes
    }

    /// The cells that are nodes.
    pub fn node_cells(self) -> Range<usize> {
        self.lists..self.lists + self.nodes
    }

    /// The first word of a cell: identifier, forward, back, then the count of a header or the record of a node.
    pub fn cell(self, i: usize) -> usize {
        if i < self.lists {
            8 + 4 * i
        } else {
            8 + 4 * self.lists + (3 + self.width) * (i - self.lists)
        }
    }

    /// The words of a node.
    pub fn node(self, i: usize) -> Range<usize> {
        self.cell(i)..self.cell(i) + 3 + self.width
    }

    /// The words of its record.
    pub fn record(self, i: usize) -> Range<usize> {
        self.cell(i) + 3..self.cell(i) + 3 + self.width
    }
}

pub(crate) fn identifier_of(list: usize) -> u16 {
    IDENTIFIER + list as u16
}

/// Questions 1 to 4.
pub fn open(words: &[u16]) -> Result<Shape, u16> {
    if words.len() < 8 {
        return Err(1);
    }
    if words[0..4] != [82, 66, 83, 1] || words[7] != 0 {
        return Err(2);
    }
    let shape = Shape::new(words[4].into(), words[5].into(), words[6].into());
    if !shape.in_range() {
        return Err(3);
    }
    if words.len() != shape.size() {
        return Err(4);
    }
    Ok(shape)
}

/// Is this sequence of different nodes the list? Header and members carry its identifier; from the header, forward leads
/// through the sequence and back to the header, and back leads the other way round; the count is the sequence's length.
fn is_list(words: &[u16], shape: Shape, list: usize, sequence: &[usize]) -> bool {
    let mut way = vec![list];
    way.extend(sequence);
    way.push(list);
    let carried = way.iter().all(|&i| words[shape.cell(i)] == identifier_of(list));
    let forward = way.windows(2).all(|w| usize::from(words[shape.cell(w[0]) + 1]) == w[1]);
    let back = way.windows(2).all(|w| usize::from(words[shape.cell(w[1]) + 2]) == w[0]);
    let count = usize::from(words[shape.cell(list) + 3]) == sequence.len();
    carried && forward && back && count
}

/// Every sequence of different cells out of `cells`, the empty one too.
pub fn sequences(cells: &[usize]) -> Vec<Vec<usize>> {
    let mut all = vec![vec![]];
    for &first in cells {
        let others: Vec<usize> = cells.iter().copied().filter(|&c| c != first).collect();
        for rest in sequences(&others) {
            all.push([vec![first], rest].concat());
        }
    }
    all
}

/// Every choice of the lists' sequences.
pub fn all_lists(lists: usize, cells: &[usize]) -> Vec<Vec<Vec<usize>>> {
    if lists == 0 {
        return vec![vec![]];
    }
    let mut all = vec![];
    for first in sequences(cells) {
        let others: Vec<usize> = cells.iter().copied().filter(|c| !first.contains(c)).collect();
        for rest in all_lists(lists - 1, &others) {
            all.push([vec![first.clone()], rest].concat());
        }
    }
    all
}

/// The list's sequence, found among all that there are.
fn list_by_enumeration(words: &[u16], shape: Shape, list: usize, all: &[Vec<usize>]) -> Option<Vec<usize>> {
    let fitting: Vec<&Vec<usize>> = all.iter().filter(|s| is_list(words, shape, list, s)).collect();
    assert!(fitting.len() <= 1, "list {list} has several sequences: {fitting:?}");
    fitting.first().map(|s| s.to_vec())
}

/// The nodes met from the header on until it is met again, by the link that is word 1 or 2 of a cell: nothing if the way
/// leaves the nodes or meets one twice.
pub(crate) fn walk(words: &[u16], shape: Shape, list: usize, link: usize) -> Option<Vec<usize>> {
    let mut sequence = vec![];
    let mut visited = HashSet::new();
    let mut at: usize = words[shape.cell(list) + link].into();
    while at != list {
        if !shape.node_cells().contains(&at) || !visited.insert(at) {
            return None;
        }
        sequence.push(at);
        at = words[shape.cell(at) + link].into();
    }
    Some(sequence)
}

/// The list's sequence, found by its forward links.
fn list_by_links(words: &[u16], shape: Shape, list: usize) -> Option<Vec<usize>> {
    walk(words, shape, list, 1).filter(|s| is_list(words, shape, list, s))
}

/// The nodes in none of the lists, lowest first.
pub(crate) fn in_no_list(shape: Shape, lists: &[Vec<usize>]) -> Vec<usize> {
    let members: HashSet<usize> = lists.iter().flatten().copied().collect();
    shape.node_cells().filter(|cell| !members.contains(cell)).collect()
}

/// The sequence of each list if the store is ordered: every list has one, and a node in none has identifier 0 or 65,535.
fn ordered_if(words: &[u16], shape: Shape, found: impl Fn(usize) -> Option<Vec<usize>>) -> Option<Vec<Vec<usize>>> {
    let lists: Vec<Vec<usize>> = (0..shape.lists).map(found).collect::<Option<_>>()?;
    let others = in_no_list(shape, &lists);
    let free_or_worn = others.into_iter().all(|cell| [0, WORN].contains(&words[shape.cell(cell)]));
    free_or_worn.then_some(lists)
}

fn ordered_by_enumeration(words: &[u16], shape: Shape) -> Option<Vec<Vec<usize>>> {
    let all = sequences(&shape.node_cells().collect::<Vec<_>>());
    ordered_if(words, shape, |k| list_by_enumeration(words, shape, k, &all))
}

fn ordered_by_links(words: &[u16], shape: Shape) -> Option<Vec<Vec<usize>>> {
    ordered_if(words, shape, |k| list_by_links(words, shape, k))
}

/// The sequence of each list, or nothing if the store is not ordered. An older store, with remains of records in its free nodes, is
/// ordered and no more.
pub fn ordered(words: &[u16], shape: Shape) -> Option<Vec<Vec<usize>>> {
    let found = ordered_by_links(words, shape);
    if shape.nodes <= FEW_NODES {
        assert_eq!(found, ordered_by_enumeration(words, shape), "the model disagrees with itself on {words:?}");
    }
    found
}

/// The nodes in none of the lists that are not worn, lowest first.
pub(crate) fn to_be_blank(words: &[u16], shape: Shape, lists: &[Vec<usize>]) -> Vec<usize> {
    in_no_list(shape, lists).into_iter().filter(|&cell| words[shape.cell(cell)] != WORN).collect()
}

/// The sequence of each list, or nothing if the store is not sound: it is ordered, and every node in no list that is not worn has zero
/// record words.
pub fn lists(words: &[u16], shape: Shape) -> Option<Vec<Vec<usize>>> {
    let lists = ordered(words, shape)?;
    let blank = |cell: usize| words[shape.record(cell)].iter().all(|&word| word == 0);
    to_be_blank(words, shape, &lists).into_iter().all(blank).then_some(lists)
}

/// The words of a sound store whose lists have these sequences; no node is worn. What is free is taken from `free`: the members'
/// records, and the links of nodes in no list.
pub fn store_of(shape: Shape, lists: &[Vec<usize>], mut free: impl FnMut() -> u16) -> Vec<u16> {
    let mut words = vec![82, 66, 83, 1, shape.lists as u16, shape.nodes as u16, shape.width as u16, 0];
    words.resize(8 + 4 * shape.lists, 0);
    words.resize_with(shape.size(), &mut free);
    for i in shape.node_cells() {
        words[shape.cell(i)] = 0;
    }
    for cell in in_no_list(shape, lists) {
        words[shape.record(cell)].fill(0);
    }
    for (list, sequence) in lists.iter().enumerate() {
        let mut way = vec![list];
        way.extend(sequence);
        way.push(list);
        for w in way.windows(2) {
            words[shape.cell(w[0])] = identifier_of(list);
            words[shape.cell(w[0]) + 1] = w[1] as u16;
            words[shape.cell(w[1]) + 2] = w[0] as u16;
        }
        words[shape.cell(list) + 3] = sequence.len() as u16;
    }
    words
}

/// Format: 0, or the number of its refusal.
pub fn format(words: &mut [u16], lists: u16, nodes: u16, width: u16) -> u16 {
    let shape = Shape::new(lists.into(), nodes.into(), width.into());
    if !shape.in_range() {
        return 3;
    }
    if words.len() != shape.size() {
        return 4;
    }
    words.copy_from_slice(&store_of(shape, &vec![vec![]; shape.lists], || 0));
    0
}

/// Check: 0 for a sound store, or the number of its refusal.
pub fn check(words: &[u16]) -> u16 {
    match open(words) {
        Err(number) => number,
        Ok(shape) if lists(words, shape).is_none() => 6,
        Ok(_) => 0,
    }
}

/// Questions 1 to 6 of a call that names a list: the store's shape and each list's sequence, or the number of the refusal.
fn lists_of(words: &[u16], list: u16) -> Result<(Shape, Vec<Vec<usize>>), u16> {
    let shape = open(words)?;
    if usize::from(list) >= shape.lists {
        return Err(5);
    }
    Ok((shape, lists(words, shape).ok_or(6u16)?))
}

/// Length: the list's length, or the number of the refusal.
pub fn length(words: &[u16], list: u16) -> Result<u16, u16> {
    let (_, lists) = lists_of(words, list)?;
    Ok(lists[usize::from(list)].len() as u16)
}

/// Read: the record's words, or the number of the refusal.
pub fn read(words: &[u16], list: u16, position: u16) -> Result<&[u16], u16> {
    let (shape, lists) = lists_of(words, list)?;
    let &cell = lists[usize::from(list)].get(usize::from(position)).ok_or(7u16)?;
    Ok(&words[shape.record(cell)])
}

/// The answer of a call that stores: done or stopped after so many stores, or the number of its refusal.
#[derive(Clone, Copy, Debug, PartialEq, Eq)]
pub enum Answer {
    Done(u16),
    Stopped(u16),
    Refused(u16),
}

/// A word store: the word's place, and what it becomes.
pub type WordStore = (usize, u16);

/// Makes the first stores of the list, up to the allowance: the answer, and the words then.
pub(crate) fn make(words: &[u16], stores: &[WordStore], allowance: u16) -> (Answer, Vec<u16>) {
    let mut words = words.to_vec();
    for &(at, value) in stores.iter().take(allowance.into()) {
        words[at] = value;
    }
    let whole = stores.len() as u16;
    (if allowance < whole { Answer::Stopped(allowance) } else { Answer::Done(whole) }, words)
}

/// Makes the first stores of a plan, up to the allowance, or refuses with its number.
pub(crate) fn act(words: &mut [u16], plan: Result<Vec<WordStore>, u16>, allowance: u16) -> Answer {
    let stores = match plan {
        Err(number) => return Answer::Refused(number),
        Ok(stores) => stores,
    };
    let (answer, left) = make(words, &stores, allowance);
    words.copy_from_slice(&left);
    answer
}

/// The nodes in no list that carry this identifier, lowest first.
fn carrying(words: &[u16], shape: Shape, lists: &[Vec<usize>], identifier: u16) -> Vec<usize> {
    in_no_list(shape, lists).into_iter().filter(|&cell| words[shape.cell(cell)] == identifier).collect()
}

/// The free nodes, those in no list with identifier 0, counting up from the starting cell and on from cell L after the last.
fn free_cells(words: &[u16], shape: Shape, lists: &[Vec<usize>], start: usize) -> Vec<usize> {
    let free = carrying(words, shape, lists, 0);
    let (low, high) = free.split_at(free.iter().filter(|&&cell| cell < start).count());
    [high, low].concat()
}

/// The cells before and after a place of the sequence: at its ends the header.
fn neighbours(list: usize, before: &[usize], after: &[usize]) -> (usize, usize) {
    (*before.last().unwrap_or(&list), *after.first().unwrap_or(&list))
}

/// Questions 1 to 8 of an insert.
fn gap(words: &[u16], list: u16, position: u16, start: u16) -> Result<(Shape, Vec<Vec<usize>>), u16> {
    let (shape, lists) = lists_of(words, list)?;
    if usize::from(position) > lists[usize::from(list)].len() {
        return Err(7);
    }
    if !shape.node_cells().contains(&start.into()) {
        return Err(8);
    }
    Ok((shape, lists))
}

/// The cell that an insert uses and its stores in their order, or the number of the refusal.
pub(crate) fn insert_plan(
    words: &[u16],
    list: u16,
    position: u16,
    start: u16,
    record: &[u16],
) -> Result<(usize, Vec<WordStore>), u16> {
    let (shape, lists) = gap(words, list, position, start)?;
    if record.len() != shape.width {
        return Err(9);
    }
    let &cell = free_cells(words, shape, &lists, start.into()).first().ok_or(10u16)?;
    let sequence = &lists[usize::from(list)];
    let (before, after) = sequence.split_at(position.into());
    let (a, b) = neighbours(list.into(), before, after);
    let mut stores: Vec<WordStore> = vec![];
    for (i, &word) in record.iter().enumerate() {
        stores.push((shape.cell(cell) + 3 + i, word));
    }
    stores.push((shape.cell(cell) + 1, b as u16));
    stores.push((shape.cell(cell) + 2, a as u16));
    stores.push((shape.cell(cell), identifier_of(list.into())));
    stores.push((shape.cell(list.into()) + 3, sequence.len() as u16 + 1));
    stores.push((shape.cell(a) + 1, cell as u16));
    stores.push((shape.cell(b) + 2, cell as u16));
    Ok((cell, stores))
}

/// The cell that a delete frees and its stores in their order, or the number of the refusal.
pub(crate) fn delete_plan(words: &[u16], list: u16, position: u16) -> Result<(usize, Vec<WordStore>), u16> {
    let (shape, lists) = lists_of(words, list)?;
    let sequence = &lists[usize::from(list)];
    if usize::from(position) >= sequence.len() {
        return Err(7);
    }
    let (before, rest) = sequence.split_at(position.into());
    let (cell, after) = (rest[0], &rest[1..]);
    let (a, b) = neighbours(list.into(), before, after);
    let mut stores = vec![
        (shape.cell(b) + 2, a as u16),
        (shape.cell(a) + 1, b as u16),
        (shape.cell(list.into()) + 3, sequence.len() as u16 - 1),
        (shape.cell(cell), 0),
    ];
    stores.extend(shape.record(cell).map(|at| (at, 0)));
    Ok((cell, stores))
}

/// A sound store as plain sequences: the cell and the record of each member of each list, the cell and all words of each worn node.
#[derive(Debug, PartialEq, Eq)]
struct Contents {
    lists: Vec<Vec<(usize, Vec<u16>)>>,
    worn: Vec<(usize, Vec<u16>)>,
}

fn contents(words: &[u16]) -> Contents {
    let shape = open(words).expect("a store");
    let lists = lists(words, shape).expect("a sound store");
    let member = |&cell: &usize| (cell, words[shape.record(cell)].to_vec());
    let worn = carrying(words, shape, &lists, WORN);
    Contents {
        lists: lists.iter().map(|sequence| sequence.iter().map(member).collect()).collect(),
        worn: worn.into_iter().map(|cell| (cell, words[shape.node(cell)].to_vec())).collect(),
    }
}

/// Insert. Done, it is held against the insertion into a plain sequence.
pub fn insert(words: &mut [u16], list: u16, position: u16, start: u16, record: &[u16], allowance: u16) -> Answer {
    let (cell, stores) = match insert_plan(words, list, position, start, record) {
        Err(number) => return Answer::Refused(number),
        Ok(plan) => plan,
    };
    let (answer, left) = make(words, &stores, allowance);
    if let Answer::Done(_) = answer {
        let mut expected = contents(words);
        expected.lists[usize::from(list)].insert(position.into(), (cell, record.to_vec()));
        assert_eq!(contents(&left), expected, "an insert is not an insertion into a sequence");
    }
    words.copy_from_slice(&left);
    answer
}

/// The questions of an insert of several records: the number of words of each, or the number of the refusal.
fn width_of_several(words: &[u16], list: u16, position: u16, start: u16, records: &[u16]) -> Result<usize, u16> {
    let (shape, lists) = gap(words, list, position, start)?;
    if records.is_empty() || records.len() % shape.width != 0 {
        return Err(9);
    }
    if free_cells(words, shape, &lists, start.into()).len() < records.len() / shape.width {
        return Err(10);
    }
    Ok(shape.width)
}

/// The cell after a node: cell L after the last.
fn cell_after(shape: Shape, cell: usize) -> u16 {
    (if cell + 1 < shape.node_cells().end { cell + 1 } else { shape.lists }) as u16
}

/// The cell after the one that holds the record at the position.
fn next_cell(words: &[u16], list: u16, position: u16) -> u16 {
    let (shape, lists) = lists_of(words, list).expect("a sound store");
    cell_after(shape, lists[usize::from(list)][usize::from(position)])
}

/// Insert of several records: if no question refuses it, they are inserted one by one at consecutive positions, each next
/// from the cell after the one just used, until the allowance is spent.
pub fn insert_several(words: &mut [u16], list: u16, position: u16, start: u16, records: &[u16], allowance: u16) -> Answer {
    let width = match width_of_several(words, list, position, start, records) {
        Err(number) => return Answer::Refused(number),
        Ok(width) => width,
    };
    let (mut start, mut made) = (start, 0);
    for (position, record) in (position..).zip(records.chunks(width)) {
        match insert(words, list, position, start, record, allowance - made) {
            Answer::Done(stores) => made += stores,
            Answer::Stopped(_) => return Answer::Stopped(allowance),
            Answer::Refused(number) => panic!("one record of several is refused with {number}"),
        }
        start = next_cell(words, list, position);
    }
    Answer::Done(made)
}

/// The cells that an insert of several records uses, in order of use, and all its stores in their order, or the number of the refusal. Each
/// record is planned on the words that those before it leave.
fn several_plan(
    words: &[u16],
    list: u16,
    position: u16,
    start: u16,
    records: &[u16],
) -> Result<(Vec<usize>, Vec<WordStore>), u16> {
    let width = width_of_several(words, list, position, start, records)?;
    let shape = open(words)?;
    let (mut words, mut start) = (words.to_vec(), start);
    let (mut cells, mut stores) = (vec![], vec![]);
    for (position, record) in (position..).zip(records.chunks(width)) {
        let (cell, single) = insert_plan(&words, list, position, start, record).expect("no record of several is refused");
        single.iter().for_each(|&(at, value)| words[at] = value);
        start = cell_after(shape, cell);
        cells.push(cell);
        stores.extend(single);
    }
    Ok((cells, stores))
}

/// What is told of an insert of several records before it is made: the first and the last cell in order of use, and the number of stores.
#[derive(Clone, Copy, Debug, PartialEq, Eq)]
pub struct Figures {
    pub first: u16,
    pub last: u16,
    pub stores: u16,
}

/// The figures of an insert of several records with full allowance, or the number of its refusal. Nothing is stored.
pub fn insert_several_figures(words: &[u16], list: u16, position: u16, start: u16, records: &[u16]) -> Result<Figures, u16> {
    let (cells, stores) = several_plan(words, list, position, start, records)?;
    let (first, last) = (cells[0] as u16, cells[cells.len() - 1] as u16);
    Ok(Figures { first, last, stores: stores.len() as u16 })
}

/// Delete. Done, it is held against the removal from a plain sequence, and the cell is free.
pub fn delete(words: &mut [u16], list: u16, position: u16, allowance: u16) -> Answer {
    let (cell, stores) = match delete_plan(words, list, position) {
        Err(number) => return Answer::Refused(number),
        Ok(plan) => plan,
    };
    let (answer, left) = make(words, &stores, allowance);
    if let Answer::Done(_) = answer {
        let mut expected = contents(words);
        let (removed, _) = expected.lists[usize::from(list)].remove(position.into());
        assert_eq!((contents(&left), cell), (expected, removed), "a delete is not a removal from a sequence");
        let (shape, lists) = lists_of(&left, list).expect("a sound store");
        assert_eq!(free_cells(&left, shape, &lists, cell).first(), Some(&cell), "a deleted cell is not free");
    }
    words.copy_from_slice(&left);
    answer
}

/// The store of mark_worn, or the number of the refusal.
fn mark_plan(words: &[u16], cell: u16) -> Result<WordStore, u16> {
    let (shape, cell) = (open(words)?, usize::from(cell));
    let lists = lists(words, shape).ok_or(6u16)?;
    if !shape.node_cells().contains(&cell) {
        return Err(8);
    }
    if free_cells(words, shape, &lists, cell).first() != Some(&cell) {
        return Err(13);
    }
    Ok((shape.cell(cell), WORN))
}

/// Mark_worn: it has no allowance. Done, the lists are as they were, and so are the nodes that were worn before.
pub fn mark_worn(words: &mut [u16], cell: u16) -> Answer {
    let store = match mark_plan(words, cell) {
        Err(number) => return Answer::Refused(number),
        Ok(store) => store,
    };
    let (answer, left) = make(words, &[store], 1);
    let (before, mut after) = (contents(words), contents(&left));
    after.worn.retain(|&(worn, _)| worn != usize::from(cell));
    assert_eq!(after, before, "a mark does more than to mark a node");
    words.copy_from_slice(&left);
    answer
}

#[cfg(test)]
mod tests {
    use super::*;
    use crate::random::Random;
    use crate::samples::{all_lists_and_worn, deal, wear, with_worn};

    /// C1 to C3 of docs/FORMAT.md, word by word.
    #[test]
    fn marked_store() {
        let mut words = vec![7; 24];
        assert_eq!(format(&mut words, 1, 3, 1), 0);
        assert_eq!(words[..12], [82, 66, 83, 1, 1, 3, 1, 0, 42400, 0, 0, 0]);
        assert_eq!(words[12..], [0; 12]);
        assert_eq!((check(&words), length(&words, 0), read(&words, 0, 0)), (0, Ok(0), Err(7)));
        for (a, v) in [(19, 700), (17, 0), (18, 0), (16, 42400), (11, 1), (9, 2)] {
            words[a] = v;
        }
        assert_eq!(check(&words), 6);
        words[10] = 2;
        assert_eq!((length(&words, 0), read(&words, 0, 0), read(&words, 0, 1)), (Ok(1), Ok(&[700][..]), Err(7)));
        for (a, v) in [(23, 512), (21, 0), (22, 2), (20, 42400), (11, 2), (17, 3), (10, 3)] {
            words[a] = v;
        }
        assert_eq!((length(&words, 0), read(&words, 0, 0), read(&words, 0, 1)), (Ok(2), Ok(&[700][..]), Ok(&[512][..])));
        assert_eq!((length(&words, 1), read(&words, 0, 2)), (Err(5), Err(7)));
    }

    /// The words that differ.
    fn changes(before: &[u16], after: &[u16]) -> Vec<WordStore> {
        (0..before.len()).filter(|&i| before[i] != after[i]).map(|i| (i, after[i])).collect()
    }

    /// C1 to C8 of the marked store by calls, and what each allowance leaves.
    #[test]
    fn marked_edits() {
        let mut c1 = vec![7; 24];
        assert_eq!(format(&mut c1, 1, 3, 1), 0);
        let mut c2 = c1.clone();
        assert_eq!(insert(&mut c2, 0, 0, 2, &[700], 65_535), Answer::Done(7));
        assert_eq!(changes(&c1, &c2), [(9, 2), (10, 2), (11, 1), (16, 42400), (19, 700)]);
        let second = [(23, 512), (21, 0), (22, 2), (20, 42400), (11, 2), (17, 3), (10, 3)];
        let mut c3 = c2.clone();
        for allowance in 0..9u16 {
            let mut expected = c2.clone();
            second.iter().take(allowance.into()).for_each(|&(at, value)| expected[at] = value);
            c3 = c2.clone();
            let answer = insert(&mut c3, 0, 1, 2, &[512], allowance);
            assert_eq!(answer, if allowance < 7 { Answer::Stopped(allowance) } else { Answer::Done(7) });
            assert_eq!(c3, expected);
        }
        let removal = [(22, 0), (9, 3), (11, 1), (16, 0), (19, 0)];
        for allowance in 0..7u16 {
            let mut expected = c3.clone();
            removal.iter().take(allowance.into()).for_each(|&(at, value)| expected[at] = value);
            let mut c6 = c3.clone();
            let answer = delete(&mut c6, 0, 0, allowance);
            assert_eq!(answer, if allowance < 5 { Answer::Stopped(allowance) } else { Answer::Done(5) });
            assert_eq!(c6, expected);
            assert_eq!(check(&c6), if [0, 5, 6].contains(&allowance) { 0 } else { 6 });
        }
        let mut c8 = c3.clone();
        assert_eq!(insert(&mut c8, 0, 3, 2, &[1], 65_535), Answer::Refused(7));
        assert_eq!(c8, c3);
        assert_eq!(insert(&mut c8, 0, 2, 2, &[1], 65_535), Answer::Done(7));
    }

    /// The refusals that only insert and delete give, each before the next and before the allowance.
    #[test]
    fn refused_edits() {
        let shape = Shape::new(2, 2, 1);
        let sound = store_of(shape, &[vec![3], vec![2]], || 9);
        for (list, position, start, record, number) in [
            (2, 9, 9, &[][..], 5),
            (1, 2, 9, &[], 7),
            (1, 1, 1, &[], 8),
            (1, 1, 4, &[5, 5], 8),
            (1, 1, 2, &[5, 5], 9),
            (1, 0, 3, &[], 9),
            (0, 1, 2, &[5], 10),
        ] {
            let mut words = sound.clone();
            assert_eq!(insert(&mut words, list, position, start, record, 0), Answer::Refused(number));
            assert_eq!(words, sound);
        }
        let mut words = sound.clone();
        assert_eq!(delete(&mut words, 2, 9, 0), Answer::Refused(5));
        assert_eq!(delete(&mut words, 1, 1, 0), Answer::Refused(7));
        words[shape.cell(0) + 3] = 2;
        assert_eq!(delete(&mut words, 1, 1, 0), Answer::Refused(6));
        assert_eq!(insert(&mut words, 1, 2, 9, &[], 0), Answer::Refused(6));
    }

    /// Three records behind 700 in cell 2, from cell 4 on: in cells 4, 1 and 3. The stores of each come in insert's order.
    #[test]
    fn marked_several() {
        let shape = Shape::new(1, 4, 1);
        let mut sound = store_of(shape, &[vec![2]], || 7);
        sound[19] = 700;
        let stores = [
            [(27, 11), (25, 0), (26, 2), (24, 42400), (11, 2), (17, 4), (10, 4)],
            [(15, 12), (13, 0), (14, 4), (12, 42400), (11, 3), (25, 1), (10, 1)],
            [(23, 13), (21, 0), (22, 1), (20, 42400), (11, 4), (13, 3), (10, 3)],
        ]
        .concat();
        for allowance in 0..24u16 {
            let mut expected = sound.clone();
            stores.iter().take(allowance.into()).for_each(|&(at, value)| expected[at] = value);
            let mut words = sound.clone();
            let answer = insert_several(&mut words, 0, 1, 4, &[11, 12, 13], allowance);
            assert_eq!(answer, if allowance < 21 { Answer::Stopped(allowance) } else { Answer::Done(21) });
            assert_eq!(words, expected);
            assert_eq!(check(&words) == 0, [0, 7, 14, 21, 22, 23].contains(&allowance));
        }
        let told = |start, records: &[u16]| insert_several_figures(&sound, 0, 1, start, records);
        assert_eq!(told(4, &[11, 12, 13]), Ok(Figures { first: 4, last: 3, stores: 21 }));
        assert_eq!(told(4, &[11, 12]), Ok(Figures { first: 4, last: 1, stores: 14 }));
        assert_eq!(told(2, &[11, 12]), Ok(Figures { first: 3, last: 4, stores: 14 }));
        assert_eq!(told(2, &[11]), Ok(Figures { first: 3, last: 3, stores: 7 }));
        assert_eq!(told(2, &[11; 4]), Err(10));
    }

    /// Questions 9 and 10 of several records, each before the next and before the allowance; the others come first.
    #[test]
    fn refused_several() {
        let shape = Shape::new(2, 5, 3);
        let sound = store_of(shape, &[vec![3], vec![2, 6]], || 9);
        for (list, position, start, size, number) in [
            (2, 9, 9, 0, 5),
            (1, 3, 9, 0, 7),
            (1, 2, 1, 0, 8),
            (1, 2, 7, 9, 8),
            (1, 2, 6, 0, 9),
            (1, 2, 6, 1, 9),
            (1, 2, 6, 8, 9),
            (1, 2, 6, 10, 9),
            (1, 2, 6, 9, 10),
            (0, 0, 2, 65_535, 10),
        ] {
            for allowance in [0, 1, 65_535] {
                let mut words = sound.clone();
                let answer = insert_several(&mut words, list, position, start, &vec![5; size], allowance);
                assert_eq!(answer, Answer::Refused(number));
                assert_eq!(words, sound);
            }
            assert_eq!(insert_several_figures(&sound, list, position, start, &vec![5; size]), Err(number));
        }
        let mut words = sound.clone();
        assert_eq!(insert_several(&mut words, 0, 1, 6, &[5; 6], 65_535), Answer::Done(18));
        assert_eq!(lists(&words, shape), Some(vec![vec![3, 4, 5], vec![2, 6]]));
        assert_eq!(insert_several(&mut words, 0, 1, 6, &[5; 3], 65_535), Answer::Refused(10));
    }

    /// One record is inserted as by insert, at every allowance; several leave what single inserts leave, from the cells that are
    /// counted up here by hand. The plan has these stores, and the figures tell its cells and its length.
    #[test]
    fn several_are_inserts() {
        let mut random = Random::new(3);
        for _ in 0..2_000 {
            let shape = Shape::new(random.between(1, 3), random.between(1, 9), random.between(1, 3));
            let used = random.below(shape.nodes);
            let sequences = deal(&mut random, shape, used);
            let sound = store_of(shape, &sequences, || random.word());
            let sound = wear(&mut random, sound, 1);
            let list = random.below(shape.lists);
            let position = random.between(0, sequences[list].len());
            let start = random.between(shape.lists, shape.lists + shape.nodes - 1);
            let number = random.between(1, free_cells(&sound, shape, &sequences, start).len());
            let records: Vec<u16> = (0..number * shape.width).map(|_| random.word()).collect();
            let allowance = random.between(0, number * (shape.width + 6) + 1) as u16;
            let mut words = sound.clone();
            let answer = insert_several(&mut words, list as u16, position as u16, start as u16, &records, allowance);
            let mut expected = sound.clone();
            let mut left = allowance;
            for (i, (cell, record)) in
                free_cells(&sound, shape, &sequences, start).iter().zip(records.chunks(shape.width)).enumerate()
            {
                match insert(&mut expected, list as u16, (position + i) as u16, *cell as u16, record, left) {
                    Answer::Done(stores) => left -= stores,
                    single => {
                        assert_eq!(single, Answer::Stopped(left));
                        left = 0;
                        break;
                    }
                }
            }
            let whole = (number * (shape.width + 6)) as u16;
            assert_eq!(answer, if allowance < whole { Answer::Stopped(allowance) } else { Answer::Done(allowance - left) });
            assert_eq!(words, expected);
            let (k, p, c) = (list as u16, position as u16, start as u16);
            let (cells, stores) = several_plan(&sound, k, p, c, &records).expect("it is not refused");
            assert_eq!(make(&sound, &stores, allowance), (answer, words.clone()));
            let left = lists(&make(&sound, &stores, whole).1, shape).expect("a sound store");
            assert_eq!(left[list][position..][..number], cells);
            let (first, last) = (cells[0] as u16, cells[number - 1] as u16);
            let told = insert_several_figures(&sound, k, p, c, &records);
            assert_eq!(told, Ok(Figures { first, last, stores: whole }));
            if number == 1 {
                let mut single = sound.clone();
                assert_eq!(insert(&mut single, list as u16, position as u16, start as u16, &records, allowance), answer);
                assert_eq!(single, words);
            }
        }
    }

    /// All lists and worn nodes of some small shapes, from every node on: the free nodes are counted up here by hand.
    #[test]
    fn figures_of_small_stores() {
        for shape in [Shape::new(1, 1, 1), Shape::new(1, 4, 1), Shape::new(2, 3, 2)] {
            for (lists, worn) in all_lists_and_worn(shape) {
                let words = with_worn(store_of(shape, &lists, || 7), &worn);
                let others = [lists.concat(), worn].concat();
                for start in shape.node_cells() {
                    let ring = (start..shape.node_cells().end).chain(shape.lists..start);
                    let free: Vec<u16> = ring.filter(|cell| !others.contains(cell)).map(|cell| cell as u16).collect();
                    for number in 0..=shape.nodes + 1 {
                        let records = vec![5; number * shape.width];
                        let stores = (number * (shape.width + 6)) as u16;
                        let expected = match number {
                            0 => Err(9),
                            _ if number > free.len() => Err(10),
                            _ => Ok(Figures { first: free[0], last: free[number - 1], stores }),
                        };
                        assert_eq!(insert_several_figures(&words, 0, 0, start as u16, &records), expected, "{words:?}");
                    }
                }
            }
        }
    }

    #[test]
    fn first_free_cell() {
        let shape = Shape::new(2, 5, 1);
        let free = |lists: &[Vec<usize>], worn: &[usize], start| {
            free_cells(&with_worn(store_of(shape, lists, || 7), worn), shape, lists, start)
        };
        let lists = [vec![4, 2], vec![5]];
        assert_eq!(free(&lists, &[], 2), [3, 6]);
        assert_eq!(free(&lists, &[], 3), [3, 6]);
        assert_eq!(free(&lists, &[], 4), [6, 3]);
        assert_eq!(free(&lists, &[], 6), [6, 3]);
        assert_eq!(free(&lists, &[3], 3), [6]);
        assert_eq!(free(&lists, &[6], 6), [3]);
        assert_eq!(free(&lists, &[3, 6], 3), []);
        assert_eq!(free(&[vec![4, 2, 6], vec![5]], &[], 4), [3]);
        assert_eq!(free(&[vec![4, 2, 6], vec![3, 5]], &[], 4), []);
    }

    #[test]
    fn sequences_of_five() {
        let all = sequences(&[1, 2, 3, 4, 5]);
        assert_eq!(all.len(), 1 + 5 + 20 + 60 + 120 + 120);
        assert_eq!(all.iter().collect::<HashSet<_>>().len(), all.len());
    }

    /// Both ways of judging agree on all stores of one list and two nodes over a few values. Ordered are as many as there are
    /// sequences of two nodes, times the words of the nodes in no list: each is free or worn, and has 25 pairs of links. Each record is 0
    /// or not, but of a free node 0 in a sound store.
    #[test]
    fn both_ways_agree() {
        let shape = Shape::new(1, 2, 1);
        let mut words = store_of(shape, &[vec![]], || 0);
        let links = [0, 1, 2, 3, 65535];
        let identifiers = [0, 42400, 42401, WORN];
        let places: Vec<(usize, &[u16])> = (0..3)
            .flat_map(|i| [(shape.cell(i), &identifiers[..]), (shape.cell(i) + 1, &links), (shape.cell(i) + 2, &links)])
            .chain([(11, &links[..4])])
            .collect();
        let all = sequences(&[1, 2]);
        let (mut ordered, mut sound) = (0, 0);
        let mut digits = vec![0; places.len()];
        loop {
            for (d, (a, values)) in digits.iter().zip(&places) {
                words[*a] = values[*d];
            }
            let enumerated = ordered_if(&words, shape, |k| list_by_enumeration(&words, shape, k, &all));
            assert_eq!(ordered_by_links(&words, shape), enumerated);
            ordered += usize::from(enumerated.is_some());
            for records in [[0, 0], [0, 9], [9, 0], [9, 9]].iter().filter(|_| enumerated.is_some()) {
                (words[15], words[19]) = (records[0], records[1]);
                sound += usize::from(lists(&words, shape) == enumerated);
            }
            match (0..places.len()).find(|&i| digits[i] + 1 < places[i].1.len()) {
                Some(i) => {
                    digits[i] += 1;
                    digits[..i].fill(0);
                }
                None => break,
            }
        }
        assert_eq!((ordered, sound), (50 * 50 + 2 * 50 + 2, 75 * 75 + 2 * 2 * 75 + 2 * 4));
    }

    #[test]
    fn built_stores_are_sound() {
        let mut random = Random::new(1);
        let shape = Shape::new(3, 40, 2);
        let mut cells: Vec<usize> = shape.node_cells().collect();
        random.shuffle(&mut cells);
        let lists = vec![cells[..20].to_vec(), vec![], cells[20..30].to_vec()];
        let words = store_of(shape, &lists, || random.word());
        assert_eq!(super::lists(&words, shape), Some(lists.clone()));
        assert_eq!(super::lists(&with_worn(words, &cells[30..]), shape), Some(lists));
    }

    /// A word of a record, made 9: sound in a member and in a worn node, in a free one ordered and no more.
    #[test]
    fn remains() {
        let shape = Shape::new(2, 6, 3);
        let lists = vec![vec![5], vec![2, 7]];
        let sound = with_worn(store_of(shape, &lists, || 0), &[3]);
        for cell in shape.node_cells() {
            for at in shape.record(cell) {
                let mut words = sound.clone();
                words[at] = 9;
                let free = [4, 6].contains(&cell);
                assert_eq!(
                    super::lists(&words, shape),
                    if free { None } else { Some(lists.clone()) },
                    "word {at} of {cell}"
                );
                assert_eq!((ordered(&words, shape), check(&words)), (Some(lists.clone()), if free { 6 } else { 0 }));
            }
        }
    }

    /// Of the cells of a small store, those that can be marked: node 4 alone. A second mark is refused, and so are header, member and
    /// what is no cell. Nothing is stored then.
    #[test]
    fn marked_cells() {
        let shape = Shape::new(2, 3, 2);
        let sound = with_worn(store_of(shape, &[vec![3], vec![]], || 7), &[2]);
        for (cell, number) in [(0, 8), (1, 8), (2, 13), (3, 13), (5, 8), (6, 8), (65_535, 8)] {
            let mut words = sound.clone();
            assert_eq!(mark_worn(&mut words, cell), Answer::Refused(number));
            assert_eq!(words, sound);
        }
        let mut words = sound.clone();
        assert_eq!(mark_worn(&mut words, 4), Answer::Done(1));
        assert_eq!(changes(&sound, &words), [(26, 65_535)]);
        assert_eq!(mark_worn(&mut words, 4), Answer::Refused(13));
    }
}
