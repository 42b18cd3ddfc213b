//! The twelve calls and read in plain Rust, as a careful engineer writes them who wants them quick: the benchmark's baseline.
//!
//! Arguments and answers are those of the C interface, with slices; read, which it lacks, answers the record's bytes. A word
//! is two bytes, low byte first. The cells are read once, in order, with the records of the free nodes, and all is decided on that copy
//! before the first store: it stays in the nearest cache while the links lead up and down. No call walks a list further than N nodes.

/// Added to the number of stores made, or to a length.
const DONE: u32 = 65_536;
/// Added to the number of stores after which the allowance was spent.
const STOPPED: u32 = 131_072;

const IDENTIFIER: u16 = 42_400;
const FREE: u16 = 0;
const WORN: u16 = 65_535;
const HEAD: [u16; 4] = [82, 66, 83, 1];

/// The words of a cell.
const IDENT: usize = 0;
const FORWARD: usize = 1;
const BACK: usize = 2;
const COUNT: usize = 3;
const RECORD: usize = 3;

/// The first words of a cell: identifier, forward, back, and a header's count. Every cell has four.
type Cell = [u16; 4];

/// A word store: the word's first byte, and what the word becomes.
type Store = (usize, u16);

fn word(bytes: &[u8], at: usize) -> u16 {
    let word = &bytes[at..at + 2];
    u16::from_le_bytes([word[0], word[1]])
}

fn put(store: &mut [u8], (at, value): Store) {
    store[at..at + 2].copy_from_slice(&value.to_le_bytes());
}

/// Makes the first of the stores, up to the allowance: how many.
fn make(store: &mut [u8], stores: impl ExactSizeIterator<Item = Store>, allowance: usize) -> usize {
    let made = stores.len().min(allowance);
    stores.take(made).for_each(|s| put(store, s));
    made
}

fn identifier_of(list: usize) -> u16 {
    IDENTIFIER + list as u16
}

/// Neither free nor worn.
fn in_use(ident: u16) -> bool {
    ident != FREE && ident != WORN
}

fn free(cell: &Cell) -> bool {
    cell[IDENT] == FREE
}

/// Is some byte not 0? Eight at a time, and one test for all.
fn any(bytes: &[u8]) -> bool {
    let eights = bytes.chunks_exact(8);
    let rest = eights.remainder().chunks_exact(2).fold(0, |all, two| all | u64::from(word(two, 0)));
    eights.fold(rest, |all, eight| all | u64::from_le_bytes(eight.try_into().expect("eight bytes"))) != 0
}

/// L, N and P.
#[derive(Clone, Copy)]
struct Shape {
    lists: usize,
    nodes: usize,
    width: usize,
}

impl Shape {
    fn in_range(self) -> bool {
        (1..=8).contains(&self.lists) && (1..=2000).contains(&self.nodes) && (1..=13).contains(&self.width)
    }

    fn cells(self) -> usize {
        self.lists + self.nodes
    }

    fn is_node(self, cell: usize) -> bool {
        self.lists <= cell && cell < self.cells()
    }

    /// The bytes of a record.
    fn record_size(self) -> usize {
        2 * self.width
    }

    /// The bytes of a node.
    fn node_size(self) -> usize {
        2 * (3 + self.width)
    }

    /// The stores of an inserted record.
    fn insert_stores(self) -> usize {
        self.width + 6
    }

    /// The stores of a deleted record.
    fn delete_stores(self) -> usize {
        self.width + 4
    }

    /// The node after this one, the first after the last.
    fn next_node(self, cell: usize) -> usize {
        if cell + 1 < self.cells() {
            cell + 1
        } else {
            self.lists
        }
    }

    /// The first byte of the first node.
    fn nodes_at(self) -> usize {
        2 * (8 + 4 * self.lists)
    }

    /// The bytes of a store.
    fn size(self) -> usize {
        self.nodes_at() + self.node_size() * self.nodes
    }

    /// The first byte of a word of a cell.
    fn at(self, cell: usize, word: usize) -> usize {
        let start =
            if cell < self.lists { 2 * (8 + 4 * cell) } else { self.nodes_at() + self.node_size() * (cell - self.lists) };
        start + 2 * word
    }
}

/// Questions 1 to 4.
fn open(store: &[u8]) -> Result<Shape, u32> {
    if store.len() % 2 != 0 {
        return Err(4);
    }
    if store.len() < 16 {
        return Err(1);
    }
    let head = |i: usize| word(store, 2 * i);
    if (0..4).any(|i| head(i) != HEAD[i]) || head(7) != 0 {
        return Err(2);
    }
    let shape = Shape { lists: head(4).into(), nodes: head(5).into(), width: head(6).into() };
    if !shape.in_range() {
        return Err(3);
    }
    if store.len() != shape.size() {
        return Err(4);
    }
    Ok(shape)
}

/// The cells as read, how many nodes are in use, and whether something remains in the record of a free one.
struct Survey<'a> {
    shape: Shape,
    cells: &'a mut [Cell],
    used: usize,
    remains: bool,
}

/// Works in room for the cells. There is enough for the largest store, but a small one does not pay for setting it to 0.
fn with_room<R>(shape: Shape, work: impl FnOnce(&mut [Cell]) -> R) -> R {
    match shape.cells() {
        0..=32 => work(&mut [[0; 4]; 32]),
        33..=256 => work(&mut [[0; 4]; 256]),
        _ => work(&mut [[0; 4]; 2008]),
    }
}

/// Reads the cells.
fn load<'a>(store: &[u8], shape: Shape, room: &'a mut [Cell]) -> Survey<'a> {
    let cells = &mut room[..shape.cells()];
    let (headers, nodes) = cells.split_at_mut(shape.lists);
    let (from_headers, from_nodes) = store[16..].split_at(8 * shape.lists);
    for (cell, bytes) in headers.iter_mut().zip(from_headers.chunks_exact(8)) {
        *cell = first_words(bytes);
    }
    let (mut used, mut remains) = (0, false);
    for (cell, bytes) in nodes.iter_mut().zip(from_nodes.chunks_exact(shape.node_size())) {
        *cell = first_words(bytes);
        used += usize::from(in_use(cell[IDENT]));
        if free(cell) {
            remains |= any(&bytes[2 * RECORD..]);
        }
    }
    Survey { shape, cells, used, remains }
}

fn first_words(bytes: &[u8]) -> Cell {
    let bytes = &bytes[..8];
    [word(bytes, 0), word(bytes, 2), word(bytes, 4), word(bytes, 6)]
}

/// Where an insert or a delete works: a cell, those before and after it, and the list's length.
struct Site {
    before: usize,
    cell: usize,
    after: usize,
    count: u16,
}

impl Survey<'_> {
    /// The length of a list that is as it must be.
    fn length(&self, list: usize) -> Option<usize> {
        let [ident, forward, back, count] = self.cells[list];
        let mut before = list as u16;
        let mut at = forward;
        let mut length = 0;
        if ident != identifier_of(list) {
            return None;
        }
        while self.shape.is_node(at.into()) {
            let [i, f, b, _] = self.cells[usize::from(at)];
            if i != ident || b != before || length == self.shape.nodes {
                return None;
            }
            before = at;
            at = f;
            length += 1;
        }
        (usize::from(at) == list && back == before && usize::from(count) == length).then_some(length)
    }

    /// Question 6: every list is as it must be, no node but their members is in use, and nothing remains in the free ones.
    fn sound(&self) -> Result<(), u32> {
        let mut members = 0;
        for list in 0..self.shape.lists {
            members += self.length(list).ok_or(6u32)?;
        }
        if members == self.used && !self.remains {
            Ok(())
        } else {
            Err(6)
        }
    }

    /// Questions 5 and 6: the length of the list.
    fn count(&self, list: usize) -> Result<u16, u32> {
        if list >= self.shape.lists {
            return Err(5);
        }
        self.sound()?;
        Ok(self.cells[list][COUNT])
    }

    fn after(&self, cell: usize) -> usize {
        self.cells[cell][FORWARD].into()
    }

    /// The cell in front of a position of the list.
    fn before(&self, list: usize, position: u16) -> usize {
        (0..position).fold(list, |cell, _| self.after(cell))
    }

    fn free_from(&self, start: usize) -> Option<usize> {
        let (first, lists) = (&self.cells[..start], self.shape.lists);
        let upward = self.cells[start..].iter().position(free).map(|i| start + i);
        upward.or_else(|| first[lists..].iter().position(free).map(|i| lists + i))
    }

    /// Questions 5 to 8 of the inserts: the length of the list.
    fn ask(&self, list: usize, position: u16, start: usize) -> Result<u16, u32> {
        let count = self.count(list)?;
        if position > count {
            return Err(7);
        }
        if !self.shape.is_node(start) {
            return Err(8);
        }
        Ok(count)
    }

    /// Questions 5 to 10 of insert.
    fn gap(&self, list: usize, position: u16, start: usize, record: &[u8]) -> Result<Site, u32> {
        let count = self.ask(list, position, start)?;
        if record.len() != 2 * self.shape.width {
            return Err(9);
        }
        let cell = self.free_from(start).ok_or(10u32)?;
        let before = self.before(list, position);
        Ok(Site { before, cell, after: self.after(before), count })
    }

    /// Question 9 of an insert of several records: their number.
    fn number_of(&self, records: &[u8]) -> Result<usize, u32> {
        if records.is_empty() || records.len() % self.shape.record_size() != 0 {
            return Err(9);
        }
        Ok(records.len() / self.shape.record_size())
    }

    /// Questions 5 to 10 of an insert of several records. The first free cell is yet to be sought, from the site's cell on.
    fn gaps(&self, list: usize, position: u16, start: usize, records: &[u8]) -> Result<Site, u32> {
        let count = self.ask(list, position, start)?;
        let number = self.number_of(records)?;
        let free = self.cells[self.shape.lists..].iter().filter(|&cell| free(cell)).count();
        if free < number {
            return Err(10);
        }
        let before = self.before(list, position);
        Ok(Site { before, cell: start, after: self.after(before), count })
    }

    /// The same questions: the first and the last cell of the records, in order of use, and how many they are.
    fn cells_of(&self, list: usize, position: u16, start: usize, records: &[u8]) -> Result<(usize, usize, usize), u32> {
        self.ask(list, position, start)?;
        let number = self.number_of(records)?;
        let (low, high) = (self.shape.lists..start, start..self.shape.cells());
        let mut free = high.chain(low).filter(|&cell| free(&self.cells[cell]));
        let first = free.next().ok_or(10u32)?;
        let last = if number > 1 { free.nth(number - 2).ok_or(10u32)? } else { first };
        Ok((first, last, number))
    }

    /// Questions 5 to 7 of read and delete.
    fn member(&self, list: usize, position: u16) -> Result<Site, u32> {
        let count = self.count(list)?;
        if position >= count {
            return Err(7);
        }
        let before = self.before(list, position);
        let cell = self.after(before);
        Ok(Site { before, cell, after: self.after(cell), count })
    }

    /// Questions 6, 8 and 13 of mark_worn.
    fn markable(&self, cell: usize) -> Result<(), u32> {
        self.sound()?;
        if !self.shape.is_node(cell) {
            return Err(8);
        }
        if self.cells[cell][IDENT] != FREE {
            return Err(13);
        }
        Ok(())
    }
}

/// The answer of a call that was not refused: so many stores were made of the whole number.
fn answer(made: usize, whole: usize) -> u32 {
    made as u32 + if made < whole { STOPPED } else { DONE }
}

/// An answer as one number.
fn number(answer: Result<u32, u32>) -> u32 {
    answer.unwrap_or_else(|refusal| refusal)
}

#[inline(never)]
pub fn format(store: &mut [u8], lists: u16, nodes: u16, width: u16) -> u32 {
    if store.len() % 2 != 0 {
        return 4;
    }
    let shape = Shape { lists: lists.into(), nodes: nodes.into(), width: width.into() };
    if !shape.in_range() {
        return 3;
    }
    if store.len() != shape.size() {
        return 4;
    }
    store.fill(0);
    let [a, b, c, version] = HEAD;
    for (i, value) in [a, b, c, version, lists, nodes, width].into_iter().enumerate() {
        put(store, (2 * i, value));
    }
    for list in 0..shape.lists {
        put(store, (shape.at(list, IDENT), identifier_of(list)));
        put(store, (shape.at(list, FORWARD), list as u16));
        put(store, (shape.at(list, BACK), list as u16));
    }
    0
}

#[inline(never)]
pub fn check(store: &[u8]) -> u32 {
    number(checked(store))
}

fn checked(store: &[u8]) -> Result<u32, u32> {
    let shape = open(store)?;
    with_room(shape, |room| load(store, shape, room).sound())?;
    Ok(0)
}

#[inline(never)]
pub fn length(store: &[u8], list: u16) -> u32 {
    number(counted(store, list.into()))
}

fn counted(store: &[u8], list: usize) -> Result<u32, u32> {
    let shape = open(store)?;
    let count = with_room(shape, |room| load(store, shape, room).count(list))?;
    Ok(DONE + u32::from(count))
}

/// The record, or the number of the refusal.
#[inline(never)]
pub fn read(store: &[u8], list: u16, position: u16) -> Result<&[u8], u32> {
    let shape = open(store)?;
    let site = with_room(shape, |room| load(store, shape, room).member(list.into(), position))?;
    Ok(&store[shape.at(site.cell, RECORD)..][..shape.record_size()])
}

#[inline(never)]
pub fn insert(store: &mut [u8], list: u16, position: u16, start: u16, record: &[u8], allowance: u16) -> u32 {
    number(inserted(store, list.into(), position, start.into(), record, allowance.into()))
}

fn inserted(
    store: &mut [u8],
    list: usize,
    position: u16,
    start: usize,
    record: &[u8],
    allowance: usize,
) -> Result<u32, u32> {
    let shape = open(store)?;
    let site = with_room(shape, |room| load(store, shape, room).gap(list, position, start, record))?;
    Ok(answer(put_record(store, shape, list, site, record, allowance), shape.insert_stores()))
}

/// Makes the stores of one record, up to the allowance: how many.
#[inline(always)]
fn put_record(store: &mut [u8], shape: Shape, list: usize, site: Site, record: &[u8], allowance: usize) -> usize {
    let Site { before, cell, after, count } = site;
    let record_at = shape.at(cell, RECORD);
    let words = record.chunks_exact(2).enumerate().map(|(i, bytes)| (record_at + 2 * i, word(bytes, 0)));
    let links = [
        (shape.at(cell, FORWARD), after as u16),
        (shape.at(cell, BACK), before as u16),
        (shape.at(cell, IDENT), identifier_of(list)),
        (shape.at(list, COUNT), count + 1),
        (shape.at(before, FORWARD), cell as u16),
        (shape.at(after, BACK), cell as u16),
    ];
    let written = make(store, words, allowance);
    written + make(store, links.into_iter(), allowance - written)
}

#[inline(never)]
pub fn insert_several(store: &mut [u8], list: u16, position: u16, start: u16, records: &[u8], allowance: u16) -> u32 {
    number(inserted_several(store, list.into(), position, start.into(), records, allowance.into()))
}

/// All is decided at first; then each record goes into the next free cell, behind the record before it.
fn inserted_several(
    store: &mut [u8],
    list: usize,
    position: u16,
    start: usize,
    records: &[u8],
    allowance: usize,
) -> Result<u32, u32> {
    let shape = open(store)?;
    let site = with_room(shape, |room| load(store, shape, room).gaps(list, position, start, records))?;
    let Site { mut before, mut cell, after, mut count } = site;
    let whole = records.len() / shape.record_size() * shape.insert_stores();
    let mut made = 0;
    for record in records.chunks_exact(shape.record_size()) {
        while word(store, shape.at(cell, IDENT)) != FREE {
            cell = shape.next_node(cell);
        }
        made += put_record(store, shape, list, Site { before, cell, after, count }, record, allowance - made);
        if made == allowance {
            break;
        }
        (before, cell, count) = (cell, shape.next_node(cell), count + 1);
    }
    Ok(answer(made, whole))
}

/// The first and the last cell of an insert of several records, and its stores.
fn foretold(store: &[u8], list: usize, position: u16, start: usize, records: &[u8]) -> Result<[usize; 3], u32> {
    let shape = open(store)?;
    let told = with_room(shape, |room| load(store, shape, room).cells_of(list, position, start, records));
    told.map(|(first, last, number)| [first, last, number * shape.insert_stores()])
}

/// A figure told as an answer.
fn told(figure: Result<usize, u32>) -> u32 {
    number(figure.map(|figure| DONE + figure as u32))
}

#[inline(never)]
pub fn insert_several_first_cell(store: &[u8], list: u16, position: u16, start: u16, records: &[u8]) -> u32 {
    told(foretold(store, list.into(), position, start.into(), records).map(|[first, ..]| first))
}

#[inline(never)]
pub fn insert_several_last_cell(store: &[u8], list: u16, position: u16, start: u16, records: &[u8]) -> u32 {
    told(foretold(store, list.into(), position, start.into(), records).map(|[_, last, _]| last))
}

#[inline(never)]
pub fn insert_several_stores(store: &[u8], list: u16, position: u16, start: u16, records: &[u8]) -> u32 {
    told(foretold(store, list.into(), position, start.into(), records).map(|[.., stores]| stores))
}

#[inline(never)]
pub fn delete(store: &mut [u8], list: u16, position: u16, allowance: u16) -> u32 {
    number(deleted(store, list.into(), position, allowance.into()))
}

fn deleted(store: &mut [u8], list: usize, position: u16, allowance: usize) -> Result<u32, u32> {
    let shape = open(store)?;
    let site = with_room(shape, |room| load(store, shape, room).member(list, position))?;
    let Site { before, cell, after, count } = site;
    let links = [
        (shape.at(after, BACK), before as u16),
        (shape.at(before, FORWARD), after as u16),
        (shape.at(list, COUNT), count - 1),
        (shape.at(cell, IDENT), FREE),
    ];
    let made = make(store, links.into_iter(), allowance);
    let wiped = shape.width.min(allowance - made);
    store[shape.at(cell, RECORD)..][..2 * wiped].fill(0);
    Ok(answer(made + wiped, shape.delete_stores()))
}

#[inline(never)]
pub fn mark_worn(store: &mut [u8], cell: u16) -> u32 {
    number(marked(store, cell.into()))
}

fn marked(store: &mut [u8], cell: usize) -> Result<u32, u32> {
    let shape = open(store)?;
    with_room(shape, |room| load(store, shape, room).markable(cell))?;
    put(store, (shape.at(cell, IDENT), WORN));
    Ok(answer(1, 1))
}

#[inline(never)]
pub fn recover(store: &mut [u8], allowance: u16) -> u32 {
    number(recovered(store, allowance.into()))
}

fn recovered(store: &mut [u8], allowance: usize) -> Result<u32, u32> {
    let shape = open(store)?;
    with_room(shape, |room| {
        let survey = load(store, shape, room);
        recover_by(survey, store, allowance)
    })
}

/// The words beside the count that a sequence asks for and does not find: the one that there is, with the value asked.
#[derive(Clone, Copy)]
enum Wrong {
    None,
    One { cell: usize, word: usize, value: u16 },
    Many,
}

impl Wrong {
    fn compare(&mut self, found: u16, cell: usize, word: usize, value: u16) {
        if found != value {
            *self = match self {
                Wrong::None => Wrong::One { cell, word, value },
                _ => Wrong::Many,
            };
        }
    }
}

/// A sequence that may fit a list: what the links of one kind lead through. It is told if its length is the count.
#[derive(Clone, Copy)]
struct Candidate {
    onward: usize,
    length: usize,
    told: bool,
    wrong: Wrong,
}

impl Candidate {
    /// The stores that mend the list: the wrong word, if there is one, then the count if it is wrong.
    fn stores(self, shape: Shape, list: usize) -> impl Iterator<Item = Store> {
        let word = match self.wrong {
            Wrong::One { cell, word, value } => Some((shape.at(cell, word), value)),
            _ => None,
        };
        word.into_iter().chain((!self.told).then(|| (shape.at(list, COUNT), self.length as u16)))
    }
}

impl Survey<'_> {
    /// The nodes that the onward links lead through from the list's header, with the wrong words until there are two.
    #[inline(never)]
    fn candidate<const ONWARD: usize, const BACKWARD: usize>(&self, list: usize) -> Candidate {
        let (header, ident) = (self.cells[list], identifier_of(list));
        let mut wrong = Wrong::None;
        wrong.compare(header[IDENT], list, IDENT, ident);
        let (mut before, mut at) = (list, usize::from(header[ONWARD]));
        let mut length = 0;
        while length < self.shape.nodes && self.shape.is_node(at) {
            let cell = self.cells[at];
            if cell[IDENT] != ident || usize::from(cell[BACKWARD]) != before {
                wrong.compare(cell[IDENT], at, IDENT, ident);
                wrong.compare(cell[BACKWARD], at, BACKWARD, before as u16);
                if let Wrong::Many = wrong {
                    break;
                }
            }
            (before, at) = (at, cell[ONWARD].into());
            length += 1;
        }
        wrong.compare(at as u16, before, ONWARD, list as u16);
        wrong.compare(header[BACKWARD], list, BACKWARD, before as u16);
        Candidate { onward: ONWARD, length, told: usize::from(header[COUNT]) == length, wrong }
    }

    /// Questions 11 and 12: the sequence that is chosen for the list. With one wrong word at most beside the count, all forward links
    /// are right or all back links. Two sequences fit if one lacks a back link alone and the other a forward link alone: then one of
    /// them must be told, and the other not.
    fn chosen(&self, list: usize) -> Result<Candidate, u32> {
        let forward = self.candidate::<FORWARD, BACK>(list);
        match forward.wrong {
            Wrong::None => Ok(forward),
            Wrong::One { word: BACK, .. } => match self.candidate::<BACK, FORWARD>(list) {
                back @ Candidate { wrong: Wrong::One { word: FORWARD, .. }, .. } => match (forward.told, back.told) {
                    (true, false) => Ok(forward),
                    (false, true) => Ok(back),
                    _ => Err(12),
                },
                _ => Ok(forward),
            },
            Wrong::One { .. } => Ok(forward),
            Wrong::Many => match self.candidate::<BACK, FORWARD>(list) {
                Candidate { wrong: Wrong::Many, .. } => Err(11),
                back => Ok(back),
            },
        }
    }

    /// Sets the identifier of each member to 0 in the copy: who is left there is in no list.
    fn erase(&mut self, list: usize, Candidate { onward, length, .. }: Candidate) {
        let mut cell = usize::from(self.cells[list][onward]);
        for _ in 0..length {
            self.cells[cell][IDENT] = 0;
            cell = self.cells[cell][onward].into();
        }
    }
}

/// What recovery goes by: the sequence chosen for each list, the number of stores that mend the lists, and whether there are orphans. If so,
/// an identifier in the copy that says in use is an orphan's.
struct Mends {
    chosen: [Candidate; 8],
    number: usize,
    orphans: bool,
}

/// The questions of recover. No two sequences that fit share a node, so there are orphans if more nodes than members are in
/// use by their identifiers; the members' are then erased from the copy.
fn mends(survey: &mut Survey) -> Result<Mends, u32> {
    let shape = survey.shape;
    let mut chosen = [Candidate { onward: FORWARD, length: 0, told: true, wrong: Wrong::None }; 8];
    let (mut number, mut carrying) = (0, 0);
    for (list, chosen) in chosen.iter_mut().enumerate().take(shape.lists) {
        *chosen = survey.chosen(list)?;
        number += chosen.stores(shape, list).count();
        carrying += chosen.length;
        if let Wrong::One { cell, word: IDENT, .. } = chosen.wrong {
            carrying -= usize::from(shape.is_node(cell) && !in_use(survey.cells[cell][IDENT]));
        }
    }
    let orphans = carrying < survey.used;
    if orphans {
        (0..shape.lists).for_each(|list| survey.erase(list, chosen[list]));
    }
    Ok(Mends { chosen, number, orphans })
}

/// The words of a record that are not 0.
fn remains(record: &[u8]) -> usize {
    record.chunks_exact(2).filter(|&word| word != [0, 0]).count()
}

/// Wipes the free nodes, up to the allowance: the answer. So many stores were made before: the lists are mended and the orphans cleared, so
/// no other node has identifier 0.
fn wipe(store: &mut [u8], shape: Shape, mut made: usize, allowance: usize) -> u32 {
    for node in store[shape.nodes_at()..].chunks_exact_mut(shape.node_size()) {
        let (links, record) = node.split_at_mut(2 * RECORD);
        if word(links, 2 * IDENT) != FREE {
            continue;
        }
        let remains = remains(record);
        if made + remains > allowance {
            let rest = record.chunks_exact_mut(2).filter(|word| **word != [0, 0]);
            rest.take(allowance - made).for_each(|word| word.fill(0));
            return answer(allowance, allowance + 1);
        }
        if remains > 0 {
            record.fill(0);
            made += remains;
        }
    }
    answer(made, made)
}

/// Recovers the store that the cells were read from.
fn recover_by(mut survey: Survey, store: &mut [u8], allowance: usize) -> Result<u32, u32> {
    let shape = survey.shape;
    let Mends { chosen, number, orphans } = mends(&mut survey)?;
    let mut made = number.min(allowance);
    (0..shape.lists).flat_map(|list| chosen[list].stores(shape, list)).take(made).for_each(|s| put(store, s));
    if made < number || !(orphans || survey.remains) {
        return Ok(answer(made, number));
    }
    for cell in (shape.lists..shape.cells()).filter(|&cell| orphans && in_use(survey.cells[cell][IDENT])) {
        if made == allowance {
            return Ok(answer(made, made + 1));
        }
        put(store, (shape.at(cell, IDENT), FREE));
        made += 1;
    }
    Ok(wipe(store, shape, made, allowance))
}

#[inline(never)]
pub fn recover_stores(store: &[u8]) -> u32 {
    told(needed(store))
}

fn needed(store: &[u8]) -> Result<usize, u32> {
    let shape = open(store)?;
    with_room(shape, |room| {
        let mut survey = load(store, shape, room);
        let mends = mends(&mut survey)?;
        let outside = if mends.orphans || survey.remains { outside(&survey, store, &mends) } else { 0 };
        Ok(mends.number + outside)
    })
}

/// The stores to nodes in no list: each orphan's identifier, and what remains in the records of orphans and of free nodes. Members that have lost
/// their identifiers to 0, one of a list at most, are no free nodes.
fn outside(survey: &Survey, store: &[u8], mends: &Mends) -> usize {
    let shape = survey.shape;
    let record = |cell: usize| &store[shape.at(cell, RECORD)..][..shape.record_size()];
    let lost = mends.chosen[..shape.lists].iter().map(|chosen| match chosen.wrong {
        Wrong::One { cell, word: IDENT, .. } if shape.is_node(cell) && word(store, shape.at(cell, IDENT)) == FREE => {
            remains(record(cell))
        }
        _ => 0,
    });
    let nodes = store[shape.nodes_at()..].chunks_exact(shape.node_size());
    let stores = nodes.zip(&survey.cells[shape.lists..]).map(|(node, cell)| {
        let orphan = mends.orphans && in_use(cell[IDENT]);
        if orphan || word(node, 2 * IDENT) == FREE {
            usize::from(orphan) + remains(&node[2 * RECORD..])
        } else {
            0
        }
    });
    stores.sum::<usize>() - lost.sum::<usize>()
}
