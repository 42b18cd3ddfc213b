//! Worn nodes: marks and their refusals, stores with no node left, nodes that are passed over, and what stays of them through all calls.

use crate::checks::Tests;
use interface::stores::{edit, record, unworn};
use interface::{bytes_of, words_of, Call, Call::*, DONE, ENOUGH, STOPPED};
use model::alterations::{alterable, pairs};
use model::samples::{all_lists_and_worn, carriers, deal, spoil, wear, with_worn};
use model::store::{lists, open, store_of, Shape, WordStore, IDENTIFIER, WORN};

impl Tests {
    /// The call answers so and makes these stores. The model says the same. Gives the words that it must leave.
    pub fn stores(&mut self, words: &[u16], call: &Call, allowance: u16, answer: u32, stores: &[WordStore]) -> Vec<u16> {
        let mut left = words.to_vec();
        stores.iter().for_each(|&(at, value)| left[at] = value);
        let (bytes, expected) = (bytes_of(words), (answer, bytes_of(&left)));
        let model = call.expected(&bytes, allowance);
        self.holds(model == expected, || format!("{call:?}: the model's answer {}, expected {answer}; {words:?}", model.0));
        self.call_leaves(&bytes, call, allowance, &expected);
        left
    }

    /// Makes the call and holds it against the model. Gives the words that it must leave.
    pub fn follow(&mut self, words: &[u16], call: &Call, allowance: u16) -> Vec<u16> {
        let bytes = bytes_of(words);
        let expected = call.expected(&bytes, allowance);
        self.call_leaves(&bytes, call, allowance, &expected);
        words_of(&expected.1)
    }

    /// The call is refused with this number, at any allowance, and stores nothing.
    pub fn refused(&mut self, words: &[u16], call: &Call, number: u32) {
        for allowance in [0, 1, ENOUGH] {
            self.stores(words, call, allowance, number, &[]);
        }
    }

    /// Recovery makes these stores, at every allowance the first of them.
    pub fn recovers(&mut self, words: &[u16], stores: &[WordStore]) {
        let whole = stores.len();
        for allowance in (0..=whole + 1).chain([ENOUGH.into()]) {
            let made = whole.min(allowance);
            let answer = if made < whole { STOPPED } else { DONE } + made as u32;
            self.stores(words, &Recover, allowance as u16, answer, &stores[..made]);
        }
    }

    /// Marks a cell of a sound store: a free node with one store. What is no node is refused with 8, any other with 13.
    fn mark(&mut self, words: &[u16], cell: usize) -> Vec<u16> {
        let shape = open(words).expect("a store");
        let call = MarkWorn { cell: cell as u16 };
        if !shape.node_cells().contains(&cell) {
            return self.stores(words, &call, 0, 8, &[]);
        }
        match words[shape.cell(cell)] {
            0 => self.stores(words, &call, 0, DONE + 1, &[(shape.cell(cell), WORN)]),
            _ => self.stores(words, &call, 0, 13, &[]),
        }
    }

    /// Marks every cell and what lies just beyond.
    fn mark_each(&mut self, words: &[u16]) {
        let shape = open(words).expect("a store");
        for cell in (0..shape.node_cells().end + 2).chain([WORN.into()]) {
            self.mark(words, cell);
        }
    }

    /// No node is free: the inserts are refused with 10 from these cells, and each cell with 8 or 13.
    fn none_free(&mut self, words: &[u16], starts: &[usize]) {
        let shape = open(words).expect("a store");
        for &start in starts {
            let (list, start) = (self.random.below(shape.lists) as u16, start as u16);
            let (one, two) = (record(&mut self.random, shape.width), record(&mut self.random, 2 * shape.width));
            self.refused(words, &Insert { list, position: 0, start, record: one.clone() }, 10);
            self.refused(words, &InsertSeveral { list, position: 0, start, records: one }, 10);
            self.refused(words, &InsertSeveral { list, position: 0, start, records: two }, 10);
            self.mark(words, start.into());
        }
        self.stores(words, &Check, 0, 0, &[]);
        self.recovers(words, &[]);
    }

    /// One node is free: from this cell on both inserts use it, at the front of the list, cut anywhere. For two records there is no room.
    fn one_free(&mut self, words: &[u16], list: usize, start: usize, free: usize) {
        let shape = open(words).expect("a store");
        let (header, cell, list, start) = (shape.cell(list), shape.cell(free), list as u16, start as u16);
        let (one, two) = (record(&mut self.random, shape.width), record(&mut self.random, 2 * shape.width));
        let behind = words[header + 1];
        let mut stores: Vec<WordStore> = (cell + 3..).zip(words_of(&one)).collect();
        stores.extend([
            (cell + 1, behind),
            (cell + 2, list),
            (cell, IDENTIFIER + list),
            (header + 3, words[header + 3] + 1),
            (header + 1, free as u16),
            (shape.cell(behind.into()) + 2, free as u16),
        ]);
        let calls = [
            Insert { list, position: 0, start, record: one.clone() },
            InsertSeveral { list, position: 0, start, records: one },
        ];
        for call in &calls {
            for made in 0..=stores.len() {
                let answer = if made < stores.len() { STOPPED } else { DONE } + made as u32;
                self.stores(words, call, made as u16, answer, &stores[..made]);
            }
        }
        self.refused(words, &InsertSeveral { list, position: 0, start, records: two }, 10);
    }
}

/// All sound stores of some small shapes: each cell marked, and what lies just beyond. What is marked is no more free.
pub fn small_stores(t: &mut Tests) {
    for (lists, nodes) in [(1, 1), (1, 2), (2, 2), (1, 3), (2, 3), (3, 2)] {
        let shape = Shape::new(lists, nodes, 1);
        for (lists, worn) in all_lists_and_worn(shape) {
            let words = with_worn(store_of(shape, &lists, || 9), &worn);
            t.mark_each(&words);
            for cell in carriers(&words, 0) {
                let marked = t.mark(&words, cell);
                t.mark_each(&marked);
                t.stores(&marked, &Check, 0, 0, &[]);
                t.recovers(&marked, &[]);
            }
        }
    }
}

/// Stores up to the largest: all nodes marked that are free, one after the other, until none is left.
pub fn larger_stores(t: &mut Tests) {
    for (lists, nodes, width, used) in
        [(1, 9, 13, 0), (3, 20, 2, 12), (8, 40, 1, 30), (2, 300, 13, 280), (8, 2000, 13, 1985), (1, 2000, 1, 1990)]
    {
        let shape = Shape::new(lists, nodes, width);
        let dealt = deal(&mut t.random, shape, used);
        let words = unworn(&mut t.random, shape, &dealt);
        let mut words = wear(&mut t.random, words, 5);
        let mut free = carriers(&words, 0);
        t.random.shuffle(&mut free);
        while let Some(cell) = free.pop() {
            words = t.mark(&words, cell);
            t.mark(&words, cell);
            if let [last] = free[..] {
                t.one_free(&words, lists - 1, cell, last);
            }
            let members = dealt.concat();
            let others = [0, lists - 1, lists + nodes, *members.first().unwrap_or(&0)];
            others.into_iter().for_each(|cell| drop(t.mark(&words, cell)));
        }
        t.none_free(&words, &[lists, lists + nodes / 2, lists + nodes - 1]);
        t.holds(lists_of(&words) == dealt, || format!("the lists of {words:?}"));
    }
}

/// The lists of a sound store.
pub fn lists_of(words: &[u16]) -> Vec<Vec<usize>> {
    lists(words, open(words).expect("a store")).expect("a sound store")
}

/// Every combination of reasons to refuse a mark: the first question decides, and a store of an odd number of bytes comes before all.
pub fn refusals(t: &mut Tests) {
    let shape = Shape::new(2, 5, 2);
    let sound = with_worn(store_of(shape, &[vec![5], vec![2]], || 7), &[4]);
    for reasons in 0..32 {
        let has = |i: usize| reasons >> i & 1 == 1;
        let mut words = sound.clone();
        spoil(&mut t.random, &mut words, [has(1), has(2), has(3)]);
        if has(4) {
            let at = t.random.pick(&[0, 1, 2, 3, 5]);
            words[shape.cell(at)] = t.random.pick(&[0, WORN, 7]);
            words[shape.cell(4)] = 1;
        }
        if has(0) {
            words.truncate(7);
        }
        let first = (0..5).find(|&i| has(i)).map(|i| [1, 2, 3, 4, 6][i]);
        for (cell, last) in [(3, None), (6, None), (2, Some(13)), (5, Some(13)), (4, Some(13)), (0, Some(8)), (1, Some(8))]
            .into_iter()
            .chain([7, 8, 259, 65_535].map(|cell| (cell, Some(8))))
        {
            let call = MarkWorn { cell };
            match first.or(last) {
                Some(number) => drop(t.stores(&words, &call, 0, number, &[])),
                None => drop(t.mark(&words, cell.into())),
            }
            let mut bytes = bytes_of(&words);
            bytes.pop();
            t.call_leaves(&bytes, &call, 0, &(4, bytes.clone()));
        }
    }
}

/// All nodes worn, up to the largest stores, with anything in their links and records; then all that are in no list.
pub fn worn_out(t: &mut Tests) {
    for (lists, nodes, width) in [(1, 1, 1), (1, 2, 13), (3, 7, 2), (8, 9, 1), (2, 60, 3), (8, 2000, 13), (1, 2000, 1)] {
        let shape = Shape::new(lists, nodes, width);
        for used in [0, nodes / 2] {
            let dealt = deal(&mut t.random, shape, used);
            let words = unworn(&mut t.random, shape, &dealt);
            let words = with_worn(words.clone(), &carriers(&words, 0));
            let all: Vec<usize> = shape.node_cells().collect();
            let some = [lists, lists + nodes / 2, lists + nodes - 1];
            t.none_free(&words, if nodes > 60 { &some } else { &all });
            for (list, sequence) in dealt.iter().enumerate() {
                let (list, length) = (list as u16, sequence.len());
                t.stores(&words, &Length { list }, 0, DONE + length as u32, &[]);
                t.refused(&words, &Delete { list, position: length as u16 }, 7);
            }
        }
    }
}

/// One node is free, and from the starting cell up to it all are worn; behind it are members, or they are worn too.
pub fn passed_over(t: &mut Tests) {
    let mut stores = vec![];
    for nodes in 1..=6 {
        for (start, passed) in (0..nodes).flat_map(|start| (0..nodes).map(move |passed| (start, passed))) {
            stores.push((Shape::new(1 + nodes % 3, nodes, 1 + nodes % 2), start, passed));
        }
    }
    for (start, passed) in [(0, 1999), (1, 1999), (1000, 1998), (1999, 1), (700, 700)] {
        stores.push((Shape::new(8, 2000, 13), start, passed));
    }
    for (shape, start, passed) in stores {
        let (first, start) = (shape.lists, shape.lists + start);
        let ring: Vec<usize> = (start..first + shape.nodes).chain(first..start).collect();
        let (free, behind) = (ring[passed], &ring[passed + 1..]);
        for members in [behind, &[]] {
            let mut lists = vec![vec![]; shape.lists];
            members.iter().for_each(|&cell| lists[cell % shape.lists].push(cell));
            let words = unworn(&mut t.random, shape, &lists);
            let worn: Vec<usize> = carriers(&words, 0).into_iter().filter(|&cell| cell != free).collect();
            let words = with_worn(words, &worn);
            let list = t.random.below(shape.lists);
            t.one_free(&words, list, start, free);
            let marked = t.mark(&words, free);
            t.none_free(&marked, &[start, free]);
        }
    }
}

/// The stores that wipe a node's record: 0 to each word that is not 0.
pub fn wipes(words: &[u16], cell: usize) -> Vec<WordStore> {
    let record = open(words).expect("a store").record(cell);
    record.filter(|&at| words[at] != 0).map(|at| (at, 0)).collect()
}

/// Worn is judged after membership: a member or header with identifier 65,535 is mended, nodes in no list with it stay, all others there
/// are cleared, and their records wiped. One altered identifier of a node in no list.
pub fn recoveries(t: &mut Tests) {
    let shape = Shape::new(1, 2, 1);
    let words = with_worn(store_of(shape, &[vec![1]], || 0), &[1]);
    t.recovers(&with_words(&words, &[(16, 7)]), &[(12, IDENTIFIER), (16, 0)]);
    t.recovers(&with_words(&words, &[(16, WORN)]), &[(12, IDENTIFIER)]);
    for turn in 0..600 {
        let shape = t.shape(if turn % 2 == 0 { 5 } else { 30 });
        let (lists, sound) = t.sound_store(shape);
        let (mut found, mut stores) = (sound.clone(), vec![]);
        for (list, sequence) in lists.iter().enumerate() {
            let cell = [&[list][..], sequence].concat()[t.random.below(sequence.len() + 1)];
            if t.random.below(4) > 0 {
                found[shape.cell(cell)] = WORN;
                stores.push((shape.cell(cell), sound[shape.cell(cell)]));
            }
        }
        let others = shape.node_cells().filter(|&cell| [0, WORN].contains(&sound[shape.cell(cell)]));
        let others: Vec<usize> = others.collect();
        for &cell in &others {
            found[shape.cell(cell)] = t.random.pick(&[0, WORN, WORN, sound[shape.cell(cell)], 1, WORN - 1, IDENTIFIER]);
            if ![0, WORN].contains(&found[shape.cell(cell)]) {
                stores.push((shape.cell(cell), 0));
            }
        }
        let unworn = others.iter().filter(|&&cell| found[shape.cell(cell)] != WORN);
        stores.extend(unworn.flat_map(|&cell| wipes(&found, cell)));
        t.recovers(&found, &stores);
        for cell in carriers(&sound, 0).into_iter().chain(carriers(&sound, WORN)).take(6) {
            let at = shape.cell(cell);
            let wipes = wipes(&sound, cell);
            t.stores(&with_words(&sound, &[(at, WORN)]), &Check, 0, 0, &[]);
            t.recovers(&with_words(&sound, &[(at, WORN)]), &[]);
            t.stores(&with_words(&sound, &[(at, 0)]), &Check, 0, if wipes.is_empty() { 0 } else { 6 }, &[]);
            t.recovers(&with_words(&sound, &[(at, 0)]), &wipes);
            for value in [1, WORN - 1, IDENTIFIER] {
                t.stores(&with_words(&sound, &[(at, value)]), &Check, 0, 6, &[]);
                t.recovers(&with_words(&sound, &[(at, value)]), &[&[(at, 0)][..], &wipes].concat());
            }
        }
    }
}

/// The words with these put.
pub fn with_words(words: &[u16], changes: &[WordStore]) -> Vec<u16> {
    let mut words = words.to_vec();
    changes.iter().for_each(|&(at, value)| words[at] = value);
    words
}

/// Random runs of all calls, in stores up to the largest.
pub fn runs(t: &mut Tests) {
    for turn in 0..300 {
        let shape = if turn % 100 == 0 { Shape::new(8, 2000, 3) } else { t.shape(if turn % 3 == 0 { 40 } else { 8 }) };
        let (_, words) = t.sound_store(shape);
        t.run(words);
    }
}

impl Tests {
    /// A run of calls, some of them cut; a word altered in the lists that they do not name, or the count and an identifier; recoveries, some of
    /// them cut. A worn node keeps all its words, and lengths, free and worn nodes add up to N.
    pub fn run(&mut self, mut words: Vec<u16>) {
        let (t, shape) = (self, open(&words).expect("a store"));
        for step in 0..25 {
            let cell = t.random.below(shape.node_cells().end + 1);
            let call = match t.random.below(6) {
                0 => MarkWorn { cell: cell as u16 },
                _ => edit(&mut t.random, &words, &lists_of(&words), step),
            };
            let cut = t.random.below(4) == 0;
            let whole = usize::from(call.whole(shape.width));
            let allowance = if cut { t.random.below(whole) as u16 } else { ENOUGH };
            let mut left = t.follow(&words, &call, allowance);
            if cut {
                alter(t, &mut left, &words, &call);
                for allowance in [t.random.below(4) as u16, ENOUGH] {
                    left = t.follow(&left, &Recover, allowance);
                }
            }
            let mut worn = carriers(&words, WORN);
            let kept = worn.iter().all(|&cell| left[shape.node(cell)] == words[shape.node(cell)]);
            if call == (MarkWorn { cell: cell as u16 }) && carriers(&words, 0).contains(&cell) {
                worn.push(cell);
                worn.sort_unstable();
            }
            let uses = lists_of(&left).concat().len() + carriers(&left, 0).len() + worn.len();
            t.holds(kept && carriers(&left, WORN) == worn && uses == shape.nodes, || {
                format!("worn nodes after {call:?} with {allowance} on {words:?}")
            });
            words = left;
        }
    }
}

/// Alters a word in some of the lists that a call on a sound store did not name, or the count and an identifier.
fn alter(t: &mut Tests, left: &mut [u16], sound: &[u16], call: &Call) {
    let named = match *call {
        Insert { list, .. } | InsertSeveral { list, .. } | Delete { list, .. } => Some(usize::from(list)),
        _ => None,
    };
    let (places, pairs) = (alterable(sound).expect("a sound store"), pairs(sound).expect("a sound store"));
    for list in (0..places.len()).filter(|&list| Some(list) != named) {
        let altered = match t.random.below(5) {
            0 => vec![t.random.pick(&places[list])],
            1 => t.random.pick(&pairs[list]).to_vec(),
            _ => vec![],
        };
        altered.into_iter().for_each(|at| left[at] = t.random.pick(&[0, 9, WORN, IDENTIFIER]));
    }
}
