//! What is measured: calls on a store that is the same before each turn.

use crate::engines::Engine;
use crate::stores::{Fill, Sample};
use bench::plain;
use model::store::Shape;

pub const ENOUGH: u16 = 65_535;
pub const DONE: u32 = 65_536;

pub const FORMAT: &str = "format";
pub const CHECK: &str = "check";
pub const LENGTH: &str = "length";
pub const EDIT: &str = "insert + delete";
pub const MARK: &str = "mark worn";
pub const TWELVE: &str = "12 records, one call";
pub const SINGLY: &str = "12 records, 12 calls";
pub const THOUSAND: &str = "1,000 records, one call";
pub const NOTHING: &str = "recover, nothing to do";
pub const BEFORE: &str = "recover, insert cut before its central store";
pub const AFTER: &str = "recover, insert cut after its central store";
pub const FAULTS: &str = "recover, one fault in every list";
pub const COUNTS: &str = "recover, count and identifier in every list";
pub const OLDER: &str = "recover, an older store";

/// All that is measured, but for what is told beforehand.
pub const NAMES: [&str; 14] =
    [FORMAT, CHECK, LENGTH, EDIT, MARK, TWELVE, SINGLY, THOUSAND, NOTHING, BEFORE, AFTER, FAULTS, COUNTS, OLDER];

pub const FIRST_CELL: &str = "first cell of an insert";
pub const LAST_CELL: &str = "last cell of an insert";
pub const STORES: &str = "stores of an insert";

/// What is told beforehand, each beside a call: of an insert beside check, of a recovery beside itself.
pub const TOLD: [(&str, &str); 9] = [
    (FIRST_CELL, CHECK),
    (LAST_CELL, CHECK),
    (STORES, CHECK),
    ("stores of recover, nothing to do", NOTHING),
    ("stores of recover, insert cut before its central store", BEFORE),
    ("stores of recover, insert cut after its central store", AFTER),
    ("stores of recover, one fault in every list", FAULTS),
    ("stores of recover, count and identifier in every list", COUNTS),
    ("stores of recover, an older store", OLDER),
];

/// What is told of this recovery.
fn told_of(recovery: &str) -> &'static str {
    TOLD.into_iter().find(|&(_, beside)| beside == recovery).map(|(told, _)| told).expect("a recovery")
}

/// The calls of a turn: the sum of their answers.
pub type Turn = dyn Fn(&Engine, &mut [u8]) -> u32;

pub struct Case {
    pub name: &'static str,
    pub shape: Shape,
    /// Nothing if it does not matter.
    pub fill: Option<Fill>,
    /// The store that is found.
    pub bytes: Vec<u8>,
    /// The sum of the answers that a turn must give.
    pub answer: u32,
    pub turn: Box<Turn>,
}

impl Case {
    fn new(
        name: &'static str,
        sample: &Sample,
        bytes: Vec<u8>,
        answer: u32,
        turn: impl Fn(&Engine, &mut [u8]) -> u32 + 'static,
    ) -> Case {
        let fill = (name != FORMAT).then_some(sample.fill);
        Case { name, shape: sample.shape, fill, bytes, answer, turn: Box::new(turn) }
    }

    /// Recovery of the found store, and what is told of it. The bytes that it changes are made wrong again before each turn.
    fn recovery(name: &'static str, sample: &Sample, found: Vec<u8>, stores: usize) -> [Case; 2] {
        let mut recovered = found.clone();
        plain::recover(&mut recovered, ENOUGH);
        let (wrong, answer) = (changed(&found, &recovered), DONE + stores as u32);
        let told = |engine: &Engine, bytes: &mut [u8]| (engine.recover_stores)(bytes);
        let recovery = move |engine: &Engine, bytes: &mut [u8]| {
            put_back(bytes, &wrong);
            (engine.recover)(bytes, ENOUGH)
        };
        let told = Case::new(told_of(name), sample, found.clone(), answer, told);
        [Case::new(name, sample, found, answer, recovery), told]
    }

    /// A figure told of an insert of as many records as nodes are free.
    fn told(
        name: &'static str,
        sample: &Sample,
        figure: usize,
        ask: impl Fn(&Engine, &[u8], &[u8]) -> u32 + 'static,
    ) -> Case {
        let records = vec![0; sample.free() * 2 * sample.shape.width];
        let turn = move |engine: &Engine, bytes: &mut [u8]| ask(engine, bytes, &records);
        Case::new(name, sample, sample.bytes.clone(), DONE + figure as u32, turn)
    }

    /// So many records inserted by so many calls. Before each turn the bytes that it changes are put back.
    fn insertion(
        name: &'static str,
        sample: &Sample,
        number: usize,
        calls: u32,
        insert: impl Fn(&Engine, &mut [u8], &[u8]) -> u32 + 'static,
    ) -> Case {
        let records: Vec<u8> = (0..2 * sample.shape.width * number).map(|i| i as u8).collect();
        let mut after = sample.bytes.clone();
        plain::insert_several(&mut after, sample.list, sample.position, sample.start, &records, ENOUGH);
        let changed = changed(&sample.bytes, &after);
        let stores = (number * (sample.shape.width + 6)) as u32;
        Case::new(name, sample, sample.bytes.clone(), calls * DONE + stores, move |engine, bytes| {
            put_back(bytes, &changed);
            insert(engine, bytes, &records)
        })
    }

    /// A mark on the first free node. Before each turn its identifier is put back.
    fn mark(sample: &Sample) -> Case {
        let (mut after, cell) = (sample.bytes.clone(), sample.free_cell());
        plain::mark_worn(&mut after, cell);
        let changed = changed(&sample.bytes, &after);
        Case::new(MARK, sample, sample.bytes.clone(), DONE + 1, move |engine, bytes| {
            put_back(bytes, &changed);
            (engine.mark_worn)(bytes, cell)
        })
    }
}

/// A place, and the bytes that stood there.
pub type Place = (usize, Vec<u8>);

/// The bytes that differ, as they were before. Near ones are together.
pub fn changed(before: &[u8], after: &[u8]) -> Vec<Place> {
    let mut ranges: Vec<std::ops::Range<usize>> = vec![];
    for i in (0..before.len()).filter(|&i| before[i] != after[i]) {
        match ranges.last_mut() {
            Some(last) if i < last.end + 16 => last.end = i + 1,
            _ => ranges.push(i..i + 1),
        }
    }
    ranges.into_iter().map(|range| (range.start, before[range].to_vec())).collect()
}

pub fn put_back(bytes: &mut [u8], places: &[Place]) {
    places.iter().for_each(|(at, before)| bytes[*at..][..before.len()].copy_from_slice(before));
}

/// The calls on the stores that come from a sample.
pub fn cases(sample: &Sample) -> Vec<Case> {
    let Sample { shape, list, position, start, .. } = *sample;
    let (lists, nodes, width) = (shape.lists as u16, shape.nodes as u16, shape.width as u16);
    let record = sample.record.clone();
    let (inserted, deleted) = (u32::from(width) + 6, u32::from(width) + 4);
    let sound = || sample.bytes.clone();
    let mut cases = vec![
        Case::new(CHECK, sample, sound(), 0, |engine, bytes| (engine.check)(bytes)),
        Case::new(LENGTH, sample, sound(), DONE + sample.length() as u32, move |engine, bytes| (engine.length)(bytes, list)),
        Case::new(EDIT, sample, sound(), DONE + inserted + DONE + deleted, move |engine, bytes| {
            (engine.insert)(bytes, list, position, start, &record, ENOUGH) + (engine.delete)(bytes, list, position, ENOUGH)
        }),
    ];
    let (first, last) = sample.free_ends();
    cases.extend([
        Case::told(FIRST_CELL, sample, first, move |engine, bytes, records| {
            (engine.first_cell)(bytes, list, position, start, records)
        }),
        Case::told(LAST_CELL, sample, last, move |engine, bytes, records| {
            (engine.last_cell)(bytes, list, position, start, records)
        }),
        Case::told(STORES, sample, sample.free() * (shape.width + 6), move |engine, bytes, records| {
            (engine.several_stores)(bytes, list, position, start, records)
        }),
    ]);
    cases.extend(Case::recovery(NOTHING, sample, sound(), 0));
    cases.extend(Case::recovery(BEFORE, sample, sample.cut(shape.width + 4), 2 + shape.width));
    cases.extend(Case::recovery(AFTER, sample, sample.cut(shape.width + 5), 1));
    cases.extend(Case::recovery(FAULTS, sample, sample.faulty(), shape.lists));
    cases.extend(Case::recovery(COUNTS, sample, sample.miscounted(), 2 * shape.lists));
    let one_call = move |engine: &Engine, bytes: &mut [u8], records: &[u8]| {
        (engine.insert_several)(bytes, list, position, start, records, ENOUGH)
    };
    let singly = move |engine: &Engine, bytes: &mut [u8], records: &[u8]| {
        let records = (position..).zip(records.chunks_exact(2 * shape.width));
        records.map(|(position, record)| (engine.insert)(bytes, list, position, start, record, ENOUGH)).sum()
    };
    if sample.fill == Fill::Half {
        cases.extend(Case::recovery(OLDER, sample, sample.older(), sample.free() * shape.width));
        cases.push(Case::mark(sample));
    }
    if sample.free() >= 12 {
        cases.push(Case::insertion(TWELVE, sample, 12, 1, one_call));
        cases.push(Case::insertion(SINGLY, sample, 12, 12, singly));
    }
    if sample.free() >= 1000 {
        cases.push(Case::insertion(THOUSAND, sample, 1000, 1, one_call));
    }
    if sample.fill == Fill::Full {
        let format = move |engine: &Engine, bytes: &mut [u8]| (engine.format)(bytes, lists, nodes, width);
        cases.insert(0, Case::new(FORMAT, sample, sound(), 0, format));
    }
    cases
}
