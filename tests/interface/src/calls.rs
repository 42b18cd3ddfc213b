//! The calls on stores of every kind.

use crate::checks::{Tests, MOST_BYTES};
use interface::stores::{alteration, record, sound, unworn};
use interface::{bytes_of, Call::*, ENOUGH, STOPPED};
use model::samples::{carriers, deal, remain, wear, TwoSequences};
use model::store::{store_of, Shape, IDENTIFIER, WORN};

/// Every length up to 60 bytes and some around the largest, of a store, of one byte and of random bytes; no bytes as NULL.
pub fn lengths(t: &mut Tests) {
    let shape = Shape::new(1, 2, 1);
    let whole = [bytes_of(&store_of(shape, &[vec![2, 1]], || 7)), vec![0; 40]].concat();
    let random: Vec<u8> = (0..60).map(|_| t.random.word() as u8).collect();
    for bytes in [&whole[..], &random, &[82; 60]] {
        for len in 0..=60 {
            t.all_calls(&bytes[..len], shape);
            for (lists, nodes, width) in [(1, 2, 1), (0, 2, 1), (1, 1, 2), (8, 2000, 13)] {
                t.call(&bytes[..len], &Format { lists, nodes, width }, 0);
            }
        }
    }
    let largest = Shape::new(8, 2000, 13);
    let mut bytes = bytes_of(&store_of(largest, &vec![vec![]; 8], || 0));
    bytes.resize(MOST_BYTES, 0);
    for len in [64_078, 64_079, 64_080, 64_081, 64_082, 64_200] {
        t.all_calls(&bytes[..len], shape);
        t.call(&bytes[..len], &Format { lists: 8, nodes: 2000, width: 13 }, 0);
    }
}

/// Each of the first eight words altered: each byte of it, and numbers at the ends of the ranges.
pub fn heads(t: &mut Tests) {
    for (shape, lists) in [(Shape::new(1, 1, 1), vec![vec![1]]), (Shape::new(3, 4, 2), vec![vec![5], vec![], vec![4, 3]])] {
        let words = store_of(shape, &lists, || 9);
        for at in 0..8 {
            let right = words[at];
            for value in
                [0, 1, right.wrapping_sub(1), right + 1, right | 0x100, right << 8, 8, 9, 13, 14, 2000, 2001, 65_535]
            {
                let mut words = words.clone();
                words[at] = value;
                t.all_calls(&bytes_of(&words), shape);
            }
        }
    }
}

/// Format: numbers in range and beyond, the right length and others, over bytes of any value.
pub fn formats(t: &mut Tests) {
    let numbers = [&[0, 1, 2, 7, 8, 9, 65_535][..], &[0, 1, 2, 5, 1999, 2000, 2001, 65_535], &[0, 1, 2, 12, 13, 14, 65_535]];
    for &lists in numbers[0] {
        for &nodes in numbers[1] {
            for &width in numbers[2] {
                let size = 2 * Shape::new(lists.into(), nodes.into(), width.into()).size();
                let sizes: &[usize] =
                    if nodes < 1999 { &[size, size + 1, size + 2, size - 1, size - 2, 48] } else { &[size, 48] };
                for &size in sizes.iter().filter(|&&size| size <= MOST_BYTES) {
                    let fill = t.random.word() as u8;
                    t.call(&vec![fill; size], &Format { lists, nodes, width }, 0);
                }
            }
        }
    }
}

/// All stores of one list and one node whose words hold certain values.
pub fn smallest_stores(t: &mut Tests) {
    let shape = Shape::new(1, 1, 1);
    let (identifiers, links) = ([IDENTIFIER, 0, WORN], [0, 1, 2]);
    let places: [(usize, &[u16]); 7] =
        [(8, &identifiers[..2]), (9, &links), (10, &links), (11, &links), (12, &identifiers), (13, &links), (14, &links)];
    let words = store_of(shape, &[vec![]], || 0);
    for mut choice in 0..places.iter().map(|(_, values)| values.len()).product() {
        let mut words = words.clone();
        for (at, values) in places {
            words[at] = values[choice % values.len()];
            choice /= values.len();
        }
        let bytes = bytes_of(&words);
        t.call(&bytes, &Check, 0);
        t.at_each_allowance(&bytes, &Recover);
        t.at_each_allowance(&bytes, &Insert { list: 0, position: 0, start: 1, record: vec![9, 9] });
        t.at_each_allowance(&bytes, &Delete { list: 0, position: 0 });
        (0..3).for_each(|cell| drop(t.call(&bytes, &MarkWorn { cell }, 0)));
    }
}

/// Sound stores: every insert and delete in them and just beyond, at every allowance; each cut is recovered.
pub fn sound_stores(t: &mut Tests) {
    for turn in 0..180 {
        let shape = t.shape(if turn % 3 == 0 { 12 } else { 4 });
        let (lists, words) = t.sound_store(shape);
        let bytes = bytes_of(&words);
        t.all_calls(&bytes, shape);
        for (list, sequence) in lists.iter().enumerate() {
            for position in 0..=sequence.len() + 1 {
                let (list, position) = (list as u16, position as u16);
                let start = (shape.lists + t.random.below(shape.nodes)) as u16;
                let record = record(&mut t.random, shape.width);
                for call in [Insert { list, position, start, record }, Delete { list, position }] {
                    for allowance in 0..shape.width as u16 + 8 {
                        let (answer, cut) = t.call(&bytes, &call, allowance);
                        if answer >= STOPPED {
                            t.at_each_allowance(&cut, &Recover);
                        }
                    }
                }
            }
        }
    }
}

/// Records of every length up to 40 bytes, in stores of every width.
pub fn records(t: &mut Tests) {
    for width in 1..=13 {
        let shape = Shape::new(2, 6, width);
        let (_, words) = t.sound_store(shape);
        for len in 0..=40 {
            let mut record = record(&mut t.random, 20);
            record.truncate(len);
            t.at_each_allowance(&bytes_of(&words), &Insert { list: 1, position: 0, start: 7, record });
        }
    }
}

/// Sound stores: every number of records up to one more than nodes are free, at every allowance; each cut is recovered. One record as
/// by insert. Numbers of bytes that are no multiple.
pub fn several_records(t: &mut Tests) {
    for turn in 0..120 {
        let shape = t.shape(if turn % 4 == 0 { 9 } else { 4 });
        let (lists, words) = t.sound_store(shape);
        let bytes = bytes_of(&words);
        let list = t.random.below(shape.lists);
        let (position, start) = (t.random.between(0, lists[list].len()) as u16, t.random.below(shape.nodes));
        let (list, start) = (list as u16, (shape.lists + start) as u16);
        for number in 1..=carriers(&words, 0).len() + 1 {
            let records = record(&mut t.random, number * shape.width);
            let several = InsertSeveral { list, position, start, records: records.clone() };
            for allowance in 0..several.whole(shape.width) + 2 {
                let (answer, cut) = t.call(&bytes, &several, allowance);
                if answer >= STOPPED {
                    t.at_each_allowance(&cut, &Recover);
                }
                if number == 1 {
                    let single = t.call(&bytes, &Insert { list, position, start, record: records.clone() }, allowance);
                    t.holds(single == (answer, cut), || format!("one of several on {words:?}"));
                }
            }
        }
        for len in 0..=4 * shape.width + 3 {
            let mut records = record(&mut t.random, 2 * shape.width + 2);
            records.truncate(len);
            t.at_each_allowance(&bytes, &InsertSeveral { list, position, start, records });
        }
    }
}

/// Sound stores with some words altered, from one to nearly all. In some of them something remains in free nodes.
pub fn damaged_stores(t: &mut Tests) {
    for turn in 0..2000 {
        let shape = t.shape(if turn % 2 == 0 { 4 } else { 12 });
        let (_, words) = t.sound_store(shape);
        let mut words = if turn % 5 == 0 { remain(&mut t.random, words) } else { words };
        for _ in 0..if turn % 10 == 9 { 40 } else { t.random.between(1, 5) } {
            let cell = t.random.below(shape.lists + shape.nodes);
            let (at, value) = alteration(&mut t.random, shape, &words, cell);
            words[at] = value;
        }
        t.all_calls(&bytes_of(&words), shape);
    }
}

/// Free nodes in the place of a block of members, or beside them, by one link: two sequences fit. The count is the length of the one, of the
/// other, or any. Then one word more altered.
pub fn two_sequences(t: &mut Tests) {
    for turn in 0..1500 {
        let shape = Shape::new(t.random.between(1, 4), t.random.between(2, if turn % 2 == 0 { 4 } else { 12 }), 1);
        let used = if turn % 3 == 0 { shape.nodes - 1 } else { t.random.between(1, shape.nodes - 1) };
        let lists = deal(&mut t.random, shape, used);
        let mut words = sound(&mut t.random, shape, &lists);
        let list = t.random.below(shape.lists);
        let others = &carriers(&words, 0)[..turn % 4 / 2];
        let two = TwoSequences::random(&mut t.random, list, &lists[list], others);
        two.put(&mut words);
        words[shape.cell(list) + 3] = match turn % 5 {
            0 => t.random.below(shape.nodes + 2) as u16,
            way => two.sequence(way % 2).len() as u16,
        };
        t.at_each_allowance(&bytes_of(&words), &Recover);
        let cell = t.random.below(shape.lists + shape.nodes);
        let (at, value) = alteration(&mut t.random, shape, &words, cell);
        words[at] = value;
        t.at_each_allowance(&bytes_of(&words), &Recover);
    }
}

/// Random words behind a right beginning, and random bytes throughout.
pub fn garbage(t: &mut Tests) {
    for turn in 0..600 {
        let shape = t.shape(8);
        let mut words: Vec<u16> = (0..shape.size()).map(|_| t.random.word()).collect();
        if turn % 2 == 0 {
            let small = shape.lists + shape.nodes + 2;
            words.iter_mut().for_each(|word| *word = t.random.below(small) as u16);
        }
        if turn % 4 < 2 {
            words[..8].copy_from_slice(&store_of(shape, &vec![vec![]; shape.lists], || 0)[..8]);
        }
        t.all_calls(&bytes_of(&words), shape);
    }
}

/// A fault in every list, in some beside a wrong count, and every free node carrying an identifier beside the worn ones, by two turns of
/// three with remains of a record: recovery cut everywhere.
pub fn many_stores(t: &mut Tests) {
    let shapes = [Shape::new(1, 1, 1), Shape::new(3, 6, 8), Shape::new(8, 40, 2), Shape::new(8, 8, 13)];
    for (turn, shape) in shapes.into_iter().cycle().take(6 * shapes.len()).enumerate() {
        let (lists, words) = t.sound_store(shape);
        let mut words = if turn % 3 > 0 { remain(&mut t.random, words) } else { words };
        for (list, sequence) in lists.iter().enumerate() {
            let cell = [&[list][..], sequence].concat()[t.random.below(sequence.len() + 1)];
            let i = t.random.below(if cell == list { 4 } else { 3 });
            words[shape.cell(cell) + i] ^= 0x4000;
            words[shape.cell(list) + 3] ^= t.random.pick(&[0, 0x8000]);
        }
        for cell in carriers(&words, 0) {
            words[shape.cell(cell)] = t.random.pick(&[1, WORN - 1, IDENTIFIER, IDENTIFIER + 7]);
        }
        let mut bytes = bytes_of(&words);
        t.at_each_allowance(&bytes, &Recover);
        while let (STOPPED.., left) = t.call(&bytes, &Recover, 1) {
            bytes = left;
        }
    }
}

/// The largest store: full and empty, in one list and in eight, some nodes worn, and damaged at its ends.
pub fn largest(t: &mut Tests) {
    let shape = Shape::new(8, 2000, 13);
    let mut all: Vec<usize> = shape.node_cells().collect();
    t.random.shuffle(&mut all);
    let eight: Vec<Vec<usize>> = (0..8).map(|k| all[250 * k..250 * (k + 1)].to_vec()).collect();
    let of_five = |cells: &[usize]| (0..8).map(|k| if k == 5 { cells.to_vec() } else { vec![] }).collect();
    for lists in [eight, of_five(&all[1..]), of_five(&all[200..])] {
        let words = sound(&mut t.random, shape, &lists);
        let bytes = bytes_of(&words);
        let length = lists[5].len() as u16;
        for call in [Check, Length { list: 5 }, Length { list: 8 }, Recover, Delete { list: 5, position: length }] {
            t.call(&bytes, &call, ENOUGH);
        }
        for (position, allowance) in [(0, 1), (length / 2, 2), (length - 1, ENOUGH)] {
            t.call(&bytes, &Delete { list: 5, position }, allowance);
            let record = record(&mut t.random, 13);
            let (_, left) = t.call(&bytes, &Insert { list: 5, position, start: 2007, record }, 18);
            t.call(&left, &Recover, ENOUGH);
        }
        let last = *lists[5].last().expect("a member");
        for (at, value) in [
            (shape.cell(last), 0),
            (shape.cell(last) + 1, last as u16),
            (shape.cell(last) + 1, 2008),
            (shape.cell(last) + 2, 5),
            (shape.cell(5) + 3, length + 1),
            (shape.cell(7) + 1, 8),
            (shape.cell(2007) + 15, 1234),
        ] {
            let mut words = words.clone();
            words[at] = value;
            t.call(&bytes_of(&words), &Check, 0);
            t.call(&bytes_of(&words), &Recover, ENOUGH);
        }
    }
    let empty = bytes_of(&store_of(shape, &vec![vec![]; 8], || 0));
    for (records, allowance) in [(2001, ENOUGH), (2000, ENOUGH), (2000, 20_000), (2000, 37_999)] {
        let records = record(&mut t.random, 13 * records);
        let (_, left) = t.call(&empty, &InsertSeveral { list: 2, position: 0, start: 1500, records }, allowance);
        t.call(&left, &Recover, ENOUGH);
    }
    let empty = unworn(&mut t.random, shape, &vec![vec![]; 8]);
    for mut words in [empty.clone(), wear(&mut t.random, empty, 1)] {
        for list in 0..8 {
            words[shape.cell(list)] = 1;
            words[shape.cell(list) + 3] = 1;
        }
        for cell in carriers(&words, 0) {
            words[shape.cell(cell)] = IDENTIFIER;
        }
        for allowance in [0, 7, 15, 16, 1000, 2015, 2016, ENOUGH] {
            t.call(&bytes_of(&words), &Recover, allowance);
        }
    }
}
