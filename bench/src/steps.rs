//! The steps of a walk: the cells whose links a call reads, in a trace by valgrind's tool lackey.

use model::store::Shape;

/// A line of a trace: an instruction, or bytes that are read, written or both.
struct Line<'a> {
    kind: &'a str,
    at: usize,
    size: usize,
}

impl Line<'_> {
    /// Nothing if it is not such a line.
    fn of(text: &str) -> Option<Line<'_>> {
        let (kind, place) = text.trim_start().split_once(' ')?;
        let (at, size) = place.trim_start().split_once(',')?;
        Some(Line { kind, at: usize::from_str_radix(at, 16).ok()?, size: size.parse().ok()? })
    }

    fn reads(&self) -> bool {
        ["L", "M"].contains(&self.kind)
    }
}

/// How many cells of a store have a link read, forward or back, between the first two reads of the mark. Links of one cell that are
/// read in a row are those of one visit. Mark and store are given by their addresses.
pub fn cells_read(trace: &str, mark: usize, store: usize, shape: Shape) -> usize {
    let mut cells = vec![None; 2 * shape.size()];
    for cell in 0..shape.lists + shape.nodes {
        cells[2 * (shape.cell(cell) + 1)..][..4].fill(Some(cell));
    }
    let cell_at = |address: usize| address.checked_sub(store).and_then(|i| cells.get(i).copied().flatten());
    let reads = trace.lines().filter_map(Line::of).filter(Line::reads);
    let call = reads.skip_while(|line| line.at != mark).skip(1).take_while(|line| line.at != mark);
    let mut visited: Vec<usize> = call.filter_map(|line| (line.at..line.at + line.size).find_map(cell_at)).collect();
    visited.dedup();
    visited.len()
}

#[cfg(test)]
mod tests {
    use super::*;
    use model::random::Random;
    use model::store::store_of;

    const MARK: usize = 0x11_f040;
    const STORE: usize = 0x4b_2010;

    fn line(kind: &str, address: usize) -> String {
        format!("{kind} {address:08x},2\n")
    }

    /// The trace of a call on one list: reads before it; a check that reads every cell; a walk forward of so many steps, or
    /// back; the record; stores, and reads behind it. Only the walk's reads depend on the steps.
    fn trace(shape: Shape, words: &[u16], link: usize, steps: usize) -> String {
        let of_cell = |cell: usize, word: usize| STORE + 2 * (shape.cell(cell) + word);
        let check = || (0..=shape.nodes).flat_map(|cell| (0..3).map(move |word| line(" L", of_cell(cell, word))));
        let mut text: String = ["==7== Lackey\n".to_string(), line("I ", STORE)].into_iter().chain(check()).collect();
        text += &line(" L", MARK);
        text.extend(check());
        let mut at = 0;
        for _ in 0..steps {
            text += &(line("I ", 0x40_1000) + &line(" L", of_cell(at, link)) + &line(" L", 0x1f_fe00));
            at = words[shape.cell(at) + link].into();
        }
        text += &(line(" L", of_cell(at, 3)) + &line(" S", of_cell(at, 1)) + &line(" L", MARK));
        text.extend(check());
        text
    }

    /// A walk the shorter way round takes one step to both ends; one that always goes forward takes all.
    #[test]
    fn steps_are_the_cells_read() {
        let shape = Shape::new(1, 2000, 13);
        let mut random = Random::new(10);
        let mut cells: Vec<usize> = shape.node_cells().collect();
        random.shuffle(&mut cells);
        let words = store_of(shape, &[cells], || random.word());
        let read = |link, steps| cells_read(&trace(shape, &words, link, steps), MARK, STORE, shape);
        let before = read(1, 0);
        assert_eq!(before, 2001);
        for (link, steps) in [(1, 1), (1, 1000), (2, 1000), (2, 1), (1, 2000)] {
            assert_eq!(read(link, steps) - before, steps);
        }
    }

    /// A link may be read with other words, or by bytes; bytes beside the links are none of them. Links of a cell that are read in a row
    /// are one visit.
    #[test]
    fn reads_of_several_words() {
        let shape = Shape::new(1, 2, 1);
        let (header, node) = (STORE + 16, STORE + 24);
        let read = |lines: &[(usize, usize)]| {
            let reads: String = lines.iter().map(|(at, size)| format!(" M {at:x},{size}\n")).collect();
            cells_read(&(line(" L", MARK) + &reads + &line(" L", MARK)), MARK, STORE, shape)
        };
        for link in [(header, 8), (header + 2, 4), (header + 4, 1), (header + 5, 1), (node + 2, 2)] {
            assert_eq!(read(&[link]), 1);
        }
        for other in [(header, 2), (header + 6, 2), (STORE - 4, 4), (STORE + 2 * shape.size(), 8), (STORE, 16)] {
            assert_eq!(read(&[other]), 0);
        }
        assert_eq!(read(&[(header + 2, 2), (header + 4, 2), (node + 2, 2), (node, 2), (node + 4, 2), (header + 2, 2)]), 3);
    }
}
