//! The results as text: docs/BENCHMARKS.md.

use crate::cases::{CHECK, NAMES, TOLD};
use crate::machine::Size;
use crate::measure::Row;
use crate::stores::Fill;
use crate::walks::{Call, Walk, CALLS};
use std::fmt::Write;

/// The largest ratio that is hoped for.
pub const GOAL: f64 = 1.25;
/// The most stack that is hoped for.
const STACK_GOAL: usize = 16_384;

pub struct Results {
    pub machine: Vec<(&'static str, String)>,
    pub rows: Vec<Row>,
    /// What is told beforehand.
    pub told: Vec<Row>,
    pub walks: Vec<Walk>,
    /// The call, and the bytes that the proved and the plain one use.
    pub stack: Vec<(&'static str, usize, usize)>,
    pub size: Size,
}

/// What is said of the results, whatever they are: kept by hand.
const LIMITS: &str = include_str!("../limits.md");
/// The same work on other engines: written by bench/beside/run.
const BESIDE: &str = include_str!("../beside.md");

fn nanoseconds(n: f64) -> String {
    if n < 100.0 {
        format!("{n:.1}")
    } else {
        format!("{n:.0}")
    }
}

/// A number, marked if it is beyond the goal.
fn marked(text: String, beyond: bool) -> String {
    if beyond {
        format!("**{text}** (!)")
    } else {
        text
    }
}

/// The columns that every row has.
fn columns(row: &Row) -> String {
    let shape = format!("{}, {}, {}", row.shape.lists, row.shape.nodes, row.shape.width);
    let fill = row.fill.map_or("-", Fill::name);
    let ratio = marked(format!("{:.2}", row.ratio()), row.ratio() > GOAL);
    let (proved, plain) = (nanoseconds(row.proved), nanoseconds(row.plain));
    format!("| {} | {shape} | {fill} | {proved} | {plain} | {ratio} |", row.name)
}

impl Results {
    /// One line for each row.
    pub fn table(&self) -> String {
        let mut text = String::from("| Calls | L, N, P | Filled | Proved, ns | Plain, ns | Ratio | Proved, ns per cell |\n");
        text += "|---|---|---|--:|--:|--:|--:|\n";
        for row in &self.rows {
            let _ = writeln!(text, "{} {:.2} |", columns(row), row.per_cell(row.proved));
        }
        text
    }

    /// How many ratios are beyond the goal, and the largest.
    pub fn verdict(&self) -> String {
        let beyond = self.rows.iter().filter(|row| row.ratio() > GOAL).count();
        let largest = self.rows.iter().map(Row::ratio).fold(0.0, f64::max);
        format!("{beyond} of {} ratios are above {GOAL}; the largest is {largest:.2}.", self.rows.len())
    }

    /// The row of the call that a figure is held against.
    fn row_beside(&self, told: &Row) -> &Row {
        let beside = TOLD.into_iter().find(|&(name, _)| name == told.name).map(|(_, beside)| beside);
        let same = |row: &&Row| Some(row.name) == beside && row.shape == told.shape && row.fill == told.fill;
        self.rows.iter().find(same).expect("a call beside it")
    }

    /// One line for each figure.
    pub fn told(&self) -> String {
        let mut text =
            String::from("| Told | L, N, P | Filled | Proved, ns | Plain, ns | Ratio | Beside it, ns | Against it |\n");
        text += "|---|---|---|--:|--:|--:|--:|--:|\n";
        for row in &self.told {
            let beside = self.row_beside(row).proved;
            let _ = writeln!(text, "{} {} | {:.2} |", columns(row), nanoseconds(beside), row.proved / beside);
        }
        text
    }

    /// The most that a figure takes against the call beside it: of an insert above a check, for each node, and of a recovery.
    pub fn beside(&self) -> String {
        let beside: Vec<(&Row, &Row)> = self.told.iter().map(|row| (row, self.row_beside(row))).collect();
        let (inserts, recoveries): (Vec<_>, Vec<_>) = beside.into_iter().partition(|(_, beside)| beside.name == CHECK);
        let above = inserts.iter().map(|(row, check)| (row.proved - check.proved) / row.shape.nodes as f64);
        let against = recoveries.iter().map(|(row, recovery)| row.proved / recovery.proved);
        let (above, against) = (above.fold(f64::NEG_INFINITY, f64::max), against.fold(0.0, f64::max));
        let beyond = self.told.iter().filter(|row| row.ratio() > GOAL).count();
        format!(
            "A figure of an insert takes at most {above:.2} ns for each node more than a check, the stores of a recovery at most \
             {against:.2} of what the recovery takes. {beyond} of {} ratios are above {GOAL}.",
            self.told.len()
        )
    }

    /// One line for each call and position.
    pub fn walks(&self) -> String {
        let mut text = String::from("| Calls | Position | Steps | Proved, ns | of it the walk, ns | Plain, ns | Ratio |\n");
        text += "|---|---|--:|--:|--:|--:|--:|\n";
        for Walk { call, position, steps, row, walk } in &self.walks {
            let steps = steps.map_or("no valgrind".into(), |n| n.to_string());
            let ratio = marked(format!("{:.2}", row.ratio()), row.ratio() > GOAL);
            let [proved, walk, plain] = [row.proved, *walk, row.plain].map(nanoseconds);
            let _ = writeln!(text, "| {} | {position} | {steps} | {proved} | {walk} | {plain} | {ratio} |", call.name());
        }
        text
    }

    /// What the last position takes against the first.
    pub fn ends(&self) -> String {
        let of = |call: Call| {
            let times: Vec<f64> = self.walks.iter().filter(|walk| walk.call == call).map(|walk| walk.row.proved).collect();
            let (first, last) = (times[0], times[times.len() - 1]);
            format!("{:.2} in {} ({} ns / {} ns)", last / first, call.name(), nanoseconds(last), nanoseconds(first))
        };
        format!("The last position's time against the first one's: {}.", CALLS.map(of).join(", "))
    }

    fn machine(&self) -> String {
        self.machine
            .iter()
            .fold(String::from("| | |\n|---|---|\n"), |text, (name, value)| text + &format!("| {name} | {value} |\n"))
    }

    /// Nanoseconds per cell of full stores, by their number of nodes.
    fn growth(&self) -> String {
        let of = |name| self.rows.iter().filter(move |row| row.name == name && row.fill != Some(Fill::Half));
        let mut text = String::from("| Calls |");
        of(NAMES[0]).for_each(|row| text += &format!(" N = {} |", row.shape.nodes));
        text += &format!("\n|---|{}\n", "--:|".repeat(of(NAMES[0]).count()));
        for name in NAMES.into_iter().filter(|&name| of(name).count() > 0) {
            let _ = write!(text, "| {name} |");
            of(name).for_each(|row| text += &format!(" {:.2} |", row.per_cell(row.proved)));
            text += "\n";
        }
        text
    }

    fn stack(&self) -> String {
        let mut text = String::from("| Call | Proved, bytes | Plain, bytes |\n|---|--:|--:|\n");
        for &(name, proved, plain) in &self.stack {
            let _ = writeln!(text, "| {name} | {} | {plain} |", marked(proved.to_string(), proved > STACK_GOAL));
        }
        text
    }

    /// The whole document.
    pub fn document(&self) -> String {
        let Size { code, constants } = self.size;
        format!(
            "# Benchmarks

Each exported call of the proved library against a plain, careful Rust implementation of the same
call (bench/src/plain.rs), on the same bytes, in the same run, in alternating batches. Written by

    make archives && cd bench && cargo run --release --offline

{machine}
## Times

A time is that of the batch that was disturbed least, divided by its turns. The lists of a store are
equally long, and their members lie in shuffled order. A full store has one free node; in a half
full one every second node is free. Insert + delete is two calls: a record is inserted in the middle
of a list and deleted again; the search for a free node starts at the first. 12 records are inserted
in the middle of a list by one call and by 12; 1,000 records fill the half full store of 2,000
nodes. Mark worn is one call, on the first free node of a half full store. An older store has a
record in every free node, which recovery wipes: in a half full one as many words as the members'
records have. Before each of these turns the bytes that it changes are put back, and before each
recovery the bytes that it changes are made wrong again, which is counted for both; in an older
store that is a copy of half the store. Both gave the same answers and left the same bytes before
they were measured. (!) marks a ratio above {GOAL}.

A call that asks whether the store is sound reads the records of the free nodes too: in a half full
store half of all records, in a full one a single record. Recovery reads them as well.

Some Intel processors are slow at jumps that cross or end at a 32-byte boundary. The plain
implementation is compiled without such jumps (bench/.cargo/config.toml), so that its times do not
depend on where it comes to lie; the archive is linked as it is.

{table}
{verdict}

![Ratios, and nanoseconds per cell](benchmarks.svg)

## Told beforehand

What is told of an insert of as many records as nodes are free, one in a full store: the search for
the last cell goes as far round the nodes as it can. Beside it is check. What is told of a recovery
of the same stores as above: beside it is that recovery, with its stores and with the bytes that are
made wrong again before it. Nothing is written, so nothing is put back. Both gave the same answers.

{told}
{beside_it}

## Walks to a position

Read and delete in one list of 2,000 records (1, 2000, 13), whose members lie in shuffled order. A
walk starts at the header and goes the shorter way round: to position p of n records it should take
min(p + 1, n - p) steps, each of which follows one link. Of all positions 999 and 1,000 take the
most; 999 is measured.

The steps are counted in the machine code of the archives: valgrind's tool lackey lists what a call
reads, and a step is a cell whose link is read. The cells that the check reads are those of the same
call at position 2,000, which is refused once the store is checked; they are subtracted, and with
delete the cell that it takes out, whose own links name its neighbours. The walk's time is the time
above the refused call's; with delete it includes the stores, four and one for each of the 13 words
of the record. With read at both ends that is a few nanoseconds, about what two measurements of one
call differ by, and can come out below 0.

The C interface has no read: it is called on words, in an archive of its own (`make archives` builds
it), and the plain one reads the same bytes. Before each delete the bytes that it changes are put
back, which is counted for both. The plain one walks forward to every position.

{walks}
{ends}

## Cost per cell as stores grow

The proved calls on full stores, in nanoseconds per cell (L + N cells). The largest store has 64,080
bytes, more than a first-level cache holds, and its cells have 32 bytes where those of the middle
one have 22.

{growth}
## What limits each row

{limits}

## Stack

What each call uses of a stack of its own, on the largest store (8, 2000, 13), full. (!) marks more
than {STACK_GOAL} bytes.

{stack}
## Code size

The archive `libaxle.a` has {code} bytes of code and {constants} bytes of constants.

{beside}
",
            machine = self.machine(),
            table = self.table(),
            verdict = self.verdict(),
            told = self.told(),
            beside_it = self.beside(),
            walks = self.walks(),
            ends = self.ends(),
            growth = self.growth(),
            limits = LIMITS.trim(),
            stack = self.stack(),
            beside = BESIDE.trim(),
        )
    }
}
