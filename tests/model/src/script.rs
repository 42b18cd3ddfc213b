//! Scripts of the program `cases`: the operations, and the lines that a run must print.

use crate::courses::{self, Call, Courses, Digest};
use crate::recovery;
use crate::store::{self, Answer};

/// The words that the program holds.
pub const CAPACITY: usize = 32_100;

/// The most words of a record that an entry has.
pub const LONGEST: usize = 64;

/// An insert of several records has `size` words in all: those of `repeated`, over and over.
#[derive(Clone, Debug, PartialEq, Eq)]
pub enum Operation {
    Fill { size: u16, value: u16 },
    Put { at: u16, value: u16 },
    PutAll { at: u16, values: Vec<u16> },
    Format { lists: u16, nodes: u16, width: u16 },
    Check,
    Length { list: u16 },
    Read { list: u16, position: u16 },
    Insert { list: u16, position: u16, start: u16, record: Vec<u16>, allowance: u16 },
    Delete { list: u16, position: u16, allowance: u16 },
    Recover { allowance: u16 },
    AllCourses(Courses),
    InsertSeveral { list: u16, position: u16, start: u16, size: u16, repeated: Vec<u16>, allowance: u16 },
    MarkWorn { cell: u16 },
}

use Operation::*;

impl Operation {
    pub fn words(&self) -> Vec<u16> {
        match *self {
            Fill { size, value } => vec![1, size, value],
            Put { at, value } => vec![2, at, value],
            PutAll { at, ref values } => [&[3, at, values.len() as u16], &values[..]].concat(),
            Format { lists, nodes, width } => vec![4, lists, nodes, width],
            Check => vec![5],
            Length { list } => vec![6, list],
            Read { list, position } => vec![7, list, position],
            Insert { list, position, start, ref record, allowance } => {
                [&[8, list, position, start, record.len() as u16], &record[..], &[allowance]].concat()
            }
            Delete { list, position, allowance } => vec![9, list, position, allowance],
            Recover { allowance } => vec![10, allowance],
            AllCourses(Courses { call: Call { list, position, start, record }, other: (at, value), ref values }) => {
                [&[11, list, position, start, record, at, value, values.len() as u16], &values[..]].concat()
            }
            InsertSeveral { list, position, start, size, ref repeated, allowance } => {
                [&[12, list, position, start, size, repeated.len() as u16], &repeated[..], &[allowance]].concat()
            }
            MarkWorn { cell } => vec![13, cell],
        }
    }

    /// The operation that the words begin with.
    pub fn first(words: &[u16]) -> Option<Operation> {
        Some(match *words {
            [1, size, value, ..] => Fill { size, value },
            [2, at, value, ..] => Put { at, value },
            [3, at, n, ref rest @ ..] => PutAll { at, values: rest.get(..n.into())?.to_vec() },
            [4, lists, nodes, width, ..] => Format { lists, nodes, width },
            [5, ..] => Check,
            [6, list, ..] => Length { list },
            [7, list, position, ..] => Read { list, position },
            [8, list, position, start, n, ref rest @ ..] if usize::from(n) <= LONGEST => {
                let (record, &allowance) = (rest.get(..n.into())?.to_vec(), rest.get(usize::from(n))?);
                Insert { list, position, start, record, allowance }
            }
            [9, list, position, allowance, ..] => Delete { list, position, allowance },
            [10, allowance, ..] => Recover { allowance },
            [11, list, position, start, record, at, value, n, ref rest @ ..] => AllCourses(Courses {
                call: Call { list, position, start, record },
                other: (at, value),
                values: rest.get(..n.into())?.to_vec(),
            }),
            [12, list, position, start, size, n, ref rest @ ..] if usize::from(size) <= CAPACITY && n > 0 => {
                let (repeated, &allowance) = (rest.get(..n.into())?.to_vec(), rest.get(usize::from(n))?);
                InsertSeveral { list, position, start, size, repeated, allowance }
            }
            [13, cell, ..] => MarkWorn { cell },
            _ => return None,
        })
    }

    /// Does it to the store, and says what is printed.
    pub fn run(&self, words: &mut Vec<u16>) -> Vec<Line> {
        match *self {
            Fill { size, value } => {
                *words = vec![value; CAPACITY.min(size.into())];
                vec![]
            }
            Put { at, value } => {
                put(words, at.into(), value);
                vec![]
            }
            PutAll { at, ref values } => {
                for (i, &value) in values.iter().enumerate() {
                    put(words, usize::from(at) + i, value);
                }
                vec![]
            }
            Format { lists, nodes, width } => {
                let number = store::format(words, lists, nodes, width);
                vec![Line::answer("format", number, format!("format {lists} {nodes} {width} = {number}")), words_line(words)]
            }
            Check => {
                let number = store::check(words);
                vec![Line::answer("check", number, format!("check = {number}"))]
            }
            Length { list } => {
                let (number, length) = store::length(words, list).map_or_else(|n| (n, 0), |length| (0, length));
                vec![Line::answer("length", number, format!("length {list} = {number} {length}"))]
            }
            Read { list, position } => {
                let (number, part) = store::read(words, list, position).map_or_else(|n| (n, &[][..]), |part| (0, part));
                vec![Line::answer("read", number, format!("read {list} {position} = {number}:{}", spaced(part)))]
            }
            Insert { list, position, start, ref record, allowance } => {
                let answer = store::insert(words, list, position, start, record, allowance);
                let call = format!("insert {list} {position} {start} {} {allowance}", record.len());
                vec![Line::ended(&INSERT, answer, allowance, call), words_line(words)]
            }
            Delete { list, position, allowance } => {
                let answer = store::delete(words, list, position, allowance);
                let call = format!("delete {list} {position} {allowance}");
                vec![Line::ended(&DELETE, answer, allowance, call), words_line(words)]
            }
            Recover { allowance } => {
                let told = Line::told(&NEEDED, recovery::recover_stores(words).map(|stores| [stores]));
                let answer = recovery::recover(words, allowance);
                vec![told, Line::ended(&RECOVER, answer, allowance, format!("recover {allowance}")), words_line(words)]
            }
            AllCourses(_) if words.len() > courses::MOST_WORDS => vec![],
            AllCourses(ref courses) => {
                let told = courses.run(words);
                let text = format!("courses{} = {}", spaced(&self.words()[1..8]), told.digest.0);
                vec![Line { courses: told.courses, demanded: told.demanded, ..Line::answer("courses", 0, text) }]
            }
            InsertSeveral { list, position, start, size, ref repeated, allowance } => {
                let records: Vec<u16> = repeated.iter().copied().cycle().take(size.into()).collect();
                let figures = store::insert_several_figures(words, list, position, start, &records);
                let told = Line::told(&FIGURES, figures.map(|told| [told.first, told.last, told.stores]));
                let answer = store::insert_several(words, list, position, start, &records, allowance);
                let call = format!("insert_several {list} {position} {start} {size} {allowance}");
                vec![told, Line::ended(&SEVERAL, answer, allowance, call), words_line(words)]
            }
            MarkWorn { cell } => {
                let answer = store::mark_worn(words, cell);
                vec![Line::ended(&MARK, answer, 1, format!("mark_worn {cell}")), words_line(words)]
            }
        }
    }
}

fn put(words: &mut [u16], at: usize, value: u16) {
    if at < words.len() {
        words[at] = value;
    }
}

fn spaced(words: &[u16]) -> String {
    words.iter().map(|w| format!(" {w}")).collect()
}

fn words_line(words: &[u16]) -> Line {
    if words.len() <= 64 {
        Line::plain(format!("words ={}", spaced(words)))
    } else {
        let mut sum = Digest::default();
        sum.mix_all(words);
        Line::plain(format!("checksum = {}", sum.0))
    }
}

/// A line that is printed.
#[derive(Clone, Debug, Default, PartialEq, Eq)]
pub struct Line {
    pub text: String,
    /// Of a call: its name, how it ended if it stores, and the number of its answer.
    pub answer: Option<(&'static str, u16)>,
    /// The number of courses that the line stands for, and of those that must end as a course of calls does.
    pub courses: usize,
    pub demanded: usize,
}

impl Line {
    fn plain(text: String) -> Line {
        Line { text, ..Line::default() }
    }

    fn answer(call: &'static str, number: u16, text: String) -> Line {
        Line { text, answer: Some((call, number)), ..Line::default() }
    }

    /// What is told of a call before it is made, the number of its stores last; the names are those of figures and of a refusal.
    fn told<const N: usize>(names: &[&'static str; 2], figures: Result<[u16; N], u16>) -> Line {
        match figures {
            Ok(figures) => Line::answer(names[0], figures[N - 1], format!("told = 0{}", spaced(&figures))),
            Err(number) => Line::answer(names[1], number, format!("told = {number}{}", spaced(&[0; N]))),
        }
    }

    /// Of a call that stores; the names are those of its ends.
    fn ended(names: &[&'static str; 4], answer: Answer, allowance: u16, call: String) -> Line {
        let (name, end, n) = match answer {
            Answer::Done(n) => (names[0], "done", n),
            Answer::Stopped(n) => (names[1], "stopped", n),
            Answer::Refused(n) => (names[if allowance == 0 { 2 } else { 3 }], "refused", n),
        };
        Line::answer(name, n, format!("{call} = {end} {n}"))
    }
}

/// The ends of the calls that store; refused without an allowance is one of its own. Mark_worn has none, and makes its one store.
const INSERT: [&str; 4] = ["insert done", "insert stopped", "insert refused with 0", "insert refused"];
const DELETE: [&str; 4] = ["delete done", "delete stopped", "delete refused with 0", "delete refused"];
const SEVERAL: [&str; 4] =
    ["insert_several done", "insert_several stopped", "insert_several refused with 0", "insert_several refused"];
const RECOVER: [&str; 4] = ["recover done", "recover stopped", "recover refused with 0", "recover refused"];
const MARK: [&str; 4] = ["mark_worn done", "mark_worn stopped", "mark_worn refused with 0", "mark_worn refused"];

/// What is told of recover and of an insert of several records beforehand: figures, or that it is refused.
const NEEDED: [&str; 2] = ["recover told", "recover told refused"];
const FIGURES: [&str; 2] = ["insert_several told", "insert_several told refused"];

/// The answer numbers that each call can give; of the numbers of stores of recover and of an insert of several records, told or made, those
/// of small stores and the most.
pub const ANSWERS: [(&str, &[u16]); 27] = [
    ("format", &[0, 3, 4]),
    ("check", &[0, 1, 2, 3, 4, 6]),
    ("length", &[0, 1, 2, 3, 4, 5, 6]),
    ("read", &[0, 1, 2, 3, 4, 5, 6, 7]),
    (INSERT[0], &[7, 8, 9, 10, 11, 12, 13, 14, 15, 16, 17, 18, 19]),
    (INSERT[1], &[0, 1, 2, 3, 4, 5, 6, 7, 8, 9, 10, 11, 12, 13, 14, 15, 16, 17, 18]),
    (INSERT[2], &[1, 2, 3, 4, 5, 6, 7, 8, 9, 10]),
    (INSERT[3], &[1, 2, 3, 4, 5, 6, 7, 8, 9, 10]),
    (SEVERAL[0], &[7, 8, 14, 16, 21, 24, 28, 32, 38, 38_000]),
    (
        SEVERAL[1],
        &[0, 1, 2, 3, 4, 5, 6, 7, 8, 9, 10, 11, 12, 13, 14, 15, 16, 17, 18, 19, 20, 21, 22, 23, 24, 25, 26, 27, 37_999],
    ),
    (SEVERAL[2], &[1, 2, 3, 4, 5, 6, 7, 8, 9, 10]),
    (SEVERAL[3], &[1, 2, 3, 4, 5, 6, 7, 8, 9, 10]),
    (FIGURES[0], &[7, 8, 14, 16, 21, 24, 28, 32, 38, 38_000]),
    (FIGURES[1], &[1, 2, 3, 4, 5, 6, 7, 8, 9, 10]),
    (DELETE[0], &[5, 6, 7, 8, 9, 10, 11, 12, 13, 14, 15, 16, 17]),
    (DELETE[1], &[0, 1, 2, 3, 4, 5, 6, 7, 8, 9, 10, 11, 12, 13, 14, 15, 16]),
    (DELETE[2], &[1, 2, 3, 4, 5, 6, 7]),
    (DELETE[3], &[1, 2, 3, 4, 5, 6, 7]),
    (RECOVER[0], &[0, 1, 2, 3, 4, 5, 6, 7, 8, 9, 14, 15, 16, 2016, 28_016]),
    (RECOVER[1], &[0, 1, 2, 3, 4, 5, 6, 7, 8, 9, 10, 11, 12, 13, 14, 2015, 28_015]),
    (RECOVER[2], &[1, 2, 3, 4, 11, 12]),
    (RECOVER[3], &[1, 2, 3, 4, 11, 12]),
    (NEEDED[0], &[0, 1, 2, 3, 4, 5, 6, 7, 8, 9, 14, 15, 16, 2016, 28_016]),
    (NEEDED[1], &[1, 2, 3, 4, 11, 12]),
    (MARK[0], &[1]),
    (MARK[3], &[1, 2, 3, 4, 6, 8, 13]),
    ("courses", &[0]),
];

/// The lines that a run of the script must print. A word of it is two bytes, low byte first.
pub fn lines_of(script: &[u8]) -> Vec<Line> {
    let words: Vec<u16> = script.chunks_exact(2).map(|b| u16::from_le_bytes([b[0], b[1]])).collect();
    let mut rest = &words[..];
    let mut store = vec![];
    let mut lines = vec![];
    while let Some(operation) = Operation::first(rest) {
        lines.extend(operation.run(&mut store));
        rest = &rest[operation.words().len()..];
    }
    if !rest.is_empty() || script.len() % 2 == 1 {
        lines.push(Line::plain("bad script".into()));
    }
    lines.push(Line::plain("end".into()));
    lines
}

#[cfg(test)]
mod tests {
    use super::*;

    fn bytes(words: &[u16]) -> Vec<u8> {
        words.iter().flat_map(|w| w.to_le_bytes()).collect()
    }

    fn texts(script: &[u8]) -> Vec<String> {
        lines_of(script).into_iter().map(|line| line.text).collect()
    }

    #[test]
    fn operations_are_read_as_written() {
        let all = [
            Fill { size: 24, value: 9 },
            Put { at: 3, value: 1 },
            PutAll { at: 5, values: vec![7, 8, 9] },
            PutAll { at: 5, values: vec![] },
            Format { lists: 1, nodes: 2, width: 3 },
            Check,
            Length { list: 2 },
            Read { list: 2, position: 4 },
            Insert { list: 2, position: 4, start: 5, record: vec![], allowance: 6 },
            Insert { list: 2, position: 4, start: 5, record: vec![7; LONGEST], allowance: 6 },
            Delete { list: 2, position: 4, allowance: 6 },
            Recover { allowance: 6 },
            AllCourses(Courses {
                call: Call { list: 1, position: 2, start: 3, record: 4 },
                other: (5, 6),
                values: vec![7, 8],
            }),
            InsertSeveral { list: 2, position: 4, start: 5, size: 0, repeated: vec![7], allowance: 6 },
            InsertSeveral { list: 2, position: 4, start: 5, size: 32_100, repeated: vec![7, 8, 9], allowance: 6 },
            MarkWorn { cell: 7 },
        ];
        for operation in all {
            let words = operation.words();
            assert_eq!(Operation::first(&words), Some(operation));
            assert_eq!(Operation::first(&words[..words.len() - 1]), None);
        }
    }

    #[test]
    fn bad_scripts() {
        assert_eq!(texts(&[]), ["end"]);
        assert_eq!(texts(&bytes(&[5])), ["check = 1", "end"]);
        assert_eq!(texts(&bytes(&[5, 99])), ["check = 1", "bad script", "end"]);
        assert_eq!(texts(&bytes(&[5, 7, 0])), ["check = 1", "bad script", "end"]);
        assert_eq!(texts(&bytes(&[3, 0, 2, 1])), ["bad script", "end"]);
        assert_eq!(texts(&[5, 0, 5]), ["check = 1", "bad script", "end"]);
        assert_eq!(texts(&bytes(&[8, 0, 0, 0, 1, 7])), ["bad script", "end"]);
        let longest = [&[8, 0, 0, 0, 64], &[7; 64][..], &[0]].concat();
        assert_eq!(texts(&bytes(&longest)), ["insert 0 0 0 64 0 = refused 1", "words =", "end"]);
        let too_long = [&[8, 0, 0, 0, 65], &[7; 65][..], &[0]].concat();
        assert_eq!(texts(&bytes(&too_long)), ["bad script", "end"]);
        let several = |size, n| bytes(&[12, 0, 0, 0, size, n, 7, 7]);
        let refused = ["told = 1 0 0 0", "insert_several 0 0 0 32100 7 = refused 1", "words =", "end"];
        assert_eq!(texts(&several(32_100, 1)), refused);
        for (size, n) in [(32_101, 1), (1, 0), (1, 2)] {
            assert_eq!(texts(&several(size, n)), ["bad script", "end"]);
        }
        assert_eq!(texts(&bytes(&[13])), ["bad script", "end"]);
        assert_eq!(texts(&bytes(&[14, 0])), ["bad script", "end"]);
    }

    /// A node is marked, and then neither marked again nor used.
    #[test]
    fn marks() {
        let script = bytes(&[1, 20, 0, 4, 1, 2, 1, 13, 1, 13, 1, 8, 0, 0, 1, 1, 9, 65_535, 13, 0]);
        let lines = texts(&script);
        assert_eq!(lines[2..4], ["mark_worn 1 = done 1", "words = 82 66 83 1 1 2 1 0 42400 0 0 0 65535 0 0 0 0 0 0 0"]);
        assert_eq!(lines[4], "mark_worn 1 = refused 13");
        assert_eq!(lines[6], "insert 0 0 1 1 65535 = done 7");
        assert_eq!(lines[7], "words = 82 66 83 1 1 2 1 0 42400 2 2 1 65535 0 0 0 42400 0 0 9");
        assert_eq!(lines[8], "mark_worn 0 = refused 8");
    }

    /// Two records of one word each are inserted: the words given are repeated. It is told beforehand.
    #[test]
    fn repeated_words() {
        let script = bytes(&[1, 20, 0, 4, 1, 2, 1, 12, 0, 0, 2, 2, 1, 9, 65_535, 7, 0, 0, 7, 0, 1]);
        let lines = texts(&script);
        assert_eq!(lines[2..4], ["told = 0 2 1 14", "insert_several 0 0 2 2 65535 = done 14"]);
        assert_eq!(lines[5..], ["read 0 0 = 0: 9", "read 0 1 = 0: 9", "end"]);
    }

    /// The stores of a recovery are told beforehand, and after a cut those that are left.
    #[test]
    fn told_recoveries() {
        let script = bytes(&[1, 20, 0, 4, 1, 2, 1, 2, 11, 9, 2, 12, 7, 10, 1, 10, 9, 10, 0, 2, 9, 9, 2, 10, 9, 10, 0]);
        let lines = texts(&script);
        assert_eq!(lines[2..4], ["told = 0 2", "recover 1 = stopped 1"]);
        assert_eq!(lines[5..7], ["told = 0 1", "recover 9 = done 1"]);
        assert_eq!(lines[8..10], ["told = 0 0", "recover 0 = done 0"]);
        assert_eq!(lines[11..13], ["told = 11 0", "recover 0 = refused 11"]);
    }

    #[test]
    fn words_outside_the_store_are_not_stored() {
        let script = bytes(&[1, 2, 9, 2, 2, 5, 3, 1, 2, 6, 7, 4, 0, 0, 0]);
        assert_eq!(texts(&script), ["format 0 0 0 = 3", "words = 9 6", "end"]);
    }
}
