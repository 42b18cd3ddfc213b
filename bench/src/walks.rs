//! Read and delete at the first, the middle and the last position of one long list: the walk's steps, counted and timed.

use crate::cases::{changed, put_back, Case, Turn, DONE, ENOUGH};
use crate::engines::{PLAIN, PROVED};
use crate::measure::{measure, Row};
use crate::stores::one_list;
use bench::{plain, steps};
use std::env;
use std::hint::black_box;
use std::io::ErrorKind;
use std::process::Command;
use std::sync::atomic::{AtomicU8, Ordering};

/// The members of the list. A call at this position is refused, once it has checked the store.
const LENGTH: u16 = 2000;
/// No position is further from the header than 999 and 1,000.
const POSITIONS: [(&str, u16); 3] = [("first (0)", 0), ("middle (999)", 999), ("last (1,999)", 1999)];

#[derive(Clone, Copy, PartialEq, Eq)]
pub enum Call {
    Read,
    Delete,
}

pub const CALLS: [Call; 2] = [Call::Read, Call::Delete];

pub struct Walk {
    pub call: Call,
    pub position: &'static str,
    /// Nothing if there is no valgrind.
    pub steps: Option<usize>,
    pub row: Row,
    /// Nanoseconds of the proved call above those of the refused one.
    pub walk: f64,
}

impl Call {
    pub fn name(self) -> &'static str {
        match self {
            Call::Read => "read",
            Call::Delete => "delete",
        }
    }

    /// The cells whose links the call reads behind the walk: delete those of the cell that it comes to.
    fn cells_behind(self) -> usize {
        match self {
            Call::Read => 0,
            Call::Delete => 1,
        }
    }

    /// The call at a position. Before each delete the bytes that it changes are put back, and before a refused one those of
    /// the last position.
    fn case(self, position: u16) -> Case {
        let (shape, bytes) = one_list(LENGTH.into());
        let case = |answer, turn| Case { name: self.name(), shape, fill: None, bytes: bytes.clone(), answer, turn };
        match self {
            Call::Read => {
                let answer = (PLAIN.read)(&bytes, 0, position);
                case(answer, Box::new(move |engine, bytes| (engine.read)(bytes, 0, position)))
            }
            Call::Delete => {
                let mut after = bytes.clone();
                plain::delete(&mut after, 0, position.min(LENGTH - 1), ENOUGH);
                let places = changed(&bytes, &after);
                let turn: Box<Turn> = Box::new(move |engine, bytes| {
                    put_back(bytes, &places);
                    (engine.delete)(bytes, 0, position, ENOUGH)
                });
                case(if position < LENGTH { DONE + 4 + shape.width as u32 } else { 7 }, turn)
            }
        }
    }

    /// The steps to each position: the cells whose links are read beyond those of the refused call.
    fn steps(self) -> Option<[usize; 3]> {
        let others = cells_read(self, LENGTH)? + self.cells_behind();
        Some(POSITIONS.map(|(_, position)| {
            let cells = cells_read(self, position).and_then(|cells| cells.checked_sub(others));
            cells.expect("a call that is not refused reads more")
        }))
    }

    fn walks(self) -> Vec<Walk> {
        let steps = self.steps();
        let positions = POSITIONS.map(|(_, position)| position).into_iter().chain([LENGTH]);
        let mut rows = measure(&positions.map(|position| self.case(position)).collect::<Vec<_>>());
        let refused = rows.pop().map_or(0.0, |row| row.proved);
        let walk = |(i, row): (usize, Row)| Walk {
            call: self,
            position: POSITIONS[i].0,
            steps: steps.map(|steps| steps[i]),
            walk: row.proved - refused,
            row,
        };
        rows.into_iter().enumerate().map(walk).collect()
    }
}

/// Both calls at all positions.
pub fn walks() -> Vec<Walk> {
    CALLS.into_iter().flat_map(Call::walks).collect()
}

/// Read before and after the call that is traced.
static MARK: AtomicU8 = AtomicU8::new(0);

/// Makes the proved call once, and prints the addresses of the mark and of the store.
pub fn once(call: &str, position: &str) {
    let call = CALLS.into_iter().find(|c| c.name() == call).expect("read or delete");
    let case = call.case(position.parse().expect("a position"));
    let mut bytes = case.bytes.clone();
    println!("{} {}", MARK.as_ptr() as usize, bytes.as_ptr() as usize);
    black_box(MARK.load(Ordering::SeqCst));
    let answer = (case.turn)(&PROVED, &mut bytes);
    black_box(MARK.load(Ordering::SeqCst));
    assert_eq!(answer, case.answer, "the answer of {}", case.name);
}

/// The cells whose links the proved call reads at a position: the program runs itself under valgrind. Nothing if there is none.
fn cells_read(call: Call, position: u16) -> Option<usize> {
    let program = env::current_exe().expect("the program's own path");
    let mut valgrind = Command::new("valgrind");
    valgrind.args(["--tool=lackey", "--trace-mem=yes", "--basic-counts=no"]).arg(program);
    let output = match valgrind.args(["walk", call.name(), &position.to_string()]).output() {
        Err(error) if error.kind() == ErrorKind::NotFound => return None,
        output => output.expect("valgrind runs"),
    };
    assert!(output.status.success(), "{} at {position} under valgrind", call.name());
    let printed = String::from_utf8_lossy(&output.stdout);
    let addresses: Vec<usize> = printed.split_whitespace().filter_map(|number| number.parse().ok()).collect();
    let (shape, _) = one_list(LENGTH.into());
    Some(steps::cells_read(&String::from_utf8_lossy(&output.stderr), addresses[0], addresses[1], shape))
}
