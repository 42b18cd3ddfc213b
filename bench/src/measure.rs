//! Times of the proved and the plain calls on the same bytes.

use crate::cases::Case;
use crate::engines::{Engine, PLAIN, PROVED};
use crate::stores::Fill;
use model::store::Shape;
use std::hint::black_box;
use std::time::{Duration, Instant};

/// All cases are measured in so many rounds, so that a disturbance does not fall on one of them alone.
const ROUNDS: usize = 25;
/// The batches of each engine in a round.
const BATCHES: usize = 100;
/// What a batch takes.
const BATCH: Duration = Duration::from_micros(60);

/// Nanoseconds of a turn: of all batches the one that was disturbed least.
pub struct Row {
    pub name: &'static str,
    pub shape: Shape,
    pub fill: Option<Fill>,
    pub proved: f64,
    pub plain: f64,
}

impl Row {
    pub fn ratio(&self) -> f64 {
        self.proved / self.plain
    }

    pub fn per_cell(&self, nanoseconds: f64) -> f64 {
        nanoseconds / (self.shape.lists + self.shape.nodes) as f64
    }
}

/// A turn of both on copies of the store: the same answers, those that must be given, and the same bytes.
fn agree(case: &Case) {
    let (mut proved, mut plain) = (case.bytes.clone(), case.bytes.clone());
    let answers = [(case.turn)(&PROVED, &mut proved), (case.turn)(&PLAIN, &mut plain)];
    assert_eq!(answers, [case.answer; 2], "answers of {} on {:?}", case.name, case.shape);
    assert!(proved == plain, "the bytes that {} leaves of {:?}", case.name, case.shape);
}

fn batch(engine: &Engine, case: &Case, bytes: &mut [u8], turns: u32) -> Duration {
    let began = Instant::now();
    for _ in 0..turns {
        black_box((case.turn)(black_box(engine), black_box(&mut *bytes)));
    }
    began.elapsed()
}

/// How many turns of the case take as long as a batch.
fn turns(case: &Case, bytes: &mut [u8]) -> u32 {
    let mut turns = 1;
    while batch(&PLAIN, case, bytes, turns) < BATCH {
        turns *= 2;
    }
    turns
}

/// A round of batches, the proved and the plain in turns.
fn round(case: &Case, row: &mut Row) {
    let mut bytes = case.bytes.clone();
    let turns = turns(case, &mut bytes);
    let mut time = |engine| batch(engine, case, &mut bytes, turns).as_nanos() as f64 / f64::from(turns);
    for _ in 0..BATCHES {
        row.proved = row.proved.min(time(&PROVED));
        row.plain = row.plain.min(time(&PLAIN));
    }
}

pub fn measure(cases: &[Case]) -> Vec<Row> {
    let row = |case: &Case| {
        agree(case);
        let Case { name, shape, fill, .. } = *case;
        Row { name, shape, fill, proved: f64::INFINITY, plain: f64::INFINITY }
    };
    let mut rows: Vec<Row> = cases.iter().map(row).collect();
    for _ in 0..ROUNDS {
        cases.iter().zip(&mut rows).for_each(|(case, row)| round(case, row));
    }
    rows
}
