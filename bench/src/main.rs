//! Measures the proved library against the plain implementation. Writes docs/BENCHMARKS.md and docs/benchmarks.svg.
//!
//! `bench walk CALL POSITION` makes one call and writes nothing: so the program runs itself under valgrind.

mod cases;
mod engines;
mod machine;
mod measure;
mod plot;
mod report;
mod stack;
mod stores;
mod walks;

use cases::{Case, NAMES, TOLD};
use engines::{PLAIN, PROVED};
use report::Results;
use std::path::Path;
use std::{env, fs, io};
use stores::{shapes, Fill, Sample};

fn main() -> io::Result<()> {
    match env::args().skip(1).collect::<Vec<_>>().as_slice() {
        [] => report(),
        [walk, call, position] if walk == "walk" => {
            walks::once(call, position);
            Ok(())
        }
        _ => Err(io::Error::other("usage: bench")),
    }
}

fn report() -> io::Result<()> {
    let samples = shapes().map(|shape| [Fill::Full, Fill::Half].map(|fill| Sample::new(shape, fill)));
    let [.., [largest, _]] = &samples;
    let mut cases: Vec<Case> = samples.iter().flatten().flat_map(cases::cases).collect();
    let names = || NAMES.into_iter().chain(TOLD.map(|(told, _)| told));
    cases.sort_by_key(|case| names().position(|name| name == case.name));
    let stack = stack::of_calls(&PROVED, largest).into_iter().zip(stack::of_calls(&PLAIN, largest));
    let (rows, told) = measure::measure(&cases).into_iter().partition(|row| NAMES.contains(&row.name));
    let results = Results {
        machine: machine::description(),
        stack: stack.map(|((name, proved), (_, plain))| (name, proved, plain)).collect(),
        size: machine::size_of_library(),
        rows,
        told,
        walks: walks::walks(),
    };
    print!("{}\n{}\n\n{}\n{}\n\n", results.table(), results.verdict(), results.told(), results.beside());
    print!("{}\n{}\n", results.walks(), results.ends());
    let docs = Path::new(env!("CARGO_MANIFEST_DIR")).join("../docs");
    fs::write(docs.join("BENCHMARKS.md"), results.document())?;
    fs::write(docs.join("benchmarks.svg"), plot::plot(&results.rows))
}
