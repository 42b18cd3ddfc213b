//! verify SCRIPT OUTPUT: recomputes each line that the program printed when it ran the script.

use model::{compare::compare, script::lines_of};
use std::{env, fs, process::ExitCode};

fn main() -> ExitCode {
    let arguments: Vec<String> = env::args().skip(1).collect();
    if arguments.len() != 2 {
        eprintln!("usage: verify SCRIPT OUTPUT");
        return ExitCode::from(2);
    }
    let script = fs::read(&arguments[0]).expect("the script can be read");
    let output = fs::read(&arguments[1]).expect("the output can be read");
    let report = compare(&lines_of(&script), &String::from_utf8_lossy(&output));
    for line in &report.text {
        println!("{line}");
    }
    println!("{} passed, {} failed", report.passed, report.failed);
    if report.failed == 0 {
        ExitCode::SUCCESS
    } else {
        ExitCode::FAILURE
    }
}
