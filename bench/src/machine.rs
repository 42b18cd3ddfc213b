//! What the measurements were made on and with.

use std::process::Command;
use std::{fs, thread};

/// A line that a command prints.
fn line(program: &str, arguments: &[&str]) -> String {
    let output = Command::new(program).args(arguments).output();
    output.map_or("unknown".into(), |o| String::from_utf8_lossy(&o.stdout).trim().to_string())
}

fn processor() -> String {
    let text = fs::read_to_string("/proc/cpuinfo").unwrap_or_default();
    let model = text.lines().find(|line| line.starts_with("model name")).and_then(|line| line.split(':').nth(1));
    model.unwrap_or("unknown").trim().to_string()
}

/// Names and values.
pub fn description() -> Vec<(&'static str, String)> {
    vec![
        ("Processor", processor()),
        ("Cores", thread::available_parallelism().map_or("unknown".into(), |n| n.to_string())),
        ("Kernel", line("uname", &["-srm"])),
        ("Compiler of the plain implementation", env!("RUSTC_VERSION").to_string()),
        ("Date", line("date", &["-u", "+%Y-%m-%d"])),
    ]
}

/// Bytes of the archive's members.
pub struct Size {
    pub code: usize,
    pub constants: usize,
}

/// The sizes of the sections of all members, as the program `size` tells them.
pub fn size_of_library() -> Size {
    let text = line("size", &["-A", env!("AXLE_ARCHIVE")]);
    let sum = |prefix: &str| {
        let sections = text.lines().filter(|line| line.starts_with(prefix));
        sections.filter_map(|line| line.split_whitespace().nth(1)?.parse::<usize>().ok()).sum()
    };
    Size { code: sum(".text"), constants: sum(".rodata") }
}
