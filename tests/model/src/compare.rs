//! What the program printed, held against the lines that it must print.

use crate::script::{Line, ANSWERS};
use std::collections::{BTreeMap, BTreeSet};

/// At most so many differences are told.
const TOLD: usize = 20;

#[derive(Default)]
pub struct Report {
    pub passed: usize,
    pub failed: usize,
    /// The differences, and what was seen of each call.
    pub text: Vec<String>,
}

/// One test for each line, of which none may be missing or left over, and one for each answer that must occur.
pub fn compare(expected: &[Line], output: &str) -> Report {
    let mut report = Report::default();
    let mut seen: BTreeMap<&str, (usize, BTreeSet<u16>)> = BTreeMap::new();
    let actual: Vec<&str> = output.split_inclusive('\n').collect();
    for i in 0..expected.len().max(actual.len()) {
        let (wanted, found) = (expected.get(i), actual.get(i));
        if wanted.map(|w| w.text.clone() + "\n").as_deref() != found.copied() {
            report.fail(format!("line {}: expected {:?}, found {:?}", i + 1, wanted.map(|w| &w.text), found));
            continue;
        }
        report.passed += 1;
        if let Some((call, number)) = wanted.and_then(|w| w.answer) {
            let (lines, numbers) = seen.entry(call).or_default();
            *lines += 1;
            numbers.insert(number);
        }
    }
    let (courses, demanded) = expected.iter().fold((0, 0), |(a, b), line| (a + line.courses, b + line.demanded));
    report.text.push(format!("{courses} courses in all, {demanded} of them as demanded"));
    for (call, required) in ANSWERS {
        let (lines, numbers) = seen.remove(call).unwrap_or_default();
        report.text.push(format!("{call}: {lines} lines, answers {numbers:?}"));
        for number in required {
            if numbers.contains(number) {
                report.passed += 1;
            } else {
                report.fail(format!("{call}: no line with answer {number}"));
            }
        }
    }
    report
}

impl Report {
    fn fail(&mut self, text: String) {
        self.failed += 1;
        if self.failed <= TOLD {
            self.text.push(text);
        }
    }
}

#[cfg(test)]
mod tests {
    use super::*;
    use crate::script::lines_of;

    /// The lines of a script that gives six of the answers, and the output of a right program.
    fn sample() -> (Vec<Line>, String) {
        let words: [u16; 24] = [1, 24, 7, 4, 1, 3, 1, 5, 6, 0, 7, 0, 0, 8, 0, 0, 2, 1, 700, 65_535, 9, 0, 0, 2];
        let lines = lines_of(&words.iter().flat_map(|w| w.to_le_bytes()).collect::<Vec<u8>>());
        let output = lines.iter().map(|line| line.text.clone() + "\n").collect();
        (lines, output)
    }

    fn wrong_lines(lines: &[Line], output: &str) -> usize {
        lines.len() - compare(lines, output).passed.min(lines.len())
    }

    /// The answers that the sample does not give are all that fails: 267 of 273.
    #[test]
    fn right_output() {
        let (lines, output) = sample();
        let report = compare(&lines, &output);
        assert_eq!((report.passed, report.failed), (lines.len() + 6, 267));
        assert!(report.text.contains(&"check: 1 lines, answers {0}".to_string()));
        assert!(report.text.contains(&"insert done: 1 lines, answers {7}".to_string()));
    }

    /// Every single digit that is changed is noticed, in its own line alone.
    #[test]
    fn altered_digits() {
        let (lines, output) = sample();
        let right = compare(&lines, &output).failed;
        for (i, digit) in output.bytes().enumerate().filter(|(_, b)| b.is_ascii_digit()) {
            let mut altered = output.clone().into_bytes();
            altered[i] = if digit == b'9' { b'0' } else { digit + 1 };
            let report = compare(&lines, std::str::from_utf8(&altered).unwrap());
            assert!(report.failed > right, "byte {i}");
            assert!(report.text.iter().any(|t| t.starts_with("line ")));
        }
    }

    #[test]
    fn too_few_and_too_many_lines() {
        let (lines, output) = sample();
        let right = compare(&lines, &output).failed;
        let (cut, _) = output.split_at(output.len() - 4);
        assert_eq!(compare(&lines, cut).failed, right + 1);
        assert_eq!(compare(&lines, output.trim_end()).failed, right + 1);
        assert_eq!(compare(&lines, &(output.clone() + "end\n")).failed, right + 1);
        assert_eq!(compare(&lines, &(output.clone() + "\n")).failed, right + 1);
        assert_eq!(compare(&lines, &(output + "x")).failed, right + 1);
        assert_eq!(wrong_lines(&lines, ""), lines.len());
    }
}
