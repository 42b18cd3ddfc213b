//! listings PROGRAM: runs the listing program on stores in byte form and on what is none, and compares what it prints.

use model::listing::{listing, MOST_BYTES};
use model::random::Random;
use model::samples::{carriers, deal, remain, wear, with_worn};
use model::store::{delete, insert, store_of, Shape, IDENTIFIER};
use std::io::Write;
use std::process::{Command, ExitCode, Stdio};

fn bytes(words: &[u16]) -> Vec<u8> {
    words.iter().flat_map(|w| w.to_le_bytes()).collect()
}

fn run(program: &str, input: &[u8]) -> String {
    let mut child =
        Command::new(program).stdin(Stdio::piped()).stdout(Stdio::piped()).spawn().expect("the program can be run");
    let mut stdin = child.stdin.take().expect("a pipe");
    let input = input.to_vec();
    // it may stop reading before the end
    let writer = std::thread::spawn(move || drop(stdin.write_all(&input)));
    let output = child.wait_with_output().expect("the program ends");
    writer.join().expect("all is written");
    if !output.status.success() {
        return format!("ended with {}", output.status);
    }
    String::from_utf8_lossy(&output.stdout).into_owned()
}

/// The inputs, each with a name.
fn inputs() -> Vec<(String, Vec<u8>)> {
    let mut random = Random::new(11);
    let mut inputs = vec![];
    let mut add = |name: &str, input: Vec<u8>| inputs.push((name.to_string(), input));
    add("nothing", vec![]);
    for size in [1, 2, 15, 16, 17, 48] {
        add(&format!("{size} bytes of 0"), vec![0; size]);
    }
    let marked = Shape::new(1, 3, 1);
    let c1 = store_of(marked, &[vec![]], || 0);
    add("an empty store", bytes(&c1));
    let mut c3 = c1.clone();
    insert(&mut c3, 0, 0, 2, &[700], 65_535);
    insert(&mut c3, 0, 1, 2, &[512], 65_535);
    add("C3", bytes(&c3));
    add("C3, a byte too many", [bytes(&c3), vec![0]].concat());
    add("C3, a byte too few", bytes(&c3)[..47].to_vec());
    add("C3, a word too many", [bytes(&c3), vec![0, 0]].concat());
    for at in 0..c3.len() {
        for value in [0, 1, 9, 0x100, IDENTIFIER, 65_535] {
            let mut words = c3.clone();
            words[at] = value;
            add(&format!("C3, word {at} is {value}"), bytes(&words));
        }
    }
    for allowance in 0..6 {
        let mut words = c3.clone();
        delete(&mut words, 0, 0, allowance);
        add(&format!("C3, a delete cut after {allowance}"), bytes(&words));
    }
    for turn in 0..60 {
        let shape = Shape::new(random.between(1, 8), random.between(1, 30), random.between(1, 13));
        let used = random.between(0, shape.nodes);
        let dealt = deal(&mut random, shape, used);
        let words = store_of(shape, &dealt, || random.pick(&[0, 9, 10, 99, 100, 999, 1000, 9999, 10_000, 65_535, 42_400]));
        let words = wear(&mut random, words, turn % 2);
        add(&format!("random store {turn}"), bytes(&words));
        add(&format!("random store {turn}, an older one"), bytes(&remain(&mut random, words.clone())));
        add(&format!("random store {turn}, none free"), bytes(&with_worn(words.clone(), &carriers(&words, 0))));
    }
    let largest = Shape::new(8, 2000, 13);
    for (name, word, used) in [
        ("the largest store", 65_535, 2000),
        ("the largest store of zeros", 0, 2000),
        ("the largest store beside worn nodes", 65_535, 1900),
    ] {
        let dealt = deal(&mut random, largest, used);
        let words = wear(&mut random, store_of(largest, &dealt, || word), 1);
        assert_eq!(words.len() * 2, MOST_BYTES);
        add(name, bytes(&words));
        add(&format!("{name} and a byte"), [bytes(&words), vec![0]].concat());
        add(&format!("{name} and two"), [bytes(&words), vec![0; 2]].concat());
    }
    add("200,000 bytes", vec![82; 200_000]);
    inputs
}

fn main() -> ExitCode {
    let program = std::env::args().nth(1).expect("usage: listings PROGRAM");
    let (mut passed, mut failed) = (0, 0);
    let mut seen = std::collections::BTreeMap::new();
    for (name, input) in inputs() {
        let (expected, found) = (listing(&input), run(&program, &input));
        *seen.entry(expected.lines().last().unwrap_or("").to_string()).or_insert(0) += 1;
        if expected == found {
            passed += 1;
        } else {
            failed += 1;
            println!(
                "{name}: expected {:?}, found {:?}",
                &expected[..expected.len().min(80)],
                &found[..found.len().min(80)]
            );
        }
    }
    for last in ["refused 1", "refused 2", "refused 3", "refused 4", "refused 6", "sound"] {
        if seen.contains_key(last) {
            passed += 1;
        } else {
            failed += 1;
            println!("no listing ends in {last}");
        }
    }
    println!("{seen:?}");
    println!("{passed} passed, {failed} failed");
    if failed == 0 {
        ExitCode::SUCCESS
    } else {
        ExitCode::FAILURE
    }
}
