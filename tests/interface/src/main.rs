//! The archive held against the model: each call through C on many stores, at every allowance. A check is one call: its answer,
//! every byte of the store, the bytes round it, the record and the bytes round that. In `alterations` it is mostly check's answer
//! alone. In `positions` it may be an answer alone, or read's on words. In `counts`, `worn`, `wiped` and `foretold` it may be that what is
//! said there holds of the stores or of the nodes. What is told beforehand of an insert and of a recovery, on each store that a call is made
//! on, and of what a recovery leaves, is a check too.
//! The last line is 'N passed, M failed'.

mod alterations;
mod calls;
mod checks;
mod counts;
mod courses;
mod foretold;
mod positions;
mod wiped;
mod worn;

use checks::Tests;
use interface::{DONE, STOPPED};
use std::time::Instant;

/// The answers that each call can give: refusals, then whether it can be done, and stopped.
const ANSWERS: [(&str, &[u32], bool, bool); 12] = [
    ("format", &[0, 3, 4], false, false),
    ("check", &[0, 1, 2, 3, 4, 6], false, false),
    ("length", &[1, 2, 3, 4, 5, 6], true, false),
    ("insert", &[1, 2, 3, 4, 5, 6, 7, 8, 9, 10], true, true),
    ("insert_several", &[1, 2, 3, 4, 5, 6, 7, 8, 9, 10], true, true),
    ("delete", &[1, 2, 3, 4, 5, 6, 7], true, true),
    ("recover", &[1, 2, 3, 4, 11, 12], true, true),
    ("mark_worn", &[1, 2, 3, 4, 6, 8, 13], true, false),
    ("insert_several_first_cell", &[1, 2, 3, 4, 5, 6, 7, 8, 9, 10], true, false),
    ("insert_several_last_cell", &[1, 2, 3, 4, 5, 6, 7, 8, 9, 10], true, false),
    ("insert_several_stores", &[1, 2, 3, 4, 5, 6, 7, 8, 9, 10], true, false),
    ("recover_stores", &[1, 2, 3, 4, 11, 12], true, false),
];

/// Every answer that a call can give was given, and no other.
fn answers(t: &mut Tests) {
    for (call, refusals, done, stopped) in ANSWERS {
        let seen = t.seen.remove(call).unwrap_or_default();
        let numbers = |range: std::ops::Range<u32>| seen.range(range).map(|n| n % DONE).collect::<Vec<u32>>();
        let found = [numbers(0..DONE), numbers(DONE..STOPPED), numbers(STOPPED..u32::MAX)];
        let most = |numbers: &[u32]| numbers.last().map_or(String::from("never"), |n| format!("up to {n}"));
        println!("{call}: answers {:?}, done {}, stopped {}", found[0], most(&found[1]), most(&found[2]));
        for number in 0..=13 {
            t.holds(refusals.contains(&number) == found[0].contains(&number), || format!("{call}: answer {number}"));
        }
        t.holds(found[0].iter().all(|&n| n <= 13), || format!("{call}: answers {:?}", found[0]));
        t.holds(found[1].is_empty() != done && found[2].is_empty() != stopped, || format!("{call}: done or stopped"));
        if call == "insert" {
            t.holds(found[1] == (7..=19).collect::<Vec<_>>() && found[2] == (0..=18).collect::<Vec<_>>(), || call.into());
        }
        if call == "delete" {
            t.holds(found[1] == (5..=17).collect::<Vec<_>>() && found[2] == (0..=16).collect::<Vec<_>>(), || call.into());
        }
        if call == "mark_worn" {
            t.holds(found[1] == [1], || call.into());
        }
    }
}

type Part = (&'static str, fn(&mut Tests));

fn main() {
    let mut t = Tests::new(1201);
    let parts: [Part; 56] = [
        ("lengths", calls::lengths),
        ("heads", calls::heads),
        ("formats", calls::formats),
        ("smallest stores", calls::smallest_stores),
        ("sound stores", calls::sound_stores),
        ("records", calls::records),
        ("several records", calls::several_records),
        ("damaged stores", calls::damaged_stores),
        ("two sequences", calls::two_sequences),
        ("garbage", calls::garbage),
        ("many stores", calls::many_stores),
        ("every course of two lists over two nodes", courses::every_course),
        ("small courses", courses::small_courses),
        ("large courses", courses::large_courses),
        ("largest", calls::largest),
        ("two sequences and each count", counts::every_count),
        ("two sequences of long lists", counts::long_lists),
        ("lengths that differ in the high byte", counts::high_bytes),
        ("first list with a reason", counts::first_list),
        ("count and identifier put back", counts::back_whole),
        ("count and link", counts::count_and_link),
        ("recovered as before", counts::as_before),
        ("one, two and three altered words", alterations::up_to_three),
        ("one altered word put back", alterations::put_back),
        ("altered words of larger stores", alterations::larger_stores),
        ("four altered words", alterations::four_words),
        ("free words", alterations::free_words),
        ("positions", positions::small_stores),
        ("positions of the longest lists", positions::longest),
        ("positions read", positions::small_reads),
        ("positions read of the longest lists", positions::longest_reads),
        ("marks in small stores", worn::small_stores),
        ("marks in larger stores", worn::larger_stores),
        ("refusals of marks", worn::refusals),
        ("all nodes worn", worn::worn_out),
        ("worn nodes passed over", worn::passed_over),
        ("worn nodes recovered", worn::recoveries),
        ("runs with worn nodes", worn::runs),
        ("older small stores", wiped::small_stores),
        ("older stores refused, then recovered", wiped::refused_until_recovered),
        ("single words of records", wiped::single_words),
        ("deleted records searched for", wiped::nothing_remains),
        ("records that are kept", wiped::kept),
        ("courses of older small stores", wiped::every_course),
        ("courses of older stores", wiped::courses),
        ("most wipes", wiped::most_stores),
        ("runs from older stores", wiped::runs),
        ("cells and stores told of small stores", foretold::small_stores),
        ("told of scattered nodes", foretold::scattered),
        ("told of the largest stores", foretold::largest),
        ("refusals told of inserts", foretold::refusals),
        ("refusals told of recoveries", foretold::refused_recoveries),
        ("told of sound stores", foretold::sound_stores),
        ("told of most stores, and after cuts", foretold::most_stores),
        ("told store by store", foretold::one_by_one),
        ("answers", answers),
    ];
    for (name, part) in parts {
        let (before, began) = (t.passed + t.failed, Instant::now());
        part(&mut t);
        println!("{name}: {} checks, {:.1} s", t.passed + t.failed - before, began.elapsed().as_secs_f64());
    }
    println!("{} courses", t.courses);
    println!("{} passed, {} failed", t.passed, t.failed);
    std::process::exit(i32::from(t.failed > 0));
}
