//! A child inserts and deletes, and is killed at a random moment.

use crate::counts::Counts;
use crate::log::{Log, CALLS};
use crate::plain::Plain;
use crate::process::{kill_me_in, Child};
use crate::states::states;
use crate::{in_file, pool, random_call, recovered, same_lists};
use interface::memory::Mapped;
use interface::{bytes_of, words_of, Call, ENOUGH};
use model::random::Random;
use model::store::Shape;
use std::time::Duration;

/// The shapes of the stores, the kills on each, and the longest time before a kill in microseconds. Wide records in few cells make
/// kills between stores likely; more than 255 cells let links be torn.
const KILLS: [(usize, usize, usize, usize, usize); 5] =
    [(1, 4, 13, 1000, 300), (2, 3, 1, 300, 200), (3, 40, 13, 300, 300), (8, 300, 2, 200, 500), (8, 2000, 13, 60, 1000)];

/// The child: announces many calls, makes them one after the other, and is killed at a random moment. `plain` is what the store holds.
fn work(store: &mut [u8], log: &mut Log, plain: &Plain, mut random: Random, longest: usize) {
    let pool = pool(&mut random);
    let (shape, usable, mut lengths) = (plain.shape, plain.usable(), plain.lengths());
    let mut calls = vec![];
    for i in 0..CALLS {
        let call = random_call(&mut random, shape, usable, &lengths, &pool);
        log.announce(i, &call);
        let (all, number) = (lengths.iter().sum::<usize>(), call.records().len() / 2 / shape.width);
        match call {
            Call::Insert { list, position, .. } | Call::InsertSeveral { list, position, .. } => {
                let length = &mut lengths[usize::from(list)];
                if usize::from(position) <= *length && all + number <= usable {
                    *length += number;
                }
            }
            Call::Delete { list, position } => {
                let length = &mut lengths[usize::from(list)];
                *length -= usize::from(usize::from(position) < *length);
            }
            _ => (),
        }
        calls.push(call);
    }
    kill_me_in(random.below(1000 * longest));
    for (i, call) in calls.iter().enumerate() {
        log.noted(i, || call.make(store, call.records(), ENOUGH));
    }
    loop {
        std::thread::sleep(Duration::from_secs(1));
    }
}

/// One child, killed. `plain` is what the store holds before and after.
fn killed(counts: &mut Counts, store: &mut Mapped, log: &mut Log, plain: &mut Plain, random: &mut Random, longest: usize) {
    log.clear();
    let child = {
        let random = Random::new(random.bits());
        Child::doing(|| work(store.bytes(), log, plain, random, longest))
    };
    counts.holds(child.killed(), || "a child was not killed".into());
    let mut calls = log.calls();
    let interrupted = if matches!(calls.last(), Some((_, None))) { calls.pop() } else { None };
    counts.calls += calls.len();
    let wrong = calls.iter().find(|(call, answer)| *answer != Some(plain.make(call)));
    counts.holds(wrong.is_none(), || format!("an answer in the log: {wrong:?}"));
    let store = store.bytes();
    let due = match interrupted {
        None => {
            counts.between_calls += 1;
            let due = words_of(store) == plain.words && same_lists(store, plain);
            counts.holds(due, || "the store between calls".into());
            due
        }
        Some((call, _)) => {
            let possible = states(&plain.words, &call);
            let found = possible.iter().find(|state| state.bytes == store);
            counts.holds(found.is_some(), || format!("no state that a kill may leave: {call:?}"));
            found.map_or(false, |state| {
                counts.note(state, &call, plain, possible[possible.len() - 1].made);
                recovered(counts, store, plain, &call, state)
            })
        }
    };
    if !due {
        *plain = Plain::empty(plain.shape);
        store.copy_from_slice(&bytes_of(&plain.words));
    }
}

pub fn kills(counts: &mut Counts, random: &mut Random) {
    let mut log = Log::new();
    for (lists, nodes, width, times, longest) in KILLS {
        let mut plain = Plain::empty(Shape::new(lists, nodes, width));
        let mut store = in_file(&plain);
        let mut here = Counts::default();
        for _ in 0..times {
            killed(&mut here, &mut store, &mut log, &mut plain, random, longest);
        }
        println!("L = {lists}, N = {nodes}, P = {width}: {times} kills in {} calls; {here}", here.calls);
        counts.add(&here);
    }
}
