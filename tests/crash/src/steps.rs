//! A child is stopped after each instruction of a call; and, with no child, all states that a kill may leave.

use crate::counts::Counts;
use crate::log::Log;
use crate::plain::Plain;
use crate::process::Child;
use crate::states::{states, State};
use crate::{in_file, pool, random_call, recovered};
use interface::memory::Mapped;
use interface::stores::record;
use interface::{bytes_of, words_of, Call, ENOUGH};
use model::random::Random;
use model::samples::carriers;
use model::store::Shape;

/// The shapes of the stores whose calls are stepped, and the calls on each. The last is a mark.
const STEPPED: [(usize, usize, usize, usize); 4] = [(1, 4, 13, 21), (2, 3, 1, 21), (3, 40, 3, 9), (1, 400, 1, 4)];

/// Of the states that a stepped call goes through, the recovery of one in so many is stepped too.
const STRIDE: usize = 5;

/// How many words differ.
fn words_apart(a: &[u8], b: &[u8]) -> usize {
    a.chunks(2).zip(b.chunks(2)).filter(|(a, b)| a != b).count()
}

/// Stops a child after each instruction of the call. The store goes through states that a kill may leave, in their order, and
/// ends with every store made; no instruction stores more than one word. Gives those that were met, or nothing if the system does
/// not let a child be stepped.
fn stepped(
    counts: &mut Counts,
    store: &mut Mapped,
    log: &mut Log,
    before: &[u16],
    call: &Call,
) -> Option<(usize, Vec<State>)> {
    let possible = states(before, call);
    store.bytes().copy_from_slice(&bytes_of(before));
    log.clear();
    let child = Child::stepping(|| log.noted(0, || call.make(store.bytes(), call.records(), ENOUGH)))?;
    let (mut at, mut met, mut steps, mut most) = (0, vec![possible[0].clone()], 0, 0);
    while !log.first().1 && child.step() {
        steps += usize::from(log.first().0);
        if store.bytes() != &possible[at].bytes[..] {
            match possible[at..].iter().position(|state| store.bytes() == &state.bytes[..]) {
                Some(further) => {
                    most = most.max(words_apart(&possible[at].bytes, &possible[at + further].bytes));
                    at += further;
                }
                None => break,
            }
            met.push(possible[at].clone());
        }
    }
    let ended = log.first().1 && at + 1 == possible.len();
    child.kill();
    counts.holds(ended, || format!("after {steps} instructions no state that a kill may leave: {call:?}"));
    counts.holds(most <= 1, || format!("an instruction stored {most} words: {call:?}"));
    Some((steps, met))
}

/// Steps a call, and recovers each state that was met, as if the child had been killed there. Some of those recoveries are stepped
/// too: cut anywhere, the next one ends with the same words.
fn step_call(
    counts: &mut Counts,
    store: &mut Mapped,
    log: &mut Log,
    plain: &Plain,
    call: &Call,
    turn: usize,
) -> Option<usize> {
    let (mut steps, met) = stepped(counts, store, log, &plain.words, call)?;
    let whole = met.last().expect("a state").made;
    for (i, state) in met.iter().enumerate() {
        counts.note(state, call, plain, whole);
        let (mut bytes, mut after) = (state.bytes.clone(), plain.clone());
        recovered(counts, &mut bytes, &mut after, call, state);
        if i % STRIDE == turn % STRIDE && !state.lost(call, plain) {
            let (more, cuts) = stepped(counts, store, log, &words_of(&state.bytes), &Call::Recover)?;
            steps += more;
            for cut in &cuts {
                recovered_again(counts, cut, &bytes);
            }
        }
    }
    Some(steps)
}

/// Recovery of what a cut recovery left. With no word torn it ends as one that was not cut.
fn recovered_again(counts: &mut Counts, cut: &State, last: &[u8]) {
    let (expected, left) = Call::Recover.expected(&cut.bytes, ENOUGH);
    let mut bytes = cut.bytes.clone();
    let answer = Call::Recover.make(&mut bytes, &[], ENOUGH);
    let due = cut.torn.is_some() || bytes == last;
    counts.holds(answer == expected && bytes == left && due, || format!("recovery cut, then {answer}: {cut:?}"));
}

/// A random call on what the store holds.
fn next_call(random: &mut Random, plain: &Plain) -> Call {
    let pool = pool(random);
    random_call(random, plain.shape, plain.usable(), &plain.lengths(), &pool)
}

/// A mark of a free node. If there is none, of the first node.
fn next_mark(random: &mut Random, plain: &Plain) -> Call {
    let free = carriers(&plain.words, 0);
    let cell = if free.is_empty() { plain.shape.lists } else { random.pick(&free) };
    Call::MarkWorn { cell: cell as u16 }
}

/// Inserts records at random until there are so many.
fn fill(plain: &mut Plain, random: &mut Random, records: usize) {
    for _ in plain.lengths().iter().sum()..records {
        let (list, start) = (random.below(plain.shape.lists), plain.shape.lists + random.below(plain.shape.nodes));
        let record = record(random, plain.shape.width);
        plain.make(&Call::Insert { list: list as u16, position: 0, start: start as u16, record });
    }
}

pub fn steps(counts: &mut Counts, random: &mut Random) {
    let mut log = Log::new();
    for (lists, nodes, width, calls) in STEPPED {
        let shape = Shape::new(lists, nodes, width);
        let mut plain = Plain::empty(shape);
        let mut store = in_file(&plain);
        let (mut here, mut instructions) = (Counts::default(), 0);
        let records = plain.usable() * 7 / 8;
        fill(&mut plain, random, records);
        for turn in 0..calls {
            let call = if turn + 1 == calls { next_mark(random, &plain) } else { next_call(random, &plain) };
            match step_call(&mut here, &mut store, &mut log, &plain, &call, turn) {
                Some(steps) => instructions += steps,
                None => return println!("calls are not stepped: the system does not allow it"),
            }
            plain.make(&call);
        }
        println!("L = {lists}, N = {nodes}, P = {width}: {instructions} instructions of {calls} calls; {here}");
        counts.add(&here);
    }
}

/// With no process: every state that a kill may leave, of calls on stores where links and counts are torn too. Some torn central words are
/// recovered there, and some refused.
pub fn enumerated(counts: &mut Counts, random: &mut Random) {
    for (lists, nodes, width, records, calls) in [(1, 300, 1, 256, 60), (2, 600, 2, 512, 60), (3, 20, 13, 10, 60)] {
        let mut plain = Plain::empty(Shape::new(lists, nodes, width));
        let mut here = Counts::default();
        fill(&mut plain, random, records);
        for turn in 0..calls {
            let call = if turn % 20 == 19 { next_mark(random, &plain) } else { next_call(random, &plain) };
            let possible = states(&plain.words, &call);
            let whole = possible.last().expect("a state").made;
            for state in &possible {
                here.note(state, &call, &plain, whole);
                recovered(&mut here, &mut state.bytes.clone(), &mut plain.clone(), &call, state);
            }
            plain.make(&call);
        }
        let both = here.central > 0 && here.lost > 0;
        counts.holds(both == (nodes > 255), || format!("torn central words, and refused ones: {here}"));
        println!("L = {lists}, N = {nodes}, P = {width}: all states of {calls} calls; {here}");
        counts.add(&here);
    }
}
