//! Calls as they were. Before records were wiped insert and delete asked for an ordered store, and delete made its first four stores alone:
//! recovery finds what they left. Before the count was set apart it was a word as any other: of all words that a sequence asks at most one
//! might differ, and one alone had to fit each list. What recovery accepted then it does as it did.

use crate::recovery::{differing, fitting, plan_by};
use crate::samples::carriers;
use crate::store::{act, delete_plan, insert_plan, open, Answer, Shape, WordStore};

/// The words with zero record words in all nodes of identifier 0: of an ordered store, the sound one of the same lists.
pub fn wiped(words: &[u16]) -> Vec<u16> {
    let mut left = words.to_vec();
    if let Ok(shape) = open(words) {
        carriers(words, 0).into_iter().for_each(|cell| left[shape.record(cell)].fill(0));
    }
    left
}

/// Insert. Its stores do not depend on the records of free nodes.
pub fn insert(words: &mut [u16], list: u16, position: u16, start: u16, record: &[u16], allowance: u16) -> Answer {
    let plan = insert_plan(&wiped(words), list, position, start, record).map(|(_, stores)| stores);
    act(words, plan, allowance)
}

/// Delete.
pub fn delete(words: &mut [u16], list: u16, position: u16, allowance: u16) -> Answer {
    let plan = delete_plan(&wiped(words), list, position).map(|(_, stores)| stores[..4].to_vec());
    act(words, plan, allowance)
}

/// The sequence that alone fitted the list, or the number of the refusal.
fn only(words: &[u16], shape: Shape, list: usize) -> Result<Vec<usize>, u16> {
    let fits = |sequence: &[usize]| differing(words, shape, list, sequence).len() <= 1;
    match &fitting(words, shape, list, fits)[..] {
        [] => Err(11),
        [only] => Ok(only.clone()),
        _ => Err(12),
    }
}

/// The stores of recover, the wipes of now among them, or the number of the refusal.
pub(crate) fn recover_plan(words: &[u16]) -> Result<Vec<WordStore>, u16> {
    plan_by(words, |shape, list| only(words, shape, list))
}

/// Recover.
pub fn recover(words: &mut [u16], allowance: u16) -> Answer {
    act(words, recover_plan(words), allowance)
}

#[cfg(test)]
mod tests {
    use super::*;
    use crate::alterations::alterable;
    use crate::random::Random;
    use crate::recovery;
    use crate::samples::{damaged, deal, every_store, remain, wear};
    use crate::store::{self, check, lists, ordered, store_of, Shape};

    /// The marked store: 700 is deleted, and its word remains. The next insert takes the cell, as it always did.
    #[test]
    fn marked_store() {
        let mut words = store_of(Shape::new(1, 3, 1), &[vec![2, 3]], || 0);
        (words[19], words[23]) = (700, 512);
        let c3 = words.clone();
        assert_eq!(delete(&mut words, 0, 0, 65_535), Answer::Done(4));
        assert_eq!((words[16], words[19], check(&words)), (0, 700, 6));
        assert_eq!(store::insert(&mut words.clone(), 0, 0, 2, &[700], 65_535), Answer::Refused(6));
        assert_eq!(store::delete(&mut words.clone(), 0, 0, 65_535), Answer::Refused(6));
        assert_eq!(insert(&mut words, 0, 0, 2, &[700], 65_535), Answer::Done(7));
        assert_eq!(words, c3);
    }

    /// On sound stores insert is what it is, and delete at most its first four stores. Elsewhere in an ordered store the remains stay.
    #[test]
    fn as_now() {
        let mut random = Random::new(12);
        for turn in 0..2_000 {
            let shape = Shape::new(random.between(1, 3), random.between(1, 8), random.between(1, 3));
            let used = random.between(0, shape.nodes);
            let dealt = deal(&mut random, shape, used);
            let sound = store_of(shape, &dealt, || random.word());
            let sound = wear(&mut random, sound, 0);
            let older = remain(&mut random, sound.clone());
            assert_eq!((lists(&older, shape).is_none(), wiped(&older)), (older != sound, sound.clone()));
            assert_eq!(ordered(&older, shape), Some(dealt.clone()));
            let list = random.below(shape.lists);
            let position = random.between(0, dealt[list].len()) as u16;
            let (start, allowance) = (shape.lists + random.below(shape.nodes), random.below(14) as u16);
            let record: Vec<u16> = (0..shape.width).map(|_| random.word()).collect();
            let (list, start) = (list as u16, start as u16);
            let former = |words: &mut [u16]| match turn % 2 {
                0 => insert(words, list, position, start, &record, allowance),
                _ => delete(words, list, position, allowance),
            };
            let mut now = sound.clone();
            match turn % 2 {
                0 => drop(store::insert(&mut now, list, position, start, &record, allowance)),
                _ => drop(store::delete(&mut now, list, position, allowance.min(4))),
            }
            let (mut left, mut left_older) = (sound.clone(), older.clone());
            assert_eq!((former(&mut left), &left), (former(&mut left_older), &now));
            let kept = |at: usize| left_older[at] == older[at] && left[at] == sound[at];
            assert!((0..left.len()).all(|at| left_older[at] == left[at] || kept(at)), "{older:?} became {left_older:?}");
        }
    }

    /// Where recover accepted a store its plan was the plan of now, and where it said 12 that is said still. How many it accepted, refused
    /// with 12, and refused where now there is a plan.
    fn as_before(words: &[u16], [accepted, several, refused]: &mut [usize; 3]) {
        let (then, now) = (recover_plan(words), recovery::recover_plan(words));
        match then {
            Ok(_) => *accepted += 1,
            Err(12) => *several += 1,
            Err(_) => *refused += usize::from(now.is_ok()),
        }
        assert!(then == now || !matches!(then, Ok(_) | Err(12)), "{then:?}, now {now:?} on {words:?}");
    }

    /// All small stores, damaged ones, and sound ones of any size with a fault in each list.
    #[test]
    fn recovered_as_before() {
        let (mut random, mut seen) = (Random::new(13), [[0; 3]; 3]);
        for (lists, nodes) in [(1, 1), (1, 2), (2, 1)] {
            every_store(Shape::new(lists, nodes, 1), |words| as_before(words, &mut seen[0]));
        }
        (0..60_000).for_each(|turn| as_before(&damaged(&mut random, turn), &mut seen[1]));
        for turn in 0..3_000 {
            let most = if turn % 10 == 0 { 200 } else { 20 };
            let shape = Shape::new(random.between(1, 8), random.between(1, most), random.between(1, 3));
            let used = random.between(0, shape.nodes);
            let dealt = deal(&mut random, shape, used);
            let sound = store_of(shape, &dealt, || random.word());
            let mut words = wear(&mut random, sound, 0);
            for places in alterable(&words).expect("a sound store") {
                words[random.pick(&places)] = random.below(shape.lists + shape.nodes) as u16;
            }
            as_before(&words, &mut seen[2]);
        }
        assert!(seen[..2].iter().flatten().all(|&n| n > 1) && seen[2] == [3_000, 0, 0], "{seen:?}");
    }
}
