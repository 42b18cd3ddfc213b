//! All courses of one call on a small store: every cut of the call, every word of the cells altered to each of some values, every
//! cut of a first and of a second recovery, then a whole one.

use crate::alterations::{alterable, pairs};
use crate::recovery::{due_of_delete, due_of_insert, recover_plan, Course};
use crate::store::{delete, insert, make, Answer, WordStore};
use std::collections::HashMap;

/// Larger stores are not tried.
pub const MOST_WORDS: usize = 64;

/// Every insert of a record of one word, and every delete, is done after so many stores.
const MOST_STORES: u16 = 7;

const ENOUGH: u16 = 65_535;

/// A number that depends on all that was mixed into it, and on the order.
#[derive(Clone, Copy, Debug, Default, PartialEq, Eq)]
pub struct Digest(pub u64);

impl Digest {
    fn mix(&mut self, word: u16) {
        self.0 = (self.0 * 65_599 + u64::from(word)) % 4_294_967_291;
    }

    pub fn mix_all(&mut self, words: &[u16]) {
        words.iter().for_each(|&word| self.mix(word));
    }

    /// What is told of a recovery: the number of its refusal, and that of its stores.
    fn mix_needed(&mut self, plan: &Result<Vec<WordStore>, u16>) {
        self.mix_all(&match plan {
            Ok(stores) => [0, stores.len() as u16],
            Err(number) => [*number, 0],
        });
    }

    fn mix_answer(&mut self, answer: Answer) {
        self.mix_all(&match answer {
            Answer::Done(n) => [1, n],
            Answer::Stopped(n) => [2, n],
            Answer::Refused(n) => [3, n],
        });
    }
}

/// A delete if the starting cell is 0, else an insert of a record of one word.
#[derive(Clone, Copy, Debug, PartialEq, Eq)]
pub struct Call {
    pub list: u16,
    pub position: u16,
    pub start: u16,
    pub record: u16,
}

impl Call {
    fn run(self, words: &mut [u16], allowance: u16) -> Answer {
        match self.start {
            0 => delete(words, self.list, self.position, allowance),
            start => insert(words, self.list, self.position, start, &[self.record], allowance),
        }
    }

    /// The stores that count as made if it is cut after so many.
    fn due(self, allowance: u16) -> u16 {
        match self.start {
            0 => due_of_delete(1, allowance),
            _ => due_of_insert(1, allowance),
        }
    }
}

/// A call, a word that is altered in each course, and the values that every other word is altered to.
#[derive(Clone, Debug, PartialEq, Eq)]
pub struct Courses {
    pub call: Call,
    pub other: (u16, u16),
    pub values: Vec<u16>,
}

/// What a run tells: the digest of all answers, of what is told before recoveries and of final words, the number of courses, and how many of them must end as a course
/// of calls does.
#[derive(Default)]
pub struct Told {
    pub digest: Digest,
    pub courses: usize,
    pub demanded: usize,
}

/// The plans of recovery that were found so far.
type Plans = HashMap<Vec<u16>, Result<Vec<WordStore>, u16>>;

fn plan<'a>(plans: &'a mut Plans, words: &[u16]) -> &'a Result<Vec<WordStore>, u16> {
    plans.entry(words.to_vec()).or_insert_with_key(|words| recover_plan(words))
}

/// A recovery, and what is told of it beforehand.
fn recover(digest: &mut Digest, plans: &mut Plans, words: &mut Vec<u16>, allowance: u16) -> Answer {
    let plan = plan(plans, words);
    digest.mix_needed(plan);
    match plan {
        Err(number) => Answer::Refused(*number),
        Ok(stores) => {
            let (answer, left) = make(words, stores, allowance);
            *words = left;
            answer
        }
    }
}

/// The words of each list that may be altered: one, or a pair.
struct Lists {
    words: Vec<Vec<usize>>,
    pairs: Vec<Vec<[usize; 2]>>,
}

impl Lists {
    /// Those of an ordered store.
    fn of(words: &[u16]) -> Option<Lists> {
        Some(Lists { words: alterable(words)?, pairs: pairs(words)? })
    }

    /// May these different words be altered in a course whose call names the list?
    fn may_be_altered(&self, named: usize, altered: &[usize]) -> bool {
        let inside = |list: usize| altered.iter().filter(|at| self.words[list].contains(at)).collect::<Vec<_>>();
        let paired =
            |list: usize, here: &[&usize]| self.pairs[list].iter().any(|pair| here.iter().all(|at| pair.contains(at)));
        let may = |list: usize| match inside(list)[..] {
            [] => true,
            [_] => list != named,
            ref here => list != named && paired(list, here),
        };
        (0..self.words.len()).all(may) && altered.iter().all(|at| self.words.concat().contains(at))
    }
}

impl Courses {
    /// The course from the words found, if the alterations are those that a course may have: in each list but the one that it names one
    /// word, or the count and one identifier.
    fn course(&self, sound: &[u16], lists: &Lists, cut: &[u16], found: &[u16], allowance: u16) -> Option<Course> {
        let altered: Vec<usize> = (0..cut.len()).filter(|&i| cut[i] != found[i]).collect();
        let named = usize::from(self.call.list);
        if !lists.may_be_altered(named, &altered) {
            return None;
        }
        let mut new = sound.to_vec();
        self.call.run(&mut new, self.call.due(allowance));
        Some(Course::new(sound, self.call.list, &new, found))
    }

    /// All courses on the words, which stay as they are.
    pub fn run(&self, words: &[u16]) -> Told {
        let mut told = Told::default();
        let mut plans = Plans::new();
        let lists = Lists::of(words);
        for allowance in 0..=MOST_STORES {
            let mut cut = words.to_vec();
            let answer = self.call.run(&mut cut, allowance);
            for at in 8..words.len() {
                for &value in &self.values {
                    let mut found = cut.clone();
                    if let Some(word) = found.get_mut(usize::from(self.other.0)) {
                        *word = self.other.1;
                    }
                    found[at] = value;
                    told.digest.mix_answer(answer);
                    let course = lists.as_ref().and_then(|lists| self.course(words, lists, &cut, &found, allowance));
                    recoveries(&mut told, &mut plans, &found, course);
                }
            }
        }
        told
    }
}

/// Every cut of a first and of a second recovery, and a whole one.
fn recoveries(told: &mut Told, plans: &mut Plans, found: &[u16], course: Option<Course>) {
    let whole = plan(plans, found).as_ref().map_or(0, |stores| stores.len() as u16);
    for first in 0..=whole {
        for second in 0..=whole - first {
            let mut words = found.to_vec();
            let mut course = course.clone();
            for allowance in [first, second, ENOUGH] {
                let answer = recover(&mut told.digest, plans, &mut words, allowance);
                told.digest.mix_answer(answer);
                if let Some(course) = &mut course {
                    course.recovered(answer, allowance);
                }
            }
            told.digest.mix_all(&words);
            told.courses += 1;
            if let Some(course) = course {
                course.ended(&words);
                told.demanded += 1;
            }
        }
    }
}

#[cfg(test)]
mod tests {
    use super::*;
    use crate::samples::with_worn;
    use crate::store::{store_of, Shape};

    /// Of a list of one node the delete is cut in five ways; the other list is empty. In all courses with an alteration in the other
    /// list alone none is refused.
    #[test]
    fn counted() {
        let shape = Shape::new(2, 1, 1);
        let words = store_of(shape, &[vec![2], vec![]], || 0);
        let call = Call { list: 0, position: 0, start: 0, record: 0 };
        let none = Courses { call, other: (65_535, 0), values: vec![] }.run(&words);
        assert_eq!((none.digest, none.courses), (Digest(0), 0));
        let told = Courses { call, other: (65_535, 0), values: vec![9] }.run(&words);
        assert!(told.demanded >= 4 * 8 && told.demanded < told.courses, "{} of {}", told.demanded, told.courses);
        let same = Courses { call, other: (7, 0), values: vec![9] }.run(&words);
        assert_eq!((same.digest, same.courses), (told.digest, told.courses));
        let other = Courses { call, other: (14, 77), values: vec![9] }.run(&words);
        assert_ne!(other.digest, told.digest);
    }

    /// Two lists of one member each, in nodes 2 and 4. One word of a list that is not named may be altered, or its count and an identifier.
    #[test]
    fn alterations() {
        let shape = Shape::new(2, 3, 1);
        let lists = Lists::of(&store_of(shape, &[vec![2], vec![4]], || 7)).expect("a sound store");
        for (named, altered) in [
            (0, &[][..]),
            (0, &[12]),
            (0, &[14]),
            (0, &[25]),
            (0, &[12, 15]),
            (0, &[15, 24]),
            (1, &[8, 11]),
            (2, &[8, 11, 15, 24]),
        ] {
            assert!(lists.may_be_altered(named, altered), "{altered:?} beside list {named}");
        }
        for at in [7, 8, 11, 16, 19, 20, 27] {
            assert!(!lists.may_be_altered(0, &[at]), "{at}");
        }
        for (named, altered) in
            [(0, &[13, 15][..]), (0, &[15, 26]), (0, &[12, 24]), (0, &[12, 15, 24]), (1, &[11, 15]), (2, &[8, 11, 15, 25])]
        {
            assert!(!lists.may_be_altered(named, altered), "{altered:?} beside list {named}");
        }
    }

    /// Node 2 is list 1's, and a call on list 0 is refused. Beside a wrong count of list 1 its two identifiers may be altered; beside a wrong
    /// identifier the count; beside a wrong link no other word. Recoveries of two stores are cut in six ways, of one in three.
    #[test]
    fn beside_a_wrong_word() {
        let words = store_of(Shape::new(2, 1, 1), &[vec![], vec![2]], || 0);
        let call = Call { list: 0, position: 0, start: 0, record: 0 };
        for (at, demanded) in [(15, 3 + 6 + 6), (12, 3 + 6), (16, 3 + 6), (13, 3), (18, 3)] {
            let told = Courses { call, other: (at, 9), values: vec![9] }.run(&words);
            assert_eq!(told.demanded, 8 * demanded, "word {at}");
        }
    }

    /// Beside worn nodes, one of them with links that fit: no course that must end so is refused, and the nodes stay as they are.
    #[test]
    fn beside_worn_nodes() {
        let shape = Shape::new(2, 4, 1);
        let mut words = with_worn(store_of(shape, &[vec![2], vec![4]], || 0), &[3]);
        words[shape.node(3)][1..].copy_from_slice(&[0, 2, 9]);
        for start in [0, 3] {
            let call = Call { list: 0, position: 0, start, record: 8 };
            let told = Courses { call, other: (65_535, 0), values: vec![3, 9, 65_535] }.run(&words);
            assert!(told.demanded > 100 && told.demanded < told.courses, "{} of {}", told.demanded, told.courses);
            let free = Courses { call, other: (shape.cell(3) as u16, 0), values: vec![3, 9, 65_535] }.run(&words);
            assert_ne!(told.digest, free.digest);
        }
    }

    #[test]
    fn digests() {
        let mut a = Digest::default();
        a.mix_all(&[1, 2]);
        let mut b = Digest::default();
        b.mix_all(&[2, 1]);
        assert_eq!((a.0, b.0), (65_601, 131_199));
    }
}
