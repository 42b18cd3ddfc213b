//! What a kill inside a call may leave, and what recovery then owes.
//!
//! A call changes the store by word stores in a fixed order, each low byte before high. A killed process has made its stores up to
//! some point, and the mapping keeps what it made. So what is found is the store before the call, the first j word stores made,
//! and of store j + 1 nothing or the low byte alone: a torn word. (The memory that the store is meant for takes both bytes of a
//! word with the second, so there a word is never torn; a file mapping takes each byte at once.)
//!
//! No word is torn: a cut, as specified. Recovery leaves the list without the call if j is below the number of the central store,
//! else with it. An insert of several records is one insert after the other: it leaves the records whose central store was made.
//!
//! Word j + 1 is torn, and is neither the old nor the new value: one wrong word more than specified, in the list of the call. By
//! place of the word, for a call between the members a and b:
//!
//!   * link of the cell that is not in the list yet: a free word. The list is as before.
//!   * record of that cell, or of the cell just deleted: in no list, so recovery wipes it, whatever it is.
//!   * identifier of either: in no list, so recovery clears it, whatever it is.
//!   * the count: it does not matter where one sequence alone fits. Before the central store (insert) that is the old list, after it
//!     (delete) the new one.
//!   * b's back: in an insert it is the last store, and the only word that the new list lacks. In a delete it is the first, and the
//!     only word that the old list lacks. If it leads to another member, the shorter sequence fits too; the count is not its length.
//!   * a's forward, the central store: in an insert the old list lacks it and the count, in a delete the new list does, and the other
//!     list lacks b's back too. So an insert leaves the list without the record, and so does a delete. But if the torn word leads to the
//!     header or to a member behind b, the sequence that leaves out what is between fits too. The count is the length of neither, and
//!     recovery refuses with 12.
//!
//! So a torn word changes nothing but for the central one. There an insert counts as not made and a delete as made, or recovery refuses and
//! stores nothing. A link is torn only where cell numbers go beyond 255, a count only where the length goes past a multiple of 256.
//!
//! A mark makes one store, the identifier of a cell in no list. Torn, it is cleared, and the node is free.
//!
//! A recovery that is killed while it clears or wipes may leave half a word of a cell in no list: the next one stores 0 to it.
//!
//! After such a refusal the test puts the low byte back, as if the store had not been made at all; then the old list is due.

use crate::plain::Plain;
use interface::{bytes_of, Call, DONE, ENOUGH};

/// A state that a kill may leave.
#[derive(Clone, Debug)]
pub struct State {
    pub bytes: Vec<u8>,
    /// The number of whole word stores that were made.
    pub made: u16,
    /// The place of the byte that alone was stored of the next, and what it was before.
    pub torn: Option<(usize, u8)>,
}

/// All states in their order. A word is torn only if both its bytes change. A store of an equal value gives the same bytes again.
pub fn states(before: &[u16], call: &Call) -> Vec<State> {
    let before = bytes_of(before);
    let (answer, _) = call.expected(&before, ENOUGH);
    let whole = if answer >= DONE { answer as u16 } else { 0 };
    let mut states = vec![State { bytes: before.clone(), made: 0, torn: None }];
    for made in 1..=whole {
        let last = states.last().expect("a state").bytes.clone();
        let (_, bytes) = call.expected(&before, made);
        let changed: Vec<usize> = (0..bytes.len()).filter(|&i| bytes[i] != last[i]).collect();
        if let [low, high] = changed[..] {
            assert!(low % 2 == 0 && high == low + 1, "a store changes one word");
            let mut torn = last.clone();
            torn[low] = bytes[low];
            states.push(State { bytes: torn, made: made - 1, torn: Some((low, last[low])) });
        }
        states.push(State { bytes, made, torn: None });
    }
    states
}

impl State {
    /// Is the central word of an insert or delete torn? With it more of the call counts as made.
    pub fn central(&self, call: &Call, width: usize) -> bool {
        let more = call.due(width, self.made + 1) > call.due(width, self.made);
        self.torn.is_some() && more && !matches!(call, Call::MarkWorn { .. })
    }

    /// Does recovery refuse it? The torn word is a central one, and leads to the header or to a member behind the place of the call. `plain`
    /// is what the store held before.
    pub fn lost(&self, call: &Call, plain: &Plain) -> bool {
        let (list, position) = match *call {
            Call::Insert { list, position, .. } | Call::InsertSeveral { list, position, .. } => (list, position),
            Call::Delete { list, position } => (list, position),
            _ => return false,
        };
        let link = self.torn.map_or(0, |(low, _)| u16::from_le_bytes([self.bytes[low], self.bytes[low + 1]]));
        let behind = plain.lists[usize::from(list)].iter().skip(position.into());
        let leads = link == list || behind.into_iter().any(|&(cell, _)| cell == usize::from(link));
        self.central(call, plain.shape.width) && leads
    }

    /// The stores that count as made if recovery does not refuse it.
    pub fn due(&self, call: &Call, width: usize) -> u16 {
        let torn = self.central(call, width) && matches!(call, Call::Delete { .. });
        call.due(width, self.made + u16::from(torn))
    }
}
