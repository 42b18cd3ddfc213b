//! Figures: what is told of a call before it is made, each by a call of its own that writes nothing.

use crate::{c, lent, words_of, Call, Call::*, DONE};
use model::recovery::recover_stores;
use model::store::insert_several_figures;

#[derive(Clone, Copy, Debug, PartialEq, Eq)]
pub enum Figure {
    FirstCell,
    LastCell,
    SeveralStores,
    RecoverStores,
}

use Figure::*;

impl Figure {
    pub fn name(self) -> &'static str {
        match self {
            FirstCell => "insert_several_first_cell",
            LastCell => "insert_several_last_cell",
            SeveralStores => "insert_several_stores",
            RecoverStores => "recover_stores",
        }
    }

    /// Asks for it. `records` holds the bytes of the records.
    pub fn ask(self, call: &Call, store: &[u8], records: &[u8]) -> u32 {
        let ((at, len), (from, size)) = (lent(store), lent(records));
        let (list, position, start) = match *call {
            InsertSeveral { list, position, start, .. } => (list, position, start),
            _ => (0, 0, 0),
        };
        // Each pointer and length are those of a slice, or NULL and 0; the calls read nothing else, and write nothing.
        unsafe {
            match self {
                FirstCell => c::axle_insert_several_first_cell(at, len, list, position, start, from, size),
                LastCell => c::axle_insert_several_last_cell(at, len, list, position, start, from, size),
                SeveralStores => c::axle_insert_several_stores(at, len, list, position, start, from, size),
                RecoverStores => c::axle_recover_stores(at, len),
            }
        }
    }
}

impl Call {
    /// The insert of several records that is told of before an insert, of one record or more.
    pub fn as_several(&self) -> Option<Call> {
        match *self {
            Insert { list, position, start, ref record } => {
                Some(InsertSeveral { list, position, start, records: record.clone() })
            }
            InsertSeveral { .. } => Some(self.clone()),
            _ => None,
        }
    }

    /// The figures that are told of it.
    pub fn figures(&self) -> &'static [Figure] {
        match self {
            InsertSeveral { .. } => &[FirstCell, LastCell, SeveralStores],
            Recover => &[RecoverStores],
            _ => &[],
        }
    }

    /// What the model tells.
    pub fn expected_figures(&self, store: &[u8]) -> Vec<u32> {
        let words = words_of(store);
        let told = match *self {
            _ if store.len() % 2 == 1 => Err(4),
            InsertSeveral { list, position, start, .. } => {
                insert_several_figures(&words, list, position, start, &self.record_words())
                    .map(|told| vec![told.first, told.last, told.stores])
            }
            Recover => recover_stores(&words).map(|stores| vec![stores]),
            _ => Ok(vec![]),
        };
        match told {
            Ok(figures) => figures.into_iter().map(|figure| DONE + u32::from(figure)).collect(),
            Err(number) => vec![number.into(); self.figures().len()],
        }
    }
}
