//! What passed and failed, and where kills fell.

use crate::plain::Plain;
use crate::states::State;
use interface::Call;

/// At most so many failures are told.
const TOLD: usize = 20;

#[derive(Default)]
pub struct Counts {
    pub passed: usize,
    pub failed: usize,
    /// Calls that were answered.
    pub calls: usize,
    /// Kills that fell between calls; inside a call before its first store, between two, behind the last; that tore a word; that tore the
    /// central word, and so that recovery refuses.
    pub between_calls: usize,
    pub before: usize,
    pub between_stores: usize,
    pub behind: usize,
    pub torn: usize,
    pub central: usize,
    pub lost: usize,
}

impl Counts {
    pub fn holds(&mut self, right: bool, text: impl FnOnce() -> String) {
        if right {
            self.passed += 1;
            return;
        }
        self.failed += 1;
        if self.failed <= TOLD {
            println!("FAILED: {}", text());
        }
    }

    /// A kill in a call of so many stores. `plain` is what the store held before.
    pub fn note(&mut self, state: &State, call: &Call, plain: &Plain, whole: u16) {
        let place = match state {
            _ if state.lost(call, plain) => &mut self.lost,
            _ if state.central(call, plain.shape.width) => &mut self.central,
            State { torn: Some(_), .. } => &mut self.torn,
            State { made: 0, .. } => &mut self.before,
            State { made, .. } if *made == whole => &mut self.behind,
            _ => &mut self.between_stores,
        };
        *place += 1;
    }

    /// Adds what was passed and failed.
    pub fn add(&mut self, other: &Counts) {
        self.passed += other.passed;
        self.failed += other.failed;
    }
}

impl std::fmt::Display for Counts {
    fn fmt(&self, f: &mut std::fmt::Formatter) -> std::fmt::Result {
        let Counts { between_calls, before, between_stores, behind, torn, central, lost, .. } = self;
        write!(f, "between calls {between_calls}; in a call before its stores {before}, between them {between_stores}, ")?;
        write!(f, "behind them {behind}; torn {torn}, and the central word {central}, refused {lost}")
    }
}
