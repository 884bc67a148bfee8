//! The proved index, through its Rust crate.

use ghazfulit::{numbers, Index, Op, Refusal, Step};

use crate::schedule::{plain, Answer, Program};

/// The proved index.
pub struct Proved(Index<'static>);

/// A refusal as the library tells it.
fn refused(refusal: Refusal) -> Answer {
    plain(refusal.number())
}

impl Program for Proved {
    fn fresh(k: u32, n: u32) -> Proved {
        Proved(Index::new(k, n).expect("in range"))
    }

    fn begin(&mut self, slot: u32, op: Op) -> Answer {
        let begun = self.0.begin(slot, op);
        begun.map_or_else(refused, |()| plain(numbers::BEGUN))
    }

    fn step(&mut self, slot: u32) -> Answer {
        self.0.step(slot).map_or_else(refused, Step::told)
    }

    fn left(&self) -> (Vec<u32>, Vec<u32>) {
        (self.0.state().to_vec(), self.0.words().to_vec())
    }
}
