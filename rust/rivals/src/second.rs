//! The second program, which is written to be read and not for speed.

use ghazfulit::Op;
use twin::{begin_lent, make_lent, page_words, step_lent, STATE};

use crate::schedule::{Answer, Program};

/// The twin over lent words.
pub struct Second {
    state: [u32; STATE],
    words: Vec<u32>,
}

impl Program for Second {
    fn fresh(k: u32, n: u32) -> Second {
        let mut second = Second {
            state: [0; STATE],
            words: vec![0; n as usize * page_words(k)],
        };
        make_lent(k, n, &mut second.state, &mut second.words);
        second
    }

    fn begin(&mut self, slot: u32, op: Op) -> Answer {
        let (kind, key, information) = op.numbers();
        let op = twin::Op::of(kind, key, information).expect("a kind that both know");
        begin_lent(&mut self.state, slot as usize, op).told()
    }

    fn step(&mut self, slot: u32) -> Answer {
        step_lent(&mut self.state, &mut self.words, slot as usize).told()
    }

    fn left(&self) -> (Vec<u32>, Vec<u32>) {
        (self.state.to_vec(), self.words.clone())
    }
}
