//! What is compared with the twin: a program that is started, or, in tests, a machine beside it.

use drive_twin::{Calls, Drive};

/// Something that writes for an input.
pub trait Program {
    /// All that it writes.
    fn written(&self, input: &[u8]) -> Vec<u8>;
}

/// A program, by the words of its command.
pub struct Started(pub Vec<String>);

impl Program for Started {
    fn written(&self, input: &[u8]) -> Vec<u8> {
        versus::written(&self.0, input)
    }
}

impl<C: Calls, F: Fn() -> C> Program for F {
    fn written(&self, input: &[u8]) -> Vec<u8> {
        Drive::new(self()).answers(input)
    }
}
