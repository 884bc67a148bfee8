//! The pages that an operation holds, as they were read: what a granted step, its change, a conversion and the second way of a `Next` all speak of.

use crate::lock::Lock;
use crate::page::Page;

/// The pool's parameters.
#[derive(Clone, Copy)]
pub struct Shape {
    pub k: u32,
    pub n: u32,
}

/// A page with its number, and the kind of lock under which it is held or wanted.
#[derive(Clone, Debug)]
pub struct Held {
    pub number: u32,
    pub lock: Lock,
    pub page: Page,
}

/// The pages an operation holds: its path from the top downward; beside it a deletion's siblings
/// from the leaf's upward, or the second way of a `Next` from the top downward.
#[derive(Clone, Debug)]
pub struct Reach {
    pub path: Vec<Held>,
    pub siblings: Vec<Held>,
}
