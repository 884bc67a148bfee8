//! The state of the 16 slots, as raw as a caller may hand it in, and when it is sound.

use crate::lock::Lock;
use crate::op::{Op, Way};

/// How many slots there are.
pub const SLOTS: usize = 16;
/// How many path pages a slot has cells for.
pub const PATH: usize = 10;
/// How many pages beside its path a slot has cells for.
pub const SIBLINGS: usize = 10;

/// One slot: closed, or open with an operation, the page it wants, the kind of lock that it wants there, and the pages it holds, each
/// with the kind of lock under which it does.
///
/// The path goes from the top downward. A deletion's siblings go from the leaf's upward; a
/// `Next` has its second way there, from the top downward. The counts may be any numbers, even
/// larger than the arrays.
#[derive(Clone, Copy, Debug, PartialEq, Eq)]
pub struct Slot {
    pub op: Option<Op>,
    pub want: u32,
    pub lock: Lock,
    pub path: [u32; PATH],
    pub path_locks: [Lock; PATH],
    pub depth: usize,
    pub siblings: [u32; SIBLINGS],
    pub sibling_locks: [Lock; SIBLINGS],
    pub beside: usize,
}

/// All that a call is given beside the words.
#[derive(Clone, Copy, Debug, PartialEq, Eq)]
pub struct State {
    pub k: u32,
    pub n: u32,
    pub slots: [Slot; SLOTS],
    /// The waiting order, oldest want first, in its first `waiting` cells.
    pub order: [usize; SLOTS],
    pub waiting: usize,
}

impl Slot {
    /// A slot with no operation.
    pub const CLOSED: Slot = Slot {
        op: None,
        want: 0,
        lock: Lock::None,
        path: [0; PATH],
        path_locks: [Lock::None; PATH],
        depth: 0,
        siblings: [0; SIBLINGS],
        sibling_locks: [Lock::None; SIBLINGS],
        beside: 0,
    };

    /// A slot that holds just these pages and wants this one, all with the kind of lock with which its operation goes down.
    pub fn open(op: Op, want: u32, path: &[u32], siblings: &[u32]) -> Slot {
        let mut slot = Slot {
            op: Some(op),
            want,
            lock: op.holds(),
            depth: path.len(),
            beside: siblings.len(),
            ..Slot::CLOSED
        };
        slot.path[..path.len()].copy_from_slice(path);
        slot.siblings[..siblings.len()].copy_from_slice(siblings);
        slot.holding(op.holds())
    }

    /// The same with another kind of lock wanted.
    pub fn wanting(self, lock: Lock) -> Slot {
        Slot { lock, ..self }
    }

    /// The same with every page held under this kind of lock; the counts may be larger than the arrays.
    pub fn holding(mut self, lock: Lock) -> Slot {
        let (depth, beside) = (self.depth.min(PATH), self.beside.min(SIBLINGS));
        self.path_locks[..depth].fill(lock);
        self.sibling_locks[..beside].fill(lock);
        self
    }

    /// The path pages held, for counts within the arrays.
    pub fn path(&self) -> &[u32] {
        &self.path[..self.depth]
    }

    /// The pages held beside the path, for counts within the arrays.
    pub fn siblings(&self) -> &[u32] {
        &self.siblings[..self.beside]
    }

    /// All pages held, for counts within the arrays.
    pub fn held(&self) -> Vec<u32> {
        [self.path(), self.siblings()].concat()
    }

    /// The same with the kind of lock under which each is held.
    pub fn held_with(&self) -> impl Iterator<Item = (u32, Lock)> + '_ {
        let path = self.path().iter().zip(&self.path_locks);
        let siblings = self.siblings().iter().zip(&self.sibling_locks);
        path.chain(siblings).map(|(&page, &lock)| (page, lock))
    }

    /// The kind of lock under which the slot holds the page, if it does.
    pub fn lock_on(&self, page: u32) -> Option<Lock> {
        let mut held = self.held_with();
        held.find(|&(own, _)| own == page).map(|(_, lock)| lock)
    }

    /// Whether the slot is open and wants a page that it holds.
    pub fn converts(&self) -> bool {
        self.op.is_some() && self.holds(self.want)
    }

    /// Whether the slot holds the page.
    pub fn holds(&self, page: u32) -> bool {
        self.path().contains(&page) || self.siblings().contains(&page)
    }
}

impl State {
    /// A state with every slot closed.
    pub fn empty(k: u32, n: u32) -> State {
        State {
            k,
            n,
            slots: [Slot::CLOSED; SLOTS],
            order: [0; SLOTS],
            waiting: 0,
        }
    }

    /// The waiting order, for a count within the array.
    pub fn order(&self) -> &[usize] {
        &self.order[..self.waiting]
    }
}

/// Whether a state is sound.
pub fn is_sound(state: &State) -> bool {
    (1..=16).contains(&state.k)
        && (1..=1024).contains(&state.n)
        && is_order_sound(state)
        && state.slots.iter().all(|slot| is_slot_sound(slot, state.n))
        && are_locks_sound(state)
}

/// The waiting order names each open slot once and no other.
fn is_order_sound(state: &State) -> bool {
    if state.waiting > SLOTS || state.order().iter().any(|&slot| slot >= SLOTS) {
        return false;
    }
    (0..SLOTS).all(|number| {
        let times = state
            .order()
            .iter()
            .filter(|&&named| named == number)
            .count();
        times == usize::from(state.slots[number].op.is_some())
    })
}

/// What is asked of one slot by itself.
fn is_slot_sound(slot: &Slot, n: u32) -> bool {
    if !are_counts_sound(slot) {
        return false;
    }
    let Some(op) = slot.op else {
        return true;
    };
    let held = slot.held();
    let is_twice = (1..held.len()).any(|i| held[..i].contains(&held[i]));
    slot.want < n
        && held.iter().all(|&page| page < n)
        && slot.held_with().all(|(_, lock)| op.may_hold(lock))
        && !is_twice
        && is_want_sound(slot, op)
}

/// A page that is not held is wanted with a kind of lock that the operation can want; a page that is held only as a conversion.
fn is_want_sound(slot: &Slot, op: Op) -> bool {
    match slot.lock_on(slot.want) {
        None => op.may_want(slot.lock),
        Some(held) => op.may_convert(held, slot.lock),
    }
}

/// The most pages that a slot may hold, on its path and beside it.
fn limits(op: Option<Op>) -> (usize, usize) {
    match op {
        None => (0, 0),
        Some(Op::Search(_) | Op::Regrade(..)) => (1, 0),
        Some(Op::Insert(_, _, Way::Second) | Op::Delete(_, Way::Second)) => (1, 0),
        Some(Op::Insert(_, _, Way::First | Way::Third)) => (10, 0),
        Some(Op::Delete(_, Way::First | Way::Third)) => (10, 9),
        Some(Op::Next(_)) => (10, 9),
    }
}

/// The counts are within their limits, and there are none beside or fewer than on the path.
fn are_counts_sound(slot: &Slot) -> bool {
    let (path, beside) = limits(slot.op);
    slot.depth <= path && slot.beside <= beside && (slot.beside == 0 || slot.beside < slot.depth)
}

/// No two slots hold a page under kinds of lock that clash; the slots are sound by themselves.
fn are_locks_sound(state: &State) -> bool {
    let mut pairs = (0..SLOTS).flat_map(|one| (0..one).map(move |other| (one, other)));
    pairs.all(|(one, other)| goes_together(&state.slots[one], &state.slots[other]))
}

/// Whether what two slots hold goes together, page by page.
fn goes_together(one: &Slot, other: &Slot) -> bool {
    let mut held = one.held_with();
    held.all(|(page, lock)| other.lock_on(page).is_none_or(|its| !lock.clashes(its)))
}
