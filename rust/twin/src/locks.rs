//! Who holds what, when a want must wait, and the lock report. All states here are sound.

use crate::answer::Answer;
use crate::lock::Lock;
use crate::state::{Slot, State, SLOTS};

/// Whether a want must wait: another slot holds the page with a lock that clashes, or has wanted it for longer with one that does, or is
/// converting it. A conversion comes before every other want, and waits for what is held alone.
pub fn must_wait(state: &State, number: usize) -> bool {
    let slot = &state.slots[number];
    if slot.op.is_none() {
        return false;
    }
    let is_held = holders(state, slot.want)
        .iter()
        .any(|&(other, lock)| other != number && slot.lock.clashes(lock));
    is_held || (!slot.converts() && is_behind(state, number))
}

/// Whether another slot's want of the same page comes first: it is a conversion, or it is older and clashes.
fn is_behind(state: &State, number: usize) -> bool {
    let slot = &state.slots[number];
    let age = |own: usize| state.order().iter().position(|&named| named == own);
    let comes_first = |(other, its): (usize, &Slot)| {
        let is_older = age(other) < age(number);
        its.converts() || (is_older && slot.lock.clashes(its.lock))
    };
    let others = state.slots.iter().enumerate();
    others
        .filter(|&(other, its)| other != number && its.op.is_some() && its.want == slot.want)
        .any(comes_first)
}

/// The slots that hold a page, lowest first, with the kind of their locks.
fn holders(state: &State, page: u32) -> Vec<(usize, Lock)> {
    let slots = state.slots.iter().enumerate();
    slots
        .filter_map(|(i, slot)| Some((i, slot.lock_on(page)?)))
        .collect()
}

/// The report for a page: the strongest kind that is there, number of holders, lowest holder.
pub fn lock_report(state: &State, page: u32) -> Answer {
    let holders = holders(state, page);
    let is_there = |kind: &Lock| holders.iter().any(|(_, lock)| lock == kind);
    let kind = Lock::STRONGEST_FIRST.into_iter().find(is_there);
    let lowest = holders.first().map_or(SLOTS, |&(lowest, _)| lowest);
    Answer::Reported(
        kind.unwrap_or(Lock::None).number(),
        holders.len() as u32,
        lowest as u32,
    )
}
