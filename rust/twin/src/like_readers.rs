//! Updates of the second way: they go down like readers, with a ρ of their own, and want their leaf alone with ξ. What they can do at the
//! leaf alone is done there; for anything else they begin again by the first way.

use crate::lock::Lock;
use crate::op::{Op, Way};
use crate::page::Page;
use crate::reach::{Held, Reach};

/// The kind of lock that the next page is wanted with: by the second way a leaf with ξ, which comes below level 2; all else with the kind
/// under which the operation holds.
pub fn lock_due(op: Op, reach: &Reach) -> Lock {
    let is_above_leaf = |held: &Held| held.page.level == 2;
    match op.way() {
        Some(Way::Second) if reach.path.last().is_some_and(is_above_leaf) => Lock::Xi,
        _ => op.holds(),
    }
}

/// Whether an operation that was just granted its leaf begins again: by the second way, if the leaf is page 0, or if the change would
/// reach beyond it.
pub fn begins_again(k: u32, op: Op, leaf: &Held) -> bool {
    op.way() == Some(Way::Second) && (leaf.number == 0 || !stays_in_leaf(k, op, &leaf.page))
}

/// Whether all there is to do is done in the leaf: it tells the answer, or is safe for the change.
fn stays_in_leaf(k: u32, op: Op, leaf: &Page) -> bool {
    let is_there = leaf.find(op.key()).is_some();
    match op {
        Op::Insert(..) => is_there || leaf.has_room(k),
        Op::Delete(..) => !is_there || leaf.can_spare(k),
        Op::Search(_) | Op::Next(_) | Op::Regrade(..) => true,
    }
}
