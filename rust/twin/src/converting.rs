//! Updates of the third way: they go down as by the first, but with α, which lets readers stay. When the change is known, each page that they
//! hold is wanted once more, with ξ, one after the other from the top down; the change is made with the last.

use crate::lock::Lock;
use crate::reach::{Held, Reach};

/// The pages held in the order of their conversion: "from the top down, path page before sibling on each level". The leaf's sibling is the
/// first beside the path.
fn in_order(reach: &Reach) -> Vec<&Held> {
    let depth = reach.path.len();
    let on_level = |at: usize| [Some(&reach.path[at]), reach.siblings.get(depth - 1 - at)];
    (0..depth).flat_map(on_level).flatten().collect()
}

/// The page whose conversion is due: the first in order that is not held with ξ.
pub fn next_conversion(reach: &Reach) -> Option<u32> {
    let mut held = in_order(reach).into_iter();
    held.find(|held| held.lock != Lock::Xi)
        .map(|held| held.number)
}

/// Whether it is this page's turn: those before it in order are held with ξ, it and those behind it with α.
pub fn is_turn(reach: &Reach, page: u32) -> bool {
    let held = in_order(reach);
    let Some(turn) = held.iter().position(|held| held.number == page) else {
        return false;
    };
    let (before, after) = held.split_at(turn);
    before.iter().all(|held| held.lock == Lock::Xi)
        && after.iter().all(|held| held.lock == Lock::Alpha)
}

/// The page is held with ξ from now on.
pub fn convert(reach: &mut Reach, page: u32) {
    let mut held = reach.path.iter_mut().chain(&mut reach.siblings);
    if let Some(held) = held.find(|held| held.number == page) {
        held.lock = Lock::Xi;
    }
}
