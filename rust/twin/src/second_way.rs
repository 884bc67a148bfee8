//! The second way of a `Next`, whose leaf has no key at or above its own: the next child to the right of the top page's
//! route, then the first child of each page, down to a leaf. It stands beside the path, from its top downward.

use crate::page::Page;
use crate::reach::{Held, Reach};

/// The page at this place of the second way, and the page that points to it; nothing behind its leaf, or where the top page
/// has no child to the right.
fn at(key: u32, reach: &Reach, place: usize) -> Option<(&Page, u32)> {
    match place.checked_sub(1) {
        None => {
            let top = &reach.path.first()?.page;
            Some((top, top.right_of_route(key)?))
        }
        Some(above) => {
            let father = &reach.siblings.get(above)?.page;
            Some((father, father.first_child()?))
        }
    }
}

/// Whether a page is the one at this place, one level lower than the page that points to it.
pub fn is_right_at(key: u32, reach: &Reach, place: usize, held: &Held) -> bool {
    at(key, reach, place).is_some_and(|(father, number)| {
        number == held.number && father.level == held.page.level + 1
    })
}

/// Whether the pages beside the path are the second way as far as it goes.
pub fn is_right(key: u32, reach: &Reach) -> bool {
    let mut beside = reach.siblings.iter().enumerate();
    beside.all(|(place, held)| is_right_at(key, reach, place, held))
}

/// The page that follows on the second way.
pub fn next_want(key: u32, reach: &Reach) -> Option<u32> {
    at(key, reach, reach.siblings.len()).map(|(_, number)| number)
}

/// The leaf that ends the second way, if it is held.
pub fn leaf(reach: &Reach) -> Option<&Page> {
    let lowest = &reach.siblings.last()?.page;
    lowest.is_leaf().then_some(lowest)
}
