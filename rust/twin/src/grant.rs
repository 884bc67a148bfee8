//! A granted step: the pages are read again, compared with what the rules would have the
//! operation hold and want, and then the operation goes on or ends.

use crate::answer::Answer;
use crate::change::{delete, insert, regrade, room_is_short};
use crate::converting::{convert, is_turn, next_conversion};
use crate::like_readers::{begins_again, lock_due};
use crate::lock::Lock;
use crate::op::{Op, Way};
use crate::page::{read_page, Page};
use crate::reach::{Held, Reach, Shape};
use crate::second_way;
use crate::state::Slot;

/// How a granted step leaves the operation.
pub enum Outcome {
    /// The slot then.
    GoesOn(Slot),
    /// By the first way; nothing is held any more.
    BeginsAgain,
    Ends(Answer),
    Damaged,
}

/// Takes the wanted page, or converts it, and does what the rules say then; words change only when it ends.
pub fn grant(shape: Shape, words: &mut [u32], slot: &Slot, op: Op) -> Outcome {
    let Some(reach) = read_held(shape, words, slot) else {
        return Outcome::Damaged;
    };
    if slot.converts() {
        return grant_conversion(shape, words, slot, op, reach);
    }
    let Some(wanted) = read(shape, words, slot.want, slot.lock) else {
        return Outcome::Damaged;
    };
    if !is_gathering(shape.k, op, &reach, &wanted) {
        return Outcome::Damaged;
    }
    let reach = take(shape.k, op, reach, wanted);
    if lowest_leaf(&reach).is_some_and(|leaf| begins_again(shape.k, op, leaf)) {
        return Outcome::BeginsAgain;
    }
    if let Some(answer) = answer_at_leaf(op, &reach) {
        return Outcome::Ends(answer);
    }
    match next_want(shape.k, op, &reach) {
        Some(want) => go_on(op, want, &reach),
        None => go_over(shape, words, op, reach),
    }
}

/// A conversion that is granted.
fn grant_conversion(
    shape: Shape,
    words: &mut [u32],
    slot: &Slot,
    op: Op,
    mut reach: Reach,
) -> Outcome {
    if !is_converting(shape.k, op, &reach, slot.want) {
        return Outcome::Damaged;
    }
    convert(&mut reach, slot.want);
    go_over(shape, words, op, reach)
}

/// The change is known: by the third way a page that is still held with α is wanted with ξ, the next in order. Where there is none, and by
/// any other way, the change is made.
fn go_over(shape: Shape, words: &mut [u32], op: Op, reach: Reach) -> Outcome {
    let due = next_conversion(&reach).filter(|_| op.way() == Some(Way::Third));
    match due {
        Some(want) => Outcome::GoesOn(laid(op, want, Lock::Xi, &reach)),
        None => Outcome::Ends(change(shape, words, op, reach)),
    }
}

/// A page with its number and its lock, if it is sound by itself.
fn read(shape: Shape, words: &[u32], number: u32, lock: Lock) -> Option<Held> {
    let page = read_page(words, shape.k, shape.n, number)?;
    Some(Held { number, lock, page })
}

/// The pages held, if each is sound by itself.
fn read_held(shape: Shape, words: &[u32], slot: &Slot) -> Option<Reach> {
    let all = |numbers: &[u32], locks: &[Lock]| -> Option<Vec<Held>> {
        let held = numbers.iter().zip(locks);
        held.map(|(&number, &lock)| read(shape, words, number, lock))
            .collect()
    };
    Some(Reach {
        path: all(slot.path(), &slot.path_locks)?,
        siblings: all(slot.siblings(), &slot.sibling_locks)?,
    })
}

/// Whether the pages held and the wanted one, which is new, are sound for this step.
fn is_gathering(k: u32, op: Op, reach: &Reach, wanted: &Held) -> bool {
    let mut held = reach.path.iter().chain(&reach.siblings);
    held.all(|held| held.lock == op.holds())
        && is_reach_right(k, op, reach)
        && is_want_right(k, op, reach, wanted)
        && wanted.lock == lock_due(op, reach)
}

/// Whether the pages held are sound for a conversion of one of them: the rules would have the operation hold them with the change known, and
/// it is this page's turn.
fn is_converting(k: u32, op: Op, reach: &Reach, want: u32) -> bool {
    is_way(op.key(), &reach.path)
        && is_top_right(k, op, &reach.path)
        && is_change_known(k, op, reach)
        && is_turn(reach, want)
}

/// Whether nothing but the change is left: the leaf is held and does not tell the answer by itself, and no sibling is needed but those held.
fn is_change_known(k: u32, op: Op, reach: &Reach) -> bool {
    let Some(leaf) = lowest_leaf(reach) else {
        return false;
    };
    let is_there = leaf.page.find(op.key()).is_some();
    match op {
        Op::Insert(..) => !is_there && reach.siblings.is_empty(),
        Op::Regrade(..) => is_there && reach.siblings.is_empty(),
        Op::Delete(..) => {
            is_there && are_siblings_right(k, op, reach) && next_sibling(k, op, reach).is_none()
        }
        Op::Search(_) | Op::Next(_) => false,
    }
}

/// Whether the rules would have the operation hold these pages at some point before its end.
fn is_reach_right(k: u32, op: Op, reach: &Reach) -> bool {
    is_way(op.key(), &reach.path)
        && is_top_right(k, op, &reach.path)
        && match lowest_leaf(reach) {
            None => reach.siblings.is_empty(),
            Some(leaf) => is_beside_right(k, op, &leaf.page, reach),
        }
}

/// Who keeps its leaf: a deletion whose key is there, with the siblings that the rules took, and a
/// `Next` whose leaf has nothing for it, with its second way.
fn is_beside_right(k: u32, op: Op, leaf: &Page, reach: &Reach) -> bool {
    match op {
        Op::Delete(_, Way::Second) => false,
        Op::Delete(key, _) => leaf.find(key).is_some() && are_siblings_right(k, op, reach),
        Op::Next(key) => leaf.first_from(key).is_none() && second_way::is_right(key, reach),
        Op::Search(_) | Op::Insert(..) | Op::Regrade(..) => false,
    }
}

/// Each path page is where the one above routes the key, one level lower.
fn is_way(key: u32, path: &[Held]) -> bool {
    path.windows(2)
        .all(|pair| is_step_down(key, &pair[0].page, &pair[1]))
}

/// The lower page is where the upper routes the key, one level lower.
fn is_step_down(key: u32, upper: &Page, lower: &Held) -> bool {
    !upper.is_leaf() && upper.route(key) == lower.number && upper.level == lower.page.level + 1
}

/// The top page is page 0 or safe, and none below it is safe.
fn is_top_right(k: u32, op: Op, path: &[Held]) -> bool {
    let Some((top, below)) = path.split_first() else {
        return true;
    };
    (top.number == 0 || is_safe(k, op, &top.page))
        && below.iter().all(|held| !is_safe(k, op, &held.page))
}

/// Whether the operation can do without the page's ancestors: they cannot be changed by it, or not before it has begun again; for a
/// `Next`, the page itself has a child to the right of the route.
fn is_safe(k: u32, op: Op, page: &Page) -> bool {
    match op {
        Op::Search(_) | Op::Regrade(..) => true,
        Op::Insert(_, _, Way::Second) | Op::Delete(_, Way::Second) => true,
        Op::Insert(_, _, Way::First | Way::Third) => page.has_room(k),
        Op::Delete(_, Way::First | Way::Third) => page.can_spare(k),
        Op::Next(key) => page.right_of_route(key).is_some(),
    }
}

/// The lowest path page, if it is a leaf.
fn lowest_leaf(reach: &Reach) -> Option<&Held> {
    reach.path.last().filter(|lowest| lowest.page.is_leaf())
}

/// Each sibling held is the one the rules took: the page beside it would be short, and those below it join. Whether the last one joins is told
/// by what is wanted then.
fn are_siblings_right(k: u32, op: Op, reach: &Reach) -> bool {
    let last = reach.siblings.len().saturating_sub(1);
    (0..reach.siblings.len()).all(|height| {
        let sibling = &reach.siblings[height];
        let father_level = reach.path[reach.path.len() - 2 - height].page.level;
        sibling_at(k, op, reach, height) == Some(sibling.number)
            && sibling.page.level + 1 == father_level
            && (height == last || !sibling.page.can_spare(k))
    })
}

/// The sibling needed at a height above the leaves, if the path page there would be short.
fn sibling_at(k: u32, op: Op, reach: &Reach, height: usize) -> Option<u32> {
    let at = reach.path.len().checked_sub(1 + height)?;
    let short = &reach.path[at];
    if short.number == 0 || short.page.can_spare(k) {
        return None;
    }
    let father = &reach.path[at.checked_sub(1)?].page;
    Some(father.neighbour(father.place(op.key())))
}

/// Whether the wanted page is the one the rules want next, one level below its father.
fn is_want_right(k: u32, op: Op, reach: &Reach, wanted: &Held) -> bool {
    if reach.path.is_empty() {
        return wanted.number == 0;
    }
    let father = match (lowest_leaf(reach), op) {
        (Some(_), Op::Next(key)) => {
            return second_way::is_right_at(key, reach, reach.siblings.len(), wanted);
        }
        (Some(_), _) => reach.path.len().checked_sub(2 + reach.siblings.len()),
        (None, _) => Some(reach.path.len() - 1),
    };
    father.is_some_and(|at| {
        next_want(k, op, reach) == Some(wanted.number)
            && reach.path[at].page.level == wanted.page.level + 1
    })
}

/// The page wanted next with these pages held: the route, a deletion's next sibling, or what
/// follows on the second way of a `Next`.
fn next_want(k: u32, op: Op, reach: &Reach) -> Option<u32> {
    let lowest = &reach.path.last()?.page;
    if !lowest.is_leaf() {
        return Some(lowest.route(op.key()));
    }
    match op {
        Op::Delete(_, Way::Second) => None,
        Op::Delete(..) => next_sibling(k, op, reach),
        Op::Next(key) => second_way::next_want(key, reach),
        Op::Search(_) | Op::Insert(..) | Op::Regrade(..) => None,
    }
}

/// The sibling that a deletion at its leaf wants next, if it needs one more.
fn next_sibling(k: u32, op: Op, reach: &Reach) -> Option<u32> {
    let do_all_join = reach
        .siblings
        .last()
        .is_none_or(|last| !last.page.can_spare(k));
    if !do_all_join {
        return None;
    }
    sibling_at(k, op, reach, reach.siblings.len())
}

/// What is held after the grant: a safe page gives up its ancestors, and so a search, a regrading or who goes the second way its father.
fn take(k: u32, op: Op, reach: Reach, wanted: Held) -> Reach {
    let Reach {
        mut path,
        mut siblings,
    } = reach;
    if path.last().is_some_and(|held| held.page.is_leaf()) {
        siblings.push(wanted);
    } else {
        if is_safe(k, op, &wanted.page) {
            path.clear();
        }
        path.push(wanted);
    }
    Reach { path, siblings }
}

/// The answers that a leaf just granted gives without any change.
fn answer_at_leaf(op: Op, reach: &Reach) -> Option<Answer> {
    let leaf = &lowest_leaf(reach)?.page;
    let found = leaf.find(op.key()).map(|at| leaf.with[at]);
    match (op, found) {
        (Op::Next(key), _) => next_entry(key, leaf, reach),
        (Op::Search(_), Some(information)) => Some(Answer::Found(information)),
        (Op::Search(_), None) => Some(Answer::NotFound),
        (Op::Insert(..), Some(information)) => Some(Answer::AlreadyThere(information)),
        (Op::Delete(..) | Op::Regrade(..), None) => Some(Answer::NoSuchKey),
        _ => None,
    }
}

/// What a `Next` at its leaf is answered: the first entry at or above its key, of its leaf, or else of
/// the leaf that ends its second way; or None where there is no such entry and no page to go to.
fn next_entry(key: u32, leaf: &Page, reach: &Reach) -> Option<Answer> {
    let second = second_way::leaf(reach);
    let entry = leaf.first_from(key).or_else(|| second?.first_from(key));
    let is_last = second.is_some() || reach.path[0].page.right_of_route(key).is_none();
    match entry {
        Some((own, information)) => Some(Answer::Next(own, information)),
        None => is_last.then_some(Answer::None),
    }
}

/// Goes on with a new want, if it is none of the pages then held.
fn go_on(op: Op, want: u32, reach: &Reach) -> Outcome {
    let slot = laid(op, want, lock_due(op, reach), reach);
    if slot.holds(want) {
        return Outcome::Damaged;
    }
    Outcome::GoesOn(slot)
}

/// The slot that holds these pages and wants this one.
fn laid(op: Op, want: u32, lock: Lock, reach: &Reach) -> Slot {
    let mut slot = Slot {
        op: Some(op),
        want,
        lock,
        depth: reach.path.len(),
        beside: reach.siblings.len(),
        ..Slot::CLOSED
    };
    lay(&reach.path, &mut slot.path, &mut slot.path_locks);
    lay(&reach.siblings, &mut slot.siblings, &mut slot.sibling_locks);
    slot
}

/// Lays pages and their kinds of lock into the cells of a slot.
fn lay(held: &[Held], numbers: &mut [u32], locks: &mut [Lock]) {
    for (at, held) in held.iter().enumerate() {
        (numbers[at], locks[at]) = (held.number, held.lock);
    }
}

/// Makes the whole change, or finds no room for it.
fn change(shape: Shape, words: &mut [u32], op: Op, reach: Reach) -> Answer {
    match op {
        Op::Insert(..) if room_is_short(shape, words, &reach.path) => Answer::NoRoom,
        Op::Insert(key, information, _) => insert(shape, words, key, information, reach.path),
        Op::Delete(key, _) => delete(shape, words, key, reach),
        Op::Regrade(key, information, _) => regrade(shape, words, key, information, reach.path),
        Op::Search(_) | Op::Next(_) => unreachable!("it changes no page"),
    }
}
