//! An unproved index with the same pages, locks and schedule, written for speed: with all tests of the proved one, or with
//! none.

use ghazfulit::numbers::{
    self, DELETE, DELETE_SECOND, DELETE_THIRD, INSERT, INSERT_SECOND, INSERT_THIRD, NEXT, REGRADE,
    SEARCH,
};
use ghazfulit::Op;

use crate::layout::{
    first, is_converting, is_second, is_third, lock_held, Layout, Slot, CLOSED, HELD, SLOTS,
};
use crate::pages::Pool;
use crate::schedule::{plain, with, Answer, Program};

/// A rival in a layout; `TESTS` says whether it refuses the same as the proved index.
pub struct Rival<L, const TESTS: bool> {
    state: L,
    words: Vec<u32>,
}

impl<L: Layout, const TESTS: bool> Program for Rival<L, TESTS> {
    fn fresh(k: u32, n: u32) -> Self {
        let mut words = vec![0; n as usize * (4 * k as usize + 3)];
        words[0] = 1;
        Rival {
            state: L::fresh(k, n),
            words,
        }
    }

    fn begin(&mut self, s: u32, op: Op) -> Answer {
        let state = &mut self.state;
        if TESTS && !state.is_sound() {
            return plain(numbers::BAD_STATE);
        }
        if TESTS && s as usize >= SLOTS {
            return plain(numbers::BAD_SLOT);
        }
        let s = s as usize;
        if TESTS && state.slot(s).kind != CLOSED {
            return plain(numbers::SLOT_BUSY);
        }
        let (kind, key, information) = op.numbers();
        // a blank tag
        if TESTS && key == 0 && kind != NEXT {
            return plain(numbers::BAD_KEY);
        }
        let slot = Slot::begun(kind, key, information);
        let all = if TESTS { HELD } else { 0 };
        state.set_slot(s, &slot, all, all);
        state.enqueue(s);
        plain(numbers::BEGUN)
    }

    fn step(&mut self, s: u32) -> Answer {
        let (k, n) = (self.state.k(), self.state.n());
        if TESTS && !self.state.is_sound() {
            return plain(numbers::BAD_STATE);
        }
        if TESTS && self.words.len() != n as usize * (4 * k as usize + 3) {
            return plain(numbers::BAD_POOL);
        }
        if TESTS && s as usize >= SLOTS {
            return plain(numbers::BAD_SLOT);
        }
        let s = s as usize;
        let mut slot = self.state.slot(s);
        if TESTS && slot.kind == CLOSED {
            return plain(numbers::SLOT_IDLE);
        }
        if !self.state.grants(s) {
            return plain(numbers::WAITING);
        }
        let mut pool = Pool {
            words: &mut self.words,
            k: k as usize,
        };
        let converting = is_converting(slot.kind, slot.lock);
        if TESTS && !(fits_so_far(&pool, n, &slot) && fits(&pool, &slot, converting)) {
            return plain(numbers::DAMAGED);
        }
        // cells behind a length are 0 already where nothing is tested
        let (mut path, mut siblings) = (HELD, HELD);
        if !TESTS {
            path = HELD.min(slot.depth as usize + 1);
            siblings = HELD.min(slot.beside as usize + 1);
        }
        let course = if converting {
            convert(&mut slot);
            over(&mut pool, n, &slot)
        } else {
            take(&pool, &mut slot);
            judge::<TESTS>(&mut pool, n, &slot)
        };
        match course {
            Course::Converts(next) => {
                (slot.want, slot.lock) = (next, numbers::LOCK_XI);
                self.state.set_slot(s, &slot, path, siblings);
                self.state.requeue(s, true);
                plain(numbers::MOVED)
            }
            Course::Goes(next) => {
                slot.lock = lock_due(&pool, &slot);
                slot.want = next;
                self.state.set_slot(s, &slot, path, siblings);
                self.state.requeue(s, true);
                plain(numbers::MOVED)
            }
            Course::Again => {
                let begun = Slot::begun(first(slot.kind), slot.key, slot.information);
                self.state.set_slot(s, &begun, path, siblings);
                self.state.requeue(s, true);
                plain(numbers::MOVED)
            }
            Course::Ends(answer) => {
                self.state.set_slot(s, &Slot::default(), path, siblings);
                self.state.requeue(s, false);
                answer
            }
            Course::Broken => plain(numbers::DAMAGED),
        }
    }

    fn left(&self) -> (Vec<u32>, Vec<u32>) {
        (self.state.words().to_vec(), self.words.clone())
    }
}

/// What a granted step does.
enum Course {
    Goes(u32),
    /// By the third way: a page that is held is wanted once more, with ξ.
    Converts(u32),
    /// By the first way.
    Again,
    Ends(Answer),
    Broken,
}

/// Whether a page's ancestors are needed no more; by the second way they never are.
fn is_safe(pool: &Pool, slot: &Slot, p: u32) -> bool {
    match slot.kind {
        INSERT | INSERT_THIRD => pool.count(p) < 2 * pool.k,
        DELETE | DELETE_THIRD => pool.count(p) > pool.k,
        NEXT => pool.right_of(p, slot.key).is_some(),
        _ => true,
    }
}

/// The lock that the next page is wanted with: by the second way ξ on a leaf.
fn lock_due(pool: &Pool, slot: &Slot) -> u32 {
    let is_above_leaf = slot.depth > 0 && pool.level(slot.path[slot.depth as usize - 1]) == 2;
    if is_second(slot.kind) && is_above_leaf {
        numbers::LOCK_XI
    } else {
        lock_held(slot.kind)
    }
}

/// Whether an update of the second way begins again at its leaf: if that is page 0, or the change would reach beyond it.
fn begins_again(pool: &Pool, slot: &Slot, leaf: u32) -> bool {
    let is_there = || pool.find(leaf, slot.key).is_some();
    leaf == 0
        || match slot.kind {
            INSERT_SECOND => pool.count(leaf) == 2 * pool.k && !is_there(),
            DELETE_SECOND => pool.count(leaf) == pool.k && is_there(),
            _ => false,
        }
}

/// Whether the slot holds its leaf.
fn is_at_leaf(pool: &Pool, slot: &Slot) -> bool {
    slot.depth > 0 && pool.level(slot.path[slot.depth as usize - 1]) == 1
}

/// The sibling that is needed at a height above the leaves, if the page there would be short.
fn sibling_at(pool: &Pool, slot: &Slot, height: usize) -> Option<u32> {
    let at = (slot.depth as usize).checked_sub(1 + height)?;
    let short = slot.path[at];
    if short == 0 || pool.count(short) > pool.k || at == 0 {
        return None;
    }
    Some(pool.neighbour(slot.path[at - 1], slot.key))
}

/// The next sibling that a deletion at its leaf needs.
fn next_sibling(pool: &Pool, slot: &Slot) -> Option<u32> {
    let beside = slot.beside as usize;
    if beside > 0 && pool.count(slot.siblings[beside - 1]) > pool.k {
        return None;
    }
    sibling_at(pool, slot, beside)
}

/// The page at a place of the second way of a next, and the one that points to it.
fn second_at(pool: &Pool, slot: &Slot, place: usize) -> Option<(u32, u32)> {
    match place.checked_sub(1) {
        None => Some((slot.path[0], pool.right_of(slot.path[0], slot.key)?)),
        Some(above) => {
            let father = slot.siblings[above];
            Some((father, pool.first_child(father)?))
        }
    }
}

/// The pages beside a next at its leaf are its second way, and the wanted one follows.
fn fits_second(pool: &Pool, slot: &Slot) -> bool {
    let beside = slot.beside as usize;
    let is_at = |place: usize, p: u32| {
        second_at(pool, slot, place)
            .is_some_and(|(father, own)| own == p && pool.level(father) == pool.level(p) + 1)
    };
    (0..beside).all(|place| is_at(place, slot.siblings[place])) && is_at(beside, slot.want)
}

/// Whether an upper page sends a key to a page one level lower.
fn leads(pool: &Pool, key: u32, father: u32, child: u32) -> bool {
    pool.level(father) == pool.level(child) + 1 && pool.route(father, key) == child
}

/// The pages held and the wanted one are sound, and the path is one that the rules would have.
fn fits_so_far(pool: &Pool, n: u32, slot: &Slot) -> bool {
    let pages_sound = slot.held().all(|p| pool.is_page_sound(p, n));
    if !pages_sound || !pool.is_page_sound(slot.want, n) {
        return false;
    }
    let path = &slot.path[..slot.depth as usize];
    let Some((&top, below)) = path.split_first() else {
        return true;
    };
    let is_way = path
        .windows(2)
        .all(|pair| leads(pool, slot.key, pair[0], pair[1]));
    let is_top = slot.kind == SEARCH
        || ((top == 0 || is_safe(pool, slot, top))
            && !below.iter().any(|&p| is_safe(pool, slot, p)));
    is_way && is_top
}

/// What is held and wanted is what the rules would have: a page that is held, or a new one.
fn fits(pool: &Pool, slot: &Slot, converting: bool) -> bool {
    if converting {
        fits_conversion(pool, slot)
    } else {
        fits_new(pool, slot)
    }
}

/// Going down, or beside the path.
fn fits_new(pool: &Pool, slot: &Slot) -> bool {
    let depth = slot.depth as usize;
    let own = lock_held(slot.kind);
    if slot.lock != lock_due(pool, slot) || slot.held_with().any(|(_, lock)| lock != own) {
        return false;
    }
    if depth == 0 {
        return slot.want == 0;
    }
    let lowest = slot.path[depth - 1];
    if !is_at_leaf(pool, slot) {
        return slot.beside == 0 && leads(pool, slot.key, lowest, slot.want);
    }
    if slot.kind == NEXT {
        return pool.first_from(lowest, slot.key).is_none() && fits_second(pool, slot);
    }
    let beside = slot.beside as usize;
    (slot.kind == DELETE || slot.kind == DELETE_THIRD)
        && pool.find(lowest, slot.key).is_some()
        && fits_siblings(pool, slot)
        && next_sibling(pool, slot) == Some(slot.want)
        && pool.level(slot.want) as usize == beside + 1
}

/// The siblings held are those that the rules took, and all but the last join.
fn fits_siblings(pool: &Pool, slot: &Slot) -> bool {
    let beside = slot.beside as usize;
    (0..beside).all(|height| {
        let p = slot.siblings[height];
        sibling_at(pool, slot, height) == Some(p)
            && pool.level(p) as usize == height + 1
            && (height + 1 == beside || pool.count(p) == pool.k)
    })
}

/// The change is known, and it is the wanted page's turn.
fn fits_conversion(pool: &Pool, slot: &Slot) -> bool {
    if !is_at_leaf(pool, slot) {
        return false;
    }
    let is_there = pool
        .find(slot.path[slot.depth as usize - 1], slot.key)
        .is_some();
    let is_known = is_there != (slot.kind == INSERT_THIRD)
        && (slot.kind != DELETE_THIRD
            || (fits_siblings(pool, slot) && next_sibling(pool, slot).is_none()));
    let mut is_done = true;
    let fits_turn = in_order(slot).all(|(p, lock)| {
        is_done &= p != slot.want;
        (lock == numbers::LOCK_XI) == is_done
    });
    is_known && fits_turn
}

/// The pages held in the order of their conversion, with their locks: down the levels, on each the path page before its sibling.
fn in_order(slot: &Slot) -> impl Iterator<Item = (u32, u32)> + '_ {
    let depth = slot.depth as usize;
    (0..depth).flat_map(move |at| {
        let height = depth - 1 - at;
        let sibling = (height < slot.beside as usize)
            .then(|| (slot.siblings[height], slot.sibling_locks[height]));
        [(slot.path[at], slot.path_locks[at])]
            .into_iter()
            .chain(sibling)
    })
}

/// The wanted page, which is held, has ξ from now on.
fn convert(slot: &mut Slot) {
    let path = slot.path.iter().zip(&mut slot.path_locks);
    let siblings = slot.siblings.iter().zip(&mut slot.sibling_locks);
    let path = path.take(slot.depth as usize);
    for (&p, lock) in path.chain(siblings.take(slot.beside as usize)) {
        if p == slot.want {
            *lock = numbers::LOCK_XI;
        }
    }
}

/// The change is known: by the third way the next page is converted, and where none is left, and by any other way, the change is made.
fn over(pool: &mut Pool, n: u32, slot: &Slot) -> Course {
    let is_due = |&(_, lock): &(u32, u32)| lock != numbers::LOCK_XI;
    if is_third(slot.kind) {
        if let Some((next, _)) = in_order(slot).find(is_due) {
            return Course::Converts(next);
        }
    }
    Course::Ends(change(pool, n, slot))
}

/// Makes the whole change.
fn change(pool: &mut Pool, n: u32, slot: &Slot) -> Answer {
    let path = &slot.path[..slot.depth as usize];
    let siblings = &slot.siblings[..slot.beside as usize];
    match first(slot.kind) {
        INSERT => insert(pool, n, slot, path),
        REGRADE => {
            let leaf = path[path.len() - 1];
            let old = pool.find(leaf, slot.key).unwrap_or(0);
            pool.regrade(leaf, slot.key, slot.information);
            with(numbers::REGRADED, old)
        }
        _ => with(numbers::DELETED, pool.delete(path, siblings, slot.key)),
    }
}

/// The wanted page is held now, under the kind with which it was wanted; a safe one gives up its ancestors.
fn take(pool: &Pool, slot: &mut Slot) {
    if is_at_leaf(pool, slot) {
        slot.siblings[slot.beside as usize] = slot.want;
        slot.sibling_locks[slot.beside as usize] = slot.lock;
        slot.beside += 1;
        return;
    }
    if is_safe(pool, slot, slot.want) {
        slot.path = Default::default();
        slot.path_locks = Default::default();
        slot.depth = 0;
    }
    slot.path[slot.depth as usize] = slot.want;
    slot.path_locks[slot.depth as usize] = slot.lock;
    slot.depth += 1;
}

/// What the operation does from where it stands.
fn judge<const TESTS: bool>(pool: &mut Pool, n: u32, slot: &Slot) -> Course {
    let goes = |next: u32| {
        if TESTS && slot.held().any(|page| page == next) {
            return Course::Broken;
        }
        Course::Goes(next)
    };
    let path = &slot.path[..slot.depth as usize];
    let lowest = path[path.len() - 1];
    if pool.level(lowest) > 1 {
        return goes(pool.route(lowest, slot.key));
    }
    if slot.kind == NEXT {
        return match next(pool, slot, lowest) {
            Ok(answer) => Course::Ends(answer),
            Err(want) => goes(want),
        };
    }
    if is_second(slot.kind) && begins_again(pool, slot, lowest) {
        return Course::Again;
    }
    let found = pool.find(lowest, slot.key);
    match (first(slot.kind), found) {
        (SEARCH, Some(information)) => Course::Ends(with(numbers::FOUND, information)),
        (SEARCH, None) => Course::Ends(plain(numbers::NOT_FOUND)),
        (INSERT, Some(information)) => Course::Ends(with(numbers::ALREADY_THERE, information)),
        (INSERT, None) | (REGRADE, Some(_)) => over(pool, n, slot),
        (_, None) => Course::Ends(plain(numbers::NO_SUCH_KEY)),
        (_, Some(_)) => match next_sibling(pool, slot) {
            Some(next) if !is_second(slot.kind) => goes(next),
            _ => over(pool, n, slot),
        },
    }
}

/// What a next at its leaf is answered, or the page that it wants then.
fn next(pool: &Pool, slot: &Slot, leaf: u32) -> Result<Answer, u32> {
    let beside = slot.beside as usize;
    let last = match beside {
        0 => leaf,
        _ => slot.siblings[beside - 1],
    };
    let entry = (pool.level(last) == 1).then(|| pool.first_from(last, slot.key));
    match (entry.flatten(), second_at(pool, slot, beside)) {
        (Some((key, information)), _) => Ok([numbers::NEXT_LOT, key, information, 0]),
        (None, Some((_, want))) => Err(want),
        (None, None) => Ok(plain(numbers::NO_LOT)),
    }
}

/// Counts room, and makes the whole change of an insertion.
fn insert(pool: &mut Pool, n: u32, slot: &Slot, path: &[u32]) -> Answer {
    let is_full = |&&p: &&u32| pool.count(p) == 2 * pool.k;
    let need = if is_full(&&path[path.len() - 1]) {
        let full = path.iter().filter(is_full).count();
        full + usize::from(path[0] == 0 && is_full(&&path[0]))
    } else {
        0
    };
    let mut taken = [0; 11];
    if need > 0 && !pool.free(n, need, &mut taken) {
        return plain(numbers::NO_ROOM);
    }
    pool.insert(path, slot.key, slot.information, &taken[..need]);
    plain(numbers::INSERTED)
}
