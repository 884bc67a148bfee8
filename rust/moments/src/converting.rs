//! Slots that convert: the pages held in the order of their conversion, a slot placed in a built pool with its change known, and what
//! makes such a slot wrong.

use draw::Random;
use twin::{Lock, Op, Slot, Way, PATH, SIBLINGS};

use crate::pages::{write, Build};

/// The kinds of lock under which a slot holds its pages, in the order of their conversion, with the pages.
fn in_order(slot: &mut Slot) -> Vec<(u32, &mut Lock)> {
    let (depth, beside) = (slot.depth.min(PATH), slot.beside.min(SIBLINGS));
    let path = slot.path[..depth].iter().zip(&mut slot.path_locks);
    let mut siblings: Vec<_> = slot.siblings[..beside]
        .iter()
        .zip(&mut slot.sibling_locks)
        .map(|(&page, lock)| (page, lock))
        .collect();
    let mut order = Vec::new();
    for (at, (&page, lock)) in path.enumerate() {
        order.push((page, lock));
        // the sibling of this level is the last that is left
        if depth - at <= siblings.len() {
            order.extend(siblings.pop());
        }
    }
    order
}

/// Makes a slot of the third way that holds something want one of its pages with ξ, those before it with ξ already.
pub(crate) fn convert(random: &mut Random, slot: &mut Slot) {
    let mut order = in_order(slot);
    if order.is_empty() {
        return;
    }
    let any = random_below(random, order.len());
    let turn = random.one(&[order.len() - 1, any]);
    for (at, (_, lock)) in order.iter_mut().enumerate() {
        **lock = if at < turn { Lock::Xi } else { Lock::Alpha };
    }
    let want = order[turn].0;
    (slot.want, slot.lock) = (want, Lock::Xi);
}

/// A drawn place among so many.
fn random_below(random: &mut Random, many: usize) -> usize {
    random.below(many as u64) as usize
}

/// Makes one thing about a conversion wrong: a page has the other kind, two change theirs, or another page is wanted, with ξ or with α.
pub(crate) fn spoil_turn(random: &mut Random, slot: &mut Slot) {
    let mut order = in_order(slot);
    if order.is_empty() {
        return;
    }
    let (one, other) = (
        random_below(random, order.len()),
        random_below(random, order.len()),
    );
    let turned = |lock: Lock| match lock {
        Lock::Alpha => Lock::Xi,
        _ => Lock::Alpha,
    };
    let page = order[one].0;
    match random.below(5) {
        0 => *order[one].1 = turned(*order[one].1),
        1 => {
            let (first, second) = (*order[one].1, *order[other].1);
            (*order[one].1, *order[other].1) = (second, first);
        }
        2 => slot.want = page,
        3 => (slot.want, slot.lock) = (page, Lock::Xi),
        _ => slot.lock = turned(slot.lock),
    }
}

/// A slot of the third way at its leaf, with its change known, given its path and what stands beside it from the top downward.
pub(crate) fn place_conversion(
    random: &mut Random,
    build: &mut Build,
    op: Op,
    path: &[u32],
    beside: Vec<u32>,
) -> Option<Slot> {
    let upward: Vec<u32> = beside.into_iter().rev().collect();
    // the last sibling has an entry to spare, or it stands below the top
    let many = match upward.len() {
        0 => 0,
        all if random.percent(50) => all,
        all => 1 + random_below(random, all),
    };
    let upward = &upward[..many];
    let is_good = |&sibling: &u32| sibling < build.n && !path.contains(&sibling);
    if !upward.iter().all(is_good) {
        return None;
    }
    let k = build.k;
    for (height, &sibling) in upward.iter().enumerate() {
        let is_last = height + 1 == many;
        let does_join = !is_last || (many + 1 == path.len() && random.percent(50));
        let count = if does_join {
            k
        } else {
            random.from(u64::from(k) + 1, 2 * u64::from(k)) as u32
        };
        write(random, build, sibling, 1 + height as u32, count, None);
    }
    let mut slot = Slot::open(op, 0, path, upward);
    convert(random, &mut slot);
    Some(slot)
}

/// Whether an operation goes the third way.
pub(crate) fn is_third(op: Op) -> bool {
    op.way() == Some(Way::Third)
}
