//! Single steps on pools that no run reaches: every page that the slot holds or
//! wants is sound by itself and in its place, but keys, pointers and all other pages are drawn.

use draw::Random;
use twin::{page_words, Lock, Op, Slot, State, Way, BLANK_KEY};

use crate::converting::{is_third, place_conversion, spoil_turn};
use crate::moment::{ask, spoil_lock, turn, Call, Moment};
use crate::pages::{leads, operation, path_count, places, rubbish, write, Build};
use crate::second_way::place_next;

/// One step on a built pool, now and then with one thing wrong.
pub fn built(random: &mut Random) -> Option<(Moment, Vec<Call>)> {
    let mut build = rubbish(random);
    let op = operation(random, &build);
    let mut slot = place_slot(random, &mut build, op)?;
    if random.percent(35) {
        spoil(random, &mut build, &mut slot);
    }
    let mut state = State::empty(build.k, build.n);
    let number = random.below(16) as usize;
    state.slots[number] = slot;
    state.order[0] = number;
    state.waiting = 1;
    add_others(random, &mut state, number);
    let moment = Moment {
        state,
        words: build.words,
    };
    Some((moment, vec![Call::Step(number)]))
}

/// Makes one thing wrong, and leaves the rest as right as can be.
fn spoil(random: &mut Random, build: &mut Build, slot: &mut Slot) {
    let size = page_words(build.k);
    let pages = [slot.held(), vec![slot.want]].concat();
    let page = random.one(&pages);
    let start = page as usize * size;
    let other = random.below(u64::from(build.n)) as u32;
    let key = slot.op.map_or(0, Op::key);
    let drawn = random.below(build.keys) as u32;
    let way = random.one(&Way::ALL);
    if slot.op.is_some_and(is_third) && random.percent(40) {
        return spoil_turn(random, slot);
    }
    match random.below(20) {
        12..=15 => turn_back(random, build, slot),
        16 => slot.lock = random.one(&[Lock::Xi, Lock::UpdaterRho, Lock::Rho, Lock::Alpha]),
        17 => turn(slot, way),
        18 => spoil_lock(random, slot),
        19 => blank_key(random, build, &pages),
        0 => ask(slot, other_op(random, key, way)),
        1 => ask(slot, Op::Insert(key, 1, way)),
        2 => ask(slot, random.one(&[Op::Delete(drawn, way), Op::Next(drawn)])),
        3 | 4 => recount(random, build, page),
        5 => build.words[start] = (build.words[start] + random.one(&[1, 2, 10])) % 12,
        6 => want_copy(build, slot, other),
        7 if slot.beside > 0 => slot.beside -= 1,
        8 => add_sibling(random, build, slot, other),
        9 if slot.depth > 1 => {
            slot.path.rotate_left(1);
            slot.depth -= 1;
        }
        10 if slot.depth > 1 => slot.depth -= 1,
        11 if slot.beside > 1 => slot.siblings.swap(0, slot.beside - 1),
        _ => {
            let at = start + random.below(size as u64) as usize;
            build.words[at] = random.below(5) as u32;
        }
    }
}

/// Another operation on a key than an insertion or a search.
fn other_op(random: &mut Random, key: u32, way: Way) -> Op {
    random.one(&[
        Op::Delete(key, way),
        Op::Next(key),
        Op::Regrade(key, 1, way),
    ])
}

/// The lowest key of a page is that of a blank tag: of a leaf, if there is one, otherwise a reference key, with which the page is sound.
fn blank_key(random: &mut Random, build: &mut Build, pages: &[u32]) {
    let start = |page: u32| page as usize * page_words(build.k);
    let is_leaf = |page: &u32| build.words[start(*page)] == 1;
    let leaves: Vec<u32> = pages.iter().copied().filter(is_leaf).collect();
    let at = if leaves.is_empty() {
        start(random.one(pages)) + 3
    } else {
        start(random.one(&leaves)) + 2
    };
    build.words[at] = BLANK_KEY;
}

/// A page points at one that is held or wanted: where the next want would be read, if the
/// slot stands at its leaf, otherwise anywhere.
fn turn_back(random: &mut Random, build: &mut Build, slot: &Slot) {
    let size = page_words(build.k);
    let pages = [slot.held(), vec![slot.want]].concat();
    let key = slot.op.map_or(0, Op::key);
    let is_next = matches!(slot.op, Some(Op::Next(_)));
    let next = slot.depth.checked_sub(3 + slot.beside);
    let page = match next {
        _ if is_next => random.one(&[slot.want, slot.want, slot.path[0]]),
        Some(at) if random.percent(70) => slot.path[at],
        _ => random.one(&[slot.path(), &[slot.want]].concat()),
    };
    let start = page as usize * size;
    if build.words[start] > 1 && build.words[start + 1] > 0 {
        let (place, beside) = places(build, page, key);
        let first = if is_next { 0 } else { beside };
        let at = random.one(&[place, beside, first]);
        build.words[start + 2 + 2 * at] = random.one(&pages);
    }
}

/// A sibling more than the rules took: the page is sound by itself.
fn add_sibling(random: &mut Random, build: &mut Build, slot: &mut Slot, other: u32) {
    if slot.beside + 1 < slot.depth && !slot.holds(other) && other != slot.want && other != 0 {
        let (level, k) = (1 + random.below(3) as u32, build.k);
        write(random, build, other, level, k, None);
        slot.siblings[slot.beside] = other;
        slot.sibling_locks[slot.beside] = slot.path_locks[0];
        slot.beside += 1;
    }
}

/// Writes a page again with another number of keys.
fn recount(random: &mut Random, build: &mut Build, page: u32) {
    let size = page_words(build.k);
    let k = u64::from(build.k);
    let (start, count) = (page as usize * size, random.from(0, 2 * k) as usize);
    let pairs = if build.words[start] == 1 { 2 } else { 3 };
    build.words[start + 1] = count as u32;
    build.words[start + pairs + 2 * count..start + size].fill(0);
    let from = build.words[start + pairs];
    for i in 0..count {
        let at = start + pairs + 2 * i;
        if build.words[at + 1] == 0 {
            build.words[at] = from + 50 + i as u32;
            build.words[at + 1] = 1 + random.below(u64::from(build.n)) as u32;
        }
    }
}

/// The slot wants another page, with the same words.
fn want_copy(build: &mut Build, slot: &mut Slot, other: u32) {
    let size = page_words(build.k);
    let start = slot.want as usize * size;
    build
        .words
        .copy_within(start..start + size, other as usize * size);
    slot.want = other;
}

/// A few other slots that hold nothing and want page 0, behind the one that is stepped.
fn add_others(random: &mut Random, state: &mut State, number: usize) {
    for other in 0..16 {
        if other != number && random.percent(10) {
            let key = other as u32;
            let op = random.one(&[Op::Search(key), Op::Delete(key, Way::Second)]);
            state.slots[other] = Slot::open(op, 0, &[], &[]);
            state.order[state.waiting] = other;
            state.waiting += 1;
        }
    }
}

/// Draws where the operation stands, and writes the pages it holds and wants.
fn place_slot(random: &mut Random, build: &mut Build, op: Op) -> Option<Slot> {
    if random.percent(8) {
        let level = random.one(&[1, 1, 2, 3, 10]);
        let count = path_count(random, build, op, true, 0, level);
        write(random, build, 0, level, count, None);
        return Some(Slot::open(op, 0, &[], &[]));
    }
    match op {
        Op::Next(key) => place_next(random, build, key),
        _ => place_held(random, build, op),
    }
}

/// The same for an operation that holds something and is no `Next`.
fn place_held(random: &mut Random, build: &mut Build, op: Op) -> Option<Slot> {
    let converts = is_third(op) && random.percent(60);
    let may_go_beside = matches!(op, Op::Delete(_, Way::First | Way::Third));
    let is_beside = may_go_beside && (converts || random.percent(65));
    let held = match (op, op.way()) {
        (Op::Search(_) | Op::Regrade(..), _) | (_, Some(Way::Second)) => 1,
        _ => random.one(&[1, 1, 2, 2, 2, 3, 3, 4, 5, 7, 9]) + u32::from(is_beside),
    };
    let last = if is_beside || converts {
        1
    } else {
        random.one(&[2, 2, 2, 2, 3, 4])
    };
    // a leaf that is held has the key of a deletion or a regrading
    let has_key = !matches!(op, Op::Insert(..)) ^ random.percent(3);
    let top_level = last + held - 1;
    let mut path = vec![if random.percent(50) {
        0
    } else {
        random.from(1, u64::from(build.n) - 1) as u32
    }];
    let mut siblings = Vec::new();
    for at in 0..held {
        let (page, level) = (path[at as usize], top_level - at);
        let count = path_count(random, build, op, at == 0, page, level);
        let with = (level == 1 && has_key).then_some(op.key());
        write(random, build, page, level, count, with);
        if at + 1 < held {
            let used = [&path[..], &siblings[..]].concat();
            let (next, beside) = lead_anew(random, build, page, op.key(), &used)?;
            path.push(next);
            siblings.extend(is_beside.then_some(beside));
        }
    }
    if converts {
        place_conversion(random, build, op, &path, siblings)
    } else if is_beside {
        place_siblings(random, build, op, &path, siblings)
    } else {
        place_want(random, build, op, &path, last)
    }
}

/// The route from a page and the page beside it; the page is drawn again while they are used.
fn lead_anew(
    random: &mut Random,
    build: &mut Build,
    page: u32,
    key: u32,
    used: &[u32],
) -> Option<(u32, u32)> {
    let start = page as usize * page_words(build.k);
    for _ in 0..60 {
        let (next, beside) = leads(build, page, key);
        let is_good = |page: u32| page < build.n && !used.contains(&page);
        if is_good(next) && (is_good(beside) || random.percent(1)) {
            return Some((next, beside));
        }
        let (level, count) = (build.words[start], build.words[start + 1]);
        write(random, build, page, level, count, None);
    }
    None
}

/// Going down: the want is the route of the lowest page; by the second way a leaf is wanted with ξ.
fn place_want(
    random: &mut Random,
    build: &mut Build,
    op: Op,
    path: &[u32],
    last: u32,
) -> Option<Slot> {
    let lowest = path[path.len() - 1];
    let want = lead_anew(random, build, lowest, op.key(), path)?.0;
    let (k, level) = (u64::from(build.k), last - 1);
    let any = random.from(k, 2 * k);
    let count = random.one(&[k, 2 * k, k + 1, any]) as u32;
    let there = !matches!(op, Op::Insert(..)) ^ random.percent(15);
    write(
        random,
        build,
        want,
        level,
        count,
        (there && level == 1).then_some(op.key()),
    );
    let slot = Slot::open(op, want, path, &[]);
    let is_alone = op.way() == Some(Way::Second) && level == 1;
    Some(if is_alone {
        slot.wanting(Lock::Xi)
    } else {
        slot
    })
}

/// At its leaf: some siblings held that joined, and the next one wanted. The siblings are given
/// from the top downward.
fn place_siblings(
    random: &mut Random,
    build: &mut Build,
    op: Op,
    path: &[u32],
    siblings: Vec<u32>,
) -> Option<Slot> {
    let k = u64::from(build.k);
    let upward: Vec<u32> = siblings.into_iter().rev().collect();
    let most = upward.len() as u64 - 1;
    let held = if random.percent(50) {
        most
    } else {
        random.from(0, most)
    } as usize;
    if upward[..=held]
        .iter()
        .any(|&sibling| sibling >= build.n || path.contains(&sibling))
    {
        return None;
    }
    for (height, &sibling) in upward[..=held].iter().enumerate() {
        let does_join = height < held || random.percent(50);
        let count = if does_join { k } else { random.from(k, 2 * k) };
        write(
            random,
            build,
            sibling,
            1 + height as u32,
            count as u32,
            None,
        );
    }
    Some(Slot::open(op, upward[held], path, &upward[..held]))
}
