//! Single calls at moments of a run that were then spoiled: words of pages that a
//! slot holds or wants, or cells of the state.

use draw::Random;
use twin::{page_words, Op, Slot, State, Way, BLANK_KEY};

use crate::converting::{convert, is_third, spoil_turn};
use crate::fresh::{blank_tag, draw, made, next_call, operation, Draw};
use crate::moment::{any_lock, ask, spoil_lock, turn, Call, Moment};

/// A moment in the middle of a random run, grown first and then mostly shrunk; best one where a
/// deletion or a `Next` holds pages beside its path, or its leaf at least.
fn middle(random: &mut Random) -> (Draw, Moment) {
    let mut draw = draw(random);
    // tall trees are for two pages beside and more
    let is_tall = draw.k == 1 && random.percent(60);
    let (n, keys, turn) = if is_tall {
        ((24, 40), (60, 90), (150, 300))
    } else {
        ((6, 24), (8, 40), (60, 160))
    };
    draw.n = random.from(n.0, n.1) as u32;
    draw.keys = random.from(keys.0, keys.1);
    draw.turn = random.from(turn.0, turn.1) as usize;
    let mut moment = made(draw.k, draw.n);
    let calls = random.from(40, 2 * turn.0 + 140) as usize;
    for at in 0.. {
        if at >= calls && random.percent(worth(&moment)) {
            break;
        }
        let call = next_call(random, &draw, &moment, at);
        moment.call(call);
    }
    (draw, moment)
}

/// How often in a hundred a run is left at such a moment.
fn worth(moment: &Moment) -> u64 {
    let ready = moment.ready();
    let slots = || ready.iter().map(|&slot| &moment.state.slots[slot]);
    match slots().map(|slot| slot.beside).max() {
        Some(2..) => 90,
        Some(1) => 30,
        _ if slots().any(Slot::converts) => 5,
        _ if slots().any(|slot| has_leaf(moment, slot)) => 3,
        _ => 1,
    }
}

/// Whether a slot holds its leaf.
fn has_leaf(moment: &Moment, slot: &Slot) -> bool {
    let size = page_words(moment.state.k);
    let lowest = slot.path().last();
    lowest.is_some_and(|&page| moment.words[page as usize * size] == 1)
}

/// An open slot, best one that can be granted and holds many pages, beside its path first of all.
fn choose(random: &mut Random, moment: &Moment) -> Option<usize> {
    let ready = moment.ready();
    let score = |slot: &usize| {
        let slot = &moment.state.slots[*slot];
        (slot.beside, slot.depth)
    };
    let most = ready.iter().map(score).max()?;
    let best: Vec<usize> = ready
        .iter()
        .copied()
        .filter(|slot| score(slot) == most)
        .collect();
    let any = random.one(&moment.open());
    Some(match random.below(10) {
        0..=5 => random.one(&best),
        6..=8 => random.one(&ready),
        _ => any,
    })
}

/// A single step after some words of the slot's pages were changed.
pub fn spoiled_words(random: &mut Random) -> Option<(Moment, Vec<Call>)> {
    let (draw, mut moment) = middle(random);
    let slot = choose(random, &moment)?;
    let pages = [
        moment.state.slots[slot].held(),
        vec![moment.state.slots[slot].want],
    ]
    .concat();
    for _ in 0..random.one(&[1, 1, 1, 2, 3]) {
        let page = random.one(&pages);
        spoil_page(random, &draw, &mut moment.words, page);
    }
    if random.percent(3) {
        moment.words.pop();
    }
    Some((moment, vec![Call::Step(slot)]))
}

/// Changes one thing in a page.
fn spoil_page(random: &mut Random, draw: &Draw, words: &mut [u32], page: u32) {
    let size = page_words(draw.k);
    let start = page as usize * size;
    let part = &mut words[start..start + size];
    let body = 2 + random.below(size as u64 - 2) as usize;
    match random.below(10) {
        0 => part[0] = part[0].wrapping_add(random.one(&[1, 2, 9, 10, u32::MAX])),
        1 => part[1] = part[1].wrapping_add(random.one(&[1, u32::MAX])),
        2 => part[1] = random.one(&[0, 1, draw.k, 2 * draw.k, 2 * draw.k + 1, u32::MAX]),
        3 => part[body] = random.below(u64::from(draw.n) + 2) as u32,
        4 => part[body] = part[body].wrapping_add(random.one(&[1, u32::MAX])),
        5 => part[body] = random.below(draw.keys) as u32,
        6 => part.swap(body, 2 + (body + random.one(&[0, 1, 2])) % (size - 2)),
        7 => part[body] = u32::MAX,
        // the first key of a leaf, or the first reference key
        8 => part[if part[0] == 1 { 2 } else { 3 }] = BLANK_KEY,
        _ => {
            let other = random.below(u64::from(draw.n)) as usize * size;
            words.copy_within(other..other + size, start);
        }
    }
}

/// One call after one or more cells of the state were changed.
pub fn spoiled_state(random: &mut Random) -> (Moment, Vec<Call>) {
    let (draw, mut moment) = middle(random);
    let chosen = choose(random, &moment);
    for _ in 0..random.one(&[1, 1, 2, 3]) {
        let slot = chosen
            .filter(|_| random.percent(70))
            .unwrap_or(random.below(16) as usize);
        spoil_state(random, &draw, &mut moment.state, slot);
    }
    let slot = chosen
        .filter(|_| random.percent(70))
        .unwrap_or(random.below(18) as usize);
    let (op, blank) = (operation(random, &draw, true, &[]), blank_tag(random));
    let call = match random.below(4) {
        0 => Call::Begin(slot, random.one(&[op, op, blank])),
        1 => Call::Report(random.below(u64::from(draw.n) + 2) as u32),
        _ => Call::Step(slot),
    };
    (moment, vec![call])
}

/// Changes one cell of a state.
fn spoil_state(random: &mut Random, draw: &Draw, state: &mut State, number: usize) {
    let page = random.below(u64::from(draw.n) + 1) as u32;
    let odd = random.one(&[0, 1, 2, 9, 10, 11, 15, 16, 17, 1024, 1025, u32::MAX]);
    let cell = random.one(&[0, 0, 0, 1, 1, 2, 3, 9]);
    let drawn = random.below(draw.keys) as u32;
    // such a slot is sound, though no begin opens it
    let key = random.one(&[drawn, drawn, drawn, BLANK_KEY]);
    let way = random.one(&Way::ALL);
    let other = random.below(16) as usize;
    let slot = &mut state.slots[number];
    match random.below(28) {
        0 => state.k = odd,
        1 => state.n = random.one(&[odd, draw.n - 1, draw.n + 1]),
        2 => {
            state.waiting = random.one(&[
                odd as usize,
                state.waiting.wrapping_add(1),
                state.waiting.wrapping_sub(1),
            ])
        }
        3 => state.order[random.below(16) as usize] = odd as usize,
        4 => state.order[cell] = random.below(16) as usize,
        5 => state.order.swap(cell, random.below(16) as usize),
        6 => slot.want = page,
        7 => slot.want = odd,
        8 => {
            slot.depth = random.one(&[
                odd as usize,
                slot.depth.wrapping_add(1),
                slot.depth.wrapping_sub(1),
            ]);
            hold_anew(random, slot);
        }
        9 => {
            slot.beside = random.one(&[
                odd as usize,
                slot.beside.wrapping_add(1),
                slot.beside.wrapping_sub(1),
            ]);
            hold_anew(random, slot);
        }
        10 => slot.path[cell] = page,
        11 => slot.path.swap(cell, random.below(10) as usize),
        12 => slot.siblings[cell] = page,
        13 => slot.siblings[cell] = odd,
        14 => slot.op = None,
        15 => ask(slot, Op::Delete(key, way)),
        16 => ask(slot, Op::Insert(key, odd, way)),
        17 => ask(slot, Op::Next(key)),
        18 => ask(slot, Op::Regrade(key, odd, way)),
        19 => turn(slot, way),
        20 => slot.lock = any_lock(random),
        21 => spoil_lock(random, slot),
        22 => *slot = slot.holding(any_lock(random)),
        23 | 24 => spoil_turn(random, slot),
        25 if slot.op.is_some_and(is_third) => convert(random, slot),
        26 => share(random, state, number, other),
        _ => ask(slot, Op::Search(key)),
    }
}

/// Another slot holds a page of the slot too, mostly with the kind of its operation: α beside α, ρ beside α, and so on.
fn share(random: &mut Random, state: &mut State, number: usize, other: usize) {
    let page = state.slots[number].path[0];
    let slot = &mut state.slots[other];
    let op = slot.op.filter(|_| number != other && slot.depth <= 1);
    if let Some(op) = op {
        slot.path[0] = page;
        slot.depth = 1;
        let lock = any_lock(random);
        *slot = slot.holding(random.one(&[op.holds(), op.holds(), lock]));
    }
}

/// A page more that a slot holds mostly has the kind of its operation, so that the state is not refused for that.
fn hold_anew(random: &mut Random, slot: &mut Slot) {
    if let Some(op) = slot.op.filter(|_| random.percent(70)) {
        *slot = slot.holding(op.holds());
    }
}
