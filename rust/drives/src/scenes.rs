//! Scenes by kind: long schedules from fresh pools, runs with words changed in the middle, pools that are opened, and moments that
//! no run reaches.

use draw::Random;
use moments::{
    built, draw, limits, next_call, operation, spoiled_state, spoiled_words, Call, Draw, Moment,
};
use twin::{
    at, is_sound, kind, page_words, row, state_of, Lock, Op, State, Way, BLANK_KEY, FRONT, HALF,
    SLOTS, STATE,
};
use versus::spoiled;

use crate::opening::{opening, raw_opening};
use crate::scene::{call_line, Scene};

/// A kind of scene.
#[derive(Clone, Copy, Debug, PartialEq, Eq)]
pub enum Kind {
    /// A schedule from a fresh pool.
    Fresh,
    /// The same in pools up to the largest, with up to 16 slots.
    Large,
    /// A schedule in which words of pages are changed, and mostly put back after some calls.
    SpoiledWords,
    /// A schedule in which words of the state are changed, and mostly put back after some calls.
    SpoiledState,
    /// Single calls in the middle of runs, where an operation holds much or converts, with one thing made wrong there.
    Spoiled,
    /// Pages that are sound and in their place, but with drawn keys and pointers.
    Built,
    /// States near the limits of a sound one.
    Limits,
    /// A state of drawn words.
    Raw,
    /// Makings, in and out of range.
    Making,
    /// A schedule whose pool is opened now and then, as it is or with something changed.
    Opening,
    /// Openings of drawn words.
    RawOpening,
    /// Lines with something wrong.
    Lines,
}

/// All kinds, the weightier ones more than once.
pub const KINDS: [Kind; 20] = [
    Kind::Fresh,
    Kind::Fresh,
    Kind::Fresh,
    Kind::Large,
    Kind::SpoiledWords,
    Kind::SpoiledWords,
    Kind::SpoiledState,
    Kind::SpoiledState,
    Kind::Spoiled,
    Kind::Spoiled,
    Kind::Built,
    Kind::Built,
    Kind::Limits,
    Kind::Raw,
    Kind::Making,
    Kind::Opening,
    Kind::Opening,
    Kind::Opening,
    Kind::RawOpening,
    Kind::Lines,
];

/// A scene of a kind.
pub fn draw_scene(kind: Kind, random: &mut Random) -> Scene {
    match kind {
        Kind::Fresh => schedule(random, Spoils::Nothing),
        Kind::SpoiledWords => schedule(random, Spoils::Words),
        Kind::SpoiledState => schedule(random, Spoils::State),
        Kind::Lines => schedule(random, Spoils::Lines),
        Kind::Large => large(random),
        Kind::Spoiled => many(random, 4, spoiled_scene),
        Kind::Built => many(random, 12, built_scene),
        Kind::Limits => many(random, 12, limits_scene),
        Kind::Raw => many(random, 12, raw_scene),
        Kind::Making => making(random),
        Kind::Opening => opening(random),
        Kind::RawOpening => raw_opening(random),
    }
}

/// What is spoiled on the way.
#[derive(Clone, Copy, PartialEq, Eq)]
enum Spoils {
    Nothing,
    Words,
    State,
    Lines,
}

/// One scene made of several moments.
fn many(random: &mut Random, moments: usize, add: fn(&mut Random, &mut Scene)) -> Scene {
    let mut scene = Scene::new(0, 0);
    scene.text("q 1");
    for _ in 0..moments {
        add(random, &mut scene);
    }
    scene
}

/// The moment behind the last line, to draw the next call from. A state that is none is an empty one.
fn moment(scene: &mut Scene) -> Moment {
    Moment {
        state: state_of(&scene.drive.state).unwrap_or(State::empty(0, 0)),
        words: std::mem::take(&mut scene.drive.words),
    }
}

/// The next call: one of a schedule where the state is sound, otherwise any.
pub(crate) fn next(random: &mut Random, draw: &Draw, scene: &mut Scene, at: usize) -> Call {
    let moment = moment(scene);
    let length = draw.n as usize * page_words(draw.k);
    let goes_on = is_sound(&moment.state)
        && moment.state.n == draw.n
        && moment.state.k == draw.k
        && moment.words.len() == length
        // in a spoiled state it may be that no open slot can be granted
        && (moment.open().is_empty() || !moment.ready().is_empty());
    let call = if goes_on {
        next_call(random, draw, &moment, at)
    } else {
        any_call(random, draw)
    };
    scene.drive.words = moment.words;
    call
}

/// A call with nothing behind it.
fn any_call(random: &mut Random, draw: &Draw) -> Call {
    let slot = random.below(17) as usize;
    match random.below(4) {
        0 => Call::Begin(slot, operation(random, draw, true, &[])),
        1 => Call::Report(random.below(u64::from(draw.n) + 2) as u32),
        _ => Call::Step(slot),
    }
}

/// A schedule from a fresh pool.
fn schedule(random: &mut Random, spoils: Spoils) -> Scene {
    let mut draw = draw(random);
    if random.percent(40) {
        draw.k = random.from(1, 16) as u32;
        draw.n = random.from(1, 24) as u32;
        draw.keys = random.from(4, 400);
        draw.turn = random.from(20, 700) as usize;
    }
    let mut scene = fresh(random, &draw);
    scene.text("q 1");
    let calls = random.from(60, 900) as usize;
    let mut at = 0;
    while at < calls {
        if spoils != Spoils::Nothing && at > 20 && random.percent(6) {
            at += spoil(random, &draw, &mut scene, spoils, at);
        } else {
            let call = next(random, &draw, &mut scene, at);
            scene.call(call);
            at += 1;
        }
    }
    scene
}

/// A pool just made, over rubbish.
pub(crate) fn fresh(random: &mut Random, draw: &Draw) -> Scene {
    let mut scene = Scene::new(draw.n as usize * page_words(draw.k), random.bits() as u32);
    let rubbish: Vec<u32> = (0..STATE).map(|_| random.below(20) as u32).collect();
    scene.state_words(&rubbish);
    scene.text(&format!("m {} {}", draw.k, draw.n));
    scene
}

/// A long schedule in a large pool. The sums of so many words are asked for now and then.
fn large(random: &mut Random) -> Scene {
    let k = random.one(&[1, 2, 3, 7, 15, 16]);
    let draw = Draw {
        k,
        n: random.one(&[64, 100, 255, 512, 1000, 1023, 1024]),
        keys: random.one(&[2000, 30000, 1 << 32]),
        slots: random.one(&[1, 4, 16, 16]),
        turn: random.from(1000, 4000) as usize,
        readers: random.one(&[0, 30]),
    };
    let mut scene = fresh(random, &draw);
    for at in 0..random.from(500, 3000) as usize {
        let call = next(random, &draw, &mut scene, at);
        if at % 100 == 99 {
            scene.text("q 1");
            scene.call(call);
            scene.text("q 0");
        } else {
            scene.call(call);
        }
    }
    scene
}

/// Spoils something, makes some calls, and mostly puts it back. Gives how many calls that were.
fn spoil(random: &mut Random, draw: &Draw, scene: &mut Scene, spoils: Spoils, at: usize) -> usize {
    match spoils {
        Spoils::Lines => {
            let call = next(random, draw, scene, at);
            let line = spoiled(random, &call_line(call));
            scene.line(line);
            1
        }
        Spoils::Words => spoil_cells(random, draw, scene, at, 'w'),
        _ => spoil_cells(random, draw, scene, at, 's'),
    }
}

/// Changes some words of the pool or of the state, makes some calls, and mostly puts the words back.
fn spoil_cells(
    random: &mut Random,
    draw: &Draw,
    scene: &mut Scene,
    from: usize,
    letter: char,
) -> usize {
    let before = (scene.drive.state, scene.drive.words.clone());
    for _ in 0..random.one(&[1, 1, 1, 2, 3]) {
        let (place, word) = spoiled_cell(random, draw, scene, letter);
        scene.text(&format!("{letter} {place} {word}"));
    }
    let calls = random.from(1, 4) as usize;
    for i in 0..calls {
        let call = next(random, draw, scene, from + i);
        scene.call(call);
    }
    if random.percent(90) {
        // all as before, also what the calls wrote
        scene.state_words(&before.0);
        scene.pool_words(&before.1);
    }
    calls
}

/// A place in the pool or in the state, and another word for it; now and then that of a blank tag where a key stands.
fn spoiled_cell(random: &mut Random, draw: &Draw, scene: &mut Scene, letter: char) -> (usize, u32) {
    match letter {
        'w' if random.percent(20) => (blank_place(random, draw, scene), BLANK_KEY),
        's' if random.percent(15) => (at(row::KEY, any_slot(random, scene)), BLANK_KEY),
        'w' => {
            let place = pool_place(random, draw, scene);
            let was = scene.drive.words.get(place).copied();
            (place, changed(random, draw, was.unwrap_or(0)))
        }
        _ => {
            let place = state_place(random, scene);
            let was = scene.drive.state.get(place).copied();
            (place, changed_cell(random, draw, place, was.unwrap_or(0)))
        }
    }
}

/// A page of the pool, best one that some slot holds or wants.
fn page_place(random: &mut Random, draw: &Draw, scene: &mut Scene) -> usize {
    let moment = moment(scene);
    let pages: Vec<u32> = moment
        .state
        .slots
        .iter()
        .filter(|slot| slot.op.is_some() && slot.depth <= 10 && slot.beside <= 10)
        .flat_map(|slot| [slot.held(), vec![slot.want]].concat())
        .collect();
    scene.drive.words = moment.words;
    let page = if pages.is_empty() || random.percent(15) {
        random.below(u64::from(draw.n)) as usize
    } else {
        random.one(&pages) as usize
    };
    page * page_words(draw.k)
}

/// Where a page has its first key: a leaf its lowest lot, an upper page its first reference key.
fn blank_place(random: &mut Random, draw: &Draw, scene: &mut Scene) -> usize {
    let start = page_place(random, draw, scene);
    let is_leaf = scene.drive.words.get(start) == Some(&1);
    start + if is_leaf { 2 } else { 3 }
}

/// A word of such a page.
fn pool_place(random: &mut Random, draw: &Draw, scene: &mut Scene) -> usize {
    let start = page_place(random, draw, scene);
    let size = page_words(draw.k);
    let word = match random.below(4) {
        0 => 0,
        1 => 1,
        _ => random.below(size as u64) as usize,
    };
    start + word
}

/// A word of the state, best one of an open slot.
fn state_place(random: &mut Random, scene: &Scene) -> usize {
    let slot = any_slot(random, scene);
    match random.below(14) {
        0 => random.below(3) as usize,
        1 | 2 => random.below(FRONT as u64) as usize,
        3 => random.below(STATE as u64 + 1) as usize,
        4 | 5 => at(random.below(row::PATH as u64 + 2) as usize, slot),
        6 | 7 => at(row::SIBLINGS + random.below(3) as usize, slot),
        8 | 9 => held_place(random, &scene.drive.state, slot),
        _ => at(random.below(row::PATH as u64) as usize, slot),
    }
}

/// A slot, best an open one.
fn any_slot(random: &mut Random, scene: &Scene) -> usize {
    let open: Vec<usize> = (0..SLOTS)
        .filter(|&slot| scene.drive.state[at(row::KIND, slot)] != kind::CLOSED)
        .collect();
    if open.is_empty() || random.percent(20) {
        random.below(SLOTS as u64) as usize
    } else {
        random.one(&open)
    }
}

/// The word of a page that a slot holds; of its first cell, where it holds none.
fn held_place(random: &mut Random, state: &[u32; STATE], slot: usize) -> usize {
    let rows = |first: usize, count: usize| {
        let held = state[at(count, slot)].min(10) as usize;
        (first..first + held).map(|row| at(row, slot))
    };
    let path = rows(row::PATH, row::DEPTH);
    let held: Vec<usize> = path.chain(rows(row::SIBLINGS, row::BESIDE)).collect();
    if held.is_empty() {
        at(row::PATH, slot)
    } else {
        random.one(&held)
    }
}

/// Another word of the state. That of a held page has mostly another page or another kind of lock alone.
fn changed_cell(random: &mut Random, draw: &Draw, place: usize, was: u32) -> u32 {
    let (page, kind) = (was % HALF, was / HALF);
    match random.below(4) {
        0 | 1 if place >= at(row::PATH, 0) => changed(random, draw, page) % HALF + HALF * kind,
        2 => {
            let near = random.below(8) as u32;
            let far = (kind + random.one(&[8, 256, HALF / 2])) % HALF;
            page + HALF * random.one(&[near, near, near, far])
        }
        _ => changed(random, draw, was),
    }
}

/// Another word: near the one that was, or at some limit.
fn changed(random: &mut Random, draw: &Draw, was: u32) -> u32 {
    let limits = [
        0,
        1,
        2,
        3,
        5,
        6,
        8,
        9,
        10,
        11,
        12,
        15,
        16,
        17,
        1024,
        1025,
        u32::MAX,
    ];
    match random.below(8) {
        0 | 1 => was.wrapping_add(1),
        2 => was.wrapping_sub(1),
        3 => random.below(u64::from(draw.n) + 1) as u32,
        4 => random.below(draw.keys) as u32,
        5 => random.one(&[draw.k, 2 * draw.k, 2 * draw.k + 1, draw.n]),
        6 => random.below(16) as u32,
        _ => random.one(&limits),
    }
}

/// Puts a moment in place and makes calls on it.
fn put(scene: &mut Scene, moment: &Moment, calls: &[Call]) {
    scene.text(&format!("p {} 0", moment.words.len()));
    scene.pool_words(&moment.words);
    scene.state(&moment.state);
    for &call in calls {
        scene.call(call);
    }
}

/// A step on a built pool, and some more of the same slot.
fn built_scene(random: &mut Random, scene: &mut Scene) {
    let Some((moment, calls)) = built(random) else {
        return;
    };
    put(scene, &moment, &calls);
    for _ in 0..random.below(3) {
        scene.call(calls[0]);
    }
}

/// A call in the middle of a run, with words or cells spoiled: also around conversions.
fn spoiled_scene(random: &mut Random, scene: &mut Scene) {
    let drawn = if random.percent(60) {
        Some(spoiled_state(random))
    } else {
        spoiled_words(random)
    };
    if let Some((moment, calls)) = drawn {
        put(scene, &moment, &calls);
    }
}

/// Calls on a state near the limits of a sound one.
fn limits_scene(random: &mut Random, scene: &mut Scene) {
    let (mut moment, calls) = limits(random);
    let length = moment.state.n as usize * page_words(moment.state.k.min(20));
    if length < 3000 && random.percent(30) {
        moment.words = (0..length).map(|_| random.below(3) as u32).collect();
    }
    put(scene, &moment, &calls);
}

/// Calls on drawn words: small ones, so that some of the state is sound by chance.
fn raw_scene(random: &mut Random, scene: &mut Scene) {
    let (k, n) = (random.from(1, 3) as u32, random.from(1, 9) as u32);
    let length = n as usize * page_words(k);
    let most = random.one(&[1, 2, 4]);
    let open = random.one(&[0, 5, 20]);
    let mut state = [0; STATE];
    state[0] = k;
    state[1] = n;
    for slot in 0..SLOTS {
        if random.percent(open) {
            state[3 + state[2] as usize] = slot as u32;
            state[2] += 1;
            open_raw(random, &mut state, slot, most);
        } else if random.percent(20) {
            // a closed slot's key, information, want and lock are not looked at, nor its cells for pages
            let rows = (row::KEY..=row::LOCK).chain(row::PATH..row::COUNT);
            let row = random.one(&rows.collect::<Vec<usize>>());
            state[at(row, slot)] = random.one(&[7, 7 * HALF, u32::MAX]);
        }
    }
    if random.percent(50) {
        let place = random.below(STATE as u64) as usize;
        state[place] = random.below(20) as u32 + HALF * random.one(&[0, 0, 0, 1, 3, 7]);
    }
    scene.text(&format!("p {length} 0"));
    let words: Vec<u32> = (0..length).map(|_| random.below(most) as u32).collect();
    scene.pool_words(&words);
    scene.state_words(&state);
    for _ in 0..4 {
        let slot = random.below(17);
        let line = match random.below(4) {
            0 => {
                let kind = random.below(u64::from(kind::LAST) + 2);
                format!("b {slot} {kind} {} 5", random.below(4))
            }
            1 => format!("r {}", random.below(u64::from(n) + 2)),
            _ => format!("t {slot}"),
        };
        scene.text(&line);
    }
}

/// A slot of drawn words: an operation, and mostly the kinds of lock that are its own.
fn open_raw(random: &mut Random, state: &mut [u32; STATE], slot: usize, most: u64) {
    let kind = random.from(u64::from(kind::SEARCH), u64::from(kind::LAST)) as u32;
    for row in 0..row::COUNT {
        let word = random.below(most) as u32;
        state[at(row, slot)] = match row {
            row::KIND => kind,
            row::LOCK => raw_lock(random, kind),
            row::PATH.. => word + HALF * raw_lock(random, kind),
            _ => word,
        };
    }
}

/// The number of a kind of lock: mostly the one with which an operation of this kind goes down.
fn raw_lock(random: &mut Random, kind: u32) -> u32 {
    let own = Op::of(kind, 0, 0).map_or(Lock::None, Op::holds);
    if random.percent(90) {
        own.number()
    } else {
        random.below(8) as u32
    }
}

/// Makings.
fn making(random: &mut Random) -> Scene {
    let mut scene = Scene::new(0, 0);
    scene.text("q 1");
    for _ in 0..8 {
        let k = random.one(&[0, 1, 1, 2, 3, 16, 17, u32::MAX]);
        let n = random.one(&[0, 1, 2, 3, 9, 1023, 1024, 1025, u32::MAX]);
        let right = u64::from(n) * page_words(k.min(20)) as u64;
        let length = if right < 69_999 {
            right
        } else {
            random.below(30)
        };
        let length = match random.below(6) {
            0 => length + 1,
            1 => length.saturating_sub(1),
            _ => length,
        };
        scene.text(&format!("p {length} {}", random.bits() as u32));
        scene.text(&format!(
            "s 0 {} {} {}",
            random.below(9),
            random.below(9),
            random.below(9)
        ));
        scene.text(&format!("m {k} {n}"));
        let way = random.one(&Way::ALL);
        for call in [
            Call::Begin(3, Op::Insert(4, 5, way)),
            Call::Step(3),
            Call::Report(0),
        ] {
            scene.call(call);
        }
    }
    scene
}
