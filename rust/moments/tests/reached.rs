//! The draws reach what they are for: long and broken second ways of a `Next`, regradings of every outcome, updates of the second way
//! that end at their leaf or begin again, conversions with every outcome, states that are refused for the kind of a lock alone, and pools
//! that are opened with every outcome.

use std::collections::BTreeMap;

use draw::Random;
use moments::{
    built, draw, draw_calls, handed, limits, made, spoiled_state, spoiled_words, Call, Moment,
};
use twin::{is_sound, open, Answer, Lock, Op, Slot, State, Way};

/// A moment's slot that is stepped, and its answer.
fn stepped((mut moment, calls): (Moment, Vec<Call>)) -> Option<(Slot, Answer)> {
    let [Call::Step(number)] = calls[..] else {
        return None;
    };
    let slot = moment.state.slots[number];
    Some((slot, moment.call(calls[0])))
}

/// How many steps of a `Next` are so.
fn count(steps: &[(Slot, Answer)], is_so: impl Fn(&Slot, Answer) -> bool) -> usize {
    let is_next = |slot: &Slot| matches!(slot.op, Some(Op::Next(_)));
    let so = steps
        .iter()
        .filter(|(slot, answer)| is_next(slot) && is_so(slot, *answer));
    so.count()
}

#[test]
fn built_pages() {
    let mut random = Random(4);
    let drawn = (0..4000).filter_map(|_| built(&mut random));
    let steps: Vec<(Slot, Answer)> = drawn.filter_map(stepped).collect();
    let deep_none = |slot: &Slot, answer| slot.depth > 1 && answer == Answer::None;
    assert!(count(&steps, deep_none) > 10);
    for name in ["Moved", "Next", "Damaged"] {
        let on_second = |slot: &Slot, answer: Answer| slot.beside > 1 && answer.name() == name;
        assert!(count(&steps, on_second) > 10, "{name}");
    }
}

#[test]
fn spoiled_pages() {
    let mut random = Random(5);
    let drawn = (0..2000).filter_map(|_| spoiled_words(&mut random));
    let steps: Vec<(Slot, Answer)> = drawn.filter_map(stepped).collect();
    assert!(count(&steps, |slot, _| slot.beside > 0) > 50);
    assert!(count(&steps, |slot, _| slot.beside > 1) > 10);
}

/// How many steps of a regrading are answered so.
fn count_regradings(steps: &[(Slot, Answer)], name: &str) -> usize {
    let is_so = |slot: &Slot, answer: Answer| {
        matches!(slot.op, Some(Op::Regrade(..))) && answer.name() == name
    };
    let so = steps.iter().filter(|(slot, answer)| is_so(slot, *answer));
    so.count()
}

#[test]
fn regradings_on_built_and_spoiled_pages() {
    let mut random = Random(6);
    let drawn = (0..4000).filter_map(|_| built(&mut random));
    let on_built: Vec<(Slot, Answer)> = drawn.filter_map(stepped).collect();
    for name in ["Moved", "Regraded", "NoSuchKey", "Damaged"] {
        assert!(count_regradings(&on_built, name) > 10, "{name}");
    }
    let drawn = (0..2000).filter_map(|_| spoiled_words(&mut random));
    let on_spoiled: Vec<(Slot, Answer)> = drawn.filter_map(stepped).collect();
    assert!(count_regradings(&on_spoiled, "Damaged") > 10);
}

/// The steps of some schedules from fresh pools: the slot before each, its answer, and whether it began again.
fn scheduled(seed: u64) -> Vec<(Slot, Answer, bool)> {
    let mut random = Random(seed);
    let mut steps = Vec::new();
    for _ in 0..200 {
        let draw = draw(&mut random);
        let mut moment = made(draw.k, draw.n);
        for call in draw_calls(&mut random, &draw, &moment.clone(), 0, 300) {
            let before = moment.state;
            let answer = moment.call(call);
            if let Call::Step(slot @ ..16) = call {
                let (was, is) = (before.slots[slot], moment.state.slots[slot]);
                steps.push((
                    was,
                    answer,
                    is_second(&was) && is.op.is_some() && !is_second(&is),
                ));
            }
        }
    }
    steps
}

#[test]
fn regradings_in_schedules() {
    let steps: Vec<(Slot, Answer)> = scheduled(7)
        .into_iter()
        .map(|(slot, answer, _)| (slot, answer))
        .collect();
    for name in ["Waiting", "Moved", "Regraded", "NoSuchKey"] {
        assert!(count_regradings(&steps, name) > 50, "{name}");
    }
}

/// Whether a slot's operation goes the second way.
fn is_second(slot: &Slot) -> bool {
    slot.op.is_some_and(|op| op.way() == Some(Way::Second))
}

/// What an update of the second way can be answered.
const SECOND_ANSWERS: [&str; 6] = [
    "Moved",
    "Inserted",
    "AlreadyThere",
    "Deleted",
    "NoSuchKey",
    "Regraded",
];

#[test]
fn second_ways_on_built_and_spoiled_pages() {
    let mut random = Random(8);
    let drawn = (0..8000).filter_map(|_| built(&mut random));
    let on_built: Vec<(Slot, Answer)> = drawn.filter_map(stepped).collect();
    let drawn = (0..2000).filter_map(|_| spoiled_words(&mut random));
    let on_spoiled: Vec<(Slot, Answer)> = drawn.filter_map(stepped).collect();
    let count = |steps: &[(Slot, Answer)], name: &str| {
        let is_so = |(slot, answer): &&(Slot, Answer)| is_second(slot) && answer.name() == name;
        steps.iter().filter(is_so).count()
    };
    for name in SECOND_ANSWERS {
        assert!(count(&on_built, name) > 20, "{name}");
    }
    assert!(count(&on_built, "Damaged") > 20);
    assert!(count(&on_spoiled, "Damaged") > 20);
}

#[test]
fn second_ways_in_schedules() {
    let steps = scheduled(9);
    for name in SECOND_ANSWERS.into_iter().chain(["Waiting"]) {
        let is_so =
            |(slot, answer, _): &&(Slot, Answer, bool)| is_second(slot) && answer.name() == name;
        assert!(steps.iter().filter(is_so).count() > 50, "{name}");
    }
    let again = |least: usize| {
        let is_so = |(slot, _, again): &&(Slot, Answer, bool)| *again && slot.depth >= least;
        steps.iter().filter(is_so).count()
    };
    // at page 0, and at a leaf below it
    assert!(again(0) - again(1) > 50 && again(1) > 50);
}

/// The same state with every page held under the kind of its slot's operation.
fn held_right(state: &State) -> State {
    let right = |slot: Slot| slot.op.map_or(slot, |op| slot.holding(op.holds()));
    State {
        slots: state.slots.map(right),
        ..*state
    }
}

/// Whether a sound state has a page that a slot reads and another one holds with updater's ρ.
fn is_mixed(state: &State) -> bool {
    let holds = |slot: &Slot, page, lock| slot.lock_on(page) == Some(lock);
    let is_beside = |page: u32| {
        let mut slots = state.slots.iter();
        slots.any(|slot| holds(slot, page, Lock::UpdaterRho))
    };
    let mut slots = state.slots.iter();
    slots.any(|slot| {
        let mut held = slot.held().into_iter();
        held.any(|page| holds(slot, page, Lock::Rho) && is_beside(page))
    })
}

#[test]
fn kinds_of_held_pages() {
    let mut random = Random(10);
    let near: Vec<State> = (0..3000).map(|_| limits(&mut random).0.state).collect();
    let spoiled: Vec<State> = (0..1000)
        .map(|_| spoiled_state(&mut random).0.state)
        .collect();
    let on_built: Vec<State> = (0..3000)
        .filter_map(|_| built(&mut random))
        .map(|(moment, _)| moment.state)
        .collect();
    let is_only_kind = |state: &&State| !is_sound(state) && is_sound(&held_right(state));
    for states in [&near, &spoiled, &on_built] {
        assert!(states.iter().filter(is_only_kind).count() > 10);
    }
    let is_sound_mixed = |state: &&State| is_sound(state) && is_mixed(state);
    assert!(near.iter().filter(is_sound_mixed).count() > 10);
}

/// How many steps of a slot that converts are answered so.
fn count_conversions<'a>(steps: impl Iterator<Item = (&'a Slot, Answer)>, name: &str) -> usize {
    steps
        .filter(|(slot, answer)| slot.converts() && answer.name() == name)
        .count()
}

#[test]
fn conversions_on_built_and_spoiled_pages() {
    let mut random = Random(11);
    let drawn = (0..8000).filter_map(|_| built(&mut random));
    let on_built: Vec<(Slot, Answer)> = drawn.filter_map(stepped).collect();
    let drawn = (0..2000).filter_map(|_| spoiled_words(&mut random));
    let on_spoiled: Vec<(Slot, Answer)> = drawn.filter_map(stepped).collect();
    let count = |steps: &[(Slot, Answer)], name: &str| {
        let steps = steps.iter().map(|(slot, answer)| (slot, *answer));
        count_conversions(steps, name)
    };
    for name in [
        "Moved", "Inserted", "NoRoom", "Deleted", "Regraded", "Damaged", "BadState",
    ] {
        assert!(count(&on_built, name) > 20, "{name}");
    }
    assert!(count(&on_spoiled, "Damaged") > 20);
    let deep = |(slot, answer): &&(Slot, Answer)| {
        slot.converts() && slot.beside > 1 && answer.name() == "Deleted"
    };
    assert!(on_built.iter().filter(deep).count() > 20);
}

#[test]
fn conversions_in_schedules() {
    let steps = scheduled(12);
    for name in [
        "Moved", "Inserted", "NoRoom", "Deleted", "Regraded", "Waiting",
    ] {
        let steps = steps.iter().map(|(slot, answer, _)| (slot, *answer));
        let count = count_conversions(steps, name);
        assert!(count > 20, "{name} {count}");
    }
}

/// Whether two slots hold a page, the one with α and the other with this kind.
fn has_beside_alpha(state: &State, lock: Lock) -> bool {
    let slots = || state.slots.iter().enumerate();
    let fits = |slot: &Slot| slot.depth <= 10 && slot.beside <= 10;
    slots().any(|(one, its)| {
        let mut held = its.held_with().filter(|&(_, own)| own == Lock::Alpha);
        held.any(|(page, _)| {
            slots()
                .any(|(other, slot)| one != other && fits(slot) && slot.lock_on(page) == Some(lock))
        })
    })
}

#[test]
fn states_around_conversions() {
    let mut random = Random(13);
    let near = (0..4000).map(|_| limits(&mut random).0.state);
    let near: Vec<State> = near.collect();
    let spoiled = (0..2000).map(|_| spoiled_state(&mut random).0.state);
    let states: Vec<State> = near.into_iter().chain(spoiled).collect();
    let in_range = |state: &&State| {
        let mut slots = state.slots.iter();
        slots.all(|slot| slot.depth <= 10 && slot.beside <= 10)
    };
    let states: Vec<&State> = states.iter().filter(in_range).collect();
    let count = |is_so: &dyn Fn(&State) -> bool| {
        let so = states.iter().filter(|state| is_so(state));
        so.count()
    };
    let converts = |state: &State| state.slots.iter().any(Slot::converts);
    assert!(count(&|state| is_sound(state) && converts(state)) > 50);
    assert!(count(&|state| !is_sound(state) && converts(state)) > 50);
    let from_xi = |slot: &Slot| slot.converts() && slot.lock_on(slot.want) == Some(Lock::Xi);
    assert!(count(&|state| state.slots.iter().any(from_xi)) > 20);
    assert!(count(&|state| is_sound(state) && has_beside_alpha(state, Lock::Rho)) > 20);
    for lock in [Lock::Alpha, Lock::UpdaterRho] {
        assert!(
            count(&|state| has_beside_alpha(state, lock)) > 5,
            "{lock:?}"
        );
    }
}

/// How many pools that were changed are opened with each answer, by its name; those of three levels and more by themselves.
fn opened_with(random: &mut Random) -> BTreeMap<(&'static str, bool), u32> {
    let mut met = BTreeMap::new();
    for _ in 0..300 {
        let draw = draw(random);
        let mut moment = made(draw.k, draw.n);
        let calls = random.from(20, 300) as usize;
        for call in draw_calls(random, &draw, &moment, 0, calls) {
            moment.call(call);
        }
        for _ in 0..20 {
            let words = handed(random, draw.k, draw.n, &moment.words);
            if words != moment.words {
                let (answer, _) = open(draw.k, draw.n, &words);
                *met.entry((answer.name(), words[0] > 2)).or_default() += 1;
            }
        }
    }
    met
}

#[test]
fn pools_that_are_handed_in() {
    let met = opened_with(&mut Random(9));
    for name in ["Opened", "BadTree", "BadPageInPool"] {
        for is_tall in [false, true] {
            assert!(met[&(name, is_tall)] > 100, "{name} {is_tall} {met:?}");
        }
    }
}
