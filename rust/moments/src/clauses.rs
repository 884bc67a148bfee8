//! Each way to break a second way breaks just one of its clauses, and is answered Damaged.

use draw::Random;
use twin::{step, Answer, Op, Page, Slot, State};

use crate::broken::{read, second, BREAKS};
use crate::pages::{operation, rubbish, Build};
use crate::second_way::place_second;

/// Which clauses hold, in the order of `BREAKS`.
fn clauses(build: &Build, slot: &Slot, key: u32) -> Option<[bool; 8]> {
    let all = |numbers: &[u32]| numbers.iter().map(|&number| read(build, number)).collect();
    let (path, beside): (Option<Vec<Page>>, Option<Vec<Page>>) =
        (all(slot.path()), all(&second(slot)));
    let (path, beside) = (path?, beside?);
    let (top, leaf) = (&path[0], path.last()?);
    let falls = |pages: &[Page]| pages.windows(2).all(|two| two[0].level == two[1].level + 1);
    let firsts = beside.iter().map(Page::first_child);
    let mut leads = std::iter::once(top.right_of_route(key)).chain(firsts);
    Some([
        leaf.level > 1 || leaf.keys.iter().all(|&own| own < key),
        path[1..]
            .iter()
            .all(|page| page.right_of_route(key).is_none()),
        top.right_of_route(key).is_some(),
        (1..slot.depth).all(|at| path[at - 1].route(key) == slot.path[at]),
        second(slot)
            .iter()
            .all(|to| leads.next().flatten().is_none_or(|lead| lead == *to)),
        falls(&path),
        top.level == beside[0].level + 1 && falls(&beside),
        leaf.level == 1,
    ])
}

/// What a step of the slot is answered.
fn answer(mut build: Build, slot: Slot) -> Answer {
    let mut state = State::empty(build.k, build.n);
    state.slots[0] = slot;
    state.waiting = 1;
    step(&state, &mut build.words, 0).0
}

#[test]
fn each_breaks_one_clause() {
    let mut random = Random(1);
    let mut broken = [0; BREAKS.len()];
    for turn in 0..8000 {
        let mut build = rubbish(&mut random);
        let Op::Next(key) = operation(&mut random, &build) else {
            continue;
        };
        let Some(mut slot) = place_second(&mut random, &mut build, key) else {
            continue;
        };
        // in the smallest pools a page points beyond the last one
        let Some(holds) = clauses(&build, &slot, key) else {
            continue;
        };
        assert_eq!(holds, [true; 8]);
        let chosen = turn % BREAKS.len();
        if BREAKS[chosen](&mut random, &mut build, &mut slot, key).is_some() {
            let others: [bool; 8] = std::array::from_fn(|clause| clause != chosen);
            assert_eq!(clauses(&build, &slot, key), Some(others));
            assert_eq!(answer(build, slot), Answer::Damaged);
            broken[chosen] += 1;
        }
    }
    assert!(broken.iter().all(|&times| times > 20), "{broken:?}");
}
