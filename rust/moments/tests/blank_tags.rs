//! The draws reach what the blank tag asks for: key 0 in beginnings, in closed slots and busy ones; in leaves that steps and openings meet, where
//! nothing else is wrong; and in upper pages, which are sound with it.

use draw::Random;
use moments::{
    built, draw, draw_calls, handed, limits, made, spoiled_state, spoiled_words, Call, Moment,
};
use twin::{is_sound, open, page_words, Answer, Op, BLANK_KEY};

/// The words with 1 for the key of a blank tag, where a leaf has it first.
fn put_right(k: u32, words: &[u32]) -> Vec<u32> {
    let mut words = words.to_vec();
    for part in words.chunks_mut(page_words(k.max(1))) {
        if part.len() > 2 && part[0] == 1 && part[1] > 0 && part[2] == BLANK_KEY {
            part[2] = 1;
        }
    }
    words
}

/// Whether a call is answered so, and otherwise where no leaf has the key of a blank tag.
fn is_for_blank_alone(moment: &Moment, call: Call, answer: Answer) -> bool {
    let mut right = moment.clone();
    right.words = put_right(moment.state.k, &moment.words);
    right.words != moment.words && moment.clone().call(call) == answer && right.call(call) != answer
}

/// Whether a slot holds or wants an upper page whose first reference key is that of a blank tag.
fn has_blank_reference(moment: &Moment, slot: usize) -> bool {
    let its = &moment.state.slots[slot];
    let size = page_words(moment.state.k);
    let mut pages = its.held().into_iter().chain([its.want]);
    pages.any(|page| {
        let part = &moment.words[page as usize * size..][..size];
        part[0] > 1 && part[3] == BLANK_KEY
    })
}

/// Moments with one step each.
fn steps(drawn: impl Iterator<Item = (Moment, Vec<Call>)>) -> Vec<(Moment, Call, usize)> {
    let step = |(moment, calls): (Moment, Vec<Call>)| match calls[..] {
        [call @ Call::Step(slot @ ..16)] => Some((moment, call, slot)),
        _ => None,
    };
    drawn.filter_map(step).collect()
}

/// Steps on pages that were built, from so many draws, and on pages that were spoiled.
fn drawn_steps(seed: u64, draws: usize) -> [Vec<(Moment, Call, usize)>; 2] {
    let mut random = Random(seed);
    let on_built = steps((0..draws).filter_map(|_| built(&mut random)));
    let mut random = Random(seed + 1);
    let on_spoiled = steps((0..3000).filter_map(|_| spoiled_words(&mut random)));
    [on_built, on_spoiled]
}

#[test]
fn beginnings_in_schedules() {
    let mut random = Random(1);
    let (mut refused, mut busy, mut nexts) = (0, 0, 0);
    for _ in 0..200 {
        let draw = draw(&mut random);
        let mut moment = made(draw.k, draw.n);
        for call in draw_calls(&mut random, &draw, &moment.clone(), 0, 300) {
            let answer = moment.call(call);
            let Call::Begin(_, op) = call else {
                continue;
            };
            refused += u32::from(answer == Answer::BadKey);
            busy += u32::from(answer == Answer::SlotBusy && op.is_blank_tag());
            nexts += u32::from(answer == Answer::Begun && op == Op::Next(BLANK_KEY));
        }
    }
    assert!(refused > 200, "{refused}");
    assert!(busy > 50 && nexts > 50, "{busy} {nexts}");
}

#[test]
fn beginnings_on_spoiled_states_and_near_the_limits() {
    let mut random = Random(2);
    let near: Vec<_> = (0..3000).map(|_| limits(&mut random)).collect();
    let spoiled = (0..3000).map(|_| spoiled_state(&mut random));
    let mut heard = Vec::new();
    for (mut moment, calls) in near.into_iter().chain(spoiled) {
        for call in calls {
            let answer = moment.call(call);
            if matches!(call, Call::Begin(_, op) if op.is_blank_tag()) {
                heard.push(answer);
            }
        }
    }
    for answer in [
        Answer::BadState,
        Answer::BadSlot,
        Answer::SlotBusy,
        Answer::BadKey,
    ] {
        let times = heard.iter().filter(|&&own| own == answer).count();
        assert!(times > 20, "{answer:?} {times}");
    }
    assert!(!heard.contains(&Answer::Begun));
}

/// 02 speaks of begin: a state with a slot open for key 0 is sound.
#[test]
fn sound_states_with_a_blank_tag() {
    let mut random = Random(3);
    let near: Vec<_> = (0..3000).map(|_| limits(&mut random).0.state).collect();
    let spoiled = (0..3000).map(|_| spoiled_state(&mut random).0.state);
    let has_blank = |state: &twin::State| {
        let mut ops = state.slots.iter().filter_map(|slot| slot.op);
        is_sound(state) && ops.any(Op::is_blank_tag)
    };
    assert!(near.iter().filter(|state| has_blank(state)).count() > 100);
    assert!(spoiled.filter(has_blank).count() > 20);
}

#[test]
fn leaves_that_steps_meet() {
    for drawn in drawn_steps(4, 12_000) {
        let blank: Vec<usize> = drawn
            .iter()
            .filter(|(moment, call, _)| is_for_blank_alone(moment, *call, Answer::Damaged))
            .map(|(moment, _, slot)| {
                let its = &moment.state.slots[*slot];
                its.depth + its.beside
            })
            .collect();
        assert!(blank.len() > 40, "{}", blank.len());
        // with one page held and with many
        assert!(blank.iter().filter(|&&held| held > 2).count() > 5);
    }
}

#[test]
fn upper_pages_that_steps_pass() {
    for drawn in drawn_steps(6, 6000) {
        let passed = drawn.into_iter().filter(|(moment, call, slot)| {
            let number = moment.clone().call(*call).number();
            number > Answer::Waiting.number() && has_blank_reference(moment, *slot)
        });
        let passed = passed.count();
        assert!(passed > 20, "{passed}");
    }
}

#[test]
fn pools_that_are_opened() {
    let mut random = Random(8);
    let (mut leaves, mut upper) = (0, 0);
    for _ in 0..300 {
        let draw = draw(&mut random);
        let mut moment = made(draw.k, draw.n);
        let calls = random.from(20, 300) as usize;
        for call in draw_calls(&mut random, &draw, &moment, 0, calls) {
            moment.call(call);
        }
        for _ in 0..20 {
            let words = handed(&mut random, draw.k, draw.n, &moment.words);
            let opened = |words: &[u32]| open(draw.k, draw.n, words).0;
            let named = matches!(opened(&words), Answer::BadPageInPool(_));
            let right = opened(&put_right(draw.k, &words));
            leaves += u32::from(named && !matches!(right, Answer::BadPageInPool(_)));
            let mut parts = words.chunks(page_words(draw.k));
            let has_blank = parts.any(|part| part[0] > 1 && part[3] == BLANK_KEY);
            upper += u32::from(has_blank && opened(&words) == Answer::BadTree);
        }
    }
    assert!(leaves > 100 && upper > 100, "{leaves} {upper}");
}
