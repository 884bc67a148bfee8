//! Claims about opening a pool: as a run left it, with something changed, and for odd arguments.

use draw::Random;
use moments::{draw, draw_calls, handed, made};
use twin::open;

use crate::text;

/// The most pages of a pool: every word of it stands in the claim.
const MOST: u32 = 16;

/// One claim.
pub fn claim(name: &str, random: &mut Random) -> (Vec<String>, String) {
    let mut draw = draw(random);
    draw.n = draw.n.min(MOST);
    let mut moment = made(draw.k, draw.n);
    let calls = random.below(200) as usize;
    for call in draw_calls(random, &draw, &moment, 0, calls) {
        moment.call(call);
    }
    let mut words = handed(random, draw.k, draw.n, &moment.words);
    let (mut k, mut n) = (draw.k, draw.n);
    match random.below(30) {
        0 => words.push(0),
        1 => k = random.one(&[0, k + 1, 17, u32::MAX]),
        2 => n = random.one(&[0, n + 1, 1025, u32::MAX]),
        _ => {}
    }
    let left = format!("opening {k} {n} {}", text::numbers(&words));
    let (answer, state) = open(k, n, &words);
    let right = text::told(&[answer], &state, &words);
    (
        vec![answer.name().to_string()],
        text::claim(name, &left, &right),
    )
}
