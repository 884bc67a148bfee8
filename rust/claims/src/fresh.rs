//! Claims about random schedules from fresh pools.

use draw::Random;
use moments::{draw, draw_calls, made, Call, Draw, Moment};

use crate::text;
use crate::told::{claim_from, told};

/// A schedule of so many calls in claims of so many each: the first from the fresh pool, each
/// later one from the moment the last one told.
pub fn claims(name: &str, random: &mut Random, calls: usize, each: usize) -> (Vec<String>, String) {
    let draw = draw(random);
    let mut moment = made(draw.k, draw.n);
    let (mut kinds, mut text) = (Vec::new(), String::new());
    for part in 0..calls.div_ceil(each) {
        let drawn = draw_calls(random, &draw, &moment, part * each, each);
        let name = format!("{name}-{part}");
        let (more, claim) = if part == 0 {
            claim_fresh(&name, &draw, &mut moment, &drawn)
        } else {
            claim_from(&name, &mut moment, &drawn)
        };
        kinds.extend(more);
        text.push_str(&claim);
    }
    (kinds, text)
}

/// The claim about a run from a fresh pool.
fn claim_fresh(
    name: &str,
    draw: &Draw,
    moment: &mut Moment,
    calls: &[Call],
) -> (Vec<String>, String) {
    let calls_text = text::list(calls.iter().map(|&call| text::call(call)));
    let left = format!("anew {} {} {calls_text}", draw.k, draw.n);
    let (kinds, right) = told(moment, calls);
    (kinds, text::claim(name, &left, &right))
}
