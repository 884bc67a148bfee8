//! Claims about making a pool, for sound and odd arguments.

use draw::Random;
use twin::{make, page_words};

use crate::text;

/// One claim.
pub fn claim(name: &str, random: &mut Random) -> (Vec<String>, String) {
    let k = random.one(&[0, 1, 1, 2, 3, 16, 17, 4_294_967_295]);
    let n = random.one(&[0, 1, 2, 3, 9, 1024, 1025, 4_294_967_295]);
    let right = u64::from(n) * page_words(k.min(20)) as u64;
    let length = if right < 400 { right } else { random.below(30) } + random.one(&[0, 0, 0, 1]);
    let mut words: Vec<u32> = (0..length).map(|_| random.below(50) as u32).collect();
    let left = format!("making {k} {n} {}", text::numbers(&words));
    let (answer, state) = make(k, n, &mut words);
    let right = text::told(&[answer], &state, &words);
    (
        vec![answer.name().to_string()],
        text::claim(name, &left, &right),
    )
}
