//! Writes a file of claims to standard output: `claims KIND SEED HOW-MANY`, and for the kind
//! `fresh` also the calls of a schedule and of one claim. What the calls did is counted on
//! standard error.

mod fresh;
mod kinds;
mod making;
mod opening;
mod text;
mod told;

use std::collections::BTreeMap;
use std::env::args;
use std::str::FromStr;

use draw::Random;
use moments::{built, limits, spoiled_state, spoiled_words, Call, Moment};

use crate::told::claim_from;

fn main() {
    let words: Vec<String> = args().skip(1).collect();
    let [kind, seed, many, more @ ..] = &words[..] else {
        panic!("claims KIND SEED HOW-MANY");
    };
    let mut random = Random(number(seed));
    let mut tally: BTreeMap<String, u64> = BTreeMap::new();
    print!("{}", text::HEAD);
    for i in 0..number::<u64>(many) {
        let (kinds, claim) = drawn(kind, &format!("c{i}"), &mut random, more);
        kinds
            .into_iter()
            .for_each(|kind| *tally.entry(kind).or_default() += 1);
        print!("{claim}");
    }
    tally
        .iter()
        .for_each(|(kind, times)| eprintln!("{times} {kind}"));
}

/// A number of the command line.
fn number<T: FromStr>(text: &str) -> T {
    text.parse()
        .unwrap_or_else(|_| panic!("{text} is no number"))
}

/// One claim of a kind, drawn until there is one.
fn drawn(kind: &str, name: &str, random: &mut Random, more: &[String]) -> (Vec<String>, String) {
    let told = |(mut moment, calls): (Moment, Vec<Call>)| claim_from(name, &mut moment, &calls);
    loop {
        let claim = match kind {
            "fresh" => Some(fresh::claims(
                name,
                random,
                number(&more[0]),
                number(&more[1]),
            )),
            "words" => spoiled_words(random).map(told),
            "state" => Some(told(spoiled_state(random))),
            "built" => built(random).map(told),
            "limits" => Some(told(limits(random))),
            "making" => Some(making::claim(name, random)),
            "opening" => Some(opening::claim(name, random)),
            _ => panic!("{kind} is no kind of claim"),
        };
        if let Some(claim) = claim {
            return claim;
        }
    }
}
