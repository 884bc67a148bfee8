//! Starts a program on many inputs and compares what it writes with what the twin says, byte for byte.
//!
//! `versus COMMAND..` runs the comparison; `versus fill` writes the input that fills the pool.

use std::collections::BTreeMap;
use std::env::args;
use std::io::{stdout, Write};
use std::process::ExitCode;
use std::thread;

use draw::Random;
use lots_twin::{answers, MOST};
use versus::{fill_and_empty, first_difference, line_at, random_input, written};

/// How many short inputs, and how many that are as long as may be.
const SHORT: u64 = 2000;
const LONG: u64 = 24;
/// A short input has at most so many bytes.
const SHORT_BYTES: u64 = 3000;

fn main() -> ExitCode {
    let words: Vec<String> = args().skip(1).collect();
    if words == ["fill"] {
        stdout().write_all(&fill_and_empty()).expect("written");
        return ExitCode::SUCCESS;
    }
    if words.is_empty() {
        eprintln!("versus COMMAND..: the program to compare with the twin");
        return ExitCode::FAILURE;
    }
    let inputs = inputs();
    let threads = thread::available_parallelism().map_or(1, |count| count.get());
    let share = inputs.len().div_ceil(threads);
    let differ: Vec<&Vec<u8>> = thread::scope(|scope| {
        let workers: Vec<_> = inputs
            .chunks(share)
            .map(|part| {
                let words = &words;
                scope.spawn(move || {
                    let differs = |input: &&Vec<u8>| written(words, input) != answers(input);
                    part.iter().filter(differs).collect::<Vec<_>>()
                })
            })
            .collect();
        workers
            .into_iter()
            .flat_map(|worker| worker.join().expect("a worker ends"))
            .collect()
    });
    for input in &differ {
        show(&words, input);
    }
    println!("{}", tally(&inputs));
    println!(
        "{} inputs, {} written otherwise",
        inputs.len(),
        differ.len()
    );
    if differ.is_empty() {
        ExitCode::SUCCESS
    } else {
        ExitCode::FAILURE
    }
}

/// Inputs at the edges, short ones and long ones.
fn inputs() -> Vec<Vec<u8>> {
    let mut inputs = vec![
        vec![],
        vec![b'\n'; MOST],
        vec![b'\n'; MOST + 1],
        vec![b'x'; MOST],
        vec![b'x'; MOST + 1],
        vec![b'\n'; 3 * MOST],
        zeros(MOST),
        zeros(MOST + 1),
        fill_and_empty(),
    ];
    for seed in 0..SHORT {
        let mut random = Random(seed);
        let most = random.below(SHORT_BYTES) as usize;
        inputs.push(random_input(&mut random, most));
    }
    for seed in SHORT..SHORT + LONG {
        inputs.push(random_input(&mut Random(seed), MOST));
    }
    inputs
}

/// A step of slot 0 in so many bytes.
fn zeros(bytes: usize) -> Vec<u8> {
    format!("t {:0width$}\n", 0, width = bytes - 3).into_bytes()
}

/// How often each answer came.
fn tally(inputs: &[Vec<u8>]) -> String {
    let mut times = BTreeMap::new();
    for input in inputs {
        let text = String::from_utf8(answers(input)).expect("answers are plain text");
        for line in text.lines() {
            let name = line.split(' ').next().unwrap_or(line).to_string();
            *times.entry(name).or_insert(0) += 1;
        }
    }
    let each: Vec<String> = times
        .iter()
        .map(|(name, count)| format!("{name} {count}"))
        .collect();
    each.join(", ")
}

/// Where the two differ first.
fn show(words: &[String], input: &[u8]) {
    let (ours, twins) = (written(words, input), answers(input));
    let line = first_difference(&ours, &twins);
    println!(
        "line {}: {:?} is answered {:?}, by the twin {:?}",
        line + 1,
        line_at(input, line),
        line_at(&ours, line),
        line_at(&twins, line)
    );
}
