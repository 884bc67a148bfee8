//! Compares a program with the twin, call by call: `drives SEED SECONDS COMMAND..`.
//!
//! First the cases of the documents, then scenes of all kinds, each from a seed of its own, until the time is over.

use std::env::args;
use std::process::ExitCode;
use std::time::{Duration, Instant};

use draw::Random;
use drives::{cases, compare, draw_scene, smallest, Program, Scene, Started, Tally, KINDS};

/// How many scenes are given to one run of the program.
const BATCH: u64 = 28;

fn main() -> ExitCode {
    let words: Vec<String> = args().skip(1).collect();
    let numbers: Vec<u64> = words.iter().take(2).flat_map(|word| word.parse()).collect();
    let (&[seed, seconds], Some(command)) = (&numbers[..], words.get(2..)) else {
        eprintln!("drives SEED SECONDS COMMAND..: the program to compare with the twin");
        return ExitCode::FAILURE;
    };
    let program = Started(command.to_vec());
    if run_cases(&program) && run_scenes(&program, seed, Duration::from_secs(seconds)) {
        ExitCode::SUCCESS
    } else {
        ExitCode::FAILURE
    }
}

/// The cases of documents 01 and 02; whether all are as they say.
fn run_cases(program: &impl Program) -> bool {
    let cases = cases();
    let wrong: Vec<String> = cases
        .iter()
        .filter_map(|case| case.refuted(program))
        .collect();
    wrong.iter().for_each(|text| println!("{text}"));
    println!(
        "{} cases of documents 01 and 02, {} otherwise",
        cases.len(),
        wrong.len()
    );
    wrong.is_empty()
}

/// Scenes until the time is over; whether none was written otherwise.
fn run_scenes(program: &impl Program, first: u64, time: Duration) -> bool {
    let start = Instant::now();
    let mut tally = Tally::default();
    let mut seed = first;
    while start.elapsed() < time {
        let scenes: Vec<Scene> = (seed..seed + BATCH).map(scene).collect();
        scenes.iter().for_each(|scene| tally.count(&scene.written));
        if let Some(at) = compare(program, &scenes) {
            let seed = seed + at as u64;
            println!("seed {seed}, {:?}, is written otherwise:", kind(seed));
            println!("{}", smallest(program, &scenes[at].lines));
            return false;
        }
        seed += BATCH;
    }
    println!("{}", tally.text());
    println!(
        "seeds {first} to {}, {} calls in {} seconds, none written otherwise",
        seed - 1,
        tally.calls(),
        start.elapsed().as_secs()
    );
    true
}

/// The kind of scene of a seed.
fn kind(seed: u64) -> drives::Kind {
    KINDS[(seed % KINDS.len() as u64) as usize]
}

/// The scene of a seed.
fn scene(seed: u64) -> Scene {
    draw_scene(kind(seed), &mut Random(seed))
}
