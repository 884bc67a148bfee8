//! The search for a scene that a program writes otherwise than the twin, and for the smallest part of it that is still so.

use std::collections::BTreeMap;

use drive_twin::{Drive, Twin};
use twin::Answer;
use versus::{first_difference, line_at};

use crate::program::Program;
use crate::scene::{joined, Scene};

/// How many parts of a case are tried, at most.
const TRIES: usize = 600;

/// How often each answer came, by the name that the twin has for it.
#[derive(Default)]
pub struct Tally(pub BTreeMap<String, u64>);

impl Tally {
    /// Counts the lines of what the twin wrote.
    pub fn count(&mut self, written: &[u8]) {
        for line in written.split(|&byte| byte == b'\n') {
            if line.is_empty() {
                continue;
            }
            let first = line.split(|&byte| byte == b' ').next().unwrap_or(line);
            let name = String::from_utf8_lossy(first).into_owned();
            *self.0.entry(name).or_default() += 1;
        }
    }

    /// How many calls were answered.
    pub fn calls(&self) -> u64 {
        self.0
            .iter()
            .filter(|(name, _)| *name != "BadLine")
            .map(|(_, times)| times)
            .sum()
    }

    /// All of it in one line.
    pub fn text(&self) -> String {
        // what is no number is `BadLine`
        let name = |number: &String| {
            let named = number.parse().ok().and_then(Answer::name_of);
            named.map_or(number.clone(), str::to_string)
        };
        let each: Vec<String> = self
            .0
            .iter()
            .map(|(number, times)| format!("{} {times}", name(number)))
            .collect();
        each.join(", ")
    }
}

/// The first of some scenes that the program writes otherwise, all given in one run.
pub fn compare(program: &impl Program, scenes: &[Scene]) -> Option<usize> {
    let input: Vec<u8> = scenes
        .iter()
        .flat_map(|scene| [b"q 0\n".to_vec(), scene.input()].concat())
        .collect();
    let written = program.written(&input);
    let mut rest = &written[..];
    for (i, scene) in scenes.iter().enumerate() {
        match rest.strip_prefix(&scene.written[..]) {
            Some(behind) => rest = behind,
            None => return Some(i),
        }
    }
    (!rest.is_empty()).then_some(scenes.len() - 1)
}

/// Whether the program writes something else than the twin for these lines.
fn differs(program: &impl Program, lines: &[Vec<u8>]) -> bool {
    let input = joined(lines);
    program.written(&input) != Drive::new(Twin).answers(&input)
}

/// As few of the lines as were found that the program still writes otherwise, with a text of where.
pub fn smallest(program: &impl Program, lines: &[Vec<u8>]) -> String {
    if !differs(program, lines) {
        return "it differs only behind the scenes before it".to_string();
    }
    let restated = restated(program, lines);
    let fewest = if differs(program, &restated) {
        fewer(program, restated)
    } else {
        fewer(program, lines.to_vec())
    };
    told(program, &fewest)
}

/// The first call that is written otherwise, alone, on the state and words before it.
fn restated(program: &impl Program, lines: &[Vec<u8>]) -> Vec<Vec<u8>> {
    let ours = program.written(&joined(lines));
    let mut scene = Scene::new(0, 0);
    for line in lines {
        let (state, words) = (scene.drive.state, scene.drive.words.clone());
        scene.line(line.clone());
        if !ours.starts_with(&scene.written) {
            let mut alone = Scene::new(words.len(), 0);
            alone.pool_words(&words);
            alone.state_words(&state);
            alone.text("q 2");
            alone.line(line.clone());
            return alone.lines;
        }
    }
    lines.to_vec()
}

/// Leaves out what can be left out: larger parts first, then smaller ones.
fn fewer(program: &impl Program, mut lines: Vec<Vec<u8>>) -> Vec<Vec<u8>> {
    let mut tries = 0;
    let mut size = lines.len().div_ceil(2);
    while size > 0 && tries < TRIES {
        let mut at = 0;
        while at < lines.len() && tries < TRIES {
            let end = (at + size).min(lines.len());
            let fewer = [&lines[..at], &lines[end..]].concat();
            tries += 1;
            if differs(program, &fewer) {
                lines = fewer;
            } else {
                at = end;
            }
        }
        size /= 2;
    }
    lines
}

/// The lines, and where the two differ first.
fn told(program: &impl Program, lines: &[Vec<u8>]) -> String {
    let input = joined(lines);
    let (ours, twins) = (program.written(&input), Drive::new(Twin).answers(&input));
    let line = first_difference(&ours, &twins);
    format!(
        "{}answer {} is {:?}, by the twin {:?}",
        String::from_utf8_lossy(&input),
        line + 1,
        line_at(&ours, line),
        line_at(&twins, line)
    )
}
