//! A scene: lines that need nothing from before, with what the twin writes for each.

use drive_twin::{Drive, Twin};
use moments::Call;
use twin::{words_of, State};

/// Words in one line.
const ROW: usize = 16;

/// Lines, and the machine of the twin behind the last of them.
pub struct Scene {
    pub lines: Vec<Vec<u8>>,
    pub drive: Drive<Twin>,
    /// All that the twin writes.
    pub written: Vec<u8>,
}

impl Scene {
    /// A scene with a pool of so many words, all alike.
    pub fn new(length: usize, word: u32) -> Scene {
        let mut scene = Scene {
            lines: Vec::new(),
            drive: Drive::new(Twin),
            written: Vec::new(),
        };
        scene.text(&format!("p {length} {word}"));
        scene
    }

    /// Puts a line at the end, given without its line feed.
    pub fn line(&mut self, line: Vec<u8>) {
        // a spoiled line may be two
        for part in line.split(|&byte| byte == b'\n') {
            self.drive.line(part, &mut self.written);
            self.lines.push(part.to_vec());
        }
    }

    /// Puts a line of plain text at the end.
    pub fn text(&mut self, line: &str) {
        self.line(line.as_bytes().to_vec());
    }

    /// The whole state.
    pub fn state(&mut self, state: &State) {
        self.state_words(&words_of(state));
    }

    /// The state's words from the first on.
    pub fn state_words(&mut self, words: &[u32]) {
        self.rows('s', words);
    }

    /// The pool's words from the first on.
    pub fn pool_words(&mut self, words: &[u32]) {
        self.rows('w', words);
    }

    /// The pool's words become these, as many as there are: rows that are not so already.
    pub fn pool_becomes(&mut self, words: &[u32]) {
        for (row, part) in words.chunks(ROW).enumerate() {
            let at = row * ROW;
            if self.drive.words[at..at + part.len()] != *part {
                self.row('w', at, part);
            }
        }
    }

    /// Words in rows.
    fn rows(&mut self, letter: char, words: &[u32]) {
        for (row, part) in words.chunks(ROW).enumerate() {
            self.row(letter, row * ROW, part);
        }
    }

    /// One row of words.
    fn row(&mut self, letter: char, at: usize, words: &[u32]) {
        let numbers: Vec<String> = words.iter().map(|word| word.to_string()).collect();
        self.text(&format!("{letter} {at} {}", numbers.join(" ")));
    }

    /// A call.
    pub fn call(&mut self, call: Call) {
        self.text(&call_line(call));
    }

    /// The bytes of all lines.
    pub fn input(&self) -> Vec<u8> {
        joined(&self.lines)
    }
}

/// Lines as bytes, each with its line feed.
pub fn joined(lines: &[Vec<u8>]) -> Vec<u8> {
    lines
        .iter()
        .flat_map(|line| line.iter().chain(b"\n").copied())
        .collect()
}

/// The line of a call.
pub fn call_line(call: Call) -> String {
    match call {
        Call::Begin(slot, op) => begin_line(slot, op.numbers()),
        Call::Step(slot) => format!("t {slot}"),
        Call::Report(page) => format!("r {page}"),
    }
}

/// The line that begins what three numbers name: kind, key and information.
pub fn begin_line(slot: usize, (kind, key, information): (u32, u32, u32)) -> String {
    format!("b {slot} {kind} {key} {information}")
}
