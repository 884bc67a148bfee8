//! An input as it grows: its bytes, and the pool as its lines so far leave it.

use lots_twin::Talk;
use twin::{must_wait, Op, Way, SLOTS};

/// The bytes of an input, with the pool behind its last line.
#[derive(Default)]
pub struct Input {
    pub bytes: Vec<u8>,
    talk: Talk,
}

impl Input {
    /// Puts a line at the end, which is given without its line feed, and tells the twin's answer.
    pub fn line(&mut self, line: &[u8]) -> String {
        let piece = [line, b"\n"].concat();
        // a spoiled line may be two
        let answer: Vec<u8> = piece
            .split_inclusive(|&byte| byte == b'\n')
            .flat_map(|part| self.talk.answer(part))
            .collect();
        self.bytes.extend(piece);
        String::from_utf8(answer).expect("answers are plain text")
    }

    /// Begins an operation.
    pub fn begin(&mut self, slot: usize, op: Op) -> String {
        self.line(begin_line(slot as u64, op).as_bytes())
    }

    /// Steps a slot.
    pub fn step(&mut self, slot: usize) -> String {
        self.line(format!("t {slot}").as_bytes())
    }

    /// The open slots.
    pub fn open(&self) -> Vec<usize> {
        (0..SLOTS)
            .filter(|&slot| self.talk.state.slots[slot].op.is_some())
            .collect()
    }

    /// The open slots that need not wait.
    pub fn ready(&self) -> Vec<usize> {
        let mut open = self.open();
        open.retain(|&slot| !must_wait(&self.talk.state, slot));
        open
    }
}

/// The line that begins an operation.
pub fn begin_line(slot: u64, op: Op) -> String {
    let way = match op.way() {
        Some(Way::Second) => "2",
        Some(Way::Third) => "3",
        _ => "",
    };
    match op {
        Op::Search(key) => format!("b {slot} s {key}"),
        Op::Insert(key, information, _) => format!("b {slot} i{way} {key} {information}"),
        Op::Delete(key, _) => format!("b {slot} d{way} {key}"),
        Op::Next(key) => format!("b {slot} n {key}"),
        Op::Regrade(key, information, _) => format!("b {slot} g{way} {key} {information}"),
    }
}
