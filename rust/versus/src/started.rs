//! A program, started on an input.

use std::io::Write;
use std::process::{Command, Stdio};
use std::thread;

/// What the program writes for an input.
pub fn written(words: &[String], input: &[u8]) -> Vec<u8> {
    let mut child = Command::new(&words[0])
        .args(&words[1..])
        .stdin(Stdio::piped())
        .stdout(Stdio::piped())
        .spawn()
        .expect("the program starts");
    let mut stdin = child.stdin.take().expect("a pipe");
    thread::scope(|scope| {
        // what is too long is not read to its end, and the pipe breaks
        scope.spawn(move || stdin.write_all(input).ok());
        let output = child.wait_with_output().expect("the program ends");
        assert!(
            output.status.success(),
            "the program ended with {}",
            output.status
        );
        output.stdout
    })
}
