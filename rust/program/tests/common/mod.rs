//! Calls of the program `quic-wire`.
#![allow(dead_code)]
use std::io::Write;
use std::process::{Command, Stdio};

/// What it prints, what it says on standard error, and its status.
pub fn run(arguments: &[&str], input: &[u8]) -> (String, String, i32) {
    let mut command = Command::new(env!("CARGO_BIN_EXE_quic-wire"));
    command.args(arguments).stdin(Stdio::piped()).stdout(Stdio::piped()).stderr(Stdio::piped());
    let mut child = command.spawn().unwrap();
    let mut stdin = child.stdin.take().unwrap();
    let input = input.to_vec();
    // A program that stops reading is no failure of the test.
    let writer = std::thread::spawn(move || stdin.write_all(&input).is_ok());
    let output = child.wait_with_output().unwrap();
    writer.join().unwrap();
    let text = |bytes| String::from_utf8(bytes).unwrap();
    (text(output.stdout), text(output.stderr), output.status.code().unwrap())
}

/// The lines that it prints.
pub fn lines(arguments: &[&str], input: &str) -> Vec<String> {
    run(arguments, input.as_bytes()).0.lines().map(String::from).collect()
}
