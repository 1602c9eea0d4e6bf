//! What the program prints of the files in `tests/dumps`. The cases there say what is read from each; the reader's own
//! tests compare them.
mod common;
use common::run;
use std::fs;
use std::path::PathBuf;

const FRAMES: [&str; 3] = [
    "0..1 PING",
    "1..26 CRYPTO offset=0 len=22 data=2330783431207c48656c6c6f3e20303030302020612c",
    "26..51 STREAM id=4 offset=0 fin=true len=22 data=6c617374206c696e65206f6620616c6c206279746573",
];

fn text_of(file: &str) -> Vec<u8> {
    fs::read(PathBuf::from(env!("CARGO_MANIFEST_DIR")).join("tests/dumps").join(file)).unwrap()
}

// Those of an input that begins with this line.
fn frames(line: usize) -> String {
    FRAMES.map(|frame| format!("{line}: {frame}\n")).concat()
}

#[test]
fn a_dump_is_one_payload() {
    for file in ["xxd.txt", "hexdump-C.txt", "od-A-x.txt", "tshark-x.txt", "json.txt"] {
        let (text, said, status) = run(&["frames"], &text_of(file));
        assert_eq!((text, &said[..], status), (frames(1), "", 0), "{file}");
    }
}

#[test]
fn two_dumps_are_two_payloads() {
    let one = text_of("xxd.txt");
    let (text, _, status) = run(&["frames"], &one.repeat(2));
    assert_eq!((text, status), (frames(1) + &frames(5), 0));
}

#[test]
fn each_dump_that_is_not_read_is_an_error() {
    let (text, said, status) = run(&["frames"], &text_of("xxd-b.txt").repeat(2));
    let error = "error these are bits, as xxd -b prints them; use xxd without -b\n";
    assert_eq!((text, &said[..], status), (format!("1: {error}10: {error}"), "", 1));
}

#[test]
fn base64_is_read_if_asked_for() {
    let (text, _, status) = run(&["frames", "--base64"], &text_of("base64.txt"));
    assert_eq!((text, status), (frames(1), 0));
    let (text, _, status) = run(&["frames"], &text_of("base64.txt"));
    assert!(status == 1 && text.ends_with("; base64 is read with --base64\n"), "{text}");
}
