//! Files that gzip compressed: one with several parts is what `gzip -d` makes of it, wherever its pieces end, and of a
//! damaged one comes what is before the damage.

mod common;

use common::{FOLDER, Recorded};
use quic_wire_page::packed::Inflater;
use std::io::Write;
use std::path::Path;
use std::process::{Command, Stdio};

// What the program gzip makes of bytes.
fn packed(bytes: &[u8]) -> Vec<u8> {
    let mut gzip = Command::new("gzip").arg("-c").stdin(Stdio::piped()).stdout(Stdio::piped()).spawn().unwrap();
    let mut stdin = gzip.stdin.take().unwrap();
    std::thread::scope(|scope| {
        scope.spawn(move || stdin.write_all(bytes).unwrap());
        gzip.wait_with_output().unwrap().stdout
    })
}

// What comes of pieces of a size, and whether the file can be read to its end.
fn inflated(file: &[u8], size: usize) -> (Vec<u8>, bool) {
    let (mut inflater, mut all) = (Inflater::default(), Vec::new());
    for piece in file.chunks(size) {
        let (bytes, is_read) = inflater.take(piece);
        all.extend(bytes);
        if !is_read {
            return (all, false);
        }
    }
    (all, inflater.finish())
}

fn capture() -> Vec<u8> {
    Recorded::of(&Path::new(FOLDER).join("ngtcp2-loss.pcap")).file
}

#[test]
fn several_parts_are_read() {
    let capture = capture();
    let (front, back) = capture.split_at(capture.len() / 3);
    let file = [packed(front), packed(b""), packed(back)].concat();
    for size in [1, 2, 7, 1000, 1 << 14, usize::MAX] {
        let (bytes, is_whole) = inflated(&file, size);
        assert!(is_whole && bytes == capture, "pieces of {size} bytes: {} of {}", bytes.len(), capture.len());
    }
}

#[test]
fn a_file_that_is_cut_off_is_read_up_to_there() {
    let capture = capture();
    let (front, back) = capture.split_at(capture.len() / 2);
    let (first, second) = (packed(front), packed(back));
    let file = [first.clone(), second.clone()].concat();
    for cut in [5, first.len() - 1, first.len() + 3, first.len() + second.len() / 2, file.len() - 1] {
        for size in [1, 1000, usize::MAX] {
            let (bytes, is_whole) = inflated(&file[..cut], size);
            assert!(!is_whole && capture.starts_with(&bytes), "{cut} bytes in pieces of {size}");
            // Of the first part only its sums may be missing.
            assert!(cut < 10 || bytes.len() >= front.len(), "{cut} bytes in pieces of {size}: {}", bytes.len());
        }
    }
}

#[test]
fn what_is_before_damage_is_read() {
    let capture = capture();
    let (front, back) = capture.split_at(capture.len() / 2);
    let (first, second) = (packed(front), packed(back));
    let mut sums = first.clone();
    *sums.last_mut().unwrap() ^= 1;
    for (file, what) in [
        ([first.clone(), b"no gzip".to_vec()].concat(), "bytes after a part"),
        ([sums, second].concat(), "a part whose length is wrong"),
    ] {
        for size in [1, 1000, usize::MAX] {
            let (bytes, is_whole) = inflated(&file, size);
            assert!(!is_whole && bytes == front, "{what}, pieces of {size}: {} bytes", bytes.len());
        }
    }
}
