//! What is read from texts: the cases of `tests/dumps`, and what they can't say.
use super::*;
use std::fs;
use std::path::PathBuf;
use std::time::{Duration, Instant};

fn folder() -> PathBuf {
    PathBuf::from(env!("CARGO_MANIFEST_DIR")).join("tests/dumps")
}

fn pieces(text: &[u8]) -> Vec<Piece> {
    Pieces::new(text, Plain::default()).map(|piece| piece.unwrap()).collect()
}

// A case: its name, its text, and the lines that say what is read.
fn cases() -> Vec<(String, Vec<u8>, Vec<String>)> {
    let all = fs::read_to_string(folder().join("cases")).unwrap();
    let case = |part: &str| {
        let (name, lines) = part.split_once('\n').unwrap();
        let (mut text, mut want) = (Vec::new(), Vec::new());
        for line in lines.lines().filter(|line| !line.is_empty()) {
            match line.split_at(1) {
                ("|", line) => text.extend([line, "\n"].concat().bytes()),
                ("<", file) => text.extend(fs::read(folder().join(file.trim())).unwrap()),
                _ => want.push(line.to_string()),
            }
        }
        (name.to_string(), text, want)
    };
    all.split("\n== ").skip(1).map(case).collect()
}

#[test]
fn each_case_is_read_as_it_says() {
    let shown = |piece: Piece| match piece.bytes {
        Ok(bytes) if bytes.is_empty() => piece.line.to_string(),
        Ok(bytes) => {
            let digits: String = bytes.iter().map(|byte| format!("{byte:02x}")).collect();
            format!("{} {digits}", piece.line)
        }
        Err(what) => format!("{} error {what}", piece.line),
    };
    for (name, text, want) in cases() {
        let read: Vec<String> = pieces(&text).into_iter().map(shown).collect();
        assert_eq!(read, want, "{name}");
    }
}

#[test]
fn each_file_is_in_a_case() {
    let all = fs::read_to_string(folder().join("cases")).unwrap();
    for file in fs::read_dir(folder()).unwrap() {
        let name = file.unwrap().file_name().into_string().unwrap();
        let is_there = all.contains(&format!("\n< {name}\n"));
        assert!(is_there || ["cases", "base64.txt"].contains(&&name[..]), "{name} is in no case");
    }
}

#[test]
fn lines_may_end_in_both_ways_and_the_last_in_none() {
    for text in ["01\n06", "01\r\n06\r\n", "\u{feff}01\n06\n"] {
        let read: Vec<_> = pieces(text.as_bytes()).into_iter().map(|piece| piece.bytes).collect();
        assert_eq!(read, [Ok(vec![1]), Ok(vec![6])], "{text:?}");
    }
    for text in [&b"\xff\xfe0\x001\x00"[..], b"\xfe\xff\x000\x001"] {
        assert_eq!(pieces(text), [Piece { line: 1, bytes: Err(UTF_16.into()) }]);
    }
}

// The fronts of files as tcpdump, Wireshark and gzip write them.
#[test]
fn captures_are_named() {
    let pcap = [[0xd4, 0xc3, 0xb2, 0xa1], [0xa1, 0xb2, 0xc3, 0xd4], [0x4d, 0x3c, 0xb2, 0xa1], [0xa1, 0xb2, 0x3c, 0x4d]];
    for front in pcap {
        let file = [&front[..], b"\x02\0\x04\0\n01\n"].concat();
        assert_eq!(pieces(&file), [Piece { line: 1, bytes: Err(CAPTURE.into()) }]);
    }
    for length in [&b"\x1c\0\0\0\x4d\x3c\x2b\x1a"[..], b"\0\0\0\x1c\x1a\x2b\x3c\x4d"] {
        let file = [&b"\n\r\r\n"[..], length, b"\x01\0\n01\n"].concat();
        assert_eq!(pieces(&file).last(), Some(&Piece { line: 3, bytes: Err(CAPTURE.into()) }));
    }
    assert_eq!(pieces(b"\x1f\x8b\x08\0\n01\n"), [Piece { line: 1, bytes: Err(GZIP.into()) }]);
}

// Time that grows with the square of the text is hours here.
#[test]
fn the_time_grows_with_the_text() {
    let begin = Instant::now();
    let many = 400_000;
    let list = ["[\n", &"7,\n".repeat(many), "7]\n"].concat();
    assert_eq!(pieces(list.as_bytes()), [Piece { line: 1, bytes: Ok(vec![7; many + 1]) }]);
    let comments = ["01,\n", &"#\n".repeat(many), "06\n"].concat();
    assert_eq!(pieces(comments.as_bytes()), [Piece { line: 1, bytes: Ok(vec![1, 6]) }]);
    let rows: String = (0..many).map(|i| format!("{i:08x}: 07\n")).collect();
    assert_eq!(pieces(rows.as_bytes()), [Piece { line: 1, bytes: Ok(vec![7; many]) }]);
    for part in ["[\n", "/*", "= ", "0000: ", "b'\\x01'\n"] {
        assert!(!pieces(part.repeat(many).as_bytes()).is_empty(), "{part:?}");
    }
    assert!(begin.elapsed() < Duration::from_secs(60), "{:?}", begin.elapsed());
}
