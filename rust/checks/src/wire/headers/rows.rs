//! Worked lines of the mode `datagram`, through `run`.
use crate::host::prelude::*;
use crate::host::test::Fail;
use crate::tested::quic_bench::FailAt;
use crate::tested::quic_text::{Mode, mode_of, run, status};

// A line, and what is printed for it if ids of short headers have no bytes.
const ROWS: &[(&str, &str)] = &[
    (
        "c0000000010806b858ec6f80452b0002aabb400301020341",
        "0..23 initial dst 06b858ec6f80452b src - version 00000001 token 16..18\n23..24 short dst -\n",
    ),
    ("e000000001000002aabb41", "0..10 handshake dst - src - version 00000001\n10..11 short dst -\n"),
    ("f00000000101aa00ffff", "0..10 retry dst aa src - version 00000001\n"),
    ("c00000000001aa01bb00000001", "0..13 version-negotiation dst aa src bb version 00000000\n"),
    ("e000000001000000", "0..8 handshake dst - src - version 00000001\n"),
    ("e0ff00001d000000", "0..8 handshake dst - src - version ff00001d\n"),
    ("e000000001000002aa", "error packet too short to contain payload length\n"),
    ("e0000000010000ffffffffffffffff", "error packet too short to contain payload length\n"),
    ("c00000000100000501", "error token out of bounds\n"),
    ("c0000000010000ffffffffffffffff", "error token out of bounds\n"),
    ("c0000000010000", "error unexpected end of packet\n"),
    ("c00000", "error unexpected end of packet\n"),
    ("", "error unexpected end of packet\n"),
    ("c00000000115", "error malformed cid\n"),
    ("c00000000a0000", "error unsupported version a\n"),
    ("e00000000100000000", "0..8 handshake dst - src - version 00000001\nerror fixed bit unset\n"),
    ("f06b3343cf000002aabb41", "0..10 handshake dst - src - version 6b3343cf\n10..11 short dst -\n"),
    ("e06b3343cf000002aabb", "0..10 0rtt dst - src - version 6b3343cf\n"),
    ("c06b3343cf0000ffff", "0..9 retry dst - src - version 6b3343cf\n"),
    ("d06b3343cf0000004001ff", "0..11 initial dst - src - version 6b3343cf token 8..8\n"),
    (
        "e000000001000002aabbf06b3343cf000002ccdd",
        "0..10 handshake dst - src - version 00000001\n10..20 handshake dst - src - version 6b3343cf\n",
    ),
    ("0", "error not hexadecimal\n"),
];

#[test]
fn rows() -> Result<(), Fail> {
    let mode = mode_of(&["datagram", "0"]).ok_or("a mode")?;
    for (line, wanted) in ROWS {
        let mut sink = FailAt::new(b"", usize::MAX, u64::MAX);
        let mut input = String::new();
        input.push_str(line);
        input.push('\n');
        let mut source = FailAt::new(input.as_bytes(), usize::MAX, u64::MAX);
        let outcome = run(mode, &mut source, &mut sink);
        assert_eq!(outcome, Ok(!wanted.contains("error")), "at {line}");
        assert_eq!(sink.output(), wanted.as_bytes(), "at {line}");
    }
    Ok(())
}

#[test]
fn ids_of_one_byte() -> Result<(), Fail> {
    let mode = mode_of(&["datagram", "1"]).ok_or("a mode")?;
    let mut source = FailAt::new(b"40\n4005\n", usize::MAX, u64::MAX);
    let mut sink = FailAt::new(b"", usize::MAX, u64::MAX);
    let outcome = run(mode, &mut source, &mut sink);
    assert_eq!(status(&outcome), 1);
    assert_eq!(sink.output(), b"error packet too small\n0..2 short dst 05\n".as_slice());
    Ok(())
}

// Arguments for a mode, and whether they are valid.
const WORDS: &[(&[&str], bool)] = &[
    (&["datagram", "0"], true),
    (&["datagram", "05"], true),
    (&["datagram", "20"], true),
    (&["datagram", "00"], true),
    (&["datagram", "21"], false),
    (&["datagram", "99"], false),
    (&["datagram", "020"], false),
    (&["datagram", ""], false),
    (&["datagram", "a"], false),
    (&["datagram", "1a"], false),
    (&["datagram", "+5"], false),
    (&["datagram", " 5"], false),
    (&["datagram"], false),
    (&["datagram", "5", "5"], false),
    (&["Datagram", "5"], false),
];

#[test]
fn words() {
    for (words, is_mode) in WORDS {
        assert_eq!(mode_of(words).is_some(), *is_mode, "at {}", words.len());
    }
    assert_eq!(mode_of(&["datagram", "5"]), mode_of(&["datagram", "05"]));
    assert_eq!(mode_of(&["frames"]), Some(Mode::Frames));
}
