//! Changed captures, names of files and reasons for the mode `check`: whatever they say, it ends with one of its
//! statuses, its objects are JSON, and no control character of theirs is printed. The variable ROUNDS of the environment
//! makes it longer.
#![cfg(all(feature = "capture", unix))]
#[path = "common/captures.rs"]
mod captures;
#[path = "../../capture/tests/common/mod.rs"]
mod common;
#[path = "common/json.rs"]
mod json;

use captures::{Folder, SMALL, SMALL_KEYS, pcap, pcapng};
use common::{Random, Sealer, datagrams, opened};
use json::{Json, Schema};
use std::ffi::{OsStr, OsString};
use std::fs;
use std::os::unix::ffi::OsStringExt;
use std::path::Path;
use std::process::Command;

const SCHEMA: &str = include_str!("../../../docs/check.schema.json");
const FORMS: [&[&str]; 3] = [&["--should"], &["--json", "--should"], &["--sarif"]];

fn rounds() -> usize {
    std::env::var("ROUNDS").ok().and_then(|text| text.parse().ok()).unwrap_or(30)
}

// What it prints, what it says on standard error, and its status.
fn check(words: &[&OsStr]) -> (String, String, i32) {
    let output = Command::new(env!("CARGO_BIN_EXE_quic-wire")).arg("check").args(words).output().unwrap();
    let text = |bytes| String::from_utf8(bytes).unwrap();
    (text(output.stdout), text(output.stderr), output.status.code().unwrap())
}

// That a form's text is what it should be.
fn is_of_form(form: &[&str], text: &str, schema: &mut Schema) {
    let control = text.chars().find(|c| c.is_control() && *c != '\n');
    assert!(control.is_none(), "{control:?} in {text:?}");
    if form.contains(&"--json") {
        text.lines().for_each(|line| schema.check(&Json::read(line)));
    } else if form.contains(&"--sarif") {
        assert_eq!(Json::read(text).at("version").text(), "2.1.0");
    }
}

// A capture with packets that have keys, and frames that no stack would send.
fn sealed(random: &mut Random) -> Vec<u8> {
    let (sealer, plain) = (Sealer::of_capture(1), opened());
    let mut all = datagrams();
    for number in 0..20 {
        let mut plain = plain[random.below(plain.len())].clone();
        plain.number = 20 + number;
        plain.payload = (0..4 + random.below(60)).map(|_| random.byte()).collect();
        // Types that RFC 9000 defines.
        plain.payload[0] %= 0x32;
        let mut kept = all[plain.place].clone();
        kept.bytes = sealer.seal(&plain);
        all.push(kept);
    }
    if random.below(2) == 0 { pcap(&all) } else { pcapng(&all, &fs::read(SMALL_KEYS).unwrap()) }
}

#[test]
fn changed_captures_in_each_form() {
    let folder = Folder::new("check-hostile");
    let (small, mut random, mut schema) = (fs::read(SMALL).unwrap(), Random(21), Schema::read(SCHEMA));
    let mut statuses = [0; 4];
    for round in 0..rounds() {
        let mut bytes = if random.below(4) == 0 { small.clone() } else { sealed(&mut random) };
        for _ in 0..random.below(4) {
            let at = random.below(bytes.len());
            bytes[at] = random.byte();
        }
        let (file, form) = (folder.write("changed.pcap", bytes), FORMS[round % FORMS.len()]);
        let allowed = "frame-in-packet=\u{1b}[31m\u{7}\n\"\\ \u{9b}0m";
        let words = [form, &["--allow", allowed, "--keylog", SMALL_KEYS, &file]].concat();
        let (text, said, status) = check(&words.iter().map(OsStr::new).collect::<Vec<_>>());
        assert!([0, 1, 3].contains(&status) && said.is_empty() == (status != 3), "{status}: {said}");
        statuses[status as usize] += 1;
        is_of_form(form, &text, &mut schema);
    }
    assert!(statuses[1] > rounds() / 4, "{statuses:?}");
}

#[test]
fn names_of_files() {
    let (folder, mut schema) = (Folder::new("check-names"), Schema::read(SCHEMA));
    let long = [&[b'a'; 240][..], b".pcap"].concat();
    for name in [&b"\x1b[31mred.pcap"[..], b"two\nlines.pcap", b"\xff\xfe.pcap", b"\xc2\x9b0m\x07\x08 \".pcap", &long] {
        let path = Path::new(&folder.path("")).join(OsString::from_vec(name.to_vec()));
        fs::copy(SMALL, &path).unwrap();
        for form in FORMS {
            // Two files, so that their names are in all objects.
            let words: Vec<_> = form.iter().map(OsStr::new).chain([path.as_os_str(), OsStr::new(SMALL)]).collect();
            let (text, said, status) = check(&words);
            assert_eq!((&said[..], status), ("", 0), "{text}");
            is_of_form(form, &text, &mut schema);
        }
    }
}

#[test]
fn allowances() {
    let parts = ["frame-sender", "initial-size", "=", "=", "\n", "\u{1b}[31m", "\u{9b}", "é", "\"", " ", "\u{202e}"];
    let long = "a".repeat(100_000);
    let (mut random, mut statuses) = (Random(22), [0; 2]);
    for round in 0..rounds() {
        let mut words: Vec<u8> = b"initial-size=".iter().copied().filter(|_| round % 3 == 0).collect();
        (0..1 + random.below(5)).for_each(|_| words.extend(parts[random.below(parts.len())].bytes()));
        match round % 5 {
            0 => words.extend(long.bytes()),
            1 => words.push(0xff),
            _ => {}
        }
        let allowed = OsString::from_vec(words);
        let (text, said, status) = check(&[OsStr::new("--allow"), &allowed, OsStr::new(SMALL)]);
        statuses[usize::from(status == 2)] += 1;
        let control = said.chars().chain(text.chars()).find(|c| c.is_control() && *c != '\n');
        assert!(control.is_none(), "{control:?} in {said:?}");
        // A usage error has two lines more.
        let is_said = said.starts_with("quic-wire: ") && said.lines().count() <= 3;
        assert!([0, 2].contains(&status) && is_said == (status == 2), "{allowed:?}, {status}: {said}");
    }
    assert!(statuses.iter().all(|count| *count > 0), "{statuses:?}");
}
