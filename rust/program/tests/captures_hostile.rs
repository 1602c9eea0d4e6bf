//! Changed captures and key logs for the mode `capture`: whatever they say, it ends with status 0, or with 3 and words.
//! The variable ROUNDS of the environment makes it longer.
#![cfg(feature = "capture")]
#[path = "common/captures.rs"]
mod captures;
#[path = "../../capture/tests/common/mod.rs"]
mod common;
#[path = "common/json.rs"]
mod json;
#[path = "../../capture/tests/common/made.rs"]
mod made;
#[path = "common/mod.rs"]
mod program;

use captures::{Folder, SMALL, SMALL_KEYS, gzip, pcap, pcapng};
use common::{Random, Sealer, datagrams, opened};
use json::{Json, Schema};
use program::run;
use std::ffi::OsStr;
use std::fs;
use std::path::PathBuf;

const SCHEMA: &str = include_str!("../../../docs/capture.schema.json");
const FILES: usize = 20;

fn changed(random: &mut Random, bytes: &[u8]) -> Vec<u8> {
    let mut bytes = bytes.to_vec();
    for _ in 0..random.below(8) {
        let at = random.below(bytes.len());
        match random.below(6) {
            0 | 1 => bytes[at] = random.byte(),
            2 => bytes[at] ^= 1 << random.below(8),
            3 => drop(bytes.splice(at..at, [random.byte(); 3])),
            4 if bytes.len() > 100 => drop(bytes.drain(at..(at + random.below(40)).min(bytes.len()))),
            _ if random.below(10) == 0 => bytes.truncate(at.max(1)),
            _ => {}
        }
    }
    bytes
}

// A capture with packets that have keys, and contents that no stack would send.
fn sealed(random: &mut Random) -> Vec<u8> {
    let (sealer, plain) = (Sealer::of_capture(1), opened());
    let mut all = datagrams();
    for number in 0..10 {
        let mut plain = plain[random.below(plain.len())].clone();
        plain.number = 20 + number;
        plain.payload = changed(random, &plain.payload);
        let mut kept = all[plain.place].clone();
        kept.bytes = sealer.seal(&plain);
        all.push(kept);
    }
    pcap(&all)
}

// The captures of vectors/captures, their key logs and descriptions.
fn recorded() -> Vec<PathBuf> {
    let all = fs::read_dir(concat!(env!("CARGO_MANIFEST_DIR"), "/../../vectors/captures")).unwrap();
    let is_capture = |path: &PathBuf| path.extension().is_some_and(|end| end != "py");
    let mut paths: Vec<_> = all.map(|file| file.unwrap().path()).filter(|path| is_capture(path)).collect();
    paths.sort();
    paths
}

#[test]
fn changed_captures_and_key_logs() {
    let rounds = std::env::var("ROUNDS").ok().and_then(|text| text.parse().ok()).unwrap_or(100usize);
    let folder = Folder::new("hostile");
    let (small, mut keys) = (fs::read(SMALL).unwrap(), fs::read(SMALL_KEYS).unwrap());
    let mut bases = vec![pcapng(&datagrams(), &keys), gzip(&small), small];
    for path in recorded() {
        match path.extension().and_then(OsStr::to_str) {
            Some("keys") => keys.extend(fs::read(path).unwrap()),
            Some("json") => {}
            _ => bases.push(fs::read(path).unwrap()),
        }
    }
    let (mut random, mut schema) = (Random(11), Schema::read(SCHEMA));
    let mut read = 0;
    for round in 0..rounds.div_ceil(FILES) {
        let names: Vec<_> = (0..FILES).map(|n| format!("{n}.pcap")).collect();
        let files: Vec<_> = names
            .iter()
            .map(|name| match bases.get(random.below(bases.len() + 1)) {
                None => folder.write(name, sealed(&mut random)),
                Some(base) => folder.write(name, changed(&mut random, base)),
            })
            .collect();
        let log = match round % 3 {
            0 => folder.write("keys", changed(&mut random, &keys)),
            _ => folder.write("keys", &keys),
        };
        let mut call = vec!["capture", "--keylog", &log];
        let qlog = folder.path("qlog");
        match round % 4 {
            0 => call.push("--json"),
            1 => call.extend(["--qlog", &qlog]),
            2 => call.push("--rejected"),
            _ => call.extend(["--color", "always"]),
        }
        call.extend(files.iter().map(String::as_str));
        let (text, said, status) = run(&call, b"");
        assert!(status == 0 && said.is_empty() || status == 3, "{round}: {status}: {said}");
        let is_of_file = |line: &str| line.strip_prefix("quic-wire: ").is_some_and(|rest| rest.contains(".pcap: "));
        assert!(said.lines().all(is_of_file), "{said}");
        if round % 4 == 0 {
            text.lines().for_each(|line| schema.check(&Json::read(line)));
        }
        read += FILES - said.lines().count();
    }
    assert!(read > rounds / 4, "{read} files were read to their end");
    println!("{} files, {read} of them read to their end", rounds.div_ceil(FILES) * FILES);
}
