//! The mode `capture`: the files that it reads, what it says of them, and its status.
#![cfg(feature = "capture")]
#[path = "common/captures.rs"]
mod captures;
#[path = "../../capture/tests/common/mod.rs"]
mod common;
#[path = "../../capture/tests/common/made.rs"]
mod made;
#[path = "common/mod.rs"]
mod program;

use captures::{Folder, SMALL, SMALL_KEYS, a2, block, gzip, kept, pcap, pcapng, section};
use made::{Client, Made, Server, Short};
use program::run;
use std::fs;
use std::io::{BufRead, BufReader, Seek, SeekFrom, Write};
use std::process::{Command, Stdio};

const PING: &[u8] = &[1];

fn capture(arguments: &[&str], input: &[u8]) -> (Vec<String>, String, i32) {
    let (text, said, status) = run(&[&["capture"], arguments].concat(), input);
    (text.lines().map(String::from).collect(), said, status)
}

#[test]
fn standard_input_and_several_files() {
    let small = fs::read(SMALL).unwrap();
    let folder = Folder::new("several");
    let rfc = folder.write("rfc.pcap", pcap(&[kept(true, 0, &a2())]));
    let packed = folder.write("small.pcap.gz", gzip(&small));
    let (alone, said, status) = capture(&["--keylog", SMALL_KEYS], &small);
    assert_eq!((&said[..], status), ("", 0));
    assert_eq!(alone.last().unwrap().split(':').next(), Some("-"));
    for input in [&small, &gzip(&small)] {
        assert_eq!(capture(&["-", "--keylog", SMALL_KEYS], input).0, alone);
    }
    // Each line has the name of its file.
    let files = [&packed[..], "-", &rfc];
    let (lines, said, status) = capture(&[&["--keylog", SMALL_KEYS], &files[..]].concat(), &small);
    assert_eq!((&said[..], status), ("", 0));
    let plain = |line: &str| line.strip_prefix("-: ").unwrap_or(line.strip_prefix("-:").unwrap_or(line)).to_string();
    let of_input: Vec<_> = lines.iter().skip_while(|line| !line.starts_with("-:")).map(|line| plain(line)).collect();
    assert_eq!(of_input[..alone.len() - 1], alone[..alone.len() - 1]);
    assert!(lines.contains(&format!(
        "{rfc}:1: 0.000000 10.0.0.1:4433 > 10.0.0.2:443 connection=0 client Initial len=1200 number=2"
    )));
    assert!(lines.iter().any(|line| line.starts_with(&format!("{packed}: connection 0: QUIC version 1, "))));
    assert!(lines.iter().any(|line| line.starts_with(&format!("{packed}: 13 records from 2026-"))));
    assert!(lines.last().unwrap().ends_with(" 1 datagram, 1 connection, 1 packet opened"), "{lines:#?}");
}

// Files on the disk are read at once, and files with standard input one after another: what is shown of each, and said
// of those that can't be read, is the same and in the files' order.
#[test]
fn many_files_at_once() {
    let folder = Folder::new("many");
    let (small, all) = (fs::read(SMALL).unwrap(), common::datagrams());
    let files: Vec<_> = (0..40)
        .map(|n| match n % 10 {
            9 => folder.write(&format!("{n}.text"), "this is text"),
            _ => folder.write(&format!("{n}.pcap"), pcap(&all[..1 + n % all.len()])),
        })
        .collect();
    let files: Vec<_> = files.iter().map(String::as_str).collect();
    let texts = files.iter().filter(|file| file.ends_with("text"));
    let said: String = texts.map(|file| format!("quic-wire: {file}: the file is neither pcap nor pcapng\n")).collect();
    for options in [&["capture"][..], &["capture", "--json"], &["check", "--should"], &["check", "--json"]] {
        let call = |first| run(&[options, &["--keylog", SMALL_KEYS, first], &files[..]].concat(), &small);
        let (at_once, one_by_one) = (call(SMALL), call("-"));
        let of_files = |text: &str| -> Vec<String> {
            text.lines().filter(|line| line.contains(&folder.path(""))).map(String::from).collect()
        };
        assert_eq!(of_files(&at_once.0), of_files(&one_by_one.0), "{options:?}");
        assert!(of_files(&at_once.0).len() >= 36, "{options:?}: {}", at_once.0);
        assert_eq!((&at_once.1, &one_by_one.1, at_once.2), (&said, &said, 3), "{options:?}");
    }
}

#[test]
fn several_key_logs_and_secrets_in_the_file() {
    let folder = Folder::new("secrets");
    let keys = fs::read_to_string(SMALL_KEYS).unwrap();
    let (one, two): (Vec<_>, Vec<_>) = keys.lines().partition(|line| line.starts_with("CLIENT"));
    let one = folder.write("one", one.join("\n"));
    let two = folder.write("two", format!("not a line\n{}", two.join("\r\n")));
    let (lines, said, status) = capture(&[SMALL, "--keylog", &one, "--keylog", &two], b"");
    assert_eq!((&said[..], status), ("", 0));
    assert!(lines[lines.len() - 2].ends_with(", 16 packets opened"));
    assert_eq!(lines[lines.len() - 1], "    1 line of key logs skipped");
    let (lines, ..) = capture(&[SMALL, "--keylog", &one], b"");
    assert!(
        lines.contains(
            &"    server 127.0.0.1:21001: 1 packet opened; 6 packets not opened: the key log has no \
                             secret for it"
                .into()
        )
    );
    // Secrets in a pcapng file need no option.
    let mut made = Made::new(1);
    let mut all = made.handshake();
    all.push(made.send(Client, Short, PING));
    let file = folder.write("secrets.pcapng", pcapng(&all, made.key_log().as_bytes()));
    assert!(capture(&[&file], b"").0.last().unwrap().ends_with(" 4 datagrams, 1 connection, 5 packets opened"));
}

// A file that can't be read is named, with the record; the others are shown.
#[test]
fn files_that_cannot_be_read() {
    let small = fs::read(SMALL).unwrap();
    let folder = Folder::new("unread");
    let cut = folder.write("cut.pcap", &small[..small.len() - 5]);
    let mut long = small.clone();
    long[24 + 8..24 + 12].copy_from_slice(&[0xff; 4]);
    let rows = [
        (cut, "cut off after record 12"),
        (folder.write("long.pcap", long), "record 1 has 4294967295 bytes, and at most 262144 can be read"),
        (folder.write("text", "this is text"), "the file is neither pcap nor pcapng"),
        (folder.write("empty", ""), "the file is empty"),
        (folder.write("damaged.gz", &gzip(&small)[..3000]), "after record "),
        (folder.write("block.pcapng", [section(), block(6, &[0; 20])].concat()), "interface 0 isn't described"),
        (folder.path("none"), "No such file or directory"),
        (folder.path(""), "Is a directory"),
    ];
    for (file, what) in rows {
        let (lines, said, status) = capture(&[&file, SMALL, "--keylog", SMALL_KEYS], b"");
        assert!(said.starts_with(&format!("quic-wire: {file}: {what}")) && said.lines().count() == 1, "{what}: {said}");
        assert_eq!(status, 3, "{what}");
        assert!(lines.last().unwrap().ends_with(" 13 datagrams, 1 connection, 16 packets opened"), "{what}");
        let (_, said, status) = capture(&["--json", &file], b"");
        assert!(said.contains(what) && status == 3, "{what}: {said}");
    }
    // What was read before is shown, and summed up.
    let (lines, ..) = capture(&[&folder.path("cut.pcap"), "--keylog", SMALL_KEYS], b"");
    assert!(lines.last().unwrap().contains(": 12 records from "), "{lines:?}");
    // Key logs.
    let (lines, said, status) = capture(&[SMALL, "--keylog", &folder.path("none"), "--keylog", SMALL_KEYS], b"");
    assert!(said.starts_with(&format!("quic-wire: {}: No such file", folder.path("none"))), "{said}");
    assert_eq!((status, lines.last().unwrap().ends_with("16 packets opened")), (3, true));
}

#[test]
fn wrong_calls() {
    let rows: [(&[&str], &str); 15] = [
        (&["--connection", "x"], "--connection: expected a number, 0 for the first connection, not \"x\""),
        (&["--connection", "-1"], "--connection: expected a number, 0 for the first connection, not \"-1\""),
        (&["--number", "3-1"], "--number: expected a packet number, a range as 1-3 or 1..4, not \"3-1\""),
        (&["--side", "both"], "--side: expected client or server, not \"both\""),
        (&["--frame", "ACKS"], "--frame: unknown frame \"ACKS\"; did you mean ACK?"),
        (&["--frame"], "--frame needs a value: the name of a frame"),
        (&["--keylog"], "--keylog needs a value: a key log file"),
        (&["--keylog=-"], "--keylog: a key log isn't read from standard input; ./- is a file of this name"),
        (&["--qlog"], "--qlog needs a value: a folder"),
        (&["--rejected=1"], "--rejected takes no value"),
        (&["--base64"], "--base64 is an option of frames, canon, datagram, params, number, ranges, not of capture"),
        (&["--quinn"], "--quinn is an option of frames, canon, datagram, params, number, not of capture"),
        (&["--cid-len", "3"], "--cid-len is an option of datagram, not of capture"),
        (&["--conection", "1"], "unknown option --conection; did you mean --connection?"),
        (&["--color=blue"], "--color: expected always, never or auto, not \"blue\""),
    ];
    for (arguments, what) in rows {
        let (lines, said, status) = capture(arguments, b"");
        assert_eq!((said.lines().next(), status), (Some(&format!("quic-wire: {what}")[..]), 2), "{arguments:?}");
        assert_eq!(lines.len(), 0);
    }
    let (_, said, status) = run(&["frames", "--keylog", "x"], b"");
    let what = "quic-wire: --keylog is an option of capture, check, not of frames";
    assert_eq!((said.lines().next(), status), (Some(what), 2));
    let (help, _, status) = run(&["capture", "--help"], b"");
    assert!(help.contains("usage: quic-wire capture [OPTION..] [FILE..]") && status == 0);
}

// Lines are there as soon as the packets are, and lines of the key log count as soon as they are there.
#[test]
fn a_capture_and_a_key_log_that_grow() {
    let folder = Folder::new("growing");
    let mut made = Made::new(1);
    let mut all = made.handshake();
    all.extend([made.send(Client, Short, PING), made.send(Server, Short, PING)]);
    let keys = made.key_log();
    // The first secrets are there, and a part of a line.
    let (front, back) = keys.split_at(keys.find("CLIENT_TRAFFIC").unwrap() + 9);
    let log = folder.write("keys", front);
    let mut command = Command::new(env!("CARGO_BIN_EXE_quic-wire"));
    command.args(["capture", "--keylog", &log]).stdin(Stdio::piped()).stdout(Stdio::piped());
    let mut child = command.spawn().unwrap();
    let (mut input, mut output) = (child.stdin.take().unwrap(), BufReader::new(child.stdout.take().unwrap()).lines());
    let file = pcap(&all);
    let before = pcap(&all[..3]).len();
    input.write_all(&file[..before]).unwrap();
    let mut next = || output.next().map(Result::unwrap);
    while !next().is_some_and(|line| line.starts_with("3: ")) {}
    assert_eq!(next().as_deref(), Some("    0..5 ACK largest=0 delay=0 ranges=0-0"));
    fs::OpenOptions::new().append(true).open(&log).unwrap().write_all(back.as_bytes()).unwrap();
    input.write_all(&file[before..]).unwrap();
    drop(input);
    let lines: Vec<_> = std::iter::from_fn(next).collect();
    assert!(lines.last().unwrap().ends_with(" 5 datagrams, 1 connection, 6 packets opened"), "{lines:#?}");
    assert!(child.wait().unwrap().success());
}

// A key log on the disk isn't kept: one of 200 MB, with a long line before its secrets, is read in 120 MB of addresses.
#[test]
#[cfg(target_os = "linux")]
fn a_key_log_that_is_longer_than_the_memory() {
    let folder = Folder::new("long");
    let log = folder.write("keys", "");
    let mut file = fs::File::options().write(true).open(&log).unwrap();
    file.seek(SeekFrom::Start(200_000_000)).unwrap();
    file.write_all(b"\n").unwrap();
    file.write_all(&fs::read(SMALL_KEYS).unwrap()).unwrap();
    let program = env!("CARGO_BIN_EXE_quic-wire");
    let script = format!("ulimit -v 120000; exec {program} capture {SMALL} --keylog {log}");
    let output = Command::new("sh").args(["-c", &script]).output().unwrap();
    let (text, said) = (String::from_utf8_lossy(&output.stdout), String::from_utf8_lossy(&output.stderr));
    assert!(text.contains(" 16 packets opened") && said.is_empty(), "{said}");
}

// The reader of the output may end.
#[test]
#[cfg(target_os = "linux")]
fn output_that_nobody_reads() {
    let program = env!("CARGO_BIN_EXE_quic-wire");
    let script = format!("{{ yes {SMALL} | head -n 500 | xargs {program} capture; echo $? >&2; }} | head -n 1");
    let output = Command::new("sh").args(["-c", &script]).output().unwrap();
    assert_eq!(String::from_utf8_lossy(&output.stderr).trim(), "123");
    let script = format!("{program} capture {SMALL} >/dev/full");
    let output = Command::new("sh").args(["-c", &script]).output().unwrap();
    let said = String::from_utf8_lossy(&output.stderr);
    assert_eq!(
        (&said[..], output.status.code()),
        ("quic-wire: write failed: No space left on device (os error 28)\n", Some(3))
    );
}
