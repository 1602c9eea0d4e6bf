//! The program `quic-wire`: what it prints, and that it reads what `quic-show` reads.
mod common;

use common::{lines, run};
use std::fs;
use std::io::{BufRead, BufReader, Write};
use std::process::{Command, Stdio};

#[test]
fn every_field_of_a_frame_is_printed() {
    let rows = [
        ("000000", "0..3 PADDING count=3"),
        ("400000", "0..3 PADDING count=2"),
        ("01", "0..1 PING"),
        ("034064050109000001 02 03", "0..11 ACK largest=100 delay=5 ranges=91-100,89-89 ect0=1 ect1=2 ce=3"),
        ("04000102", "0..4 RESET_STREAM id=0 error_code=1 final_offset=2"),
        ("050401", "0..3 STOP_SENDING id=4 error_code=1"),
        ("0600026869", "0..5 CRYPTO offset=0 len=2 data=6869"),
        ("0702abcd", "0..4 NEW_TOKEN token=abcd"),
        ("0d04106162", "0..5 STREAM id=4 offset=16 fin=true len=2 data=6162"),
        ("0804", "0..2 STREAM id=4 offset=0 fin=false len=0 data=-"),
        ("1005", "0..2 MAX_DATA limit=5"),
        ("110405", "0..3 MAX_STREAM_DATA id=4 offset=5"),
        ("1305", "0..2 MAX_STREAMS_UNI dir=unidirectional count=5"),
        ("1405", "0..2 DATA_BLOCKED offset=5"),
        ("150405", "0..3 STREAM_DATA_BLOCKED id=4 offset=5"),
        ("1605", "0..2 STREAMS_BLOCKED_BIDI dir=bidirectional limit=5"),
        (
            "18050202aabb11111111111111111111111111111111",
            "0..22 NEW_CONNECTION_ID sequence=5 retire_prior_to=2 id=aabb \
             reset_token=11111111111111111111111111111111",
        ),
        ("1905", "0..2 RETIRE_CONNECTION_ID sequence=5"),
        ("1a0102030405060708", "0..9 PATH_CHALLENGE data=0102030405060708"),
        (
            "1c07060261ff",
            "0..6 CONNECTION_CLOSE error_code=7 error_name=FRAME_ENCODING_ERROR frame_type=6 frame_name=CRYPTO \
             reason=\"a\u{fffd}\" reason_bytes=61ff",
        ),
        ("1d050122", "0..4 APPLICATION_CLOSE error_code=5 reason=\"\\\"\" reason_bytes=22"),
        ("1e", "0..1 HANDSHAKE_DONE"),
        ("1f", "0..1 IMMEDIATE_ACK"),
        ("306869", "0..3 DATAGRAM len=2 data=6869"),
        (
            "40af2a148000c35001",
            "0..9 ACK_FREQUENCY sequence=42 ack_eliciting_threshold=20 request_max_ack_delay=50000 \
             reordering_threshold=1",
        ),
        ("0", "error an odd number of digits, 1, in column 1"),
    ];
    let input: String = rows.iter().map(|(line, _)| format!("{line}\n")).collect();
    let all: Vec<_> = rows.iter().enumerate().map(|(i, (_, answer))| format!("{}: {answer}", i + 1)).collect();
    assert_eq!(lines(&["frames", "--quinn"], &input), all);
}

#[test]
fn other_programs_read_objects() {
    let (text, _, status) = run(&["frames", "--json", "--strict"], b"000e040001614001\n1d050122\n");
    let objects = [
        r#"{"line":1,"start":0,"end":1,"type":"PADDING","count":1,"raw_type":0}"#,
        concat!(
            r#"{"line":1,"start":1,"end":6,"type":"STREAM","id":4,"offset":0,"fin":false,"len":1,"data":"61","#,
            r#""raw_type":14}"#,
        ),
        concat!(
            r#"{"line":1,"offset":6,"error":"frame type not in shortest form in PING","field":"Type","#,
            r#""field_at":6,"close_code":10,"close_name":"PROTOCOL_VIOLATION","section":"RFC 9000, section 12.4"}"#,
        ),
        concat!(
            r#"{"line":2,"start":0,"end":4,"type":"APPLICATION_CLOSE","error_code":5,"reason":"\"","#,
            r#""reason_bytes":"22","raw_type":29}"#,
        ),
    ];
    assert_eq!((text.lines().collect::<Vec<_>>(), status), (objects.to_vec(), 1));
    let list = "04010911040000000101\n";
    let object = r#"{"line":1,"initial_max_data":9,"unknown":[{"id":17,"value":"00000001"}],"order":[4,17]}"#;
    assert_eq!(lines(&["params", "--json"], &list.replace("0101\n", "01\n")), [object]);
    assert_eq!(lines(&["params"], "040109\n"), ["1: initial_max_data=9", "1: order=4"]);
}

#[test]
fn every_field_of_a_packet_is_printed() {
    let rows = [
        (
            "c0000000010806b858ec6f80452b0002aabb4003010203",
            "0..23 initial dst=06b858ec6f80452b src=- version=00000001 token_at=16 token=aabb len=3 number_at=20",
        ),
        ("c00000000001aa01bb00000001", "0..13 version-negotiation dst=aa src=bb versions=00000001"),
        ("f00000000101aa00ffff", "0..10 retry dst=aa src=- version=00000001 rest=ffff"),
        ("61aabb", "0..3 short dst=- spin=true number_at=1"),
    ];
    let input: String = rows.iter().map(|(line, _)| format!("{line}\n")).collect();
    let all: Vec<_> = rows.iter().enumerate().map(|(i, (_, answer))| format!("{}: {answer}", i + 1)).collect();
    assert_eq!(lines(&["datagram", "--quinn"], &input), all);
    assert_eq!(
        lines(&["datagram", "--grease", "--cid-len", "2"], "21aabb"),
        ["1: 0..3 short dst=aabb spin=true number_at=3"]
    );
    let reported = lines(&["datagram", "--quinn", "--versions", "0x9,1"], "f000000009020102020405ff");
    assert_eq!(reported, ["1: 0..12 retry dst=0102 src=0405 version=00000009 rest=ff"]);
}

#[test]
fn calls_end_with_their_status() {
    for (wrong, what) in [
        (&[][..], "missing MODE: frames, canon, datagram, params, number, ranges"),
        (&["frame"], "unknown mode \"frame\"; did you mean frames?"),
        (&["dataram"], "unknown mode \"dataram\"; did you mean datagram?"),
        (&["quux"], "unknown mode \"quux\""),
        (&["frames", "--grease"], "--grease is an option of datagram, not of frames"),
        (&["params", "--cid-len=1"], "--cid-len is an option of datagram, not of params"),
        (&["canon", "--strict"], "--strict is an option of frames, not of canon"),
        (&["ranges", "--rfc"], "--rfc is an option of frames, canon, datagram, params, number, not of ranges"),
        (&["frames", "--rfc", "--quinn"], "--rfc and --quinn exclude each other"),
        (&["params", "--quinn=1"], "--quinn takes no value"),
        (&["datagram", "--cid-len", "21"], "--cid-len: an id has 0 to 20 bytes, not \"21\""),
        (&["datagram", "--cid-len", "+1"], "--cid-len: an id has 0 to 20 bytes, not \"+1\""),
        (&["datagram", "--cid-len"], "--cid-len needs a value: how many bytes an id has, 0 to 20"),
        (&["datagram", "--versions", "0"], "--versions: not a hexadecimal number of 1 to 8 digits, other than 0"),
        (&["datagram", "--versions", "1,,2"], "--versions: not a hexadecimal number of 1 to 8 digits, other than 0"),
        (&["datagram", "--vers", "1"], "unknown option --vers; did you mean --version?"),
        (&["params", "--side", "clint"], "--side: expected client or server, not \"clint\"; did you mean client?"),
        (&["params", "--side"], "--side needs a value: client or server"),
        (&["params", "--sdie=client"], "unknown option --sdie; did you mean --side?"),
        (&["number", "--largest", "-1"], "--largest: not a packet number below 2^62 - 1"),
        (&["frames", "--json=1"], "--json takes no value"),
        (&["frames", "--color=alwys"], "--color: expected always, never or auto, not \"alwys\"; did you mean always?"),
        (&["frames", "--color"], "--color needs a value: always, never or auto"),
        (&["frames", "-x"], "unknown option -x"),
    ] {
        let (out, err, status) = run(wrong, b"01\n");
        assert_eq!((out.as_str(), status), ("", 2), "{wrong:?}");
        assert!(err.starts_with(&format!("quic-wire: {what}")) && err.contains("usage: quic-wire"), "{err}");
    }
    let (out, err, status) = run(&["frames", "--", "-nothing-"], b"");
    assert_eq!((out.as_str(), status), ("", 3));
    assert!(err.starts_with("quic-wire: -nothing-: "), "{err}");
    let version = concat!("quic-wire ", env!("CARGO_PKG_VERSION"), "\n");
    assert_eq!(run(&["--version"], b""), (version.into(), String::new(), 0));
    assert!(run(&["datagram", "--help"], b"").0.contains("--cid-len"));
    assert_eq!([run(&["frames"], b"01").2, run(&["frames"], b"02").2, run(&["frames"], b"").2], [0, 1, 0]);
}

#[test]
fn answers_come_as_lines_do() {
    let mut command = Command::new(env!("CARGO_BIN_EXE_quic-wire"));
    let mut child = command.arg("frames").stdin(Stdio::piped()).stdout(Stdio::piped()).spawn().unwrap();
    let (mut stdin, stdout) = (child.stdin.take().unwrap(), child.stdout.take().unwrap());
    let mut answers = BufReader::new(stdout).lines();
    for (i, line) in ["01", "1e", "zz"].into_iter().enumerate() {
        writeln!(stdin, "{line}").unwrap();
        // Read before the next line is written.
        let answer = answers.next().unwrap().unwrap();
        assert!(answer.starts_with(&format!("{}: ", i + 1)), "{answer}");
    }
    // When the reader stops, the program ends without a message, with the shell's status for SIGPIPE.
    drop(answers);
    while writeln!(stdin, "01").is_ok() {}
    assert_eq!(child.wait().unwrap().code(), Some(141));
}

// The output goes where the shell's words say; then the message, and the status.
#[cfg(target_os = "linux")]
fn shell(words: &str) -> (String, i32) {
    let mut command = Command::new("sh");
    let output = command.args(["-c", words, env!("CARGO_BIN_EXE_quic-wire")]).stdin(Stdio::null()).output().unwrap();
    assert_eq!(output.stdout, b"", "{words}");
    (String::from_utf8(output.stderr).unwrap(), output.status.code().unwrap())
}

#[cfg(target_os = "linux")]
#[test]
fn an_output_that_takes_nothing_is_told() {
    let unread = "(sleep 1; echo 01) | { \"$0\" frames; echo $? >&2; } | true";
    assert_eq!(shell(unread), ("141\n".into(), 0));
    let closed = "quic-wire: write failed: standard output is closed\n";
    for call in ["frames", "frames --json", "--version", "--help"] {
        assert_eq!(shell(&format!("echo 01 | \"$0\" {call} >&-")), (closed.into(), 3), "{call}");
    }
    assert_eq!(shell("\"$0\" --version >&- 2>&-"), (String::new(), 3));
    assert_eq!(shell("\"$0\" frame >&-").1, 2);
    let (said, status) = shell("echo 01 | \"$0\" frames >/dev/full");
    assert!(said.starts_with("quic-wire: write failed: ") && status == 3, "{said}");
    // Files that take all, for reading too, as Python's DEVNULL does.
    for taken in [">/dev/null", "1<>/dev/null"] {
        assert_eq!(shell(&format!("echo 01 | \"$0\" frames {taken}")), (String::new(), 0), "{taken}");
    }
}

#[test]
fn files_and_dumps_are_named() {
    let folder = std::env::temp_dir().join(format!("quic-wire-{}", std::process::id()));
    fs::create_dir_all(&folder).unwrap();
    let (one, two) = (folder.join("one"), folder.join("two"));
    fs::write(&one, "00000000: 0100 0000 0000 0000 0000 0000 0000 0000  ................\n00000010: 1e  .\n01\n")
        .unwrap();
    fs::write(&two, "zz\n").unwrap();
    let names = [one.to_str().unwrap(), two.to_str().unwrap()];
    let (text, _, status) = run(&["frames", names[0], names[1]], b"");
    // One that isn't there doesn't keep it from the others.
    let missing = folder.join("missing");
    let (same, said, failed) = run(&["frames", missing.to_str().unwrap(), names[0], names[1]], b"");
    assert_eq!((&same, failed), (&text, 3));
    assert!(said.starts_with(&format!("quic-wire: {}: ", missing.display())), "{said}");
    fs::remove_dir_all(&folder).unwrap();
    let [one, two] = names;
    let all = [
        format!("{one}:1: 0..1 PING"),
        format!("{one}:1: 1..16 PADDING count=15"),
        format!("{one}:1: 16..17 HANDSHAKE_DONE"),
        format!("{one}:3: 0..1 PING"),
        format!("{two}:1: error not hexadecimal: 'z' in column 1"),
    ];
    assert_eq!((text.lines().collect::<Vec<_>>(), status), (all.iter().map(String::as_str).collect(), 1));
}

// The same bytes by each program, where it is installed: 1200 bytes, most of which are a `*`.
#[test]
fn dumps_of_programs_are_read_as_one() {
    let path = std::env::temp_dir().join(format!("quic-wire-dumped-{}", std::process::id()));
    let payload = [&[0x06, 0x00, 0x40, 0x64][..], &[b' '; 100], &[0; 1096]].concat();
    fs::write(&path, payload).unwrap();
    for words in [
        &["xxd"][..],
        &["xxd", "-a"],
        &["xxd", "-g1", "-u"],
        &["xxd", "-g0"],
        &["hexdump", "-C"],
        &["hexdump", "-Cv"],
        &["od", "-A", "x", "-t", "x1z"],
        &["od", "-A", "x", "-t", "x1"],
        &["od", "-t", "x1"],
        &["od", "-v", "-t", "x1z"],
    ] {
        let Ok(dumped) = Command::new(words[0]).args(&words[1..]).arg(&path).output() else { continue };
        let (text, _, status) = run(&["frames"], &[&dumped.stdout[..], b"\n01\n"].concat());
        let count = dumped.stdout.iter().filter(|byte| **byte == b'\n').count();
        let crypto = format!("1: 0..104 CRYPTO offset=0 len=100 data={}", "20".repeat(100));
        let all = [crypto, "1: 104..1200 PADDING count=1096".into(), format!("{}: 0..1 PING", count + 2)];
        assert_eq!(
            (text.lines().collect::<Vec<_>>(), status),
            (all.iter().map(String::as_str).collect(), 0),
            "{words:?}"
        );
    }
    fs::remove_file(&path).unwrap();
}

#[test]
fn colours_are_asked_for() {
    let coloured = "\x1b[2m1:\x1b[0m \x1b[33m0..2\x1b[0m \x1b[1;32mMAX_DATA\x1b[0m \x1b[36mlimit\x1b[0m=5";
    let error = "\x1b[2m2:\x1b[0m \x1b[1;31merror not hexadecimal: 'z' in column 1\x1b[0m";
    let plain = ["1: 0..2 MAX_DATA limit=5", "2: error not hexadecimal: 'z' in column 1"];
    let input = "1005\nzz\n";
    assert_eq!(lines(&["frames", "--color=always"], input), [coloured, error]);
    for way in [&["frames"][..], &["frames", "--color=auto"], &["frames", "--color", "never"]] {
        assert_eq!(lines(way, input), plain);
    }
    let json = lines(&["frames", "--json"], input);
    assert_eq!(lines(&["frames", "--color=always", "--json"], input), json);
}

// What `quic-show` prints for a list, made from this program's lines. Lines with hexadecimal that it doesn't accept are
// left out.
fn as_shown(mode: &str, input: &str, answer: &str) -> String {
    let lines: Vec<&str> = input.lines().collect();
    let mut shown = String::new();
    let mut params = Params::default();
    let mut last = 0;
    for line in answer.lines() {
        let (number, text) = line.split_once(": ").unwrap();
        let number: usize = number.parse().unwrap();
        if mode == "params" && number != last {
            shown.push_str(&params.end());
        }
        last = number;
        let error = text.strip_prefix("error ");
        match (mode, error.map(|error| error.strip_prefix("at ").map_or(error, |at| at.split_once(": ").unwrap().1))) {
            (_, Some(error)) if error.contains(" in column ") => shown.push_str("error not hexadecimal\n"),
            ("datagram", Some(error)) => shown.push_str(&no_packet(error)),
            (_, Some(error)) => shown.push_str(&format!("error {}\n", reason(error))),
            ("frames", None) => shown.push_str(&frame(text, lines[number - 1])),
            ("datagram", None) if text.contains(" fixed_bit=false ") => shown.push_str("error fixed bit unset\n"),
            ("datagram", None) => shown.push_str(&packet(text)),
            _ => params.field(text),
        }
    }
    shown + &params.end()
}

fn field<'a>(text: &'a str, name: &str) -> &'a str {
    text.split(' ').find_map(|word| word.strip_prefix(name)?.strip_prefix('=')).unwrap()
}

// A run of PADDING is a frame for each type.
fn frame(text: &str, line: &str) -> String {
    let (place, rest) = text.split_once(' ').unwrap();
    if !rest.starts_with("PADDING ") {
        return format!("{place} {}\n", rest.split(' ').next().unwrap());
    }
    let (start, end) = place.split_once("..").unwrap();
    let (mut start, end): (usize, usize) = (start.parse().unwrap(), end.parse().unwrap());
    let mut shown = String::new();
    while start < end {
        let first = u8::from_str_radix(&line[2 * start..2 * start + 2], 16).unwrap();
        let next = start + (1 << (first >> 6));
        shown.push_str(&format!("{start}..{next} PADDING\n"));
        start = next;
    }
    shown
}

// What an error says before its fields.
fn reason(error: &str) -> &str {
    let end = error.find('=').map_or(error.len(), |equals| error[..equals].rfind(' ').unwrap());
    &error[..end]
}

// Four bytes that are no link header, then what could be an IPv6 packet with a payload of six bytes.
#[test]
fn what_looks_like_ip_is_read() {
    let rest = format!("0006{}", "00".repeat(40));
    let stream = format!("1: 0..50 STREAM id=0 offset=0 fin=true len=48 data=000061626364{rest}");
    assert_eq!(lines(&["frames"], &format!("0900000061626364{rest}\n")), [stream]);
    assert!(lines(&["datagram"], &format!("4000000060000000{rest}\n"))[0].starts_with("1: 0..50 short "));
}

// `quic-show` checks the fixed bit of any version, and rejects an id of more than 20 bytes in any.
fn no_packet(error: &str) -> String {
    let reason = reason(error);
    let has_long_id = || field(error, "dst").len().max(field(error, "src").len()) > 40;
    if error.contains(" fixed_bit=false") {
        return "error fixed bit unset\n".into();
    }
    if reason.starts_with("unsupported version") && has_long_id() {
        return "error malformed cid\n".into();
    }
    format!("error {reason}\n")
}

fn packet(text: &str) -> String {
    let front: Vec<&str> = text.split(' ').take(2).collect();
    let mut shown = format!("{} dst {}", front.join(" "), field(text, "dst"));
    if text.contains(" src=") {
        let version = if front[1] == "version-negotiation" { "00000000" } else { field(text, "version") };
        shown += &format!(" src {} version {version}", field(text, "src"));
    }
    if front[1] == "initial" {
        let start: usize = front[0].split("..").next().unwrap().parse().unwrap();
        let at = field(text, "token_at").parse::<usize>().unwrap() - start;
        let token = field(text, "token");
        shown += &format!(" token {at}..{}", at + if token == "-" { 0 } else { token.len() / 2 });
    }
    shown + "\n"
}

// The fields of a list.
#[derive(Default)]
struct Params {
    lines: Vec<String>,
    address: Option<(Vec<u8>, Vec<u8>)>,
    is_begun: bool,
}

impl Params {
    fn field(&mut self, text: &str) {
        self.is_begun = true;
        let (name, value) = text.split_once('=').unwrap();
        let (v4, v6) = self.address.get_or_insert_with(|| (vec![0; 6], vec![0; 18])).clone();
        match name {
            "unknown" | "order" => {}
            "preferred_address_v4" => {
                let address: std::net::SocketAddrV4 = value.parse().unwrap();
                let v4 = [&address.ip().octets()[..], &address.port().to_be_bytes()].concat();
                self.address = Some((v4, v6));
            }
            "preferred_address_v6" => {
                let address: std::net::SocketAddrV6 = value.parse().unwrap();
                let v6 = [&address.ip().octets()[..], &address.port().to_be_bytes()].concat();
                self.address = Some((v4, v6));
            }
            "preferred_address_cid" => {
                let hex: String = [v4, v6].concat().iter().map(|byte| format!("{byte:02x}")).collect();
                self.lines.push(format!("preferred_address {hex}{:02x}{value}", value.len() / 2));
            }
            "preferred_address_token" => self.lines.last_mut().unwrap().push_str(value),
            _ => self.lines.push(format!("{name} {value}")),
        }
    }

    // The order of the numbers and then of the rest is that of the struct.
    fn end(&mut self) -> String {
        if !std::mem::take(&mut self.is_begun) {
            return String::new();
        }
        self.address = None;
        let lines = std::mem::take(&mut self.lines);
        lines.into_iter().map(|line| line + "\n").collect::<String>() + "ok\n"
    }
}

/// The lists `MODE.in` of the folder that `QUIC_WIRE_LISTS` names, with what `quic-show` prints for them in `MODE.out`.
#[test]
fn lists_are_read_as_quic_show_reads_them() {
    let Ok(folder) = std::env::var("QUIC_WIRE_LISTS") else { return };
    let mut count = 0;
    for (list, mode, arguments) in [
        ("frames", "frames", vec!["frames"]),
        ("strict", "frames", vec!["frames", "--strict"]),
        ("datagram-0", "datagram", vec!["datagram", "--cid-len=0"]),
        ("datagram-8", "datagram", vec!["datagram", "--cid-len", "8"]),
        ("datagram-20", "datagram", vec!["datagram", "--cid-len=20"]),
        ("params-client", "params", vec!["params", "--side", "client"]),
        ("params-server", "params", vec!["params", "--side=server"]),
    ] {
        let read = |end: &str| fs::read(format!("{folder}/{list}.{end}"));
        let (Ok(input), Ok(wanted)) = (read("in"), read("out")) else { continue };
        let input = String::from_utf8_lossy(&input).into_owned();
        let (answer, _, status) = run(&[&arguments[..], &["--quinn"]].concat(), input.as_bytes());
        let shown = as_shown(mode, &input, &answer);
        let wanted = String::from_utf8(wanted).unwrap();
        for (i, (one, other)) in shown.lines().zip(wanted.lines()).enumerate() {
            assert_eq!(one, other, "{list}: line {}", i + 1);
        }
        assert_eq!((shown.lines().count(), status), (wanted.lines().count(), 1), "{list}");
        count += wanted.lines().count();
    }
    println!("{count} lines agree");
    assert!(count > 1000);
}

#[test]
fn bytes_that_are_no_text_are_answered() {
    let mut bytes = Vec::new();
    for byte in 0..=255 {
        bytes.extend([byte, b'\n']);
    }
    let (text, _, status) = run(&["frames"], &bytes);
    assert_eq!(status, 1);
    // A comment is left out; `(` and `)`, `,` and `-`, `[` to `]`, `{` to `}` are read as one.
    assert_eq!(text.lines().count(), 257 - 1 - 1 - 1 - 2 - 2);
}
