//! Where the readings of `quic-wire` differ, by default that of RFC 9000 and with `--quinn` that of quinn-proto. There
//! is a row, or more, for each departure of docs/DIFFERENCES.md that a flag turns off; bytes are those of the tests in
//! vectors/ that it names.
mod common;

use common::{lines, run};

// Each line prints the first with no option and with `--rfc`, and the second with `--quinn`.
fn differ(arguments: &[&str], line: &str, rfc: &[&str], quinn: &[&str]) {
    let numbered = |texts: &[&str]| texts.iter().map(|text| format!("1: {text}")).collect::<Vec<_>>();
    assert_eq!(lines(arguments, line), numbered(rfc), "{line}");
    assert_eq!(lines(&[arguments, &["--rfc"]].concat(), line), numbered(rfc), "{line}");
    assert_eq!(lines(&[arguments, &["--quinn"]].concat(), line), numbered(quinn), "{line}");
}

// A payload, its error, the field at fault with its offset, what is wrong, the section, and quinn-proto's frame.
const FRAMES: [(&str, &str, &str, usize, &str, &str, &str); 12] = [
    ("4001", "frame type not in shortest form in PING", "Type", 0, "", "12.4", "PING"),
    ("1f", "invalid frame ID in IMMEDIATE_ACK", "Type", 0, EXTENSION, "12.4", "IMMEDIATE_ACK"),
    (
        "40af2a148000c35001",
        "invalid frame ID in ACK_FREQUENCY",
        "Type",
        0,
        EXTENSION,
        "12.4",
        "ACK_FREQUENCY sequence=42 ack_eliciting_threshold=20 request_max_ack_delay=50000 reordering_threshold=1",
    ),
    ("0700", "malformed in NEW_TOKEN", "Token Length", 1, "the token is empty", "19.7", "NEW_TOKEN token=-"),
    ("074000", "malformed in NEW_TOKEN", "Token Length", 1, "the token is empty", "19.7", "NEW_TOKEN token=-"),
    (
        "06ffffffffffffffff01aa",
        "limit exceeded in CRYPTO",
        "Length",
        9,
        DATA,
        "19.6",
        "CRYPTO offset=4611686018427387903 len=1 data=aa",
    ),
    (
        "0e00ffffffffffffffff0161",
        "limit exceeded in STREAM",
        "Length",
        10,
        DATA,
        "19.8",
        "STREAM id=0 offset=4611686018427387903 fin=false len=1 data=61",
    ),
    (
        "0c00ffffffffffffffff61",
        "limit exceeded in STREAM",
        "Offset",
        2,
        DATA,
        "19.8",
        "STREAM id=0 offset=4611686018427387903 fin=false len=1 data=61",
    ),
    (
        "12d000000000000001",
        "limit exceeded in MAX_STREAMS_BIDI",
        "Maximum Streams",
        1,
        STREAMS,
        "19.11",
        "MAX_STREAMS_BIDI dir=bidirectional count=1152921504606846977",
    ),
    (
        "13d000000000000001",
        "limit exceeded in MAX_STREAMS_UNI",
        "Maximum Streams",
        1,
        STREAMS,
        "19.11",
        "MAX_STREAMS_UNI dir=unidirectional count=1152921504606846977",
    ),
    (
        "16d000000000000001",
        "limit exceeded in STREAMS_BLOCKED_BIDI",
        "Maximum Streams",
        1,
        STREAMS,
        "19.14",
        "STREAMS_BLOCKED_BIDI dir=bidirectional limit=1152921504606846977",
    ),
    (
        "17d000000000000001",
        "limit exceeded in STREAMS_BLOCKED_UNI",
        "Maximum Streams",
        1,
        STREAMS,
        "19.14",
        "STREAMS_BLOCKED_UNI dir=unidirectional limit=1152921504606846977",
    ),
];
const EXTENSION: &str = "the ACK frequency extension wasn't negotiated";
const DATA: &str = "the data end past 2^62 - 1";
const STREAMS: &str = "it is greater than 2^60";

#[test]
fn a_frame_that_the_rfc_forbids_is_an_error() {
    for (payload, what, field, field_at, why, section, frame) in FRAMES {
        let close = match section {
            "12.4" if why.is_empty() => "close_code=10 close_name=PROTOCOL_VIOLATION",
            _ => "close_code=7 close_name=FRAME_ENCODING_ERROR",
        };
        let why = if why.is_empty() { String::new() } else { format!(" why=\"{why}\"") };
        let error = |at: usize| {
            let field_at = at + field_at;
            let place = format!("field=\"{field}\" field_at={field_at}");
            format!("error at {at}: {what} {place}{why} {close} section=\"RFC 9000, section {section}\"")
        };
        let len = payload.len() / 2;
        differ(&["frames"], payload, &[&error(0)], &[&format!("0..{len} {frame}")]);
        // The frames before it are read.
        let (before, after) = ("0..3 PADDING count=3", format!("3..{} {frame}", len + 3));
        differ(&["frames"], &format!("000000{payload}"), &[before, &error(3)], &[before, &after]);
        assert_eq!(lines(&["canon"], payload), [format!("1: {}", error(0))]);
        assert!(lines(&["canon", "--quinn"], payload)[0].starts_with(&format!("1: 0..{len} SHORTEST ")));
    }
}

#[test]
fn strict_is_a_rule_of_the_rfc() {
    let error = &lines(&["frames"], "4001")[..];
    assert_eq!(lines(&["frames", "--quinn", "--strict"], "4001"), error);
    assert_eq!(lines(&["frames", "--strict"], "4001"), error);
    // It is the only one.
    assert_eq!(lines(&["frames", "--quinn", "--strict"], "0700"), ["1: 0..2 NEW_TOKEN token=-"]);
}

#[test]
fn programs_read_which_rule_is_broken() {
    let error = concat!(
        r#"{"line":1,"offset":0,"error":"malformed in NEW_TOKEN","field":"Token Length","field_at":1,"#,
        r#""why":"the token is empty","close_code":7,"close_name":"FRAME_ENCODING_ERROR","#,
        r#""section":"RFC 9000, section 19.7"}"#,
    );
    assert_eq!(lines(&["frames", "--json"], "0700"), [error]);
}

// Section 17.2.5.2; RFC 9001, appendix A.4.
#[test]
fn a_retry_is_whole() {
    let (front, ids) = ("ff000000010008f067a5502a4262b5", "dst=- src=f067a5502a4262b5 version=00000001");
    let tag = "04a265ba2eff4d829058fb3f0f2496ba";
    let whole = format!("0..36 retry {ids} token=746f6b656e tag={tag}");
    differ(&["datagram"], &format!("{front}746f6b656e{tag}"), &[&whole], &[&whole]);
    let error = |field| {
        let then = "then=\"the packet is dropped\" section=\"RFC 9000, section 17.2.5.2\"";
        format!("error at 0: Retry without a token or a tag field=\"{field}\" field_at=15 {then}")
    };
    for (rest, field, fields) in [
        (tag, "Retry Token", format!("token=- tag={tag}")),
        (&tag[..30], "Retry Integrity Tag", format!("rest={}", &tag[..30])),
        ("", "Retry Integrity Tag", "rest=-".into()),
    ] {
        let quinn = format!("0..{} retry {ids} {fields}", 15 + rest.len() / 2);
        differ(&["datagram"], &format!("{front}{rest}"), &[&error(field)], &[&quinn]);
    }
}

// Section 17.2.1; RFC 8999, section 5.1.
#[test]
fn the_fixed_bit_is_that_of_known_versions() {
    let negotiation = "0..19 version-negotiation dst=- src=8394c8f03e515708 versions=00000001";
    let note = "fixed_bit=false note=\"RFC 9000, section 17.2.1, leaves this bit unused; quinn-proto 0.11 rejects the \
                packet\"";
    let line = "8000000000 00 08 8394c8f03e515708 00000001";
    differ(&["datagram"], line, &[negotiation], &[&format!("{negotiation} {note}")]);
    let other = |bit| {
        let then = "a server responds with a version negotiation, a client drops the packet";
        let section = "RFC 9000, sections 5.2.1 and 5.2.2";
        let fields = format!("dst=8394c8f03e515708 src=c0c1c2c3 {bit}field=\"Version\" field_at=1");
        format!("error at 0: unsupported version 1a2a3a4a {fields} then=\"{then}\" section=\"{section}\"")
    };
    let line = "801a2a3a4a 08 8394c8f03e515708 04 c0c1c2c3 5a5a";
    differ(&["datagram"], line, &[&other("")], &[&other("fixed_bit=false ")]);
    let then = "then=\"the packet is dropped\" section=\"RFC 9000, section";
    let cut = format!("error at 0: unexpected end of packet field=\"Version\" field_at=1 {then} 12.2\"");
    let unset = format!("error at 0: fixed bit unset field=\"Fixed Bit\" field_at=0 {then} 17.2\"");
    differ(&["datagram"], "b61a2a3a", &[&cut], &[&unset]);
    // The bit counts in versions that are read, and in short headers.
    for line in ["8000000001 00 00 00 01 aa", "21aabb"] {
        let error = &lines(&["datagram", "--quinn"], line)[..];
        assert!(error[0].starts_with("1: error at 0: fixed bit unset "), "{error:?}");
        assert_eq!(lines(&["datagram"], line), error);
    }
}

// Sections 7.4 and 16.
#[test]
fn parameters_are_those_of_the_rfc() {
    let closed = "close_code=8 close_name=TRANSPORT_PARAMETER_ERROR section=";
    let wide = "its integer isn't in its shortest encoding, which RFC 9000, section 16, allows and quinn-proto rejects";
    for (line, value) in [("0102400a", "400a"), ("0108c00000000000000a", "c00000000000000a")] {
        let quinn = format!(
            "error at 0: malformed parameter=max_idle_timeout id=1 value={value} why=\"{wide}\" \
             {closed}\"RFC 9000, section 18.2\""
        );
        differ(&["params"], line, &["max_idle_timeout=10", "order=1"], &[&quinn]);
    }
    let [rfc, quinn] = [
        ("illegal value", "wanted=\"a number of at most 20\" why=\"its value is invalid\"".into()),
        ("malformed", format!("why=\"{wide}\"")),
    ]
    .map(|(what, why)| {
        let parameter = "parameter=ack_delay_exponent id=10 value=4015";
        format!("error at 0: {what} {parameter} {why} {closed}\"RFC 9000, section 18.2\"")
    });
    differ(&["params"], "0a024015", &[&rfc], &[&quinn]);
    for (line, at, parameter, read) in [
        ("6ab200 6ab200", 3, "grease_quic_bit id=10930 value=-", ["grease_quic_bit=true", "order=10930,10930"]),
        (
            "c0000000ff04de1b 01 05 c0000000ff04de1b 01 06",
            10,
            "min_ack_delay id=4278509083 value=06",
            ["min_ack_delay=6", "order=4278509083,4278509083"],
        ),
    ] {
        let rfc = format!(
            "error at {at}: malformed parameter={parameter} why=\"it occurs twice\" {closed}\"RFC 9000, section 7.4\""
        );
        differ(&["params"], line, &[&rfc], &read);
    }
}

// Appendix A.3.
#[test]
fn packet_numbers_are_below_2_to_the_62() {
    for (line, rfc, quinn, written) in [
        ("10", 0x3fff_ffff_ffff_ff10_u64, 0x4000_0000_0000_0010_u64, 16),
        ("00", 0x3fff_ffff_ffff_ff00, 0x4000_0000_0000_0000, 0),
        ("00000001", 0x3fff_ffff_0000_0001, 0x4000_0000_0000_0001, 1),
    ] {
        let len = line.len() / 2;
        let number = |value| format!("0..{len} PACKET_NUMBER value={value} written={written}");
        differ(&["number", "--largest", "0x3ffffffffffffffe"], line, &[&number(rfc)], &[&number(quinn)]);
    }
}

// An Initial with the ids of the server's in RFC 9001, appendix A.3, and a shorter payload.
const INITIAL: &str = "c0000000010008f067a5502a4262b5 00 05 01aabbccdd";

#[test]
fn a_hint_names_the_mode_of_the_bytes() {
    let input = format!("01\n{INITIAL}\n{INITIAL}\n");
    for mode in ["frames", "canon", "params"] {
        let (_, said, status) = run(&[mode], input.as_bytes());
        let hint = "quic-wire: hint: line 2 reads as a datagram; use the mode datagram\n";
        assert_eq!((&*said, status), (hint, 1), "{mode}");
    }
    // A packet that is cut off.
    let (_, said, _) = run(&["frames"], &INITIAL.as_bytes()[..INITIAL.len() - 4]);
    assert_eq!(said, "quic-wire: hint: line 1 reads as a datagram; use the mode datagram\n");
    let hint = "quic-wire: hint: line 1 reads as a payload; use the mode frames\n";
    let error = "1: error at 0: fixed bit unset field=\"Fixed Bit\" field_at=0 then=\"the packet is dropped\" \
                 section=\"RFC 9000, section 17.3.1\"\n";
    assert_eq!(run(&["datagram"], b"010a000161"), (error.into(), hint.into(), 1));
    // By the same reading.
    assert_eq!([run(&["datagram"], b"0700").1, run(&["datagram", "--quinn"], b"0700").1], ["", hint]);
}

#[cfg(unix)]
#[test]
fn a_hint_changes_neither_output_nor_status() {
    let (text, _, status) = run(&["frames"], INITIAL.as_bytes());
    let script = format!("echo {INITIAL} | \"$0\" frames");
    for ending in ["2>/dev/null", "2>&-"] {
        let mut shell = std::process::Command::new("sh");
        let output =
            shell.args(["-c", &format!("{script} {ending}"), env!("CARGO_BIN_EXE_quic-wire")]).output().unwrap();
        assert_eq!((String::from_utf8(output.stdout).unwrap(), output.status.code()), (text.clone(), Some(status)));
        assert_eq!(output.stderr, b"");
    }
}

#[test]
fn a_hint_names_its_file() {
    let path = std::env::temp_dir().join(format!("quic-wire-hint-{}", std::process::id()));
    std::fs::write(&path, INITIAL).unwrap();
    let name = path.to_str().unwrap();
    let (_, said, _) = run(&["frames", "-", name], b"01");
    std::fs::remove_file(&path).unwrap();
    assert_eq!(said, format!("quic-wire: hint: {name}:1 reads as a datagram; use the mode datagram\n"));
}

#[test]
fn there_is_no_hint_in_doubt() {
    for (arguments, line) in [
        // What is accepted, what isn't bytes, and modes whose bytes have no other.
        (&["frames"][..], "01"),
        (&["datagram"], INITIAL),
        (&["datagram", "--grease"], "010a000161"),
        (&["params"], "c000000001000000 02 4000"),
        (&["frames"], "c0 0"),
        (&["number"], "c000"),
        // A version negotiation, a type or an id in eight bytes.
        (&["frames"], "c000000000000001"),
        (&["params"], "c000000000000001"),
        // An unknown version, a clear fixed bit, a Retry without a token.
        (&["frames"], "c01a2a3a4a0000"),
        (&["frames"], "80000000010008f067a5502a4262b5000501aabbccdd"),
        (&["frames"], "f000000001000001"),
        // A short header.
        (&["frames"], "4a010203040506"),
        // A STREAM or DATAGRAM that any bytes fit after; frames and then something else.
        (&["datagram"], "0800616263"),
        (&["datagram"], "30616263"),
        (&["datagram"], "01060005"),
        (&["datagram"], "010a00016121"),
    ] {
        assert_eq!(run(arguments, line.as_bytes()).1, "", "{arguments:?} {line}");
    }
}
