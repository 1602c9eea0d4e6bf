//! Key logs with lines that can't be read, and one that still grows.
use quic_wire_capture::keylog::{GrowingLog, KeyLog, Label};

fn line(label: &str, random: u8, secret: u8, len: usize) -> String {
    format!("{label} {} {}", format!("{random:02x}").repeat(32), format!("{secret:02x}").repeat(len))
}

#[test]
fn lines_that_cannot_be_read_are_counted() {
    let mut log = KeyLog::default();
    let good = line("CLIENT_TRAFFIC_SECRET_0", 1, 2, 32);
    let others = line("EXPORTER_SECRET", 1, 3, 32);
    let bad = [
        line("CLIENT_TRAFFIC_SECRET_0", 1, 2, 31),
        line("CLIENT_TRAFFIC_SECRET_0", 1, 2, 49),
        good.replace("02", "zz"),
        format!("{good} and more"),
        "CLIENT_TRAFFIC_SECRET_0".into(),
        "CLIENT_TRAFFIC_SECRET_0 01 02".into(),
        "\u{e9} no key log".into(),
    ];
    log.add(format!("# \u{e9}\r\n\r\n{}\n{good}\r\n{others}", bad.join("\n")).as_bytes());
    assert_eq!(log.skipped(), bad.len() as u64);
    assert_eq!(log.secret(&[1; 32], Label::ClientTraffic), Some(&[2; 32][..]));
    assert_eq!(log.secret(&[1; 32], Label::ServerTraffic), None);
    assert!(log.knows(&[1; 32]) && !log.knows(&[2; 32]) && !log.is_empty());
}

// The labels of draft-ietf-tls-keylogfile and draft-ietf-tls-ech-keylogfile, NSS's RSA, and OpenSSL's of key updates.
#[test]
fn labels_that_are_not_known_are_counted() {
    let skipped = |label: &str| {
        let mut log = KeyLog::default();
        log.add(line(label, 1, 2, 32).as_bytes());
        log.skipped()
    };
    let known = [
        "CLIENT_RANDOM",
        "RSA",
        "EXPORTER_SECRET",
        "EARLY_EXPORTER_SECRET",
        "ECH_SECRET",
        "ECH_CONFIG",
        "CLIENT_TRAFFIC_SECRET_1",
        "SERVER_TRAFFIC_SECRET_N",
        "CLIENT_EARLY_TRAFFIC_SECRET",
    ];
    for label in known {
        assert_eq!(skipped(label), 0, "{label}");
    }
    for label in ["CLIENT_TRAFFIC_SECRET", "CLIENT_TRAFFIC_SECRET_", "client_random", "QUIC_CLIENT_TRAFFIC_SECRET_0"] {
        assert_eq!(skipped(label), 1, "{label}");
    }
}

#[test]
fn a_byte_order_mark_of_utf_8() {
    let text = format!("\u{feff}{}\n", line("CLIENT_TRAFFIC_SECRET_0", 1, 2, 32));
    let (mut log, mut growing, mut grown) = (KeyLog::default(), GrowingLog::default(), KeyLog::default());
    log.add(text.as_bytes());
    text.as_bytes().chunks(2).for_each(|piece| growing.add(piece, &mut grown));
    for log in [log, grown] {
        assert_eq!((log.secret(&[1; 32], Label::ClientTraffic), log.skipped()), (Some(&[2; 32][..]), 0));
    }
    // UTF-16 can't be read.
    let mut log = KeyLog::default();
    log.add(&text.encode_utf16().flat_map(u16::to_le_bytes).collect::<Vec<_>>());
    assert!(log.is_empty() && log.skipped() > 0, "{}", log.skipped());
}

#[test]
fn pieces_of_any_size() {
    let text = [
        line("SERVER_HANDSHAKE_TRAFFIC_SECRET", 1, 2, 48),
        format!("# {}", "a long comment ".repeat(50)),
        "x".repeat(1000),
        line("CLIENT_EARLY_TRAFFIC_SECRET", 1, 4, 32),
    ]
    .join("\n");
    for size in 1..300 {
        let (mut growing, mut log) = (GrowingLog::default(), KeyLog::default());
        text.as_bytes().chunks(size).for_each(|piece| growing.add(piece, &mut log));
        assert_eq!(log.secret(&[1; 32], Label::ClientEarly), None, "the last line may go on");
        growing.end(&mut log);
        assert_eq!(log.secret(&[1; 32], Label::ServerHandshake), Some(&[2; 48][..]));
        assert_eq!(log.secret(&[1; 32], Label::ClientEarly), Some(&[4; 32][..]));
        assert_eq!(log.skipped(), 1, "pieces of {size} bytes");
    }
}
