//! The mode `capture`: what it prints for people, and which packets.
#![cfg(feature = "capture")]
#[path = "common/captures.rs"]
mod captures;
#[path = "../../capture/tests/common/mod.rs"]
mod common;
#[path = "../../capture/tests/common/made.rs"]
mod made;
#[path = "common/mod.rs"]
mod program;

use captures::{Folder, SMALL, SMALL_KEYS, a2, a3, a4, kept, pcap, pcap_of};
use common::Kept;
use made::{Client, Handshake, Initial, Made, Server, Short, frame};
use program::run;
use quic_wire::ConnectionId;
use quic_wire::datagram::VersionNegotiation;
use quic_wire::frame::{Frame, NewConnectionId};

const PING: &[u8] = &[1];

fn shown(arguments: &[&str]) -> Vec<String> {
    let (text, said, status) = run(&[&["capture"], arguments].concat(), b"");
    assert_eq!((&said[..], status), ("", 0), "{arguments:?}");
    text.lines().map(String::from).collect()
}

// The lines of packets, without what is below them and the summaries.
fn packets(arguments: &[&str]) -> Vec<String> {
    shown(arguments).into_iter().filter(|line| line.starts_with(|c: char| c.is_ascii_digit())).collect()
}

// A connection with an ACK, a PING and a close.
fn connection(seed: u8) -> (Made, Vec<Kept>) {
    let mut made = Made::new(seed);
    let mut all = made.handshake();
    all.extend([made.send(Client, Short, PING), made.send(Server, Short, &[2, 0, 0, 0, 0])]);
    all.push(made.send(Client, Short, PING));
    all.push(made.send(Server, Short, b"\x1c\x0a\x08\x03bye"));
    (made, all)
}

// A capture and a key log in a folder.
fn files(folder: &Folder, made: &[&Made], all: &[Kept]) -> (String, String) {
    let keys: String = made.iter().map(|made| made.key_log()).collect();
    (folder.write("made.pcap", pcap(all)), folder.write("made.keys", keys))
}

// Records, packet numbers and types of frames as tshark 4.0.17 prints them, those of a datagram together.
const BY_TSHARK: [(u64, &str, &str); 13] = [
    (1, "0", "6,0"),
    (2, "0,0,0", "3,6,6,10,10,10,0"),
    (3, "0", "3"),
    (4, "1,0", "6,3,24,24,24,24,24,24,10,10,10,14,11"),
    (5, "1", "1,0"),
    (6, "2", "24,24,24,24,24,24,11,10,10,10"),
    (7, "1", "3"),
    (8, "3", "1,0"),
    (9, "2", "3"),
    (10, "3", "1,0"),
    (11, "4", "3"),
    (12, "4", "24,24,24,24,24,24,30,7,6,14,14,11"),
    (13, "5", "29"),
];

// The number after each of a text.
fn numbers_after(line: &str, text: &str) -> Vec<String> {
    let rests = line.match_indices(text).map(|(at, _)| &line[at + text.len()..]);
    rests.map(|rest| rest.chars().take_while(char::is_ascii_digit).collect()).collect()
}

#[test]
fn a_real_connection_is_read_as_tshark_does() {
    let lines = shown(&[SMALL, "--keylog", SMALL_KEYS, "--json"]);
    for (record, numbers, types) in BY_TSHARK {
        let of_record: Vec<_> =
            lines.iter().filter(|line| line.contains(&format!("\"record\":{record},\"time\""))).collect();
        let all = |text| of_record.iter().flat_map(|line| numbers_after(line, text)).collect::<Vec<_>>().join(",");
        assert_eq!((&all("\"number\":")[..], &all("\"raw_type\":")[..]), (numbers, types), "{record}");
    }
}

// Times, ports, names, the suite and the close with 0x100 as tshark has them.
#[test]
fn lines_for_people() {
    let lines = shown(&[SMALL, "--keylog", SMALL_KEYS]);
    let first = "1: 0.000000 127.0.0.1:40354 > 127.0.0.1:21001 connection=0 client Initial len=1200 number=0";
    assert_eq!(lines[0], first);
    assert!(lines[1].starts_with("    0..375 CRYPTO offset=0 len=371 data=0100016f0303"), "{}", lines[1]);
    assert!(lines[1].ends_with(".."), "{}", lines[1]);
    assert!(lines[2].starts_with("    transport parameters max_idle_timeout=30000 initial_max_data=15728640 "));
    assert_eq!(lines[3], "    375..1136 PADDING count=761");
    let last = [
        "13: 0.027264 127.0.0.1:40354 > 127.0.0.1:21001 connection=0 client 1-RTT len=40 number=5",
        "    0..4 APPLICATION_CLOSE error_name=\"application error 0x100\" reason=\"\"",
        "connection 0: QUIC version 1, TLS_AES_128_GCM_SHA256, server name \"localhost\", protocol \"h3\", 0.000000 to \
         0.027264 first_dst=43017239077a7568efe8cfb20ac40529e5c1",
        "    client 127.0.0.1:40354: 9 packets opened",
        "    server 127.0.0.1:21001: 7 packets opened",
        "    end: the client's application closed it with application error 0x100",
    ];
    let rest = &lines[lines.len() - 7..];
    assert_eq!(rest[..6], last);
    let counts = "13 records from 2026-11-29T00:14:59.630191000Z, 13 datagrams, 1 connection, 16 packets opened";
    assert_eq!(rest[6], format!("{SMALL}: {counts}"));
}

// RFC 9001, appendix A.
#[test]
fn the_examples_of_the_rfc() {
    let folder = Folder::new("examples");
    let file = folder.write("rfc.pcap", pcap(&[kept(true, 0, &a2()), kept(false, 7, &a3())]));
    let lines = shown(&[&file]);
    assert_eq!(lines[0], "1: 0.000000 10.0.0.1:4433 > 10.0.0.2:443 connection=0 client Initial len=1200 number=2");
    assert!(lines[1].starts_with("    0..245 CRYPTO offset=0 len=241 data=010000ed0303ebf8fa56f129"), "{}", lines[1]);
    assert!(lines.contains(&"    245..1162 PADDING count=917".into()));
    assert!(lines.iter().any(|line| line.contains(" order=4,5,7,8,1,9,15,6")), "{lines:#?}");
    let server = "2: 0.007000 10.0.0.2:443 > 10.0.0.1:4433 connection=0 server Initial len=135 number=1";
    let at = lines.iter().position(|line| line == server).unwrap();
    assert_eq!(lines[at + 1], "    0..5 ACK largest=0 delay=0 ranges=0-0");
    assert!(
        lines[at + 2].starts_with("    5..99 CRYPTO offset=0 len=90 data=020000560303eefce7f7b37ba1d1632e96677825")
    );
    assert!(
        lines[at + 3]
            .starts_with("connection 0: QUIC version 1, TLS_AES_128_GCM_SHA256, server name \"example.com\", 0.0")
    );
    assert!(lines[at + 3].ends_with("first_dst=8394c8f03e515708"));
    assert_eq!(lines[at + 6], "    end: it was open at the end of the capture");
    let file = folder.write("retry.pcap", pcap(&[kept(true, 0, &a2()), kept(false, 1, &a4())]));
    let retry = "2: 0.001000 10.0.0.2:443 > 10.0.0.1:4433 connection=0 server Retry len=36 dst=- src=f067a5502a4262b5 \
                 version=00000001 token=746f6b656e tag=04a265ba2eff4d829058fb3f0f2496ba";
    assert!(shown(&[&file]).contains(&retry.into()));
}

// Of numbers 0 to 4 the server acknowledges 4, so that 0 and 1 count as lost (RFC 9002, section 6.1.1), and then 0 too.
fn losses() -> (Made, Vec<Kept>) {
    let mut made = Made::new(1);
    let mut all = made.handshake();
    all.extend((0..5).map(|_| made.send(Client, Short, PING)));
    all.extend([made.send(Server, Short, &[2, 4, 0, 0, 0]), made.send(Server, Short, &[2, 4, 0, 1, 0, 2, 0])]);
    (made, all)
}

#[test]
fn lost_packets() {
    let folder = Folder::new("lost");
    let (made, all) = losses();
    let (file, keys) = files(&folder, &[&made], &all);
    // The round-trip time is 1 ms, so that what was sent 9/8 of that before 4's acknowledgment, or earlier, is lost too
    // (section 6.1.2).
    let by_packets = "since one with a number greater by 3 or more was acknowledged";
    let by_time = "since it was sent too long before a later one was acknowledged";
    let lost =
        |number: u64, why| format!("    lost: client application data number={number} of record {}, {why}", number + 4);
    let first = "9: 0.008000 10.0.0.2:443 > 10.0.0.1:1001 connection=0 server 1-RTT len=27 number=0";
    let mut lines = vec![first.into(), "    0..5 ACK largest=4 delay=0 ranges=4-4".into()];
    lines.extend([(0, by_packets), (1, by_packets), (2, by_time), (3, by_time)].map(|(number, why)| lost(number, why)));
    let found = shown(&[&file, "--keylog", &keys, "--lost"]);
    assert_eq!(found[..6], lines);
    let sums = "    client 10.0.0.1:1001: 7 packets opened, 4 lost, 1 of them acknowledged later";
    assert_eq!(found[7], sums);
    assert!(shown(&[&file, "--keylog", &keys]).contains(&lines[2]));
}

#[test]
fn closes_are_words() {
    let folder = Folder::new("closes");
    let rows: [(&[u8], &str, &str); 4] = [
        (
            b"\x1c\x0a\x08\x03bye",
            "0..7 CONNECTION_CLOSE error_name=\"PROTOCOL_VIOLATION\" frame_name=STREAM reason=\"bye\"",
            "the client closed it with PROTOCOL_VIOLATION in STREAM, \"bye\"",
        ),
        (
            &[0x1c, 0x41, 0x74, 0x06, 0x00],
            "0..5 CONNECTION_CLOSE error_name=\"CRYPTO_ERROR certificate_required\" frame_name=CRYPTO reason=\"\"",
            "the client closed it with CRYPTO_ERROR certificate_required in CRYPTO",
        ),
        (
            b"\x1c\x00\x00\x0c70:net error",
            "0..16 CONNECTION_CLOSE error_name=\"NO_ERROR\" reason=\"70:net error\"",
            "the client closed it with NO_ERROR, \"70:net error\"",
        ),
        (
            b"\x1d\x41\x00\x02\xffa",
            "0..6 APPLICATION_CLOSE error_name=\"application error 0x100\" reason=\"\u{fffd}a\"",
            "the client's application closed it with application error 0x100, \"\u{fffd}a\"",
        ),
    ];
    for (close, line, end) in rows {
        let mut made = Made::new(1);
        let mut all = made.handshake();
        all.push(made.send(Client, Short, close));
        let (file, keys) = files(&folder, &[&made], &all);
        let lines = shown(&[&file, "--keylog", &keys]);
        assert!(lines.contains(&format!("    {line}")), "{line}: {lines:#?}");
        assert!(lines.contains(&format!("    end: {end}")), "{end}: {lines:#?}");
    }
}

#[test]
fn how_connections_end() {
    let folder = Folder::new("ends");
    // Both sides close; a server that knows nothing more; one that says nothing for too long.
    let (mut both, mut all) = connection(1);
    all.push(both.send(Client, Short, b"\x1c\x00\x00\x00"));
    let mut reset = Made::new(2);
    all.extend(reset.handshake());
    all.push(reset.datagram(Server, [&[0x4a; 30][..], &[reset.seed ^ 0xee; 16]].concat()));
    let mut silent = Made::new(3);
    all.extend(silent.handshake());
    silent.time += 700_000_000_000;
    all.extend((0..1100).map(|_| silent.send(Client, Short, PING)));
    let (file, keys) = files(&folder, &[&both, &reset, &silent], &all);
    let ends: Vec<_> =
        shown(&[&file, "--keylog", &keys]).into_iter().filter(|line| line.starts_with("    end: ")).collect();
    let all = [
        "    end: the server closed it with PROTOCOL_VIOLATION in STREAM, \"bye\"; the client closed it with \
         NO_ERROR",
        "    end: the server sent a stateless reset",
        "    end: nothing more came, until it had timed out",
    ];
    assert_eq!(ends, all);
}

// Only a packet of the same side shows that an unopened one didn't end the connection, and a close that was opened does.
#[test]
fn ends_after_packets_that_are_not_opened() {
    let folder = Folder::new("shut");
    let end = |closes: bool, goes_on: bool| {
        let mut made = Made::new(1);
        let mut all = made.handshake();
        let mut wrong = made.send(Server, Short, PING);
        *wrong.bytes.last_mut().unwrap() ^= 1;
        all.extend([made.send(Server, Short, PING), wrong, made.send(Client, Short, PING)]);
        all.extend(goes_on.then(|| made.send(Server, Short, PING)));
        all.extend(closes.then(|| made.send(Client, Short, b"\x1c\x00\x00\x00")));
        let (file, keys) = files(&folder, &[&made], &all);
        shown(&[&file, "--keylog", &keys]).into_iter().find(|line| line.starts_with("    end: ")).unwrap()
    };
    assert_eq!(end(false, false), "    end: not known: its last packets weren't opened");
    assert_eq!(end(false, true), "    end: it was open at the end of the capture");
    assert_eq!(end(true, false), "    end: the client closed it with NO_ERROR");
}

#[test]
fn what_is_not_opened_is_counted_by_its_reason() {
    let lines = shown(&[SMALL]);
    assert!(lines[4].starts_with("2: 0.003922 127.0.0.1:21001 > 127.0.0.1:40354 connection=0 server Initial len=166 "));
    let shut = "connection=0 server Handshake len=747 not opened: the key log has no secret for it";
    assert!(lines.iter().any(|line| line.ends_with(shut)), "{lines:#?}");
    let tail = &lines[lines.len() - 6..];
    assert_eq!(
        tail[1],
        "    client 127.0.0.1:40354: 1 packet opened; 8 packets not opened: the key log has no secret for it"
    );
    assert_eq!(
        tail[2],
        "    server 127.0.0.1:21001: 1 packet opened; 6 packets not opened: the key log has no secret for it"
    );
    // What wasn't opened is a part of the connection, and may have ended it.
    assert!(tail[0].contains(", 0.000000 to 0.027264 first_dst="), "{}", tail[0]);
    assert_eq!(tail[3], "    end: not known: its last packets weren't opened");
    assert!(tail[4].ends_with(" 13 datagrams, 1 connection, 2 packets opened"));
    assert_eq!(tail[5], "    14 packets not opened: the key log has no secret for it");
}

#[test]
fn packets_that_have_no_frames() {
    let folder = Folder::new("plain");
    let mut made = Made { version: 0x0a1a_2a3a, ..Made::new(1) };
    let mut unknown = made.send(Client, Initial, &[0; 30]);
    unknown.bytes.truncate(50);
    let mut packet = Vec::new();
    let (dst_cid, src_cid) = (&made.ids[0][..], &made.initial_id[..]);
    VersionNegotiation { random: 0, dst_cid, src_cid, versions: &[1, 0x6b33_43cf] }.encode(&mut packet).unwrap();
    let all = [unknown, made.datagram(Server, packet)];
    let (file, _) = files(&folder, &[], &all);
    let lines = shown(&[&file]);
    let rows = [
        "1: 0.000000 10.0.0.1:1001 > 10.0.0.2:443 connection=- 0..50 no packet: a packet of version 0x0a1a2a3a",
        "2: 0.001000 10.0.0.2:443 > 10.0.0.1:1001 connection=- Version Negotiation len=27 dst=01c1c2c3 \
         src=01f1f2f3f4f5f6f7 versions=00000001,6b3343cf",
        "    1 version negotiation",
        "    1 datagram with a packet of another version after their packets",
    ];
    assert_eq!([&lines[..2], &lines[3..]].concat(), rows);
}

#[test]
fn what_the_rfc_rejects() {
    let folder = Folder::new("rejected");
    let mut made = Made::new(1);
    let mut all = made.handshake();
    let (id, reset_token) = (ConnectionId::new(b"second id"), [7; 16].into());
    let new_id = frame(&Frame::NewConnectionId(NewConnectionId { sequence: 1, retire_prior_to: 0, id, reset_token }));
    all.push(made.send(Server, Handshake, &new_id));
    all.push(made.send(Client, Short, &[1, 0x10]));
    all.push(made.send(Client, Short, PING));
    all.push(made.send(Server, Short, &[0x07, 0x00]));
    let (file, keys) = files(&folder, &[&made], &all);
    let lines = shown(&[&file, "--keylog", &keys, "--rejected"]);
    let rows = [
        "4: 0.003000 10.0.0.2:443 > 10.0.0.1:1001 connection=0 server Handshake len=65 number=1",
        "    0..29 NEW_CONNECTION_ID sequence=1 retire_prior_to=0 id=7365636f6e64206964 \
         reset_token=07070707070707070707070707070707 forbidden=\"a frame that packets of this type may not carry\"",
        "7: 0.006000 10.0.0.2:443 > 10.0.0.1:1001 connection=0 server 1-RTT len=26 number=0",
        "    error at 0: malformed in NEW_TOKEN field=\"Token Length\" field_at=1 why=\"the token is empty\" close_code=7 \
         close_name=FRAME_ENCODING_ERROR section=\"RFC 9000, section 19.7\"",
    ];
    for row in rows {
        assert!(lines.iter().any(|line| line == row), "{row}: {lines:#?}");
    }
    assert!(!lines.iter().any(|line| line.starts_with("6: ")));
}

#[test]
fn filters() {
    let folder = Folder::new("filters");
    let ((one, first), (two, second)) = (connection(1), connection(2));
    let all: Vec<_> = first.into_iter().zip(second).flat_map(|(a, b)| [a, b]).collect();
    let (file, keys) = files(&folder, &[&one, &two], &all);
    // The records and packets that are shown.
    let rows: [(&[&str], &str); 15] = [
        (&["--connection", "1", "--side=client"], "2 6 8 12"),
        (&["--connection=0", "--connection=1", "--number", "1"], "11 12 13 14"),
        (&["--side", "server", "--frame", "crypto"], "3 3 4 4"),
        (&["--frame", "PING"], "7 8 11 12"),
        (&["--frame", "connection_close"], "13 14"),
        (&["--frame", "PING", "--frame", "CONNECTION_CLOSE", "--connection", "0"], "7 11 13"),
        (&["--number", "1"], "11 12 13 14"),
        (&["--number", "1-1"], "11 12 13 14"),
        (&["--number", "1..2"], "11 12 13 14"),
        (&["--number", "0..1", "--side", "client"], "1 2 5 6 7 8"),
        (&["--number", "2-9"], ""),
        (&["--number", "0", "--number", "1", "--connection", "0"], "1 3 3 5 7 9 11 13"),
        (&["--rejected"], ""),
        (&["--frame", "ACK", "--rejected"], ""),
        (&["--frame", "STREAM"], ""),
    ];
    for (filter, records) in rows {
        let lines = packets(&[filter, &[&file, "--keylog", &keys]].concat());
        let found: Vec<_> = lines.iter().map(|line| line.split(':').next().unwrap()).collect();
        assert_eq!(found.join(" "), records, "{filter:?}");
    }
    // A connection that isn't there is named.
    let (text, said, status) = run(&["capture", &file, "--keylog", &keys, "--connection=2", "--connection=1"], b"");
    let wanted = format!("quic-wire: {file}: there is no connection 2: the file has 0 to 1\n");
    assert_eq!((said, status, text.contains("\nconnection 1: ")), (wanted, 0, true));
    // Summaries are those of the connections that may be shown, and count what isn't.
    let lines = shown(&[&file, "--keylog", &keys, "--connection", "1", "--frame", "ACK"]);
    let sums: Vec<_> = lines.iter().filter(|line| line.starts_with("connection ")).collect();
    assert!(matches!(&sums[..], [sum] if sum.starts_with("connection 1: ")), "{sums:?}");
    assert!(lines.contains(&"    client 10.0.0.1:1002: 4 packets opened".into()), "{lines:#?}");
    // What isn't opened is of its connection and side, and has no number and no frames.
    let shut = |filter: &[&str]| packets(&[filter, &[&file]].concat()).len();
    assert_eq!((shut(&["--rejected"]), shut(&["--rejected", "--side", "server", "--connection", "0"])), (12, 3));
    assert_eq!((shut(&["--rejected", "--number", "0"]), shut(&["--rejected", "--frame", "PING"])), (0, 0));
}

#[test]
fn addresses_that_change_and_packets_that_come_again() {
    let folder = Folder::new("again");
    let mut made = Made::new(1);
    let mut all = made.handshake();
    all.push(made.send(Client, Short, PING));
    made.addresses[0] = ([192, 0, 2, 1], 5).into();
    all.push(made.send(Client, Short, PING));
    all.push(all[3].clone());
    let (file, keys) = files(&folder, &[&made], &all);
    let lines = shown(&[&file, "--keylog", &keys]);
    let again = "1-RTT len=28 number=0, the same number as in record 4";
    assert!(lines.iter().any(|line| line.ends_with(again)), "{lines:#?}");
    // Who sends it again may be anyone.
    assert!(lines.contains(&"    client 10.0.0.1:1001, later 192.0.2.1:5: 5 packets opened".into()), "{lines:#?}");
}

#[test]
fn bytes_that_were_not_captured_and_key_phases() {
    let folder = Folder::new("cut");
    let mut made = Made::new(1);
    let mut all = made.handshake();
    made.updates = [1, 1];
    all.push(made.send(Client, Short, &[0; 1000]));
    let keys = folder.write("keys", made.key_log());
    let file = folder.write("whole.pcap", pcap(&all));
    let lines = packets(&[&file, "--keylog", &keys]);
    assert!(lines[4].ends_with(" client 1-RTT len=1024 number=0 key_phase=1"), "{lines:?}");
    let file = folder.write("cut.pcap", pcap_of(&all, 1000));
    let lines = packets(&[&file, "--keylog", &keys]);
    let last = lines.last().unwrap();
    assert!(last.ends_with(" client 1-RTT len=972 not opened: not all of its bytes were captured"), "{last}");
}
