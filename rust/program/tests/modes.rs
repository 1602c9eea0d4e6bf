//! The modes of `quic-wire` beside frames, packets and parameters, and what it knows of the lines before.
mod common;

use common::lines;

// RFC 9000, sections 12.4 and 19: types and numbers in their shortest encoding, an offset of 0 and the length of the
// last frame left out.
#[test]
fn the_shortest_form_of_a_payload_is_printed() {
    let rows = [
        ("40000a000161", "0..6 SHORTEST len=4 data=00080061"),
        ("4001 0e 04 00 02 6869", "0..8 SHORTEST len=5 data=0108046869"),
        ("01", "0..1 SHORTEST len=1 data=01"),
    ];
    for (line, answer) in rows {
        assert_eq!(lines(&["canon", "--quinn"], line), [format!("1: {answer}")], "{line}");
    }
    assert_eq!(lines(&["canon"], "0e04000161 01"), ["1: 0..6 SHORTEST len=5 data=0a04016101"]);
    assert_eq!(
        lines(&["canon", "--quinn", "--json"], "4001"),
        [r#"{"line":1,"start":0,"end":2,"form":"SHORTEST","len":1,"data":"01"}"#]
    );
    let refused = lines(&["canon"], "01 10\n\n");
    assert!(refused[0].starts_with("1: error at 1: unexpected end in MAX_DATA field=\"Maximum Data\" field_at=2 "));
    assert!(refused[1].starts_with("2: error at 0: packet payload is empty "));
}

// RFC 9000, appendices A.1 and A.3.
#[test]
fn numbers_are_those_of_the_rfc() {
    let numbers = lines(&["number"], "c2197c5eff14e88c 9d7f3e7d 7bbd 25 4025\n40\n");
    let all = [
        "1: 0..8 NUMBER value=151288809941952652 shortest_len=8",
        "1: 8..12 NUMBER value=494878333 shortest_len=4",
        "1: 12..14 NUMBER value=15293 shortest_len=2",
        "1: 14..15 NUMBER value=37 shortest_len=1",
        "1: 15..17 NUMBER value=37 shortest_len=1",
        "2: error at 0: unexpected end in a varint section=\"RFC 9000, section 16\"",
    ];
    assert_eq!(numbers, all);
    let expanded = [format!("1: 0..2 PACKET_NUMBER value={} written={}", 0xa82f9b32_u64, 0x9b32)];
    for largest in ["0xa82f30ea", "2821664490"] {
        assert_eq!(lines(&["number", "--largest", largest], "9b32"), expanded);
    }
    let refused = ["1: error at 0: a packet number has 1 to 4 bytes section=\"RFC 9000, section 17.1\""];
    assert_eq!(lines(&["number", "--largest=1"], "0102030405"), refused);
}

// RFC 9000, section 19.3: a gap and a length are one less than what they say.
#[test]
fn sets_are_printed_with_an_ack_of_them() {
    let all = ["1: largest=10", "1: count=6", "1: ranges=9-10,7-7,1-3", "1: ack=020a00020100000202"];
    for line in ["1-3 7 9,10", "10 9..11 # received\n", "7, [1..4], 9-10, 2", "[10, 9, 7, 3, 2, 1]"] {
        let all = if line.starts_with("10 ") {
            &["1: largest=10", "1: count=2", "1: ranges=9-10", "1: ack=020a000001"][..]
        } else {
            &all
        };
        assert_eq!(lines(&["ranges"], line), all, "{line}");
    }
    assert_eq!(
        lines(&["ranges", "--json"], "7 1..4"),
        [r#"{"line":1,"largest":7,"count":4,"ranges":[[7,7],[1,3]],"ack":"02070001000202"}"#]
    );
    for wrong in ["3-1", "4611686018427387904", "x", "1-", "5..5", "-3"] {
        let error = format!("1: error not a packet number or range below 2^62: {wrong:?}");
        assert_eq!(lines(&["ranges"], wrong), [error]);
    }
    assert_eq!(lines(&["ranges"], "4611686018427387903")[0], "1: largest=4611686018427387903");
}

#[test]
fn ids_of_short_headers_are_known_by_long_ones() {
    let input = "\
        c000000001 08 8394c8f03e515708 05 0102030405 00 02 0000\n\
        41 0102030405 aabb\n\
        c000000001 05 0102030405 08 f067a5502a4262b5 00 02 0000 4f 0102030405 112233\n\
        42 f067a5502a4262b5 aabb\n\
        43 99887766554433 aabb\n";
    let read = lines(&["datagram"], input);
    let short: Vec<_> = read.iter().filter(|line| line.contains(" short ")).collect();
    let all = [
        "2: 0..8 short dst=0102030405 spin=false number_at=6",
        "3: 24..33 short dst=0102030405 spin=false number_at=30",
        "4: 0..11 short dst=f067a5502a4262b5 spin=false number_at=9",
        "5: 0..10 short dst=- spin=false number_at=1",
    ];
    assert_eq!(short, all);
    let told = lines(&["datagram", "--cid-len", "2"], input);
    assert_eq!(told[1], "2: 0..8 short dst=0102 spin=false number_at=3");
}

// RFC 9000, section 17.2.1: the seven bits behind the first are unused.
#[test]
fn a_version_negotiation_needs_no_fixed_bit() {
    let negotiation = "800000000004010203040405060708000000016b3343cf";
    let versions = "0..23 version-negotiation dst=01020304 src=05060708 versions=00000001,6b3343cf";
    let note = "note=\"RFC 9000, section 17.2.1, leaves this bit unused; quinn-proto 0.11 rejects the packet\"";
    assert_eq!(lines(&["datagram", "--quinn"], negotiation), [format!("1: {versions} fixed_bit=false {note}")]);
    for options in [&["datagram"][..], &["datagram", "--grease"], &["datagram", "--quinn", "--grease"]] {
        assert_eq!(lines(options, negotiation), [format!("1: {versions}")]);
    }
    let with_bit = negotiation.replacen('8', "c", 1);
    assert_eq!(lines(&["datagram", "--quinn"], &with_bit), [format!("1: {versions}")]);
    // In another version the bit means what that says (RFC 8999, section 5.1).
    let other =
        |bit: &str| format!("1: error at 0: unsupported version 9 dst=aa src=- {bit}field=\"Version\" field_at=1 ");
    assert!(lines(&["datagram"], "8000000009 01aa 00 00")[0].starts_with(&other("")));
    assert!(lines(&["datagram", "--quinn"], "8000000009 01aa 00 00")[0].starts_with(&other("fixed_bit=false ")));
}

// A request for more memory than there is ends with a message and status 3.
#[test]
#[cfg(target_os = "linux")]
fn lacking_memory_is_said() {
    let program = env!("CARGO_BIN_EXE_quic-wire");
    let script = format!("ulimit -v 150000; head -c 200000000 /dev/zero | tr '\\0' 0 | {program} frames");
    let output = std::process::Command::new("sh").args(["-c", &script]).output().unwrap();
    assert_eq!(String::from_utf8_lossy(&output.stderr), "quic-wire: -: out of memory\n");
    assert_eq!((output.status.code(), output.stdout.len()), (Some(3), 0));
}

// An Initial as tshark 4.0.17 and tcpdump 4.99.3 print it, with the headers in front.
#[test]
fn packets_of_captures_are_cut_to_their_datagrams() {
    let tshark = "\
        Frame (94 bytes):\n\
        0000  00 00 00 00 00 00 00 00 00 00 00 00 08 00 45 00   ..............E.\n\
        0010  00 50 00 00 40 00 40 11 3c 9b 7f 00 00 01 7f 00   .P..@.@.<.......\n\
        0020  00 01 5f 72 82 cf 00 3c fe 4f c7 00 00 00 01 00   .._r...<.O......\n\
        0030  12 54 6f 6f 67 26 d4 fd b1 de bd f7 56 09 ae d9   .Toog&......V...\n\
        0040  47 8c c4 00 80 00 00 16 ef 1c f6 07 84 45 61 45   G............EaE\n\
        0050  f7 4f 7d 1b d7 7b 9b 08 38 7a e3 0d 0f 7d         .O}..{..8z...}\n";
    let tcpdump = "\
        02:40:52.790300 IP 127.0.0.1.24434 > 127.0.0.1.33487: UDP, length 52\n\
        \t0x0000:  4500 0050 0000 4000 4011 3c9b 7f00 0001  E..P..@.@.<.....\n\
        \t0x0010:  7f00 0001 5f72 82cf 003c fe4f c700 0000  ...._r...<.O....\n\
        \t0x0020:  0100 1254 6f6f 6726 d4fd b1de bdf7 5609  ...Toog&......V.\n\
        \t0x0030:  aed9 478c c400 8000 0016 ef1c f607 8445  ..G............E\n\
        \t0x0040:  6145 f74f 7d1b d77b 9b08 387a e30d 0f7d  aE.O}..{..8z...}\n";
    for (dump, front) in [(tshark, 42), (tcpdump, 28)] {
        let read = lines(&["datagram"], dump);
        assert_eq!(read[0], format!("2: 0..{front} udp from=127.0.0.1:24434 to=127.0.0.1:33487"));
        assert!(read[1].starts_with(&format!("2: {front}..{} initial dst=- src=546f", front + 52)), "{read:?}");
        assert!(read[1].ends_with(&format!(" len=22 number_at={}", front + 30)) && read.len() == 2, "{read:?}");
        assert!(lines(&["frames"], dump)[0].starts_with("2: error an IP packet, not a QUIC payload"));
    }
    let ipv6 = "6000 0000 000d 1120 2001 0db8 0000 0000 0000 0000 0000 0001 2001 0db8 0000 0000 0000 0000 0000 0002 \
                01bb c350 000d e1dc 41aa bbcc 00";
    let all =
        ["1: 0..48 udp from=[2001:db8::1]:443 to=[2001:db8::2]:50000", "1: 48..53 short dst=- spin=false number_at=49"];
    assert_eq!(lines(&["datagram"], ipv6), all);
    let tcp = "4500 002d 1234 0000 ff06 9594 0a00 0001 0a00 0002 01bb c350 0000 0000 0000 0000 5000 2000 b95a 0000 \
               41aa bbcc 00";
    assert_eq!(lines(&["datagram"], tcp), ["1: error an IP packet without UDP"]);
}
