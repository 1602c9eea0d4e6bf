//! Files of each format and link, in pieces, and files that lie.
#[path = "common/files.rs"]
mod files;

use files::{Order, block, interface, ipv4, ipv6, packet, pcap, secrets, section, udp};
use quic_wire::datagram::{HeaderChecks, HeaderKind, Packets};
use quic_wire_capture::capture::{Capture, Item};
use quic_wire_capture::file::FileError;
use quic_wire_capture::follow::Follower;
use quic_wire_capture::input::{InputError, read, read_secrets};
use quic_wire_capture::keylog::KeyLog;

const KEYS: &[u8] = include_bytes!("data/small.keys");
const SMALL: &[u8] = include_bytes!("data/small.pcap");
const RAW: u32 = 101;
const ETHERNET: u32 = 1;

#[derive(Debug, Default, PartialEq, Eq)]
struct Found {
    /// Times, senders and bytes.
    datagrams: Vec<(u64, String, Vec<u8>)>,
    secrets: Vec<Vec<u8>>,
}

impl Found {
    fn take(&mut self, item: Item<'_>) {
        match item {
            Item::Datagram(one) => self.datagrams.push((one.time, one.from.to_string(), one.bytes.to_vec())),
            Item::Secrets(text) => self.secrets.push(text.to_vec()),
        }
    }

    fn bytes(&self) -> Vec<&[u8]> {
        self.datagrams.iter().map(|datagram| &datagram.2[..]).collect()
    }
}

fn found_with(file: &[u8]) -> (Capture, Result<Found, FileError>) {
    let (mut capture, mut found) = (Capture::default(), Found::default());
    capture.feed(file);
    loop {
        match capture.next() {
            Ok(None) => return (capture, Ok(found)),
            Ok(Some(item)) => found.take(item),
            Err(error) => return (capture, Err(error)),
        }
    }
}

fn found(file: &[u8]) -> Found {
    found_with(file).1.unwrap()
}

fn frame(bytes: &[u8]) -> Vec<u8> {
    ipv4(0, &udp(bytes))
}

#[test]
fn pcap_in_both_orders_and_resolutions() {
    let frame = frame(b"hello");
    for order in [Order::Big, Order::Little] {
        for (magic, time) in [(0xa1b2_c3d4, 1_000_002_000), (0xa1b2_3c4d, 1_000_000_002)] {
            let found = found(&pcap(order, magic, RAW, &[&frame, &frame]));
            assert_eq!(found.datagrams, vec![(time, "10.0.0.1:4433".into(), b"hello".to_vec()); 2]);
        }
    }
}

#[test]
fn pcapng_in_both_orders() {
    let frame = frame(b"hello");
    for order in [Order::Big, Order::Little] {
        let seconds = if order == Order::Big { 100u64.to_be_bytes() } else { 100u64.to_le_bytes() };
        let file = [
            section(order),
            interface(order, 101, &[(2, b"name"), (0, b"")]),
            interface(order, 101, &[(9, &[9])]),
            interface(order, 101, &[(9, &[0x81]), (14, &seconds)]),
            interface(order, 101, &[(9, &[12])]),
            secrets(order, b"a key log"),
            // A block of an unknown kind, and one of names.
            block(order, 0x0bad, &[0; 100]),
            block(order, 4, &[0; 8]),
            packet(order, 0, 5, &frame),
            packet(order, 1, 1 << 33, &frame),
            packet(order, 2, 3, &frame),
            packet(order, 3, 7000, &frame),
            // The next section has no interfaces of this one.
            section(order),
            interface(order, 101, &[]),
            packet(order, 0, 6, &frame),
        ];
        let found = found(&file.concat());
        let times: Vec<_> = found.datagrams.iter().map(|datagram| datagram.0).collect();
        assert_eq!(times, [5000, 1 << 33, 101_500_000_000, 7, 6000]);
        assert_eq!(found.secrets, [b"a key log".to_vec()]);
        let missing = [section(order), packet(order, 0, 5, &frame)].concat();
        assert_eq!(found_with(&missing).1, Err(FileError::NoInterface(0)));
    }
}

// Blocks that say nothing of the time, and those of old files.
#[test]
fn other_blocks() {
    let frame = frame(b"hello");
    let len = (frame.len() as u32).to_le_bytes();
    let old = [&[0, 0, 0, 0], &[0; 4], &5u32.to_le_bytes()[..], &len, &len, &frame].concat();
    let file = [
        section(Order::Little),
        interface(Order::Little, 101, &[]),
        block(Order::Little, 2, &old),
        block(Order::Little, 3, &[&len[..], &frame].concat()),
    ];
    let times: Vec<_> = found(&file.concat()).datagrams.into_iter().map(|datagram| datagram.0).collect();
    assert_eq!(times, [5000, 5000]);
}

#[test]
fn links() {
    let (four, six) = (frame(b"hello"), ipv6(17, &udp(b"hello")));
    let ethernet = [7; 12];
    let vlan = |kind: u16| [&kind.to_be_bytes()[..], &[0, 5]].concat();
    let (ip4, ip6) = ([0x08, 0x00], [0x86, 0xdd]);
    let cases: [(u32, Vec<u8>, bool); 14] = [
        (0, vec![2, 0, 0, 0], false),
        (108, vec![0, 0, 0, 30], true),
        (12, vec![], false),
        (RAW, vec![], true),
        (228, vec![], false),
        (229, vec![], true),
        (ETHERNET, [&ethernet[..], &ip4].concat(), false),
        (ETHERNET, [&ethernet[..], &ip6].concat(), true),
        (ETHERNET, [&ethernet[..], &vlan(0x8100), &ip4].concat(), false),
        (ETHERNET, [&ethernet[..], &vlan(0x88a8), &vlan(0x8100), &ip6].concat(), true),
        (ETHERNET, [&ethernet[..], &vlan(0x9100), &ip4].concat(), false),
        (ETHERNET, [&ethernet[..], &[0x88, 0x47, 0, 1, 0, 9, 0, 2, 1, 9]].concat(), true),
        (113, [&[0; 14][..], &ip4].concat(), false),
        (276, [&ip6[..], &[0; 18]].concat(), true),
    ];
    for (link, head, is_six) in cases {
        let bytes = [&head[..], if is_six { &six } else { &four }].concat();
        let found = found(&pcap(Order::Little, 0xa1b2_c3d4, link, &[&bytes]));
        let from = if is_six { "[::1]:4433" } else { "10.0.0.1:4433" };
        assert_eq!(found.datagrams, [(1_000_002_000, from.to_string(), b"hello".to_vec())], "link {link}, {head:x?}");
    }
}

// Who sent each datagram of a file.
fn directions(file: &[u8]) -> Vec<Option<bool>> {
    let (mut capture, mut directions) = (Capture::default(), Vec::new());
    capture.feed(file);
    while let Ok(Some(Item::Datagram(datagram))) = capture.next() {
        directions.push(datagram.outgoing);
    }
    directions
}

// LINKTYPE_LINUX_SLL and LINKTYPE_LINUX_SLL2: 0 is a packet to the host, 3 one to another host, 4 one that it sent.
#[test]
fn directions_of_cooked_captures() {
    let first = |kind: u8| [&[0, kind, 0, 1, 0, 6][..], &[0; 8], &[8, 0], &frame(b"hi")].concat();
    let second = |kind: u8| [&[8, 0, 0, 0, 0, 0, 0, 2, 0, 1, kind, 6][..], &[0; 8], &frame(b"hi")].concat();
    for (link, frames) in [(113, [0, 4, 3].map(first)), (276, [0, 4, 3].map(second))] {
        let frames: Vec<_> = frames.iter().map(|frame| &frame[..]).collect();
        let file = pcap(Order::Little, 0xa1b2_c3d4, link, &frames);
        assert_eq!(directions(&file), [Some(false), Some(true), None], "{link}");
    }
}

// The option epb_flags of pcapng: its two low bits are 1 of a packet that came in, and 2 of one that went out.
#[test]
fn directions_of_pcapng() {
    let order = Order::Big;
    let packet = |options: &[u8]| {
        let frame = frame(b"hi!!");
        let len = (frame.len() as u32).to_be_bytes();
        block(order, 6, &[&[0; 12][..], &len, &len, &frame, options].concat())
    };
    let flags = |flags: u8| [&[0, 1, 0, 2, b'h', b'i', 0, 0, 0, 2, 0, 4, 0, 0, 0][..], &[flags, 0, 0, 0, 0]].concat();
    let packets = [packet(&flags(1)), packet(&flags(0x82)), packet(&flags(0)), packet(&[])];
    let file = [section(order), interface(order, 101, &[]), packets.concat()].concat();
    assert_eq!(directions(&file), [Some(false), Some(true), None, None]);
}

#[test]
fn extension_headers() {
    let options = |next: u8| vec![next, 1, 0, 0, 0, 0, 0, 0, 0, 0, 0, 0, 0, 0, 0, 0];
    let whole = |next: u8| vec![next, 0, 0, 0, 0, 0, 0, 7];
    let payload = [options(43), options(44), whole(60), options(17), udp(b"hello")].concat();
    let file = pcap(Order::Little, 0xa1b2_c3d4, RAW, &[&ipv6(0, &payload)]);
    assert_eq!(found(&file).bytes(), [b"hello"]);
}

#[test]
fn fragments() {
    let datagram = udp(&[5; 40]);
    let six = |offset: usize, more: u8, id: u8| {
        let part = &datagram[offset..(offset + 16).min(datagram.len())];
        ipv6(44, &[&[17, 0, 0, offset as u8 | more, 0, 0, 0, id][..], part].concat())
    };
    let four = |offset: usize, more: u16| {
        ipv4((more << 13) | (offset as u16 / 8), &datagram[offset..(offset + 24).min(datagram.len())])
    };
    let frames = [six(16, 1, 1), six(32, 0, 2), six(32, 0, 1), four(24, 0), six(0, 1, 1), four(0, 1), six(0, 1, 2)];
    let frames: Vec<_> = frames.iter().map(Vec::as_slice).collect();
    let (capture, found) = found_with(&pcap(Order::Little, 0xa1b2_c3d4, RAW, &frames));
    assert_eq!(found.unwrap().bytes(), [[5; 40], [5; 40]]);
    assert_eq!((capture.records(), capture.fragments(), capture.others()), (7, 5, 0));

    // Fragments that overlap are no packet.
    let overlap = ipv4((1 << 13) | 1, &datagram[8..32]);
    let frames = [four(0, 1), overlap, four(24, 0)];
    let frames: Vec<_> = frames.iter().map(Vec::as_slice).collect();
    assert_eq!(found_with(&pcap(Order::Little, 0xa1b2_c3d4, RAW, &frames)).1.unwrap(), Found::default());
}

// The last fragment ends before one that came earlier, so that there are as many bytes as the packet has, but not those
// in front.
#[test]
fn a_fragment_beyond_the_last_one() {
    let (whole, at_24, last_at_8) = (udp(&[5; 24]), (1 << 13) | 3, 1);
    let frames = [ipv4(at_24, &whole[..8]), ipv4(last_at_8, &whole[8..24])];
    let frames: Vec<_> = frames.iter().map(Vec::as_slice).collect();
    let (capture, found) = found_with(&pcap(Order::Little, 0xa1b2_c3d4, RAW, &frames));
    assert_eq!((found, capture.fragments(), capture.others()), (Ok(Found::default()), 2, 0));
}

// What isn't UDP is counted, and so is what ends too early; padding of Ethernet is no part of a datagram.
#[test]
fn other_frames() {
    let good = [&[7; 12][..], &[0x08, 0x00], &frame(b"hi"), &[0; 16]].concat();
    let tcp = [&good[..23], &[6], &good[24..]].concat();
    let arp = [&good[..12], &[0x08, 0x06], &good[14..]].concat();
    let mut frames = vec![&good[..], &tcp, &arp];
    frames.extend((0..42).map(|len| &good[..len]));
    let (capture, found) = found_with(&pcap(Order::Big, 0xa1b2_c3d4, ETHERNET, &frames));
    assert_eq!(found.unwrap().bytes(), [b"hi"]);
    assert_eq!((capture.records(), capture.others()), (45, 44));
}

#[test]
fn bytes_that_were_not_captured() {
    let whole = frame(&[7; 100]);
    let mut capture = Capture::default();
    capture.feed(&pcap(Order::Little, 0xa1b2_c3d4, RAW, &[&whole[..68]]));
    let Ok(Some(Item::Datagram(datagram))) = capture.next() else { panic!("no datagram") };
    assert_eq!((datagram.bytes.len(), datagram.missing), (40, 60));
}

#[test]
fn pieces() {
    let file = [
        section(Order::Big),
        interface(Order::Big, 101, &[]),
        block(Order::Big, 0x0bad, &[0; 1000]),
        packet(Order::Big, 0, 5, &frame(b"hello")),
        secrets(Order::Big, b"a key log"),
    ]
    .concat();
    for file in [SMALL, &file] {
        let whole = found(file);
        for size in [1, 2, 3, 7, 100, 4096] {
            let (mut capture, mut found) = (Capture::default(), Found::default());
            for piece in file.chunks(size) {
                capture.feed(piece);
                while let Some(item) = capture.next().unwrap() {
                    found.take(item);
                }
            }
            assert_eq!(found, whole, "pieces of {size} bytes");
            assert!(!capture.is_cut());
        }
    }
}

#[test]
fn records_that_are_too_long() {
    let mut file = pcap(Order::Little, 0xa1b2_c3d4, RAW, &[&vec![0; 262_144]]);
    assert_eq!(found_with(&file).0.records(), 1);
    file[32..36].copy_from_slice(&262_145u32.to_le_bytes());
    assert_eq!(found_with(&file).1, Err(FileError::LongRecord { record: 1, len: 262_145 }));
    file[32..36].copy_from_slice(&u32::MAX.to_le_bytes());
    let error = found_with(&file[..43]).1.unwrap_err();
    assert_eq!(error.to_string(), "record 1 has 4294967295 bytes, and at most 262144 can be read");

    // A block that is read, and one that is skipped although it has 4 GiB.
    let (begin, len) = (section(Order::Big), u32::MAX - 3);
    let long = |kind: u32| [&begin[..], &kind.to_be_bytes(), &len.to_be_bytes(), &[0; 8]].concat();
    assert_eq!(found_with(&long(6)).1, Err(FileError::BlockLength(len)));
    let (capture, found) = found_with(&long(0x0bad));
    assert_eq!((found, capture.is_cut()), (Ok(Found::default()), true));
}

// The longest record of both formats has a datagram, with padding behind it.
#[test]
fn longest_records() {
    let order = Order::Little;
    let mut long = frame(b"hello");
    long.resize(262_144, 0);
    let file = [section(order), interface(order, 101, &[]), packet(order, 0, 5, &long)].concat();
    for file in [&file, &pcap(order, 0xa1b2_c3d4, RAW, &[&long])] {
        assert_eq!(found(file).bytes(), [b"hello"]);
    }
    long.push(0);
    let file = [section(order), interface(order, 101, &[]), packet(order, 0, 5, &long)].concat();
    assert_eq!(found_with(&file).1, Err(FileError::LongRecord { record: 1, len: 262_145 }));
}

// Key logs before, between and behind packets, of which one is longer than a piece.
#[test]
fn secrets_anywhere() {
    let order = Order::Little;
    let line =
        |random: u8| format!("CLIENT_TRAFFIC_SECRET_0 {} {}\n", format!("{random:02x}").repeat(32), "01".repeat(32));
    let long = "# a comment\n".repeat(100_000) + &line(2);
    let file = [
        section(order),
        interface(order, 101, &[]),
        secrets(order, line(1).as_bytes()),
        packet(order, 0, 5, &frame(b"hello")),
        secrets(order, long.as_bytes()),
        packet(order, 0, 6, &frame(b"hello")),
        // Secrets of another kind.
        block(order, 10, &[0; 20]),
        secrets(order, line(3).as_bytes()),
    ];
    let (mut log, file) = (KeyLog::default(), file.concat());
    read_secrets(&file[..], &mut log).unwrap();
    assert!([1, 2, 3].iter().all(|random| log.knows(&[*random; 32])) && log.skipped() == 0);
    assert_eq!((log.len(), found(&file).bytes()), (3, vec![&b"hello"[..]; 2]));
    let randoms: Vec<_> = log.randoms().map(|random| random[0]).collect();
    assert_eq!(randoms, [1, 2, 3]);
    // A key log that lies about its length.
    let mut lies = secrets(order, line(1).as_bytes());
    lies[14] ^= 0x80;
    let file = [section(order), lies].concat();
    assert_eq!(found_with(&file).1, Err(FileError::CutBlock { after: 0 }));
}

// Several key logs, of the same file and of others, open the packets behind them.
#[test]
fn secrets_of_a_capture() {
    let lines: Vec<&str> = std::str::from_utf8(KEYS).unwrap().lines().collect();
    let (order, ethernet) = (Order::Big, 1);
    let records = frames_of(SMALL);
    // Packets before the key logs are opened only if they are Initial packets.
    let shut = |record: &&[u8]| kinds_of(&record[42..]).iter().filter(|kind| **kind != HeaderKind::Initial).count();
    for begin in [0, 1, 5, records.len()] {
        let opened = 16 - records[..begin].iter().map(shut).sum::<usize>() as u64;
        let mut parts = vec![section(order), interface(order, ethernet, &[])];
        let mut packets = records.iter().map(|record| packet(order, 0, 5, record));
        parts.extend(packets.by_ref().take(begin));
        parts.extend(lines.iter().map(|line| secrets(order, line.as_bytes())));
        parts.extend(packets);
        let (mut capture, mut follower) = (Capture::default(), Follower::default());
        read(&parts.concat()[..], &mut capture, |item| match item {
            Item::Datagram(datagram) => follower.take(&datagram, &mut ()),
            Item::Secrets(text) => follower.keylog.add(text),
        })
        .unwrap();
        assert_eq!(follower.counts().opened, opened, "key logs after {begin} packets");
    }
}

// The kinds of a datagram's packets, of which one with a short header is the last.
fn kinds_of(datagram: &[u8]) -> Vec<HeaderKind> {
    let checks = HeaderChecks { grease_quic_bit: true, any_version: true, whole_retry: false };
    let packets = Packets::with_checks(datagram, 0, &[1], checks).map_while(Result::ok);
    packets.map(|packet| packet.header().kind()).collect()
}

// The frames of a pcap file in little-endian order.
fn frames_of(mut file: &[u8]) -> Vec<&[u8]> {
    file = &file[24..];
    let mut frames = Vec::new();
    while let Some((header, rest)) = file.split_first_chunk::<16>() {
        let (frame, rest) = rest.split_at(u32::from_le_bytes(header[8..12].try_into().unwrap()) as usize);
        (file, frames) = (rest, [frames, vec![frame]].concat());
    }
    frames
}

#[test]
fn changed_bytes() {
    let file = [
        section(Order::Little),
        interface(Order::Little, 101, &[(9, &[6]), (2, b"name")]),
        secrets(Order::Little, b"a key log"),
        packet(Order::Little, 0, 5, &frame(b"hello")),
        packet(Order::Little, 0, 5, &ipv6(44, &[17, 0, 0, 1, 0, 0, 0, 1, 2, 3])),
    ]
    .concat();
    let mut errors = 0;
    for file in [SMALL, &file] {
        for at in 0..file.len() {
            let mut changed = file.to_vec();
            changed[at] ^= [0xff, 1, 0x80][at % 3];
            errors += usize::from(found_with(&changed).1.is_err_and(|error| !error.to_string().is_empty()));
        }
    }
    assert!(errors > 20, "{errors}");
}

#[cfg(feature = "gzip")]
#[test]
fn compressed() {
    use std::io::Write;
    let compress = |bytes: &[u8]| {
        let mut encoder = flate2::write::GzEncoder::new(Vec::new(), flate2::Compression::default());
        encoder.write_all(bytes).unwrap();
        encoder.finish().unwrap()
    };
    // Two members, as of files that were put behind each other.
    let (front, back) = SMALL.split_at(1000);
    let file = [compress(front), compress(back)].concat();
    let mut sum = Found::default();
    read(&file[..], &mut Capture::default(), |item| sum.take(item)).unwrap();
    assert_eq!(sum, found(SMALL));
    let cut = read(&file[..file.len() - 20], &mut Capture::default(), |_| {}).unwrap_err();
    assert!(matches!(cut, InputError::Io(_)), "{cut}");
}

#[test]
fn short_files() {
    for len in 0..24 {
        let (mut capture, mut sum) = (Capture::default(), Found::default());
        read(&SMALL[..len], &mut capture, |item| sum.take(item)).unwrap();
        assert_eq!((sum, capture.is_cut()), (Found::default(), len > 0));
    }
    let error = read(&b"text"[..], &mut Capture::default(), |_| {}).unwrap_err();
    assert!(matches!(error, InputError::File(FileError::UnknownFormat)));
}
