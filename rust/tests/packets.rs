//! Packets that are cut, opened and written in borrowed bytes.
use quic_wire::datagram::{
    Header, HeaderChecks, HeaderError, HeaderKind, HeaderPlaces, Opened, PacketPlace, Packets, PacketsMut,
    UnprotectError, VersionNegotiation,
};
use quic_wire::packet::{DEFAULT_SUPPORTED_VERSIONS, LongType, PacketNumber};
use quic_wire::transport_error::Code;
use quic_wire::{Error, WriteError};

const ID: &[u8] = &[7; 8];

fn number(number: u16) -> PacketNumber {
    PacketNumber::U16(number)
}

// An Initial packet of 60 bytes and a short one of 40, greased.
fn two_packets() -> Vec<u8> {
    let mut datagram = vec![0; 100];
    let long = Header::Initial { dst_cid: ID, src_cid: &[], token: &[1, 2, 3], number: number(5), version: 1 };
    let first = long.encode_into(&mut datagram).unwrap();
    first.set_len(&mut datagram[..60]).unwrap();
    first.place(&datagram[..60]).protect(&mut datagram[..60], &[9; 5]).unwrap();
    let short = Header::Short { spin: true, key_phase: true, dst_cid: ID, number: number(6) };
    let second = short.encode_with(true, &mut datagram[60..]).unwrap();
    assert_eq!(datagram[60], 0x25);
    second.place(&datagram[60..]).protect(&mut datagram[60..], &[9; 5]).unwrap();
    datagram
}

#[test]
fn a_packet_is_opened_where_it_stands() {
    // A short header with an id of two bytes and a number of one byte, under a mask of ones and fives.
    let mut datagram = [0x5f, 0xaa, 0xbb, 0x2c ^ 0x05, 1, 2, 3, 4, 5, 6, 7];
    let packet = Packets::new(&datagram, 2, DEFAULT_SUPPORTED_VERSIONS, false).next().unwrap().unwrap();
    assert_eq!((packet.header().kind(), packet.header().spin()), (HeaderKind::Short, false));
    assert_eq!(packet.dst_cid(), [0xaa, 0xbb]);
    let place = packet.place();
    let mask = [0x1f, 5, 5, 5, 5];
    assert_eq!(place.sample(&datagram, 4), Ok(&[4, 5, 6, 7][..]));
    assert_eq!(place.sample(&datagram, 5), Err(UnprotectError::TooShort));
    assert_eq!(place.unprotect(&mut datagram, &mask, 1 << 62), Err(UnprotectError::Expected));
    assert_eq!(place.unprotect(&mut datagram[..6], &mask, 300), Err(UnprotectError::NotThere));
    let reported = Opened { number: 300, number_len: 1, payload: 4, first: 0x40 };

    let mut header = vec![0xa5];
    assert_eq!(place.unprotect_header(&datagram, &mask, 300, &mut header), Ok(reported));
    assert_eq!((header.len(), &header[..5]), (8, &[0xa5, 0x40, 0xaa, 0xbb, 0x2c][..]));
    let late = place.unprotect_header(&datagram, &mask, 1 << 62, &mut header);
    let front = PacketPlace::new(0..11, 0).unprotect_header(&datagram, &mask, 300, &mut header);
    assert_eq!((late, front), (Err(UnprotectError::Expected), Err(UnprotectError::TooShort)));
    assert_eq!(header.len(), 8);

    let opened = place.unprotect_with(&mut datagram, 4, |sample| [0x1f, 5, 5, sample[1], 5], 300).unwrap();
    assert_eq!(opened, reported);
    assert!(!opened.key_phase() && opened.reserved_bits_valid());
    assert_eq!(datagram, [0x40, 0xaa, 0xbb, 0x2c, 1, 2, 3, 4, 5, 6, 7]);
}

#[test]
fn the_packets_of_a_datagram_are_opened_in_a_loop() {
    let mut datagram = two_packets();
    let mut seen = Vec::new();
    {
        // The versions live shorter than what is read.
        let versions = vec![1];
        for packet in PacketsMut::new(&mut datagram, 8, &versions, true) {
            let packet = packet.unwrap();
            assert_eq!((packet.header().spin(), packet.dst_cid()), (!seen.is_empty(), ID));
            seen.push(packet.open_with(16, |_| [9; 5], 0).unwrap());
        }
    }
    let reported = |i: usize| (seen[i].number(), seen[i].key_phase(), seen[i].token(), seen[i].reserved_bits_valid());
    assert_eq!((reported(0), reported(1)), ((5, false, &[1, 2, 3][..], true), (6, true, &[][..], true)));
    let lens: Vec<_> = seen.iter().map(|packet| (packet.header_data.len(), packet.payload.len())).collect();
    assert_eq!(lens, [(23, 37), (11, 29)]);
    assert_eq!((seen[1].src_cid(), seen[1].opened().number_len), (&[][..], 2));
    // Each payload is written in place.
    for packet in &mut seen {
        packet.payload.fill(0xee);
    }
    assert!(datagram[23..60].iter().chain(&datagram[71..]).all(|byte| *byte == 0xee));
}

#[test]
fn the_packet_after_one_that_is_not_opened_is_opened() {
    let mut datagram = two_packets();
    let mut packets = PacketsMut::new(&mut datagram, 8, &[1], true);
    let mut open = |sample_len| packets.next().unwrap().unwrap().open_with(sample_len, |_| [9; 5], 0);
    assert_eq!(open(60).unwrap_err(), UnprotectError::TooShort);
    assert_eq!(open(16).unwrap().number(), 6);
    assert!(packets.next().is_none());
    let mut packets = PacketsMut::new(&mut datagram[..59], 8, &[1], true);
    assert!(packets.next().unwrap().is_err() && packets.next().is_none() && packets.rest().len() == 59);
}

#[test]
fn reserved_bits_are_reported() {
    let opened = |first| Opened { number: 0, number_len: 1, payload: 0, first };
    let reported = [0x40, 0x44, 0x48, 0x50, 0xc0, 0xc4, 0xc8].map(|first| {
        let opened = opened(first);
        (opened.key_phase(), opened.reserved_bits_valid())
    });
    let all =
        [(false, true), (true, true), (false, false), (false, false), (false, true), (false, false), (false, false)];
    assert_eq!(reported, all);
}

#[test]
fn a_retry_has_nothing_to_be_opened() {
    let mut datagram = vec![0xf0, 0, 0, 0, 1, 1, 0xaa, 0, b't', b'o', b'k'];
    datagram.extend([9; 16]);
    let before = datagram.clone();
    let places = *Packets::new(&datagram, 0, &[1], false).next().unwrap().unwrap().header();
    assert_eq!((places.is_protected(), places.header_end()), (false, 8));
    assert_eq!(places.retry(&datagram), Some((&b"tok"[..], &[9; 16])));
    assert_eq!(places.place(0).unprotect(&mut datagram, &[0xff; 5], 0), Err(UnprotectError::TooShort));
    let packet = PacketsMut::new(&mut datagram, 0, &[1], false).next().unwrap().unwrap();
    assert_eq!(packet.open_with(0, |_| [0xff; 5], 0).err(), Some(UnprotectError::TooShort));
    let packet = PacketsMut::new(&mut datagram, 0, &[1], false).next().unwrap().unwrap();
    assert_eq!(packet.into_data(), before);
}

#[test]
fn a_packet_is_sealed_and_opened() {
    let number = PacketNumber::new(0x1234, 0x1200);
    assert_eq!((number, PacketNumber::try_new(1, 2)), (PacketNumber::U8(0x34), None));
    let (dst_cid, src_cid) = (&[1, 2, 3][..], &[4][..]);
    let header = Header::Long { ty: LongType::Handshake, dst_cid, src_cid, number, version: 1 };
    let mut datagram = vec![0x55];
    let written = header.encode(&mut datagram).unwrap();
    datagram.resize(1 + 34, 0xa5);
    let packet = &mut datagram[1..];
    written.set_len(packet).unwrap();
    assert_eq!(packet[..15], [0xe0, 0, 0, 0, 1, 3, 1, 2, 3, 1, 4, 0x40, 21, 0x34, 0xa5]);
    assert_eq!((written.header_len, written.number, header.encoded_len()), (14, 13, Ok(14)));
    let before = packet.to_vec();
    let place = written.place(packet);
    assert_eq!((place.number(), place.sample(packet, 16)), (13, Ok(&[0xa5; 16][..])));
    place.protect(packet, &[0xff, 1, 2, 3, 4]).unwrap();
    assert_eq!((packet[0], packet[13], packet[14]), (0xef, 0x35, 0xa5));
    let cut = Packets::new(packet, 0, &[1], false).next().unwrap().unwrap();
    assert_eq!((cut.header().kind(), cut.header().len_field()), (HeaderKind::Handshake, 21));
    assert_eq!((cut.dst_cid(), cut.src_cid()), (dst_cid, src_cid));
    let opened = cut.place().unprotect(packet, &[0xff, 1, 2, 3, 4], 0x1234).unwrap();
    assert_eq!((opened.number, opened.number_len, opened.payload), (0x1234, 1, 14));
    assert_eq!(packet, before);
}

/// What RFC 9001, section 5.4.1, has a cipher do: mask the first byte, and the bytes of the packet number whose length
/// it has.
fn masked(mask: [u8; 5], first: &mut u8, number: &mut [u8; 4], taken_off: bool) {
    let before = *first;
    *first ^= mask[0] & if before < 0x80 { 0x1f } else { 0x0f };
    let len = 1 + usize::from(if taken_off { *first } else { before } & 3);
    number.iter_mut().zip(&mask[1..]).take(len).for_each(|(byte, mask)| *byte ^= mask);
}

#[test]
fn a_cipher_masks_by_itself_as_by_the_mask_that_it_gives() {
    let (mask, sample) = ([0x5a, 1, 2, 3, 4], [0x77; 16]);
    for first in 0..=255 {
        let mut packet = [7; 40];
        packet[0] = first;
        packet[24..].copy_from_slice(&sample);
        let place = PacketPlace::new(0..40, 20);
        let mut by_mask = packet;
        place.protect(&mut by_mask, &mask).unwrap();
        let mut by_itself = packet;
        let put_on = |of: &[u8], first: &mut u8, number: &mut [u8; 4]| {
            assert_eq!(of, sample);
            masked(mask, first, number, false);
        };
        place.protect_by(&mut by_itself, 16, put_on).unwrap();
        assert_eq!(by_itself, by_mask, "protection put on a first byte of {first:x}");
        let take_off = |of: &[u8], first: &mut u8, number: &mut [u8; 4]| {
            assert_eq!(of, sample);
            masked(mask, first, number, true);
        };
        let opened = place.unprotect_by(&mut by_itself, 16, take_off, 0x707);
        assert_eq!(opened, place.unprotect(&mut by_mask, &mask, 0x707), "taken off {first:x}");
        assert_eq!((by_itself, by_mask), (packet, packet));
    }
}

#[test]
fn a_cipher_is_asked_for_a_whole_sample_alone() {
    let mut packet = [7; 40];
    let mut refused = |place: PacketPlace, sample_len, expected| {
        let asked = |_: &[u8], _: &mut u8, _: &mut [u8; 4]| panic!("asked");
        let protected = place.protect_by(&mut packet, sample_len, asked);
        let opened = place.unprotect_by(&mut packet, sample_len, asked, expected).unwrap_err();
        (protected, opened)
    };
    let (short, not_there) = (UnprotectError::TooShort, UnprotectError::NotThere);
    for (place, sample_len) in [(PacketPlace::new(0..40, 20), 17), (PacketPlace::new(3..40, 38), 0)] {
        assert_eq!(refused(place, sample_len, 0), (Err(short), short));
    }
    assert_eq!(refused(PacketPlace::new(0..40, 20), usize::MAX, 0), (Err(short), short));
    // A number can't begin with the first byte.
    assert_eq!(refused(PacketPlace::new(3..40, 3), 16, 0), (Err(short), short));
    assert_eq!(refused(PacketPlace::new(0..41, 20), 16, 0), (Err(not_there), not_there));
    let opened = PacketPlace::new(0..40, 20).unprotect_by(&mut packet, 16, |_, _, _| panic!("asked"), 1 << 62);
    assert_eq!(opened, Err(UnprotectError::Expected));
}

#[test]
fn a_sample_is_there_where_a_header_is_opened() {
    let datagram: [u8; 24] = std::array::from_fn(|i| i as u8);
    for (end, number) in (2..24).flat_map(|end| (1..=end).map(move |number| (end, number))) {
        let place = PacketPlace::new(0..end, number);
        let opened = place.unprotect(&mut datagram.clone(), &[0; 5], 0);
        assert_eq!(place.sample(&datagram, 0).map(<[u8]>::len), opened.map(|_| 0), "{place:?}");
        for len in 0..24 {
            let sample = datagram[..end].get(number + 4..number + 4 + len);
            assert_eq!(place.sample(&datagram, len), sample.ok_or(UnprotectError::TooShort));
        }
    }
}

#[test]
fn a_length_that_does_not_fit_is_refused() {
    let header = Header::Long { ty: LongType::ZeroRtt, dst_cid: ID, src_cid: ID, number: number(1), version: 1 };
    let mut packet = vec![0; (1 << 14) + 100];
    let written = header.encode_into(&mut packet).unwrap();
    let most = written.number + (1 << 14) - 1;
    assert_eq!(written.set_len(&mut packet[..most]), Ok(()));
    assert_eq!(packet[written.number - 2..written.number], [0x7f, 0xff]);
    let errors = [written.set_len(&mut packet[..most + 1]), written.set_len(&mut packet[..written.number - 1])];
    let what = "a packet is too long for its length, or ends before its number";
    assert_eq!(errors, [Err(WriteError::OutOfRange(what)); 2]);
    let before = packet.clone();
    for number in 0..2 {
        let mut moved = written;
        moved.number = number;
        assert!(moved.set_len(&mut packet[..most]).is_err() && packet == before);
    }
    // A short header has none.
    let short = Header::Short { spin: false, key_phase: false, dst_cid: ID, number: number(1) };
    let written = short.encode_into(&mut packet).unwrap();
    assert_eq!(written.set_len(&mut []), Ok(()));
}

#[test]
fn headers_that_nobody_reads_are_refused() {
    let long = |dst_cid, number, version| Header::Initial { dst_cid, src_cid: &[], token: &[], number, version };
    let refused = [
        (long(&[0; 21], number(1), 1), "a connection id has more than 20 bytes"),
        (long(ID, PacketNumber::U24(1 << 24), 1), "a packet number of three bytes is 2^24 or more"),
        (long(ID, number(1), 0), "a long header of version 0 is a version negotiation"),
    ];
    for (header, what) in refused {
        let (mut out, error) = (vec![], WriteError::OutOfRange(what));
        assert_eq!((header.encode(&mut out), header.encoded_len()), (Err(error), Err(error)));
        assert_eq!((header.encode_into(&mut [0; 99]), out.len()), (Err(error), 0));
    }
    let mut out = vec![];
    let negotiation = VersionNegotiation { random: 0x3f, dst_cid: ID, src_cid: &[], versions: &[1] };
    negotiation.encode(&mut out).unwrap();
    assert_eq!(out[0], 0xbf);
    assert!(Packets::new(&out, 0, &[1], false).next().unwrap().is_err());
    let greased = Packets::new(&out, 0, &[1], true).next().unwrap().unwrap();
    assert_eq!((greased.header().kind(), greased.dst_cid()), (HeaderKind::VersionNegotiate, ID));
    assert_eq!(greased.header().versions(&out).collect::<Vec<_>>(), [1]);
}

#[test]
fn a_version_negotiation_is_written_with_ids_of_any_length() {
    let (dst_cid, src_cid, versions) = (&[7; 255][..], &[9; 21][..], &[1, 0x6b33_43cf][..]);
    let answer = VersionNegotiation { random: 0xff, dst_cid, src_cid, versions };
    let bytes = [&[0xff, 0, 0, 0, 0, 255], dst_cid, &[21], src_cid, &[0, 0, 0, 1, 0x6b, 0x33, 0x43, 0xcf]].concat();
    let mut out = vec![0xa5];
    assert_eq!((answer.encode(&mut out), answer.encoded_len()), (Ok(bytes.len()), bytes.len()));
    assert_eq!(out[1..], bytes);
    let mut room = [0xa5; 300];
    assert_eq!(answer.encode(&mut &mut room[..bytes.len() - 1]), Err(WriteError::NoRoom));
    assert_eq!(room, [0xa5; 300]);
    let places = HeaderPlaces::read_version_negotiation(&bytes).unwrap();
    assert_eq!((places.first(), places.dst_cid(&bytes), places.src_cid(&bytes)), (0xff, dst_cid, src_cid));
    assert_eq!((places.header_end(), places.end(), places.is_protected()), (7 + 255 + 21, bytes.len(), false));
    assert_eq!(places.versions(&bytes).collect::<Vec<_>>(), versions);
    assert!((0..places.header_end()).all(|len| HeaderPlaces::read_version_negotiation(&bytes[..len]).is_none()));
    assert_eq!(HeaderPlaces::read_version_negotiation(&[0x80, 0, 0, 0, 1, 0, 0]), None);
    let too_long = VersionNegotiation { src_cid: &[9; 256], ..answer };
    let what = WriteError::OutOfRange("a connection id has more than 255 bytes");
    assert_eq!(too_long.encode(&mut out), Err(what));
    // With short ids it is read alike.
    let mut short = vec![];
    VersionNegotiation { dst_cid: ID, src_cid: &[], ..answer }.encode(&mut short).unwrap();
    assert_eq!(HeaderPlaces::read(&short, 0, &[1]).ok(), HeaderPlaces::read_version_negotiation(&short));
}

#[test]
fn every_header_is_read_back() {
    let (dst_cid, src_cid, number, version) = (ID, &[3; 20][..], number(0x1234), 0x6b33_43cf);
    let headers = [
        Header::Initial { dst_cid, src_cid, token: &[8; 70], number, version },
        Header::Long { ty: LongType::Handshake, dst_cid, src_cid, number, version },
        Header::Long { ty: LongType::ZeroRtt, dst_cid, src_cid, number, version },
        Header::Retry { dst_cid, src_cid, version },
        Header::Short { spin: true, key_phase: false, dst_cid, number },
    ];
    for header in headers {
        let mut packet = vec![];
        let written = header.encode(&mut packet).unwrap();
        assert_eq!(Ok(packet.len()), header.encoded_len());
        assert_eq!(written.header_len, packet.len());
        for room in 0..packet.len() {
            assert_eq!(header.encode_into(&mut packet.clone()[..room]), Err(WriteError::NoRoom));
        }
        let mut room = vec![0xa5; packet.len() + 1];
        assert_eq!(header.encode_into(&mut room), Ok(written));
        assert_eq!((&room[..packet.len()], room[packet.len()]), (&packet[..], 0xa5));
        packet.resize(packet.len() + 20, 0);
        written.set_len(&mut packet).unwrap();
        let read = Packets::new(&packet, 8, &[version], false).next().unwrap().unwrap();
        assert_eq!((read.dst_cid(), read.data()), (ID, &packet[..]));
        let places = read.header();
        let kind = match header {
            Header::Initial { .. } => HeaderKind::Initial,
            Header::Long { ty: LongType::Handshake, .. } => HeaderKind::Handshake,
            Header::Long { ty: LongType::ZeroRtt, .. } => HeaderKind::ZeroRtt,
            Header::Retry { .. } => HeaderKind::Retry,
            Header::Short { .. } => HeaderKind::Short,
        };
        assert_eq!(places.kind(), kind);
        assert_eq!(places.header_end() + if places.is_protected() { 2 } else { 0 }, written.header_len);
        let reported = (read.src_cid(), read.token(), places.retry(&packet), places.versions(&packet).count());
        let wanted = match header {
            Header::Initial { token, .. } => (src_cid, token, None, 0),
            Header::Long { .. } => (src_cid, &[][..], None, 0),
            Header::Retry { .. } => (src_cid, &[][..], Some((&[0; 4][..], &[0; 16])), 0),
            Header::Short { .. } => (&[][..], &[][..], None, 0),
        };
        assert_eq!(reported, wanted);
    }
}

/// RFC 9000, sections 17.2, 17.2.1 and 17.2.5; RFC 9287.
#[test]
fn a_header_is_read_with_checks() {
    let (quinn, rfc) = (HeaderChecks::QUINN, HeaderChecks::RFC);
    let greased = HeaderChecks { grease_quic_bit: true, ..rfc };
    let (fixed, retry) = (Err("fixed bit unset"), Err("Retry without a token or a tag"));
    let other = Err("unsupported version 9");
    let long = |first, version, rest: &[u8]| [&[first, 0, 0, 0, version, 0, 0][..], rest].concat();
    let rows = [
        ("1-RTT", vec![0x00, 7], [fixed, fixed, Ok(2)]),
        ("Handshake", long(0xa0, 1, &[1, 7]), [fixed, fixed, Ok(9)]),
        ("version negotiation", long(0x80, 0, &[0, 0, 0, 1]), [fixed, Ok(11), Ok(11)]),
        ("other version", long(0x80, 9, &[]), [fixed, other, other]),
        ("Retry without a token", long(0xf0, 1, &[9; 16]), [Ok(23), retry, retry]),
        ("Retry without a tag", long(0xf0, 1, &[9; 15]), [Ok(22), retry, retry]),
        ("whole Retry", long(0xf0, 1, &[9; 17]), [Ok(24), Ok(24), Ok(24)]),
    ];
    for (name, packet, wanted) in rows {
        for (checks, wanted) in [quinn, rfc, greased].into_iter().zip(wanted) {
            let read = HeaderPlaces::read_with(&packet, 0, &[1], checks);
            let read = read.map(|header| header.end()).map_err(|error| error.to_string());
            assert_eq!(read, wanted.map_err(str::to_string), "{name}, {checks:?}");
            let cut = Packets::with_checks(&packet, 0, &[1], checks).next().unwrap();
            assert_eq!(cut.map(|cut| cut.data().len()).map_err(|error| error.to_string()), read);
        }
    }
}

#[test]
fn a_header_is_reported_where_its_packet_is_cut_off() {
    let datagram = [0xc0, 0, 0, 0, 1, 1, 0xaa, 0, 0, 0x44, 0xb0, 1];
    let Err(HeaderError::CutOff(places)) = HeaderPlaces::read(&datagram, 0, &[1]) else { panic!() };
    assert_eq!((places.dst_cid(&datagram), places.header_end(), places.end()), (&[0xaa][..], 11, 12));
    assert_eq!(places.len_field(), 0x4b0);
    let mut unknown = vec![0xc0, 0, 0, 0, 9, 255];
    unknown.extend([1; 255]);
    unknown.extend([1, 2]);
    let error = HeaderPlaces::read(&unknown, 0, &[1]).unwrap_err();
    let HeaderError::UnsupportedVersion(packet) = error else { panic!() };
    assert_eq!((packet.version(), packet.dst_cid(&unknown).len(), packet.src_cid(&unknown)), (9, 255, &[2][..]));
    assert_eq!(Error::from(error).to_string(), "packet: unsupported version 9");
}

#[test]
fn an_unknown_version_gives_its_ids() {
    let datagram = [0x40, 7, 0xc0, 0, 0, 0, 9, 1, 0xaa, 2, 0xbb, 0xcc, 0];
    let mut packets = Packets::new(&datagram[2..], 0, DEFAULT_SUPPORTED_VERSIONS, false);
    let error = packets.next().unwrap().unwrap_err();
    assert_eq!(error.to_string(), "unsupported version 9");
    let HeaderError::UnsupportedVersion(packet) = error else { panic!() };
    let rest = packets.rest();
    assert_eq!((packet.dst_cid(rest), packet.src_cid(rest)), (&[0xaa][..], &[0xbb, 0xcc][..]));
    assert!(packets.next().is_none() && packets.offset() == 0);
    let empty = Packets::new(&[], 0, &[], false).next().unwrap().unwrap_err();
    assert_eq!(empty.to_string(), "unexpected end of packet");
}

#[test]
fn numbers_are_reported_by_the_one_that_is_expected() {
    assert_eq!(PacketNumber::U8(6).expand(600), 518);
    assert_eq!(PacketNumber::U16(0x9b32).expand(0xa82f_30eb), 0xa82f_9b32);
    let lens = [1, 127, 128, 0x8000, 0x80_0000, 0x7fff_ffff].map(|n| PacketNumber::new(n, 0).len());
    assert_eq!(lens, [1, 1, 2, 3, 4, 4]);
    let mut out = vec![];
    PacketNumber::U24(0x01_0203).encode(&mut out).unwrap();
    assert_eq!(PacketNumber::decode(3, &mut &out[..]), Ok(PacketNumber::U24(0x01_0203)));
    assert!(PacketNumber::decode(4, &mut &out[..]).is_err());
    assert!(PacketNumber::U24(1 << 24).encode(&mut out).is_err() && out == [1, 2, 3]);
}

// From a datagram to its frames by one type of error.
fn first_frame(datagram: &mut [u8]) -> Result<u64, Error> {
    let packet = PacketsMut::new(datagram, 8, &[1], false).next().ok_or(Error::UnexpectedEnd)??;
    let packet = packet.open_with(16, |_| [9; 5], 0)?;
    let frame = quic_wire::frame::Iter::new(packet.payload)?.next().ok_or(Error::UnexpectedEnd)??;
    Ok(frame.ty().into())
}

#[test]
fn one_error_for_a_whole_pass() {
    let mut datagram = two_packets();
    assert_eq!(first_frame(&mut datagram.clone()), Ok(0));
    let named = |datagram: &mut [u8]| {
        let error = first_frame(datagram).unwrap_err();
        (error.to_string(), error.code())
    };
    assert_eq!(named(&mut datagram.clone()[60..]), ("packet: fixed bit unset".into(), None));
    assert_eq!(named(&mut []), ("packet: unexpected end of packet".into(), None));
    let cut = "packet: packet too short to contain payload length";
    assert_eq!(named(&mut datagram.clone()[..59]), (cut.into(), None));
    datagram[23] = 0x21;
    let (text, code) = named(&mut datagram.clone());
    assert_eq!((&text[..], code), ("frame: invalid frame ID in <unknown 21>", Some(Code::FRAME_ENCODING_ERROR)));
    datagram[4] = 9;
    assert_eq!(named(&mut datagram), ("packet: unsupported version 9".into(), None));
}
