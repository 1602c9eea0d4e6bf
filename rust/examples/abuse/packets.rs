//! Datagrams that are cut, headers that are read and written, and version negotiations.
use crate::random::{Random, VERSIONS};
use bytes::{Bytes, BytesMut};
use quic_wire::ConnectionId;
use quic_wire::datagram::{self, HeaderError, HeaderPlaces, PacketPlace, Packets, PacketsMut, VersionNegotiation};
use quic_wire::packet::{
    FixedLengthConnectionIdParser, Header, InitialHeader, LongType, PacketDecodeError, PacketNumber, PartialDecode,
};

/// A datagram is cut into the same packets in borrowed bytes and by the proved reader.
pub fn cuts(random: &mut Random) {
    let datagram = random.datagram();
    let (cid_len, grease) = (random.below(21) as usize, random.below(2) == 0);
    let parser = FixedLengthConnectionIdParser::new(cid_len);
    let mut rest = Some(BytesMut::from(&datagram[..]));
    for cut in Packets::new(&datagram, cid_len, VERSIONS, grease) {
        let found = PartialDecode::new(rest.take().unwrap(), &parser, VERSIONS, grease);
        let (cut, (packet, others)) = match (cut, found) {
            (Ok(cut), Ok(found)) => (cut, found),
            (Err(HeaderError::UnsupportedVersion(cut)), Err(error)) => {
                // Ids of more than 20 bytes aren't returned by value.
                let is_long = error == PacketDecodeError::InvalidHeader("malformed cid");
                let is_same =
                    matches!(error, PacketDecodeError::UnsupportedVersion { version, .. } if version == cut.version());
                return assert!(is_long || is_same);
            }
            (Err(cut), Err(error)) => return assert_eq!(format!("invalid header: {cut}"), error.to_string()),
            (cut, found) => panic!("{cut:?} {found:?}"),
        };
        assert_eq!((cut.data(), cut.dst_cid()), (packet.data(), &packet.dst_cid()[..]));
        assert_eq!(
            (cut.header().is_protected(), cut.header().is_short()),
            (packet.space().is_some(), !packet.has_long_header())
        );
        if let Some(initial) = packet.initial_header() {
            assert_eq!((cut.header().token_pos(), cut.header().len_field()), (initial.token_pos.clone(), initial.len));
            assert_eq!(cut.src_cid(), &initial.src_cid[..]);
        }
        rest = others;
    }
    assert!(rest.is_none());
}

pub fn datagrams(random: &mut Random) {
    let datagram = random.datagram();
    let (cid_len, grease) = (random.below(21) as usize, random.below(2) == 0);
    let sample_len = random.below(17) as usize;
    let mask = [(); 5].map(|()| random.next() as u8);
    let expected = random.number();
    let mut opened = datagram.clone();
    let mut cut = Packets::new(&datagram, cid_len, VERSIONS, grease);
    for packet in PacketsMut::new(&mut opened, cid_len, VERSIONS, grease) {
        let (Ok(packet), Ok(same)) = (packet, cut.next().unwrap()) else { return };
        assert_eq!((packet.header(), packet.data()), (same.header(), same.data()));
        let place = same.place();
        let in_place = unprotected(&datagram, place, &mask, expected);
        let masked = |sample: &[u8]| {
            assert_eq!(sample, &datagram[place.number() + 4..][..sample_len]);
            mask
        };
        match packet.open_with(sample_len, masked, expected) {
            Ok(packet) => assert_eq!((packet.dst_cid(), Some(packet.number())), (same.dst_cid(), in_place)),
            Err(_) => assert!(in_place.is_none() || place.sample(&datagram, sample_len).is_err()),
        }
    }
}

// Removes protection in place and apart, and applies it again.
fn unprotected(datagram: &[u8], place: PacketPlace, mask: &[u8; 5], expected: u64) -> Option<u64> {
    let (mut copy, mut header) = (datagram.to_vec(), vec![]);
    let in_place = place.unprotect(&mut copy, mask, expected);
    assert_eq!(place.unprotect_header(datagram, mask, expected, &mut header), in_place);
    let Ok(opened) = in_place else {
        assert_eq!((&copy[..], header.len()), (datagram, 0));
        return None;
    };
    assert_eq!(header, copy[place.range().start..place.number() + 4]);
    let written = PacketNumber::decode(opened.number_len, &mut &copy[place.number()..]).unwrap();
    assert_eq!((written.expand(expected), written.len()), (opened.number, opened.number_len));
    place.protect(&mut copy, mask).unwrap();
    assert_eq!(copy, datagram);
    Some(opened.number)
}

/// A header, and the same with fields of its own, if its ids are short enough.
pub fn header<'a>(random: &mut Random, ids: [&'a [u8]; 2], token: &'a [u8]) -> (datagram::Header<'a>, Option<Header>) {
    use datagram::Header as Borrowed;
    let low = random.next() as u32;
    let number = match random.below(4) {
        0 => PacketNumber::U8(low as u8),
        1 => PacketNumber::U16(low as u16),
        2 => PacketNumber::U24(low >> random.below(9)),
        _ => PacketNumber::U32(low),
    };
    let version = [1, 0x6b33_43cf, 0][random.below(3) as usize];
    let ty = if random.below(2) == 0 { LongType::Handshake } else { LongType::ZeroRtt };
    let (spin, key_phase) = (random.below(2) == 0, random.below(2) == 0);
    let own = ids.map(|id| ConnectionId::try_from(id).ok());
    let (dst_cid, src_cid) = (ids[0], ids[1]);
    let (dst, src) = (own[0], own[1]);
    match random.below(4) {
        0 => {
            let owned = dst.zip(src).map(|(dst_cid, src_cid)| {
                let token = Bytes::copy_from_slice(token);
                Header::Initial(InitialHeader { dst_cid, src_cid, token, number, version })
            });
            (Borrowed::Initial { dst_cid, src_cid, token, number, version }, owned)
        }
        1 => {
            let owned = dst.zip(src);
            let owned = owned.map(|(dst_cid, src_cid)| Header::Long { ty, dst_cid, src_cid, number, version });
            (Borrowed::Long { ty, dst_cid, src_cid, number, version }, owned)
        }
        2 => {
            let owned = dst.zip(src).map(|(dst_cid, src_cid)| Header::Retry { dst_cid, src_cid, version });
            (Borrowed::Retry { dst_cid, src_cid, version }, owned)
        }
        _ => {
            let owned = dst.map(|dst_cid| Header::Short { spin, key_phase, dst_cid, number });
            (Borrowed::Short { spin, key_phase, dst_cid, number }, owned)
        }
    }
}

pub fn headers(random: &mut Random) {
    let (dst, src, token) = (random.bytes(22), random.bytes(22), random.bytes(70));
    let (header, owned) = header(random, [&dst, &src], &token);
    let mut packet = vec![];
    let Ok(written) = header.encode(&mut packet) else {
        assert!(packet.is_empty() && header.encoded_len().is_err());
        return;
    };
    let owned = owned.unwrap();
    let mut same = vec![];
    let partial = owned.encode(&mut same);
    assert_eq!((&same, partial.header_len, owned.encoded_len()), (&packet, written.header_len, packet.len()));
    assert_eq!(partial.pn.map_or(written.number, |(len, _)| partial.header_len - len), written.number);
    let payload = random.bytes(90);
    packet.extend(&payload);
    written.set_len(&mut packet).unwrap();
    let places = HeaderPlaces::read(&packet, dst.len(), VERSIONS).unwrap();
    assert_eq!((places.dst_cid(&packet), places.end()), (&dst[..], packet.len()));
    assert_eq!(places.header_end(), written.number);
    assert_eq!(written.header_len, packet.len() - payload.len());
    for len in 0..packet.len() {
        if let Err(HeaderError::CutOff(cut)) = HeaderPlaces::read(&packet[..len], dst.len(), VERSIONS) {
            assert_eq!((cut.dst_cid(&packet), cut.header_end(), cut.end()), (&dst[..], places.header_end(), len));
        }
    }
}

pub fn negotiations(random: &mut Random) {
    let most = [24, 260][random.below(2) as usize];
    let (dst_cid, src_cid) = (&random.bytes(most)[..], &random.bytes(most)[..]);
    let versions: Vec<_> = (0..random.below(5)).map(|_| random.next() as u32).collect();
    let answer = VersionNegotiation { random: random.next() as u8, dst_cid, src_cid, versions: &versions };
    let mut packet = vec![];
    let Ok(len) = answer.encode(&mut packet) else {
        assert!(packet.is_empty() && dst_cid.len().max(src_cid.len()) > 255);
        return;
    };
    assert_eq!((packet.len(), packet.len()), (len, answer.encoded_len()));
    let places = HeaderPlaces::read_version_negotiation(&packet).unwrap();
    assert_eq!((places.dst_cid(&packet), places.src_cid(&packet)), (dst_cid, src_cid));
    assert!(places.versions(&packet).eq(versions));
    let damaged = random.below(len as u64) as usize;
    packet[damaged] ^= 1 << random.below(8);
    if let Some(places) = HeaderPlaces::read_version_negotiation(&packet) {
        let longest = places.dst_cid(&packet).len().max(places.src_cid(&packet).len());
        assert_eq!(HeaderPlaces::read(&packet, 0, VERSIONS).ok(), (longest <= 20).then_some(places));
    }
}
