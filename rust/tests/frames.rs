//! Frames that are read, written and read again.
use quic_wire::canonical::{CanonError, canonical};
use quic_wire::frame::{
    Ack, ApplicationClose, Close, ConnectionClose, Crypto, Datagram, Frame, FrameType, InvalidFrame, Iter,
    NewConnectionId, NewToken, Rules, Stream, StreamMeta,
};
use quic_wire::permitted::PacketType;
use quic_wire::transport_error::{Code, Error};
use quic_wire::{ConnectionId, Dir, Side, StreamId, VarInt, WriteError};
use std::collections::HashSet;

fn var(n: u32) -> VarInt {
    VarInt::from_u32(n)
}

fn read(payload: &[u8]) -> Vec<Frame<'_>> {
    Iter::new(payload).unwrap().collect::<Result<_, _>>().unwrap()
}

#[test]
fn frames_borrow_the_payload() {
    let payload = [0x0d, 0x04, 0x40, 0x07, b'h', b'i'].to_vec();
    let [Frame::Stream(s)] = read(&payload)[..] else { panic!() };
    assert!(s.fin && s.offset == 7 && u64::from(s.id) == 4);
    assert_eq!(s.bytes.as_ptr(), payload[4..].as_ptr());
    assert_eq!(s.bytes, b"hi");
}

#[test]
fn an_iterator_gives_its_place() {
    // Two PADDING in three bytes, one in eight, two more, and a PING.
    let payload = [0x40, 0x00, 0x00, 0xc0, 0, 0, 0, 0, 0, 0, 0, 0, 0, 0x01];
    let mut frames = Iter::new(&payload).unwrap();
    let mut ends = Vec::new();
    while let Some(frame) = frames.next() {
        assert_eq!(frame.unwrap() == Frame::Ping, frames.offset() == 14);
        ends.push(frames.offset());
    }
    assert_eq!(ends, [2, 3, 11, 12, 13, 14]);
    assert_eq!(frames.last_type(), Some(FrameType::PING));
}

#[test]
fn an_iterator_goes_on_where_another_stopped() {
    let payload = [0x10, 0x05, 0x00, 0x00, 0x08, 0x04, b'x', b'y'];
    let all = read(&payload);
    let (mut offset, mut last_type) = (0, None);
    for frame in &all {
        let mut frames = Iter::resume(&payload, offset, last_type, false).unwrap();
        assert_eq!(frames.clone().next(), Some(Ok(*frame)));
        assert_eq!(frames.next(), Some(Ok(*frame)));
        (offset, last_type) = (frames.offset(), frames.last_type());
    }
    assert_eq!((offset, last_type), (8, FrameType::new(0x08)));
    assert!(Iter::resume(&payload, 8, last_type, false).unwrap().next().is_none());
    assert!(Iter::resume(&payload, 9, None, false).is_none());
    let refused = Iter::resume(&[0x01, 0x40], 1, Some(FrameType::PING), true).unwrap().next();
    assert_eq!(refused.unwrap().unwrap_err().ty, Some(FrameType::PING));
}

#[test]
fn an_ack_is_kept_beside_its_payload() {
    let payload = [0x01, 0x03, 9, 5, 1, 2, 0, 3, 7, 8, 9, 0x01];
    let Some(Ok(Frame::Ack(ack))) = Iter::new(&payload).unwrap().nth(1) else { panic!() };
    let kept = ack.range_in(&payload).unwrap();
    assert_eq!((kept.blocks.clone(), kept.ack(&payload)), (5..8, Ok(ack)));
    assert_eq!(kept.ack(&payload.clone()), Ok(ack), "in a copy");
    assert!(kept.ack(&payload[..7]).is_err(), "cut off");
    assert_eq!(ack.range_in(&payload[..7]), None, "in a part");
    assert_eq!(ack.range_in(&payload[6..]), None, "in bytes that begin after it");
    assert!(kept.ack(&[10; 12]).is_err(), "in other bytes");
}

#[test]
#[should_panic(expected = "there are at most 2^60 streams of an initiator and direction")]
fn there_is_no_stream_after_the_last_one() {
    let last = StreamId::new(Side::Server, Dir::Uni, (1 << 60) - 1);
    assert_eq!(Ok(last), StreamId::try_from((1_u64 << 62) - 1), "the last one");
    assert!(StreamId::try_from(1_u64 << 62).is_err());
    StreamId::new(Side::Client, Dir::Bi, 1 << 60);
}

#[test]
fn the_type_is_reported_as_in_the_payload() {
    let payload = [0x0e, 0x04, 0x00, 0x01, b'x', 0x31, 0x00];
    let mut frames = Iter::new(&payload).unwrap();
    let stream = frames.next().unwrap().unwrap();
    assert_eq!((u64::from(stream.ty()), frames.last_type()), (0x08, FrameType::new(0x0e)));
    let datagram = frames.next().unwrap().unwrap();
    assert_eq!((datagram.ty(), frames.last_type()), (FrameType::DATAGRAM, FrameType::new(0x31)));
    // PADDING counts as the last type too.
    let mut frames = Iter::new(&[0x01, 0x00, 0x40]).unwrap();
    assert_eq!(frames.by_ref().take(2).flatten().count(), 2);
    assert_eq!(frames.last_type(), Some(FrameType::PADDING));
    assert_eq!(frames.next().unwrap().unwrap_err().to_string(), "unexpected end in PADDING");
}

#[test]
fn an_ack_is_written_again() {
    // 100 is the greatest number, in a longer encoding; ten numbers, none, one; then counts.
    let bytes = [3, 0x80, 0, 0, 100, 5, 1, 0x40, 9, 0, 0, 1, 2, 3];
    let ack = Ack::from_bytes(&bytes).unwrap();
    assert_eq!((ack.largest(), ack.delay()), (100, 5));
    assert_eq!(ack.ecn().map(|e| (e.ect0, e.ect1, e.ce)), Some((1, 2, 3)));
    assert_eq!(ack.iter().collect::<Vec<_>>(), [91..=100, 89..=89]);
    assert_eq!(ack.additional(), [0x40, 9, 0, 0]);
    assert_eq!(Ack::from_parts(100, 5, ack.additional(), ack.ecn()), Ok(ack));

    let shortest = [3, 0x40, 100, 5, 1, 9, 0, 0, 1, 2, 3];
    let (frame, mut out) = (Frame::Ack(ack), [7; 16]);
    assert_eq!(frame.encoded_len(true), Ok(11));
    assert_eq!(frame.encode_into(false, &mut out[..10]), Err(WriteError::NoRoom));
    assert_eq!(frame.encode_into(false, &mut out), Ok(11));
    assert_eq!((&out[..11], &out[11..]), (&shortest[..], &[7; 5][..]));
    assert!(Ack::from_bytes(&bytes[..13]).is_none() && Ack::from_bytes(&[0x01]).is_none());
    assert!(Ack::from_bytes(&[&bytes[..], &[0]].concat()).is_none() && Ack::from_bytes(&[]).is_none());
}

#[test]
fn a_header_comes_before_its_data() {
    for (start, fin, len) in [(0, false, 0), (0, true, 3), (1, false, 63), (1 << 14, true, 64), (1 << 30, false, 900)] {
        let bytes = vec![0xda; len as usize];
        let id = StreamId::from(start as u32);
        let meta = StreamMeta { id, offsets: start..start + len, fin };
        let stream = Frame::Stream(Stream { id, offset: start, fin, bytes: &bytes });
        for last in [false, true] {
            let mut header = vec![];
            meta.encode(!last, &mut header).unwrap();
            assert_eq!([&header[..], &bytes].concat(), written(&stream, last));
        }
    }
    let refused = |offsets: std::ops::Range<u64>, with_length| {
        let mut out = vec![];
        let refused = StreamMeta { id: StreamId::from(4), offsets, fin: false }.encode(with_length, &mut out);
        (refused.is_err(), out.is_empty())
    };
    assert_eq!(refused(std::ops::Range { start: 2, end: 1 }, false), (true, true));
    assert_eq!(refused(1 << 62..1 << 62, false), (true, true));
    assert_eq!(refused(0..1 << 62, true), (true, true));
    assert_eq!(refused(0..1 << 62, false), (false, false));
}

fn written(frame: &Frame<'_>, last: bool) -> Vec<u8> {
    let mut out = vec![];
    frame.encode(last, &mut out).unwrap();
    assert_eq!(Ok(out.len()), frame.encoded_len(last));
    out
}

#[test]
fn each_kind_has_a_writer_of_its_own() {
    let id = ConnectionId::new(&[7; 4]);
    let new = NewConnectionId { sequence: 4, retire_prior_to: 4, id, reset_token: [9; 16].into() };
    let (crypto, token) = (Crypto { offset: 70, bytes: b"data" }, NewToken { token: b"token" });
    let close = ConnectionClose { error_code: Code::NO_ERROR, frame_type: None, reason: b"why" };
    let datagram = Datagram { bytes: b"data" };
    let mut out = vec![];
    crypto.encode(&mut out).unwrap();
    token.encode(&mut out).unwrap();
    new.encode(&mut out).unwrap();
    close.encode(&mut out, 100).unwrap();
    datagram.encode(true, &mut out).unwrap();
    let frames = [
        Frame::Crypto(crypto),
        Frame::NewToken(token),
        Frame::NewConnectionId(new),
        Frame::Close(close.into()),
        Frame::Datagram(datagram),
    ];
    assert_eq!(read(&out), frames);
    assert_eq!((token.size(), datagram.size(true), datagram.size(false)), (7, 6, 5));
    let refused = [
        Crypto { offset: 1 << 62, ..crypto }.encode(&mut out),
        NewConnectionId { retire_prior_to: 5, ..new }.encode(&mut out),
        close.encode(&mut out, close.min_len() - 1),
    ];
    assert!(refused.iter().all(Result::is_err) && out.len() == 50 + 2, "{refused:?} {}", out.len());
}

/// What RFC 9000, section 19.8, has a receiver reject ("cannot exceed 2^62-1") is for rules, or the connection, to
/// check.
#[test]
fn data_that_end_at_2_62_are_written() {
    let (id, offset) = (StreamId::default(), (1 << 62) - 2);
    let whole = |bytes| Frame::Stream(Stream { id, offset, fin: false, bytes });
    is_read_back(whole(&[1]));
    is_read_back(whole(&[1, 2]));
    assert!(whole(&[1]).in_range_by(Rules::RFC) && !whole(&[1, 2]).in_range_by(Rules::RFC));
}

#[test]
fn frames_are_written_at_the_end_of_a_buffer() {
    let frame = Frame::MaxData(var(80));
    let mut packet = Vec::with_capacity(2);
    assert_eq!((frame.encode(false, &mut packet), frame.encode(true, &mut packet)), (Ok(()), Ok(())));
    assert_eq!(packet, [0x10, 0x40, 80, 0x10, 0x40, 80]);

    let mut bytes = bytes::BytesMut::new();
    frame.encode(false, &mut bytes).unwrap();
    assert_eq!(bytes[..], packet[..3]);

    let mut room = [0; 5];
    let mut rest = &mut room[..];
    assert_eq!((frame.encode(false, &mut rest), rest.len()), (Ok(()), 2));
    assert_eq!(frame.encode(false, &mut rest), Err(WriteError::NoRoom));

    // A frame that can't be written doesn't change the vector.
    assert!(Frame::DataBlocked { offset: 1 << 62 }.encode(false, &mut packet).is_err());
    assert_eq!(packet.len(), 6);
}

#[test]
fn what_is_out_of_range_is_named() {
    let new = |id: &[u8], retire_prior_to| {
        let (id, reset_token) = (ConnectionId::new(id), [9; 16].into());
        Frame::NewConnectionId(NewConnectionId { sequence: 4, retire_prior_to, id, reset_token })
    };
    let stream = Stream { id: StreamId::default(), offset: 1 << 62, fin: false, bytes: b"x" };
    let number = "a number or a length in the frame is 2^62 or more";
    let refused = [
        (Frame::DataBlocked { offset: 1 << 62 }, number),
        (Frame::RetireConnectionId { sequence: u64::MAX }, number),
        (new(&[], 0), "a connection id is empty"),
        (new(&[7; 20], 5), "a connection id retires itself"),
        (Frame::Stream(stream), number),
        (Frame::Crypto(Crypto { offset: 1 << 62, bytes: b"" }), number),
        (Frame::MaxStreams { dir: Dir::Uni, count: 1 << 62 }, number),
    ];
    for (frame, what) in refused {
        let mut out = vec![];
        let error = WriteError::OutOfRange(what);
        assert_eq!((frame.encode(false, &mut out), frame.encoded_len(true)), (Err(error), Err(error)));
        assert_eq!(frame.encode_into(true, &mut [0; 64]), Err(error));
        assert!(out.is_empty() && !frame.in_range() && error.to_string() == what);
    }
    assert_eq!(new(&[7; 20], 4).encoded_len(false), Ok(40));
}

// A type is cut off behind PADDING, which is the type that is reported: its number means that none is known.
#[test]
fn a_close_names_padding() {
    let error = Iter::new(&[0x00, 0x40]).unwrap().find_map(Result::err).unwrap().to_error();
    assert_eq!(error.frame, Some(FrameType::PADDING));
    let frame = Frame::Close(Close::from(&error));
    let expected = [&[0x1c, 0x07, 0x00, 14][..], b"unexpected end"].concat();
    assert_eq!(written(&frame, false), expected);
    let mut out = [0; 18];
    assert_eq!((frame.encoded_len(true), frame.encode_into(true, &mut out)), (Ok(18), Ok(18)));
    assert_eq!(out[..], expected);
    assert_eq!((frame.encode_body_into(true, &mut out), &out[..17]), (Ok(17), &expected[1..]));
    assert_eq!(frame.encode_into(true, &mut out[..17]), Err(WriteError::NoRoom));
}

#[test]
fn a_close_names_a_frame_and_is_shortened() {
    let reason = [b'x'; 1 << 14];
    let frame_type = FrameType::new(0x0a);
    let connection = ConnectionClose { error_code: Code::STREAM_LIMIT_ERROR, frame_type, reason: &reason };
    let application = ApplicationClose { error_code: var(1 << 20), reason: &reason };
    for close in [Close::from(connection), Close::from(application)] {
        assert_eq!((close.reason().len(), close.is_transport_layer()), (1 << 14, close == connection.into()));
        for max_len in (0..120).chain((1 << 14) - 20..(1 << 14) + 20) {
            let mut out = vec![];
            let written = close.encode(&mut out, max_len);
            assert_eq!(written.is_err(), max_len < close.min_len(), "{max_len}");
            assert!(out.len() <= max_len && out.is_empty() == written.is_err());
            if let [Frame::Close(read)] = out.is_empty().then(Vec::new).unwrap_or_else(|| read(&out))[..] {
                assert!(reason.starts_with(read.reason()));
            }
        }
    }
    assert_eq!(read(&written(&Frame::Close(connection.into()), true)), [Frame::Close(connection.into())]);
}

#[test]
fn each_error_of_a_payload_can_be_written_as_a_close() {
    let mut count = 0;
    for payload in (0..=u16::MAX).map(u16::to_be_bytes) {
        let of_rules = Iter::with_rules(&payload, Rules::RFC).unwrap().find_map(Result::err);
        for invalid in [Iter::new(&payload).unwrap().find_map(Result::err), of_rules].into_iter().flatten() {
            let error = Error::from(invalid);
            assert_eq!(quic_wire::Error::from(invalid).code(), Some(error.code));
            let mut out = vec![];
            ConnectionClose::from(&error).encode(&mut out, 100).unwrap();
            let [Frame::Close(Close::Connection(close))] = read(&out)[..] else { panic!() };
            assert_eq!((close.error_code, close.reason), (error.code, invalid.reason.as_bytes()), "of {payload:x?}");
            count += 1;
        }
    }
    assert!(count > 50_000, "{count}");
}

// RFC 9000, section 12.4, table 3; RFC 9221, section 4; and what quinn-proto does with the ACK frequency extension.
#[test]
fn a_frame_has_its_row_of_table_3() {
    let rows = [
        (0x00..=0x00, "IH01", "NP"),
        (0x01..=0x01, "IH01", ""),
        (0x02..=0x03, "IH_1", "NC"),
        (0x04..=0x05, "__01", ""),
        (0x06..=0x06, "IH_1", ""),
        (0x07..=0x07, "___1", ""),
        (0x08..=0x0f, "__01", "F"),
        (0x10..=0x17, "__01", ""),
        (0x18..=0x18, "__01", "P"),
        (0x19..=0x19, "__01", ""),
        (0x1a..=0x1a, "__01", "P"),
        (0x1b..=0x1b, "___1", "P"),
        (0x1c..=0x1c, "IH01", "N"),
        (0x1d..=0x1d, "__01", "N"),
        (0x1e..=0x1e, "___1", ""),
        (0x1f..=0x1f, "__01", ""),
        (0x30..=0x31, "__01", ""),
        (0xaf..=0xaf, "__01", ""),
    ];
    let types = [
        (PacketType::Initial, 'I'),
        (PacketType::Handshake, 'H'),
        (PacketType::ZeroRtt, '0'),
        (PacketType::OneRtt, '1'),
    ];
    for (ty, packets, spec) in rows.into_iter().flat_map(|(tys, packets, spec)| tys.map(move |ty| (ty, packets, spec)))
    {
        // Fields of 0, except the length of an id.
        let payload = [&[0x40, ty, 0, 0, u8::from(ty == 0x18)][..], &[0; 20]].concat();
        let frame = Iter::new(&payload).unwrap().next().unwrap().unwrap();
        for (packet, letter) in types {
            assert_eq!(frame.is_permitted_in(packet), packets.contains(letter), "{frame:?} in {packet:?}");
        }
        assert_eq!(frame.is_ack_eliciting(), !spec.contains('N'), "{frame:?}");
        assert_eq!(frame.is_counted_in_flight(), !spec.contains('C'), "{frame:?}");
        assert_eq!(frame.is_probing(), spec.contains('P'), "{frame:?}");
        assert_eq!(frame.is_flow_controlled(), spec.contains('F'), "{frame:?}");
    }
}

#[test]
fn frames_are_hashed() {
    let payload = [0x01, 0x10, 0x05, 0x01, 0x02, 9, 0, 0, 0];
    let different: HashSet<_> = read(&payload).into_iter().collect();
    assert_eq!(different.len(), 3);
}

#[test]
fn refusals() {
    assert_eq!(Iter::new(&[]).err().map(|error| error.code), Some(Code::PROTOCOL_VIOLATION));
    let mut iter = Iter::new(&[0x01, 0x06]).unwrap();
    assert_eq!(iter.next(), Some(Ok(Frame::Ping)));
    let e = iter.next().unwrap().unwrap_err();
    assert_eq!((e.ty.map(u64::from), e.reason), (Some(6), "unexpected end"));
    assert_eq!((iter.next(), iter.next()), (None, None));
    let mut out = vec![7];
    assert_eq!(canonical(&[], &mut out), Err(CanonError::Empty));
    assert_eq!(canonical(&[1, 6], &mut out).unwrap_err().to_string(), "unexpected end in CRYPTO");
    assert_eq!((canonical(&[0x40, 1, 1], &mut out), out), (Ok(()), vec![7, 1, 1]));
}

#[test]
fn a_long_type_is_refused_where_types_are_strict() {
    // A MAX_DATA whose number takes two bytes, two PADDING, and a PING whose type does.
    let payload = [0x10, 0x40, 0x01, 0x00, 0x00, 0x40, 0x01];
    let front = [Frame::MaxData(var(1)), Frame::Padding, Frame::Padding].map(Ok);
    let mut strict = Iter::strict(&payload).unwrap();
    assert_eq!(strict.by_ref().take(3).collect::<Vec<_>>(), front);
    let e = strict.next().unwrap().unwrap_err();
    assert_eq!((e.ty, strict.offset()), (Some(FrameType::PING), 5));
    assert_eq!(e.to_string(), "frame type not in shortest form in PING");
    assert_eq!(Error::from(e).code, Code::PROTOCOL_VIOLATION);
    assert_eq!(strict.next(), None);
    assert!(Iter::strict(&[]).is_err());
}

#[test]
fn the_ack_frequency_extension_is_left_out_where_it_is_unknown() {
    // A PING, a run of PADDING, a STREAM in two bytes, an IMMEDIATE_ACK or an ACK_FREQUENCY, and a PING.
    for extension in [&[0x1f][..], &[0x40, 0xaf, 1, 2, 3, 4]] {
        let payload = [&[0x01, 0x00, 0x00, 0x0a, 4, 0], extension, &[0x01]].concat();
        let ty = read(&payload)[4].ty();
        let invalid = InvalidFrame { ty: Some(ty), reason: "invalid frame ID" };
        let mut frames = Iter::with_rules(&payload, Rules::RFC).unwrap();
        assert!(frames.by_ref().take(4).eq(read(&payload)[..4].iter().map(|frame| Ok(*frame))));
        assert_eq!((frames.offset(), frames.next(), frames.next()), (6, Some(Err(invalid)), None));
        assert_eq!(frames.offset(), 6);
    }
    let error = |payload: &[u8]| Iter::with_rules(payload, Rules::RFC).unwrap().next().unwrap().unwrap_err();
    // Such a type is unknown whether its fields are there or not, but rejected first if it is too long.
    assert_eq!(error(&[0x40, 0xaf]).to_string(), "invalid frame ID in ACK_FREQUENCY");
    assert_eq!(error(&[0x40, 0xaf, 1, 2, 3]).to_string(), "invalid frame ID in ACK_FREQUENCY");
    assert_eq!(error(&[0x80, 0, 0, 0xaf]).reason, "frame type not in shortest form");
    assert_eq!(error(&[0x40, 0x1f]).reason, "frame type not in shortest form");
}

#[test]
fn a_frame_that_breaks_a_rule_is_refused_by_that_rule_alone() {
    let (none, most) = (Rules::default(), [0xff; 8]); // 2^62 - 1
    let frame = |parts: &[&[u8]]| parts.concat();
    let streams = |ty: u8, low: u8| frame(&[&[ty, 0xd0, 0, 0, 0, 0, 0, 0, low]]); // 2^60, or one more
    let data = Rules { data_limit: true, ..none };
    let limit = Rules { stream_limit: true, ..none };
    let tokens = Rules { tokens: true, ..none };
    // Each with what keeps the rule; RFC 9000, sections 19.6, 19.8, 19.11, 19.14 and 19.7.
    let rows = [
        (data, frame(&[&[0x06], &most, &[0]]), frame(&[&[0x06], &most, &[1, 7]]), "limit exceeded"),
        (data, frame(&[&[0x0c, 0], &most]), frame(&[&[0x0c, 0], &most, &[7]]), "limit exceeded"),
        (limit, streams(0x12, 0), streams(0x12, 1), "limit exceeded"),
        (limit, streams(0x13, 0), streams(0x13, 1), "limit exceeded"),
        (limit, streams(0x16, 0), streams(0x16, 1), "limit exceeded"),
        (limit, streams(0x17, 0), streams(0x17, 1), "limit exceeded"),
        (tokens, vec![0x07, 1, 7], vec![0x07, 0], "malformed"),
        (Rules { no_ack_frequency: true, ..none }, vec![0x01], vec![0x1f], "invalid frame ID"),
        (Rules { short_types: true, ..none }, vec![0x01], vec![0x40, 0x01], "frame type not in shortest form"),
    ];
    for (rules, kept, broken, reason) in rows {
        let read = |payload: &[u8], rules| Iter::with_rules(payload, rules).unwrap().next().unwrap().map(|_| ());
        assert_eq!(read(&kept, Rules::RFC), Ok(()), "{kept:x?} keeps all rules");
        assert_eq!(read(&broken, none), Ok(()), "{broken:x?} is a frame");
        for rules in [rules, Rules::RFC] {
            assert_eq!(read(&broken, rules).unwrap_err().reason, reason, "{broken:x?} by {rules:?}");
        }
    }
    let error = Iter::with_rules(&streams(0x13, 1), Rules::RFC).unwrap().next().unwrap().unwrap_err();
    assert_eq!(error.to_string(), "limit exceeded in MAX_STREAMS_UNI");
    assert_eq!(Error::from(error).code, Code::FRAME_ENCODING_ERROR);
}

/// Every frame of the payloads that `QUIC_WIRE_LIST` names is written, read back and the same.
#[test]
fn what_is_written_is_read_back() {
    let Ok(list) = std::env::var("QUIC_WIRE_LIST") else { return };
    let mut count = 0;
    for line in std::fs::read_to_string(list).unwrap().lines() {
        let bytes = (0..line.len() / 2).map(|i| u8::from_str_radix(&line[2 * i..2 * i + 2], 16));
        let Ok(payload) = bytes.collect::<Result<Vec<u8>, _>>() else { continue };
        let Ok(iter) = Iter::new(&payload) else { continue };
        for frame in iter.flatten() {
            is_read_back(frame);
            count += 1;
        }
    }
    assert!(count > 500, "{count}");
}

fn is_read_back(frame: Frame<'_>) {
    for last in [false, true] {
        let len = frame.encoded_len(last).unwrap();
        let mut out = vec![0xa5; len + 3];
        assert_eq!(frame.encode_into(last, &mut out[..]), Ok(len));
        assert_eq!((&out[len..], &out[..len]), (&[0xa5; 3][..], &written(&frame, last)[..]));
        let again = read(&out[..len]);
        match (frame, again[0]) {
            (Frame::Ack(one), Frame::Ack(other)) => {
                assert!(one.iter().eq(&other) && (one.delay(), one.ecn()) == (other.delay(), other.ecn()));
            }
            (one, other) => assert_eq!(one, other),
        }
        assert_eq!(again.len(), 1);
        assert_eq!(frame.encode_into(last, &mut out[..len - 1]), Err(WriteError::NoRoom));
    }
}
