//! A lawful connection that is made packet by packet, to which tests add one more packet.
#![allow(dead_code, reason = "each test uses a part")]

use crate::common::{Kept, seal_with};
use crate::made::{Client, Handshake, Initial, Made, Server, Short, crypto};
use quic_wire::datagram::Header;
use quic_wire::packet::PacketNumber;
use quic_wire::transport_parameters::TransportParameters;
use quic_wire::{ConnectionId, Side, VarInt};
use quic_wire_capture::follow::Follower;
use quic_wire_capture::keys::PacketKeys;
use quic_wire_check::checker::Checker;
use quic_wire_check::finding::{Finding, Report};
use quic_wire_check::rule::Need;

pub const PING: &[u8] = &[1];

/// A connection whose packets come one after another.
pub struct Talk {
    pub made: Made,
    pub all: Vec<Kept>,
    pub parameters: [TransportParameters; 2],
    /// Bytes of each side's list of parameters after these.
    pub more: [Vec<u8>; 2],
    /// The ClientHello's legacy_session_id.
    pub session_id: Vec<u8>,
}

impl Talk {
    /// Before its first packet. Each side permits 1,000 bytes on all streams, 500 on each, and four streams of each
    /// type.
    pub fn new() -> Talk {
        Talk::of(Made::new(1))
    }

    /// The same with other secrets, ids and addresses.
    pub fn of(made: Made) -> Talk {
        let id = |bytes: &[u8]| Some(ConnectionId::new(bytes));
        let number = VarInt::from_u32;
        let limits = TransportParameters {
            initial_max_data: number(1000),
            initial_max_stream_data_bidi_local: number(500),
            initial_max_stream_data_bidi_remote: number(500),
            initial_max_stream_data_uni: number(500),
            initial_max_streams_bidi: number(4),
            initial_max_streams_uni: number(4),
            max_datagram_frame_size: Some(number(100)),
            ..TransportParameters::default()
        };
        let client = TransportParameters { initial_src_cid: id(&made.ids[0]), ..limits };
        let server = TransportParameters {
            initial_src_cid: id(&made.ids[1]),
            original_dst_cid: id(&made.original_id),
            ..limits
        };
        Talk {
            made,
            all: Vec::new(),
            parameters: [client, server],
            more: [Vec::new(), Vec::new()],
            session_id: Vec::new(),
        }
    }

    /// After its handshake: each side knows that its packets so far were received, except for the server's last one.
    pub fn open() -> Talk {
        let mut talk = Talk::new();
        talk.handshake();
        talk
    }

    pub fn handshake(&mut self) -> &mut Talk {
        let hello = self.client_hello();
        self.send(Client, Initial, &hello);
        self.answer();
        self
    }

    /// The server's first datagram, and what follows it up to HANDSHAKE_DONE.
    pub fn answer(&mut self) -> &mut Talk {
        self.server_flight().client_flight().confirm()
    }

    /// The server's first datagram, of an Initial and a Handshake packet: 1,200 bytes.
    pub fn server_flight(&mut self) -> &mut Talk {
        let hello = [&ack(0)[..], &crypto(0, &self.server_hello())].concat();
        let extensions = crypto(0, &[self.encrypted_extensions(), finished(Server)].concat());
        let initial = self.made.packet(Server, Initial, &hello);
        // First byte, version, ids with their lengths, the packet's length, a number of a byte, and the tag.
        let around = 1 + 4 + 2 + self.made.ids.concat().len() + 2 + 1 + 16;
        let handshake = self.made.packet(Server, Handshake, &padded(&extensions, 1200 - initial.len() - around));
        let datagram = self.made.datagram(Server, [initial, handshake].concat());
        self.all.push(datagram);
        self.made.first_dcid = None;
        self
    }

    /// The client's datagram after that, of the same two packets.
    pub fn client_flight(&mut self) -> &mut Talk {
        let packets = self.client_packets();
        let datagram = self.made.datagram(Client, packets);
        self.all.push(datagram);
        self
    }

    /// Its packets.
    pub fn client_packets(&mut self) -> Vec<u8> {
        let initial = self.made.packet(Client, Initial, &ack(0));
        let end = [&ack(0)[..], &crypto(0, &finished(Client))].concat();
        let handshake = self.made.packet(Client, Handshake, &padded(&end, 1200));
        [initial, handshake].concat()
    }

    /// HANDSHAKE_DONE, with the acknowledgments around it.
    pub fn confirm(&mut self) -> &mut Talk {
        let last = self.made.numbers[0][1] - 1;
        self.send(Server, Handshake, &all_to(last));
        self.send(Server, Short, &[0x1e]);
        self.send(Client, Short, &all_to(self.made.numbers[1][2] - 1));
        self.send(Server, Short, &[&all_to(self.made.numbers[0][2] - 1)[..], PING].concat())
    }

    fn list(&self, side: Side) -> Vec<u8> {
        let mut list = Vec::new();
        self.parameters[side as usize].write(&mut list).unwrap();
        list.extend(&self.more[side as usize]);
        list
    }

    /// A payload with the ClientHello, for a datagram of 1,200 bytes or more.
    pub fn client_hello(&self) -> Vec<u8> {
        padded(&crypto(0, &self.client_message()), 1200)
    }

    /// The ClientHello.
    pub fn client_message(&self) -> Vec<u8> {
        let session = [&[self.session_id.len() as u8][..], &self.session_id].concat();
        let front = [&[3, 3][..], &self.made.random(), &session, &[0, 2, 0x13, 1, 1, 0]].concat();
        let list = self.list(Client);
        message(1, &front, &[VERSIONS, PROTOCOL, (PARAMETERS, &list)])
    }

    /// The ServerHello.
    pub fn server_hello(&self) -> Vec<u8> {
        let front = [&[3, 3][..], &[9; 32], &[0, 0x13, 1, 0]].concat();
        message(2, &front, &[(VERSIONS.0, &[3, 4])])
    }

    /// The server's messages after that.
    pub fn end_of_server(&self) -> Vec<u8> {
        [self.encrypted_extensions(), finished(Server)].concat()
    }

    /// The client's last message.
    pub fn end_of_client(&self) -> Vec<u8> {
        finished(Client)
    }

    fn encrypted_extensions(&self) -> Vec<u8> {
        message(8, &[], &[PROTOCOL, (PARAMETERS, &self.list(Server))])
    }

    /// Sends a datagram of one packet, a millisecond after the last one.
    pub fn send(&mut self, sender: Side, kind: quic_wire::datagram::HeaderKind, payload: &[u8]) -> &mut Talk {
        let kept = self.made.send(sender, kind, payload);
        self.all.push(kept);
        self
    }

    /// Sends a 1-RTT packet.
    pub fn short(&mut self, sender: Side, payload: &[u8]) -> &mut Talk {
        self.send(sender, Short, payload)
    }

    /// Sends a 1-RTT packet, after which a second passes in which both sides acknowledge all.
    pub fn and_more(&mut self, sender: Side, payload: &[u8]) -> &mut Talk {
        self.short(sender, payload).later()
    }

    /// A second passes, and both sides acknowledge all that was sent.
    pub fn later(&mut self) -> &mut Talk {
        self.made.time += 1_000_000_000;
        for sender in [Server, Client, Server] {
            let last = self.made.numbers[!sender as usize][2] - 1;
            self.short(sender, &[&all_to(last)[..], PING].concat());
        }
        self
    }

    /// A 1-RTT packet with a number, which has as many bytes as `field`, and bits of its first byte.
    pub fn sealed(&mut self, sender: Side, number: u64, field: PacketNumber, bits: u8, payload: &[u8]) -> &mut Talk {
        let keys = self.made.keys(Short, sender);
        let dst_cid = &self.made.ids[!sender as usize].clone()[..];
        let header = Header::Short { spin: false, key_phase: false, dst_cid, number: field };
        let payload = if payload.is_empty() { Vec::new() } else { padded(payload, 4) };
        let bytes = match bits {
            0 => seal_with(&keys, &header, number, &payload, false),
            bits => seal_bits(&keys, &header, number, &payload, bits),
        };
        let datagram = self.made.datagram(sender, bytes);
        self.all.push(datagram);
        self
    }

    /// What is found in it.
    pub fn report(&self) -> Report {
        report_of(self.made.key_log().as_bytes(), &self.all)
    }

    /// That just one rule is found broken, at the datagram with an index.
    pub fn finds(&self, rule: &str, section: &str, index: usize) -> Finding {
        let report = self.report();
        let [finding] = &report.findings[..] else { panic!("{rule}: {:#?}", report.findings) };
        let found = (finding.rule.name, finding.section.to_string(), finding.record);
        assert_eq!(found, (rule, section.into(), index as u64 + 1), "{finding:#?}");
        finding.clone()
    }

    /// That nothing is found.
    pub fn finds_nothing(&self) -> Report {
        let report = self.report();
        assert!(report.findings.is_empty(), "{:#?}", report.findings);
        report
    }

    /// That nothing is found, since something is missing for a rule.
    pub fn is_silent(&self, rule: &str, need: Need) {
        let report = self.finds_nothing();
        let has = report.unchecked.keys().any(|(name, reason)| *name == rule && *reason == need);
        assert!(has, "{:?}", report.unchecked);
    }

    /// The index of the next datagram.
    pub fn next(&self) -> usize {
        self.all.len()
    }
}

// As `seal_with`, with bits of the first byte that are set before protection.
fn seal_bits(keys: &PacketKeys, header: &Header<'_>, number: u64, payload: &[u8], bits: u8) -> Vec<u8> {
    let mut packet = vec![0; header.encoded_len().unwrap()];
    let written = header.encode_into(&mut packet).unwrap();
    packet.truncate(written.header_len);
    packet[0] ^= bits;
    let mut sealed = payload.to_vec();
    keys.seal(number, &packet, &mut sealed).unwrap();
    packet.extend(sealed);
    let place = written.place(&packet);
    let sample: [u8; 16] = place.sample(&packet, 16).unwrap().try_into().unwrap();
    place.protect(&mut packet, &keys.mask(&sample).unwrap()).unwrap();
    packet
}

/// What is found in datagrams, which get the numbers of their records from 1 on.
pub fn report_of(keys: &[u8], all: &[Kept]) -> Report {
    let (mut follower, mut checker) = (Follower::default(), Checker::default());
    follower.keylog.add(keys);
    for (kept, record) in all.iter().zip(1..) {
        checker.take(&Kept { record, ..kept.clone() }.datagram(), &mut follower);
    }
    checker.finish(&mut follower)
}

/// A payload with PADDING behind it up to a length.
pub fn padded(payload: &[u8], len: usize) -> Vec<u8> {
    let mut payload = payload.to_vec();
    payload.resize(payload.len().max(len), 0);
    payload
}

/// An ACK of one number below 64 (RFC 9000, section 19.3).
pub fn ack(number: u8) -> Vec<u8> {
    vec![2, number, 0, 0, 0]
}

/// An ACK of one number below 16,384.
pub fn ack_of(number: u16) -> Vec<u8> {
    [&[2][..], &(0x4000 | number).to_be_bytes(), &[0, 0, 0]].concat()
}

/// An ACK of all numbers up to one below 16,384.
pub fn all_to(number: u64) -> Vec<u8> {
    let two = (0x4000 | number as u16).to_be_bytes();
    [&[2][..], &two, &[0, 0], &two].concat()
}

// Extensions of TLS: version 1.3, a protocol by its name, and the number of that with the transport parameters.
const VERSIONS: (u16, &[u8]) = (0x2b, &[2, 3, 4]);
const PROTOCOL: (u16, &[u8]) = (0x10, b"\0\x05\x04made");
const PARAMETERS: u16 = 0x39;

// RFC 8446, section 4: a message with extensions at its end.
fn message(kind: u8, front: &[u8], extensions: &[(u16, &[u8])]) -> Vec<u8> {
    let len = |bytes: &[u8]| (bytes.len() as u16).to_be_bytes();
    let one = |(number, bytes): &(u16, &[u8])| [&number.to_be_bytes()[..], &len(bytes), bytes].concat();
    let list: Vec<u8> = extensions.iter().flat_map(one).collect();
    let body = [front, &len(&list), &list].concat();
    [&[kind, 0][..], &len(&body), &body].concat()
}

// A Finished of nobody's handshake.
fn finished(side: Side) -> Vec<u8> {
    [&[20, 0, 0, 32][..], &[0xf0 | side as u8; 32]].concat()
}
