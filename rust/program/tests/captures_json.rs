//! The objects of the mode `capture`: all of them fit docs/capture.schema.json, and have together all that it names.
#![cfg(feature = "capture")]
#[path = "common/captures.rs"]
mod captures;
#[path = "../../capture/tests/common/mod.rs"]
mod common;
#[path = "common/json.rs"]
mod json;
#[path = "../../capture/tests/common/made.rs"]
mod made;
#[path = "common/mod.rs"]
mod program;

use captures::{Folder, SMALL, SMALL_KEYS, a2, a3, a4, kept, pcap, pcap_of};
use common::Kept;
use json::{Json, Schema};
use made::{Client, Handshake, Initial, Made, Server, Short, crypto, frame};
use program::run;
use quic_wire::datagram::VersionNegotiation;
use quic_wire::frame::{Frame, NewConnectionId};
use quic_wire::transport_parameters::{PreferredAddress, TransportParameters};
use quic_wire::{ConnectionId, VarInt};
use quic_wire_capture::sink::Unopened;

const SCHEMA: &str = include_str!("../../../docs/capture.schema.json");
const PING: &[u8] = &[1];

fn objects(arguments: &[&str]) -> Vec<Json> {
    let (text, said, status) = run(&[&["capture", "--json"], arguments].concat(), b"");
    assert_eq!((&said[..], status), ("", 0), "{arguments:?}");
    text.lines().map(Json::read).collect()
}

// RFC 8446, section 4: a message with only the extension of transport parameters at its end.
fn message(kind: u8, front: &[u8], list: &[u8]) -> Vec<u8> {
    let len = |bytes: usize| (bytes as u16).to_be_bytes();
    let body = [front, &len(list.len() + 4), &[0, 0x39], &len(list.len()), list].concat();
    [&[kind, 0][..], &len(body.len()), &body].concat()
}

fn hello(seed: u8, list: &[u8]) -> Vec<u8> {
    message(1, &[&[3, 3][..], &[seed; 32], &[0, 0, 2, 0x13, 1, 1, 0]].concat(), list)
}

// Every parameter that a server may send, each with another value than its default, and an unknown one.
fn parameters() -> Vec<u8> {
    let id = |text: &[u8]| Some(ConnectionId::new(text));
    let number = VarInt::from_u32;
    let preferred_address = PreferredAddress {
        address_v4: Some("10.0.0.3:4".parse().unwrap()),
        address_v6: Some("[2001:db8::1]:6".parse().unwrap()),
        connection_id: ConnectionId::new(b"preferred"),
        stateless_reset_token: [3; 16].into(),
    };
    let all = TransportParameters {
        max_idle_timeout: number(1),
        max_udp_payload_size: number(1300),
        initial_max_data: number(2),
        initial_max_stream_data_bidi_local: number(3),
        initial_max_stream_data_bidi_remote: number(4),
        initial_max_stream_data_uni: number(5),
        initial_max_streams_bidi: number(6),
        initial_max_streams_uni: number(7),
        ack_delay_exponent: number(4),
        max_ack_delay: number(8),
        active_connection_id_limit: number(9),
        stateless_reset_token: Some([2; 16].into()),
        disable_active_migration: true,
        max_datagram_frame_size: Some(number(10)),
        preferred_address: Some(preferred_address),
        original_dst_cid: id(b"original"),
        initial_src_cid: id(b"initial"),
        retry_src_cid: id(b"retry"),
        grease_quic_bit: true,
        min_ack_delay: Some(number(11)),
        ..TransportParameters::default()
    };
    let mut list = Vec::new();
    all.write(&mut list).unwrap();
    list.extend([0x7f, 0xff, 2, 0xab, 0xcd]);
    list
}

// A connection with every kind of frame, and parameters of both kinds.
fn every_frame() -> (Made, Vec<Kept>) {
    let mut made = Made::new(1);
    let mut all = vec![made.send(Client, Initial, &crypto(0, &hello(1, &[0x0a, 1, 21])))];
    let server_hello = crypto(0, &made.server_hello());
    let extensions = crypto(0, &message(8, &[], &parameters()));
    let packets = [made.packet(Server, Initial, &server_hello), made.packet(Server, Handshake, &extensions)].concat();
    all.push(made.datagram(Server, packets));
    made.first_dcid = None;
    let new_id =
        NewConnectionId { sequence: 1, retire_prior_to: 0, id: ConnectionId::new(b"id"), reset_token: [7; 16].into() };
    let of_server: [&[u8]; 4] = [&[0x1e], &[0x07, 1, 9], &[0x03, 5, 1, 1, 1, 0, 0, 1, 2, 3], PING];
    all.push(made.send(Server, Short, &of_server.concat()));
    let of_client: [&[u8]; 18] = [
        &[0, 0, 1],
        &[4, 0, 1, 2],
        &[5, 0, 1],
        &[6, 0, 1, 9],
        &[0x0f, 0, 1, 1, 9],
        &[0x10, 1],
        &[0x11, 0, 1],
        &[0x13, 1],
        &[0x14, 1],
        &[0x15, 0, 1],
        &[0x16, 1],
        &frame(&Frame::NewConnectionId(new_id)),
        &[0x19, 0],
        b"\x1a12345678",
        b"\x1b12345678",
        &[0x31, 1, 9],
        &[0x40, 0xaf, 1, 2, 3, 1],
        &[0x1f],
    ];
    all.push(made.send(Client, Short, &of_client.concat()));
    all.push(made.send(Client, Short, &[0x07, 1, 9, 0x1e, 0x10]));
    all.push(made.send(Client, Short, &[0x07, 0]));
    all.push(made.send(Client, Short, b"\x1c\x0a\x08\x03bye"));
    all.push(made.send(Server, Short, b"\x1d\x05\x00"));
    all.push(all[3].clone());
    (made, all)
}

// Packets without frames, and what isn't opened.
fn the_rest() -> (Made, Vec<Kept>) {
    let mut made = Made::new(2);
    let mut all = vec![made.send(Client, Initial, &crypto(0, &made.client_hello())), made.retry(b"retried")];
    all.push(made.send(Client, Initial, &crypto(0, &made.client_hello())));
    *all.last_mut().unwrap().bytes.last_mut().unwrap() ^= 1;
    all.push(made.send(Client, Initial, &crypto(0, &made.client_hello())));
    all.extend(made.handshake_of_server());
    all.push(made.retry(b"too late"));
    let mut packet = Vec::new();
    let (dst_cid, src_cid) = (&made.ids[0][..], &made.initial_id[..]);
    VersionNegotiation { random: 0, dst_cid, src_cid, versions: &[1] }.encode(&mut packet).unwrap();
    all.push(made.datagram(Server, packet));
    let mut packet = made.packet(Client, Handshake, PING);
    packet.extend([0x47; 50]);
    all.push(made.datagram(Client, packet));
    all.push(made.datagram(Client, vec![0x47; 50]));
    let mut cut = made.packet(Client, Handshake, PING);
    cut.extend(made.packet(Client, Short, &[0; 1200]));
    all.push(made.datagram(Client, cut));
    all.push(made.send(Client, Handshake, &[0; 1200]));
    all.push(made.datagram(Server, [&[0x4a; 30][..], &[made.seed ^ 0xee; 16]].concat()));
    (made, all)
}

// Of five packets the last one is acknowledged.
fn losses() -> (Made, Vec<Kept>) {
    let mut made = Made::new(3);
    let mut all = made.handshake();
    all.extend((0..5).map(|_| made.send(Client, Short, PING)));
    all.push(made.send(Server, Short, &[2, 4, 0, 0, 0]));
    (made, all)
}

#[test]
fn all_objects_fit_the_schema_and_have_what_it_names() {
    let folder = Folder::new("schema");
    let ((one, frames), (two, rest), (three, lost)) = (every_frame(), the_rest(), losses());
    let keys = folder.write("keys", one.key_log() + &two.key_log() + &three.key_log());
    let lost = folder.write("lost.pcap", pcap(&lost));
    let frames = folder.write("frames.pcap", pcap(&frames));
    let rest = folder.write("rest.pcap", pcap_of(&rest, 1100));
    let rfc = folder.write("rfc.pcap", pcap(&[kept(true, 0, &a2()), kept(false, 1, &a4()), kept(false, 2, &a3())]));
    let mut schema = Schema::read(SCHEMA);
    let calls: [&[&str]; 5] = [
        &[SMALL, "--keylog", SMALL_KEYS],
        &[SMALL],
        &[&frames, &rest, &rfc, "--keylog", &keys],
        &[&rest, "--keylog", &keys, "--rejected"],
        &[&lost, "--keylog", &keys, "--lost"],
    ];
    for call in calls {
        objects(call).iter().for_each(|object| schema.check(object));
    }
    let (all, seen) = (schema.members(), &schema.seen);
    let unseen: Vec<_> = all.difference(seen).collect();
    assert!(unseen.is_empty(), "{unseen:?}");
    // The reasons are those of the engine.
    let schema = Json::read(SCHEMA);
    let reasons = schema.at("$defs.why_unopened.enum").items();
    let all = [
        Unopened::VersionNegotiation,
        Unopened::Retry,
        Unopened::InvalidRetry,
        Unopened::StatelessReset,
        Unopened::NotCaptured,
        Unopened::NoConnection,
        Unopened::NoInitial,
        Unopened::NoClientHello,
        Unopened::NoSecret,
        Unopened::UnknownSuite,
        Unopened::WrongTag,
        Unopened::NoFirstId,
    ];
    assert!(reasons.iter().map(Json::text).eq(all.iter().map(ToString::to_string)));
}

#[test]
fn a_connection_whose_last_packets_are_not_opened() {
    let connection = |arguments: &[&str]| {
        let all = objects(arguments);
        all.into_iter().find(|object| object.at("kind").text() == "connection").unwrap()
    };
    let (opened, shut) = (connection(&[SMALL, "--keylog", SMALL_KEYS]), connection(&[SMALL]));
    assert_eq!((opened.at("how").text(), shut.at("how").text()), ("closed", "unknown"));
    for time in ["begin", "last"] {
        assert_eq!(opened.at(time), shut.at(time), "{time}");
    }
}

// RFC 9001, appendices A.2 and A.3: the places of the packet number and the payload.
#[test]
fn places_are_those_of_the_rfc() {
    let folder = Folder::new("places");
    let mut both = a2();
    both.extend([0; 10]);
    let file = folder.write("rfc.pcap", pcap(&[kept(true, 0, &both), kept(false, 1, &a3())]));
    let all = objects(&[&file]);
    let rows = [
        ("0.packet_in_datagram", "[0,1200]"),
        ("0.datagram_len", "1210"),
        ("0.number_in_datagram", "[18,22]"),
        ("0.payload_in_datagram", "[22,1184]"),
        ("0.frames.0.in_payload", "[0,245]"),
        ("0.frames.1.in_payload", "[245,1162]"),
        ("0.time", "0.000000000"),
        ("1.rest_in_datagram", "[1200,1210]"),
        ("2.number_in_datagram", "[18,20]"),
        ("2.payload_in_datagram", "[20,119]"),
        ("2.number", "1"),
        ("2.time", "0.001000000"),
    ];
    let all = Json::List(all);
    for (path, value) in rows {
        assert_eq!(all.at(path), &Json::read(value), "{path}");
    }
    assert_eq!(all.at("1.reason").text(), "padding of zeros");
    // All data are there.
    assert_eq!(all.at("2.frames.1.data").text().len(), 180);
    assert!(all.at("2.frames.1.data").text().ends_with("002b00020304"));
}
