//! The traces of the mode `capture`: qlog 0.3, draft-ietf-quic-qlog-main-schema-02 and
//! draft-ietf-quic-qlog-quic-events-01.
#![cfg(feature = "capture")]
#[path = "common/captures.rs"]
mod captures;
#[path = "../../capture/tests/common/mod.rs"]
mod common;
#[path = "common/json.rs"]
mod json;
#[path = "../../capture/tests/common/made.rs"]
mod made;
#[path = "common/mod.rs"]
mod program;

use captures::{Folder, SMALL, SMALL_KEYS, pcap};
use common::Kept;
use json::Json;
use made::{Client, Handshake, Initial, Made, Server, Short, crypto};
use program::run;
use std::fs;

const PING: &[u8] = &[1];

// The records of a trace.
fn records(path: &str) -> Vec<Json> {
    let trace = fs::read_to_string(path).unwrap();
    assert!(trace.starts_with('\x1e') && trace.ends_with("}\n"), "RFC 7464, section 2.2");
    trace[1..].split("\n\x1e").map(Json::read).collect()
}

fn traces(folder: &Folder, made: &Made, all: &[Kept]) -> Vec<Json> {
    let keys = folder.write("keys", made.key_log());
    let file = folder.write("made.pcap", pcap(all));
    let (_, said, status) = run(&["capture", &file, "--keylog", &keys, "--qlog", &folder.path("qlog")], b"");
    assert_eq!((&said[..], status), ("", 0));
    records(&folder.path("qlog/made.pcap.0.sqlog"))
}

fn named<'r>(records: &'r [Json], name: &str) -> Vec<&'r Json> {
    records.iter().skip(1).filter(|record| record.at("name").text() == name).map(|record| record.at("data")).collect()
}

// Packet numbers and types as tshark 4.0.17 prints them, and who sent them.
#[test]
fn a_real_connection() {
    let folder = Folder::new("real");
    let (text, said, status) =
        run(&["capture", SMALL, "--keylog", SMALL_KEYS, "--qlog", &folder.path("new/qlog")], b"");
    assert_eq!((&said[..], status), ("", 0));
    assert!(text.starts_with("connection 0: "), "only summaries: {text}");
    let records = records(&folder.path("new/qlog/small.pcap.0.sqlog"));
    let header = r#"{"qlog_format":"JSON-SEQ","qlog_version":"0.3","trace":{"common_fields":{
        "ODCID":"43017239077a7568efe8cfb20ac40529e5c1","group_id":"43017239077a7568efe8cfb20ac40529e5c1",
        "protocol_type":["QUIC"],"reference_time":1795911299630.191000,"time_format":"relative"},
        "vantage_point":{"name":"small.pcap","type":"network","flow":"client"}}}"#;
    assert_eq!(records[0], Json::read(header));
    let packets: Vec<_> = records[1..].iter().filter(|record| record.at("name").text().contains(":packet_")).collect();
    let line = |record: &&Json| {
        let name = record.at("name").text().replace("transport:packet_", "");
        let Json::Number(number) = record.at("data.header.packet_number") else { panic!() };
        format!("{name} {} {number}", record.at("data.header.packet_type").text())
    };
    let lines: Vec<_> = packets.iter().map(line).collect();
    let all = [
        "sent initial 0",
        "received initial 0",
        "received handshake 0",
        "received 1RTT 0",
        "sent handshake 0",
        "sent handshake 1",
        "sent 1RTT 0",
        "sent 1RTT 1",
        "sent 1RTT 2",
        "received 1RTT 1",
        "sent 1RTT 3",
        "received 1RTT 2",
        "received 1RTT 3",
        "sent 1RTT 4",
        "received 1RTT 4",
        "sent 1RTT 5",
    ];
    assert_eq!(lines, all);
    let owners: Vec<_> =
        named(&records, "transport:parameters_set").iter().map(|data| data.at("owner").text()).collect();
    assert_eq!(owners, ["local", "remote"]);
    let closed = r#"{"owner":"local","application_code":256,"reason":""}"#;
    assert_eq!(named(&records, "connectivity:connection_closed"), [&Json::read(closed)]);
    // From the first packet on, in milliseconds.
    assert_eq!(records.last().unwrap().at("time"), &Json::read("27.264000"));
}

// RFC 9000, section 19, as the drafts name the fields.
const FRAMES: &[(&[u8], &str)] = &[
    (&[0, 0, 0], r#"{"frame_type":"padding","length":3,"payload_length":3}"#),
    (&[1], r#"{"frame_type":"ping"}"#),
    (
        &[3, 9, 0x40, 0x64, 1, 1, 1, 2, 4, 5, 6],
        r#"{"frame_type":"ack","ack_delay":0.800,"acked_ranges":[[3,5],[8,9]],"ect0":4,"ect1":5,"ce":6}"#,
    ),
    (&[4, 0, 1, 2], r#"{"frame_type":"reset_stream","stream_id":0,"error_code":1,"final_size":2}"#),
    (&[5, 0, 1], r#"{"frame_type":"stop_sending","stream_id":0,"error_code":1}"#),
    (&[6, 2, 1, 9], r#"{"frame_type":"crypto","offset":2,"length":1}"#),
    (&[0x0f, 0, 1, 1, 9], r#"{"frame_type":"stream","stream_id":0,"offset":1,"length":1,"fin":true}"#),
    (&[0x10, 1], r#"{"frame_type":"max_data","maximum":1}"#),
    (&[0x11, 0, 1], r#"{"frame_type":"max_stream_data","stream_id":0,"maximum":1}"#),
    (&[0x12, 1], r#"{"frame_type":"max_streams","maximum":1,"stream_type":"bidirectional"}"#),
    (&[0x14, 1], r#"{"frame_type":"data_blocked","limit":1}"#),
    (&[0x15, 0, 1], r#"{"frame_type":"stream_data_blocked","stream_id":0,"limit":1}"#),
    (&[0x17, 1], r#"{"frame_type":"streams_blocked","limit":1,"stream_type":"unidirectional"}"#),
    (
        &[0x18, 2, 1, 1, 0xaa, 7, 7, 7, 7, 7, 7, 7, 7, 7, 7, 7, 7, 7, 7, 7, 7],
        r#"{"frame_type":"new_connection_id","sequence_number":2,"retire_prior_to":1,"connection_id_length":1,
            "connection_id":"aa","stateless_reset_token":{"raw":{"length":16,
            "data":"07070707070707070707070707070707"}}}"#,
    ),
    (&[0x19, 3], r#"{"frame_type":"retire_connection_id","sequence_number":3}"#),
    (b"\x1a12345678", r#"{"frame_type":"path_challenge","data":"3132333435363738"}"#),
    (b"\x1b12345678", r#"{"frame_type":"path_response","data":"3132333435363738"}"#),
    (&[0x31, 1, 9], r#"{"frame_type":"datagram","length":1}"#),
    (&[0x1e], r#"{"frame_type":"handshake_done"}"#),
    (&[0x07, 1, 9], r#"{"frame_type":"new_token","token":{"raw":{"length":1,"data":"09"}}}"#),
    (
        b"\x1c\x0a\x08\x03bye",
        r#"{"frame_type":"connection_close","error_space":"transport","error_code":"protocol_violation",
            "raw_error_code":10,"reason":"bye","trigger_frame_type":"stream"}"#,
    ),
    (
        &[0x1c, 0x41, 0x2a, 0, 0],
        r#"{"frame_type":"connection_close","error_space":"transport","error_code":"crypto_error_0x12a",
            "raw_error_code":298,"reason":""}"#,
    ),
    (
        &[0x1d, 5, 0],
        r#"{"frame_type":"connection_close","error_space":"application","error_code":5,"raw_error_code":5,
            "reason":""}"#,
    ),
];

#[test]
fn every_kind_of_frame() {
    let folder = Folder::new("kinds");
    let mut made = Made::new(1);
    let mut all = made.handshake();
    // PADDING at the end would be another frame.
    let payload: Vec<_> = FRAMES.iter().flat_map(|(bytes, _)| *bytes).copied().collect();
    all.push(made.send(Server, Short, &payload));
    let records = traces(&folder, &made, &all);
    let packet = *named(&records, "transport:packet_received").last().unwrap();
    for ((_, wanted), frame) in FRAMES.iter().zip(packet.at("frames").items()) {
        assert_eq!(frame, &Json::read(wanted));
    }
    assert_eq!(packet.at("frames").items().len(), FRAMES.len());
    // A short header, an id of four bytes, a packet number of one, and the tag.
    let raw = format!("{{\"length\":{},\"payload_length\":{}}}", payload.len() + 22, payload.len());
    assert_eq!(packet.at("raw"), &Json::read(&raw));
    let header = r#"{"packet_type":"1RTT","packet_number":0,"flags":64,"dcil":4,"dcid":"01c1c2c3"}"#;
    assert_eq!(packet.at("header"), &Json::read(header));
    let closed = r#"{"owner":"remote","connection_code":"protocol_violation","reason":"bye"}"#;
    assert_eq!(named(&records, "connectivity:connection_closed"), [&Json::read(closed)]);
}

// Number 4 is acknowledged, so that 0 and 1 are lost (RFC 9002, section 6.1.1).
#[test]
fn lost_packets() {
    let folder = Folder::new("lost-traces");
    let mut made = Made::new(1);
    let mut all = made.handshake();
    all.extend((0..5).map(|_| made.send(Client, Short, PING)));
    all.push(made.send(Server, Short, &[2, 4, 0, 0, 0]));
    let records = traces(&folder, &made, &all);
    let lost = named(&records, "recovery:packet_lost");
    let by_packets = |number: u64| {
        let text = format!(
            r#"{{"header":{{"packet_type":"1RTT","packet_number":{number}}},"trigger":"reordering_threshold"}}"#
        );
        Json::read(&text)
    };
    assert_eq!(lost[..2], [&by_packets(0), &by_packets(1)]);
    assert_eq!(lost[2].at("trigger").text(), "time_threshold");
}

#[test]
fn packets_without_frames() {
    let folder = Folder::new("without");
    let mut made = Made::new(1);
    let hello = crypto(0, &made.client_hello());
    let mut all = vec![made.send(Client, Initial, &hello), made.retry(b"retried"), made.send(Client, Initial, &hello)];
    all.extend(made.handshake_of_server());
    // One again, one that isn't opened, and a stateless reset.
    all.push(all.last().unwrap().clone());
    all.push(made.send(Client, Handshake, PING));
    *all.last_mut().unwrap().bytes.last_mut().unwrap() ^= 1;
    all.push(made.datagram(Server, [&[0x4a; 30][..], &[made.seed ^ 0xee; 16]].concat()));
    let records = traces(&folder, &made, &all);
    let (sent, received) = (named(&records, "transport:packet_sent"), named(&records, "transport:packet_received"));
    assert_eq!((sent.len(), received.len()), (3, 4));
    let retry = r#"{"header":{"packet_type":"retry","version":"00000001","scil":7,"dcil":4,"scid":"72657472696564",
        "dcid":"01c1c2c3"},"retry_token":{"raw":{"length":5,"data":"746f6b656e"}},"raw":{"length":39},
        "datagram_id":2}"#;
    assert_eq!(received[0], &Json::read(retry));
    assert_eq!(sent[1].at("header.token.raw.data").text(), "746f6b656e");
    let reset = r#"{"header":{"packet_type":"stateless_reset"},"raw":{"length":46},"datagram_id":8}"#;
    assert_eq!(received[3], &Json::read(reset));
    let closed = r#"{"owner":"remote","trigger":"stateless_reset"}"#;
    assert_eq!(named(&records, "connectivity:connection_closed"), [&Json::read(closed)]);
}

// Filters choose what is in traces, and files of one name have different traces.
#[test]
fn names_and_filters() {
    let folder = Folder::new("names");
    let (mut one, mut two) = (Made::new(1), Made::new(2));
    let all = [one.handshake(), two.handshake()].concat();
    fs::create_dir_all(folder.path("other")).unwrap();
    let (first, second) = (folder.write("made.pcap", pcap(&all)), folder.write("other/made.pcap", pcap(&all)));
    let qlog = folder.path("qlog");
    let call = ["capture", &first, &second, "-", "--qlog", &qlog, "--connection", "1", "--side", "client"];
    let (text, said, status) = run(&call, &pcap(&all));
    assert_eq!((&said[..], status), ("", 0));
    let mut files: Vec<_> = fs::read_dir(&qlog).unwrap().map(|one| one.unwrap().file_name()).collect();
    files.sort();
    assert_eq!(files, ["made.pcap-2.1.sqlog", "made.pcap.1.sqlog", "stdin.1.sqlog"]);
    assert_eq!(text.matches(": connection 1: ").count(), 3);
    let records = records(&folder.path("qlog/stdin.1.sqlog"));
    assert_eq!(named(&records, "transport:packet_sent").len(), 1);
    assert_eq!(named(&records, "transport:packet_received").len(), 0);
    // What can't be written to is said.
    let (_, said, status) = run(&["capture", &first, "--qlog", &second], b"");
    assert!(said.starts_with(&format!("quic-wire: {second}: ")) && status == 3, "{said}");
}
