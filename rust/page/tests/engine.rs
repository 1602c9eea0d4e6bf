//! The table of a capture: it has the packets that `quic-wire capture --json` prints, wherever the pieces of the file
//! end, and the bytes of each.

mod common;

use common::{FOLDER, Recorded, captures, object, objects};
use quic_wire_page::bytes::{self, Choices, Of};
use quic_wire_page::engine::{Engine, Purpose};
use serde_json::Value;
use std::collections::{BTreeMap, BTreeSet};
use std::fs;

fn hex(text: &str) -> Vec<u8> {
    (0..text.len()).step_by(2).map(|at| u8::from_str_radix(&text[at..at + 2], 16).unwrap()).collect()
}

fn rows(engine: &Engine) -> Vec<Value> {
    objects(&engine.rows(0, engine.count()))
}

#[test]
fn rows_are_the_packets_that_are_printed() {
    for recorded in captures(FOLDER) {
        let (table, printed) = (recorded.read(Purpose::Table, 5000), recorded.read(Purpose::Objects, 1 << 20));
        let packets: Vec<_> = objects(&printed.lines()).into_iter().filter(|one| one.get("index").is_some()).collect();
        let rows = rows(&table);
        assert_eq!(rows.len(), packets.len(), "{}: how many packets", recorded.name);
        for (row, packet) in rows.iter().zip(&packets) {
            for name in ["index", "record", "time", "connection", "sender", "number", "again"] {
                assert_eq!(row.get(name), packet.get(name), "{}, {packet}: {name}", recorded.name);
            }
            let is_rest = packet["kind"] == "rest";
            let place = if is_rest { "rest_in_datagram" } else { "packet_in_datagram" };
            assert_eq!(row["packet_in_datagram"], packet[place], "{}, {packet}: its bytes", recorded.name);
            assert_eq!(row["type"], if is_rest { "rest".into() } else { packet["type"].clone() }, "{}", recorded.name);
            assert_eq!(row["opened"], packet.get("frames").is_some(), "{}, {packet}: opened", recorded.name);
        }
    }
}

#[test]
fn connections_are_those_that_are_printed() {
    let of_kind = |engine: &Engine| {
        let wanted = |line: &&str| !line.contains("\"kind\":\"packet\"") && !line.contains("\"index\":");
        engine.lines().lines().filter(wanted).map(str::to_owned).collect::<Vec<_>>()
    };
    for recorded in captures(FOLDER) {
        let (table, printed) = (recorded.read(Purpose::Table, 777), recorded.read(Purpose::Objects, 1 << 20));
        assert_eq!(of_kind(&table), of_kind(&printed), "{}", recorded.name);
        assert_eq!(table.check_lines(), printed.check_lines(), "{}", recorded.name);
    }
}

// A datagram and a connection at a time.
#[test]
fn steps_find_what_one_piece_has() {
    for recorded in captures(FOLDER) {
        let whole = recorded.read(Purpose::Table, 1 << 20);
        let mut engine = Engine::new(Purpose::Table);
        engine.add_keylog(&recorded.keys);
        for piece in recorded.file.chunks(5000) {
            engine.put(piece);
            while engine.step(1).unwrap() {}
        }
        while engine.finish_some(1) {}
        assert_eq!(engine.lines(), whole.lines(), "{}", recorded.name);
        assert_eq!(engine.check_lines(), whole.check_lines(), "{}", recorded.name);
        assert_eq!(engine.summary(), whole.summary(), "{}", recorded.name);
        assert_eq!(engine.rows(0, engine.count()), whole.rows(0, whole.count()), "{}", recorded.name);
    }
}

#[test]
fn lost_packets_are_those_that_are_counted() {
    for recorded in captures(FOLDER) {
        let table = recorded.read(Purpose::Table, 1 << 20);
        let rows = rows(&table);
        for connection in objects(&table.lines()).iter().filter(|one| one["kind"] == "connection") {
            for side in ["client", "server"] {
                let is_its = |row: &&Value| row["connection"] == connection["connection"] && row["sender"] == side;
                let lost = rows.iter().filter(is_its).filter(|row| row.get("lost").is_some());
                let late = lost.clone().filter(|row| row.get("acknowledged_after").is_some());
                let counts = (lost.count() as u64, late.count() as u64);
                let wanted = (&connection[side]["lost"], &connection[side]["lost_but_acknowledged"]);
                let wanted = (wanted.0.as_u64().unwrap(), wanted.1.as_u64().unwrap());
                assert_eq!(counts, wanted, "{}, connection {}, {side}", recorded.name, connection["connection"]);
            }
        }
    }
}

// The mask removes the header's protection, and the frames of the payload are those that are printed.
#[test]
fn packets_are_opened_again() {
    for recorded in captures(FOLDER) {
        let (table, printed) = (recorded.read(Purpose::Table, 1 << 20), recorded.read(Purpose::Objects, 1 << 20));
        let packets: Vec<_> = objects(&printed.lines()).into_iter().filter(|one| one.get("index").is_some()).collect();
        for (index, packet) in packets.iter().enumerate() {
            let detail = object(&table.detail(index).unwrap());
            let beside = detail["packets"].as_array().unwrap();
            let own = beside.iter().find(|one| one["index"] == packet["index"]).unwrap();
            let datagram = hex(detail["datagram"].as_str().unwrap());
            assert_eq!(datagram.len() as u64, packet["datagram_len"], "{}, {packet}", recorded.name);
            let Some(frames) = packet.get("frames") else { continue };
            opened(own, &datagram, packet);
            // Of a packet that was sent again no frames are printed.
            if packet.get("again").is_some() {
                continue;
            }
            let payload = hex(own["payload"].as_str().unwrap());
            let begins: Vec<_> = frames.as_array().unwrap().iter().map(|one| one["in_payload"][0].clone()).collect();
            let found = bytes::frames(&payload, Choices { rfc: true, ..Choices::default() });
            if found.2.is_none() && packet.get("invalid").is_none() {
                let found: Vec<Value> = found.0.iter().map(|(begin, _)| (*begin).into()).collect();
                assert_eq!(found, begins, "{}, {packet}: where its frames begin", recorded.name);
            }
        }
    }
}

fn opened(own: &Value, datagram: &[u8], packet: &Value) {
    let range = |name: &str| (own[name][0].as_u64().unwrap() as usize, own[name][1].as_u64().unwrap() as usize);
    let ((begin, end), (number_at, payload_at)) = (range("packet_in_datagram"), range("number_in_datagram"));
    let mask: [u8; 5] = hex(own["mask"].as_str().unwrap()).try_into().unwrap();
    let number = bytes::unprotect(&datagram[begin..end], number_at - begin, &mask);
    let [_, len, truncated] = number.unwrap_or_else(|| panic!("{packet}: no header"));
    let whole = packet["number"].as_u64().unwrap();
    assert_eq!(len as usize, payload_at - number_at, "{packet}: the bytes of its number");
    assert_eq!(truncated, whole & ((1 << (8 * len)) - 1), "{packet}: its number");
    assert_eq!(own["number_in_datagram"], packet["number_in_datagram"], "{packet}");
}

// vectors/captures/broken.json says where the broken rule is.
#[test]
fn findings_lead_to_their_packets() {
    let text = fs::read_to_string(format!("{FOLDER}/broken.json")).unwrap();
    let described = object(&text);
    let mut count = 0;
    for one in described["captures"].as_array().unwrap().iter().filter(|one| one["lawful"] == false) {
        let recorded = Recorded::of(format!("{FOLDER}/{}", one["file"].as_str().unwrap()).as_ref());
        let table = recorded.read(Purpose::Table, 1 << 20);
        let findings: Vec<_> =
            objects(table.check_lines()).into_iter().filter(|line| line["kind"] == "finding").collect();
        let found = findings.iter().position(|finding| finding["rule"] == one["rule"]);
        let Some(at) = found else { continue };
        let summary = object(&table.summary());
        let row = summary["finding_rows"][at]["row"].as_u64().unwrap_or_else(|| panic!("{one}: no packet"));
        let row = &objects(&table.rows(row as usize, row as usize + 1))[0];
        assert_eq!(row["record"], one["frame"], "{one}: the record");
        assert_eq!(row["sender"], one["sender"], "{one}: the sender");
        if one.get("number").is_some() && row.get("number").is_some() {
            assert_eq!(row["number"], one["number"], "{one}: the number");
        }
        let sections: Vec<_> = row["broken"].as_array().unwrap().iter().map(|one| one["section"].clone()).collect();
        let wanted: Value = format!("RFC {}, section {}", one["rfc"], one["section"].as_str().unwrap()).into();
        assert!(sections.contains(&wanted), "{one}: {sections:?}");
        count += 1;
    }
    assert!(count >= 60, "only {count} findings");
}

#[test]
fn a_packet_that_was_not_kept_is_in_the_table_of_its_record() {
    let recorded = Recorded::of(format!("{FOLDER}/../../rust/capture/tests/data/small.pcap").as_ref());
    let table = recorded.read(Purpose::Table, 1 << 20);
    for index in 0..table.count() {
        let wanted = object(&table.detail(index).unwrap());
        let again = recorded.read(Purpose::Record(wanted["record"].as_u64().unwrap()), 1 << 20);
        assert_eq!(object(&again.detail(index).unwrap()), wanted, "packet {index}");
        let other = table.count() - 1 - index;
        if object(&table.detail(other).unwrap())["record"] != wanted["record"] {
            assert!(object(&again.detail(other).unwrap()).get("datagram").is_none(), "packet {other} was kept");
        }
    }
}

#[test]
fn filters_list_what_they_say() {
    let recorded = Recorded::of(format!("{FOLDER}/../../rust/capture/tests/data/small.pcap").as_ref());
    let mut table = recorded.read(Purpose::Table, 1 << 20);
    let all = rows(&table);
    for side in ["client", "server"] {
        table.filter(side).unwrap();
        let wanted: Vec<_> = all.iter().filter(|row| row["sender"] == side).cloned().collect();
        assert_eq!(objects(&table.rows(0, table.shown())), wanted, "{side}");
        for (place, row) in wanted.iter().enumerate() {
            let index = row["index"].as_u64().unwrap() as usize;
            assert_eq!(table.position(index), Some(place), "where packet {index} is");
        }
    }
    assert_eq!(table.filter("pn:x").unwrap_err(), "\"pn:x\": \"x\" isn't a number or a range");
    assert_eq!(table.filter(&"-x ".repeat(65)).unwrap_err(), "65 words, and a filter has at most 64");
    assert_eq!(table.shown(), all.iter().filter(|row| row["sender"] == "server").count(), "the list stays");
    table.filter("").unwrap();
    assert_eq!(table.shown(), all.len());
    assert_eq!(table.rows(all.len(), all.len() + 9), "", "after the last one");
}

// The traces by connection, in their order.
fn traces(engine: &Engine) -> BTreeMap<u32, String> {
    let (pieces, mut traces) = (engine.traces(), BTreeMap::<u32, String>::new());
    let mut rest = &pieces[..];
    while let Some((numbers, after)) = rest.split_first_chunk::<8>() {
        let [connection, len] = [0, 4].map(|at| u32::from_le_bytes(numbers[at..at + 4].try_into().unwrap()));
        let (text, after) = after.split_at(len as usize);
        traces.entry(connection).or_default().push_str(std::str::from_utf8(text).unwrap());
        rest = after;
    }
    traces
}

// A trace has each packet that was opened and came once, and that of one connection is its part of all.
#[test]
fn traces_of_one_and_of_all() {
    for recorded in captures(FOLDER) {
        let name = || recorded.name.clone();
        let all = traces(&recorded.read(Purpose::Traces(name(), None), 1 << 16));
        let lines = objects(&recorded.read(Purpose::Objects, 1 << 20).lines());
        for (connection, trace) in &all {
            let (one, connection) = (*connection as usize, u64::from(*connection));
            let alone = traces(&recorded.read(Purpose::Traces(name(), Some(one)), 1 << 16));
            assert_eq!(alone.values().collect::<Vec<_>>(), [trace], "{}, {connection}", recorded.name);
            let records: Vec<_> = trace.split_terminator('\n').map(|one| object(&one[1..])).collect();
            assert_eq!(records[0]["trace"]["vantage_point"]["name"], recorded.name);
            let numbers: Vec<_> = records.iter().filter_map(|one| one["data"]["header"].get("packet_number")).collect();
            let is_its = |one: &&Value| one["connection"] == connection && one.get("again").is_none();
            let wanted: Vec<_> = lines.iter().filter(is_its).filter_map(|one| one.get("number")).collect();
            let lost = records.iter().filter(|one| one["name"] == "recovery:packet_lost").count();
            assert_eq!(numbers.len() - lost, wanted.len(), "{}, {connection}: packets", recorded.name);
        }
        assert!(!all.is_empty() || lines.iter().all(|one| one.get("number").is_none()), "{}", recorded.name);
    }
}

// The streams are those of the STREAM frames that are printed, byte by byte.
#[test]
fn streams_have_what_the_frames_have() {
    let mut count = 0;
    for recorded in captures(FOLDER) {
        let mut wanted: BTreeMap<(u64, u64, String), (BTreeSet<u64>, u64)> = BTreeMap::new();
        for packet in objects(&recorded.read(Purpose::Objects, 1 << 20).lines()) {
            let is_stream = |one: &&Value| one["frame"] == "STREAM" && one.get("forbidden").is_none();
            for frame in packet["frames"].as_array().into_iter().flatten().filter(is_stream) {
                let number = |name: &str| frame[name].as_u64().unwrap();
                let sender = packet["sender"].as_str().unwrap().to_string();
                let key = (packet["connection"].as_u64().unwrap(), number("id"), sender);
                let (bytes, sent) = wanted.entry(key).or_default();
                let (offset, len) = (number("offset"), number("len"));
                bytes.extend(offset..offset + len);
                *sent += len;
            }
        }
        let table = recorded.read(Purpose::Table, 1 << 20);
        for ((connection, stream, sender), (bytes, sent)) in wanted {
            let connection = connection as usize;
            let listed = objects(&table.streams(connection, 0, table.stream_count(connection)));
            let one = listed.iter().find(|one| one["stream"] == stream && one["sender"] == sender);
            let one = one.unwrap_or_else(|| panic!("{}: no stream {stream} of the {sender}", recorded.name));
            let found = (one["bytes"].as_u64().unwrap(), one["again"].as_u64().unwrap());
            let there = bytes.len() as u64;
            assert_eq!(found, (there, sent - there), "{}, stream {stream} of the {sender}", recorded.name);
            count += 1;
        }
    }
    assert!(count >= 100, "only {count} streams");
}

#[test]
fn points_are_the_opened_packets() {
    let recorded = Recorded::of(format!("{FOLDER}/../../rust/capture/tests/data/small.pcap").as_ref());
    let table = recorded.read(Purpose::Table, 1 << 20);
    let numbers: Vec<f64> =
        table.points(0).chunks_exact(8).map(|bytes| f64::from_le_bytes(bytes.try_into().unwrap())).collect();
    let opened: Vec<_> = rows(&table).into_iter().filter(|row| row["opened"] == true).collect();
    assert_eq!(numbers.len(), 6 * opened.len());
    for (point, row) in numbers.chunks_exact(6).zip(&opened) {
        assert_eq!(Value::from(point[1] as u64), row["number"], "{row}");
        assert_eq!(Value::from(point[5] as u64), row["index"], "{row}");
        assert_eq!(point[2] == 1.0, row["sender"] == "server", "{row}");
    }
    assert!(table.points(1).is_empty(), "another connection");
}

#[test]
fn what_is_no_capture_ends_in_words() {
    let mut engine = Engine::new(Purpose::Table);
    assert_eq!(engine.feed(b"no capture").unwrap_err(), "the file is neither pcap nor pcapng");
    engine.finish();
    assert_eq!((engine.count(), engine.detail(0)), (0, None));
    // A record of more bytes than any has, after a whole one.
    let mut file = Recorded::of(format!("{FOLDER}/../../rust/capture/tests/data/small.pcap").as_ref()).file;
    let len = 24 + 16 + u32::from_le_bytes(file[32..36].try_into().unwrap()) as usize;
    file.truncate(len);
    file.extend([0, 0, 0, 0, 0, 0, 0, 0, 0xff, 0xff, 0xff, 0xff, 0xff, 0xff, 0xff, 0xff]);
    let mut engine = Engine::new(Purpose::Table);
    let error = engine.feed(&file).unwrap_err();
    assert_eq!(error, "record 2 has 4294967295 bytes, and at most 262144 can be read");
    engine.finish();
    assert!(engine.count() > 0, "what came before it is there");
}

// RFC 9001, appendix A.2: the client's Initial packet; its fields.
#[test]
fn fields_of_a_packet() {
    let front = hex("c000000001088394c8f03e5157080000449e7b9aec34d1b1c98dd7689fb8ec11");
    let fields = bytes::fields(Of::Packet, &front, &[1], Choices::default());
    let numbers = bytes::numbers_of(&fields);
    let spans: Vec<_> = numbers[3..].chunks_exact(3).map(|one| (one[0], one[1], one[2])).collect();
    assert_eq!(spans[..4], [(0, 1, 0xc0), (1, 5, 1), (5, 14, 8), (14, 15, 0)], "the first byte, the version, the ids");
}
