//! What a peer can make an endpoint pay: instructions for hostile inputs of two sizes, of which the larger, twice the
//! smaller, may cost at most 2.2 times as much. No contract says what a call costs. valgrind counts; without it nothing
//! is counted, and each test is ignored.
//!
//! `costs --count WORK SIZE` does the work once, for valgrind.
use std::env;
use std::hint::black_box;
use std::process::{Command, ExitCode};

use quic_wire::canonical::canonical_of;
use quic_wire::coding::Codec;
use quic_wire::datagram::Packets;
use quic_wire::fields;
use quic_wire::frame::{Ack, Frame, Iter, Rules};
use quic_wire::range_set::{ArrayRangeSet, RangeSet};
use quic_wire::transport_parameters::{ReadOptions, TransportParameters};
use quic_wire::{Side, VarInt};

const SMALL: usize = 1_000;

/// The work, by the name of its test: it prepares an input of a size, and has what is then counted.
type Work = fn(usize) -> Box<dyn FnMut()>;

const WORKS: [(&str, Work); 12] = [
    ("small_frames", small_frames),
    ("frames_of_long_numbers", frames_of_long_numbers),
    ("error_behind_frames", error_behind_frames),
    ("ack_ranges", ack_ranges),
    ("ack_field_by_field", ack_field_by_field),
    ("unknown_parameters", unknown_parameters),
    ("payload_to_shorten", payload_to_shorten),
    ("padding_between_frames", padding_between_frames),
    ("coalesced_packets", coalesced_packets),
    ("set_of_every_other_number", set_of_every_other_number),
    ("set_that_slides", set_that_slides),
    ("ack_of_a_set", ack_of_a_set),
];

fn read_all(payload: &[u8]) -> usize {
    Iter::with_rules(payload, Rules::RFC).map_or(0, |frames| frames.take_while(Result::is_ok).count())
}

fn small_frames(size: usize) -> Box<dyn FnMut()> {
    let payload = vec![0x01; size];
    Box::new(move || assert_eq!(read_all(&payload), size))
}

// MAX_STREAM_DATA whose numbers have eight bytes each.
fn frames_of_long_numbers(size: usize) -> Box<dyn FnMut()> {
    let frame = [&[0x11][..], &[0xff; 8], &[0xff; 8]].concat();
    let payload = frame.repeat(size);
    Box::new(move || assert_eq!(read_all(&payload), size))
}

fn error_behind_frames(size: usize) -> Box<dyn FnMut()> {
    let mut payload = vec![0x01; size];
    payload.push(0x21);
    Box::new(move || assert!(canonical_of(&payload).is_err()))
}

fn varint(n: usize) -> Vec<u8> {
    let mut bytes = Vec::new();
    VarInt::from_u32(n as u32).encode(&mut bytes).unwrap();
    bytes
}

// An ACK of that many ranges of one number each.
fn ack(size: usize) -> Vec<u8> {
    let mut bytes = vec![0x02];
    bytes.extend(varint(2 * size));
    bytes.push(0);
    bytes.extend(varint(size - 1));
    bytes.push(0);
    bytes.extend([0, 0].repeat(size - 1));
    bytes
}

fn ack_ranges(size: usize) -> Box<dyn FnMut()> {
    let payload = ack(size);
    Box::new(move || {
        let Some(Ok(Frame::Ack(ack))) = Iter::new(&payload).unwrap().next() else { panic!("no ACK") };
        assert_eq!(ack.iter().count(), size);
    })
}

fn ack_field_by_field(size: usize) -> Box<dyn FnMut()> {
    let payload = ack(size);
    Box::new(move || assert_eq!(fields::of_frame(&payload, Rules::RFC).end(), payload.len()))
}

// Unknown parameters with no value, each with an id of its own.
fn unknown_parameters(size: usize) -> Box<dyn FnMut()> {
    let mut list = Vec::new();
    for id in 0..size {
        list.extend(varint(0x1_0000 + id));
        list.push(0);
    }
    Box::new(move || {
        black_box(TransportParameters::read_list(Side::Client, ReadOptions::RFC, &list).is_ok());
    })
}

// STREAM frames that have an offset of 0 in eight bytes.
fn payload_to_shorten(size: usize) -> Box<dyn FnMut()> {
    let frame = [&[0x0e, 0x04, 0xc0, 0, 0, 0, 0, 0, 0, 0, 0x01][..], b"x"].concat();
    let payload = frame.repeat(size);
    Box::new(move || assert!(canonical_of(&payload).unwrap().bytes().len() < payload.len()))
}

fn padding_between_frames(size: usize) -> Box<dyn FnMut()> {
    let payload = [0x00, 0x01].repeat(size);
    Box::new(move || assert!(canonical_of(&payload).is_ok()))
}

// Handshake packets with empty ids and nothing behind the header but a number and no payload.
fn coalesced_packets(size: usize) -> Box<dyn FnMut()> {
    let packet = [&[0xe0, 0, 0, 0, 1, 0, 0, 21][..], &[0; 21]].concat();
    let datagram = packet.repeat(size);
    Box::new(move || assert_eq!(Packets::new(&datagram, 0, &[1], false).filter(Result::is_ok).count(), size))
}

fn set_of_every_other_number(size: usize) -> Box<dyn FnMut()> {
    Box::new(move || {
        let mut set = RangeSet::new();
        for n in 0..size as u64 {
            assert!(set.insert_one(2 * n));
        }
        black_box(&set);
    })
}

// Numbers with gaps come in, and the least ones go once there are many. An `ArrayRangeSet` would move all others then.
fn set_that_slides(size: usize) -> Box<dyn FnMut()> {
    Box::new(move || {
        let mut set = RangeSet::new();
        for n in 0..size as u64 {
            assert!(set.insert_one(2 * n));
            if n >= size as u64 / 2 {
                black_box(set.pop_min());
            }
        }
    })
}

fn ack_of_a_set(size: usize) -> Box<dyn FnMut()> {
    let mut set = ArrayRangeSet::new();
    (0..size as u64).for_each(|n| assert!(set.insert_one(2 * n)));
    let mut bytes = Vec::with_capacity(4 * size + 100);
    Box::new(move || {
        bytes.clear();
        Ack::encode(0, &set, None, &mut bytes).unwrap();
    })
}

/// What valgrind counts, by its name.
#[inline(never)]
fn counted_work(work: &mut dyn FnMut()) {
    work();
}

// How many instructions the work takes; `None` without valgrind.
fn count(name: &str, size: usize) -> Option<u64> {
    let ran = Command::new("valgrind")
        .args(["--tool=callgrind", "--callgrind-out-file=/dev/null", "--toggle-collect=*counted_work*"])
        .arg(env::current_exe().unwrap())
        .args(["--count", name, &size.to_string()])
        .output()
        .ok()?;
    let said = String::from_utf8_lossy(&ran.stderr);
    assert!(ran.status.success(), "{name} of {size}: {said}");
    let line = said.lines().find(|line| line.contains("Collected :")).expect("a count");
    Some(line.rsplit(' ').next().unwrap().parse().unwrap())
}

// Says what became of a test, as the test harness does. Whether it passed; `None` if it is ignored.
fn test(name: &str) -> Option<bool> {
    let (Some(small), Some(large)) = (count(name, SMALL), count(name, 2 * SMALL)) else {
        println!("test {name} ... ignored, without valgrind");
        return None;
    };
    let passed = 10 * large <= 22 * small;
    let what = if passed { "ok" } else { "FAILED" };
    println!("test {name} ... {what}: {small} instructions, twice the size {large}");
    Some(passed)
}

fn main() -> ExitCode {
    let args: Vec<String> = env::args().collect();
    if let ["--count", name, size] = args.iter().skip(1).map(String::as_str).collect::<Vec<_>>()[..] {
        let (_, work) = WORKS.iter().find(|(known, _)| *known == name).expect("a work's name");
        counted_work(&mut work(size.parse().expect("a size")));
        return ExitCode::SUCCESS;
    }
    let answers: Vec<_> = WORKS.iter().map(|(name, _)| test(name)).collect();
    let of = |answer| answers.iter().filter(|found| **found == answer).count();
    let (passed, failed, ignored) = (of(Some(true)), of(Some(false)), of(None));
    let what = if failed == 0 { "ok" } else { "FAILED" };
    println!("test result: {what}. {passed} passed; {failed} failed; {ignored} ignored");
    ExitCode::from(u8::from(failed != 0))
}
