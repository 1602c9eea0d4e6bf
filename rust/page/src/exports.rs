//! The functions of the module for WebAssembly. There is one capture and one text of bytes at a time, in one thread.
//!
//! A caller asks [`input`] where to put bytes, puts them there, and calls a function that takes them. What a function
//! returns beyond a number is at [`output`]: text in UTF-8, or numbers of 8 bytes, the lowest byte first. Words about
//! an error are at [`words`].

use crate::bytes::{self, Choices, Ending, Of};
use crate::engine::{Engine, Purpose};
use crate::packed::Inflater;
use quic_wire::Side;
use quic_wire_capture::tls::Hello;
use std::cell::RefCell;
use std::collections::BTreeMap;

// Why no capture is there.
const NONE: &str = "no capture was begun";

#[derive(Default)]
struct State {
    input: Vec<u8>,
    output: Vec<u8>,
    words: String,
    engine: Option<Engine>,
    inflater: Inflater,
    // Bytes by the numbers with which they are chosen.
    held: BTreeMap<u32, Vec<u8>>,
    chosen: u32,
    versions: Vec<u32>,
}

thread_local!(static STATE: RefCell<State> = RefCell::default());

fn with<T>(act: impl FnOnce(&mut State) -> T) -> T {
    STATE.with_borrow_mut(act)
}

// Acts on the capture, if there is one.
fn with_engine<T: Default>(act: impl FnOnce(&mut Engine, &[u8], &mut Vec<u8>, &mut String) -> T) -> T {
    with(|State { input, output, words, engine, .. }| match engine {
        Some(engine) => act(engine, input, output, words),
        None => {
            *words = NONE.into();
            T::default()
        }
    })
}

fn put(output: &mut Vec<u8>, numbers: impl IntoIterator<Item = u64>) {
    output.clear();
    numbers.into_iter().for_each(|number| output.extend_from_slice(&number.to_le_bytes()));
}

/// Where `len` bytes of input are to be put. They are zeros before.
#[unsafe(no_mangle)]
pub extern "C" fn input(len: usize) -> *mut u8 {
    with(|state| {
        state.input.clear();
        state.input.resize(len, 0);
        state.input.as_mut_ptr()
    })
}

/// Where the output is.
#[unsafe(no_mangle)]
pub extern "C" fn output() -> *const u8 {
    with(|state| state.output.as_ptr())
}

/// How many bytes it has.
#[unsafe(no_mangle)]
pub extern "C" fn output_len() -> usize {
    with(|state| state.output.len())
}

/// Where the words about an error are.
#[unsafe(no_mangle)]
pub extern "C" fn words() -> *const u8 {
    with(|state| state.words.as_ptr())
}

/// How many bytes they have.
#[unsafe(no_mangle)]
pub extern "C" fn words_len() -> usize {
    with(|state| state.words.len())
}

// ---- captures

/// Begins a capture: for a table of its packets (0), for the bytes of the packets of one record (1), for the objects of
/// its packets (2), for the traces of all connections (3), or for that of one connection (4). In traces the capture has
/// the name in the input.
#[unsafe(no_mangle)]
pub extern "C" fn capture_begin(purpose: u32, number: u32) {
    with(|state| {
        let name = || String::from_utf8_lossy(&state.input).into_owned();
        let purpose = match purpose {
            0 => Purpose::Table,
            1 => Purpose::Record(number.into()),
            2 => Purpose::Objects,
            3 => Purpose::Traces(name(), None),
            _ => Purpose::Traces(name(), Some(number as usize)),
        };
        // What the last one had is freed before.
        state.engine = None;
        state.engine = Some(Engine::new(purpose));
        state.inflater = Inflater::default();
    });
}

/// Takes the input as lines of a key log.
#[unsafe(no_mangle)]
pub extern "C" fn capture_add_keylog() {
    with_engine(|engine, input, _, _| engine.add_keylog(input));
}

/// Takes the input as the next bytes of the file. Returns 1, or 0 and words if it can't be read on.
#[unsafe(no_mangle)]
pub extern "C" fn capture_feed() -> u32 {
    with_engine(|engine, input, _, words| match engine.feed(input) {
        Ok(()) => 1,
        Err(what) => {
            *words = what;
            0
        }
    })
}

/// Takes the input as the next bytes of the file, whose datagrams [`capture_step`] takes.
#[unsafe(no_mangle)]
pub extern "C" fn capture_put() {
    with_engine(|engine, input, _, _| engine.put(input));
}

/// Takes the input as the next bytes of a file that gzip compressed, as [`capture_put`] does. Returns 1, or 0 if not all
/// of them can be read: then the capture ends with those before.
#[unsafe(no_mangle)]
pub extern "C" fn capture_put_packed() -> u32 {
    with(|State { input, inflater, engine, .. }| {
        let (bytes, is_read) = inflater.take(input);
        if let Some(engine) = engine {
            engine.put(&bytes);
        }
        is_read.into()
    })
}

/// Ends a file that gzip compressed. Returns 1, or 0 if it is cut off.
#[unsafe(no_mangle)]
pub extern "C" fn capture_end_packed() -> u32 {
    with(|State { inflater, .. }| inflater.finish().into())
}

/// Takes so many of the datagrams that are whole, or all if there are fewer. Returns 2 if there may be more, 1 if there
/// are none, or 0 and words if the file can't be read on.
#[unsafe(no_mangle)]
pub extern "C" fn capture_step(most: u32) -> u32 {
    with_engine(|engine, _, _, words| match engine.step(most as usize) {
        Ok(has_more) => 1 + u32::from(has_more),
        Err(what) => {
            *words = what;
            0
        }
    })
}

/// Ends the capture.
#[unsafe(no_mangle)]
pub extern "C" fn capture_finish() {
    with_engine(|engine, _, _, _| engine.finish());
}

/// Ends the capture for so many connections. Returns 1 if there are more, or 0: then the capture has ended.
#[unsafe(no_mangle)]
pub extern "C" fn capture_finish_some(most: u32) -> u32 {
    with_engine(|engine, _, _, _| engine.finish_some(most as usize).into())
}

/// How many packets have a row.
#[unsafe(no_mangle)]
pub extern "C" fn capture_count() -> usize {
    with_engine(|engine, _, _, _| engine.count())
}

/// The lines that were written since the last call, an object of JSON each.
#[unsafe(no_mangle)]
pub extern "C" fn capture_lines() {
    with_engine(|engine, _, output, _| *output = engine.lines().into_bytes());
}

/// The pieces of traces that were written since the last call: of each the connection and how many bytes it has, as
/// numbers of 4 bytes, the lowest byte first, and then its bytes.
#[unsafe(no_mangle)]
pub extern "C" fn capture_traces() {
    with_engine(|engine, _, output, _| *output = engine.traces());
}

/// The lines about broken rules, an object of JSON each.
#[unsafe(no_mangle)]
pub extern "C" fn capture_check_lines() {
    with_engine(|engine, _, output, _| *output = engine.check_lines().as_bytes().to_vec());
}

/// An object of JSON about the capture as a whole.
#[unsafe(no_mangle)]
pub extern "C" fn capture_summary() {
    with_engine(|engine, _, output, _| *output = engine.summary().into_bytes());
}

/// The transport parameters of a side (0 the client, 1 the server) of a connection, an object of JSON. Returns 1, or 0
/// if they weren't read.
#[unsafe(no_mangle)]
pub extern "C" fn capture_parameters(connection: u32, side: u32) -> u32 {
    let side = if side == 0 { Side::Client } else { Side::Server };
    with_engine(|engine, _, output, _| match engine.parameters(connection as usize, side) {
        Some(text) => {
            *output = text.into_bytes();
            1
        }
        None => 0,
    })
}

/// How many streams a connection has; each side that sends on one counts.
#[unsafe(no_mangle)]
pub extern "C" fn capture_stream_count(connection: u32) -> usize {
    with_engine(|engine, _, _, _| engine.stream_count(connection as usize))
}

/// The streams of a connection between two positions of their list, an object of JSON each, a line each.
#[unsafe(no_mangle)]
pub extern "C" fn capture_streams(connection: u32, from: u32, to: u32) {
    with_engine(|engine, _, output, _| {
        *output = engine.streams(connection as usize, from as usize, to as usize).into_bytes();
    });
}

/// Takes the input as a filter. Returns 1, and what it lets through as text, or 0 and words.
#[unsafe(no_mangle)]
pub extern "C" fn capture_filter() -> u32 {
    with_engine(|engine, input, output, words| match engine.filter(&String::from_utf8_lossy(input)) {
        Ok(text) => {
            *output = text.into_bytes();
            1
        }
        Err(what) => {
            *words = what;
            0
        }
    })
}

/// How many packets the filter lets through.
#[unsafe(no_mangle)]
pub extern "C" fn capture_shown() -> usize {
    with_engine(|engine, _, _, _| engine.shown())
}

/// Where a packet is in the list, from 0 on, or -1.
#[unsafe(no_mangle)]
pub extern "C" fn capture_position(index: u32) -> i32 {
    let place = with_engine(|engine, _, _, _| engine.position(index as usize));
    place.and_then(|place| i32::try_from(place).ok()).unwrap_or(-1)
}

/// The packets between two positions of the list, an object of JSON each, a line each.
#[unsafe(no_mangle)]
pub extern "C" fn capture_rows(from: u32, to: u32) {
    with_engine(|engine, _, output, _| *output = engine.rows(from as usize, to as usize).into_bytes());
}

/// A packet with its datagram, an object of JSON. Returns 1, or 0 if there is none.
#[unsafe(no_mangle)]
pub extern "C" fn capture_detail(index: u32) -> u32 {
    with_engine(|engine, _, output, _| match engine.detail(index as usize) {
        Some(text) => {
            *output = text.into_bytes();
            1
        }
        None => 0,
    })
}

/// The points of a connection's picture, as numbers in IEEE 754.
#[unsafe(no_mangle)]
pub extern "C" fn capture_points(connection: u32) {
    with_engine(|engine, _, output, _| *output = engine.points(connection as usize));
}

// ---- bytes

// How bytes are read: 1 as RFC 9000, 2 types in their shortest encoding, 4 the fixed bit may be clear; and 256 times
// the length of ids.
fn choices(flags: u32) -> Choices {
    let has = |bit| flags & bit != 0;
    Choices { rfc: has(1), short_types: has(2), grease: has(4), id_len: (flags >> 8) as usize }
}

/// Chooses by a number which bytes the functions below hold and read, 0 at first. All that are held stay.
#[unsafe(no_mangle)]
pub extern "C" fn bytes_choose(number: u32) {
    with(|state| state.chosen = number);
}

/// Takes the input as the bytes that the functions below read.
#[unsafe(no_mangle)]
pub extern "C" fn bytes_hold() {
    with(|state| _ = state.held.insert(state.chosen, std::mem::take(&mut state.input)));
}

/// Takes the input as the versions whose long headers are read, of 4 bytes each, the lowest byte first.
#[unsafe(no_mangle)]
pub extern "C" fn bytes_versions() {
    with(|state| {
        let versions = state.input.chunks_exact(4).filter_map(|one| one.first_chunk());
        state.versions = versions.map(|bytes| u32::from_le_bytes(*bytes)).collect();
    });
}

// Acts on the held bytes from an offset on, up to a limit.
fn with_held<T>(offset: u32, limit: u32, act: impl FnOnce(&[u8], &[u32], &mut Vec<u8>, &mut String) -> T) -> T {
    with(|State { held, chosen, versions, output, words, .. }| {
        words.clear();
        let held = held.get(chosen).map(Vec::as_slice).unwrap_or_default();
        let limit = held.len().min(limit as usize);
        act(held.get(offset as usize..limit).unwrap_or_default(), versions, output, words)
    })
}

/// The frames, in numbers of 4 bytes: where reading ended; 1 if the type at which it failed is known, and the lower and
/// the upper half of that type; and of each frame where it begins and its type, which is below 2^16. The words say why
/// reading failed and, in a second line, what RFC 9000 forbids if quinn-proto accepts it.
#[unsafe(no_mangle)]
pub extern "C" fn bytes_frames(flags: u32) {
    with_held(0, u32::MAX, |held, _, output, words| {
        let (frames, end, ending) = bytes::frames(held, choices(flags));
        *words = ending.map_or(String::new(), Ending::words);
        let ty = ending.and_then(|ending| ending.ty);
        output.reserve(8 * frames.len() + 16);
        // Two numbers of 4 bytes are one of 8.
        let pair = |one: usize, two: u64| one as u64 & u64::from(u32::MAX) | two << 32;
        let head = [pair(end, ty.is_some().into()), ty.unwrap_or_default()];
        put(output, head.into_iter().chain(frames.into_iter().map(|(begin, ty)| pair(begin, ty))));
    });
}

/// The numbers of the frame at an offset. Returns how many there are.
#[unsafe(no_mangle)]
pub extern "C" fn bytes_frame(offset: u32) -> usize {
    with_held(offset, u32::MAX, |held, _, output, _| {
        put(output, bytes::frame(held).into_iter().flatten());
        output.len() / 8
    })
}

/// The ranges of the ACK at an offset.
#[unsafe(no_mangle)]
pub extern "C" fn bytes_ranges(offset: u32) {
    with_held(offset, u32::MAX, |held, _, output, _| {
        put(output, bytes::ranges(held).into_iter().flat_map(|(least, greatest)| [least, greatest]));
    });
}

/// The shortest payload with the same frames. Returns 1, or 0, and words and the type as of [`bytes_frames`].
#[unsafe(no_mangle)]
pub extern "C" fn bytes_shortest(flags: u32) -> u32 {
    with_held(0, u32::MAX, |held, _, output, words| match bytes::shortest(held, choices(flags)) {
        Ok(shortest) => {
            *output = shortest;
            1
        }
        Err(ending) => {
            *words = ending.words();
            put(output, [ending.ty.is_some().into(), ending.ty.unwrap_or_default()]);
            0
        }
    })
}

/// The transport parameters in the CRYPTO frames of the payloads, one after the other. Returns whose they are: 0 the
/// client's, 1 the server's; 2 if the first message has none, 3 if it isn't whole.
#[unsafe(no_mangle)]
pub extern "C" fn bytes_hello() -> u32 {
    with_held(0, u32::MAX, |held, _, output, _| match Hello::read(held) {
        Hello::Parameters(side, list) => {
            *output = list;
            side as u32
        }
        Hello::Nothing => 2,
        Hello::Partial => 3,
    })
}

/// The variable-length integer at an offset: it, where it ends, and how many bytes its shortest encoding has.
#[unsafe(no_mangle)]
pub extern "C" fn bytes_integer(offset: u32) {
    with_held(offset, u32::MAX, |held, _, output, _| put(output, bytes::integer(held).into_iter().flatten()));
}

/// The header of the packet at an offset, in numbers; the words say why it is rejected.
#[unsafe(no_mangle)]
pub extern "C" fn bytes_header(offset: u32, flags: u32) {
    with_held(offset, u32::MAX, |held, versions, output, words| {
        let (header, why) = bytes::header(held, versions, choices(flags));
        *words = why.unwrap_or_default().into();
        put(output, header.numbers());
    });
}

/// Removes the protection of the header of a packet between two offsets, whose number begins at an offset in it, with
/// the first 5 bytes of the input. Returns how many numbers there are: none if the packet is too short.
#[unsafe(no_mangle)]
pub extern "C" fn bytes_unprotect(begin: u32, end: u32, number_at: u32) -> usize {
    with(|State { held, chosen, input, output, .. }| {
        let held = held.get(chosen).map(Vec::as_slice).unwrap_or_default();
        let packet = held.get(begin as usize..end as usize).unwrap_or_default();
        let mask = input.first_chunk();
        put(output, mask.and_then(|mask| bytes::unprotect(packet, number_at as usize, mask)).into_iter().flatten());
        output.len() / 8
    })
}

/// The fields of the frame (0), the packet (1) or the entry (2) at an offset, or of the value (3) of the parameter with
/// an id, up to a limit. The words say why a field can't be read.
#[unsafe(no_mangle)]
pub extern "C" fn bytes_fields(of: u32, offset: u32, limit: u32, flags: u32, id: u64) {
    let of = match of {
        0 => Of::Frame,
        1 => Of::Packet,
        2 => Of::Entry,
        _ => Of::Value(id),
    };
    with_held(offset, limit, |held, versions, output, words| {
        let fields = bytes::fields(of, held, versions, choices(flags));
        *words = fields.fault().map_or(String::new(), |fault| fault.reason.into());
        put(output, bytes::numbers_of(&fields));
    });
}

/// Whether a client (0) or a server (1) accepts the list of transport parameters: 1, or 0, words why not, and the
/// offset of the entry that is rejected.
#[unsafe(no_mangle)]
pub extern "C" fn bytes_parameters(side: u32, flags: u32) -> u32 {
    let side = if side == 0 { Side::Client } else { Side::Server };
    with_held(0, u32::MAX, |held, _, output, words| match bytes::parameters(held, side, choices(flags)) {
        None => 1,
        Some((why, offset)) => {
            *words = why.into();
            put(output, [offset as u64]);
            0
        }
    })
}
