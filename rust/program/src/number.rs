//! Varints (RFC 9000, section 16), and truncated packet numbers (section 17.1).
use crate::args::Reading;
use crate::output::{Output, Value};
use Value::Number;
use quic_wire::packet::PacketNumber;
use quic_wire::varint;
use std::io::{self, Write};

/// Prints the varints in the bytes, or the packet number that ends with them, given the largest received one.
pub fn show(bytes: &[u8], largest: Option<u64>, reading: Reading, output: &mut Output<impl Write>) -> io::Result<()> {
    match largest {
        Some(largest) => show_packet_number(bytes, largest, reading, output),
        None => show_numbers(bytes, output),
    }
}

fn show_numbers(bytes: &[u8], output: &mut Output<impl Write>) -> io::Result<()> {
    let mut at = 0;
    while at < bytes.len() {
        let Some((number, len)) = varint::read(&bytes[at..]) else {
            let section = [("section", Value::sentence("RFC 9000, section 16"))];
            return output.error("unexpected end in a varint", Some(at), &section);
        };
        let shortest = varint::len(number).unwrap_or(len);
        let fields = [("value", Number(number)), ("shortest_len", Number(shortest as u64))];
        output.item(at..at + len, ("kind", "NUMBER"), &fields, &[])?;
        at += len;
    }
    Ok(())
}

fn show_packet_number(bytes: &[u8], largest: u64, reading: Reading, output: &mut Output<impl Write>) -> io::Result<()> {
    let number = match *bytes {
        [_] | [_, _] | [_, _, _] | [_, _, _, _] => PacketNumber::decode(bytes.len(), &mut &bytes[..]).ok(),
        _ => None,
    };
    match number.filter(|_| largest < varint::MAX) {
        Some(number) => {
            let written = bytes.iter().fold(0, |sum, byte| (sum << 8) | u64::from(*byte));
            let value = match number.expand(largest + 1) {
                // RFC 9000, appendix A.3, adds no window that leads beyond the greatest number.
                past if past > varint::MAX && reading == Reading::Rfc => past - (1 << (8 * bytes.len())),
                value => value,
            };
            let fields = [("value", Number(value)), ("written", Number(written))];
            output.item(0..bytes.len(), ("kind", "PACKET_NUMBER"), &fields, &[])
        }
        None => {
            let section = [("section", Value::sentence("RFC 9000, section 17.1"))];
            output.error("a packet number has 1 to 4 bytes", Some(0), &section)
        }
    }
}
