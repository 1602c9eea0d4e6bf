//! Writes a capture of many connections to standard output, as pcapng with their secrets: so many are live at any time,
//! of which each closes after some packets and makes room for another, until the file has so many bytes.
//!
//! `generate CONNECTIONS BYTES [PACKETS_OF_EACH [DATA]]`
//!
//! Client and server send PINGs in turn; with DATA the server sends two packets with so many bytes of a stream, up to
//! 16,383, and the client an ACK.
#[path = "../tests/common/mod.rs"]
mod common;
#[path = "../tests/common/files.rs"]
mod files;
#[path = "../tests/common/made.rs"]
mod made;

use common::Kept;
use files::{Order, interface, ip_datagram, packet, secrets, section};
use made::{Client, Made, Server, Short};
use quic_wire::Side;
use std::error::Error;
use std::io::{self, BufWriter, Write};

/// How long after a packet the next one is sent, in nanoseconds.
const STEP: u64 = 100_000;

/// An integer of eight bytes (RFC 9000, section 16), and the greatest limit of data.
const EIGHT_BYTES: u64 = 0xc000_0000_0000_0000;
const MOST: u64 = u64::MAX;

struct File<W: Write> {
    out: W,
    time: u64,
    written: u64,
}

impl<W: Write> File<W> {
    fn block(&mut self, block: &[u8]) -> io::Result<()> {
        self.written += block.len() as u64;
        self.out.write_all(block)
    }

    // A datagram of IPv4.
    fn datagram(&mut self, kept: &Kept) -> io::Result<()> {
        self.time += STEP;
        let frame = ip_datagram(kept.from, kept.to, &kept.bytes);
        self.block(&packet(Order::Little, 0, self.time / 1000, &frame))
    }

    // The client's PING and the server's ACK of it.
    fn pings(&mut self, made: &mut Made) -> io::Result<()> {
        let largest = made.numbers[0][2] as u16 | 0x4000;
        let ping = made.send(Client, Short, &[1; 40]);
        let ack = [&[2][..], &largest.to_be_bytes(), &[0, 0, 0], &[1; 40]].concat();
        let answer = made.send(Server, Short, &ack);
        self.datagram(&ping)?;
        self.datagram(&answer)
    }

    // Two packets of a download and their ACK. Before them each side permits what the other does: a stream, and all data
    // (RFC 9000, sections 19.9 to 19.11).
    fn download(&mut self, made: &mut Made, len: u16) -> io::Result<()> {
        if made.numbers[1][2] == 0 {
            let permit = [&[0x12, 1, 0x10][..], &MOST.to_be_bytes()].concat();
            let request = [&[0x0a, 0, 0, 0x10][..], &MOST.to_be_bytes(), &[0x11, 0], &MOST.to_be_bytes()].concat();
            let (permit, request) = (made.send(Server, Short, &permit), made.send(Client, Short, &request));
            self.datagram(&permit)?;
            self.datagram(&request)?;
        }
        for _ in 0..2 {
            let offset = (made.numbers[1][2] * u64::from(len)) | EIGHT_BYTES;
            let stream = [&[0x0e, 0][..], &offset.to_be_bytes(), &(len | 0x4000).to_be_bytes(), &vec![7; len.into()]];
            let payload = [ack_of_all(made, Client), stream.concat()].concat();
            let packet = made.send(Server, Short, &payload);
            self.datagram(&packet)?;
        }
        let payload = ack_of_all(made, Server);
        let ack = made.send(Client, Short, &payload);
        self.datagram(&ack)
    }

    fn begin(&mut self, number: u32) -> io::Result<Made> {
        let id = |kind: u8| [&[kind][..], &number.to_be_bytes(), &[kind; 3]].concat();
        let mut made = Made { salt: number, ids: [id(1), id(2)], ..Made::new(7) };
        (made.original_id, made.initial_id, made.first_dcid) = (id(3), id(3), Some(id(3)));
        let [_, a, b, c] = number.to_be_bytes();
        made.addresses[0] = ([10, a, b, c], 4433).into();
        self.block(&secrets(Order::Little, made.key_log().as_bytes()))?;
        made.handshake().iter().try_for_each(|kept| self.datagram(kept))?;
        Ok(made)
    }
}

// An ACK of all 1-RTT packets of a side.
fn ack_of_all(made: &Made, sender: Side) -> Vec<u8> {
    let largest = (made.numbers[sender as usize][2] as u32 - 1) | 0x8000_0000;
    [&[2][..], &largest.to_be_bytes(), &[0, 0], &largest.to_be_bytes()].concat()
}

fn main() -> Result<(), Box<dyn Error>> {
    let numbers: Vec<u64> = std::env::args().skip(1).map(|text| text.parse()).collect::<Result<_, _>>()?;
    let (&[count, bytes, ref more @ ..], [] | [_] | [_, 1..=16_383]) =
        (&numbers[..], numbers.get(2..).unwrap_or_default())
    else {
        return Err("generate CONNECTIONS BYTES [PACKETS_OF_EACH [DATA]]".into());
    };
    let (packets, data) = (more.first().copied().unwrap_or(100), more.get(1).map(|data| *data as u16));
    let mut file = File { out: BufWriter::new(io::stdout().lock()), time: 1_000_000_000, written: 0 };
    file.block(&[section(Order::Little), interface(Order::Little, 101, &[])].concat())?;
    let mut begun = u32::try_from(count)?;
    let mut live: Vec<Made> = (0..begun).map(|number| file.begin(number)).collect::<Result<_, _>>()?;
    // They don't all close at the same time.
    let mut left: Vec<u64> = (0..count).map(|number| 1 + number * packets / count).collect();
    while file.written < bytes {
        for (made, left) in live.iter_mut().zip(&mut left) {
            if *left == 0 {
                let close = made.send(Client, Short, &[0x1d, 0, 0]);
                file.datagram(&close)?;
                *made = file.begin(begun)?;
                (begun, *left) = (begun + 1, packets);
            }
            match data {
                Some(len) => file.download(made, len)?,
                None => file.pings(made)?,
            }
            *left -= 1;
        }
    }
    file.out.flush()?;
    eprintln!("{begun} connections, {} bytes", file.written);
    Ok(())
}
