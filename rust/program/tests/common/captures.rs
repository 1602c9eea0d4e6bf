//! Captures for the program: of packets that were made, of the RFC's examples, and of a real connection.
#![allow(dead_code, reason = "each test uses a part")]

#[path = "../../../capture/tests/common/files.rs"]
mod files;

use crate::common::Kept;
use files::{Order, interface, ip_datagram, packet, secrets};
use std::fs;
use std::net::SocketAddr;
use std::path::PathBuf;

/// A capture of ngtcp2's client and server, and its key log.
pub const SMALL: &str = concat!(env!("CARGO_MANIFEST_DIR"), "/../capture/tests/data/small.pcap");
pub const SMALL_KEYS: &str = concat!(env!("CARGO_MANIFEST_DIR"), "/../capture/tests/data/small.keys");

/// Addresses of a client and a server.
pub const CLIENT: ([u8; 4], u16) = ([10, 0, 0, 1], 4433);
pub const SERVER: ([u8; 4], u16) = ([10, 0, 0, 2], 443);

/// A folder that is removed at the end.
pub struct Folder(PathBuf);

impl Folder {
    pub fn new(name: &str) -> Folder {
        let path = std::env::temp_dir().join(format!("quic-wire-{name}-{}", std::process::id()));
        fs::create_dir_all(&path).unwrap();
        Folder(path)
    }

    /// The path of a file.
    pub fn path(&self, name: &str) -> String {
        self.0.join(name).to_str().unwrap().into()
    }

    /// Writes a file, and returns its path.
    pub fn write(&self, name: &str, bytes: impl AsRef<[u8]>) -> String {
        let path = self.path(name);
        fs::write(&path, bytes).unwrap();
        path
    }
}

impl Drop for Folder {
    fn drop(&mut self) {
        let _ = fs::remove_dir_all(&self.0);
    }
}

/// A datagram, a millisecond after another.
pub fn kept(is_clients: bool, millis: u64, bytes: &[u8]) -> Kept {
    let (client, server): (SocketAddr, SocketAddr) = (CLIENT.into(), SERVER.into());
    let (from, to) = if is_clients { (client, server) } else { (server, client) };
    Kept { record: 0, time: 1_700_000_000_000_000_000 + millis * 1_000_000, from, to, bytes: bytes.to_vec() }
}

fn ip_packet(kept: &Kept) -> Vec<u8> {
    ip_datagram(kept.from, kept.to, &kept.bytes)
}

/// A pcap file with nanoseconds. Of each record only so many bytes are captured.
pub fn pcap_of(kept: &[Kept], most: usize) -> Vec<u8> {
    let mut file: Vec<u8> = [0xa1b2_3c4d_u32, 0x0004_0002, 0, 0, 262_144, 101].map(u32::to_le_bytes).concat();
    for one in kept {
        let packet = ip_packet(one);
        let captured = packet.len().min(most);
        let (seconds, nanos) = (one.time / 1_000_000_000, one.time % 1_000_000_000);
        file.extend(
            [seconds as u32, nanos as u32, captured as u32, packet.len() as u32].map(u32::to_le_bytes).concat(),
        );
        file.extend(&packet[..captured]);
    }
    file
}

pub fn pcap(kept: &[Kept]) -> Vec<u8> {
    pcap_of(kept, usize::MAX)
}

/// The block that begins a pcapng file.
pub fn section() -> Vec<u8> {
    files::section(Order::Big)
}

/// A block of such a file.
pub fn block(kind: u32, body: &[u8]) -> Vec<u8> {
    files::block(Order::Big, kind, body)
}

/// A pcapng file of the same records, with secrets before them.
pub fn pcapng(kept: &[Kept], key_log: &[u8]) -> Vec<u8> {
    let (order, nanos) = (Order::Big, (9, &[9][..]));
    let mut file = [section(), interface(order, 101, &[nanos]), secrets(order, key_log)].concat();
    kept.iter().for_each(|one| file.extend(packet(order, 0, one.time, &ip_packet(one))));
    file
}

/// A file in a block that isn't compressed (RFC 1952, RFC 1951), of at most 65,535 bytes.
pub fn gzip(bytes: &[u8]) -> Vec<u8> {
    let mut crc = u32::MAX;
    for byte in bytes {
        crc ^= u32::from(*byte);
        (0..8).for_each(|_| crc = crc >> 1 ^ if crc & 1 == 1 { 0xedb8_8320 } else { 0 });
    }
    let len = u16::try_from(bytes.len()).unwrap();
    let block = [&[1][..], &len.to_le_bytes(), &(!len).to_le_bytes(), bytes].concat();
    let end = [(!crc).to_le_bytes(), u32::from(len).to_le_bytes()].concat();
    [&[0x1f, 0x8b, 8, 0, 0, 0, 0, 0, 0, 255][..], &block, &end].concat()
}

pub fn unhex(text: &str) -> Vec<u8> {
    let digits: Vec<_> = text.trim().chars().map(|c| c.to_digit(16).unwrap() as u8).collect();
    digits.chunks(2).map(|two| two[0] << 4 | two[1]).collect()
}

/// RFC 9001, appendix A.2: the client's Initial packet.
pub fn a2() -> Vec<u8> {
    unhex(include_str!("../../../../c/examples/initial.hex").lines().next().unwrap())
}

/// Appendix A.3: the server's.
pub fn a3() -> Vec<u8> {
    unhex(
        "cf000000010008f067a5502a4262b5004075c0d95a482cd0991cd25b0aac406a5816b6394100f37a1c69797554780bb38cc5a99f5ede4c\
         f73c3ec2493a1839b3dbcba3f6ea46c5b7684df3548e7ddeb9c3bf9c73cc3f3bded74b562bfb19fb84022f8ef4cdd93795d77d06edbb7a\
         af2f58891850abbdca3d20398c276456cbc42158407dd074ee",
    )
}

/// Appendix A.4: a Retry.
pub fn a4() -> Vec<u8> {
    unhex("ff000000010008f067a5502a4262b5746f6b656e04a265ba2eff4d829058fb3f0f2496ba")
}
