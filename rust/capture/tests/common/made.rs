//! Connections that are made packet by packet, with secrets of their own and handshakes of only what is read.
#![allow(dead_code, reason = "each test uses a part")]

use crate::common::{Kept, seal_with};
use quic_wire::datagram::{Header, HeaderKind};
use quic_wire::frame::{Crypto, Frame};
use quic_wire::packet::{LongType, PacketNumber};
use quic_wire::transport_parameters::TransportParameters;
use quic_wire::{ConnectionId, Side};
use quic_wire_capture::ciphers::Suite;
use quic_wire_capture::keys::{PacketKeys, VERSION_1, retry_tag};
use std::net::SocketAddr;

pub use HeaderKind::{Handshake, Initial, Short, ZeroRtt};
pub use Side::{Client, Server};

const LABELS: [&str; 5] = [
    "CLIENT_EARLY_TRAFFIC_SECRET",
    "CLIENT_HANDSHAKE_TRAFFIC_SECRET",
    "SERVER_HANDSHAKE_TRAFFIC_SECRET",
    "CLIENT_TRAFFIC_SECRET_0",
    "SERVER_TRAFFIC_SECRET_0",
];

/// Both sides of a connection.
#[derive(Clone)]
pub struct Made {
    pub seed: u8,
    /// Of which secrets and random bytes are made too.
    pub salt: u32,
    pub version: u32,
    pub suite: Suite,
    /// The id to which the client sends first.
    pub original_id: Vec<u8>,
    /// The id to which Initial packets' keys belong.
    pub initial_id: Vec<u8>,
    /// The id of each side's packets, to which the other sends.
    pub ids: [Vec<u8>; 2],
    /// Where the client sends at first.
    pub first_dcid: Option<Vec<u8>>,
    pub addresses: [SocketAddr; 2],
    pub token: Vec<u8>,
    pub time: u64,
    /// How often each side updated its keys.
    pub updates: [usize; 2],
    pub clear_fixed_bit: bool,
    pub numbers: [[u64; 3]; 2],
}

impl Made {
    pub fn new(seed: u8) -> Made {
        let first = vec![seed, 0xf1, 0xf2, 0xf3, 0xf4, 0xf5, 0xf6, 0xf7];
        Made {
            seed,
            salt: 0,
            version: VERSION_1,
            suite: Suite::Aes128Gcm,
            original_id: first.clone(),
            initial_id: first.clone(),
            ids: [vec![seed, 0xc1, 0xc2, 0xc3], vec![seed, 0x51, 0x52, 0x53, 0x54, 0x55]],
            first_dcid: Some(first),
            addresses: [([10, 0, 0, 1], 1000 + u16::from(seed)).into(), ([10, 0, 0, 2], 443).into()],
            token: Vec::new(),
            time: 1_000_000_000,
            updates: [0; 2],
            clear_fixed_bit: false,
            numbers: [[0; 3]; 2],
        }
    }

    fn secret(&self, label: usize) -> Vec<u8> {
        self.salted(vec![self.seed ^ (0x10 * (label as u8 + 1)); self.suite.secret_len()])
    }

    pub fn random(&self) -> Vec<u8> {
        self.salted(vec![self.seed; 32])
    }

    fn salted(&self, mut bytes: Vec<u8>) -> Vec<u8> {
        bytes.iter_mut().zip(self.salt.to_be_bytes()).for_each(|(byte, salt)| *byte ^= salt);
        bytes
    }

    pub fn key_log(&self) -> String {
        let hex = |bytes: &[u8]| bytes.iter().map(|byte| format!("{byte:02x}")).collect::<String>();
        let line = |(at, label): (usize, &&str)| format!("{label} {} {}\n", hex(&self.random()), hex(&self.secret(at)));
        LABELS.iter().enumerate().map(line).collect()
    }

    /// The keys of a side's packets.
    pub fn keys(&self, kind: HeaderKind, sender: Side) -> PacketKeys {
        let label = match (kind, sender) {
            (Initial, _) => return PacketKeys::initial(self.version, &self.initial_id, sender).unwrap(),
            (ZeroRtt, _) => 0,
            (Handshake, _) => 1 + sender as usize,
            _ => 3 + sender as usize,
        };
        let keys = PacketKeys::new(&self.secret(label), self.suite, self.version).unwrap();
        let updates = if kind == Short { self.updates[sender as usize] } else { 0 };
        (0..updates).fold(keys, |keys, _| keys.updated().unwrap())
    }

    /// Seals a packet.
    pub fn packet(&mut self, sender: Side, kind: HeaderKind, payload: &[u8]) -> Vec<u8> {
        let space = match kind {
            Initial => 0,
            Handshake => 1,
            _ => 2,
        };
        let number = self.numbers[sender as usize][space];
        self.numbers[sender as usize][space] += 1;
        let first = self.first_dcid.as_ref().filter(|_| sender == Client);
        let dst_cid = &first.unwrap_or(&self.ids[!sender as usize])[..];
        let (src_cid, token, version) = (&self.ids[sender as usize][..], &self.token[..], self.version);
        let number_field = PacketNumber::new(number, number.saturating_sub(1));
        let key_phase = self.updates[sender as usize] % 2 == 1;
        let long = |ty| Header::Long { ty, dst_cid, src_cid, number: number_field, version };
        let token = if sender == Client { token } else { &[] };
        let header = match kind {
            Initial => Header::Initial { dst_cid, src_cid, token, number: number_field, version },
            Handshake => long(LongType::Handshake),
            ZeroRtt => long(LongType::ZeroRtt),
            _ => Header::Short { spin: false, key_phase, dst_cid, number: number_field },
        };
        let mut payload = payload.to_vec();
        payload.resize(payload.len().max(4), 0);
        seal_with(&self.keys(kind, sender), &header, number, &payload, self.clear_fixed_bit)
    }

    /// A datagram of these bytes, a millisecond later.
    pub fn datagram(&mut self, sender: Side, bytes: Vec<u8>) -> Kept {
        self.time += 1_000_000;
        let [client, server] = self.addresses;
        let (from, to) = if sender == Client { (client, server) } else { (server, client) };
        Kept { record: 1, time: self.time, from, to, bytes }
    }

    /// A datagram of one packet.
    pub fn send(&mut self, sender: Side, kind: HeaderKind, payload: &[u8]) -> Kept {
        let packet = self.packet(sender, kind, payload);
        self.datagram(sender, packet)
    }

    fn parameters(&self, sender: Side) -> Vec<u8> {
        let mut list = Vec::new();
        let id = ConnectionId::new(&self.ids[sender as usize]);
        let mut sent = TransportParameters { initial_src_cid: Some(id), ..TransportParameters::default() };
        if sender == Server {
            sent.stateless_reset_token = Some([self.seed ^ 0xee; 16].into());
        }
        sent.write(&mut list).unwrap();
        extension(&list)
    }

    pub fn client_hello(&self) -> Vec<u8> {
        let list = self.parameters(Client);
        let hello = [&[3, 3][..], &self.random(), &[0, 0, 2, 0x13, 1, 1, 0], &list].concat();
        message(1, &hello)
    }

    pub fn server_hello(&self) -> Vec<u8> {
        message(2, &[&[3, 3][..], &[9; 32], &[0], &self.suite.number().to_be_bytes(), &[0, 0, 0]].concat())
    }

    pub fn encrypted_extensions(&self) -> Vec<u8> {
        message(8, &self.parameters(Server))
    }

    /// The datagrams of a handshake: the client's Initial, the server's with a Handshake packet, and the client's
    /// Handshake packet.
    pub fn handshake(&mut self) -> Vec<Kept> {
        let hello = crypto(0, &self.client_hello());
        let mut all = vec![self.send(Client, Initial, &hello)];
        all.extend(self.handshake_of_server());
        all
    }

    pub fn handshake_of_server(&mut self) -> Vec<Kept> {
        let (hello, extensions) = (crypto(0, &self.server_hello()), crypto(0, &self.encrypted_extensions()));
        let packets = [self.packet(Server, Initial, &hello), self.packet(Server, Handshake, &extensions)];
        let first = self.datagram(Server, packets.concat());
        self.first_dcid = None;
        vec![first, self.send(Client, Handshake, &[2, 0, 0, 0, 0])]
    }

    /// A Retry, after which the client sends to another id with a token.
    pub fn retry(&mut self, id: &[u8]) -> Kept {
        self.retry_with(id, b"token")
    }

    /// A Retry with a token.
    pub fn retry_with(&mut self, id: &[u8], token: &[u8]) -> Kept {
        let mut packet = Vec::new();
        let header = Header::Retry { dst_cid: &self.ids[0], src_cid: id, version: self.version };
        header.encode(&mut packet).unwrap();
        packet.extend(token);
        let tag = retry_tag(self.version, &self.original_id, &packet).unwrap();
        packet.extend(tag);
        self.token = token.to_vec();
        self.initial_id = id.to_vec();
        self.first_dcid = Some(id.to_vec());
        self.datagram(Server, packet)
    }
}

/// A connection with a Retry, 0-RTT packets before the ClientHello, another address, a key update, an acknowledgment
/// and segments.
pub fn eventful(mut made: Made) -> (Made, Vec<Kept>) {
    let hello = crypto(0, &made.client_hello());
    let mut all = vec![made.send(Client, ZeroRtt, &[1]), made.send(Client, Initial, &hello)];
    all.extend([made.retry(b"retried"), made.send(Client, Initial, &hello)]);
    all.extend(made.handshake_of_server());
    all.push(made.send(Client, Short, &[1]));
    // Without ids, addresses must stay.
    if !made.ids[1].is_empty() {
        made.addresses[0] = ([192, 0, 2, 1], 5).into();
    }
    made.updates[0] += 1;
    all.push(made.send(Client, Short, &[1]));
    let packets: Vec<_> = [1200, 1200, 300].iter().flat_map(|len| made.packet(Server, Short, &vec![0; *len])).collect();
    all.push(made.datagram(Server, packets));
    all.push(made.send(Client, Short, &[2, 2, 0, 0, 2]));
    let all = all.into_iter().zip(1..).map(|(kept, record)| Kept { record, ..kept }).collect();
    (made, all)
}

/// A connection that began before the capture, with an acknowledgment, a key update, and ids and addresses that nothing
/// in the capture gave.
pub fn begun(mut made: Made) -> (Made, Vec<Kept>) {
    made.first_dcid = None;
    made.numbers = [[1, 1, 40], [1, 1, 7]];
    let mut all = vec![made.send(Client, Short, &[2, 7, 0, 0, 0]), made.send(Server, Short, &[1])];
    made.updates[0] += 1;
    all.extend([made.send(Client, Short, &[1]), made.send(Client, Short, &[2, 8, 0, 0, 1])]);
    all.extend([made.send(Server, Short, &[2, 42, 0, 0, 0]), made.send(Server, Short, &[2, 42, 0, 0, 2])]);
    if !made.ids[1].is_empty() {
        made.ids = [b"client's second".to_vec(), b"server's second".to_vec()];
        all.extend([made.send(Client, Short, &[1]), made.send(Server, Short, &[1])]);
        made.addresses[0] = ([192, 0, 2, 1], 5).into();
        all.extend([made.send(Client, Short, &[1]), made.send(Server, Short, &[1])]);
    }
    let packets: Vec<_> = [1200, 1200, 300].iter().flat_map(|len| made.packet(Server, Short, &vec![0; *len])).collect();
    all.push(made.datagram(Server, packets));
    let all = all.into_iter().zip(1..).map(|(kept, record)| Kept { record, ..kept }).collect();
    (made, all)
}

fn message(kind: u8, body: &[u8]) -> Vec<u8> {
    [&[kind, 0][..], &(body.len() as u16).to_be_bytes(), body].concat()
}

// A list of one extension, that of the transport parameters.
fn extension(list: &[u8]) -> Vec<u8> {
    let len = list.len() as u16;
    [&(len + 4).to_be_bytes()[..], &[0, 0x39], &len.to_be_bytes(), list].concat()
}

/// A CRYPTO frame.
pub fn crypto(offset: u64, bytes: &[u8]) -> Vec<u8> {
    frame(&Frame::Crypto(Crypto { offset, bytes }))
}

/// A frame's bytes.
pub fn frame(frame: &Frame<'_>) -> Vec<u8> {
    let mut out = Vec::new();
    frame.encode(false, &mut out).unwrap();
    out
}
