//! Random numbers, and inputs: random ones, and others that are changed.
use quic_wire::datagram::HeaderChecks;
use quic_wire::frame::Rules;
use quic_wire::transport_parameters::ReadOptions;
use quic_wire::{ConnectionId, Side, varint};

pub const VERSIONS: &[u32] = &[1, 0x6b33_43cf];

/// Inputs to change.
#[derive(Default)]
pub struct Seeds {
    pub payloads: Vec<Vec<u8>>,
    pub datagrams: Vec<Vec<u8>>,
    pub lists: Vec<Vec<u8>>,
}

/// By xorshift64*.
pub struct Random {
    state: u64,
    seeds: Seeds,
}

impl Random {
    pub fn new(seed: u64, seeds: Seeds) -> Random {
        Random { state: seed | 1 << 63, seeds }
    }

    pub fn next(&mut self) -> u64 {
        self.state ^= self.state >> 12;
        self.state ^= self.state << 25;
        self.state ^= self.state >> 27;
        self.state.wrapping_mul(0x2545_f491_4f6c_dd1d)
    }

    pub fn below(&mut self, n: u64) -> u64 {
        self.next() % n
    }

    pub fn flag(&mut self) -> bool {
        self.below(2) == 0
    }

    /// Numbers of each width, at and around its bounds.
    pub fn number(&mut self) -> u64 {
        let width = [6, 14, 30, 62, 64][self.below(5) as usize];
        let number = self.next() >> (64 - width);
        [number, number, (1 << (width - 1)) + self.below(3), number & 0xff][self.below(4) as usize]
    }

    pub fn bytes(&mut self, most: u64) -> Vec<u8> {
        let len = self.below(most + 1);
        (0..len).map(|_| self.next() as u8).collect()
    }

    pub fn id(&mut self) -> ConnectionId {
        ConnectionId::try_from(&self.bytes(20)[..]).unwrap()
    }

    /// Mostly frames: known types, and small numbers.
    pub fn payload(&mut self) -> Vec<u8> {
        if let Some(changed) = self.changed(|seeds| &seeds.payloads).filter(|payload| !payload.is_empty()) {
            return changed;
        }
        let len = 1 + self.below(60);
        let mut payload = Vec::new();
        while payload.len() < len as usize {
            match self.below(4) {
                0 => payload.push(self.next() as u8),
                1 => payload.push(self.below(0x32) as u8),
                2 => payload.extend([0x40, self.below(0x32) as u8]),
                _ => payload.extend(vec![self.below(4) as u8; self.below(9) as usize]),
            }
        }
        payload
    }

    pub fn rules(&mut self) -> Rules {
        let (short_types, data_limit, stream_limit) = (self.flag(), self.flag(), self.flag());
        Rules { short_types, data_limit, stream_limit, tokens: self.flag(), no_ack_frequency: self.flag() }
    }

    pub fn header_checks(&mut self) -> HeaderChecks {
        let (grease_quic_bit, any_version) = (self.flag(), self.flag());
        HeaderChecks { grease_quic_bit, any_version, whole_retry: self.flag() }
    }

    pub fn read_options(&mut self) -> ReadOptions {
        ReadOptions { any_width: self.flag(), no_repeats: self.flag() }
    }

    pub fn side(&mut self) -> Side {
        if self.flag() { Side::Client } else { Side::Server }
    }

    pub fn datagram(&mut self) -> Vec<u8> {
        if let Some(changed) = self.changed(|seeds| &seeds.datagrams) {
            return changed;
        }
        let mut datagram = self.bytes(90);
        if self.below(4) > 0 && datagram.len() > 6 {
            datagram[0] |= 0xc0;
            let version = VERSIONS[self.below(2) as usize].to_be_bytes();
            datagram[1..5].copy_from_slice(&if self.below(8) == 0 { [0; 4] } else { version });
            datagram[5] = self.below(21) as u8;
        }
        datagram
    }

    /// A list of transport parameters.
    pub fn list(&mut self) -> Vec<u8> {
        if let Some(changed) = self.changed(|seeds| &seeds.lists) {
            return changed;
        }
        let mut list = vec![];
        for _ in 0..self.below(6) {
            let value = self.number() & varint::MAX;
            let len = varint::len(value).unwrap();
            varint::write(self.below(0x22), &mut list).unwrap();
            varint::write(len as u64, &mut list).unwrap();
            varint::write(value, &mut list).unwrap();
        }
        if self.below(4) == 0 {
            list.extend(self.bytes(4));
        }
        list
    }

    // Every other time one of the seeds, if there are any, with up to three changes, or joined to another.
    fn changed(&mut self, kind: fn(&Seeds) -> &Vec<Vec<u8>>) -> Option<Vec<u8>> {
        let count = kind(&self.seeds).len() as u64;
        if count == 0 || self.flag() {
            return None;
        }
        let (one, other) = (self.below(count) as usize, self.below(count) as usize);
        let mut bytes = kind(&self.seeds)[one].clone();
        if self.below(8) == 0 {
            bytes.extend_from_slice(&kind(&self.seeds)[other]);
        }
        for _ in 0..self.below(4) {
            self.change(&mut bytes);
        }
        Some(bytes)
    }

    /// Changes a bit, a byte or a number, or removes, doubles or adds some bytes.
    pub fn change(&mut self, bytes: &mut Vec<u8>) {
        let at = self.below(bytes.len() as u64 + 1) as usize;
        let end = (at + 1 + self.below(4) as usize).min(bytes.len());
        match self.below(7) {
            0 | 1 if at < end => bytes[at] ^= 1 << self.below(8),
            2 if at < end => bytes[at] = [0, 1, 0x3f, 0x40, 0x7f, 0x80, 0xc0, 0xff][self.below(8) as usize],
            3 => drop(bytes.drain(at..end)),
            4 => bytes.extend_from_within(at..end),
            5 => bytes.truncate(at),
            _ => {
                let mut number = vec![];
                varint::write(self.number() & varint::MAX, &mut number).unwrap();
                drop(bytes.splice(at..end, number));
            }
        }
    }
}
