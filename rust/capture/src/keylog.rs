//! Key logs, as browsers and TLS libraries write them (SSLKEYLOGFILE).

use quic_wire::Side;
use std::collections::{HashMap, VecDeque};

// The connections whose secrets are kept at most, the latest.
const MOST_CONNECTIONS: usize = 1 << 18;

// With more connections, the secrets of one that ended are forgotten.
const MOST_ENDED: usize = 1 << 14;

// The most bytes of a line that comes in pieces. One that matters has a label, 32 bytes and 48 bytes as digits; one of
// another secret isn't skipped either.
const MOST_LINE: usize = 1 << 16;

/// Which secret of a connection a line has.
#[derive(Clone, Copy, Debug, PartialEq, Eq, Hash)]
pub enum Label {
    /// `CLIENT_EARLY_TRAFFIC_SECRET`, of 0-RTT packets.
    ClientEarly,
    /// `CLIENT_HANDSHAKE_TRAFFIC_SECRET`.
    ClientHandshake,
    /// `SERVER_HANDSHAKE_TRAFFIC_SECRET`.
    ServerHandshake,
    /// `CLIENT_TRAFFIC_SECRET_0`, of 1-RTT packets before the first key update.
    ClientTraffic,
    /// `SERVER_TRAFFIC_SECRET_0`, the same of the server.
    ServerTraffic,
}

impl Label {
    /// The side whose packets have keys of the secret.
    pub fn sender(self) -> Side {
        match self {
            Label::ClientEarly | Label::ClientHandshake | Label::ClientTraffic => Side::Client,
            Label::ServerHandshake | Label::ServerTraffic => Side::Server,
        }
    }
}

const LABELS: [(&[u8], Label); 5] = [
    (b"CLIENT_EARLY_TRAFFIC_SECRET", Label::ClientEarly),
    (b"CLIENT_HANDSHAKE_TRAFFIC_SECRET", Label::ClientHandshake),
    (b"SERVER_HANDSHAKE_TRAFFIC_SECRET", Label::ServerHandshake),
    (b"CLIENT_TRAFFIC_SECRET_0", Label::ClientTraffic),
    (b"SERVER_TRAFFIC_SECRET_0", Label::ServerTraffic),
];

// The labels of other secrets (draft-ietf-tls-keylogfile, draft-ietf-tls-ech-keylogfile; NSS; Wireshark): they open no
// packet of QUIC. OpenSSL writes an N for the number of a key update.
const OTHERS: [&[u8]; 8] = [
    b"CLIENT_RANDOM",
    b"RSA",
    b"PMS_CLIENT_RANDOM",
    b"EXPORTER_SECRET",
    b"EARLY_EXPORTER_SECRET",
    b"EARLY_EXPORTER_MASTER_SECRET",
    b"ECH_SECRET",
    b"ECH_CONFIG",
];
const UPDATED: [&[u8]; 2] = [b"CLIENT_TRAFFIC_SECRET_", b"SERVER_TRAFFIC_SECRET_"];

// Some editors and shells put it in front of a text.
const BYTE_ORDER_MARK: &[u8] = b"\xef\xbb\xbf";

// Without bytes it isn't known.
#[derive(Clone, Copy)]
struct Secret {
    bytes: [u8; 48],
    len: u8,
}

const NO_SECRET: Secret = Secret { bytes: [0; 48], len: 0 };

/// The secrets of connections, by the 32 random bytes of their ClientHello. Those of the latest 262,144 connections are
/// kept; above 16,384, those of connections that ended are forgotten with them.
///
/// ```
/// use quic_wire_capture::keylog::{KeyLog, Label};
/// let mut log = KeyLog::default();
/// log.add(format!("# a comment\nCLIENT_TRAFFIC_SECRET_0 {} {}\n", "ab".repeat(32), "01".repeat(32)).as_bytes());
/// assert_eq!(log.secret(&[0xab; 32], Label::ClientTraffic), Some(&[1; 32][..]));
/// log.add(b"CLIENT_TRAFFIC_SECRET_0 this isn't hexadecimal\n");
/// assert_eq!(log.skipped(), 1);
/// ```
#[derive(Default)]
pub struct KeyLog {
    // In boxes, since a map has room for up to twice as many.
    secrets: HashMap<[u8; 32], Box<[Secret; LABELS.len()]>>,
    // The connections in the order in which they came.
    randoms: VecDeque<[u8; 32]>,
    // How many secrets came, also those that were forgotten.
    added: u64,
    skipped: u64,
}

impl KeyLog {
    /// Takes the lines of a text whose last line is whole, even if no line end follows it. Lines of TLS's other secrets
    /// and comments mean nothing here; lines that can't be read, and those whose label isn't known, are counted and
    /// skipped. A byte order mark of UTF-8 is ignored.
    pub fn add(&mut self, text: &[u8]) {
        for line in text.split(|byte| matches!(byte, b'\n' | b'\r')) {
            if !self.line(line) {
                self.skipped += 1;
            }
        }
    }

    /// How many lines were skipped.
    pub fn skipped(&self) -> u64 {
        self.skipped
    }

    /// Whether it has no secrets.
    pub fn is_empty(&self) -> bool {
        self.secrets.is_empty()
    }

    /// How many connections it has secrets of.
    pub fn len(&self) -> usize {
        self.secrets.len()
    }

    /// The random bytes of the connections that it has secrets of, in the order in which they came.
    pub fn randoms(&self) -> impl DoubleEndedIterator<Item = &[u8; 32]> {
        self.randoms.iter().filter(|random| self.secrets.contains_key(*random))
    }

    /// How many secrets came, also those that were forgotten.
    pub(crate) fn added(&self) -> u64 {
        self.added
    }

    /// Whether it has a secret of a connection.
    pub fn knows(&self, random: &[u8; 32]) -> bool {
        self.secrets.contains_key(random)
    }

    /// A secret of a connection, of 32 or 48 bytes.
    pub fn secret(&self, random: &[u8; 32], label: Label) -> Option<&[u8]> {
        let secret = &self.secrets.get(random)?[label as usize];
        secret.bytes.get(..secret.len.into()).filter(|bytes| !bytes.is_empty())
    }

    // Takes a line. False if it can't be read.
    fn line(&mut self, line: &[u8]) -> bool {
        let line = line.strip_prefix(BYTE_ORDER_MARK).unwrap_or(line).trim_ascii();
        if line.is_empty() || line.starts_with(b"#") {
            return true;
        }
        let mut words = line.split(u8::is_ascii_whitespace).filter(|word| !word.is_empty());
        let (Some(name), Some(random), Some(secret), None) = (words.next(), words.next(), words.next(), words.next())
        else {
            return false;
        };
        let Some((_, label)) = LABELS.iter().find(|(label, _)| *label == name) else {
            return is_other(name) && [random, secret].iter().all(|digits| digits.iter().all(u8::is_ascii_hexdigit));
        };
        let mut bytes = [0; 48];
        let (Some(random), Some(len)) = (unhex_all(random), unhex(secret, &mut bytes)) else { return false };
        let is_new = !self.secrets.contains_key(&random);
        if !matches!(len, 32 | 48) {
            return false;
        }
        if is_new {
            self.make_room();
            self.randoms.push_back(random);
        }
        self.added += 1;
        let secrets = self.secrets.entry(random).or_insert_with(|| Box::new([NO_SECRET; LABELS.len()]));
        secrets[*label as usize] = Secret { bytes, len: len as u8 };
        true
    }

    // Forgets the connection that came first if there are too many.
    fn make_room(&mut self) {
        while self.secrets.len() >= MOST_CONNECTIONS {
            let Some(oldest) = self.randoms.pop_front() else { return };
            self.secrets.remove(&oldest);
        }
    }

    /// Takes note that a connection ended. If there are many, its secrets are forgotten.
    pub(crate) fn end(&mut self, random: &[u8; 32]) {
        if self.secrets.len() > MOST_ENDED {
            self.secrets.remove(random);
        }
        if self.randoms.len() > 2 * self.secrets.len().max(MOST_ENDED) {
            self.randoms.retain(|random| self.secrets.contains_key(random));
        }
    }
}

/// A key log that comes in pieces of any size, as one that is still written.
///
/// ```
/// use quic_wire_capture::keylog::{GrowingLog, KeyLog, Label};
/// let (mut growing, mut log) = (GrowingLog::default(), KeyLog::default());
/// let line = format!("SERVER_TRAFFIC_SECRET_0 {} {}", "ab".repeat(32), "01".repeat(48));
/// for piece in line.as_bytes().chunks(50) {
///     growing.add(piece, &mut log);
/// }
/// growing.end(&mut log);
/// assert_eq!(log.secret(&[0xab; 32], Label::ServerTraffic), Some(&[1; 48][..]));
/// assert_eq!(log.skipped(), 0);
/// ```
#[derive(Clone, Default)]
pub struct GrowingLog {
    // The line that has no end yet; a piece of it if it is too long.
    line: Vec<u8>,
    is_too_long: bool,
}

impl GrowingLog {
    /// Takes the next bytes, and adds their lines to a log. A line without its end waits for the next bytes.
    pub fn add(&mut self, piece: &[u8], log: &mut KeyLog) {
        for part in piece.split_inclusive(|byte| *byte == b'\n') {
            if self.line.len() + part.len() > MOST_LINE && !self.is_comment(part) {
                self.is_too_long = true;
            } else if !self.is_too_long && self.line.len() <= MOST_LINE {
                self.line.extend_from_slice(part);
            }
            if part.ends_with(b"\n") {
                self.end(log);
            }
        }
    }

    /// Takes a last line without its end. If more bytes come, they are the next line.
    pub fn end(&mut self, log: &mut KeyLog) {
        if self.is_too_long {
            log.skipped += 1;
        } else {
            log.add(&self.line);
        }
        self.line.clear();
        self.is_too_long = false;
    }

    fn is_comment(&self, part: &[u8]) -> bool {
        self.line.first().or(part.first()) == Some(&b'#')
    }
}

// Whether it is the label of a secret that opens no packet of QUIC.
fn is_other(name: &[u8]) -> bool {
    let is_number = |rest: &[u8]| rest == b"N" || !rest.is_empty() && rest.iter().all(u8::is_ascii_digit);
    OTHERS.contains(&name) || UPDATED.iter().any(|front| name.strip_prefix(*front).is_some_and(is_number))
}

fn digit(byte: u8) -> Option<u8> {
    char::from(byte).to_digit(16).and_then(|digit| u8::try_from(digit).ok())
}

// How many bytes the digits are, which must fit.
fn unhex(digits: &[u8], out: &mut [u8]) -> Option<usize> {
    let pairs = digits.chunks_exact(2);
    if !pairs.remainder().is_empty() || pairs.len() > out.len() {
        return None;
    }
    let len = pairs.len();
    for (byte, pair) in out.iter_mut().zip(pairs) {
        *byte = digit(pair[0])? << 4 | digit(pair[1])?;
    }
    Some(len)
}

fn unhex_all<const N: usize>(digits: &[u8]) -> Option<[u8; N]> {
    let mut out = [0; N];
    (unhex(digits, &mut out)? == N).then_some(out)
}
