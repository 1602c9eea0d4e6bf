//! What following a connection needs of TLS: the first message of a client, of a server, and the first that is
//! encrypted (RFC 8446, section 4; RFC 9001, section 8.2).

use quic_wire::Side;
use quic_wire::frame::{Frame, Iter};
use std::collections::BTreeMap;

/// The most bytes of CRYPTO data that wait for their message to be whole, and how many each piece counts besides its
/// own.
const MOST_BYTES: usize = 1 << 18;
const PIECE: usize = 64;

const CLIENT_HELLO: u8 = 1;
const SERVER_HELLO: u8 = 2;
const ENCRYPTED_EXTENSIONS: u8 = 8;
const QUIC_TRANSPORT_PARAMETERS: u16 = 0x39;
const SERVER_NAME: u16 = 0;
const ALPN: u16 = 16;

/// The most bytes of a server's name: those of a name in the DNS.
const MOST_NAME: usize = 255;

/// What the CRYPTO frames of payloads say of transport parameters.
#[derive(Clone, Debug, PartialEq, Eq)]
pub enum Hello {
    /// The sender's list, in its ClientHello or EncryptedExtensions.
    Parameters(Side, Vec<u8>),
    /// Their first message has none, or there is no CRYPTO frame.
    Nothing,
    /// Their first message isn't whole: it goes on in other packets.
    Partial,
}

impl Hello {
    /// Reads payloads of a side and a number space one after the other, as one, up to what is no frame.
    ///
    /// ```
    /// use quic_wire_capture::tls::Hello;
    /// // The first bytes of a ClientHello, which has 0x1fc bytes.
    /// assert_eq!(Hello::read(&[0x06, 0, 6, 1, 0, 1, 0xfc, 3, 3]), Hello::Partial);
    /// assert_eq!(Hello::read(&[0x01]), Hello::Nothing);
    /// ```
    pub fn read(payloads: &[u8]) -> Hello {
        let (mut stream, mut hello) = (CryptoStream::default(), Hello::Nothing);
        for frame in Iter::new(payloads).into_iter().flatten().map_while(Result::ok) {
            let Frame::Crypto(crypto) = frame else { continue };
            hello = Hello::Partial;
            if let Some(said) = stream.take(crypto.offset, crypto.bytes) {
                return match said {
                    Said::ClientHello { parameters: Some(list), .. } => Hello::Parameters(Side::Client, list),
                    Said::EncryptedExtensions { parameters: Some(list), .. } => Hello::Parameters(Side::Server, list),
                    _ => Hello::Nothing,
                };
            }
        }
        hello
    }
}

/// What the first message of a side's CRYPTO data in a number space says.
#[derive(Clone, Debug, PartialEq, Eq)]
pub(crate) enum Said {
    ClientHello { random: [u8; 32], parameters: Option<Vec<u8>>, server_name: Option<Vec<u8>> },
    ServerHello { suite: u16 },
    EncryptedExtensions { parameters: Option<Vec<u8>>, protocol: Option<Vec<u8>> },
    Nothing,
}

/// The CRYPTO data of a side in a number space, up to the end of the first message.
#[derive(Default)]
pub(crate) struct CryptoStream {
    data: Vec<u8>,
    waiting: BTreeMap<usize, Vec<u8>>,
    waiting_len: usize,
    is_done: bool,
}

impl CryptoStream {
    /// Takes data, in any order, and returns what the first message says once it is whole.
    pub(crate) fn take(&mut self, offset: u64, bytes: &[u8]) -> Option<Said> {
        let offset = usize::try_from(offset).ok().filter(|offset| *offset < MOST_BYTES)?;
        let is_known = self.waiting.get(&offset).is_some_and(|known| known.len() >= bytes.len());
        if self.is_done || is_known || self.held() + PIECE + bytes.len() > MOST_BYTES {
            return None;
        }
        self.waiting_len += bytes.len();
        self.waiting_len -= self.waiting.insert(offset, bytes.to_vec()).map_or(0, |old| old.len());
        while let Some(entry) = self.waiting.first_entry().filter(|entry| *entry.key() <= self.data.len()) {
            let (offset, bytes) = entry.remove_entry();
            self.waiting_len -= bytes.len();
            self.data.extend_from_slice(bytes.get(self.data.len() - offset..).unwrap_or_default());
        }
        let (kind, body) = message(&self.data)?;
        let said = read(kind, body).unwrap_or(Said::Nothing);
        self.give_up();
        Some(said)
    }

    /// How many bytes it keeps, about.
    pub(crate) fn held(&self) -> usize {
        self.data.len() + self.waiting_len + PIECE * self.waiting.len()
    }

    /// Keeps nothing from now on.
    pub(crate) fn give_up(&mut self) {
        *self = CryptoStream { is_done: true, ..CryptoStream::default() };
    }
}

/// The ClientHello after a Retry. It has to be the same as before (RFC 9000, section 17.2.5.3), but some clients begin TLS
/// again.
#[derive(Default)]
pub(crate) struct HelloAgain {
    crypto: CryptoStream,
    random: Option<[u8; 32]>,
}

impl HelloAgain {
    /// Takes CRYPTO data of an Initial packet, in any order.
    pub(crate) fn take(&mut self, offset: u64, bytes: &[u8]) {
        if let Some(Said::ClientHello { random, .. }) = self.crypto.take(offset, bytes) {
            self.random = Some(random);
        }
    }

    /// How many bytes it keeps, about.
    pub(crate) fn held(&self) -> usize {
        self.crypto.held()
    }

    /// Its random bytes, once it is whole.
    pub(crate) fn random(&self) -> Option<&[u8; 32]> {
        self.random.as_ref()
    }
}

fn message(data: &[u8]) -> Option<(u8, &[u8])> {
    let ([kind, a, b, c], body) = data.split_first_chunk()?;
    let len = u32::from_be_bytes([0, *a, *b, *c]) as usize;
    Some((*kind, body.get(..len)?))
}

fn read(kind: u8, body: &[u8]) -> Option<Said> {
    match kind {
        CLIENT_HELLO => {
            let (_version, rest) = body.split_first_chunk::<2>()?;
            let (random, rest) = rest.split_first_chunk()?;
            let (_session, rest) = split_short(rest)?;
            let (_suites, rest) = split_long(rest)?;
            let (_compression, rest) = split_short(rest)?;
            let extensions = split_long(rest)?.0;
            let parameters = extension(extensions, QUIC_TRANSPORT_PARAMETERS).map(<[u8]>::to_vec);
            let server_name = extension(extensions, SERVER_NAME).and_then(host_name).map(<[u8]>::to_vec);
            Some(Said::ClientHello { random: *random, parameters, server_name })
        }
        SERVER_HELLO => {
            let (_session, rest) = split_short(body.get(34..)?)?;
            rest.first_chunk().map(|suite| Said::ServerHello { suite: u16::from_be_bytes(*suite) })
        }
        ENCRYPTED_EXTENSIONS => {
            let extensions = split_long(body)?.0;
            let parameters = extension(extensions, QUIC_TRANSPORT_PARAMETERS).map(<[u8]>::to_vec);
            let protocol = extension(extensions, ALPN).and_then(only_protocol).map(<[u8]>::to_vec);
            Some(Said::EncryptedExtensions { parameters, protocol })
        }
        _ => None,
    }
}

// Bytes with their length in one byte, and what follows them.
fn split_short(bytes: &[u8]) -> Option<(&[u8], &[u8])> {
    let (len, rest) = bytes.split_first()?;
    rest.split_at_checked((*len).into())
}

// Bytes with their length in two bytes.
fn split_long(bytes: &[u8]) -> Option<(&[u8], &[u8])> {
    let (len, rest) = bytes.split_first_chunk()?;
    rest.split_at_checked(u16::from_be_bytes(*len).into())
}

// The first extension of a kind.
fn extension(mut extensions: &[u8], wanted: u16) -> Option<&[u8]> {
    loop {
        let (kind, rest) = extensions.split_first_chunk()?;
        let (value, rest) = split_long(rest)?;
        if u16::from_be_bytes(*kind) == wanted {
            return Some(value);
        }
        extensions = rest;
    }
}

// The first name of a server, if it is one of a host (RFC 6066, section 3).
fn host_name(list: &[u8]) -> Option<&[u8]> {
    let (kind, rest) = split_long(list)?.0.split_first()?;
    Some(split_long(rest)?.0).filter(|name| *kind == 0 && name.len() <= MOST_NAME)
}

// The protocol that a server chose (RFC 7301, section 3.1).
fn only_protocol(list: &[u8]) -> Option<&[u8]> {
    let (name, rest) = split_short(split_long(list)?.0)?;
    Some(name).filter(|_| rest.is_empty())
}

#[cfg(test)]
mod tests {
    use super::*;

    // A ClientHello with a session id, one suite and three extensions.
    fn hello() -> Vec<u8> {
        let extensions = [0, 10, 0, 1, 7, 0, 0, 0, 6, 0, 4, 0, 0, 1, b'a', 0, 0x39, 0, 2, 1, 2];
        let body = [&[3, 3][..], &[9; 32], &[2, 5, 5], &[0, 2, 0x13, 1], &[1, 0], &[0, 21], &extensions].concat();
        [&[CLIENT_HELLO, 0, 0, body.len() as u8], &body[..]].concat()
    }

    fn said() -> Said {
        Said::ClientHello { random: [9; 32], parameters: Some(vec![1, 2]), server_name: Some(b"a".to_vec()) }
    }

    #[test]
    fn pieces_in_any_order() {
        let hello = hello();
        for (one, two) in (1..hello.len()).flat_map(|one| (one..hello.len()).map(move |two| (one, two))) {
            let pieces = [(0, &hello[..two]), (one, &hello[one..]), (two, &hello[two..])];
            for order in [[0, 1, 2], [2, 1, 0], [1, 0, 2], [2, 2, 0]] {
                let mut stream = CryptoStream::default();
                let mut found = order.iter().filter_map(|at| stream.take(pieces[*at].0 as u64, pieces[*at].1));
                assert_eq!((found.next(), found.next()), (Some(said()), None), "{one}, {two}, {order:?}");
            }
        }
    }

    #[test]
    fn messages_that_are_cut_off() {
        let hello = hello();
        for len in 0..hello.len() - 4 {
            let cut = [&[CLIENT_HELLO, 0, 0, len as u8], &hello[4..4 + len]].concat();
            let said = CryptoStream::default().take(0, &cut);
            let is_short = matches!(said, Some(Said::Nothing | Said::ClientHello { parameters: None, .. }));
            assert!(is_short, "{len}: {said:?}");
        }
        assert_eq!(CryptoStream::default().take(0, &[4, 0, 0, 0]), Some(Said::Nothing));
    }

    // RFC 8446, section 4.3.1: EncryptedExtensions of two extensions. Of the frames the second piece comes first.
    #[test]
    fn parameters_in_payloads() {
        let extensions = [0, 16, 0, 5, 0, 3, 2, b'h', b'3', 0, 0x39, 0, 3, 4, 1, 9];
        let message = [&[ENCRYPTED_EXTENSIONS, 0, 0, 18, 0, 16], &extensions[..]].concat();
        let crypto = |from: usize, to: usize| [&[0x06, from as u8, (to - from) as u8], &message[from..to]].concat();
        let (one, two) = (crypto(0, 9), crypto(9, message.len()));
        let wanted = Hello::Parameters(Side::Server, vec![4, 1, 9]);
        for payloads in [[&one[..], &two].concat(), [&[2, 0, 0, 0, 0], &two[..], &[0, 0], &one].concat()] {
            assert_eq!(Hello::read(&payloads), wanted, "{payloads:?}");
        }
        for payloads in [&one, &two] {
            assert_eq!(Hello::read(payloads), Hello::Partial, "{payloads:?}");
        }
        let hello = hello();
        let client = [&[0x06, 0, 0x40, hello.len() as u8], &hello[..]].concat();
        assert_eq!(Hello::read(&client), Hello::Parameters(Side::Client, vec![1, 2]));
        // Without frames, without CRYPTO frames, another message, no frame before.
        for payloads in [&[][..], &[0, 0, 1], &[0x06, 0, 4, 2, 0, 0, 0], &[&[0x21], &one[..], &two].concat()] {
            assert_eq!(Hello::read(payloads), Hello::Nothing, "{payloads:?}");
        }
    }

    // RFC 7301, section 3.1; RFC 6066, section 3.
    #[test]
    fn names() {
        let protocol = |list: &[u8]| {
            let extension = [&[0, 16, 0, list.len() as u8][..], list].concat();
            let message = [&[8, 0, 0, extension.len() as u8 + 2, 0, extension.len() as u8][..], &extension].concat();
            match CryptoStream::default().take(0, &message) {
                Some(Said::EncryptedExtensions { parameters: None, protocol }) => protocol,
                said => panic!("{said:?}"),
            }
        };
        assert_eq!(protocol(&[0, 3, 2, b'h', b'3']), Some(b"h3".to_vec()));
        for wrong in [&[][..], &[0, 0], &[0, 3, 3, b'h', b'3'], &[0, 5, 2, b'h', b'3', 1, b'a'], &[0, 4, 2, b'h', b'3']]
        {
            assert_eq!(protocol(wrong), None, "{wrong:?}");
        }
        assert_eq!(host_name(&[0, 4, 0, 0, 1, b'a']), Some(&b"a"[..]));
        let long = [&[1, 3, 0, 1, 0][..], &[b'a'; 256]].concat();
        for wrong in [&[0, 4, 1, 0, 1, b'a'][..], &[0, 4, 0, 0, 2, b'a'], &[0, 0], &long] {
            assert_eq!(host_name(wrong), None, "{wrong:?}");
        }
    }

    #[test]
    fn so_many_bytes_wait() {
        let mut stream = CryptoStream::default();
        for offset in 1..2000 {
            assert_eq!(stream.take(offset, &[0; 1200]), None);
        }
        assert_eq!(stream.take(u64::MAX >> 2, &[0; 1200]), None);
        let kept: usize = stream.waiting.values().map(Vec::len).sum();
        assert!(kept == stream.waiting_len && kept <= MOST_BYTES, "{kept}");

        // Small pieces count for what they take besides their bytes.
        let mut stream = CryptoStream::default();
        (1..MOST_BYTES as u64).for_each(|offset| assert_eq!(stream.take(offset, &[0]), None));
        assert!(stream.waiting.len() <= MOST_BYTES / PIECE, "{} pieces", stream.waiting.len());
    }
}
