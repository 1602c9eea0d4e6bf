//! The keys of packets, from secrets (RFC 9001, sections 5 and 6; RFC 9369, section 3).

use crate::ciphers::{Aead, Mask, SAMPLE_LEN, Suite, TAG_LEN, expand_label, extract};
use quic_wire::Side;
use quic_wire::packet::VERSION_2;

/// Version 1 (RFC 9000).
pub const VERSION_1: u32 = 1;

/// The versions whose packets are opened.
pub const VERSIONS: [u32; 2] = [VERSION_1, VERSION_2];

/// What a version has of its own (RFC 9001, sections 5.1, 5.2 and 5.8; RFC 9369, section 3.3).
struct Constants {
    salt: [u8; 20],
    retry_key: [u8; 16],
    retry_nonce: [u8; 12],
    key: &'static str,
    iv: &'static str,
    hp: &'static str,
    ku: &'static str,
}

const CONSTANTS_1: Constants = Constants {
    salt: [
        0x38, 0x76, 0x2c, 0xf7, 0xf5, 0x59, 0x34, 0xb3, 0x4d, 0x17, 0x9a, 0xe6, 0xa4, 0xc8, 0x0c, 0xad, 0xcc, 0xbb,
        0x7f, 0x0a,
    ],
    retry_key: [0xbe, 0x0c, 0x69, 0x0b, 0x9f, 0x66, 0x57, 0x5a, 0x1d, 0x76, 0x6b, 0x54, 0xe3, 0x68, 0xc8, 0x4e],
    retry_nonce: [0x46, 0x15, 0x99, 0xd3, 0x5d, 0x63, 0x2b, 0xf2, 0x23, 0x98, 0x25, 0xbb],
    key: "quic key",
    iv: "quic iv",
    hp: "quic hp",
    ku: "quic ku",
};

const CONSTANTS_2: Constants = Constants {
    salt: [
        0x0d, 0xed, 0xe3, 0xde, 0xf7, 0x00, 0xa6, 0xdb, 0x81, 0x93, 0x81, 0xbe, 0x6e, 0x26, 0x9d, 0xcb, 0xf9, 0xbd,
        0x2e, 0xd9,
    ],
    retry_key: [0x8f, 0xb4, 0xb0, 0x1b, 0x56, 0xac, 0x48, 0xe2, 0x60, 0xfb, 0xcb, 0xce, 0xad, 0x7c, 0xcc, 0x92],
    retry_nonce: [0xd8, 0x69, 0x69, 0xbc, 0x2d, 0x7c, 0x6d, 0x99, 0x90, 0xef, 0xb0, 0x4a],
    key: "quicv2 key",
    iv: "quicv2 iv",
    hp: "quicv2 hp",
    ku: "quicv2 ku",
};

fn constants(version: u32) -> &'static Constants {
    if version == VERSION_2 { &CONSTANTS_2 } else { &CONSTANTS_1 }
}

/// The keys of the packets that a side sends in one number space, until it updates them.
pub struct PacketKeys {
    secret: Vec<u8>,
    suite: Suite,
    version: u32,
    aead: Aead,
    iv: [u8; 12],
    hp: Vec<u8>,
    mask: Mask,
}

impl PacketKeys {
    /// The keys that a secret makes in a version: version 2, or else version 1. `None` if the secret doesn't have as
    /// many bytes as the suite's hash.
    pub fn new(secret: &[u8], suite: Suite, version: u32) -> Option<PacketKeys> {
        PacketKeys::with_hp(secret.to_vec(), suite, version, hp_of(secret, suite, version)?)
    }

    fn with_hp(secret: Vec<u8>, suite: Suite, version: u32, hp: Vec<u8>) -> Option<PacketKeys> {
        let (mut key, mut iv) = (vec![0; suite.key_len()], [0; 12]);
        expand_label(suite, &secret, constants(version).key, &mut key)?;
        expand_label(suite, &secret, constants(version).iv, &mut iv)?;
        let (aead, mask) = (Aead::new(suite, &key)?, Mask::new(suite, &hp)?);
        Some(PacketKeys { secret, suite, version, aead, iv, hp, mask })
    }

    /// The keys of a side's Initial packets in a version, by the id to which the client sent its first Initial, or that
    /// of a Retry (RFC 9001, section 5.2).
    pub fn initial(version: u32, id: &[u8], side: Side) -> Option<PacketKeys> {
        let initial = extract(&constants(version).salt, id)?;
        let mut secret = [0; 32];
        let label = if side == Side::Client { "client in" } else { "server in" };
        expand_label(Suite::Aes128Gcm, &initial, label, &mut secret)?;
        PacketKeys::new(&secret, Suite::Aes128Gcm, version)
    }

    /// The keys after a key update, which keep the key of header protection (RFC 9001, section 6.1).
    pub fn updated(&self) -> Option<PacketKeys> {
        let mut secret = vec![0; self.secret.len()];
        expand_label(self.suite, &self.secret, constants(self.version).ku, &mut secret)?;
        PacketKeys::with_hp(secret, self.suite, self.version, self.hp.clone())
    }

    /// The suite whose ciphers have these keys.
    pub fn suite(&self) -> Suite {
        self.suite
    }

    /// The mask of header protection that a sample makes (RFC 9001, section 5.4.1).
    pub fn mask(&self, sample: &[u8; SAMPLE_LEN]) -> Option<[u8; 5]> {
        self.mask.of(sample)
    }

    /// Opens a payload with its tag in place, by the packet's number and its header without protection. False if the
    /// tag is wrong: the payload's bytes are lost then.
    pub fn open(&self, number: u64, header: &[u8], sealed: &mut [u8]) -> bool {
        self.aead.open(self.nonce(number), header, sealed)
    }

    /// Seals a payload in place, and appends its tag: for those who make captures. `None` if it is too long.
    pub fn seal(&self, number: u64, header: &[u8], payload: &mut Vec<u8>) -> Option<()> {
        self.aead.seal(self.nonce(number), header, payload)
    }

    // RFC 9001, section 5.3.
    fn nonce(&self, number: u64) -> [u8; 12] {
        let mut nonce = self.iv;
        nonce[4..].iter_mut().zip(number.to_be_bytes()).for_each(|(byte, number)| *byte ^= number);
        nonce
    }
}

// The key of header protection.
fn hp_of(secret: &[u8], suite: Suite, version: u32) -> Option<Vec<u8>> {
    let mut hp = vec![0; suite.key_len()];
    expand_label(suite, secret, constants(version).hp, &mut hp)?;
    Some(hp)
}

/// What makes the masks of packets with keys of a secret. It takes a third of the time of all keys.
pub(crate) fn mask_of(secret: &[u8], suite: Suite, version: u32) -> Option<Mask> {
    Mask::new(suite, &hp_of(secret, suite, version)?)
}

/// The integrity tag of a Retry, for those who make captures: `retry` is the packet without its tag, and `original_id`
/// that to which the client sent its first Initial (RFC 9001, section 5.8). `None` if that has more than 255 bytes.
pub fn retry_tag(version: u32, original_id: &[u8], retry: &[u8]) -> Option<[u8; TAG_LEN]> {
    let mut tag = Vec::new();
    let Constants { retry_key, retry_nonce, .. } = constants(version);
    Aead::new(Suite::Aes128Gcm, retry_key)?.seal(*retry_nonce, &pseudo_retry(original_id, retry)?, &mut tag)?;
    tag.try_into().ok()
}

/// Whether the integrity tag at the end of a Retry is right (RFC 9001, section 5.8).
pub fn is_retry_authentic(version: u32, original_id: &[u8], retry: &[u8]) -> bool {
    let front_and_tag = retry.split_last_chunk();
    front_and_tag.is_some_and(|(front, tag)| retry_tag(version, original_id, front).is_some_and(|own| own == *tag))
}

fn pseudo_retry(original_id: &[u8], retry: &[u8]) -> Option<Vec<u8>> {
    let len = u8::try_from(original_id.len()).ok()?;
    Some([&[len], original_id, retry].concat())
}
