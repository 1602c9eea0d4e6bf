//! The ciphers of `ring`.

use super::{SAMPLE_LEN, Suite};
use ring::aead::{AES_128_GCM, AES_256_GCM, Aad, CHACHA20_POLY1305, LessSafeKey, Nonce, UnboundKey, quic};
use ring::{hkdf, hmac};

/// An AEAD with its key.
pub(crate) struct Aead(LessSafeKey);

impl Aead {
    /// `None` if the key's length isn't the suite's.
    pub(crate) fn new(suite: Suite, key: &[u8]) -> Option<Aead> {
        let algorithm = match suite {
            Suite::Aes128Gcm => &AES_128_GCM,
            Suite::Aes256Gcm => &AES_256_GCM,
            Suite::ChaCha20Poly1305 => &CHACHA20_POLY1305,
        };
        UnboundKey::new(algorithm, key).ok().map(|key| Aead(LessSafeKey::new(key)))
    }

    /// Opens bytes, which end with their tag, in place. False if the tag is wrong: the bytes are lost then.
    pub(crate) fn open(&self, nonce: [u8; 12], header: &[u8], sealed: &mut [u8]) -> bool {
        self.0.open_in_place(Nonce::assume_unique_for_key(nonce), Aad::from(header), sealed).is_ok()
    }

    /// Seals bytes in place, and appends their tag.
    pub(crate) fn seal(&self, nonce: [u8; 12], header: &[u8], data: &mut Vec<u8>) -> Option<()> {
        let nonce = Nonce::assume_unique_for_key(nonce);
        self.0.seal_in_place_append_tag(nonce, Aad::from(header), data).ok()
    }
}

/// What makes masks of header protection (RFC 9001, section 5.4), with its key.
pub(crate) struct Mask(quic::HeaderProtectionKey);

impl Mask {
    /// `None` if the key's length isn't the suite's.
    pub(crate) fn new(suite: Suite, key: &[u8]) -> Option<Mask> {
        let algorithm = match suite {
            Suite::Aes128Gcm => &quic::AES_128,
            Suite::Aes256Gcm => &quic::AES_256,
            Suite::ChaCha20Poly1305 => &quic::CHACHA20,
        };
        quic::HeaderProtectionKey::new(algorithm, key).ok().map(Mask)
    }

    /// The mask that a sample makes.
    pub(crate) fn of(&self, sample: &[u8; SAMPLE_LEN]) -> Option<[u8; 5]> {
        self.0.new_mask(sample).ok()
    }
}

/// HKDF-Extract with SHA-256 (RFC 5869, section 2.2).
pub(crate) fn extract(salt: &[u8], key: &[u8]) -> Option<[u8; 32]> {
    hmac::sign(&hmac::Key::new(hmac::HMAC_SHA256, salt), key).as_ref().try_into().ok()
}

struct Len(usize);

impl hkdf::KeyType for Len {
    fn len(&self) -> usize {
        self.0
    }
}

/// HKDF-Expand with the suite's hash (RFC 5869, section 2.3).
pub(crate) fn expand(suite: Suite, secret: &[u8], info: &[u8], out: &mut [u8]) -> Option<()> {
    let algorithm = if suite == Suite::Aes256Gcm { hkdf::HKDF_SHA384 } else { hkdf::HKDF_SHA256 };
    let len = out.len();
    let secret = Some(secret).filter(|secret| secret.len() == suite.secret_len())?;
    hkdf::Prk::new_less_safe(algorithm, secret).expand(&[info], Len(len)).ok()?.fill(out).ok()
}
