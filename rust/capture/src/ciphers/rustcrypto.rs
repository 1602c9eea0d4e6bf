//! The ciphers of RustCrypto's crates.

use super::{SAMPLE_LEN, Suite, TAG_LEN};
use aes::cipher::{Array, BlockCipherEncrypt, KeyInit, KeyIvInit, StreamCipher, StreamCipherSeek};
use aes_gcm::aead::AeadInOut;
use hkdf::Hkdf;
use sha2::{Sha256, Sha384};

/// An AEAD with its key.
pub(crate) enum Aead {
    Aes128(Box<aes_gcm::Aes128Gcm>),
    Aes256(Box<aes_gcm::Aes256Gcm>),
    ChaCha20(Box<chacha20poly1305::ChaCha20Poly1305>),
}

impl Aead {
    /// `None` if the key's length isn't the suite's.
    pub(crate) fn new(suite: Suite, key: &[u8]) -> Option<Aead> {
        Some(match suite {
            Suite::Aes128Gcm => Aead::Aes128(Box::new(KeyInit::new_from_slice(key).ok()?)),
            Suite::Aes256Gcm => Aead::Aes256(Box::new(KeyInit::new_from_slice(key).ok()?)),
            Suite::ChaCha20Poly1305 => Aead::ChaCha20(Box::new(KeyInit::new_from_slice(key).ok()?)),
        })
    }

    /// Opens bytes, which end with their tag, in place. False if the tag is wrong: the bytes are lost then.
    pub(crate) fn open(&self, nonce: [u8; 12], header: &[u8], sealed: &mut [u8]) -> bool {
        let Some((data, tag)) = sealed.split_last_chunk_mut::<TAG_LEN>() else { return false };
        let (nonce, tag) = (Array(nonce), Array(*tag));
        match self {
            Aead::Aes128(one) => one.decrypt_inout_detached(&nonce, header, data.into(), &tag),
            Aead::Aes256(one) => one.decrypt_inout_detached(&nonce, header, data.into(), &tag),
            Aead::ChaCha20(one) => one.decrypt_inout_detached(&nonce, header, data.into(), &tag),
        }
        .is_ok()
    }

    /// Seals bytes in place, and appends their tag.
    pub(crate) fn seal(&self, nonce: [u8; 12], header: &[u8], data: &mut Vec<u8>) -> Option<()> {
        let (nonce, bytes) = (Array(nonce), data.as_mut_slice());
        let tag = match self {
            Aead::Aes128(one) => one.encrypt_inout_detached(&nonce, header, bytes.into()),
            Aead::Aes256(one) => one.encrypt_inout_detached(&nonce, header, bytes.into()),
            Aead::ChaCha20(one) => one.encrypt_inout_detached(&nonce, header, bytes.into()),
        };
        data.extend_from_slice(&tag.ok()?);
        Some(())
    }
}

/// What makes masks of header protection (RFC 9001, section 5.4), with its key.
pub(crate) enum Mask {
    Aes128(Box<aes::Aes128>),
    Aes256(Box<aes::Aes256>),
    ChaCha20([u8; 32]),
}

impl Mask {
    /// `None` if the key's length isn't the suite's.
    pub(crate) fn new(suite: Suite, key: &[u8]) -> Option<Mask> {
        Some(match suite {
            Suite::Aes128Gcm => Mask::Aes128(Box::new(KeyInit::new_from_slice(key).ok()?)),
            Suite::Aes256Gcm => Mask::Aes256(Box::new(KeyInit::new_from_slice(key).ok()?)),
            Suite::ChaCha20Poly1305 => Mask::ChaCha20(key.try_into().ok()?),
        })
    }

    /// The mask that a sample makes.
    pub(crate) fn of(&self, sample: &[u8; SAMPLE_LEN]) -> Option<[u8; 5]> {
        let mut block = Array(*sample);
        match self {
            Mask::Aes128(one) => one.encrypt_block(&mut block),
            Mask::Aes256(one) => one.encrypt_block(&mut block),
            Mask::ChaCha20(key) => return chacha20_mask(key, sample),
        }
        block.0.first_chunk().copied()
    }
}

// The sample is a block's number and a nonce (RFC 9001, section 5.4.4). The crate makes no last block, of number 2^32 - 1:
// a packet with such a sample isn't opened.
fn chacha20_mask(key: &[u8; 32], sample: &[u8; SAMPLE_LEN]) -> Option<[u8; 5]> {
    let (block, nonce) = sample.split_first_chunk()?;
    let nonce: [u8; 12] = nonce.try_into().ok()?;
    let mut stream = chacha20::ChaCha20::new(&Array(*key), &Array(nonce));
    stream.try_seek(u64::from(u32::from_le_bytes(*block)) * 64).ok()?;
    let mut mask = [0; 5];
    stream.try_apply_keystream(&mut mask).ok()?;
    Some(mask)
}

/// HKDF-Extract with SHA-256 (RFC 5869, section 2.2).
pub(crate) fn extract(salt: &[u8], key: &[u8]) -> Option<[u8; 32]> {
    Some(Hkdf::<Sha256>::extract(Some(salt), key).0.into())
}

/// HKDF-Expand with the suite's hash (RFC 5869, section 2.3).
pub(crate) fn expand(suite: Suite, secret: &[u8], info: &[u8], out: &mut [u8]) -> Option<()> {
    let secret = Some(secret).filter(|secret| secret.len() == suite.secret_len())?;
    if suite == Suite::Aes256Gcm {
        Hkdf::<Sha384>::from_prk(secret).ok()?.expand(info, out).ok()
    } else {
        Hkdf::<Sha256>::from_prk(secret).ok()?.expand(info, out).ok()
    }
}
