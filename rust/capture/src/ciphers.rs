//! The ciphers that protect packets (RFC 9001, section 5), from the crates that a feature names.

#[cfg(feature = "ring")]
#[path = "ciphers/ring.rs"]
mod by;
#[cfg(all(feature = "rustcrypto", not(feature = "ring")))]
#[path = "ciphers/rustcrypto.rs"]
mod by;

#[cfg(not(any(feature = "ring", feature = "rustcrypto")))]
compile_error!("the ciphers need one of the features ring and rustcrypto");

pub(crate) use by::{Aead, Mask, extract};

/// How many bytes a tag has.
pub const TAG_LEN: usize = 16;

/// How many bytes a sample has.
pub const SAMPLE_LEN: usize = 16;

/// A cipher suite of TLS 1.3 whose packets are opened here, by the algorithm that protects them.
#[derive(Clone, Copy, Debug, PartialEq, Eq, Hash)]
pub enum Suite {
    /// `TLS_AES_128_GCM_SHA256`.
    Aes128Gcm,
    /// `TLS_AES_256_GCM_SHA384`.
    Aes256Gcm,
    /// `TLS_CHACHA20_POLY1305_SHA256`.
    ChaCha20Poly1305,
}

impl Suite {
    /// All of them.
    pub const ALL: [Suite; 3] = [Suite::Aes128Gcm, Suite::Aes256Gcm, Suite::ChaCha20Poly1305];

    /// The one with a number in TLS, if its packets are opened here.
    pub fn of(number: u16) -> Option<Suite> {
        Suite::ALL.into_iter().find(|suite| suite.number() == number)
    }

    /// Its number in TLS (RFC 8446, section B.4).
    pub fn number(self) -> u16 {
        match self {
            Suite::Aes128Gcm => 0x1301,
            Suite::Aes256Gcm => 0x1302,
            Suite::ChaCha20Poly1305 => 0x1303,
        }
    }

    /// How many bytes its keys have.
    pub fn key_len(self) -> usize {
        if self == Suite::Aes128Gcm { 16 } else { 32 }
    }

    /// How many bytes its secrets have: as many as its hash.
    pub fn secret_len(self) -> usize {
        if self == Suite::Aes256Gcm { 48 } else { 32 }
    }
}

/// HKDF-Expand-Label with an empty context (RFC 8446, section 7.1). `None` if a length isn't the suite's.
pub(crate) fn expand_label(suite: Suite, secret: &[u8], label: &str, out: &mut [u8]) -> Option<()> {
    let mut info = Vec::with_capacity(10 + label.len());
    info.extend(u16::try_from(out.len()).ok()?.to_be_bytes());
    info.push(u8::try_from(6 + label.len()).ok()?);
    info.extend(b"tls13 ");
    info.extend(label.as_bytes());
    info.push(0);
    by::expand(suite, secret, &info, out)
}
