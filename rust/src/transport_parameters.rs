//! Transport parameters (RFC 9000, sections 7.4 and 18; RFC 9221, section 3; RFC 9287, section 3; the ACK frequency
//! extension).
//!
//! ```
//! use quic_wire::transport_parameters::{ReadOptions, TransportParameters};
//! use quic_wire::{Side, VarInt};
//! let sent = TransportParameters { max_idle_timeout: VarInt::from_u32(30), ..TransportParameters::default() };
//! assert!(sent.in_range(Side::Server));
//! let mut list = Vec::new();
//! sent.write(&mut list)?;
//! assert_eq!(list, [0x01, 1, 30]);
//! assert_eq!(TransportParameters::read(Side::Server, &mut list.as_slice())?, sent);
//!
//! // Twice a grease_quic_bit.
//! let refused = TransportParameters::read_list(Side::Client, ReadOptions::RFC, &[0x6a, 0xb2, 0, 0x6a, 0xb2, 0]);
//! assert_eq!(refused.map_err(|refusal| refusal.offset), Err(3));
//! # Ok::<(), quic_wire::Error>(())
//! ```
use crate::transport_error;
use crate::{WriteError, varint};
use bytes::BufMut;
use core::fmt;
use core::iter::FusedIterator;

use crate::proved::quic_params::transport_parameters::write_entry;
pub use crate::proved::quic_params::transport_parameters::{
    Error, MAX_PAYLOAD_SIZE, PreferredAddress, ReadOptions, Refusal, ReservedTransportParameter, TransportParameterId,
    TransportParameters, Value, WriteOrder, known, split_entry, value_number,
};

impl ReservedTransportParameter {
    /// The nth parameter without a meaning, whose number is `31 * n + 27`, with this payload (RFC 9000, section 18.1).
    /// `None` if that number is 2^62 or more, or the payload has more than 16 bytes.
    ///
    /// ```
    /// use quic_wire::transport_parameters::ReservedTransportParameter;
    /// assert!(ReservedTransportParameter::new(0, b"any").is_some());
    /// assert!(ReservedTransportParameter::new(1 << 58, b"any").is_none());
    /// ```
    #[doc = include_str!("proved/contracts/ReservedTransportParameter.new.md")]
    pub fn new(n: u64, payload: &[u8]) -> Option<ReservedTransportParameter> {
        let number = n.checked_mul(31)?.checked_add(27)?;
        let is_written = number <= varint::MAX && payload.len() <= MAX_PAYLOAD_SIZE;
        is_written.then(|| ReservedTransportParameter::proved_new(n, payload))
    }
}

impl fmt::Display for Refusal {
    fn fmt(&self, f: &mut fmt::Formatter<'_>) -> fmt::Result {
        match self.id {
            Some(id) => write!(f, "{}: {id:#x} at byte {}", self.error, self.offset),
            None => write!(f, "{}: at byte {}", self.error, self.offset),
        }
    }
}

impl core::error::Error for Refusal {}

/// The error to close the connection with.
impl From<Refusal> for transport_error::Error {
    fn from(refusal: Refusal) -> transport_error::Error {
        refusal.error.into()
    }
}

impl From<Refusal> for crate::Error {
    fn from(refusal: Refusal) -> crate::Error {
        refusal.error.into()
    }
}

/// An entry of a list: a number, and the bytes of its value (RFC 9000, section 18).
#[derive(Clone, Copy, Debug, PartialEq, Eq, Hash)]
pub struct Entry<'a> {
    /// The number of the parameter, below 2^62.
    pub id: u64,
    /// The bytes of its value.
    pub value: &'a [u8],
}

impl Entry<'_> {
    /// Whether the number is one of those without a meaning (RFC 9000, section 18.1).
    pub fn is_reserved(&self) -> bool {
        self.id % 31 == 27
    }

    /// Appends the entry in its least widths.
    ///
    /// ```
    /// use quic_wire::transport_parameters::Entry;
    /// let mut list = Vec::new();
    /// Entry { id: 0x40, value: &[7] }.write(&mut list)?;
    /// assert_eq!(list, [0x40, 0x40, 1, 7]);
    /// # Ok::<(), quic_wire::WriteError>(())
    /// ```
    ///
    /// # Errors
    ///
    /// If its number is 2^62 or more: nothing is written then. If there is too little room: a prefix may be written
    /// then.
    #[doc = include_str!("proved/contracts/write_entry.md")]
    pub fn write<B: BufMut>(&self, out: &mut B) -> Result<(), WriteError> {
        if self.id > varint::MAX || self.value.len() as u64 > varint::MAX {
            return Err(WriteError::OutOfRange("a number of a parameter is 2^62 or more"));
        }
        Ok(write_entry(self.id, self.value, out)?)
    }
}

/// The entries of a list, in order, also those whose parameters are unknown. Values aren't checked.
///
/// ```
/// use quic_wire::transport_parameters::{Entry, Error, entries};
/// let mut list = entries(&[0x1b, 1, 7, 0x04, 2]);
/// assert_eq!(list.next(), Some(Ok(Entry { id: 0x1b, value: &[7] })));
/// assert_eq!((list.offset(), list.next(), list.next()), (3, Some(Err(Error::Malformed)), None));
/// ```
pub fn entries(list: &[u8]) -> Entries<'_> {
    Entries { whole: list.len(), rest: Some(list) }
}

/// The entries of a list, and one error if the rest doesn't begin with an entry.
#[derive(Clone, Debug)]
pub struct Entries<'a> {
    whole: usize,
    // None after an error.
    rest: Option<&'a [u8]>,
}

impl Entries<'_> {
    /// Where the next entry begins in the list, in bytes; the list's end after an error.
    pub fn offset(&self) -> usize {
        self.whole - self.rest.map_or(0, <[u8]>::len)
    }
}

impl<'a> Iterator for Entries<'a> {
    type Item = Result<Entry<'a>, Error>;

    fn next(&mut self) -> Option<Self::Item> {
        let list = self.rest.filter(|list| !list.is_empty())?;
        let entry = split_entry(list);
        self.rest = entry.map(|(_, _, rest)| rest);
        Some(entry.map(|(id, value, _)| Entry { id, value }).ok_or(Error::Malformed))
    }
}

impl FusedIterator for Entries<'_> {}
