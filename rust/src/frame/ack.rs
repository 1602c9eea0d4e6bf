//! Acknowledgements: made of a set, kept without their payload, and read again (RFC 9000, section 19.3).
use super::{Ack, AckError, EcnCounts, Frame, Iter};
use crate::WriteError;
use crate::range_set::{ArrayRangeSet, RangeSet};
use bytes::BufMut;
use core::ops::Range;

// No number of an ACK is as large.
const END: u64 = 1 << 62;

// Whether counts can be written.
fn are_counts(ecn: Option<&EcnCounts>) -> bool {
    ecn.is_none_or(|counts| counts.ect0.max(counts.ect1).max(counts.ce) < END)
}

// What `encode` requires of the numbers, the greatest of which is given.
fn check(max: Option<u64>, delay: u64, ecn: Option<&EcnCounts>) -> Result<(), WriteError> {
    match max {
        None => Err(WriteError::OutOfRange("an ACK of no packet")),
        Some(max) if max < END && delay < END && are_counts(ecn) => Ok(()),
        Some(_) => Err(WriteError::OutOfRange("a number in the ACK, its delay or a count is 2^62 or more")),
    }
}

impl<'a> Ack<'a> {
    /// An acknowledgement with these fields. `blocks` must be a first block, any number of pairs of gap and block, and
    /// nothing else (RFC 9000, section 19.3.1). It doesn't allocate.
    ///
    /// ```
    /// use quic_wire::frame::{Ack, AckError};
    /// let ack = Ack::from_parts(9, 5, &[2, 0, 3], None)?;
    /// assert_eq!(ack.iter().collect::<Vec<_>>(), [7..=9, 2..=5]);
    /// assert_eq!(Ack::from_parts(9, 5, &[10], None), Err(AckError::Malformed));
    /// # Ok::<(), AckError>(())
    /// ```
    ///
    /// # Errors
    ///
    /// Why the blocks aren't such; [`AckError::Malformed`] also if the greatest number or the delay is 2^62 or more.
    #[doc = include_str!("../proved/contracts/Ack.from_parts.md")]
    pub fn from_parts(largest: u64, delay: u64, blocks: &'a [u8], ecn: Option<EcnCounts>) -> Result<Ack<'a>, AckError> {
        if largest >= END || delay >= END {
            return Err(AckError::Malformed);
        }
        Ack::proved_from_parts(largest, delay, blocks, ecn)
    }

    /// The ACK that these bytes are. `None` if they aren't exactly one ACK.
    ///
    /// ```
    /// use quic_wire::frame::Ack;
    /// assert_eq!(Ack::from_bytes(&[0x02, 9, 5, 0, 2]).map(|ack| ack.largest()), Some(9));
    /// assert!(Ack::from_bytes(&[0x02, 9, 5, 0, 10]).is_none());
    /// ```
    pub fn from_bytes(bytes: &'a [u8]) -> Option<Ack<'a>> {
        let mut frames = Iter::new(bytes).ok()?;
        match frames.next()? {
            Ok(Frame::Ack(ack)) if frames.offset() == bytes.len() => Some(ack),
            _ => None,
        }
    }

    /// What to keep with the payload, without borrowing it. `None` if its blocks aren't a part of `payload`.
    ///
    /// ```
    /// use quic_wire::frame::{Frame, Iter};
    /// let payload = vec![0x01, 0x02, 9, 5, 1, 2, 0, 3];
    /// let Some(Ok(Frame::Ack(ack))) = Iter::new(&payload)?.nth(1) else { panic!() };
    /// let kept = ack.range_in(&payload).unwrap();
    /// assert_eq!(kept.blocks, 5..8);
    /// assert_eq!(kept.ack(&payload).unwrap(), ack);
    /// assert_eq!(ack.range_in(&[0; 8]), None);
    /// # Ok::<(), quic_wire::Error>(())
    /// ```
    pub fn range_in(&self, payload: &[u8]) -> Option<AckRange> {
        let blocks = self.additional();
        let start = (blocks.as_ptr() as usize).checked_sub(payload.as_ptr() as usize)?;
        let end = start.checked_add(blocks.len()).filter(|end| *end <= payload.len())?;
        Some(AckRange { largest: self.largest(), delay: self.delay(), ecn: self.ecn(), blocks: start..end })
    }

    /// Appends an ACK of a set in its shortest form (RFC 9000, section 19.3). `delay` is in units of
    /// 2^`ack_delay_exponent` microseconds. It doesn't allocate.
    ///
    /// ```
    /// use quic_wire::frame::Ack;
    /// use quic_wire::range_set::ArrayRangeSet;
    /// let mut received = ArrayRangeSet::new();
    /// received.insert(3..5);
    /// received.insert_one(9);
    /// let mut out = Vec::new();
    /// Ack::encode(0, &received, None, &mut out)?;
    /// assert_eq!(out, [0x02, 9, 0, 1, 0, 3, 1]);
    /// # Ok::<(), quic_wire::Error>(())
    /// ```
    ///
    /// # Errors
    ///
    /// If the set is empty, or a number in it, the delay or a count is 2^62 or more; nothing is written then. If there
    /// is too little room: a prefix of the frame may be written then.
    #[doc = include_str!("../proved/contracts/Ack.encode.md")]
    pub fn encode<B: BufMut>(
        delay: u64,
        ranges: &ArrayRangeSet,
        ecn: Option<&EcnCounts>,
        out: &mut B,
    ) -> Result<(), WriteError> {
        check(ranges.max(), delay, ecn)?;
        Ok(Ack::proved_encode(delay, ranges.proved(), ecn, out)?)
    }

    /// Appends an ACK of a [`RangeSet`], as [`Ack::encode`] does.
    ///
    /// # Errors
    ///
    /// As [`Ack::encode`].
    #[doc = include_str!("../proved/contracts/Ack.encode_from.md")]
    pub fn encode_from<B: BufMut>(
        delay: u64,
        set: &RangeSet,
        ecn: Option<&EcnCounts>,
        out: &mut B,
    ) -> Result<(), WriteError> {
        check(set.max(), delay, ecn)?;
        Ok(Ack::proved_encode_from(delay, set.proved(), ecn, out)?)
    }
}

impl EcnCounts {
    /// Appends the three counts (RFC 9000, section 19.3.2).
    ///
    /// # Errors
    ///
    /// If a count is 2^62 or more; or if there is too little room: a prefix may be written then.
    #[doc = include_str!("../proved/contracts/EcnCounts.encode.md")]
    pub fn encode<B: BufMut>(&self, out: &mut B) -> Result<(), WriteError> {
        if !are_counts(Some(self)) {
            return Err(WriteError::OutOfRange("an ECN count is 2^62 or more"));
        }
        Ok(self.proved_encode(out)?)
    }
}

/// An acknowledgement without a borrow of its payload: its numbers, and where its blocks are.
#[derive(Clone, Debug, PartialEq, Eq, Hash)]
pub struct AckRange {
    /// The greatest packet number that is acknowledged.
    pub largest: u64,
    /// The delay, in units of 2^`ack_delay_exponent` microseconds.
    pub delay: u64,
    /// The ECN counts, if the frame has them.
    pub ecn: Option<EcnCounts>,
    /// The byte range of its blocks in the payload: the first block, and the pairs of gap and block.
    pub blocks: Range<usize>,
}

impl AckRange {
    /// The acknowledgement in this payload, whose blocks are checked again.
    ///
    /// # Errors
    ///
    /// If the payload ends before the blocks do, or its bytes there aren't blocks.
    pub fn ack<'a>(&self, payload: &'a [u8]) -> Result<Ack<'a>, AckError> {
        let blocks = payload.get(self.blocks.clone()).ok_or(AckError::UnexpectedEnd)?;
        Ack::from_parts(self.largest, self.delay, blocks, self.ecn)
    }
}
