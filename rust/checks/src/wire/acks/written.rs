//! Acknowledgements of sets, written and read back.
use super::read::has_ranges;
use crate::host::prelude::*;
use crate::proved::quic_base::coding::NoRoom;
use crate::proved::quic_frames::frame::{Ack, EcnCounts, Frame, Iter};
use crate::proved::quic_ranges::range_set::{ArrayRangeSet, RangeSet};

fn insert_all(set: &mut ArrayRangeSet, runs: &[(u64, u64)]) -> Result<(), NoRoom> {
    for &(start, end) in runs {
        let _ = set.insert(start..end)?;
    }
    Ok(())
}

// The same set with its runs in a vector.
fn insert_all_of(equal: &mut RangeSet, set: &ArrayRangeSet) -> Result<(), NoRoom> {
    for run in set.iter() {
        let _ = equal.insert(run)?;
    }
    Ok(())
}

fn are_small(counts: Option<&EcnCounts>) -> bool {
    match counts {
        None => true,
        Some(counts) => counts.ect0 < 1 << 62 && counts.ect1 < 1 << 62 && counts.ce < 1 << 62,
    }
}

// Writes the ACK of a set; `false` if an allocation fails.
fn encode(out: &mut Vec<u8>, delay: u64, set: &ArrayRangeSet, counts: Option<&EcnCounts>) -> bool {
    let Some(greatest) = set.max() else {
        return false;
    };
    if greatest >= 1 << 62 || delay >= 1 << 62 || !are_small(counts) {
        return false;
    }
    Ack::proved_encode(delay, set, counts, out).is_ok()
}

// The same for a set whose ranges are in a vector.
fn encode_from(out: &mut Vec<u8>, delay: u64, set: &RangeSet, counts: Option<&EcnCounts>) -> bool {
    let Some(greatest) = set.max() else {
        return false;
    };
    if greatest >= 1 << 62 || delay >= 1 << 62 || !are_small(counts) {
        return false;
    }
    Ack::proved_encode_from(delay, set, counts, out).is_ok()
}

fn encode_from_equal(
    out: &mut Vec<u8>,
    equal: &mut RangeSet,
    delay: u64,
    set: &ArrayRangeSet,
    counts: Option<&EcnCounts>,
) -> bool {
    insert_all_of(equal, set).is_ok() && encode_from(out, delay, equal, counts)
}

// Whether both encoders write the same ACK of a set.
fn encode_by_both(out: &mut Vec<u8>, delay: u64, set: &ArrayRangeSet, counts: Option<&EcnCounts>) -> bool {
    let mut other = Vec::new();
    let equal = &mut RangeSet::new();
    encode(out, delay, set, counts)
        && encode_from_equal(&mut other, equal, delay, set, counts)
        && out.as_slice() == other.as_slice()
}

// The delay of an ACK, the runs of its set, its counts, and its bytes.
type AckRow = (u64, &'static [(u64, u64)], Option<EcnCounts>, &'static [u8]);

const ACKS: &[AckRow] = &[
    (0, &[(0, 1)], None, b"\x02\x00\x00\x00\x00"),
    (0, &[(0, 1), (2, 3)], None, b"\x02\x02\x00\x01\x00\x00\x00"),
    (0, &[(0, 2), (3, 4)], None, b"\x02\x03\x00\x01\x00\x00\x01"),
    (
        42,
        &[(1, 4), (5, 6), (10, 12), (14, 15)],
        Some(EcnCounts { ect0: 42, ect1: 24, ce: 12 }),
        b"\x03\x0e\x2a\x03\x00\x01\x01\x03\x00\x00\x02\x2a\x18\x0c",
    ),
];

fn is_written(out: &mut Vec<u8>, set: &mut ArrayRangeSet, row: &AckRow) -> bool {
    let &(delay, runs, counts, bytes) = row;
    insert_all(set, runs).is_ok() && encode_by_both(out, delay, set, counts.as_ref()) && out.as_slice() == bytes
}

// The same for a new set and a new vector.
fn is_written_anew(row: &AckRow) -> bool {
    let set = &mut ArrayRangeSet::new();
    is_written(&mut Vec::new(), set, row)
}

#[test]
fn acks_of_few_numbers() {
    for row in ACKS {
        let written = is_written_anew(row);
        assert!(written, "at {row:?}");
    }
}

fn has_parts(ack: &Ack<'_>, ranges: &[(u64, u64)], delay: u64, counts: EcnCounts) -> bool {
    has_ranges(ack, ranges) && ack.delay() == delay && ack.ecn() == Some(counts)
}

// Whether the bytes are an ACK and nothing else, and it has these ranges, this delay and these counts.
fn is_read_as(bytes: &[u8], ranges: &[(u64, u64)], delay: u64, counts: EcnCounts) -> bool {
    let Some(mut iter) = Iter::new(bytes).ok() else {
        return false;
    };
    let Some(Ok(Frame::Ack(ack))) = iter.next() else {
        return false;
    };
    has_parts(&ack, ranges, delay, counts) && iter.next().is_none()
}

fn is_read_back(out: &mut Vec<u8>, set: &mut ArrayRangeSet) -> bool {
    let runs = [(14, 15), (1, 3), (10, 11), (3, 4), (5, 6), (11, 12)];
    let counts = EcnCounts { ect0: 42, ect1: 24, ce: 12 };
    let wanted = [(14, 14), (10, 11), (5, 5), (1, 3)];
    insert_all(set, &runs).is_ok()
        && encode_by_both(out, 42, set, Some(&counts))
        && is_read_as(out.as_slice(), &wanted, 42, counts)
}

#[test]
fn an_ack_of_a_set_is_read_back() {
    let set = &mut ArrayRangeSet::new();
    assert!(is_read_back(&mut Vec::new(), set));
}
