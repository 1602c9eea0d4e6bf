//! Sets of packet numbers, and ACKs of them.
use quic_wire::WriteError;
use quic_wire::frame::{Ack, EcnCounts, Frame, Iter};
use quic_wire::range_set::{ArrayRangeSet, BoundedRangeSet, Full, RangeSet};
use std::collections::BTreeSet;
use std::ops::Range;

#[test]
fn a_set_is_acknowledged() {
    let mut set = BoundedRangeSet::<4>::new();
    for number in [14, 1, 2, 10, 3, 5, 11] {
        assert_eq!(set.insert_one(number), Ok(true));
    }
    assert_eq!(set.iter().collect::<Vec<_>>(), [1..4, 5..6, 10..12, 14..15]);
    assert_eq!((set.insert(7..8), set.insert(2..3)), (Err(Full), Ok(false)));
    assert_eq!((set.min(), set.max(), set.len(), set.contains(4)), (Some(1), Some(14), 4, false));
    let counts = EcnCounts { ect0: 42, ect1: 24, ce: 12 };
    let wanted = [3, 14, 42, 3, 0, 1, 1, 3, 0, 0, 2, 42, 24, 12];
    let mut out = vec![];
    assert_eq!(Ack::encode(42, &set, Some(&counts), &mut out), Ok(()));
    assert_eq!(out, wanted);
    let (same, mut other): (RangeSet, _) = (set.iter().collect(), vec![]);
    assert_eq!((Ack::encode_from(42, &same, Some(&counts), &mut other), other), (Ok(()), out.clone()));
    assert_eq!(Ack::encode(42, &set, Some(&counts), &mut &mut [0; 13][..]), Err(WriteError::NoRoom));
    let Some(Ok(Frame::Ack(ack))) = Iter::new(&out).unwrap().next() else { panic!() };
    assert_eq!(ack.iter().collect::<Vec<_>>(), [14..=14, 10..=11, 5..=5, 1..=3]);
    assert_eq!(set.remove(0..12), Ok(true));
    assert_eq!(format!("{:?}", set.as_set()), "{14..15}");
}

#[test]
fn an_ack_that_cannot_be_written_is_named() {
    let of = |range: Range<u64>| ArrayRangeSet::from_iter([range]);
    let large = "a number in the ACK, its delay or a count is 2^62 or more";
    let counts = EcnCounts { ce: 1 << 62, ..EcnCounts::ZERO };
    let refused = [
        (0, of(0..0), None, "an ACK of no packet"),
        (0, of(1..(1 << 62) + 1), None, large),
        (1 << 62, of(1..2), None, large),
        (0, of(1..2), Some(&counts), large),
    ];
    for (delay, set, ecn, what) in refused {
        let mut out = vec![];
        assert_eq!(Ack::encode(delay, &set, ecn, &mut out), Err(WriteError::OutOfRange(what)));
        let set = RangeSet::from_iter(&set);
        assert_eq!(Ack::encode_from(delay, &set, ecn, &mut out), Err(WriteError::OutOfRange(what)));
        assert!(out.is_empty());
    }
    assert!(counts.encode(&mut vec![]).is_err());
}

#[test]
fn a_bounded_set_drops_the_least() {
    let mut set = BoundedRangeSet::<3>::new();
    let dropped: Vec<_> = (0..10).rev().map(|n| set.insert_or_drop_min(4 * n..4 * n + 1)).collect();
    assert_eq!(dropped[..3], [None, None, None]);
    assert_eq!(dropped[3..5], [Some(24..25), Some(20..21)]);
    assert_eq!(set.insert_or_drop_min(40..41), Some(28..29));
    assert_eq!(set.insert_or_drop_min(41..43), None);
    assert_eq!(set.iter().collect::<Vec<_>>(), [32..33, 36..37, 40..43]);
    assert_eq!((set.pop_min(), set.peek_min()), (Some(32..33), Some(36..37)));
    set.clear();
    assert!(set.is_empty() && set.pop_min().is_none() && set == BoundedRangeSet::default());
    assert_eq!(BoundedRangeSet::<0>::new().insert_or_drop_min(1..2), Some(1..2));
    let mut empty = BoundedRangeSet::<2>::new();
    assert_eq!(empty.insert(Range { start: 5, end: 5 }), Ok(false));
    assert_eq!((empty.insert_one(u64::MAX), ArrayRangeSet::new().insert_one(u64::MAX)), (Ok(false), false));
}

/// Every set of numbers below 8 in at most three runs, and every change by a range: one that would need a run more is
/// refused, and changes nothing.
#[test]
fn a_bound_is_kept() {
    let ranges = || (0..9).flat_map(|start| (0..10).map(move |end| Range { start, end }));
    for bits in 0..=255_u8 {
        let all: ArrayRangeSet = (0..8).filter(|n| bits >> n & 1 == 1).map(|n| n..n + 1).collect();
        let mut set = BoundedRangeSet::<3>::new();
        if all.iter().any(|run| set.insert(run).is_err()) {
            continue;
        }
        assert_eq!(set.as_set(), &all);
        for x in ranges() {
            let (mut more, mut less) = (all.clone(), all.clone());
            let changed = (more.insert(x.clone()), less.remove(x.clone()));
            for (after, changed, is_insert) in [(more, changed.0, true), (less, changed.1, false)] {
                let mut bounded = set.clone();
                let answer = if is_insert { bounded.insert(x.clone()) } else { bounded.remove(x.clone()) };
                let wanted = if after.len() > 3 { (Err(Full), &all) } else { (Ok(changed), &after) };
                assert_eq!((answer, bounded.as_set()), wanted, "{x:?} of {all:?}");
            }
        }
    }
}

/// Against a set of numbers, with some thousand changes.
#[test]
fn sets_are_sets() {
    let (mut seed, mut set, mut array, mut model) = (1_u64, RangeSet::new(), ArrayRangeSet::new(), BTreeSet::new());
    for _ in 0..4000 {
        seed = seed.wrapping_mul(6_364_136_223_846_793_005).wrapping_add(1_442_695_040_888_963_407);
        let (start, len) = ((seed >> 40) % 100, (seed >> 60) % 8);
        let before = model.clone();
        let changed = if seed >> 33 & 1 == 0 {
            model.extend(start..start + len);
            [set.insert(start..start + len), array.insert(start..start + len)]
        } else {
            model.retain(|n| !(start..start + len).contains(n));
            [set.remove(start..start + len), array.remove(start..start + len)]
        };
        assert_eq!(changed, [before != model; 2]);
        assert!(set.elts().eq(model.iter().copied()) && set.elts().rev().eq(model.iter().rev().copied()));
        assert!(set.iter().eq(array.iter()));
    }
    let odd: RangeSet = set.elts().filter(|n| n % 2 == 1).map(|n| n..n + 1).collect();
    let mut half = set.clone();
    half.subtract(&odd);
    assert!(half.elts().eq(model.iter().copied().filter(|n| n % 2 == 0)));
    half.add(&odd);
    assert_eq!(half, set);
    array.subtract(&odd.into_iter().collect());
    assert!(array.elts().all(|n| n % 2 == 0));
}

#[test]
fn a_set_grows() {
    let mut set = RangeSet::default();
    assert_eq!((set.min(), set.max(), set.pop_min(), set.contains(0)), (None, None, None, false));
    for number in (0..100).rev() {
        assert!(set.insert_one(3 * number) && !set.insert_one(3 * number));
    }
    let shown = (set.len(), set.min(), set.max(), set.contains(6), set.contains(7));
    assert_eq!(shown, (100, Some(0), Some(297), true, false));
    assert_eq!(set, set.clone());
    assert!(set.clone().replace(1..5).eq(std::iter::once(3..4)));
    set.subtract(&std::iter::once(1..296).collect());
    assert_eq!(format!("{set:?}"), "{0..1, 297..298}");
    assert_eq!(set.elts().rev().collect::<Vec<_>>(), [297, 0]);
    assert_eq!((set.pop_min(), set.peek_min()), (Some(0..1), Some(297..298)));
    // Both go on.
    let mut copy = set.clone();
    assert!(copy.insert(5..7) && copy.insert(1..2) && set.insert(1..2) && set.insert(5..7) && copy == set);
    set.clear();
    assert!(set.is_empty() && set == RangeSet::new());
}
