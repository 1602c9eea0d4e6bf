//! What the tests of sets share.
//!
//! Helpers borrow their sets and return whether every fact held, `false` if an allocation fails, so that no test
//! returns early while it owns a set.
use crate::host::test::Fail;
use crate::proved::quic_base::coding::NoRoom;
use crate::proved::quic_ranges::range_set::{ArrayRangeSet, RangeSet, Replace};
use std::ops::Range;

pub(super) type Runs = &'static [(u64, u64)];

// A call that changes a set.
#[derive(Clone, Copy)]
pub(super) enum Call {
    Insert(u64, u64),
    InsertOne(u32),
    InsertGreatest,
    Remove(u64, u64),
}

// Makes the call, and returns whether it changes the set.
pub(super) fn made(set: &mut RangeSet, call: Call) -> Result<bool, NoRoom> {
    match call {
        Call::Insert(start, end) => set.insert(start..end),
        Call::InsertOne(x) => set.insert_one(x.into()),
        Call::InsertGreatest => set.insert_one(u64::MAX - 1),
        Call::Remove(start, end) => set.remove(start..end),
    }
}

pub(super) fn made_in_array(set: &mut ArrayRangeSet, call: Call) -> Result<bool, NoRoom> {
    match call {
        Call::Insert(start, end) => set.insert(start..end),
        Call::InsertOne(x) => set.insert_one(x.into()),
        Call::InsertGreatest => set.insert_one(u64::MAX - 1),
        Call::Remove(start, end) => set.remove(start..end),
    }
}

// Runs a check on a new set; it fails if an allocation fails.
pub(super) fn on_a_set<F: FnOnce(&mut RangeSet) -> Result<(), NoRoom>>(check: F) -> Result<(), Fail> {
    let checked = check(&mut RangeSet::new());
    assert!(checked.is_ok());
    Ok(())
}

pub(super) fn on_an_array<F: FnOnce(&mut ArrayRangeSet) -> Result<(), NoRoom>>(check: F) -> Result<(), Fail> {
    let checked = check(&mut ArrayRangeSet::new());
    assert!(checked.is_ok());
    Ok(())
}

// The same with two new sets.
pub(super) fn on_two_sets<F: FnOnce(&mut RangeSet, &mut RangeSet) -> Result<(), NoRoom>>(check: F) -> Result<(), Fail> {
    let mut set = RangeSet::new();
    let checked = check(&mut set, &mut RangeSet::new());
    assert!(checked.is_ok());
    Ok(())
}

pub(super) fn on_two_arrays<F: FnOnce(&mut ArrayRangeSet, &mut ArrayRangeSet) -> Result<(), NoRoom>>(
    check: F,
) -> Result<(), Fail> {
    let mut set = ArrayRangeSet::new();
    let checked = check(&mut set, &mut ArrayRangeSet::new());
    assert!(checked.is_ok());
    Ok(())
}

pub(super) fn insert_all(set: &mut RangeSet, ranges: &[(u64, u64)]) -> Result<(), NoRoom> {
    for &(start, end) in ranges {
        let _ = set.insert(start..end)?;
    }
    Ok(())
}

pub(super) fn insert_all_in_array(set: &mut ArrayRangeSet, ranges: &[(u64, u64)]) -> Result<(), NoRoom> {
    for &(start, end) in ranges {
        let _ = set.insert(start..end)?;
    }
    Ok(())
}

// Whether the set has exactly these runs.
pub(super) fn set_is(set: &RangeSet, runs: &[(u64, u64)]) -> bool {
    let mut rest = set.iter();
    for &(start, end) in runs {
        if rest.next() != Some(start..end) {
            return false;
        }
    }
    rest.next().is_none() && set.len() == runs.len()
}

pub(super) fn array_is(set: &ArrayRangeSet, runs: &[(u64, u64)]) -> bool {
    let mut rest = set.iter();
    for &(start, end) in runs {
        if rest.next() != Some(start..end) {
            return false;
        }
    }
    rest.next().is_none() && set.len() == runs.len()
}

// Whether exactly these ranges are returned.
fn gives(pieces: Replace<'_>, want: &[(u64, u64)]) -> bool {
    let mut rest = pieces;
    for &(start, end) in want {
        if rest.next() != Some(start..end) {
            return false;
        }
    }
    rest.next().is_none()
}

pub(super) fn gives_replaced(set: &mut RangeSet, x: Range<u64>, pieces: Runs) -> bool {
    match set.replace(x) {
        Ok(given) => gives(given, pieces),
        Err(NoRoom) => false,
    }
}
