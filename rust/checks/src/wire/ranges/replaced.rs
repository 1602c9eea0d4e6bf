//! `replace`: the ranges that it returns, and the set after it.
use super::shared::{Runs, gives_replaced, insert_all, on_a_set, set_is};
use crate::host::test::Fail;
use crate::proved::quic_base::coding::NoRoom;
use crate::proved::quic_ranges::range_set::RangeSet;
use std::ops::Range;

// By its contract the set is the union, whether none, one or all of the ranges that `replace` returns are read.
fn replace_unseen(set: &mut RangeSet, x: Range<u64>) -> Result<(), NoRoom> {
    let _ = set.replace(x)?;
    Ok(())
}

fn replace_at_a_look(set: &mut RangeSet, x: Range<u64>) -> Result<(), NoRoom> {
    let mut pieces = set.replace(x)?;
    let _ = pieces.next();
    Ok(())
}

fn count_replaced(set: &mut RangeSet, x: Range<u64>) -> Result<u64, NoRoom> {
    let mut count = 0u64;
    for _piece in set.replace(x)? {
        count = count.wrapping_add(1);
    }
    Ok(count)
}

// The runs of a set, a range that is inserted, the ranges that `replace` returns, and the runs of the set after it.
type ReplaceRow = (Runs, (u64, u64), Runs, Runs);

const REPLACE_ROWS: &[ReplaceRow] = &[
    (&[(1, 5)], (2, 4), &[(2, 4)], &[(1, 5)]),
    (&[(2, 4)], (1, 3), &[(2, 3)], &[(1, 4)]),
    (&[(2, 4)], (4, 6), &[], &[(2, 6)]),
    (&[(2, 4)], (1, 5), &[(2, 4)], &[(1, 5)]),
    (&[(2, 4)], (3, 5), &[(3, 4)], &[(2, 5)]),
    (&[(2, 4)], (0, 2), &[], &[(0, 4)]),
    (&[(2, 4), (6, 8), (15, 30)], (1, 20), &[(2, 4), (6, 8), (15, 20)], &[(1, 30)]),
    (&[(1, 3), (4, 7)], (0, 10), &[(1, 3), (4, 7)], &[(0, 10)]),
    (&[(0, 10)], (5, 2), &[], &[(0, 10)]),
];

// Inserts the row's runs into an empty set. Whether `replace` then returns and leaves what the row has.
fn is_replaced(set: &mut RangeSet, row: &ReplaceRow) -> bool {
    let &(before, (start, end), pieces, after) = row;
    insert_all(set, before).is_ok() && gives_replaced(set, start..end, pieces) && set_is(set, after)
}

// The same if the `Replace` is dropped before its first `next` and, below, after it.
fn is_same_unseen(set: &mut RangeSet, row: &ReplaceRow) -> bool {
    let &(before, (start, end), _, after) = row;
    insert_all(set, before).is_ok() && replace_unseen(set, start..end).is_ok() && set_is(set, after)
}

fn is_same_at_a_look(set: &mut RangeSet, row: &ReplaceRow) -> bool {
    let &(before, (start, end), _, after) = row;
    insert_all(set, before).is_ok() && replace_at_a_look(set, start..end).is_ok() && set_is(set, after)
}

fn is_counted(set: &mut RangeSet, row: &ReplaceRow) -> bool {
    let &(before, (start, end), pieces, _) = row;
    insert_all(set, before).is_ok() && count_replaced(set, start..end) == Ok(pieces.len() as u64)
}

fn check_replaced(row: &ReplaceRow) {
    assert!(is_replaced(&mut RangeSet::new(), row), "replaced");
    assert!(is_same_unseen(&mut RangeSet::new(), row), "unseen");
    assert!(is_same_at_a_look(&mut RangeSet::new(), row), "at a look");
    assert!(is_counted(&mut RangeSet::new(), row), "counted");
}

#[test]
fn replaces() {
    for row in REPLACE_ROWS {
        check_replaced(row);
    }
}

// Ranges that are inserted one after the other, and what each call returns.
const REPLACE_SCRIPT: &[((u64, u64), Runs)] = &[((3, 3), &[]), ((6, 10), &[]), ((5, 5), &[]), ((2, 7), &[(6, 7)])];

fn replace_by_script(set: &mut RangeSet) -> Result<(), NoRoom> {
    for &((start, end), pieces) in REPLACE_SCRIPT {
        assert!(gives_replaced(set, start..end, pieces), "at {start}");
    }
    assert!(set_is(set, &[(2, 10)]));
    Ok(())
}

fn replace_by_script_unseen(set: &mut RangeSet) -> Result<(), NoRoom> {
    for &((start, end), _) in REPLACE_SCRIPT {
        replace_unseen(set, start..end)?;
    }
    assert!(set_is(set, &[(2, 10)]));
    Ok(())
}

#[test]
fn replaces_one_after_the_other() -> Result<(), Fail> {
    on_a_set(replace_by_script)?;
    on_a_set(replace_by_script_unseen)
}
