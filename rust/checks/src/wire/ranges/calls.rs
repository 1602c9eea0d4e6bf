//! Calls on sets without failing allocations: worked rows, and what quinn-proto returns.
use super::shared::{
    Call, Runs, array_is, gives_replaced, insert_all, insert_all_in_array, made, made_in_array, on_a_set, on_an_array,
    on_two_arrays, on_two_sets, set_is,
};
use crate::host::test::Fail;
use crate::proved::quic_base::coding::NoRoom;
use crate::proved::quic_ranges::range_set::{ArrayRangeSet, RangeSet};

fn add(set: &mut RangeSet, other: &mut RangeSet) -> Result<(), NoRoom> {
    insert_all(set, &[(1, 3), (5, 7)])?;
    insert_all(other, &[(3, 5), (9, 10)])?;
    assert!(set.add(other) == Ok(()));
    assert!(set_is(set, &[(1, 7), (9, 10)]));
    assert!(set_is(other, &[(3, 5), (9, 10)]));
    Ok(())
}

#[test]
fn adds() -> Result<(), Fail> {
    on_two_sets(add)
}

// Whether a clone has these runs, and its original still has them.
fn copy_is(set: &RangeSet, runs: Runs) -> bool {
    let Some(copy) = set.try_clone().ok() else {
        return false;
    };
    set_is(&copy, runs)
}

fn clone(set: &mut RangeSet) -> Result<(), NoRoom> {
    insert_all(set, THREE_RUNS)?;
    assert!(copy_is(set, THREE_RUNS) && set_is(set, THREE_RUNS));
    Ok(())
}

fn array_copy_is(array: &ArrayRangeSet, runs: Runs) -> bool {
    let Some(copy) = array.try_clone().ok() else {
        return false;
    };
    array_is(&copy, runs)
}

// A clone of two runs, which need no allocation, and one of three.
fn clone_arrays(few: &mut ArrayRangeSet, many: &mut ArrayRangeSet) -> Result<(), NoRoom> {
    insert_all_in_array(few, TWO_RUNS)?;
    insert_all_in_array(many, THREE_RUNS)?;
    assert!(array_copy_is(few, TWO_RUNS) && array_is(few, TWO_RUNS));
    assert!(array_copy_is(many, THREE_RUNS) && array_is(many, THREE_RUNS));
    Ok(())
}

const THREE_RUNS: Runs = &[(1, 3), (5, 7), (9, 11)];

const TWO_RUNS: Runs = &[(1, 3), (5, 7)];

#[test]
fn clones() -> Result<(), Fail> {
    on_a_set(clone)
}

#[test]
fn clones_array_sets() -> Result<(), Fail> {
    on_two_arrays(clone_arrays)
}

// Ranges, others that are subtracted from them, and what is left.
const SUBTRACTED: (Runs, Runs, Runs) = (&[(0, 100), (200, 210)], &[(50, 60), (150, 300)], &[(0, 50), (60, 100)]);

fn subtract(set: &mut RangeSet, other: &mut RangeSet) -> Result<(), NoRoom> {
    let (before, taken, after) = SUBTRACTED;
    insert_all(other, taken)?;
    insert_all(set, before)?;
    set.subtract(other)?;
    assert!(set_is(set, after));
    Ok(())
}

fn subtract_array(array: &mut ArrayRangeSet, other: &mut ArrayRangeSet) -> Result<(), NoRoom> {
    let (before, taken, after) = SUBTRACTED;
    insert_all_in_array(other, taken)?;
    insert_all_in_array(array, before)?;
    array.subtract(other)?;
    assert!(array_is(array, after));
    Ok(())
}

#[test]
fn subtracts() -> Result<(), Fail> {
    on_two_sets(subtract)
}

#[test]
fn subtracts_from_array_sets() -> Result<(), Fail> {
    on_two_arrays(subtract_array)
}

// From which end an element of 0..3 and 5..7 is read, and which one it is.
const ELEMENTS: &[(bool, Option<u64>)] = &[
    (false, Some(0)),
    (true, Some(6)),
    (false, Some(1)),
    (true, Some(5)),
    (true, Some(2)),
    (false, None),
    (true, None),
];

fn gives_elements_from_both_ends(set: &RangeSet) -> bool {
    let mut elements = set.elts();
    for &(is_last, element) in ELEMENTS {
        let got = if is_last { elements.next_back() } else { elements.next() };
        if got != element {
            return false;
        }
    }
    true
}

fn array_has_elements(array: &ArrayRangeSet, wanted: &[u64]) -> bool {
    let mut elements = array.elts();
    for &element in wanted {
        if elements.next() != Some(element) {
            return false;
        }
    }
    elements.next().is_none()
}

fn give(set: &mut RangeSet) -> Result<(), NoRoom> {
    insert_all(set, &[(0, 3), (5, 7)])?;
    assert!(gives_elements_from_both_ends(set));
    Ok(())
}

fn give_of_array(array: &mut ArrayRangeSet) -> Result<(), NoRoom> {
    insert_all_in_array(array, &[(0, 3), (5, 7)])?;
    assert!(array_has_elements(array, &[0, 1, 2, 5, 6]));
    Ok(())
}

#[test]
fn gives_elements() -> Result<(), Fail> {
    on_a_set(give)?;
    on_an_array(give_of_array)
}

// A call, whether it changes the set, and the runs of the set after it.
type Row = (Call, bool, Runs);

const SCRIPT: &[Row] = &[
    (Call::Insert(5, 7), true, &[(5, 7)]),
    (Call::Insert(1, 3), true, &[(1, 3), (5, 7)]),
    (Call::InsertOne(3), true, &[(1, 4), (5, 7)]),
    (Call::InsertOne(4), true, &[(1, 7)]),
    (Call::Insert(2, 6), false, &[(1, 7)]),
    (Call::Remove(3, 4), true, &[(1, 3), (4, 7)]),
    (Call::Remove(7, 9), false, &[(1, 3), (4, 7)]),
];

// A removal from the middle.
const CUT_SCRIPT: &[Row] = &[(Call::Insert(0, 10), true, &[(0, 10)]), (Call::Remove(3, 5), true, &[(0, 3), (5, 10)])];

const GREATEST_SCRIPT: &[Row] = &[(Call::InsertGreatest, true, &[(u64::MAX - 1, u64::MAX)])];

fn run(set: &mut RangeSet, script: &[Row]) -> Result<(), NoRoom> {
    for &(call, changes, runs) in script {
        assert_eq!(made(set, call)?, changes);
        assert!(set_is(set, runs));
    }
    Ok(())
}

fn run_on_array(set: &mut ArrayRangeSet, script: &[Row]) -> Result<(), NoRoom> {
    for &(call, changes, runs) in script {
        assert_eq!(made_in_array(set, call)?, changes);
        assert!(array_is(set, runs));
    }
    Ok(())
}

fn pops_all(set: &mut RangeSet) -> bool {
    set.pop_min() == Some(0..10) && set.min().is_none() && set_is(set, &[])
}

fn run_the_cut(set: &mut RangeSet) -> Result<(), NoRoom> {
    run(set, CUT_SCRIPT)
}

fn run_at_the_greatest(set: &mut RangeSet) -> Result<(), NoRoom> {
    run(set, GREATEST_SCRIPT)
}

// The array set has no `replace`.
fn run_and_replace(set: &mut RangeSet) -> Result<(), NoRoom> {
    run(set, SCRIPT)?;
    assert!(gives_replaced(set, 0..10, &[(1, 3), (4, 7)]));
    assert!(set_is(set, &[(0, 10)]));
    assert!(pops_all(set));
    Ok(())
}

#[test]
fn runs_scripts_on_the_range_set() -> Result<(), Fail> {
    on_a_set(run_and_replace)?;
    on_a_set(run_the_cut)?;
    on_a_set(run_at_the_greatest)
}

#[test]
fn runs_scripts_on_the_array_set() -> Result<(), Fail> {
    for script in &[SCRIPT, CUT_SCRIPT, GREATEST_SCRIPT] {
        on_an_array(|set| run_on_array(set, script))?;
    }
    Ok(())
}

// Whether a number is in 2..4 or 6..9.
const QUERIES: &[(u64, bool)] = &[(1, false), (2, true), (3, true), (4, false), (8, true), (9, false)];

fn has_ends(set: &RangeSet) -> bool {
    set.min() == Some(2) && set.max() == Some(8) && set.peek_min() == Some(2..4) && set.iter().next_back() == Some(6..9)
}

fn has_ends_in_array(set: &mut ArrayRangeSet) -> bool {
    set.min() == Some(2) && set.max() == Some(8) && set.pop_min() == Some(2..4) && array_is(set, &[(6, 9)])
}

// What new sets return, and then sets with these runs.
fn answer(set: &mut RangeSet) -> Result<(), NoRoom> {
    assert!(set.is_empty());
    insert_all(set, &[(2, 4), (6, 9)])?;
    for &(x, present) in QUERIES {
        assert_eq!(set.contains(x), present, "at {x}");
    }
    assert!(!set.is_empty());
    assert!(has_ends(set));
    Ok(())
}

fn answer_for_array(array: &mut ArrayRangeSet) -> Result<(), NoRoom> {
    assert!(array.is_empty());
    insert_all_in_array(array, &[(2, 4), (6, 9)])?;
    for &(x, present) in QUERIES {
        assert_eq!(array.contains(x), present, "at {x}");
    }
    assert!(!array.is_empty());
    assert!(has_ends_in_array(array));
    Ok(())
}

#[test]
fn answers_queries() -> Result<(), Fail> {
    on_a_set(answer)?;
    on_an_array(answer_for_array)
}

fn answer_when_emptied(set: &mut RangeSet) -> Result<(), NoRoom> {
    insert_all(set, &[(2, 4), (6, 9)])?;
    let mut starts = 0;
    for run in &*set {
        starts ^= run.start;
    }
    assert_eq!(starts, 4);
    let _ = set.pop_min();
    let _ = set.pop_min();
    assert!(set.is_empty() && set.peek_min().is_none() && set.max().is_none());
    Ok(())
}

#[test]
fn answers_when_empty() -> Result<(), Fail> {
    on_a_set(answer_when_emptied)
}

// Whether the set of two runs is printed as this.
fn shows(set: &mut RangeSet, text: &str) -> Result<bool, Fail> {
    insert_all(set, &[(1, 3), (5, 7)])?;
    Ok(format!("{set:?}").as_str() == text)
}

fn array_shows(array: &mut ArrayRangeSet, text: &str) -> Result<bool, Fail> {
    insert_all_in_array(array, &[(1, 3), (5, 7)])?;
    Ok(format!("{array:?}").as_str() == text)
}

#[test]
fn shows_sets() -> Result<(), Fail> {
    let set = shows(&mut RangeSet::new(), "RangeSet({1: 3, 5: 7})")?;
    let text = "ArrayRangeSet([1..3, 5..7])";
    let array = array_shows(&mut ArrayRangeSet::new(), text)?;
    assert!(set, "set");
    assert!(array, "array");
    Ok(())
}
