//! vectors/rules.txt names each rule of the table, and no other; each of its lines has a document, a sentence, and rules
//! or a reason.
use quic_wire_check::rules;
use std::collections::{BTreeMap, BTreeSet};

const TEXT: &str = include_str!("../../../vectors/rules.txt");

/// A line: its document with its section, its sentence, and what belongs to it.
struct Line {
    place: &'static str,
    sentence: &'static str,
    rules: &'static str,
    reason: Option<&'static str>,
}

fn lines() -> impl Iterator<Item = Line> {
    TEXT.lines().filter(|line| !line.starts_with('#')).map(|line| match line.split(" | ").collect::<Vec<_>>()[..] {
        [place, sentence, rules] => Line { place, sentence, rules, reason: None },
        [place, sentence, rules, reason] => Line { place, sentence, rules, reason: Some(reason) },
        _ => panic!("{line}: not three or four parts"),
    })
}

fn names(line: &Line) -> impl Iterator<Item = &'static str> + use<> {
    let text = if matches!(line.rules, "-" | "none yet") { "" } else { line.rules };
    text.split_whitespace()
}

#[test]
fn each_rule_is_named_and_no_other() {
    let named: BTreeSet<_> = lines().flat_map(|line| names(&line).collect::<Vec<_>>()).collect();
    let table: BTreeSet<_> = rules::all().map(|rule| rule.name).collect();
    assert_eq!(named.difference(&table).collect::<Vec<_>>(), Vec::<&&str>::new(), "not in the table");
    assert_eq!(table.difference(&named).collect::<Vec<_>>(), Vec::<&&str>::new(), "not in the list");
}

#[test]
fn each_line_has_rules_or_a_reason() {
    for Line { place, sentence, rules, reason } in lines() {
        let has_rules = !matches!(rules, "-" | "none yet");
        assert_eq!(has_rules, reason.is_none(), "{place}: {sentence}");
        // The texts aren't at hand, so nothing is quoted.
        assert!(sentence.starts_with("~ ") && sentence.len() > 12, "{place}: {sentence}");
    }
}

#[test]
fn the_lines_are_in_the_order_of_the_documents() {
    let key = |place: &str| {
        let (document, section) = place.rsplit_once(' ').unwrap();
        let parts: Vec<u32> = section.split('.').map(|part| part.parse().unwrap()).collect();
        (document.to_string(), parts)
    };
    let keys: Vec<_> = lines().map(|line| key(line.place)).collect();
    let early: Vec<_> = keys.windows(2).filter(|two| two[0] > two[1]).map(|two| &two[1]).collect();
    assert!(early.is_empty(), "after a later section: {early:?}");
    let mut seen = BTreeMap::new();
    lines().for_each(|line| *seen.entry((line.place, line.sentence)).or_insert(0) += 1);
    let twice: Vec<_> = seen.iter().filter(|(_, count)| **count > 1).collect();
    assert!(twice.is_empty(), "{twice:?}");
}

// A rule is in the list at its own section, so that who reads the section finds it.
#[test]
fn each_rule_is_at_its_section() {
    for rule in rules::all() {
        let place = format!("RFC {} {}", rule.section.rfc, rule.section.number);
        let is_there = |line: &Line| line.place == place || line.place.starts_with(&format!("{place}."));
        let has = lines().any(|line| is_there(&line) && names(&line).any(|name| name == rule.name));
        assert!(has, "{}: no line of {place}", rule.name);
    }
}
