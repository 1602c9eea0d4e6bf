//! What is found: the rules that are broken, and what couldn't be checked.

use crate::rule::{Need, Rule, Section};
use crate::vantage::Vantage;
use quic_wire::Side;
use quic_wire::datagram::HeaderKind;
use std::collections::BTreeMap;

/// How many groups of findings are kept. Further ones are only counted.
pub const MOST_GROUPS: usize = 1 << 14;

/// A rule that is broken, and where. All findings of a rule in what a side of a connection sent are one, the first.
#[derive(Clone, Debug)]
pub struct Finding {
    /// The rule.
    pub rule: &'static Rule,
    /// The section that says so: the rule's, or one that says more.
    pub section: Section,
    /// The number of the record of its datagram, from 1 on.
    pub record: u64,
    /// When that was captured, in nanoseconds since 1970.
    pub time: u64,
    /// The number of the connection, from 0 on.
    pub connection: usize,
    /// Who sent it.
    pub sender: Side,
    /// The type of the packet.
    pub packet: HeaderKind,
    /// Its number, if it has one.
    pub number: Option<u64>,
    /// Where in the datagram it is, in bytes.
    pub offset: usize,
    /// Where in the packet's payload it is, in bytes, if it is there.
    pub payload_offset: Option<usize>,
    /// What was seen.
    pub seen: String,
    /// What was expected.
    pub expected: String,
    /// How often it was found, this time too.
    pub count: u64,
    /// The record of the last time.
    pub last_record: u64,
}

/// All that is found.
#[derive(Clone, Debug, Default)]
pub struct Report {
    /// What is found, in the order of the records.
    pub findings: Vec<Finding>,
    /// How often a rule had to be silent, by its name and what was missing.
    pub unchecked: BTreeMap<(&'static str, Need), u64>,
    /// How many findings there were beyond [`MOST_GROUPS`] groups, by the names of their rules.
    pub further: BTreeMap<&'static str, u64>,
    /// How many connections were captured where, of those with an opened packet.
    pub taken: BTreeMap<Vantage, u64>,
}

// The connection, the rule's name, the section and the sender, in an order in which those of a connection are together.
type Key = (usize, &'static str, Section, usize);

/// Findings that come in.
#[derive(Default)]
pub(crate) struct Groups {
    by_key: BTreeMap<Key, Finding>,
    unchecked: BTreeMap<(&'static str, Need), u64>,
    further: BTreeMap<&'static str, u64>,
    taken: BTreeMap<Vantage, u64>,
}

impl Groups {
    /// Counts a connection.
    pub(crate) fn count(&mut self, vantage: Vantage) {
        *self.taken.entry(vantage).or_default() += 1;
    }

    pub(crate) fn add(&mut self, finding: Finding) {
        let key = (finding.connection, finding.rule.name, finding.section, finding.sender as usize);
        let is_full = self.by_key.len() >= MOST_GROUPS;
        match self.by_key.get_mut(&key) {
            Some(first) => first.join(finding),
            None if is_full => *self.further.entry(finding.rule.name).or_default() += 1,
            None => {
                self.by_key.insert(key, finding);
            }
        }
    }

    pub(crate) fn silent(&mut self, rule: &Rule, need: Need) {
        *self.unchecked.entry((rule.name, need)).or_default() += 1;
    }

    /// Those of a connection, in the order of the records.
    pub(crate) fn of(&self, connection: usize) -> Vec<&Finding> {
        let from = |connection| (connection, "", Section { rfc: 0, number: "" }, 0);
        let those = self.by_key.range(from(connection)..from(connection.saturating_add(1)));
        let mut those: Vec<_> = those.map(|(_, finding)| finding).collect();
        those.sort_by_key(|one| one.order());
        those
    }

    /// All of them, in the order of the records; nothing is left.
    pub(crate) fn take(&mut self) -> Report {
        let Groups { by_key, unchecked, further, taken } = std::mem::take(self);
        let mut findings: Vec<_> = by_key.into_values().collect();
        findings.sort_by_key(Finding::order);
        Report { findings, unchecked, further, taken }
    }
}

impl Finding {
    fn order(&self) -> (u64, usize, Option<usize>, &'static str, Section) {
        (self.record, self.offset, self.payload_offset, self.rule.name, self.section)
    }

    // What is decided late may be earlier in the file.
    fn join(&mut self, other: Finding) {
        let (count, last) = (self.count + other.count, self.last_record.max(other.last_record));
        if other.record < self.record {
            *self = other;
        }
        (self.count, self.last_record) = (count, last);
    }
}
