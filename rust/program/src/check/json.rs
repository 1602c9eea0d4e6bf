//! Objects for programs, a line each: docs/check.schema.json of the repository describes them.
use super::{Form, Whole};
use crate::capture::object::Object;
use crate::capture::screen::Lines;
use crate::capture::words::{self, Seconds};
use quic_wire_check::finding::Finding;
use quic_wire_check::rule::{Level, Need, Rule, Section};
use quic_wire_check::vantage::Vantage;
use std::ffi::OsStr;

/// Writes an object for each finding, for each rule that was silent, and for each capture.
pub struct Json<L> {
    to: L,
    has_names: bool,
    name: String,
    line: String,
}

impl<L: Lines> Json<L> {
    /// The names of captures can be left out.
    pub fn new(to: L, has_names: bool) -> Self {
        Json { to, has_names, name: String::new(), line: String::new() }
    }

    // Writes an object of a kind.
    fn write(&mut self, kind: &str, fill: impl FnOnce(&mut Object<'_>)) {
        let mut object = Object::new(&mut self.line);
        object.word("kind", kind);
        if !self.name.is_empty() {
            object.word("file", &self.name);
        }
        fill(&mut object);
        object.end();
        self.line.push('\n');
        self.to.write(&self.line);
        self.line.clear();
    }

    fn finding(&mut self, whole: &Whole<'_>, finding: &Finding) {
        self.write("finding", |object| {
            object.plain("time", format_args!("{:#}", Seconds(words::after(whole.begun, finding.time))));
            object.number("connection", finding.connection as u64);
            members(object, finding, whole.reason(finding));
        });
    }
}

/// The members of a finding that a trace of its connection has too.
pub fn members(object: &mut Object<'_>, finding: &Finding, reason: Option<&str>) {
    object.word("rule", finding.rule.name);
    cite(object, finding.rule.level, finding.section);
    object.number("record", finding.record);
    object.word("sender", words::side_name(finding.sender));
    object.word("type", words::kind_name(finding.packet));
    finding.number.into_iter().for_each(|number| object.number("number", number));
    object.number("offset_in_datagram", finding.offset as u64);
    finding.payload_offset.into_iter().for_each(|at| object.number("offset_in_payload", at as u64));
    object.word("seen", &finding.seen);
    object.word("expected", &finding.expected);
    object.number("count", finding.count);
    object.number("last_record", finding.last_record);
    reason.into_iter().for_each(|reason| object.word("allowed", reason));
}

fn cite(object: &mut Object<'_>, level: Level, section: Section) {
    object.word("level", &level.to_string());
    object.number("rfc", section.rfc.into());
    object.word("section", section.number);
}

impl<L: Lines> Form for Json<L> {
    fn rule(&mut self, rule: &'static Rule) {
        self.write("rule", |object| {
            object.word("rule", rule.name);
            cite(object, rule.level, rule.section);
            object.word("says", rule.says);
            object.word("history", &rule.history.to_string());
            object.list("needs", rule.needs, |object, need| {
                object.word("need", need.name());
                object.word("reason", need.reason());
            });
        });
    }

    fn capture(&mut self, name: &OsStr, whole: &Whole<'_>) {
        if self.has_names {
            self.name = name.to_string_lossy().into_owned();
        }
        let Whole { report, capture, counts, rules, .. } = whole;
        report.findings.iter().for_each(|finding| self.finding(whole, finding));
        for ((rule, need), count) in &report.unchecked {
            let need: &Need = need;
            self.write("unchecked", |object| {
                object.word("rule", rule);
                object.word("need", need.name());
                object.word("reason", need.reason());
                object.number("count", *count);
            });
        }
        self.write("capture", |object| {
            object.number("records", capture.records());
            object.number("datagrams", counts.datagrams);
            object.number("connections", counts.connections as u64);
            object.number("opened", counts.opened);
            object.number("unopened", whole.shut());
            object.list("unopened_reasons", whole.unopened(), |object, (why, count)| {
                object.word("reason", &why.to_string());
                object.number("count", count);
            });
            object.number("skipped_lines", whole.skipped_lines);
            whole.has_enough().into_iter().for_each(|is_so| object.flag("enough_opened", is_so));
            object.number("rules", *rules as u64);
            object.number("must", whole.broken(Level::Must));
            object.number("should", whole.broken(Level::Should));
            object.number("allowed", whole.allowed());
            object.number("further", whole.further());
            object.inner("taken_at", |object| {
                for vantage in [Vantage::Client, Vantage::Server, Vantage::Path] {
                    object.number(vantage.name(), report.taken.get(&vantage).copied().unwrap_or_default());
                }
            });
            object.flag("cut_off", capture.is_cut());
            whole.unread.into_iter().for_each(|why| object.word("unread", why));
        });
        self.name.clear();
    }
}
