//! One object of SARIF 2.1.0, by which CI systems annotate what they check.
use super::{Form, Whole};
use crate::capture::object::Object;
use crate::capture::words::{self, count};
use quic_wire_check::finding::Finding;
use quic_wire_check::rule::{Level, Rule, Section};
use std::collections::BTreeMap;
use std::ffi::OsStr;
use std::fmt::Write;
use std::path::{Component, Path};
use std::sync::{Mutex, PoisonError};

const SCHEMA: &str = "https://json.schemastore.org/sarif-2.1.0.json";

/// What all captures have together.
pub struct Log<'a> {
    rules: &'a [&'static Rule],
    /// By their places among the files.
    captures: Mutex<BTreeMap<usize, Found>>,
}

/// What a capture has: where it is, what was found in it, and what wasn't checked.
#[derive(Default)]
struct Found {
    uri: String,
    results: List,
    notes: List,
}

impl Found {
    // Adds what wasn't checked, by a rule or by any.
    fn note(&mut self, rule: Option<&str>, level: &str, what: &str) {
        let uri = &self.uri;
        self.notes.add(|object| {
            rule.into_iter().for_each(|rule| object.inner("associatedRule", |object| object.word("id", rule)));
            object.word("level", level);
            message(object, "message", what);
            object.list("locations", [uri], |object, uri| {
                object.inner("physicalLocation", |object| artifact(object, uri));
            });
        });
    }
}

/// What is found in a capture goes into a log.
pub struct Sarif<'l> {
    log: &'l Log<'l>,
    place: usize,
}

/// A list of objects.
#[derive(Default)]
struct List {
    text: String,
    len: usize,
}

impl List {
    fn add(&mut self, fill: impl FnOnce(&mut Object<'_>)) {
        if self.len > 0 {
            self.text.push(',');
        }
        self.len += 1;
        let mut object = Object::new(&mut self.text);
        fill(&mut object);
        object.end();
    }
}

// The objects of several lists as one.
fn put<'a>(object: &mut Object<'_>, name: &str, lists: impl Iterator<Item = &'a List>) {
    let texts: Vec<_> = lists.filter(|list| list.len > 0).map(|list| &list.text[..]).collect();
    object.plain(name, format_args!("[{}]", texts.join(",")));
}

impl<'a> Log<'a> {
    pub fn new(rules: &'a [&'static Rule]) -> Self {
        Log { rules, captures: Mutex::default() }
    }

    /// The object: whether all files could be read, and which key logs can't be, and why.
    pub fn text(&self, are_read: bool, unread: &[String]) -> String {
        let captures = self.captures.lock().unwrap_or_else(PoisonError::into_inner);
        let (mut text, mut of_logs) = (String::new(), List::default());
        for what in unread {
            of_logs.add(|object| {
                object.word("level", "error");
                message(object, "message", &format!("key log not read: {what}"));
            });
        }
        let mut object = Object::new(&mut text);
        object.word("$schema", SCHEMA);
        object.word("version", "2.1.0");
        object.list("runs", [self], |object, log| {
            object.inner("tool", |object| object.inner("driver", |object| log.driver(object)));
            object.list("invocations", [&captures], |object, captures| {
                object.flag("executionSuccessful", are_read);
                let notes = captures.values().map(|found| &found.notes);
                put(object, "toolExecutionNotifications", [&of_logs].into_iter().chain(notes));
            });
            object.list("artifacts", captures.values(), |object, found| {
                object.inner("location", |object| object.word("uri", &found.uri));
            });
            put(object, "results", captures.values().map(|found| &found.results));
        });
        object.end();
        text.push('\n');
        text
    }

    fn result(&self, results: &mut List, uri: &str, finding: &Finding, allowed: Option<&str>) {
        let index = self.rules.iter().position(|rule| rule.name == finding.rule.name);
        results.add(|object| {
            object.word("ruleId", finding.rule.name);
            index.into_iter().for_each(|index| object.number("ruleIndex", index as u64));
            object.word("level", level(finding.rule.level));
            let Finding { seen, expected, section, .. } = finding;
            message(object, "message", &format!("{seen}; expected: {expected} ({section})"));
            object.list("locations", [finding], |object, finding| location(object, uri, finding));
            object.inner("partialFingerprints", |object| object.word("finding/v1", &fingerprint(finding)));
            object.number("occurrenceCount", finding.count);
            if let Some(reason) = allowed {
                object.list("suppressions", [reason], |object, reason| {
                    object.word("kind", "external");
                    object.word("justification", reason);
                });
            }
            object.inner("properties", |object| properties(object, finding));
        });
    }

    fn driver(&self, object: &mut Object<'_>) {
        object.word("name", "quic-wire check");
        object.word("version", env!("CARGO_PKG_VERSION"));
        object.list("rules", self.rules, |object, rule| {
            object.word("id", rule.name);
            message(object, "shortDescription", rule.says);
            message(object, "help", &rule.section.to_string());
            object.word("helpUri", &link(rule.section));
            object.inner("defaultConfiguration", |object| object.word("level", level(rule.level)));
        });
    }
}

fn level(level: Level) -> &'static str {
    match level {
        Level::Must => "error",
        Level::Should => "warning",
    }
}

fn artifact(object: &mut Object<'_>, uri: &str) {
    object.inner("artifactLocation", |object| object.word("uri", uri));
}

fn message(object: &mut Object<'_>, name: &str, text: &str) {
    object.inner(name, |object| object.word("text", text));
}

// Where the text of a section is.
fn link(section: Section) -> String {
    format!("https://www.rfc-editor.org/rfc/rfc{}.html#section-{}", section.rfc, section.number)
}

// Viewers of SARIF show lines. Programs print a capture as a line for each record, so the record's number is a line's.
fn location(object: &mut Object<'_>, uri: &str, finding: &Finding) {
    object.inner("physicalLocation", |object| {
        artifact(object, uri);
        object.inner("region", |object| object.number("startLine", finding.record));
    });
    object.list("logicalLocations", [finding], |object, finding| {
        let (sender, kind) = (words::side_name(finding.sender), words::kind_name(finding.packet));
        let number = finding.number.map_or(String::new(), |number| format!(" {number}"));
        object.word("fullyQualifiedName", &format!("connection {}/{sender}/{kind}{number}", finding.connection));
        object.word("kind", "packet");
    });
}

// The same for a finding of another run, whose records and connections have other numbers.
fn fingerprint(finding: &Finding) -> String {
    let Section { rfc, number } = finding.section;
    format!("{}/{}/{rfc}/{number}", finding.rule.name, words::side_name(finding.sender))
}

fn properties(object: &mut Object<'_>, finding: &Finding) {
    object.number("record", finding.record);
    object.number("connection", finding.connection as u64);
    object.word("sender", words::side_name(finding.sender));
    object.word("type", words::kind_name(finding.packet));
    finding.number.into_iter().for_each(|number| object.number("number", number));
    object.number("offset_in_datagram", finding.offset as u64);
    finding.payload_offset.into_iter().for_each(|at| object.number("offset_in_payload", at as u64));
    object.number("last_record", finding.last_record);
}

// A file's name as a reference (RFC 3986): a relative one stays so.
fn uri(name: &OsStr) -> String {
    let is_absolute = Path::new(name).components().next() == Some(Component::RootDir);
    let mut uri = String::from(if is_absolute { "file://" } else { "" });
    for byte in name.as_encoded_bytes() {
        match byte {
            b'a'..=b'z' | b'A'..=b'Z' | b'0'..=b'9' | b'-' | b'.' | b'_' | b'~' | b'/' => uri.push((*byte).into()),
            // Writing to a string doesn't fail.
            _ => {
                let _ = write!(uri, "%{byte:02X}");
            }
        }
    }
    uri
}

impl<'l> Sarif<'l> {
    pub fn new(log: &'l Log<'l>, place: usize) -> Self {
        Sarif { log, place }
    }
}

impl Form for Sarif<'_> {
    // The table is a part of the object.
    fn rule(&mut self, _: &'static Rule) {}

    fn capture(&mut self, name: &OsStr, whole: &Whole<'_>) {
        let mut found = Found { uri: uri(name), ..Found::default() };
        for finding in &whole.report.findings {
            self.log.result(&mut found.results, &found.uri, finding, whole.reason(finding));
        }
        for ((rule, need), number) in &whole.report.unchecked {
            let what = format!("not checked {}: {}", count(*number, "time", ""), need.reason());
            found.note(Some(rule), "note", &what);
        }
        whole.unopened().for_each(|(why, number)| found.note(None, "note", &words::unopened(why, number)));
        if whole.capture.others() > 0 {
            found.note(None, "note", &count(whole.capture.others(), "record", "without a UDP datagram"));
        }
        if whole.skipped_lines > 0 {
            found.note(None, "warning", &count(whole.skipped_lines, "line", "of key logs skipped"));
        }
        whole.gap().into_iter().chain(whole.lack()).for_each(|what| found.note(None, "error", &what));
        self.log.captures.lock().unwrap_or_else(PoisonError::into_inner).insert(self.place, found);
    }
}

#[cfg(test)]
mod tests {
    use super::*;

    #[test]
    fn references() {
        assert_eq!(uri(OsStr::new("runs/a b%.pcap")), "runs/a%20b%25.pcap");
        assert_eq!(uri(OsStr::new("/tmp/c.pcap")), "file:///tmp/c.pcap");
    }
}
