//! Lines for people.
use super::{Form, Whole};
use crate::capture::screen::Screen;
use crate::capture::words::{self, count};
use crate::colour::{Painted, Part as Tone};
use quic_wire_check::finding::{Finding, Report};
use quic_wire_check::rule::{Level, Rule};
use std::ffi::OsStr;
use std::fmt::Display;

/// Writes a line for each finding, for each rule that was silent, and for each capture.
pub struct Text<'s> {
    screen: &'s Screen,
    has_colours: bool,
}

impl<'s> Text<'s> {
    pub fn new(screen: &'s Screen, has_colours: bool) -> Self {
        Text { screen, has_colours }
    }

    fn paint<T: Display>(&self, tone: Tone, text: T) -> Painted<T> {
        tone.paint(self.has_colours, text)
    }

    // A finding in two lines: where it is, and what.
    fn finding(&self, name: &str, finding: &Finding, allowed: Option<&str>) -> String {
        let source = self.paint(Tone::Source, format!("{name}:{}:", finding.record));
        let (sender, kind) = (words::side_name(finding.sender), words::kind_name(finding.packet));
        let number = finding.number.map_or(String::new(), |number| format!(" {number}"));
        let kind = self.paint(Tone::Kind, format!("{kind}{number}"));
        let inner = finding.payload_offset.map_or(String::new(), |at| format!(", byte {at} of the payload"));
        let place = self.paint(Tone::Place, format!("byte {} of the datagram{inner}", finding.offset));
        let rule = self.paint(Tone::Error, format!("{} {}", finding.rule.level, finding.rule.name));
        let (seen, expected, section) = (&finding.seen, &finding.expected, finding.section);
        let again = match finding.count {
            1 => String::new(),
            count => format!(", {count} times up to record {}", finding.last_record),
        };
        let allowed = allowed.map_or(String::new(), |reason| format!(", allowed: {}", printable(reason)));
        let connection = finding.connection;
        format!("{source} connection {connection} {sender} {kind}, {place}{again}\n")
            + &format!("    {rule}: {seen}; expected: {expected} ({section}){allowed}\n")
    }

    // What no rule saw, and why.
    fn lacks(&self, whole: &Whole<'_>) -> Vec<String> {
        let mut lacks: Vec<_> = whole.unopened().map(|(why, number)| words::unopened(why, number)).collect();
        if whole.capture.others() > 0 {
            lacks.push(count(whole.capture.others(), "record", "without a UDP datagram"));
        }
        if whole.skipped_lines > 0 {
            lacks.push(count(whole.skipped_lines, "line", "of key logs skipped"));
        }
        let failures = whole.gap().into_iter().chain(whole.lack());
        lacks.extend(failures.map(|what| self.paint(Tone::Error, what).to_string()));
        lacks
    }
}

// How many rules are broken.
fn broken(whole: &Whole<'_>) -> String {
    match (whole.broken(Level::Must), whole.broken(Level::Should), whole.allowed()) {
        (0, 0, 0) => "nothing found".into(),
        (must, should, allowed) => [(must, "MUST broken"), (should, "SHOULD broken"), (allowed, "allowed")]
            .iter()
            .filter(|(number, _)| *number > 0)
            .map(|(number, what)| format!("{number} {what}"))
            .collect::<Vec<_>>()
            .join(", "),
    }
}

// A name or a reason, in which control characters are escaped: a terminal would obey them.
fn printable(text: &str) -> String {
    text.chars().fold(String::new(), |mut shown, c| {
        if c.is_control() {
            shown.extend(c.escape_default())
        } else {
            shown.push(c)
        }
        shown
    })
}

// Where the connections were captured.
fn taken(report: &Report) -> String {
    match &report.taken.iter().collect::<Vec<_>>()[..] {
        [] => String::new(),
        [(vantage, _)] => format!(" {vantage}"),
        several => {
            let parts: Vec<_> = several.iter().map(|(vantage, number)| format!("{number} {vantage}")).collect();
            format!(" ({})", parts.join(", "))
        }
    }
}

impl Form for Text<'_> {
    fn rule(&mut self, rule: &'static Rule) {
        let name = self.paint(Tone::Kind, rule.name);
        let mut lines = format!("{name} {} ({})\n    {}\n", rule.level, rule.section, rule.says);
        if !rule.needs.is_empty() {
            let reasons: Vec<_> = rule.needs.iter().map(|need| need.reason()).collect();
            lines.push_str(&format!("    silent if {}\n", reasons.join("; or if ")));
        }
        self.screen.write(&lines);
    }

    fn capture(&mut self, name: &OsStr, whole: &Whole<'_>) {
        let Whole { report, capture, counts, rules, .. } = whole;
        let name = printable(&name.to_string_lossy());
        let finding = |finding| self.finding(&name, finding, whole.reason(finding));
        let mut lines: String = report.findings.iter().map(finding).collect();
        let source = self.paint(Tone::Source, format!("{name}:"));
        for ((rule, need), number) in &report.unchecked {
            let times = count(*number, "time", "");
            lines.push_str(&format!("{source} {rule} not checked {times}: {}\n", need.reason()));
        }
        if whole.further() > 0 {
            lines.push_str(&format!("{source} {} not kept\n", count(whole.further(), "further finding", "")));
        }
        self.lacks(whole).iter().for_each(|what| lines.push_str(&format!("{source} {what}\n")));
        // Nothing is clean that can't be read.
        if whole.unread.is_some() && capture.records() == 0 {
            return self.screen.write(&lines);
        }
        lines.push_str(&format!(
            "{source} {}, {}{}, {}, {} not opened, {}: {}\n",
            count(capture.records(), "record", ""),
            count(counts.connections as u64, "connection", ""),
            taken(report),
            count(counts.opened, "packet", "opened"),
            whole.shut(),
            count(*rules as u64, "rule", ""),
            broken(whole),
        ));
        self.screen.write(&lines);
    }
}
