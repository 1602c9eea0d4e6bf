//! The mode `check`: which packets of captures break which rules of RFC 9000.
pub mod json;
mod sarif;
mod text;
mod traces;

use crate::args::{Checks, Filter, Place, nearest};
use crate::capture::ended;
use crate::capture::keys::KeyLogs;
use crate::capture::qlog::stems;
use crate::capture::reading::{Taker, read, read_each};
use crate::capture::report::is_protected;
use crate::capture::screen::{Queue, Screen};
use crate::capture::words;
use crate::{FAILED, REFUSED, WRONG_CALL, say};
use json::Json;
use quic_wire_capture::capture::{Capture, Datagram};
use quic_wire_capture::follow::{Counts, Follower};
use quic_wire_capture::sink::Unopened;
use quic_wire_check::checker::Checker;
use quic_wire_check::finding::{Finding, Report};
use quic_wire_check::rule::{Level, Rule};
use quic_wire_check::rules;
use quic_wire_check::vantage::Vantage;
use sarif::{Log, Sarif};
use std::ffi::OsStr;
use std::process::ExitCode;
use std::sync::Arc;
use text::Text;
use traces::Traces;

/// What is found in a capture.
pub struct Whole<'a> {
    /// When it begins, in nanoseconds since 1970.
    pub begun: u64,
    pub report: &'a Report,
    pub capture: &'a Capture,
    pub counts: &'a Counts,
    /// How many rules were applied.
    pub rules: usize,
    /// The names of rules that may be broken, and why.
    pub allowed: &'a [(String, String)],
    /// How many lines of key logs were skipped.
    pub skipped_lines: u64,
    /// How many of a hundred packets with protection must be opened.
    pub wanted: Option<u8>,
    /// Why it can't be read, or not to its end.
    pub unread: Option<&'a str>,
}

/// How what is found is written.
pub trait Form {
    /// The table of rules.
    fn rule(&mut self, rule: &'static Rule);
    fn capture(&mut self, name: &OsStr, whole: &Whole<'_>);
}

struct Check<'a> {
    rules: &'a [&'static Rule],
    allowed: &'a [(String, String)],
    vantage: Option<Vantage>,
    wanted: Option<u8>,
    form: Box<dyn Form + 'a>,
    name: &'a OsStr,
    begun: Option<u64>,
    checker: Checker,
    traces: Option<Traces<'a>>,
    unread: Option<String>,
    has_failed: bool,
}

impl Whole<'_> {
    // Why a rule may be broken.
    fn reason(&self, finding: &Finding) -> Option<&str> {
        reason(self.allowed, finding)
    }

    // How many rules are broken that bind so much, each once for a side of a connection, except those that may be.
    fn broken(&self, level: Level) -> u64 {
        let is_counted = |one: &&Finding| one.rule.level == level && self.reason(one).is_none();
        self.report.findings.iter().filter(is_counted).count() as u64
    }

    // Whether a MUST is broken that may not be, also by what isn't kept.
    fn is_broken(&self) -> bool {
        let is_must = |name: &str| rules::find(name).is_some_and(|rule| rule.level == Level::Must);
        let is_allowed = |name: &str| self.allowed.iter().any(|(rule, _)| rule == name);
        let mut further = self.report.further.keys();
        self.broken(Level::Must) > 0 || further.any(|name| is_must(name) && !is_allowed(name))
    }

    // How many findings aren't kept.
    fn further(&self) -> u64 {
        self.report.further.values().sum()
    }

    // The packets with protection that weren't opened, by the reason.
    fn unopened(&self) -> impl Iterator<Item = (Unopened, u64)> {
        self.counts.unopened.iter().filter(|(why, _)| is_protected(**why)).map(|(why, count)| (*why, *count))
    }

    // How many of them there are.
    fn shut(&self) -> u64 {
        self.unopened().map(|(_, count)| count).sum()
    }

    // Whether as many were opened as must be, if that was said. Of none, none is.
    fn has_enough(&self) -> Option<bool> {
        let (opened, all) = (u128::from(self.counts.opened), u128::from(self.counts.opened + self.shut()));
        self.wanted.map(|wanted| wanted == 0 || opened > 0 && 100 * opened >= u128::from(wanted) * all)
    }

    // What is said if they weren't.
    fn lack(&self) -> Option<String> {
        let is_read = self.unread.is_none() || self.capture.records() > 0;
        let wanted = self.wanted.filter(|_| is_read && self.has_enough() == Some(false))?;
        let all = words::count(self.counts.opened + self.shut(), "packet", "opened");
        Some(format!("{} of {all}, fewer than {wanted} %", self.counts.opened))
    }

    // What wasn't read, and why.
    fn gap(&self) -> Option<String> {
        let what = if self.capture.records() == 0 { "not read" } else { "not read to its end" };
        self.unread.map(|why| format!("{what}: {why}"))
    }

    // How many rules are broken that may be.
    fn allowed(&self) -> u64 {
        self.report.findings.iter().filter(|finding| self.reason(finding).is_some()).count() as u64
    }
}

impl<'a> Check<'a> {
    fn new(
        args: &'a Checks,
        rules: &'a [&'static Rule],
        name: &'a OsStr,
        form: Box<dyn Form + 'a>,
        traces: Option<Traces<'a>>,
    ) -> Self {
        Check {
            rules,
            allowed: &args.allowed,
            vantage: args.at.map(vantage),
            wanted: args.opened,
            form,
            name,
            begun: None,
            checker: Checker::new([]),
            traces,
            unread: None,
            has_failed: false,
        }
    }
}

// Why a rule may be broken, of those that may be.
fn reason<'a>(allowed: &'a [(String, String)], finding: &Finding) -> Option<&'a str> {
    let one = allowed.iter().find(|(rule, _)| rule == finding.rule.name);
    one.map(|(_, reason)| &reason[..])
}

/// Checks captures.
pub fn run(args: &Checks) -> ExitCode {
    let rules = match chosen(args) {
        Ok(rules) => rules,
        Err(what) => {
            say(what);
            return ExitCode::from(WRONG_CALL);
        }
    };
    let (queue, log) = (Arc::new(Queue::default()), Log::new(&rules));
    if args.rules {
        return table(args, &rules, &log, &queue);
    }
    let (logs, unread) = KeyLogs::open(&args.keylogs);
    let (filter, stems) = (Filter::default(), stems(&args.files));
    let results = read_each(&args.files, &queue, |file, place, screen| {
        let folder = args.qlog.as_deref();
        let traces = folder.map(|folder| Traces::new(&filter, screen, folder, &stems[place], &args.allowed));
        let mut check = Check::new(args, &rules, file, form(args, place, &log, screen), traces);
        let read = read(file, &logs, &mut check, screen);
        if let Err(what) = &read {
            screen.say(format_args!("{}: {what}", file.to_string_lossy()));
        }
        (read.is_ok(), check.has_failed)
    });
    let are_read = unread.is_empty() && results.iter().all(|(is_read, _)| *is_read);
    let has_failed = results.iter().any(|(_, has_failed)| *has_failed);
    if args.sarif {
        Screen::new(&queue, args.files.len()).write(&log.text(are_read, &unread));
    }
    let code = match (are_read, has_failed) {
        (false, _) => FAILED,
        (true, true) => REFUSED,
        (true, false) => 0,
    };
    ended(&queue, ExitCode::from(code))
}

// Prints the table of rules.
fn table(args: &Checks, rules: &[&'static Rule], log: &Log<'_>, queue: &Arc<Queue>) -> ExitCode {
    let screen = Screen::new(queue, 0);
    let mut form = form(args, 0, log, &screen);
    rules.iter().for_each(|rule| form.rule(rule));
    drop(form);
    if args.sarif {
        screen.write(&log.text(true, &[]));
    }
    drop(screen);
    ended(queue, ExitCode::SUCCESS)
}

// How what is found in the capture at a place is written.
fn form<'s>(args: &Checks, place: usize, log: &'s Log<'_>, screen: &'s Screen) -> Box<dyn Form + 's> {
    if args.sarif {
        return Box::new(Sarif::new(log, place));
    }
    match args.json {
        true => Box::new(Json::new(screen, args.files.len() > 1)),
        false => Box::new(Text::new(screen, args.colours.is_on())),
    }
}

fn vantage(place: Place) -> Vantage {
    match place {
        Place::Client => Vantage::Client,
        Place::Server => Vantage::Server,
        Place::Path => Vantage::Path,
    }
}

// The rules that are applied: those with the names that are given or else, unless they are wanted, only each MUST.
fn chosen(args: &Checks) -> Result<Vec<&'static Rule>, String> {
    let find = |option: &str, name: &str| {
        let nearest = || nearest(name, rules::all().map(|rule| rule.name).collect::<Vec<_>>());
        rules::find(name).ok_or_else(|| format!("{option}: unknown rule {name:?}{}; --rules lists them", nearest()))
    };
    args.allowed.iter().try_for_each(|(name, _)| find("--allow", name).map(|_| ()))?;
    if !args.only.is_empty() {
        return args.only.iter().map(|name| find("--only", name)).collect();
    }
    Ok(rules::all().filter(|rule| args.should || args.rules || rule.level == Level::Must).collect())
}

impl Taker for Check<'_> {
    fn begin(&mut self, file: &OsStr) {
        self.begun = None;
        if let Some(traces) = &mut self.traces {
            traces.begin(file);
        }
        let checker = Checker::new(self.rules.iter().copied());
        self.checker = match self.vantage {
            Some(vantage) => checker.at(vantage),
            None => checker,
        };
    }

    fn datagram(&mut self, datagram: &Datagram<'_>, follower: &mut Follower) {
        self.begun.get_or_insert(datagram.time);
        match &mut self.traces {
            Some(traces) => traces.take(datagram, follower, &mut self.checker),
            None => self.checker.take(datagram, follower),
        }
    }

    fn failed(&mut self, why: &str) {
        self.unread = Some(why.into());
    }

    fn unread(&mut self, why: &str) {
        self.failed(why);
        self.end(&mut Follower::default(), &Capture::default());
    }

    fn end(&mut self, follower: &mut Follower, capture: &Capture) {
        if let Some(traces) = &mut self.traces {
            traces.finish(follower, &mut self.checker);
        }
        let report = std::mem::take(&mut self.checker).finish(follower);
        if let Some(traces) = &mut self.traces {
            traces.end(follower, capture, &report);
        }
        let whole = Whole {
            begun: self.begun.unwrap_or_default(),
            report: &report,
            capture,
            counts: follower.counts(),
            rules: self.rules.len(),
            allowed: self.allowed,
            skipped_lines: follower.keylog.skipped(),
            wanted: self.wanted,
            unread: self.unread.as_deref(),
        };
        self.has_failed |= whole.is_broken() || whole.has_enough() == Some(false);
        self.form.capture(self.name, &whole);
    }
}

#[cfg(test)]
mod tests {
    use super::*;
    use std::collections::BTreeMap;

    // There is no room for more findings of a rule, as of one that may be broken in each of many connections.
    #[test]
    fn findings_that_are_not_kept() {
        let (capture, counts) = (Capture::default(), Counts::default());
        let allowed = [("path-size".into(), "known".into())];
        let is_broken = |rule: &'static str| {
            let report = Report { further: BTreeMap::from([(rule, 1)]), ..Report::default() };
            let (begun, rules, allowed, skipped_lines, wanted, unread) = (0, 1, &allowed[..], 0, None, None);
            let (report, capture, counts) = (&report, &capture, &counts);
            Whole { begun, report, capture, counts, rules, allowed, skipped_lines, wanted, unread }.is_broken()
        };
        assert!(is_broken("final-size"));
        assert!(!is_broken("path-size"), "it may be broken");
        assert!(!is_broken("payload-size"), "it is no MUST");
    }
}
