//! The arguments of the mode `check`.
use super::Options;
use crate::colour::When;
use std::collections::HashSet;
use std::ffi::OsString;

#[cfg_attr(not(feature = "capture"), expect(dead_code, reason = "nothing reads captures"))]
pub struct Checks {
    pub json: bool,
    pub colours: When,
    pub keylogs: Vec<OsString>,
    /// The folder for traces.
    pub qlog: Option<OsString>,
    /// Whether the table of rules is printed.
    pub rules: bool,
    /// The names of the rules that are applied; all if there are none.
    pub only: Vec<String>,
    /// Whether rules count that aren't a MUST.
    pub should: bool,
    /// Where the captures were taken; else that is found out, if it can be.
    pub at: Option<Place>,
    /// The names of rules that may be broken, and why.
    pub allowed: Vec<(String, String)>,
    /// How many of a hundred packets must be opened.
    pub opened: Option<u8>,
    pub sarif: bool,
    pub files: Vec<OsString>,
}

/// Where a capture is taken.
#[derive(Clone, Copy)]
pub enum Place {
    Client,
    Server,
    Path,
}

pub(super) const PLACES: [(&str, Place); 3] =
    [("client", Place::Client), ("server", Place::Server), ("path", Place::Path)];

impl Options {
    pub(super) fn check(self, files: Vec<OsString>) -> Result<Checks, String> {
        self.check_for("check")?;
        let Options { json, colours, keylogs, qlog, rules, only, should, at, allowed, opened, sarif, .. } = self;
        if json && sarif {
            return Err("--json and --sarif exclude each other".into());
        }
        let mut seen = HashSet::new();
        if let Some((rule, _)) = allowed.iter().find(|(rule, _)| !seen.insert(rule)) {
            return Err(format!("--allow: {rule:?} is there twice"));
        }
        Ok(Checks { json, colours, keylogs, qlog, rules, only, should, at, allowed, opened, sarif, files })
    }
}

/// How many of a hundred.
pub(super) fn percent(text: &str) -> Result<u8, String> {
    let is_plain = text.len() <= 3 && text.bytes().all(|byte| byte.is_ascii_digit());
    let percent = text.parse().ok().filter(|percent| is_plain && *percent <= 100);
    percent.ok_or_else(|| format!("--opened: expected a number from 0 to 100, not {text:?}"))
}

/// A rule, and why it may be broken.
pub(super) fn allowance(text: &str) -> Result<(String, String), String> {
    let parts = text.split_once('=').map(|(rule, reason)| (rule.trim(), reason.trim()));
    match parts.filter(|(rule, reason)| !rule.is_empty() && !reason.is_empty()) {
        Some((rule, reason)) => Ok((rule.into(), reason.into())),
        None => Err(format!("--allow: expected RULE=REASON, not {text:?}")),
    }
}
