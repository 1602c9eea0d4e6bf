//! The program's arguments.
mod capture;
mod check;

use crate::colour::When;
use crate::help::{CAPTURE, CHECK, HELP};
use crate::input::Plain;
pub use capture::{Captures, Filter};
use capture::{connection, frames, numbers};
pub use check::{Checks, Place};
use check::{PLACES, allowance, percent};
use quic_wire::datagram::HeaderChecks;
use quic_wire::frame::Rules;
use quic_wire::packet::DEFAULT_SUPPORTED_VERSIONS;
use quic_wire::transport_parameters::ReadOptions;
use quic_wire::{MAX_CID_SIZE, Side, varint};
use std::ffi::{OsStr, OsString};

pub enum Call {
    Show(Args),
    Capture(Captures),
    Check(Checks),
    Print(String),
}

pub struct Args {
    pub mode: Mode,
    pub json: bool,
    pub colours: When,
    pub plain: Plain,
    pub files: Vec<OsString>,
}

pub enum Mode {
    Frames(Rules),
    Canon(Rules),
    Datagram(Datagrams),
    Params { side: Side, options: ReadOptions },
    Number { largest: Option<u64>, reading: Reading },
    Ranges,
}

/// Whose rules bytes are read by.
#[derive(Clone, Copy, Default, PartialEq)]
pub enum Reading {
    #[default]
    Rfc,
    Quinn,
}

impl Reading {
    pub fn rules(self) -> Rules {
        match self {
            Reading::Rfc => Rules::RFC,
            Reading::Quinn => Rules::default(),
        }
    }

    fn options(self) -> ReadOptions {
        match self {
            Reading::Rfc => ReadOptions::RFC,
            Reading::Quinn => ReadOptions::QUINN,
        }
    }
}

pub struct Datagrams {
    /// If it isn't given, the ids of long headers determine it.
    pub cid_len: Option<usize>,
    pub versions: Vec<u32>,
    pub grease: bool,
    pub reading: Reading,
}

impl Datagrams {
    /// What is checked of a header, except what only quinn-proto rejects.
    pub fn checks(&self) -> HeaderChecks {
        let whole_retry = self.reading == Reading::Rfc;
        HeaderChecks { grease_quic_bit: self.grease, whole_retry, ..HeaderChecks::RFC }
    }
}

const MODES: [&str; 8] = ["frames", "canon", "datagram", "params", "number", "ranges", "capture", "check"];
// Those that read lines.
const LINES: &[&str] = &["frames", "canon", "datagram", "params", "number", "ranges"];
// Those that read by rules.
const READERS: &[&str] = &["frames", "canon", "datagram", "params", "number"];

// An option: what its value is, if it has one, and which modes accept it; none are all.
struct Known {
    name: &'static str,
    value: Option<&'static str>,
    modes: &'static [&'static str],
}

const fn known(name: &'static str, value: Option<&'static str>, modes: &'static [&'static str]) -> Known {
    Known { name, value, modes }
}

const OPTIONS: [Known; 27] = [
    known("--help", None, &[]),
    known("--version", None, &[]),
    known("--json", None, &[]),
    known("--base64", None, LINES),
    known("--color", Some("always, never or auto"), &[]),
    known("--rfc", None, READERS),
    known("--quinn", None, READERS),
    known("--strict", None, &["frames"]),
    known("--cid-len", Some("how many bytes an id has, 0 to 20"), &["datagram"]),
    known("--versions", Some("versions in hexadecimal, with commas between them"), &["datagram"]),
    known("--grease", None, &["datagram"]),
    known("--side", Some("client or server"), &["params", "capture"]),
    known("--largest", Some("the largest packet number that was received"), &["number"]),
    known("--keylog", Some("a key log file"), &["capture", "check"]),
    known("--qlog", Some("a folder"), &["capture", "check"]),
    known("--connection", Some("the number of a connection"), &["capture"]),
    known("--number", Some("a packet number, or a range of them"), &["capture"]),
    known("--frame", Some("the name of a frame"), &["capture"]),
    known("--rejected", None, &["capture"]),
    known("--lost", None, &["capture"]),
    known("--rules", None, &["check"]),
    known("--only", Some("the name of a rule"), &["check"]),
    known("--should", None, &["check"]),
    known("--at", Some("client, server or path"), &["check"]),
    known("--allow", Some("a rule and why it may be broken, as RULE=REASON"), &["check"]),
    known("--opened", Some("how many of a hundred packets must be opened"), &["check"]),
    known("--sarif", None, &["check"]),
];

const NO_LOG: &str = "--keylog: a key log isn't read from standard input; ./- is a file of this name";

const WHEN: [(&str, When); 3] = [("always", When::Always), ("never", When::Never), ("auto", When::Auto)];
const SIDES: [(&str, Side); 2] = [("client", Side::Client), ("server", Side::Server)];

// What options say.
#[derive(Default)]
struct Options {
    json: bool,
    base64: bool,
    colours: When,
    rfc: bool,
    quinn: bool,
    strict: bool,
    grease: bool,
    cid_len: Option<usize>,
    versions: Option<Vec<u32>>,
    side: Option<Side>,
    largest: Option<u64>,
    keylogs: Vec<OsString>,
    qlog: Option<OsString>,
    filter: Filter,
    rules: bool,
    only: Vec<String>,
    should: bool,
    at: Option<Place>,
    allowed: Vec<(String, String)>,
    opened: Option<u8>,
    sarif: bool,
    // Those that not all modes accept.
    of_modes: Vec<&'static Known>,
    // What is wrong with the first value that is: that its option isn't one of the mode comes before.
    wrong: Option<String>,
}

pub fn parse(words: impl Iterator<Item = OsString>) -> Result<Call, String> {
    let mut words = words;
    let (mut options, mut mode, mut files) = (Options::default(), None, Vec::new());
    let mut only_files = false;
    while let Some(word) = words.next() {
        let text = word.to_str().unwrap_or_default();
        match text {
            "--help" | "-h" if !only_files => {
                let text = match mode.as_ref().and_then(|mode: &OsString| mode.to_str()) {
                    Some("capture") => CAPTURE,
                    Some("check") => CHECK,
                    _ => HELP,
                };
                return Ok(Call::Print(text.into()));
            }
            "--version" | "-V" if !only_files => {
                return Ok(Call::Print(concat!("quic-wire ", env!("CARGO_PKG_VERSION"), "\n").into()));
            }
            "--" if !only_files => only_files = true,
            _ if !only_files && text.len() > 1 && text.starts_with('-') => options.take(text, &mut words)?,
            _ if mode.is_none() => mode = Some(word),
            _ => files.push(word),
        }
    }
    if files.is_empty() {
        files.push("-".into());
    }
    let mode = mode.ok_or_else(|| format!("missing MODE: {}", MODES.join(", ")))?;
    if mode == "capture" {
        return options.capture(files).map(Call::Capture);
    }
    if mode == "check" {
        return options.check(files).map(Call::Check);
    }
    let (json, colours, base64) = (options.json, options.colours, options.base64);
    let mode = options.mode(&mode)?;
    let plain = match mode {
        Mode::Ranges => Plain::Decimal,
        _ if base64 => Plain::Base64,
        _ => Plain::Hexadecimal,
    };
    Ok(Call::Show(Args { mode, json, colours, plain, files }))
}

impl Options {
    fn take(&mut self, word: &str, rest: &mut impl Iterator<Item = OsString>) -> Result<(), String> {
        let (name, given) = match word.split_once('=') {
            Some((name, value)) => (name, Some(value.into())),
            None => (word, None),
        };
        let Some(option) = OPTIONS.iter().find(|option| option.name == name) else {
            return Err(format!("unknown option {name}{}", nearest(name, OPTIONS.iter().map(|option| option.name))));
        };
        if !option.modes.is_empty() {
            self.of_modes.push(option);
        }
        if let Err(what) = self.take_value(option, given, rest) {
            self.wrong.get_or_insert(what);
        }
        Ok(())
    }

    fn take_value(
        &mut self,
        option: &Known,
        given: Option<OsString>,
        rest: &mut impl Iterator<Item = OsString>,
    ) -> Result<(), String> {
        let name = option.name;
        let value = match (option.value, given) {
            (None, Some(_)) => return Err(format!("{name} takes no value")),
            (None, None) => OsString::new(),
            (Some(_), Some(value)) => value,
            (Some(what), None) => rest.next().ok_or_else(|| format!("{name} needs a value: {what}"))?,
        };
        match (name, value.to_str()) {
            ("--keylog", Some("-")) => return Err(NO_LOG.into()),
            ("--keylog", _) => self.keylogs.push(value),
            ("--qlog", _) => self.qlog = Some(value),
            (_, Some(value)) => self.set(option, value)?,
            (_, None) => return Err(format!("{name} needs a value: {}", option.value.unwrap_or_default())),
        }
        Ok(())
    }

    fn set(&mut self, option: &Known, value: &str) -> Result<(), String> {
        match option.name {
            "--json" => self.json = true,
            "--base64" => self.base64 = true,
            "--rfc" => self.rfc = true,
            "--quinn" => self.quinn = true,
            "--strict" => self.strict = true,
            "--grease" => self.grease = true,
            "--color" => self.colours = choice(option, value, &WHEN)?,
            "--cid-len" => self.cid_len = Some(cid_len(value)?),
            "--versions" => self.versions = Some(versions(value)?),
            "--side" => self.side = Some(choice(option, value, &SIDES)?),
            "--connection" => self.filter.connections.push(connection(value)?),
            "--number" => self.filter.numbers.push(numbers(value)?),
            "--frame" => self.filter.frames.extend(frames(value)?),
            "--rejected" => self.filter.rejected = true,
            "--lost" => self.filter.lost = true,
            "--rules" => self.rules = true,
            "--only" => self.only.push(value.into()),
            "--should" => self.should = true,
            "--at" => self.at = Some(choice(option, value, &PLACES)?),
            "--allow" => self.allowed.push(allowance(value)?),
            "--opened" => self.opened = Some(percent(value)?),
            "--sarif" => self.sarif = true,
            _ => self.largest = Some(largest(value)?),
        }
        Ok(())
    }

    // Whether a mode accepts all of them, and their values are right.
    fn check_for(&self, mode: &str) -> Result<(), String> {
        let other = self.of_modes.iter().find(|option| !option.modes.contains(&mode));
        match other.filter(|_| MODES.contains(&mode)) {
            Some(other) => Err(format!("{} is an option of {}, not of {mode}", other.name, other.modes.join(", "))),
            None if MODES.contains(&mode) => self.wrong.clone().map_or(Ok(()), Err),
            None => Ok(()),
        }
    }

    fn mode(self, name: &OsStr) -> Result<Mode, String> {
        let text = &*name.to_string_lossy();
        self.check_for(text)?;
        let reading = self.reading()?;
        Ok(match text {
            "frames" if self.strict => Mode::Frames(Rules { short_types: true, ..reading.rules() }),
            "frames" => Mode::Frames(reading.rules()),
            "canon" => Mode::Canon(reading.rules()),
            "datagram" => Mode::Datagram(Datagrams {
                cid_len: self.cid_len,
                versions: self.versions.unwrap_or_else(|| DEFAULT_SUPPORTED_VERSIONS.to_vec()),
                grease: self.grease,
                reading,
            }),
            "params" => Mode::Params { side: self.side.unwrap_or(Side::Client), options: reading.options() },
            "number" => Mode::Number { largest: self.largest, reading },
            "ranges" => Mode::Ranges,
            _ => return Err(format!("unknown mode {text:?}{}", nearest(text, MODES))),
        })
    }

    fn reading(&self) -> Result<Reading, String> {
        match (self.rfc, self.quinn) {
            (true, true) => Err("--rfc and --quinn exclude each other".into()),
            (_, true) => Ok(Reading::Quinn),
            _ => Ok(Reading::Rfc),
        }
    }
}

fn cid_len(text: &str) -> Result<usize, String> {
    let digits = text.len() <= 2 && text.bytes().all(|byte| byte.is_ascii_digit());
    let len = text.parse().ok().filter(|len| digits && *len <= MAX_CID_SIZE);
    len.ok_or_else(|| format!("--cid-len: an id has 0 to {MAX_CID_SIZE} bytes, not {text:?}"))
}

fn versions(text: &str) -> Result<Vec<u32>, String> {
    let version = |word: &str| {
        let digits = word.strip_prefix("0x").unwrap_or(word);
        let is_plain = digits.bytes().all(|byte| byte.is_ascii_hexdigit());
        let number = u32::from_str_radix(digits, 16).ok().filter(|number| is_plain && *number != 0);
        number.ok_or_else(|| format!("--versions: not a hexadecimal number of 1 to 8 digits, other than 0: {word:?}"))
    };
    text.split(',').map(|word| version(word.trim())).collect()
}

fn largest(text: &str) -> Result<u64, String> {
    let number = match text.strip_prefix("0x") {
        Some(digits) => u64::from_str_radix(digits, 16),
        None => text.parse(),
    };
    let is_plain = text.bytes().all(|byte| byte.is_ascii_alphanumeric());
    let number = number.ok().filter(|number| is_plain && *number < varint::MAX);
    number.ok_or_else(|| {
        format!("--largest: not a packet number below 2^62 - 1, decimal or hexadecimal with 0x: {text:?}")
    })
}

// The one that a word names.
fn choice<T: Copy>(option: &Known, word: &str, all: &[(&str, T)]) -> Result<T, String> {
    let wanted = option.value.unwrap_or_default();
    all.iter().find(|(name, _)| *name == word).map(|(_, one)| *one).ok_or_else(|| {
        let nearest = nearest(word, all.iter().map(|(name, _)| *name));
        format!("{}: expected {wanted}, not {word:?}{nearest}", option.name)
    })
}

// A longer word isn't a name with a typing error.
const MOST_LETTERS: usize = 64;

// A suggestion, as the end of a sentence: a word that begins so, or the nearest one.
pub fn nearest<'a>(word: &str, words: impl IntoIterator<Item = &'a str> + Clone) -> String {
    let mut all = words.clone().into_iter();
    let longer = all.find(|other| word.trim_matches('-').len() > 1 && other.starts_with(word));
    let near =
        words.into_iter().filter(|_| word.len() <= MOST_LETTERS).map(|other| (changes(word, other), other)).min();
    let near = near.filter(|(changes, _)| *changes <= 1 + word.len() / 4).map(|(_, other)| other);
    longer.or(near).map_or(String::new(), |other| format!("; did you mean {other}?"))
}

// How many characters are inserted, deleted or changed between two words: their Levenshtein distance.
fn changes(word: &str, other: &str) -> usize {
    let mut row: Vec<usize> = (0..=other.chars().count()).collect();
    for (i, c) in word.chars().enumerate() {
        let mut corner = i;
        row[0] = i + 1;
        for (j, d) in other.chars().enumerate() {
            let changed = corner + usize::from(c != d);
            corner = row[j + 1];
            row[j + 1] = changed.min(row[j] + 1).min(corner + 1);
        }
    }
    row[other.chars().count()]
}
