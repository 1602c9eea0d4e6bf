//! Which packets a page lists, by words that people write.

use crate::table::{Row, Table};
use quic_wire::Side;
use std::fmt::Write;
use std::ops::RangeInclusive;

/// How many words a filter has at most: each of them may be looked for in every packet.
const MOST_WORDS: usize = 64;

/// One word of a filter.
#[derive(Clone, Debug, PartialEq)]
enum What {
    Sender(Side),
    Lost,
    Acknowledged,
    Unacknowledged,
    Rejected,
    Broken,
    Opened,
    Number(RangeInclusive<u64>),
    Record(RangeInclusive<u64>),
    Connection(RangeInclusive<u64>),
    Kind(String),
    Text(String),
}

/// Packets that have all that is written.
#[derive(Clone, Debug, Default, PartialEq)]
pub struct Filter(Vec<(bool, What)>);

impl Filter {
    /// Reads what someone wrote.
    ///
    /// # Errors
    ///
    /// If a word's number can't be read, or there are too many words: what is wrong, in words.
    pub fn parse(text: &str) -> Result<Filter, String> {
        // Other letters are looked for as they are written.
        let all = words(&text.to_ascii_lowercase());
        if all.len() > MOST_WORDS {
            return Err(format!("{} words, and a filter has at most {MOST_WORDS}", all.len()));
        }
        let read = |Word { is_wanted, is_quoted, text }: Word| {
            Ok((is_wanted, if is_quoted { What::Text(text) } else { what(&text)? }))
        };
        all.into_iter().map(read).collect::<Result<_, String>>().map(Filter)
    }

    /// Whether it lets all packets through.
    pub fn is_empty(&self) -> bool {
        self.0.is_empty()
    }

    /// What it lets through, in words.
    pub fn explain(&self) -> String {
        let mut text = String::from("all packets");
        for (place, (is_wanted, what)) in self.0.iter().enumerate() {
            let before = if place == 0 { " " } else { ", " };
            let not = if *is_wanted { "" } else { "except those " };
            let _ = write!(text, "{before}{not}{}", explained(what));
        }
        text
    }

    /// Whether a row has all of it. `is_broken` says whether a rule is broken there.
    pub fn fits(&self, table: &Table, row: &Row, is_broken: bool) -> bool {
        self.0.iter().all(|(is_wanted, what)| *is_wanted == has(what, table, row, is_broken))
    }
}

// A word: whether packets must have it, whether it was in quotation marks, and what is in them.
struct Word {
    is_wanted: bool,
    is_quoted: bool,
    text: String,
}

// The words of a text. A dash before a word, or right before a quotation mark, excludes packets.
fn words(text: &str) -> Vec<Word> {
    let mut words = Vec::new();
    let mut parts = text.split(['"', '“', '”']);
    while let Some(part) = parts.next() {
        let quoted = parts.next();
        let bare = quoted.and_then(|_| before_dash(part));
        words.extend(bare.unwrap_or(part).split_whitespace().map(|word| {
            let excluded = word.strip_prefix('-').filter(|rest| !rest.is_empty());
            Word { is_wanted: excluded.is_none(), is_quoted: false, text: excluded.unwrap_or(word).into() }
        }));
        let quoted = quoted.map(str::trim).filter(|quoted| !quoted.is_empty());
        words.extend(quoted.map(|text| Word { is_wanted: bare.is_none(), is_quoted: true, text: text.into() }));
    }
    words
}

// What comes before a dash at the end that belongs to no word.
fn before_dash(part: &str) -> Option<&str> {
    part.strip_suffix('-').filter(|before| before.chars().next_back().is_none_or(char::is_whitespace))
}

fn what(word: &str) -> Result<What, String> {
    let (name, value) = match word.strip_prefix('#') {
        Some(value) => ("#", Some(value)),
        None => word.split_once([':', '=']).map_or((word, None), |(name, value)| (name, Some(value))),
    };
    let range = |value: &str| range(value).ok_or_else(|| format!("{word:?}: {value:?} isn't a number or a range"));
    Ok(match (name, value) {
        ("client", None) => What::Sender(Side::Client),
        ("server", None) => What::Sender(Side::Server),
        ("lost", None) => What::Lost,
        ("acked" | "acknowledged", None) => What::Acknowledged,
        ("unacked", None) => What::Unacknowledged,
        ("rejected", None) => What::Rejected,
        ("broken", None) => What::Broken,
        ("opened", None) => What::Opened,
        ("pn" | "number", Some(value)) => What::Number(range(value)?),
        ("#" | "record", Some(value)) => What::Record(range(value)?),
        ("c" | "connection", Some(value)) => What::Connection(range(value)?),
        ("type", Some(value)) => What::Kind(value.into()),
        _ => What::Text(word.into()),
    })
}

fn range(value: &str) -> Option<RangeInclusive<u64>> {
    let (first, last) = value.split_once('-').unwrap_or((value, value));
    let number = |text: &str| text.parse().ok().filter(|_| text.bytes().all(|byte| byte.is_ascii_digit()));
    Some(number(first)?..=number(last)?).filter(|range| range.start() <= range.end())
}

fn has(what: &What, table: &Table, row: &Row, is_broken: bool) -> bool {
    match what {
        What::Sender(side) => row.owner.is_some_and(|owner| owner.1 == *side),
        What::Lost => row.lost.is_some(),
        What::Acknowledged => row.acknowledged.is_some(),
        What::Unacknowledged => row.inside.is_some() && row.acknowledged.is_none(),
        What::Rejected => row.is_rejected,
        What::Broken => is_broken,
        What::Opened => row.inside.is_some(),
        What::Number(range) => row.number.is_some_and(|number| range.contains(&number)),
        What::Record(range) => range.contains(&row.record),
        What::Connection(range) => row.owner.is_some_and(|owner| range.contains(&owner.0.into())),
        What::Kind(name) => row.kind.to_lowercase().starts_with(name),
        What::Text(text) => contains(table.text(row), text) || contains(row.kind, text),
    }
}

// Whether a text has another one, which is in lower case.
fn contains(text: &str, wanted: &str) -> bool {
    let (text, wanted) = (text.as_bytes(), wanted.as_bytes());
    let Some(first) = wanted.first() else { return false };
    let is_there = |part: &[u8]| part[0].to_ascii_lowercase() == *first && part.eq_ignore_ascii_case(wanted);
    text.windows(wanted.len()).any(is_there)
}

fn explained(what: &What) -> String {
    let numbers = |range: &RangeInclusive<u64>| match range.start() == range.end() {
        true => range.start().to_string(),
        false => format!("{} to {}", range.start(), range.end()),
    };
    match what {
        What::Sender(Side::Client) => "of the client".into(),
        What::Sender(Side::Server) => "of the server".into(),
        What::Lost => "that counted as lost".into(),
        What::Acknowledged => "that were acknowledged".into(),
        What::Unacknowledged => "that weren't acknowledged in the capture".into(),
        What::Rejected => "that weren't opened, or in which something is rejected".into(),
        What::Broken => "at which a rule was found broken".into(),
        What::Opened => "that were opened".into(),
        What::Number(range) => format!("with the number {}", numbers(range)),
        What::Record(range) => format!("of the record {}", numbers(range)),
        What::Connection(range) => format!("of connection {}", numbers(range)),
        What::Kind(name) => format!("whose type begins with “{name}”"),
        What::Text(text) => format!("with “{text}” in the text"),
    }
}

#[cfg(test)]
mod tests {
    use super::*;

    #[test]
    fn words_are_read() {
        let rows = [
            ("client", What::Sender(Side::Client)),
            ("PN:17", What::Number(17..=17)),
            ("pn=5-9", What::Number(5..=9)),
            ("#9", What::Record(9..=9)),
            ("c:2", What::Connection(2..=2)),
            ("c:2-5", What::Connection(2..=5)),
            ("type:Initial", What::Kind("initial".into())),
            ("Stream", What::Text("stream".into())),
            ("\"STREAM 4\"", What::Text("stream 4".into())),
            ("\"client\"", What::Text("client".into())),
        ];
        for (text, wanted) in rows {
            assert_eq!(Filter::parse(text), Ok(Filter(vec![(true, wanted)])), "{text}");
        }
        assert_eq!(Filter::parse("-lost"), Ok(Filter(vec![(false, What::Lost)])));
        let excluded = (false, What::Text("stream 4".into()));
        assert_eq!(Filter::parse("-\"STREAM 4\""), Ok(Filter(vec![excluded.clone()])));
        assert_eq!(Filter::parse("lost -“stream 4” client"), {
            Ok(Filter(vec![(true, What::Lost), excluded, (true, What::Sender(Side::Client))]))
        });
        // This dash belongs to a word.
        let texts = ["a-", "b"].map(|text| (true, What::Text(text.into())));
        assert_eq!(Filter::parse("a-\"b\""), Ok(Filter(texts.to_vec())));
        assert_eq!(Filter::parse("  "), Ok(Filter::default()));
    }

    #[test]
    fn numbers_that_are_none_are_reported() {
        for text in ["pn:x", "pn:", "#-1", "c:9-5", "pn:18446744073709551616"] {
            let error = Filter::parse(text).unwrap_err();
            assert!(error.ends_with("isn't a number or a range"), "{text}: {error}");
        }
    }

    #[test]
    fn it_says_what_it_lets_through() {
        let filter = Filter::parse("client -lost pn:3-5 \"stream 0\"").unwrap();
        let numbers = "with the number 3 to 5, with “stream 0” in the text";
        assert_eq!(
            filter.explain(),
            format!("all packets of the client, except those that counted as lost, {numbers}")
        );
    }

    #[test]
    fn texts_are_found_in_any_case() {
        assert!(contains("STREAM 4 0..9", "stream 4"));
        assert!(!contains("", "a") && !contains("ab", "abc"));
        // A letter that ASCII lacks is found as it is written.
        let Filter(words) = Filter::parse("Über").unwrap();
        assert!(matches!(&words[..], [(true, What::Text(text))] if contains("closed: Über", text)), "{words:?}");
    }
}
