//! The arguments of the mode `capture`.
use super::{Options, nearest};
use crate::colour::When;
use crate::formats::FRAMES;
use quic_wire::frame::FrameType;
use quic_wire::{Side, varint};
use std::ffi::OsString;
use std::ops::RangeInclusive;

#[cfg_attr(not(feature = "capture"), expect(dead_code, reason = "nothing reads captures"))]
pub struct Captures {
    pub json: bool,
    pub colours: When,
    pub keylogs: Vec<OsString>,
    /// The folder for traces.
    pub qlog: Option<OsString>,
    pub filter: Filter,
    pub files: Vec<OsString>,
}

/// Which packets are shown: those that have all that is given, and of each list one.
#[cfg_attr(not(feature = "capture"), expect(dead_code, reason = "nothing reads captures"))]
#[derive(Clone, Default)]
pub struct Filter {
    pub connections: Vec<usize>,
    pub sender: Option<Side>,
    pub numbers: Vec<RangeInclusive<u64>>,
    /// Types of frames.
    pub frames: Vec<u64>,
    /// Packets that weren't opened, or in which RFC 9000 rejects something.
    pub rejected: bool,
    /// Packets after which others count as lost.
    pub lost: bool,
}

impl Options {
    pub(super) fn capture(self, files: Vec<OsString>) -> Result<Captures, String> {
        self.check_for("capture")?;
        let Options { json, colours, keylogs, qlog, side, .. } = self;
        let filter = Filter { sender: side, ..self.filter };
        Ok(Captures { json, colours, keylogs, qlog, filter, files })
    }
}

fn number(text: &str) -> Option<u64> {
    let is_plain = !text.is_empty() && text.bytes().all(|byte| byte.is_ascii_digit());
    text.parse().ok().filter(|number| is_plain && *number <= varint::MAX)
}

pub(super) fn connection(text: &str) -> Result<usize, String> {
    let number = number(text).and_then(|number| number.try_into().ok());
    number.ok_or_else(|| format!("--connection: expected a number, 0 for the first connection, not {text:?}"))
}

// As in the mode `ranges`: `1-3` has both ends, `1..4` is the same without its end.
pub(super) fn numbers(text: &str) -> Result<RangeInclusive<u64>, String> {
    let range = match (text.split_once(".."), text.split_once('-')) {
        (Some((first, end)), _) => number(first).zip(number(end).and_then(|end| end.checked_sub(1))),
        (_, Some((first, last))) => number(first).zip(number(last)),
        _ => number(text).map(|number| (number, number)),
    };
    let range = range.filter(|(first, last)| first <= last).map(|(first, last)| first..=last);
    range.ok_or_else(|| format!("--number: expected a packet number, a range as 1-3 or 1..4, not {text:?}"))
}

// The types of the frames with a name, that of the RFC or of quinn-proto.
pub(super) fn frames(name: &str) -> Result<Vec<u64>, String> {
    let names = |ty| FrameType::new(ty).map(|ty| ty.to_string()).unwrap_or_default();
    let is_it = |other: &str| other.eq_ignore_ascii_case(name);
    let rows = FRAMES.iter().filter(|row| is_it(row.name) || is_it(&names(row.ty)));
    let types: Vec<_> = rows.map(|row| row.ty).collect();
    if types.is_empty() {
        let nearest = nearest(&name.to_ascii_uppercase(), FRAMES.iter().map(|row| row.name));
        return Err(format!("--frame: unknown frame {name:?}{nearest}"));
    }
    Ok(types)
}

#[cfg(test)]
mod tests {
    use super::*;

    #[test]
    fn ranges_of_numbers() {
        assert_eq!(numbers("7"), Ok(7..=7));
        assert_eq!(numbers("1-3"), Ok(1..=3));
        assert_eq!(numbers("1..4"), Ok(1..=3));
        assert_eq!(numbers("4611686018427387903"), Ok(varint::MAX..=varint::MAX));
        for wrong in ["", "x", "-1", "1-", "..4", "3..3", "0..0", "3-1", "+1", "1-2-3", "4611686018427387904"] {
            assert!(numbers(wrong).is_err(), "{wrong}");
        }
    }

    // RFC 9000, table 3.
    #[test]
    fn names_of_frames() {
        assert_eq!(frames("stream"), Ok((0x08..=0x0f).collect()));
        assert_eq!(frames("Connection_Close"), Ok(vec![0x1c, 0x1d]));
        assert_eq!(frames("APPLICATION_CLOSE"), Ok(vec![0x1d]));
        assert_eq!(frames("MAX_STREAMS"), Ok(vec![0x12, 0x13]));
        assert_eq!(frames("STREM"), Err("--frame: unknown frame \"STREM\"; did you mean STREAM?".into()));
    }
}
