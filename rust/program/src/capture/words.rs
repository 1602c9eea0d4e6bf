//! Names, closes and times, as people say them.
use super::report::{Sum, Tally, frame_of};
use crate::fault;
use crate::output::Value;
use quic_wire::Side;
use quic_wire::datagram::HeaderKind;
use quic_wire::frame::{Close, Frame};
use quic_wire::ids::SpaceId;
use quic_wire::packet::VERSION_2;
use quic_wire::transport_error::Code;
use quic_wire_capture::ciphers::Suite;
use quic_wire_capture::recovery::{Sent, Threshold};
use quic_wire_capture::sink::{Ended, Unopened};
use std::fmt::{self, Display, Formatter};

// How many bytes of a reason are kept until a connection is summed up.
const MOST_REASON: usize = 1 << 10;
const SECOND: u64 = 1_000_000_000;
const DAY: u64 = 86_400;

// The alerts of TLS 1.3 (RFC 8446, section B.2).
const ALERTS: [(u64, &str); 27] = [
    (0, "close_notify"),
    (10, "unexpected_message"),
    (20, "bad_record_mac"),
    (22, "record_overflow"),
    (40, "handshake_failure"),
    (42, "bad_certificate"),
    (43, "unsupported_certificate"),
    (44, "certificate_revoked"),
    (45, "certificate_expired"),
    (46, "certificate_unknown"),
    (47, "illegal_parameter"),
    (48, "unknown_ca"),
    (49, "access_denied"),
    (50, "decode_error"),
    (51, "decrypt_error"),
    (70, "protocol_version"),
    (71, "insufficient_security"),
    (80, "internal_error"),
    (86, "inappropriate_fallback"),
    (90, "user_canceled"),
    (109, "missing_extension"),
    (110, "unsupported_extension"),
    (112, "unrecognized_name"),
    (113, "bad_certificate_status_response"),
    (115, "unknown_psk_identity"),
    (116, "certificate_required"),
    (120, "no_application_protocol"),
];

/// A close.
pub struct Said {
    pub by_application: bool,
    pub code: u64,
    /// The type of the frame for which it closes.
    pub frame_type: Option<u64>,
    pub frame_name: Option<String>,
    pub reason: Vec<u8>,
}

/// What a frame says that is a close.
pub fn close(frame: &[u8]) -> Option<Said> {
    match frame_of(frame)? {
        Frame::Close(Close::Connection(close)) => Some(Said {
            by_application: false,
            code: close.error_code.into(),
            frame_type: close.frame_type.map(u64::from),
            frame_name: close.frame_type.map(|ty| ty.to_string()),
            reason: close.reason.to_vec(),
        }),
        Frame::Close(Close::Application(close)) => Some(Said {
            by_application: true,
            code: close.error_code.into_inner(),
            frame_type: None,
            frame_name: None,
            reason: close.reason.to_vec(),
        }),
        _ => None,
    }
}

impl Said {
    /// The name of the error. Those of applications have none here.
    pub fn error(&self) -> String {
        let alert = self.code.checked_sub(0x100).filter(|alert| *alert <= 0xff && !self.by_application);
        match (alert, Code::new(self.code)) {
            _ if self.by_application => format!("application error {:#x}", self.code),
            (Some(alert), _) => match ALERTS.iter().find(|(number, _)| *number == alert) {
                Some((_, name)) => format!("CRYPTO_ERROR {name}"),
                None => format!("CRYPTO_ERROR alert {alert}"),
            },
            (None, Some(code)) => fault::code_name(code),
            (None, None) => String::new(),
        }
    }

    /// The same with the front of a reason that is very long.
    pub fn shortened(mut self) -> Said {
        self.reason.truncate(MOST_REASON);
        self
    }

    // As a clause: by whom, with what, why.
    fn clause(&self, side: Side) -> String {
        let whose = if self.by_application { "'s application" } else { "" };
        let frame = self.frame_name.as_ref().map_or(String::new(), |name| format!(" in {name}"));
        let reason = match &self.reason[..] {
            [] => String::new(),
            reason => format!(", {}", Value::Text(reason)),
        };
        format!("the {}{whose} closed it with {}{frame}{reason}", side_name(side), self.error())
    }
}

/// How a connection ended.
pub fn ended(sum: &Sum<'_>) -> String {
    let Sum { connection, tally: Tally { sides, reset }, how, .. } = sum;
    let closed = |side: Side| {
        let said = sides[side as usize].close.as_ref()?;
        Some((connection.end(side).closed()?.sent.time, said.clause(side)))
    };
    let mut said: Vec<_> = [Side::Client, Side::Server].into_iter().filter_map(closed).collect();
    said.sort_by_key(|(time, _)| *time);
    let mut said: Vec<_> = said.into_iter().map(|(_, clause)| clause).collect();
    said.extend(reset.map(|side| format!("the {} sent a stateless reset", side_name(side))));
    match how {
        _ if !said.is_empty() => said.join("; "),
        Some(Ended::Silent) | None if sum.ends_shut() => "not known: its last packets weren't opened".into(),
        Some(Ended::Silent) => "nothing more came, until it had timed out".into(),
        Some(Ended::Crowded) => "it was forgotten, since there were too many at once".into(),
        Some(Ended::Closed) => "it was closed".into(),
        Some(Ended::Reset) => "it was reset".into(),
        None => "it was open at the end of the capture".into(),
    }
}

/// A number of things.
pub fn count(count: u64, what: &str, which: &str) -> String {
    let (plural, blank) = (if count == 1 { "" } else { "s" }, if which.is_empty() { "" } else { " " });
    format!("{count} {what}{plural}{blank}{which}")
}

/// How many packets weren't opened, and why.
pub fn unopened(why: Unopened, n: u64) -> String {
    match why {
        Unopened::VersionNegotiation => count(n, "version negotiation", ""),
        Unopened::Retry => count(n, "Retry packet", ""),
        Unopened::StatelessReset => count(n, "stateless reset", ""),
        why => format!("{}: {why}", count(n, "packet", "not opened")),
    }
}

/// A packet that counts as lost, and why (RFC 9002, sections 6.1.1 and 6.1.2).
pub fn lost(sent: &Sent) -> String {
    let Sent { sender, space, number, record, .. } = sent;
    let why = match sent.lost.map(|loss| loss.by) {
        Some(Threshold::Time) => ", since it was sent too long before a later one was acknowledged",
        Some(Threshold::Packets) => ", since one with a number greater by 3 or more was acknowledged",
        None => "",
    };
    format!("{} {} number={number} of record {record}{why}", side_name(*sender), space_name(*space))
}

/// Why a packet counts as lost, in a word.
pub fn threshold_name(sent: &Sent) -> &'static str {
    match sent.lost.map(|loss| loss.by) {
        Some(Threshold::Time) => "time",
        _ => "packets",
    }
}

/// A packet number space (RFC 9000, section 12.3).
pub fn space_name(space: SpaceId) -> &'static str {
    match space {
        SpaceId::Initial => "Initial",
        SpaceId::Handshake => "Handshake",
        SpaceId::Data => "application data",
    }
}

pub fn side_name(side: Side) -> &'static str {
    match side {
        Side::Client => "client",
        Side::Server => "server",
    }
}

/// A type of packets, as the RFC names it.
pub fn kind_name(kind: HeaderKind) -> &'static str {
    match kind {
        HeaderKind::Initial => "Initial",
        HeaderKind::ZeroRtt => "0-RTT",
        HeaderKind::Handshake => "Handshake",
        HeaderKind::Retry => "Retry",
        HeaderKind::Short => "1-RTT",
        HeaderKind::VersionNegotiate => "Version Negotiation",
    }
}

/// A version of QUIC that is read.
pub fn version_name(version: u32) -> String {
    match version {
        VERSION_2 => "2".into(),
        other => other.to_string(),
    }
}

/// The name of a cipher suite in TLS, by its number.
pub fn suite_name(number: u16) -> String {
    match Suite::of(number) {
        Some(Suite::Aes128Gcm) => "TLS_AES_128_GCM_SHA256".into(),
        Some(Suite::Aes256Gcm) => "TLS_AES_256_GCM_SHA384".into(),
        Some(Suite::ChaCha20Poly1305) => "TLS_CHACHA20_POLY1305_SHA256".into(),
        None => format!("{number:#06x}"),
    }
}

/// How many nanoseconds a time is after another, or before it.
pub fn after(begun: u64, time: u64) -> i64 {
    let nanos = i128::from(time) - i128::from(begun);
    i64::try_from(nanos).unwrap_or(if nanos < 0 { i64::MIN } else { i64::MAX })
}

/// Nanoseconds as seconds with six decimals, or, as `{:#}`, with nine.
pub struct Seconds(pub i64);

impl Display for Seconds {
    fn fmt(&self, f: &mut Formatter<'_>) -> fmt::Result {
        let (sign, nanos) = (if self.0 < 0 { "-" } else { "" }, self.0.unsigned_abs());
        let (whole, part) = (nanos / SECOND, nanos % SECOND);
        match f.alternate() {
            true => write!(f, "{sign}{whole}.{part:09}"),
            false => write!(f, "{sign}{whole}.{:06}", part / 1000),
        }
    }
}

/// Nanoseconds since 1970, as RFC 3339 writes a time.
pub struct Date(pub u64);

impl Display for Date {
    fn fmt(&self, f: &mut Formatter<'_>) -> fmt::Result {
        let (seconds, nanos) = (self.0 / SECOND, self.0 % SECOND);
        let (days, second) = (seconds / DAY, seconds % DAY);
        // Years begin in March, so that a leap day is the last one; 400 years have 146,097 days.
        let days = days + 719_468;
        let (era, day) = (days / 146_097, days % 146_097);
        let year = (day - day / 1460 + day / 36_524 - day / 146_096) / 365;
        let day = day - (365 * year + year / 4 - year / 100);
        let month = (5 * day + 2) / 153;
        let day = day - (153 * month + 2) / 5 + 1;
        let (month, next) = if month < 10 { (month + 3, 0) } else { (month - 9, 1) };
        let (hour, minute) = (second / 3600, second / 60 % 60);
        write!(
            f,
            "{:04}-{month:02}-{day:02}T{hour:02}:{minute:02}:{:02}.{nanos:09}Z",
            era * 400 + year + next,
            second % 60
        )
    }
}

#[cfg(test)]
mod tests {
    use super::*;

    // As `date -u -d @SECONDS +%FT%T` prints them.
    #[test]
    fn dates() {
        let rows = [
            (0, "1970-01-01T00:00:00"),
            (951_782_399, "2000-02-28T23:59:59"),
            (951_782_400, "2000-02-29T00:00:00"),
            (951_868_800, "2000-03-01T00:00:00"),
            (1_709_164_800, "2024-02-29T00:00:00"),
            (4_107_542_400, "2100-03-01T00:00:00"),
            (18_446_744_073, "2554-07-21T23:34:33"),
        ];
        for (seconds, date) in rows {
            assert_eq!(Date(seconds * SECOND + 5).to_string(), format!("{date}.000000005Z"));
        }
    }

    #[test]
    fn times_before_the_first_datagram() {
        assert_eq!(Seconds(after(2_000_000_000, 1_999_999_000)).to_string(), "-0.000001");
        assert_eq!(format!("{:#}", Seconds(after(0, 1_000_000_001))), "1.000000001");
        assert_eq!((after(u64::MAX, 0), after(0, u64::MAX)), (i64::MIN, i64::MAX));
    }

    // RFC 9000, section 20; RFC 8446, section B.2.
    #[test]
    fn errors_have_names() {
        let error =
            |code| Said { by_application: false, code, frame_type: None, frame_name: None, reason: vec![] }.error();
        assert_eq!(error(0), "NO_ERROR");
        assert_eq!(error(0xa), "PROTOCOL_VIOLATION");
        assert_eq!(error(0x12a), "CRYPTO_ERROR bad_certificate");
        assert_eq!(error(0x1ff), "CRYPTO_ERROR alert 255");
        assert_eq!(error(0x200), "<unknown 200>");
        let of_application =
            Said { by_application: true, code: 0x100, frame_type: None, frame_name: None, reason: vec![] };
        assert_eq!(of_application.error(), "application error 0x100");
    }
}
