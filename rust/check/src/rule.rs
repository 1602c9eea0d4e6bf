//! What a rule is.

use crate::about::{About, Faulty, Held};
use crate::claim::Claim;
use quic_wire::datagram::PacketRef;
use quic_wire::permitted::Forbidden;
use quic_wire::transport_parameters::{Refusal, TransportParameters};
use quic_wire_capture::end::Sent;
use quic_wire_capture::opened::Opened;
use std::fmt;

/// A section of an RFC.
#[derive(Clone, Copy, Debug, PartialEq, Eq, PartialOrd, Ord, Hash)]
pub struct Section {
    /// The RFC's number.
    pub rfc: u16,
    /// The section's number, as `19.7`.
    pub number: &'static str,
}

impl Section {
    /// A section of RFC 9000.
    pub(crate) const fn of_quic(number: &'static str) -> Section {
        Section { rfc: 9000, number }
    }
}

impl fmt::Display for Section {
    fn fmt(&self, f: &mut fmt::Formatter<'_>) -> fmt::Result {
        write!(f, "RFC {}, section {}", self.rfc, self.number)
    }
}

/// How much a rule binds (RFC 2119).
#[derive(Clone, Copy, Debug, PartialEq, Eq, PartialOrd, Ord, Hash)]
pub enum Level {
    /// A MUST or a MUST NOT.
    Must,
    /// A SHOULD, something that the RFC says won't work, or what it describes without a MUST.
    Should,
}

impl fmt::Display for Level {
    fn fmt(&self, f: &mut fmt::Formatter<'_>) -> fmt::Result {
        f.write_str(match self {
            Level::Must => "MUST",
            Level::Should => "SHOULD",
        })
    }
}

/// Which history a rule needs.
#[derive(Clone, Copy, Debug, PartialEq, Eq, PartialOrd, Ord, Hash)]
pub enum History {
    /// None: the packet or message itself shows it.
    None,
    /// What came before it in the connection.
    Before,
    /// Also what comes after it: the rule is decided when the connection ends.
    Whole,
}

impl fmt::Display for History {
    fn fmt(&self, f: &mut fmt::Formatter<'_>) -> fmt::Result {
        f.write_str(match self {
            History::None => "none",
            History::Before => "before",
            History::Whole => "whole",
        })
    }
}

/// What must have been seen for a rule to speak. Without it the rule is silent, and that is counted.
#[derive(Clone, Copy, Debug, PartialEq, Eq, PartialOrd, Ord, Hash)]
#[non_exhaustive]
pub enum Need {
    /// The connection's first packet: it didn't begin before the capture.
    Begin,
    /// The transport parameters of the packet's receiver.
    PeerParameters,
    /// All packets of the packet's receiver that its sender acknowledged, opened, in the number space.
    PeerPackets,
    /// All packets of the packet's sender that its receiver acknowledged, opened, in the number space.
    OwnPackets,
    /// All packet numbers of the packet's sender, without gaps, in the number space.
    OwnNumbers,
    /// A packet that shows what had been sent by then.
    Proof,
    /// That no extension was offered that isn't known here.
    NoExtension,
    /// That the client's Initial packets have no token: one from an earlier connection may permit more.
    NoToken,
    /// That there are no 0-RTT packets, to which the limits of an earlier connection apply.
    NoEarlyData,
    /// That records are in the order of their times.
    Order,
    /// That what the packet's sender knew shows: by the first packet of its receiver that acknowledges it or answers it;
    /// by time, which is 10 ms at its sender's host, and otherwise a second, if several number spaces count; or by the
    /// whole connection. Packets may be reordered, and all of a side be late in the capture.
    Time,
    /// That the address was validated by a handshake.
    ValidAddress,
    /// That no datagram on the same path belongs to no connection.
    NoStrays,
    /// That it isn't a 0-RTT packet, to which the limits of an earlier connection apply.
    OneRtt,
    /// A packet of its receiver that was sent after it: an ACK of it, or a close. If time decides, that much time.
    End,
    /// That there was room for all that must be remembered. All rules of the whole history need it.
    Room,
}

impl Need {
    /// Why a rule is silent without it.
    pub fn reason(self) -> &'static str {
        match self {
            Need::Begin => "the connection began before the capture",
            Need::PeerParameters => "the peer's transport parameters weren't seen",
            Need::PeerPackets => "packets of the peer aren't in the capture or weren't opened",
            Need::OwnPackets => "packets of the sender aren't in the capture or weren't opened",
            Need::OwnNumbers => "packet numbers of the sender aren't in the capture",
            Need::Proof => "no later packet shows what had been sent",
            Need::NoExtension => "an extension that isn't known here may permit it",
            Need::NoToken => "a token of an earlier connection may permit it",
            Need::NoEarlyData => "limits of an earlier connection apply to 0-RTT packets",
            Need::Order => "the capture's records aren't in the order of their times",
            Need::Time => "the packets may have been reordered",
            Need::ValidAddress => "the address may not be validated",
            Need::NoStrays => "datagrams between the same addresses belong to no connection",
            Need::OneRtt => "limits of an earlier connection apply to a 0-RTT packet",
            Need::End => "the capture ends too soon after it",
            Need::Room => "there was too much to remember",
        }
    }

    /// A name for programs.
    pub fn name(self) -> &'static str {
        match self {
            Need::Begin => "begin",
            Need::PeerParameters => "peer-parameters",
            Need::PeerPackets => "peer-packets",
            Need::OwnPackets => "own-packets",
            Need::OwnNumbers => "own-numbers",
            Need::Proof => "proof",
            Need::NoExtension => "no-extension",
            Need::NoToken => "no-token",
            Need::NoEarlyData => "no-early-data",
            Need::Order => "order",
            Need::Time => "time",
            Need::ValidAddress => "valid-address",
            Need::NoStrays => "no-strays",
            Need::OneRtt => "one-rtt",
            Need::End => "end",
            Need::Room => "room",
        }
    }
}

/// A rule.
#[derive(Debug)]
pub struct Rule {
    /// Its name, which doesn't change.
    pub name: &'static str,
    /// Where an RFC says so. What is found may name a section that says more.
    pub section: Section,
    /// How much it binds.
    pub level: Level,
    /// What it says, as a sentence.
    pub says: &'static str,
    /// The history that it needs.
    pub history: History,
    /// What must have been seen for it to speak.
    pub needs: &'static [Need],
    pub(crate) check: Check,
}

impl Rule {
    /// A MUST of RFC 9000.
    pub(crate) const fn must(name: &'static str, number: &'static str, says: &'static str, check: Check) -> Rule {
        let (section, level, history) = (Section::of_quic(number), Level::Must, History::None);
        Rule { name, section, level, says, history, needs: &[], check }
    }

    /// The same of another RFC.
    pub(crate) const fn of(self, rfc: u16) -> Rule {
        Rule { section: Section { rfc, number: self.section.number }, ..self }
    }

    /// The same with another history, and what must have been seen.
    pub(crate) const fn with(self, history: History, needs: &'static [Need]) -> Rule {
        Rule { history, needs, ..self }
    }

    /// The same as a SHOULD.
    pub(crate) const fn should(self) -> Rule {
        Rule { level: Level::Should, ..self }
    }
}

/// Whether a rule is kept, how it is broken, or what is missing to say that.
pub(crate) type Checked = Result<Option<Broken>, Need>;

/// Types of frames below 64. There are no rules about those of others.
#[derive(Clone, Copy, Debug)]
pub(crate) struct Types(u64);

impl Types {
    pub(crate) const ACK: Types = Types::of(&[0x02, 0x03]);
    pub(crate) const RESET_STREAM: Types = Types::of(&[0x04]);
    pub(crate) const CRYPTO: Types = Types::of(&[0x06]);
    /// Those that end at an offset of a stream: STREAM and RESET_STREAM.
    pub(crate) const DATA: Types = Types::of(&[0x04, 0x08, 0x09, 0x0a, 0x0b, 0x0c, 0x0d, 0x0e, 0x0f]);
    /// Those that a side sends before it resets a stream: STREAM and STREAM_DATA_BLOCKED.
    pub(crate) const SENDING: Types = Types::of(&[0x08, 0x09, 0x0a, 0x0b, 0x0c, 0x0d, 0x0e, 0x0f, 0x15]);
    /// Those that name a stream.
    pub(crate) const OF_STREAMS: Types =
        Types::of(&[0x04, 0x05, 0x08, 0x09, 0x0a, 0x0b, 0x0c, 0x0d, 0x0e, 0x0f, 0x11, 0x15]);
    pub(crate) const NEW_CONNECTION_ID: Types = Types::of(&[0x18]);
    pub(crate) const RETIRE_CONNECTION_ID: Types = Types::of(&[0x19]);
    pub(crate) const PATH_CHALLENGE: Types = Types::of(&[0x1a]);
    pub(crate) const PATH_RESPONSE: Types = Types::of(&[0x1b]);
    pub(crate) const PATHS: Types = Types::of(&[0x1a, 0x1b]);
    pub(crate) const CLOSE: Types = Types::of(&[0x1c, 0x1d]);
    pub(crate) const HANDSHAKE_DONE: Types = Types::of(&[0x1e]);
    pub(crate) const DATAGRAM: Types = Types::of(&[0x30, 0x31]);

    const fn of(types: &[u8]) -> Types {
        let (mut bits, mut at) = (0, 0);
        while at < types.len() {
            bits |= 1 << types[at];
            at += 1;
        }
        Types(bits)
    }

    /// Whether a type is one of them.
    pub(crate) fn has(self, ty: u64) -> bool {
        ty < 64 && self.0 >> ty & 1 == 1
    }
}

/// What a rule is about, and how it is checked. What is known is as it was before.
#[derive(Debug)]
pub(crate) enum Check {
    /// An opened packet whose number is new.
    Packet(fn(&About<'_>, &Opened<'_>) -> Checked),
    /// The same after its frames.
    Done(fn(&About<'_>, &Opened<'_>) -> Checked),
    /// An opened packet whose number was used before.
    Again(fn(&About<'_>, &Opened<'_>, &Sent) -> Checked),
    /// A Retry whose tag is right.
    Retry(fn(&About<'_>, &PacketRef<'_>) -> Checked),
    /// The end of a datagram from an offset on, which has another id than its first packet.
    Rest(fn(&About<'_>, usize) -> Checked),
    /// A frame of these types that its sender may send in such a packet.
    Frame(Types, fn(&About<'_>, &Opened<'_>, &Held<'_>) -> Checked),
    /// One of any type that it may not send there.
    Forbidden(fn(&Opened<'_>, &Held<'_>, Forbidden) -> Checked),
    /// What is no frame.
    Invalid(fn(&About<'_>, &Opened<'_>, &Faulty<'_>) -> Checked),
    /// A payload without bytes.
    Empty(fn(&About<'_>, &Opened<'_>) -> Checked),
    /// Transport parameters.
    Parameters(fn(&About<'_>, &TransportParameters) -> Checked),
    /// Their list, if it isn't rejected.
    List(fn(&About<'_>, &Opened<'_>, &[u8]) -> Checked),
    /// A list of them that is rejected.
    Refusal(fn(&About<'_>, &[u8], &Refusal) -> Checked),
    /// The first packet of a datagram.
    Datagram(fn(&About<'_>) -> Checked),
}

/// How a rule is broken.
#[derive(Debug)]
pub(crate) struct Broken {
    pub(crate) seen: String,
    pub(crate) expected: String,
    pub(crate) section: Option<Section>,
    /// An offset in the datagram, or one in the packet's payload.
    pub(crate) at: Option<usize>,
    pub(crate) in_payload: Option<usize>,
    /// What has to hold still when the rule is decided.
    pub(crate) claim: Option<Claim>,
}

impl Broken {
    pub(crate) fn new(seen: impl Into<String>, expected: impl Into<String>) -> Broken {
        let (seen, expected) = (seen.into(), expected.into());
        Broken { seen, expected, section: None, at: None, in_payload: None, claim: None }
    }

    /// A section of RFC 9000 that says more.
    pub(crate) fn by(self, number: &'static str) -> Broken {
        self.by_section(Section::of_quic(number))
    }

    pub(crate) fn by_section(self, section: Section) -> Broken {
        Broken { section: Some(section), ..self }
    }

    pub(crate) fn at(self, offset: usize) -> Broken {
        Broken { at: Some(offset), ..self }
    }

    pub(crate) fn in_payload(self, offset: usize) -> Broken {
        Broken { in_payload: Some(offset), ..self }
    }

    pub(crate) fn if_still(self, claim: Claim) -> Broken {
        Broken { claim: Some(claim), ..self }
    }

    /// That it is so.
    pub(crate) fn found(self) -> Checked {
        Ok(Some(self))
    }
}
