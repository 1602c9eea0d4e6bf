//! Applies the rules to what is found in a capture.

use crate::about::{About, Current, Faulty, Held, type_of};
use crate::claim::{Claim, GRACE, Order, Pending};
use crate::finding::{Finding, Groups, Report};
use crate::histories::Histories;
use crate::history::History;
use crate::rule::{self, Broken, Check, Checked, Need, Rule};
use crate::rules;
use crate::table::{Kind, Table};
use crate::vantage::Vantage;
use quic_wire::Side;
use quic_wire::datagram::{HeaderKind, PacketRef};
use quic_wire::frame::Frame;
use quic_wire::ids::SpaceId;
use quic_wire::packet::LONG_HEADER_FORM;
use quic_wire::permitted::Forbidden;
use quic_wire_capture::capture::Datagram;
use quic_wire_capture::connection::Connection;
use quic_wire_capture::follow::Follower;
use quic_wire_capture::opened::Opened;
use quic_wire_capture::sink::{Ended, Event, Rest, Sink, Unopened};
use std::collections::HashSet;
use std::net::SocketAddr;
use std::ops::RangeInclusive;

/// How many bytes are remembered: so many of all connections together, but at least some.
const MOST_REMEMBERED: usize = 1 << 27;
const LEAST_REMEMBERED: usize = 1 << 14;

/// How many claims wait: so many of all connections together, but within these bounds.
const MOST_CLAIMS: usize = 1 << 18;
const CLAIMS_OF_CONNECTION: RangeInclusive<usize> = 16..=256;

/// How many paths are remembered with datagrams that belong to no connection. With more, all paths count as such.
const MOST_STRAYS: usize = 1 << 12;

/// What checks the connections of a capture.
pub struct Checker {
    table: Table,
    /// Where the capture was taken, if that was said.
    vantage: Option<Vantage>,
    histories: Histories,
    groups: Groups,
    facts: Facts,
    current: Current,
    datagram: Option<Key>,
    /// The record of the last packet that was opened, and its connection.
    opened: Option<(u64, usize)>,
}

// A datagram, or a segment of one: its record, and where its bytes are in memory.
type Key = (u64, usize, usize);

/// What is known of the capture as a whole.
#[derive(Default)]
struct Facts {
    last_time: u64,
    is_disordered: bool,
    strays: HashSet<(SocketAddr, SocketAddr)>,
}

/// The packet at which something is found.
#[derive(Clone, Copy)]
struct Place {
    kind: HeaderKind,
    number: Option<u64>,
    begin: usize,
    /// Where the payload begins in the datagram.
    payload: usize,
}

impl Default for Checker {
    /// With all rules.
    fn default() -> Checker {
        Checker::new(rules::all())
    }
}

impl Facts {
    fn take(&mut self, datagram: &Datagram<'_>) {
        self.is_disordered |= datagram.time.saturating_add(GRACE) < self.last_time;
        self.last_time = self.last_time.max(datagram.time);
    }

    fn add_stray(&mut self, datagram: &Datagram<'_>) {
        if self.strays.len() < MOST_STRAYS {
            self.strays.insert((datagram.from, datagram.to));
        }
    }

    // Whether datagrams in either direction belong to no connection.
    fn has_stray(&self, datagram: &Datagram<'_>) -> bool {
        let (from, to) = (datagram.from, datagram.to);
        self.strays.len() >= MOST_STRAYS || [(from, to), (to, from)].iter().any(|path| self.strays.contains(path))
    }

    // What a rule lacks when it finds something.
    fn lacking(&self, rule: &Rule, about: &About<'_>) -> Option<Need> {
        rule.needs.iter().copied().find(|need| match need {
            Need::Begin => about.connection.began_before(),
            Need::NoEarlyData => about.history.has_early,
            Need::NoStrays => self.has_stray(about.datagram),
            Need::Order => self.is_disordered,
            _ => false,
        })
    }

    // What it lacks when that is decided.
    fn lacking_at_end(&self, pending: &Pending, connection: &Connection, history: &History) -> Option<Need> {
        let Pending { finding, claim, order, is_at_sender, is_proven, .. } = pending;
        let (sender, spaces) = (finding.sender, claim.spaces());
        let is_closed = connection.end(sender).closed().or(connection.end(!sender).closed()).is_some();
        // The id before may be issued a bit later.
        let is_gap = matches!(claim, Claim::Gap(_)) && !is_closed;
        let is_soon = is_gap && finding.time.saturating_add(pending.margin()) > connection.times().1;
        let is_open = claim.is_about_peer() || claim.is_timed() && *order == Order::Open;
        if history.is_full {
            return Some(Need::Room);
        }
        finding.rule.needs.iter().copied().find(|need| match need {
            Need::PeerPackets if matches!(claim, Claim::Bytes(_)) && history.lacks_handshake() => true,
            // One of the client that isn't in the capture may have confirmed it.
            Need::PeerPackets if matches!(claim, Claim::Unconfirmed) && !history.has_handshake(!sender) => true,
            Need::PeerPackets => !history.is_whole(!sender, spaces),
            Need::OwnPackets if matches!(claim, Claim::Retry) && !history.half(sender).has_initial() => true,
            Need::OwnPackets => !history.is_whole(sender, spaces),
            Need::OwnNumbers => !history.has_all(sender, spaces),
            Need::NoEarlyData => history.has_early,
            Need::NoToken => history.has_token && connection.retry_id().is_none(),
            Need::Order => self.is_disordered,
            // Times say nothing if packets are in the file after what acknowledges them.
            Need::Time => *order == Order::Passed && !is_at_sender && history.half(!sender).is_late,
            Need::Proof => !is_proven,
            Need::End => is_soon || is_open && !pending.is_answered(connection, history),
            _ => false,
        })
    }
}

impl Place {
    fn of(opened: &Opened<'_>) -> Place {
        let begin = opened.packet().place().range().start;
        Place { kind: opened.kind(), number: Some(opened.number()), begin, payload: opened.payload_offset() }
    }

    fn finding(self, rule: &'static Rule, about: &About<'_>, broken: Broken) -> Finding {
        let Broken { seen, expected, section, at, in_payload, claim: _ } = broken;
        let in_datagram = in_payload.map(|offset| self.payload + offset);
        Finding {
            rule,
            section: section.unwrap_or(rule.section),
            record: about.datagram.record,
            time: about.datagram.time,
            connection: about.connection.number(),
            sender: about.sender,
            packet: self.kind,
            number: self.number,
            offset: at.or(in_datagram).unwrap_or(self.begin),
            payload_offset: in_payload,
            seen,
            expected,
            count: 1,
            last_record: about.datagram.record,
        }
    }
}

impl Checker {
    /// With some rules.
    pub fn new(rules: impl IntoIterator<Item = &'static Rule>) -> Checker {
        Checker {
            table: Table::new(rules),
            vantage: None,
            histories: Histories::default(),
            groups: Groups::default(),
            facts: Facts::default(),
            current: Current::default(),
            datagram: None,
            opened: None,
        }
    }

    /// The same for a capture that was taken there. Otherwise the records of each connection may say so: if they don't,
    /// it was on the path.
    pub fn at(self, vantage: Vantage) -> Checker {
        Checker { vantage: Some(vantage), ..self }
    }

    /// Takes the next datagram of the capture.
    pub fn take(&mut self, datagram: &Datagram<'_>, follower: &mut Follower) {
        self.note(datagram);
        follower.take(datagram, self);
    }

    /// Notes the next datagram of the capture, for a sink that passes on to this one what a follower finds in it:
    /// [`Checker::take`] does both.
    pub fn note(&mut self, datagram: &Datagram<'_>) {
        self.facts.take(datagram);
    }

    /// What is found in a connection so far, in the order of the records: all of it once the connection ended.
    pub fn findings(&self, connection: usize) -> Vec<&Finding> {
        self.groups.of(connection)
    }

    /// Ends the capture, and returns what was found in it.
    pub fn finish(mut self, follower: &mut Follower) -> Report {
        follower.finish(&mut self);
        follower.connections().for_each(|connection| self.decide(connection));
        self.groups.take()
    }

    /// Decides what waits for the end of a connection, of which nothing comes any more. [`Checker::finish`] does so for
    /// all that are left.
    pub fn decide(&mut self, connection: &Connection) {
        let Some(mut history) = self.histories.remove(connection.number()) else { return };
        self.groups.count(self.vantage.unwrap_or_else(|| history.vantage()));
        if history.is_full {
            let with_history = self.table.all().iter().filter(|rule| rule.history != rule::History::None);
            with_history.for_each(|rule| self.groups.silent(rule, Need::Room));
        }
        let (left, explained) = std::mem::take(&mut history.waiting).end(connection, &history);
        explained.into_iter().for_each(|rule| self.groups.silent(rule, Need::Time));
        for pending in left {
            match self.facts.lacking_at_end(&pending, connection, &history) {
                Some(need) => self.groups.silent(pending.finding.rule, need),
                None => self.groups.add(pending.finding),
            }
        }
    }

    // Applies the rules of a kind.
    fn judge(
        &mut self,
        (connection, sender, datagram): (&Connection, Side, &Datagram<'_>),
        place: Place,
        kind: Kind,
        check: impl Fn(&Check, &About<'_>) -> Option<Checked>,
    ) {
        let Checker { table, vantage, histories, groups, facts, current, .. } = self;
        let rules = table.of(kind);
        if rules.is_empty() {
            return;
        }
        let most_claims = MOST_CLAIMS / histories.len();
        let history = histories.of(connection.number());
        let mut claims: Vec<(Finding, Claim)> = Vec::new();
        let vantage = vantage.unwrap_or_else(|| history.vantage());
        let about = About { connection, datagram, sender, history, current: *current, vantage };
        for rule in rules.iter().copied() {
            match check(&rule.check, &about) {
                None | Some(Ok(None)) => {}
                Some(Err(need)) => groups.silent(rule, need),
                Some(Ok(Some(broken))) => match (facts.lacking(rule, &about), broken.claim) {
                    (Some(need), _) => groups.silent(rule, need),
                    (None, Some(claim)) => {
                        debug_assert!(!claim.is_timed() || rule.needs.contains(&Need::Time), "{rule:?}");
                        claims.push((place.finding(rule, &about, broken), claim));
                    }
                    (None, None) => groups.add(place.finding(rule, &about, broken)),
                },
            }
        }
        let is_at_sender = about.is_at_sender();
        let most = most_claims.clamp(*CLAIMS_OF_CONNECTION.start(), *CLAIMS_OF_CONNECTION.end());
        for (finding, claim) in claims {
            let pending = Pending::new(finding, claim, history, is_at_sender, facts.last_time);
            if let Some(left) = history.waiting.add(pending, most) {
                let need = if matches!(left.claim, Claim::Unsent { .. }) { Need::Proof } else { Need::Room };
                groups.silent(left.finding.rule, need);
            }
        }
    }

    // Notes a datagram of a side. Returns whether it is a new one.
    fn begin_datagram(&mut self, connection: &Connection, sender: Side, datagram: &Datagram<'_>) -> bool {
        let key = (datagram.record, datagram.bytes.as_ptr().addr(), datagram.bytes.len());
        let is_new = self.datagram.replace(key) != Some(key);
        if is_new {
            let history = self.history(connection);
            history.try_due(connection, datagram.time);
            history.take_datagram(datagram, sender);
        }
        is_new
    }

    // Notes a datagram that someone else may have sent, or sent again: it counts as received, not as sent.
    fn begin_unsure(&mut self, connection: &Connection, sender: Side, datagram: &Datagram<'_>) {
        if sender == Side::Client {
            self.begin_datagram(connection, sender, datagram);
        }
    }

    fn packet(&mut self, connection: &Connection, datagram: &Datagram<'_>, opened: &Opened<'_>) {
        let (what, place) = ((connection, opened.sender(), datagram), Place::of(opened));
        self.current = Current::default();
        self.opened = Some((datagram.record, connection.number()));
        if self.begin_datagram(connection, opened.sender(), datagram) {
            self.judge(what, place, Kind::Datagram, |rule, about| match rule {
                Check::Datagram(check) => Some(check(about)),
                _ => None,
            });
        }
        self.history(connection).take_next(connection, datagram, opened);
        let most = (MOST_REMEMBERED / self.histories.len()).max(LEAST_REMEMBERED);
        self.judge(what, place, Kind::Packet, |rule, about| match rule {
            Check::Packet(check) => Some(check(about, opened)),
            _ => None,
        });
        self.history(connection).take_packet(datagram, opened, most);
        let vantage = self.vantage.unwrap_or_else(|| self.history(connection).vantage());
        if vantage == Vantage::of(opened.sender()) && !self.facts.is_disordered {
            let waiting = &mut self.history(connection).waiting;
            waiting.take_sent(opened.sender(), opened.space(), opened.number(), datagram.time);
        }
    }

    fn history(&mut self, connection: &Connection) -> &mut History {
        self.histories.of(connection.number())
    }

    // A frame that its sender may send in such a packet.
    fn frame(&mut self, connection: &Connection, datagram: &Datagram<'_>, opened: &Opened<'_>, held: &Held<'_>) {
        if let Ok(ty) = u8::try_from(held.ty) {
            let what = (connection, opened.sender(), datagram);
            self.judge(what, Place::of(opened), Kind::Frame(ty), |rule, about| match rule {
                Check::Frame(_, check) => Some(check(about, opened, held)),
                _ => None,
            });
        }
        self.current.elicits |= held.frame.is_ack_eliciting();
        self.current.has_close |= matches!(held.frame, Frame::Close(_));
        if let Frame::Ack(ack) = held.frame {
            let closed = connection.end(!opened.sender()).closed().filter(|one| one.sent.space == opened.space());
            let number = closed.map(|closed| closed.sent.number);
            self.current.acknowledges_close |=
                number.is_some_and(|number| ack.iter().any(|range| range.contains(&number)));
        }
        self.history(connection).take_frame(connection, datagram, opened, held.frame);
    }

    // One that it may not send there.
    fn forbidden(
        &mut self,
        connection: &Connection,
        datagram: &Datagram<'_>,
        opened: &Opened<'_>,
        (held, why): (&Held<'_>, Forbidden),
    ) {
        let what = (connection, opened.sender(), datagram);
        self.judge(what, Place::of(opened), Kind::Forbidden, |rule, _| match rule {
            Check::Forbidden(check) => Some(check(opened, held, why)),
            _ => None,
        });
        self.current.elicits |= held.frame.is_ack_eliciting();
        self.current.has_close |= matches!(held.frame, Frame::Close(_));
    }

    // A packet that was opened, but not its frames one by one.
    fn event(&mut self, connection: &Connection, datagram: &Datagram<'_>, opened: &Opened<'_>, event: &Event<'_>) {
        let kinds: &[Kind] = match event {
            Event::Done(_) => &[Kind::Done],
            Event::Again(..) => &[Kind::Again],
            Event::Empty(_) => &[Kind::Empty],
            Event::Invalid { .. } => &[Kind::Invalid],
            Event::Parameters { read: Ok(_), .. } => &[Kind::Parameters, Kind::List],
            Event::Parameters { .. } => &[Kind::Refusal],
            _ => &[],
        };
        let what = (connection, opened.sender(), datagram);
        for kind in kinds {
            self.judge(what, Place::of(opened), *kind, |rule, about| match (rule, event) {
                (Check::Done(check), Event::Done(opened)) => Some(check(about, opened)),
                (Check::Again(check), Event::Again(opened, Some(before))) => Some(check(about, opened, before)),
                (Check::Empty(check), Event::Empty(opened)) => Some(check(about, opened)),
                (Check::Invalid(check), Event::Invalid { opened, error, offset, fault }) => {
                    let ty = opened.payload().get(*offset..).and_then(type_of);
                    Some(check(about, opened, &Faulty { error, offset: *offset, fault: fault.as_ref(), ty }))
                }
                (Check::Parameters(check), Event::Parameters { read: Ok(read), .. }) => Some(check(about, read)),
                (Check::List(check), Event::Parameters { opened, list, .. }) => Some(check(about, opened, list)),
                (Check::Refusal(check), Event::Parameters { list, read: Err(refusal), .. }) => {
                    Some(check(about, list, refusal))
                }
                _ => None,
            });
        }
    }
}

impl Sink for Checker {
    fn opened(&mut self, connection: &Connection, datagram: &Datagram<'_>, _: u64, event: &Event<'_>) {
        match event {
            Event::Packet(opened) => self.packet(connection, datagram, opened),
            // Most frames of most captures.
            Event::Frame { frame: Frame::Padding, permitted: Ok(()), .. } => {}
            Event::Frame { frame: Frame::Ping, permitted: Ok(()), .. } => self.current.elicits = true,
            Event::Frame { opened, frame, range, permitted } => {
                let ty = opened.payload().get(range.clone()).and_then(type_of).unwrap_or_default();
                let held = Held { frame, range: range.clone(), ty };
                match permitted {
                    Ok(()) => self.frame(connection, datagram, opened, &held),
                    Err(why) => self.forbidden(connection, datagram, opened, (&held, *why)),
                }
            }
            Event::Again(opened, _) => {
                self.begin_unsure(connection, opened.sender(), datagram);
                self.event(connection, datagram, opened, event);
                self.history(connection).take_again(datagram, opened);
            }
            Event::Parameters { opened, list, .. } => {
                self.event(connection, datagram, opened, event);
                self.history(connection).take_parameters(opened.sender(), list);
            }
            Event::Invalid { opened, .. } | Event::Empty(opened) | Event::Done(opened) => {
                self.event(connection, datagram, opened, event);
            }
            Event::Acknowledged { .. } | Event::Lost(_) | Event::NewId(..) => {}
        }
    }

    fn unopened(
        &mut self,
        owner: Option<(&Connection, Side)>,
        datagram: &Datagram<'_>,
        _: u64,
        packet: &PacketRef<'_>,
        why: Unopened,
    ) {
        let Some((connection, sender)) = owner else { return self.facts.add_stray(datagram) };
        self.begin_unsure(connection, sender, datagram);
        let kind = packet.header().kind();
        let history = self.history(connection);
        match kind {
            HeaderKind::Initial => history.take_unopened(sender, SpaceId::Initial),
            HeaderKind::Handshake => history.take_unopened(sender, SpaceId::Handshake),
            HeaderKind::Short if why != Unopened::StatelessReset => history.take_unopened(sender, SpaceId::Data),
            HeaderKind::ZeroRtt => history.has_early = true,
            _ => {}
        }
        if why == Unopened::Retry {
            let begin = packet.place().range().start;
            let place = Place { kind, number: None, begin, payload: begin };
            self.judge((connection, sender, datagram), place, Kind::Retry, |rule, about| match rule {
                Check::Retry(check) => Some(check(about, packet)),
                _ => None,
            });
        }
        if matches!(why, Unopened::Retry | Unopened::InvalidRetry) {
            self.history(connection).take_retry(packet, why == Unopened::Retry);
        }
    }

    fn rest(&mut self, owner: Option<(&Connection, Side)>, datagram: &Datagram<'_>, _: u64, offset: usize, why: Rest) {
        let Some((connection, sender)) = owner else { return self.facts.add_stray(datagram) };
        self.begin_unsure(connection, sender, datagram);
        // Only a packet of it that was opened shows whose a datagram is.
        if why != Rest::OtherId || self.opened != Some((datagram.record, connection.number())) {
            return;
        }
        let place = Place { kind: kind_at(datagram.bytes, offset), number: None, begin: offset, payload: offset };
        self.judge((connection, sender, datagram), place, Kind::Rest, |rule, about| match rule {
            Check::Rest(check) => Some(check(about, offset)),
            _ => None,
        });
    }

    fn ended(&mut self, connection: &Connection, _: Ended) {
        self.decide(connection);
    }
}

// The kind of the header that seems to be at an offset.
fn kind_at(datagram: &[u8], offset: usize) -> HeaderKind {
    match datagram.get(offset..) {
        Some([first, a, b, c, d, ..]) if first & LONG_HEADER_FORM != 0 => {
            HeaderKind::of_long(*first, u32::from_be_bytes([*a, *b, *c, *d]))
        }
        _ => HeaderKind::Short,
    }
}
