//! What the packets of a connection have said. Only what was authenticated changes it: an [`Opened`] packet, a Retry or
//! a stateless reset.

use crate::capture::Datagram;
use crate::ciphers::Suite;
use crate::end::{Closed, End, MOST_PACKETS, Sent};
use crate::keylog::{KeyLog, Label};
use crate::keyring::{Candidate, Keyring, Known, Offloaded};
use crate::opened::{Opened, Reset, Retried, id_of, space_and_type};
use crate::recovery::Outcome;
use crate::search::{Found, Source};
use crate::sink::{Ended, Event, Unopened};
use crate::tls::{CryptoStream, HelloAgain};
use quic_wire::datagram::{HeaderKind, PacketRef};
use quic_wire::fields;
use quic_wire::frame::{Ack, Close, Frame, Iter, Rules};
use quic_wire::ids::SpaceId;
use quic_wire::permitted::permits;
use quic_wire::{ConnectionId, Side};

mod hello;

// How long a connection that is closed, and one that isn't, may say nothing until it has ended, in nanoseconds.
const SECOND: u64 = 1_000_000_000;
const CLOSING: u64 = 10 * SECOND;
const SILENCE: u64 = 600 * SECOND;

// How many Retries are remembered, of which the client takes one. Anyone who saw its first packet can make them.
const MOST_RETRIES: usize = 4;

/// What events go to.
pub(crate) type Tell<'t> = dyn FnMut(&Connection, Event<'_>) + 't;

/// A connection.
pub struct Connection {
    number: usize,
    ends: [End; 2],
    version: u32,
    first_version: u32,
    first_dcid: ConnectionId,
    /// The ids of Retries, first the one to which the client sent.
    retry_ids: Vec<ConnectionId>,
    is_retried: bool,
    random: Option<[u8; 32]>,
    again: Option<Box<HelloAgain>>,
    suite: Option<u16>,
    server_name: Option<Vec<u8>>,
    protocol: Option<Vec<u8>>,
    reset: Option<Side>,
    begun: u64,
    last: u64,
    began_before: bool,
    /// Whether a packet with keys of the key log was opened.
    pub(crate) is_named: bool,
    /// How many packets of each number space are remembered.
    pub(crate) most_packets: usize,
    /// Whether the handshake is confirmed (RFC 9001, section 4.1.2).
    is_confirmed: bool,
    keys: Keyring,
}

impl Connection {
    /// A connection begins with a client's Initial packet, which has keys of its own destination id.
    pub(crate) fn begin<'a>(
        number: usize,
        time: u64,
        packet: &PacketRef<'a>,
        keylog: &KeyLog,
        buffer: &'a mut Vec<u8>,
    ) -> Option<(Connection, Opened<'a>)> {
        if packet.header().kind() != HeaderKind::Initial {
            return None;
        }
        let mut connection = Connection::new(number, time, packet.header().version(), id_of(packet.dst_cid()));
        let opened = connection.open(packet, Side::Client, keylog, buffer)?;
        Some((connection, opened))
    }

    /// A connection that began before the capture is known by one of its packets.
    pub(crate) fn continued<'a>(
        number: usize,
        time: u64,
        (packet, found): (&PacketRef<'a>, Found),
        keylog: &KeyLog,
        buffer: &'a mut Vec<u8>,
    ) -> Option<(Connection, Opened<'a>)> {
        let Source { random, suite, version, label } = *found.source();
        let mut connection = Connection::new(number, time, version, ConnectionId::default());
        connection.began_before = true;
        connection.is_confirmed = packet.header().is_short();
        connection.random = Some(random);
        connection.suite = Some(suite.number());
        connection.adopt(packet, found);
        let opened = connection.open(packet, label.sender(), keylog, buffer)?;
        Some((connection, opened))
    }

    fn new(number: usize, time: u64, version: u32, first_dcid: ConnectionId) -> Connection {
        Connection {
            number,
            ends: Default::default(),
            version,
            first_version: version,
            first_dcid,
            retry_ids: Vec::new(),
            is_retried: false,
            random: None,
            again: None,
            suite: None,
            server_name: None,
            protocol: None,
            reset: None,
            begun: time,
            last: time,
            began_before: false,
            is_named: false,
            most_packets: MOST_PACKETS,
            is_confirmed: false,
            keys: Keyring::new(first_dcid),
        }
    }

    /// Takes the keys and the number of a packet that were found.
    pub(crate) fn adopt(&mut self, packet: &PacketRef<'_>, found: Found) {
        if let Some((space, _)) = space_and_type(packet.header().kind()) {
            self.ends[found.source().label.sender() as usize].expect(space, found.number());
        }
        self.keys.adopt(found);
    }

    /// How many bytes it keeps of messages that aren't whole, about.
    pub(crate) fn held(&self) -> usize {
        let again = self.again.as_ref().map_or(0, |again| again.held());
        self.ends.iter().flat_map(|end| &end.crypto).map(CryptoStream::held).sum::<usize>() + again
    }

    /// Gives up the messages that aren't whole.
    pub(crate) fn give_up_messages(&mut self) {
        self.again = self.again.take().filter(|again| again.held() == 0);
        let streams = self.ends.iter_mut().flat_map(|end| &mut end.crypto);
        streams.filter(|stream| stream.held() > 0).for_each(CryptoStream::give_up);
    }

    /// Forgets all packets of each number space but the latest, and as many ids of each side.
    pub(crate) fn remember(&mut self, most: usize) {
        self.most_packets = most;
        for end in &mut self.ends {
            end.remember_ids(most);
            end.recovery.spaces.iter_mut().for_each(|space| space.remember(most));
        }
    }

    /// Whether no 1-RTT packet of a side was opened.
    pub(crate) fn lacks_keys(&self, sender: Side) -> bool {
        self.keys.lacks(sender)
    }

    /// Its number among the connections of the capture, from 0 on, in the order in which they began.
    pub fn number(&self) -> usize {
        self.number
    }

    /// What is known of a side.
    pub fn end(&self, side: Side) -> &End {
        &self.ends[side as usize]
    }

    /// The version of its last packet with a long header.
    pub fn version(&self) -> u32 {
        self.version
    }

    /// Whether it began before the capture: its client's first Initial packet wasn't captured, and its keys were found
    /// by trying the secrets of the key log. [`Connection::suite`] is then the one whose keys open its packets.
    pub fn began_before(&self) -> bool {
        self.began_before
    }

    /// The id to which the client sent its first Initial packet; without bytes if the connection began before the
    /// capture.
    pub fn first_dcid(&self) -> &ConnectionId {
        &self.first_dcid
    }

    /// The id that a Retry gave. If there were several, it is the one to which the client sent.
    pub fn retry_id(&self) -> Option<&ConnectionId> {
        self.retry_ids.first()
    }

    /// The ids that Retries gave: [`Connection::retry_id`], and then those of Retries that the client didn't take.
    pub fn retry_ids(&self) -> &[ConnectionId] {
        &self.retry_ids
    }

    /// The version of its first packet.
    pub(crate) fn first_version(&self) -> u32 {
        self.first_version
    }

    /// The random bytes of the ClientHello, by which key logs name it.
    pub fn random(&self) -> Option<&[u8; 32]> {
        self.random.as_ref()
    }

    /// The number of the cipher suite in TLS, as the server chose it.
    pub fn suite(&self) -> Option<u16> {
        self.suite
    }

    /// The server's name, as the client called it (SNI), of at most 255 bytes.
    pub fn server_name(&self) -> Option<&[u8]> {
        self.server_name.as_deref()
    }

    /// The application's protocol, as the server chose it (ALPN).
    pub fn protocol(&self) -> Option<&[u8]> {
        self.protocol.as_deref()
    }

    /// When its first and its last packet were captured, in nanoseconds since 1970.
    pub fn times(&self) -> (u64, u64) {
        (self.begun, self.last)
    }

    /// How it ended, if it has at a time: it was closed or reset, or nothing came for too long.
    pub fn ended(&self, now: u64) -> Option<Ended> {
        let silence = now.saturating_sub(self.last);
        let limit = self.idle_timeout().map_or(SILENCE, |idle| (2 * idle).saturating_add(CLOSING));
        let is_closed = self.ends.iter().any(|end| end.closed.is_some());
        match self.reset {
            Some(_) if silence > CLOSING => Some(Ended::Reset),
            _ if is_closed && silence > CLOSING => Some(Ended::Closed),
            _ if silence > limit => Some(Ended::Silent),
            _ => None,
        }
    }

    // The smaller of what both sides said, in nanoseconds; 0 means none (RFC 9000, section 10.1).
    fn idle_timeout(&self) -> Option<u64> {
        let said = |end: &End| Some(end.parameters?.max_idle_timeout.into_inner()).filter(|millis| *millis > 0);
        let millis = self.ends.iter().filter_map(said).min()?;
        Some(millis.saturating_mul(1_000_000).min(u64::MAX / 4))
    }

    /// Opens a packet as one of a sender.
    pub(crate) fn open<'a>(
        &mut self,
        packet: &PacketRef<'a>,
        sender: Side,
        keylog: &KeyLog,
        buffer: &'a mut Vec<u8>,
    ) -> Option<Opened<'a>> {
        let (space, _) = space_and_type(packet.header().kind()).filter(|_| !self.is_anew(packet, sender))?;
        let (expected, also) = (self.end(sender).expected(space), self.end(sender).also_expected(space));
        let random = self.random_in(keylog).copied();
        let Connection { suite, version, keys, .. } = self;
        let known = Known { random: random.as_ref(), suite: *suite, version: *version, keylog };
        let mut candidate = Candidate { packet: *packet, sender, expected };
        if let Some(also) = also {
            if keys.open(candidate, &known, buffer).is_none() {
                candidate.expected = also;
            }
        }
        keys.open(candidate, &known, buffer)
    }

    // Whether it is a packet with which a client begins anew in another version, to the same id: before the server has
    // answered, only a version negotiation makes it send another one there (RFC 9000, section 6.2).
    fn is_anew(&self, packet: &PacketRef<'_>, sender: Side) -> bool {
        let header = packet.header();
        let is_first = *packet.dst_cid() == *self.first_dcid && self.end(Side::Server).scid.is_none();
        let is_of_client = sender == Side::Client && header.kind() == HeaderKind::Initial;
        is_of_client && is_first && !self.began_before && header.version() != self.first_version
    }

    /// As [`Keyring::segment_len`].
    pub(crate) fn segment_len(
        &mut self,
        datagram: Offloaded<'_>,
        keylog: &KeyLog,
        buffer: &mut Vec<u8>,
    ) -> Option<usize> {
        let end = self.end(datagram.sender);
        let numbers = [Some(end.expected(SpaceId::Data)), end.also_expected(SpaceId::Data)];
        let random = self.random_in(keylog).copied();
        let Connection { suite, version, keys, .. } = self;
        let known = Known { random: random.as_ref(), suite: *suite, version: *version, keylog };
        let mut numbers = numbers.into_iter().flatten();
        numbers.find_map(|expected| keys.segment_len(datagram, expected, &known, buffer))
    }

    /// Why a packet isn't opened.
    pub(crate) fn why(&self, packet: &PacketRef<'_>, sender: Side, keylog: &KeyLog) -> Unopened {
        let label = match (packet.header().kind(), sender) {
            (HeaderKind::ZeroRtt, _) => Label::ClientEarly,
            (HeaderKind::Handshake, Side::Client) => Label::ClientHandshake,
            (HeaderKind::Handshake, Side::Server) => Label::ServerHandshake,
            (HeaderKind::Short, Side::Client) => Label::ClientTraffic,
            (HeaderKind::Short, Side::Server) => Label::ServerTraffic,
            _ if self.began_before => return Unopened::NoFirstId,
            _ => return Unopened::WrongTag,
        };
        match self.random_in(keylog).map(|random| keylog.secret(random, label)) {
            None => Unopened::NoClientHello,
            Some(None) => Unopened::NoSecret,
            _ if self.suite.is_some_and(|number| Suite::of(number).is_none()) => Unopened::UnknownSuite,
            _ => Unopened::WrongTag,
        }
    }

    /// Whether a Retry can still come: the client took none, and nothing else of the server was opened (RFC 9000,
    /// section 17.2.5.2). A server without a state may send several, of which the client takes the first that comes.
    pub(crate) fn may_retry(&self) -> bool {
        let has_room = !self.is_retried && self.retry_ids.len() < MOST_RETRIES;
        !self.began_before && has_room && self.end(Side::Server).scid.is_none()
    }

    /// Takes a Retry.
    pub(crate) fn take_retry(&mut self, retried: &Retried, time: u64) {
        if !self.retry_ids.contains(&retried.id()) {
            self.retry_ids.push(retried.id());
            self.keys.retry(retried);
        }
        self.again.get_or_insert_default();
        self.ends[Side::Client as usize].recovery.begin_again();
        self.last = self.last.max(time);
    }

    /// Takes a stateless reset.
    pub(crate) fn take_reset(&mut self, reset: &Reset, time: u64) {
        self.reset = self.reset.or(Some(reset.sender()));
        self.last = self.last.max(time);
    }

    /// Takes an opened packet, and says what is learned from it. The connection is as it was before each event. Returns
    /// whether the packet's number is new: otherwise anyone may have sent it again, and nothing changes.
    pub(crate) fn take(
        &mut self,
        opened: &Opened<'_>,
        datagram: &Datagram<'_>,
        index: u64,
        tell: &mut Tell<'_>,
    ) -> bool {
        let (sender, space, number) = (opened.sender(), opened.space(), opened.number());
        let Datagram { record, time, .. } = *datagram;
        let (tag, acknowledged, lost) = (opened.tag(), None, None);
        let sent = Sent { sender, space, number, record, time, index, tag, acknowledged, lost };
        if self.end(sender).was_sent(space, number) {
            let before = self.end(sender).sent(space, number).copied();
            tell(self, Event::Again(opened, before.as_ref()));
            return false;
        }
        tell(self, Event::Packet(opened));
        self.last = self.last.max(time);
        for side in [Side::Client, Side::Server] {
            let outcomes = self.ends[side as usize].recovery.expire(time);
            self.tell_outcomes(outcomes, tell);
        }
        self.take_header(opened, sent, tell);
        if self.take_payload(opened, &sent, tell) {
            self.ends[sender as usize].add_waiting(&sent);
        }
        tell(self, Event::Done(opened));
        true
    }

    fn take_header(&mut self, opened: &Opened<'_>, sent: Sent, tell: &mut Tell<'_>) {
        let (packet, sender) = (opened.packet(), opened.sender());
        self.ends[sender as usize].add_sent(sent, self.most_packets);
        if self.began_before {
            self.take_dcid(opened, tell);
        }
        let end = &mut self.ends[sender as usize];
        if opened.kind() == HeaderKind::Short {
            return;
        }
        if opened.kind() == HeaderKind::Handshake {
            end.has_handshake = true;
            // A close in an Initial packet before it may be anyone's.
            end.closed = end.closed.filter(|closed| closed.sent.space != SpaceId::Initial);
        }
        if end.scid.is_none() {
            let id = id_of(packet.src_cid());
            end.scid = Some(id);
            end.add_id(0, id, None);
            tell(self, Event::NewId(id, sender));
        }
        let may_take = sender == Side::Client && !self.is_retried;
        let taken = self.retry_ids.iter().position(|id| may_take && **id == *packet.dst_cid());
        if let Some(place) = taken {
            self.retry_ids.swap(0, place);
            self.is_retried = true;
        }
        // The server may answer in another version, and the client's first one may come again after that.
        let is_first = self.end(Side::Server).scid.is_none();
        if is_first || sender == Side::Server || opened.kind() == HeaderKind::Handshake {
            self.version = packet.header().version();
        }
    }

    // The ids of a connection that began before the capture are known by packets to them.
    fn take_dcid(&mut self, opened: &Opened<'_>, tell: &mut Tell<'_>) {
        let (id, side) = (id_of(opened.packet().dst_cid()), !opened.sender());
        let end = &mut self.ends[side as usize];
        end.scid.get_or_insert(id);
        if opened.kind() == HeaderKind::Handshake {
            end.add_id(0, id, None);
        }
        if end.last_dcid.replace(id) != Some(id) {
            tell(self, Event::NewId(id, side));
        }
    }

    // Takes the frames, and returns whether they elicit an acknowledgment.
    fn take_payload(&mut self, opened: &Opened<'_>, sent: &Sent, tell: &mut Tell<'_>) -> bool {
        let has_frequency = |end: &End| end.parameters.as_ref().is_none_or(|list| list.min_ack_delay.is_some());
        let rules = Rules { no_ack_frequency: !has_frequency(self.end(!opened.sender())), ..Rules::RFC };
        let payload = opened.payload();
        let Ok(mut frames) = Iter::with_rules(payload, rules) else {
            tell(self, Event::Empty(opened));
            return false;
        };
        let (mut elicits, mut padding) = (false, None);
        loop {
            let begin = frames.offset();
            let next = frames.next();
            if let Some(Ok(Frame::Padding)) = next {
                padding.get_or_insert(begin);
                continue;
            }
            if let Some(from) = padding.take() {
                let (frame, range, permitted) = (&Frame::Padding, from..begin, Ok(()));
                tell(self, Event::Frame { opened, frame, range, permitted });
            }
            match next {
                None => return elicits,
                Some(Err(error)) => {
                    let fault = fields::of_frame(&payload[begin..], rules).fault().copied();
                    tell(self, Event::Invalid { opened, error, offset: begin, fault });
                }
                Some(Ok(frame)) => {
                    elicits |= frame.is_ack_eliciting();
                    let permitted = permits(&frame, opened.packet_type(), opened.sender(), rules);
                    let range = begin..frames.offset();
                    tell(self, Event::Frame { opened, frame: &frame, range, permitted });
                    if permitted.is_ok() {
                        self.take_frame(opened, &frame, sent, tell);
                    }
                }
            }
        }
    }

    // Takes a frame that its sender may send in this packet.
    fn take_frame(&mut self, opened: &Opened<'_>, frame: &Frame<'_>, sent: &Sent, tell: &mut Tell<'_>) {
        let (sender, space) = (opened.sender(), opened.space());
        match frame {
            Frame::Ack(ack) => {
                let outcomes = self.take_ack(ack, sent, sender);
                self.tell_outcomes(outcomes, tell);
            }
            Frame::HandshakeDone => self.is_confirmed = true,
            Frame::Crypto(crypto) => {
                self.take_again(opened, crypto);
                let streams = &mut self.ends[sender as usize].crypto;
                let said = streams.get_mut(space as usize).and_then(|one| one.take(crypto.offset, crypto.bytes));
                if let Some(said) = said {
                    self.take_message(opened, said, tell);
                }
            }
            Frame::NewConnectionId(new) => {
                tell(self, Event::NewId(new.id, sender));
                self.ends[sender as usize].add_id(new.sequence, new.id, Some(new.reset_token));
            }
            Frame::Close(close) => self.take_close(close, sent, sender),
            _ => {}
        }
    }

    // Takes the ACK that a side sent in a packet. Its delay counts as RFC 9002, section 5.3, says.
    fn take_ack(&mut self, ack: &Ack<'_>, sent: &Sent, sender: Side) -> Vec<Outcome> {
        let parameters = self.end(sender).parameters();
        let exponent = parameters.map_or(3, |list| list.ack_delay_exponent.into_inner().min(20));
        let most = parameters.map_or(25, |list| list.max_ack_delay.into_inner()).saturating_mul(1_000_000);
        let delay = ack.delay().saturating_mul(1 << exponent).saturating_mul(1000);
        let delay = match sent.space {
            SpaceId::Initial => 0,
            _ if self.is_confirmed => delay.min(most),
            _ => delay,
        };
        let end = &mut self.ends[!sender as usize];
        end.expect(sent.space, ack.largest().saturating_add(1));
        end.recovery.take_ack(sent.space, ack, sent.time, delay)
    }

    fn tell_outcomes(&self, outcomes: Vec<Outcome>, tell: &mut Tell<'_>) {
        for outcome in outcomes {
            let event = match outcome {
                Outcome::Acknowledged(sent) => Event::Acknowledged { sent, was_lost: sent.lost.is_some() },
                Outcome::Lost(sent) => Event::Lost(sent),
            };
            tell(self, event);
        }
    }

    // A close in an Initial packet, which anyone on the path can make, doesn't count once Handshake packets came.
    fn take_close(&mut self, close: &Close<'_>, sent: &Sent, sender: Side) {
        let end = &mut self.ends[sender as usize];
        if end.closed.is_none() && (sent.space != SpaceId::Initial || !end.has_handshake) {
            end.closed = Some(Closed { sent: *sent, by_application: matches!(close, Close::Application(_)) });
        }
    }
}
