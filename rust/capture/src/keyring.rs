//! The keys of a connection. They change only where a packet is opened.

use crate::ciphers::{Suite, TAG_LEN};
use crate::keylog::{KeyLog, Label};
use crate::keys::{PacketKeys, VERSIONS};
use crate::opened::{Opened, Retried, Unmasked};
use crate::search::Found;
use quic_wire::datagram::{HeaderChecks, HeaderKind, PacketRef, Packets};
use quic_wire::{ConnectionId, Side};

/// A datagram of more bytes may be several, which the network card cuts apart.
pub(crate) const MOST_USUAL: usize = 1500;

// The sizes that are tried for segments: up to where the id is found again, as far as the longest frames of Ethernet
// go; from the usual size down if ids have no bytes.
const LONGEST_SEGMENT: usize = 9216;
const LEAST_SEGMENT: usize = 600;
const MOST_SIZES: usize = 128;

// After how many datagrams of a side that open with no size most others are tried only with that of the last segments
// and whole: anyone can send them.
const MOST_IN_VAIN: u32 = 8;
const FEW_SIZES: usize = 2;

/// How headers are read: the fixed bit may be clear (RFC 9287).
pub(crate) const CHECKS: HeaderChecks = HeaderChecks { grease_quic_bit: true, any_version: true, whole_retry: false };

/// What keys follow from besides secrets, as authentic packets of the connection have said it.
#[derive(Clone, Copy)]
pub(crate) struct Known<'a> {
    pub(crate) random: Option<&'a [u8; 32]>,
    /// The number of the cipher suite.
    pub(crate) suite: Option<u16>,
    pub(crate) version: u32,
    pub(crate) keylog: &'a KeyLog,
}

/// A packet to be opened: who would have sent it, and the number that is expected of it.
#[derive(Clone, Copy)]
pub(crate) struct Candidate<'a> {
    pub(crate) packet: PacketRef<'a>,
    pub(crate) sender: Side,
    pub(crate) expected: u64,
}

impl<'a> Candidate<'a> {
    fn open(self, keys: &PacketKeys, buffer: &'a mut Vec<u8>) -> Option<Opened<'a>> {
        let unmasked = Unmasked::new(keys, self.packet, self.expected, buffer)?;
        Opened::new(keys, unmasked, self.sender, buffer)
    }

    fn is_opened_by(self, keys: &PacketKeys, buffer: &mut Vec<u8>) -> bool {
        self.open(keys, buffer).is_some()
    }

    /// The packet's number if keys open it.
    pub(crate) fn number_by(self, keys: &PacketKeys, buffer: &mut Vec<u8>) -> Option<u64> {
        self.open(keys, buffer).map(|opened| opened.number())
    }
}

/// A datagram that may be several: where its first short packet begins, and how many bytes that packet's id has; and
/// whether that is only guessed.
#[derive(Clone, Copy)]
pub(crate) struct Offloaded<'a> {
    pub(crate) bytes: &'a [u8],
    pub(crate) begin: usize,
    pub(crate) id_len: usize,
    pub(crate) sender: Side,
    pub(crate) is_guess: bool,
}

impl<'a> Offloaded<'a> {
    // Where the segment with the first short packet may end: by the size of the last segments, by that of all bytes,
    // and then by further ones.
    fn ends(self, last: usize) -> impl Iterator<Item = usize> + 'a {
        let Offloaded { bytes, begin, id_len, .. } = self;
        let id = bytes.get(begin + 1..begin + 1 + id_len).unwrap_or_default();
        let again = (begin + 1 + id_len + 4 + TAG_LEN..bytes.len().min(begin + LONGEST_SEGMENT + 1))
            .filter(move |at| !id.is_empty() && bytes.get(at + 1..).is_some_and(|behind| behind.starts_with(id)));
        let usual = (LEAST_SEGMENT..=MOST_USUAL).rev().filter(move |_| id.is_empty());
        let by_size = move |size: usize| begin.checked_div(size).map_or(0, |before| (before + 1) * size);
        let ends = [by_size(last), bytes.len()].into_iter().chain(again.take(MOST_SIZES)).chain(usual.map(by_size));
        ends.filter(move |end| (begin + 1..=bytes.len()).contains(end))
    }

    // The sizes that segments may have if one ends there: those before it have only long headers.
    fn sizes(self, end: usize) -> impl Iterator<Item = usize> {
        let front = Packets::with_checks(&self.bytes[..self.begin], 0, &VERSIONS, CHECKS).map_while(Result::ok);
        let mut begins: Vec<_> = front.map(|packet| packet.place().range().start).collect();
        begins.push(self.begin);
        let fits = |size: &usize| (*size..end).step_by(*size).all(|at| begins.binary_search(&at).is_ok());
        let parts: Vec<_> = begins.iter().copied().filter(|size| *size > 0 && end % size == 0).filter(fits).collect();
        [end].into_iter().chain(parts)
    }
}

/// The keys of a side's 1-RTT packets (RFC 9001, section 6).
struct Phase {
    keys: PacketKeys,
    bit: bool,
    /// How many keys came before these.
    updates: u64,
    before: Option<Box<PacketKeys>>,
    after: Option<Box<PacketKeys>>,
}

// What the keys of Initial packets follow from: the version, the sender, and an id of the client's packets.
type InitialKey = (u32, Side, ConnectionId);

/// The keys of a connection.
pub(crate) struct Keyring {
    first_id: ConnectionId,
    /// The ids of Retries.
    retry_ids: Vec<ConnectionId>,
    initial: Vec<(InitialKey, PacketKeys)>,
    early: Option<Box<PacketKeys>>,
    handshake: [Option<Box<PacketKeys>>; 2],
    phases: [Option<Box<Phase>>; 2],
    /// The size of the last segments of each side, and how many datagrams since them opened with no size.
    segments: [usize; 2],
    in_vain: [u32; 2],
}

impl Keyring {
    pub(crate) fn new(first_id: ConnectionId) -> Keyring {
        Keyring {
            first_id,
            retry_ids: Vec::new(),
            initial: Vec::new(),
            early: None,
            handshake: [None, None],
            phases: [None, None],
            segments: [0; 2],
            in_vain: [0; 2],
        }
    }

    /// After a Retry that the client took, Initial packets have keys of its id, except those of the client that came
    /// late.
    pub(crate) fn retry(&mut self, retried: &Retried) {
        self.retry_ids.push(retried.id());
    }

    /// Takes the keys of a connection that began before the capture, as a packet of it has shown them.
    pub(crate) fn adopt(&mut self, found: Found) {
        let label = found.source().label;
        let sender = label.sender();
        if matches!(label, Label::ClientTraffic | Label::ServerTraffic) && self.lacks(sender) {
            let (keys, updates) = found.into_phase();
            self.phases[sender as usize] = Some(Box::new(Phase { bit: updates % 2 == 1, updates, ..Phase::new(keys) }));
        }
    }

    /// Whether no 1-RTT packet of a side was opened.
    pub(crate) fn lacks(&self, sender: Side) -> bool {
        self.phases[sender as usize].is_none()
    }

    /// Opens a packet, if there are keys for it. Once both sides have keys of a later kind, earlier ones are forgotten;
    /// packets that come late make them again.
    pub(crate) fn open<'a>(
        &mut self,
        candidate: Candidate<'a>,
        known: &Known<'_>,
        buffer: &'a mut Vec<u8>,
    ) -> Option<Opened<'a>> {
        let (header, sender) = (candidate.packet.header(), candidate.sender);
        let (slot, label) = match (header.kind(), sender) {
            (HeaderKind::Initial, _) => return self.open_initial(candidate, buffer),
            (HeaderKind::Short, _) => {
                let opened = self.open_short(candidate, known, buffer);
                if self.phases.iter().all(Option::is_some) {
                    (self.initial, self.early, self.handshake) = (Vec::new(), None, [None, None]);
                }
                return opened;
            }
            (HeaderKind::ZeroRtt, Side::Client) => (&mut self.early, Label::ClientEarly),
            (HeaderKind::Handshake, Side::Client) => (&mut self.handshake[0], Label::ClientHandshake),
            (HeaderKind::Handshake, Side::Server) => (&mut self.handshake[1], Label::ServerHandshake),
            _ => return None,
        };
        if slot.is_none() {
            let mut keys = keys_of(known, [header.version()], label);
            *slot = Some(Box::new(keys.find(|keys| candidate.is_opened_by(keys, buffer))?));
        }
        let opened = candidate.open(slot.as_ref()?, buffer);
        if self.handshake.iter().all(Option::is_some) {
            self.initial = Vec::new();
        }
        opened
    }

    // Packets that the client sent before a Retry may come late. Anyone who saw them can make a Retry too, which the
    // client may have discarded.
    fn open_initial<'a>(&mut self, candidate: Candidate<'a>, buffer: &'a mut Vec<u8>) -> Option<Opened<'a>> {
        let key = |id| (candidate.packet.header().version(), candidate.sender, id);
        let retried = self.retry_ids.clone().into_iter().find(|id| {
            let keys = self.initial(key(*id));
            keys.is_some_and(|keys| candidate.is_opened_by(keys, buffer))
        });
        let id = retried.unwrap_or(self.first_id);
        candidate.open(self.initial(key(id))?, buffer)
    }

    fn initial(&mut self, key: InitialKey) -> Option<&PacketKeys> {
        if !self.initial.iter().any(|(of, _)| *of == key) {
            let (version, sender, id) = key;
            self.initial.push((key, PacketKeys::initial(version, &id, sender)?));
        }
        self.initial.iter().find(|(of, _)| *of == key).map(|(_, keys)| keys)
    }

    fn open_short<'a>(
        &mut self,
        candidate: Candidate<'a>,
        known: &Known<'_>,
        buffer: &'a mut Vec<u8>,
    ) -> Option<Opened<'a>> {
        let slot = &mut self.phases[candidate.sender as usize];
        if slot.is_none() {
            let mut phases = first_phases(known, candidate.sender);
            let phase = phases.find_map(|mut phase| phase.open(candidate, buffer).is_some().then_some(phase))?;
            *slot = Some(Box::new(phase));
        }
        slot.as_mut()?.open(candidate, buffer)
    }

    /// Finds the size of the datagrams that a network card cuts from one of these: Linux passes datagrams to the card
    /// that have one size, except for the last. It is the size with which the first short packet opens, and the next
    /// one if segments before the first have only long headers; `None` if the first opens with none.
    pub(crate) fn segment_len(
        &mut self,
        datagram: Offloaded<'_>,
        expected: u64,
        known: &Known<'_>,
        buffer: &mut Vec<u8>,
    ) -> Option<usize> {
        let Offloaded { bytes, begin, id_len, sender, is_guess } = datagram;
        let (last, in_vain) = (self.segments[sender as usize], self.in_vain[sender as usize]);
        let are_all = is_guess || in_vain < MOST_IN_VAIN || in_vain.is_power_of_two();
        let (most, mut is_tried) = (if are_all { usize::MAX } else { FEW_SIZES }, false);
        let mut size_by = |phase: &mut Phase| {
            is_tried = true;
            let mut opens = |segment: &[u8]| {
                let first = Packets::with_checks(segment, id_len, &VERSIONS, CHECKS).next();
                let Some(Ok(packet)) = first else { return false };
                phase.open(Candidate { packet, sender, expected }, buffer).is_some()
            };
            let end = datagram.ends(last).take(most).find(|end| opens(&bytes[begin..*end]))?;
            if begin == 0 || end == bytes.len() {
                return Some(end);
            }
            let mut sizes = datagram.sizes(end);
            Some(sizes.find(|size| opens(&bytes[end..bytes.len().min(end + size)])).unwrap_or(end))
        };
        let slot = &mut self.phases[sender as usize];
        let size = match slot {
            Some(phase) => size_by(phase),
            None => {
                let mut phases = first_phases(known, sender);
                let found = phases.find_map(|mut phase| Some((size_by(&mut phase)?, phase)));
                found.map(|(size, phase)| {
                    *slot = Some(Box::new(phase));
                    size
                })
            }
        };
        self.in_vain[sender as usize] = match size {
            Some(_) => 0,
            None if is_tried && !is_guess => in_vain.saturating_add(1),
            None => in_vain,
        };
        if let Some(size) = size.filter(|size| *size < bytes.len()) {
            self.segments[sender as usize] = size;
        }
        size
    }
}

impl Phase {
    fn new(keys: PacketKeys) -> Phase {
        Phase { keys, bit: false, updates: 0, before: None, after: None }
    }

    fn open<'a>(&mut self, candidate: Candidate<'a>, buffer: &'a mut Vec<u8>) -> Option<Opened<'a>> {
        let unmasked = Unmasked::new(&self.keys, candidate.packet, candidate.expected, buffer)?;
        if unmasked.key_phase() == self.bit {
            let opened = Opened::new(&self.keys, unmasked, candidate.sender, buffer)?;
            return Some(opened.with_updates(self.updates));
        }
        if let Some(before) = self.before.as_ref().filter(|keys| candidate.is_opened_by(keys, buffer)) {
            return Some(candidate.open(before, buffer)?.with_updates(self.updates.saturating_sub(1)));
        }
        if self.after.is_none() {
            self.after = self.keys.updated().map(Box::new);
        }
        let opened = candidate.open(self.after.as_ref()?, buffer)?;
        let before = std::mem::replace(&mut self.keys, *self.after.take()?);
        self.before = Some(Box::new(before));
        self.bit = !self.bit;
        self.updates += 1;
        Some(opened.with_updates(self.updates))
    }
}

// The keys that a side's 1-RTT packets may have. Packets that say the version, and those before the first update, may
// be missing.
fn first_phases(known: &Known<'_>, sender: Side) -> impl Iterator<Item = Phase> {
    let label = if sender == Side::Client { Label::ClientTraffic } else { Label::ServerTraffic };
    let [one, two] = VERSIONS;
    let versions = if known.version == two { [two, one] } else { [one, two] };
    keys_of(known, versions, label).map(Phase::new)
}

// The keys of a secret, with each version and suite that the connection may have, first the suite that the server
// named: anyone who saw the client's first packet can name another.
fn keys_of<const N: usize>(known: &Known<'_>, versions: [u32; N], label: Label) -> impl Iterator<Item = PacketKeys> {
    let is_read = known.suite.is_none_or(|number| Suite::of(number).is_some());
    let secret = known.random.filter(|_| is_read).and_then(|random| known.keylog.secret(random, label));
    let mut suites = Suite::ALL;
    suites.sort_by_key(|suite| known.suite != Some(suite.number()));
    let kinds = suites.into_iter().flat_map(move |suite| versions.map(|version| (suite, version)));
    kinds.filter_map(move |(suite, version)| PacketKeys::new(secret?, suite, version))
}
