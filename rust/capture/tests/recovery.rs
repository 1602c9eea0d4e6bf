//! What counts as acknowledged and as lost. The numbers and times are those that RFC 9002 says for what is sent here.
mod common;
#[path = "common/made.rs"]
mod made;

use common::Kept;
use made::{Client, Initial, Made, Server, Short, crypto};
use quic_wire::Side;
use quic_wire::ids::SpaceId;
use quic_wire_capture::capture::Datagram;
use quic_wire_capture::connection::Connection;
use quic_wire_capture::follow::Follower;
use quic_wire_capture::recovery::{Loss, MOST_PACKETS, Threshold};
use quic_wire_capture::sink::{Event, Sink};

const PING: &[u8] = &[1];
const MS: u64 = 1_000_000;

/// The number of a 1-RTT packet, and what was learned of it with which record.
#[derive(Clone, Copy, Debug, PartialEq, Eq)]
enum Learned {
    Acknowledged { number: u64, record: u64, was_lost: bool },
    Lost { number: u64, record: u64, after: u64, by: Threshold },
}
use Learned::{Acknowledged, Lost};

/// Times count from here.
const BEGIN: u64 = 1_000_000_000;

#[derive(Default)]
struct Fates(Vec<Learned>);

impl Sink for Fates {
    fn opened(&mut self, connection: &Connection, datagram: &Datagram<'_>, _: u64, event: &Event<'_>) {
        let record = datagram.record;
        match event {
            Event::Acknowledged { sent, .. } if sent.space != SpaceId::Data => {}
            Event::Acknowledged { sent, was_lost } => {
                assert_eq!((sent.acknowledged, sent.lost.is_some()), (Some(datagram.time), *was_lost));
                self.0.push(Acknowledged { number: sent.number, record, was_lost: *was_lost });
            }
            Event::Lost(sent) => {
                let Some(Loss { time, by }) = sent.lost else { panic!("{sent:?}") };
                self.0.push(Lost { number: sent.number, record, after: time - BEGIN, by });
                assert_eq!(connection.end(sent.sender).sent(sent.space, sent.number), Some(sent));
            }
            _ => {}
        }
    }
}

// A connection after its handshake, and what it sends at which time.
struct Timed {
    made: Made,
    all: Vec<Kept>,
}

impl Timed {
    fn new() -> Timed {
        let mut made = Made::new(1);
        made.time = 0;
        let all = made.handshake();
        Timed { made, all }
    }

    fn send(&mut self, side: Side, after: u64, payload: &[u8]) {
        self.made.time = BEGIN + after - MS;
        self.all.push(self.made.send(side, Short, payload));
    }

    fn follow(&self) -> (Follower, Vec<Learned>) {
        let (mut follower, mut fates) = (Follower::default(), Fates::default());
        follower.keylog.add(self.made.key_log().as_bytes());
        for (kept, record) in self.all.iter().zip(1..) {
            follower.take(&Kept { record, ..kept.clone() }.datagram(), &mut fates);
        }
        follower.finish(&mut fates);
        (follower, fates.0)
    }

    fn rtt(&self) -> [u64; 3] {
        let (follower, _) = self.follow();
        let rtt = *follower.connections().next().unwrap().end(Client).rtt().unwrap();
        [rtt.latest, rtt.min, rtt.smoothed]
    }
}

// An ACK of numbers down from the largest one, with a delay.
fn ack(largest: u8, delay: u16, more: u8) -> Vec<u8> {
    [&[2, largest][..], &(0x4000 | delay).to_be_bytes(), &[0, more]].concat()
}

// Sections 6.1.1 and 6.1.2: of 0 to 5, each a millisecond after the one before, 5 is acknowledged a millisecond later.
// So the time threshold is 9/8 ms.
#[test]
fn by_packets_and_by_time() {
    let mut timed = Timed::new();
    (0..6).for_each(|n| timed.send(Client, n * MS, PING));
    timed.send(Server, 6 * MS, &ack(5, 0, 0));
    timed.send(Server, 9 * MS, &ack(5, 0, 4));
    let (follower, fates) = timed.follow();
    let lost = |number, by| Lost { number, record: 10, after: 6 * MS, by };
    let acknowledged = |number, record, was_lost| Acknowledged { number, record, was_lost };
    let mut expected = vec![acknowledged(5, 10, false)];
    expected.extend([0, 1, 2].map(|number| lost(number, Threshold::Packets)));
    expected.extend([3, 4].map(|number| lost(number, Threshold::Time)));
    expected.extend([1, 2, 3, 4].map(|number| acknowledged(number, 11, true)));
    assert_eq!(fates, expected);
    let end = follower.connections().next().unwrap().end(Client);
    let known = |number| end.sent(SpaceId::Data, number).map(|sent| (sent.acknowledged, sent.lost.map(|loss| loss.by)));
    assert_eq!(known(0), Some((None, Some(Threshold::Packets))));
    assert_eq!(known(4), Some((Some(BEGIN + 9 * MS), Some(Threshold::Time))));
    assert_eq!(known(5), Some((Some(BEGIN + 6 * MS), None)));
}

// A timer ends after 9/8 of the round-trip time of 100 ms, between two packets.
#[test]
fn by_a_timer() {
    for (next, expected) in [(213, vec![(1, 212_500_000)]), (212, vec![])] {
        let mut timed = Timed::new();
        timed.send(Client, 0, PING);
        timed.send(Server, 100 * MS, &ack(0, 0, 0));
        timed.send(Client, 100 * MS, PING);
        timed.send(Client, 101 * MS, PING);
        timed.send(Server, 201 * MS, &ack(2, 0, 0));
        timed.send(Client, next * MS, PING);
        let (_, fates) = timed.follow();
        let lost = fates.iter().filter_map(|fate| match *fate {
            Lost { number, record: 9, after, by: Threshold::Time } => Some((number, after)),
            Lost { .. } => panic!("{fate:?}"),
            Acknowledged { .. } => None,
        });
        assert_eq!(lost.collect::<Vec<_>>(), expected);
    }
}

// At least a millisecond (section 6.1.2), and packets that elicit no acknowledgment don't count as lost.
#[test]
fn the_least_time() {
    let mut timed = Timed::new();
    timed.send(Client, 0, PING);
    timed.send(Client, 0, &ack(0, 0, 0));
    timed.send(Client, 100_000, PING);
    timed.send(Server, 200_000, &ack(2, 0, 0));
    timed.send(Server, 900_000, PING);
    timed.send(Server, 1_000_000, PING);
    let (_, fates) = timed.follow();
    let lost = Lost { number: 0, record: 9, after: MS, by: Threshold::Time };
    assert_eq!(fates[1..], [lost]);
}

// Sections 5.1 to 5.3. Delays count in units of 8 microseconds, and at most 25 ms once the handshake is confirmed.
#[test]
fn round_trip_times() {
    let mut timed = Timed::new();
    timed.send(Client, 0, PING);
    timed.send(Server, 100 * MS, &ack(0, 5000, 0));
    assert_eq!(timed.rtt(), [100 * MS, 100 * MS, 100 * MS]);
    timed.send(Client, 200 * MS, PING);
    timed.send(Server, 330 * MS, &ack(1, 2500, 1));
    assert_eq!(timed.rtt(), [130 * MS, 100 * MS, 101_250_000]);
    // The same packet again is no sample, and neither is one that elicits no acknowledgment.
    timed.send(Server, 340 * MS, &ack(1, 0, 1));
    timed.send(Client, 350 * MS, &ack(0, 0, 0));
    timed.send(Server, 360 * MS, &ack(2, 0, 0));
    assert_eq!(timed.rtt(), [130 * MS, 100 * MS, 101_250_000]);
    // 60 ms of 130 ms would be less than the least; 25 ms of it aren't.
    let before = timed.all.len();
    timed.send(Client, 400 * MS, PING);
    timed.send(Server, 530 * MS, &ack(3, 7500, 0));
    assert_eq!(timed.rtt(), [130 * MS, 100 * MS, 104_843_750]);
    let mut confirmed = Timed::new();
    confirmed.all.extend_from_slice(&timed.all[confirmed.all.len()..before]);
    confirmed.made.numbers = [[1, 1, 3], [1, 1, 4]];
    confirmed.send(Server, 390 * MS, &[0x1e]);
    confirmed.send(Client, 400 * MS, PING);
    confirmed.send(Server, 530 * MS, &ack(3, 7500, 0));
    assert_eq!(confirmed.rtt(), [130 * MS, 100 * MS, 101_718_750]);
}

// Only so many packets are remembered.
#[test]
fn many_packets() {
    let mut timed = Timed::new();
    let count = MOST_PACKETS as u64 + 10;
    (0..count).for_each(|n| timed.send(Client, n * MS, PING));
    let (follower, _) = timed.follow();
    let end = follower.connections().next().unwrap().end(Client);
    let is_known = |number| end.sent(SpaceId::Data, number).is_some();
    assert_eq!([9, 10, count - 1].map(is_known), [false, true, true]);
}

// Section 6.3: after a Retry a client begins again. The server acknowledges only the Initial packet that answers it, two
// round trips after the first one.
#[test]
fn what_was_sent_before_a_retry() {
    let mut made = Made::new(1);
    made.time = BEGIN;
    let hello = crypto(0, &made.client_hello());
    let mut all = vec![made.send(Client, Initial, &hello)];
    made.time += 100 * MS;
    all.extend([made.retry(b"retried"), made.send(Client, Initial, &hello)]);
    made.time += 100 * MS;
    all.push(made.send(Server, Initial, &ack(1, 0, 0)));
    made.time += 500 * MS;
    all.push(made.send(Server, Initial, &crypto(0, &made.server_hello())));
    assert_eq!(Timed { made, all }.follow().1, []);
}
