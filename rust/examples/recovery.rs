//! The sets of loss recovery (RFC 9002). A receiver stores the packet numbers that it received and writes them into an
//! ACK; its peer reads that, removes what is acknowledged from what is in flight, and finds what is lost.
use quic_wire::Error;
use quic_wire::frame::{Ack, Frame, Iter};
use quic_wire::range_set::{BoundedRangeSet, RangeSet};
use quic_wire::transport_error::Code;

/// The packet reordering threshold (RFC 9002, section 6.1.1).
const THRESHOLD: u64 = 3;

/// Remembers 32 runs of numbers, and no more, so that a peer that skips numbers can't make it grow.
#[derive(Default)]
struct Receiver {
    received: BoundedRangeSet<32>,
}

impl Receiver {
    /// Whether a packet is new. One older than all that are remembered isn't.
    fn receive(&mut self, number: u64) -> bool {
        let one = number..number + 1;
        !self.received.contains(number) && self.received.insert_or_drop_min(one.clone()) != Some(one)
    }

    fn acknowledge(&self, payload: &mut Vec<u8>) -> Result<(), Error> {
        Ok(Ack::encode(0, &self.received, None, payload)?)
    }
}

#[derive(Default)]
struct Sender {
    next: u64,
    in_flight: RangeSet,
}

/// Why an ACK ends the connection, as one of a packet that was never sent does (RFC 9000, section 13.1).
#[derive(Debug, PartialEq)]
enum Refused {
    Wire(Error),
    NeverSent(u64),
}

impl Refused {
    fn code(&self) -> Code {
        match self {
            Refused::Wire(error) => error.code().unwrap_or(Code::INTERNAL_ERROR),
            Refused::NeverSent(_) => Code::PROTOCOL_VIOLATION,
        }
    }
}

impl<E: Into<Error>> From<E> for Refused {
    fn from(error: E) -> Refused {
        Refused::Wire(error.into())
    }
}

impl Sender {
    fn send(&mut self) -> u64 {
        let number = self.next;
        self.in_flight.insert_one(number);
        self.next += 1;
        number
    }

    /// Reads the ACKs of a payload, and returns which packets are lost now.
    fn read(&mut self, payload: &[u8]) -> Result<Vec<u64>, Refused> {
        let mut lost = Vec::new();
        for frame in Iter::new(payload)? {
            if let Frame::Ack(ack) = frame? {
                self.take(&ack)?;
                lost.extend(self.lose(ack.largest()).elts());
            }
        }
        Ok(lost)
    }

    fn take(&mut self, ack: &Ack<'_>) -> Result<(), Refused> {
        if ack.largest() >= self.next {
            return Err(Refused::NeverSent(ack.largest()));
        }
        self.in_flight.subtract(&self.in_flight.acknowledged(ack));
        Ok(())
    }

    fn lose(&mut self, largest_acked: u64) -> RangeSet {
        let mut lost = self.in_flight.clone();
        lost.remove((largest_acked + 1).saturating_sub(THRESHOLD)..u64::MAX);
        self.in_flight.subtract(&lost);
        lost
    }
}

fn main() -> Result<(), Refused> {
    let (mut sender, mut receiver, mut payload) = (Sender::default(), Receiver::default(), vec![]);
    for _ in 0..10 {
        let number = sender.send();
        // Three packets don't arrive.
        if ![2, 3, 8].contains(&number) {
            assert!(receiver.receive(number) && !receiver.receive(number));
        }
    }
    receiver.acknowledge(&mut payload)?;
    let lost = sender.read(&payload)?;
    println!("received {:?}, lost {lost:?}, in flight {:?}", receiver.received, sender.in_flight);
    // Packet 8 may still come.
    assert_eq!((lost, sender.in_flight.elts().collect::<Vec<_>>()), (vec![2, 3], vec![8]));
    let never_sent = sender.read(&[0x02, 10, 0, 0, 0]).unwrap_err();
    assert_eq!((&never_sent, never_sent.code()), (&Refused::NeverSent(10), Code::PROTOCOL_VIOLATION));
    Ok(())
}

#[test]
fn what_is_acknowledged_or_lost_is_in_flight_no_more() -> Result<(), Refused> {
    main()
}
