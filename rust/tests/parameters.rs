//! Transport parameters that are read, written and put in an order.
use quic_wire::transport_parameters::{
    Entry, Error, PreferredAddress, ReadOptions, Refusal, ReservedTransportParameter, TransportParameterId,
    TransportParameters, WriteOrder, entries, known,
};
use quic_wire::{ConnectionId, Side, VarInt, WriteError};
use std::collections::{HashMap, HashSet};

fn var(n: u64) -> VarInt {
    VarInt::from_u64(n).unwrap()
}

fn of_a_server() -> TransportParameters {
    let preferred_address = PreferredAddress {
        address_v4: Some("127.0.0.1:443".parse().unwrap()),
        address_v6: Some("[::1]:443".parse().unwrap()),
        connection_id: ConnectionId::new(&[7; 8]),
        stateless_reset_token: [9; 16].into(),
    };
    TransportParameters {
        max_idle_timeout: var(30_000),
        initial_src_cid: Some(ConnectionId::default()),
        preferred_address: Some(preferred_address),
        min_ack_delay: Some(var(0)),
        grease_quic_bit: true,
        ..TransportParameters::default()
    }
}

fn refused(side: Side, list: &[u8]) -> Refusal {
    TransportParameters::read_list(side, ReadOptions::QUINN, list).unwrap_err()
}

#[test]
fn parameters_are_read_back() {
    let given = of_a_server();
    let mut list = vec![];
    given.write(&mut list).unwrap();
    assert_eq!(TransportParameters::read(Side::Client, &mut &list[..]), Ok(given));
    // A preferred address, which only servers send.
    let refusal = refused(Side::Server, &list);
    assert_eq!((refusal.error, refusal.id), (Error::IllegalValue, Some(0x0d)));
    let mut room = vec![7; list.len() + 1];
    assert_eq!(given.write_into(&mut room[..list.len() - 1]), Err(list.len()));
    assert_eq!((given.write_into(&mut room), room.pop()), (Ok(list.len()), Some(7)));
    assert_eq!(room, list);
    // The last entry is that of min_ack_delay.
    let refusal = refused(Side::Client, &list[..list.len() - 1]);
    assert_eq!((refusal.error, refusal.id), (Error::Malformed, Some(0xff04_de1b)));
    assert_eq!(TransportParameters::read(Side::Client, &mut &[][..]), Ok(TransportParameters::default()));
}

#[test]
fn what_a_peer_would_reject_is_out_of_range() {
    let d = TransportParameters::default;
    let address = of_a_server().preferred_address.unwrap();
    let at = |address| TransportParameters { preferred_address: Some(address), ..d() };
    let nowhere = Some("0.0.0.0:0".parse().unwrap());
    // Each as the side that reads it.
    let rows = [
        (Side::Server, of_a_server()),
        (Side::Server, TransportParameters { max_udp_payload_size: var(1199), ..d() }),
        (Side::Server, TransportParameters { ack_delay_exponent: var(21), ..d() }),
        (Side::Server, TransportParameters { max_ack_delay: var(1 << 14), ..d() }),
        (Side::Server, TransportParameters { active_connection_id_limit: var(1), ..d() }),
        (Side::Server, TransportParameters { initial_max_streams_uni: var((1 << 60) + 1), ..d() }),
        (Side::Server, TransportParameters { min_ack_delay: Some(var(25_001)), ..d() }),
        (Side::Client, at(PreferredAddress { address_v4: None, address_v6: None, ..address })),
        (Side::Client, at(PreferredAddress { address_v4: nowhere, ..address })),
        (Side::Client, at(PreferredAddress { connection_id: ConnectionId::default(), ..address })),
    ];
    for (side, parameters) in rows {
        assert!(!parameters.in_range(side), "{parameters:?}");
    }
    assert!(of_a_server().in_range(Side::Client));
    assert_eq!(refused(Side::Client, &[0x01]).to_string(), "parameters were malformed: 0x1 at byte 0");
    assert_eq!(refused(Side::Client, &[0x01, 1, 0, 0x40]).to_string(), "parameters were malformed: at byte 3");
    let illegal = quic_wire::Error::from(refused(Side::Client, &[0x0a, 1, 21]));
    assert_eq!(illegal.to_string(), "parameter had illegal value");
}

#[test]
fn further_parameters_are_written_and_read() {
    let sent = TransportParameters {
        initial_max_data: var(9),
        max_idle_timeout: var(5),
        grease_transport_parameter: ReservedTransportParameter::new(7, &[]),
        ..TransportParameters::default()
    };
    let mut list = vec![];
    sent.write(&mut list).unwrap();
    let extra = Entry { id: 0x11, value: &[0, 0, 0, 1, 0, 0, 0, 1] };
    extra.write(&mut list).unwrap();
    assert_eq!(list, [1, 1, 5, 4, 1, 9, 0x40, 244, 0, 0x11, 8, 0, 0, 0, 1, 0, 0, 0, 1]);
    let unknown: Vec<_> = entries(&list).flatten().filter(|entry| known(entry.id).is_none()).collect();
    let reserved = Entry { id: 244, value: &[] };
    assert_eq!((unknown, reserved.is_reserved()), (vec![reserved, extra], true));
    let read = TransportParameters::read(Side::Server, &mut &list[..]);
    assert_eq!(read, Ok(TransportParameters { grease_transport_parameter: None, ..sent }));

    let (mut orders, mut order) = (HashSet::new(), std::array::from_fn(|i| i as u8));
    for _ in 0..21 {
        let mut list = vec![];
        let ordered = TransportParameters { write_order: WriteOrder::new(order), ..sent };
        ordered.write(&mut list).unwrap();
        assert_eq!(TransportParameters::read(Side::Server, &mut &list[..]), read);
        orders.insert(list);
        order.rotate_left(1);
    }
    assert_eq!((orders.len(), WriteOrder::new([0; 21])), (3, None));
}

#[test]
fn entries_are_checked() {
    let refused = Entry { id: 1 << 62, value: &[] }.write(&mut vec![]);
    assert_eq!(refused, Err(WriteError::OutOfRange("a number of a parameter is 2^62 or more")));
    assert_eq!(Entry { id: 1, value: &[7] }.write(&mut &mut [0; 2][..]), Err(WriteError::NoRoom));
    let mut list = entries(&[0x04, 1, 9, 0x01, 5, 0]);
    assert_eq!(list.next(), Some(Ok(Entry { id: 4, value: &[9] })));
    assert_eq!((list.offset(), list.next(), list.next(), list.offset()), (3, Some(Err(Error::Malformed)), None, 6));
    assert_eq!(ReservedTransportParameter::new(u64::MAX / 31, &[]), None);
    assert_eq!(ReservedTransportParameter::new(0, &[0; 17]), None);
    let most = ReservedTransportParameter::new(((1 << 62) - 28) / 31, &[0; 16]);
    assert!(most.is_some());
}

#[test]
fn what_the_record_has_is_known() {
    let is_known = |id: &u64| known(*id).is_some_and(|known| known.number() == *id && known.is(*id));
    let all: Vec<u64> = (0..0x3000).chain(0xff04_de00..0xff04_df00).filter(is_known).collect();
    assert_eq!(all, (0..=0x10).chain([0x20, 0x2ab2, 0xff04_de1b]).collect::<Vec<_>>());
    let numbers: HashSet<_> = TransportParameterId::SUPPORTED.iter().map(|id| id.number()).collect();
    assert_eq!(numbers.len(), 21);
}

#[test]
fn ids_are_keys() {
    let id = ConnectionId::new(&[1, 2, 3]);
    let map: HashMap<ConnectionId, u8> = HashMap::from([(id, 5), (ConnectionId::default(), 6)]);
    assert_eq!((map.get(&id), map.get(&ConnectionId::new(&[]))), (Some(&5), Some(&6)));
    assert_eq!(map.get(&ConnectionId::new(&[9])), None);
    // By length first, as in quinn-proto.
    assert!(ConnectionId::default() < id && ConnectionId::new(&[1, 3]) < id);
    assert_eq!((id.to_string(), &id[1..], id.as_ref().len()), ("010203".into(), &[2, 3][..], 3));
}

// What each way of reading returns for a list: its `initial_max_data`, or the id and the offset of what it rejects.
type Answer = Result<u64, (Option<u64>, usize)>;

#[test]
fn a_list_is_read_as_quinn_or_as_rfc_9000_has_it() {
    let rows: [(&[u8], [Answer; 4]); 8] = [
        // initial_max_data of 9 in one byte, two, four, eight (RFC 9000, section 16).
        (&[0x04, 1, 9], [Ok(9); 4]),
        (&[0x04, 2, 0x40, 9], [Err((Some(4), 0)), Ok(9), Err((Some(4), 0)), Ok(9)]),
        (&[0x05, 1, 0, 0x04, 4, 0x80, 0, 0, 9], [Err((Some(4), 3)), Ok(9), Err((Some(4), 3)), Ok(9)]),
        (&[0x04, 8, 0xc0, 0, 0, 0, 0, 0, 0, 9], [Err((Some(4), 0)), Ok(9), Err((Some(4), 0)), Ok(9)]),
        // Twice a parameter that has a default, and one that hasn't (section 7.4).
        (&[0x04, 1, 9, 0x04, 1, 9], [Err((Some(4), 3)); 4]),
        (&[0x6a, 0xb2, 0, 0x6a, 0xb2, 0], [Ok(0), Ok(0), Err((Some(0x2ab2), 3)), Err((Some(0x2ab2), 3))]),
        // A number that is cut off, and one whose entry is.
        (&[0x04, 1, 9, 0x40], [Err((None, 3)); 4]),
        (&[0x04, 1, 9, 0x11, 4, 0], [Err((Some(0x11), 3)); 4]),
    ];
    for (list, answers) in rows {
        for (bits, answer) in answers.into_iter().enumerate() {
            let options = ReadOptions { any_width: bits & 1 != 0, no_repeats: bits & 2 != 0 };
            let read = TransportParameters::read_list(Side::Client, options, list);
            let seen = read.map(|p| p.initial_max_data.into_inner()).map_err(|refusal| (refusal.id, refusal.offset));
            assert_eq!(seen, answer, "{list:x?} with {options:?}");
            let alone = TransportParameters::read_with(Side::Client, options, &mut &list[..]);
            assert_eq!(alone.map_err(|_| ()), read.map_err(|_| ()));
        }
    }
    assert_eq!(ReadOptions::default(), ReadOptions::QUINN);
}

// Each rule of which parameters a side takes (section 18.2) names its parameter; of two broken rules the first, in the
// order of this table.
#[test]
fn an_illegal_value_names_its_parameter() {
    let mut token = vec![0x02, 16];
    token.extend([9; 16]);
    // An address of IPv4, and an empty id.
    let mut address = vec![0x0d, 41, 127, 0, 0, 1, 1, 187];
    address.extend([0; 35]);
    let rows: [(Side, u64, Vec<u8>); 11] = [
        (Side::Client, 0x0a, vec![0x0a, 1, 21]),
        (Side::Client, 0x0b, vec![0x0b, 4, 0x80, 0, 0x40, 0]),
        (Side::Client, 0x0e, vec![0x0e, 1, 1]),
        (Side::Client, 0x03, vec![0x03, 2, 0x44, 0xaf]),
        (Side::Client, 0x08, vec![0x08, 8, 0xd0, 0, 0, 0, 0, 0, 0, 1]),
        (Side::Client, 0x09, vec![0x09, 8, 0xd0, 0, 0, 0, 0, 0, 0, 1]),
        (Side::Client, 0xff04_de1b, vec![0xc0, 0, 0, 0, 0xff, 0x04, 0xde, 0x1b, 4, 0x80, 0, 0x61, 0xa9]),
        (Side::Client, 0x0d, address),
        (Side::Server, 0x00, vec![0x00, 0]),
        (Side::Server, 0x10, vec![0x10, 0]),
        (Side::Server, 0x02, token),
    ];
    let named = |side, list: &[u8]| {
        let refusal = refused(side, list);
        (refusal.error, refusal.id, refusal.offset)
    };
    for (i, (side, id, entry)) in rows.iter().enumerate() {
        let list = [&[0x04, 1, 9][..], entry].concat();
        assert_eq!(named(*side, &list), (Error::IllegalValue, Some(*id), 3));
        // A server rejects the others' too, so that any two may be in one list.
        for (_, _, later) in &rows[i + 1..] {
            let list = [&later[..], entry].concat();
            assert_eq!(named(Side::Server, &list), (Error::IllegalValue, Some(*id), later.len()));
        }
    }
}
