//! Lists of transport parameters, and sets of packet numbers.
use crate::random::Random;
use bytes::Buf;
use quic_wire::frame::Ack;
use quic_wire::range_set::{ArrayRangeSet, BoundedRangeSet, RangeSet};
use quic_wire::transport_parameters::{ReadOptions, TransportParameters, entries, known, value_number};
use std::collections::BTreeSet;

pub fn parameters(random: &mut Random) {
    let side = random.side();
    let list = random.list();
    let read = TransportParameters::read(side, &mut &list[..]);
    let placed = TransportParameters::read_list(side, ReadOptions::QUINN, &list);
    assert_eq!(placed.map_err(|refusal| refusal.error), read);
    in_pieces(random, &list);
    let Ok(read) = read else { return };
    assert!(read.in_range(side));
    let mut again = vec![];
    read.write(&mut again).unwrap();
    let unknown: Vec<_> = entries(&list).map(Result::unwrap).filter(|entry| known(entry.id).is_none()).collect();
    for entry in &unknown {
        entry.write(&mut again).unwrap();
    }
    assert_eq!(TransportParameters::read(side, &mut &again[..]), Ok(read));
    assert!(entries(&again).flatten().filter(|entry| known(entry.id).is_none()).eq(unknown));
    let _ = entries(&random.bytes(9)).count();
}

// With other options, and of a buffer in two pieces, a list has the same answer.
fn in_pieces(random: &mut Random, list: &[u8]) {
    let (side, options) = (random.side(), random.read_options());
    let placed = TransportParameters::read_list(side, options, list);
    let (front, back) = list.split_at(random.below(list.len() as u64 + 1) as usize);
    let read = TransportParameters::read_with(side, options, &mut front.chain(back));
    if let Err(refusal) = &placed {
        assert!(refusal.offset <= list.len() && !refusal.to_string().is_empty());
    }
    assert_eq!(placed.map_err(|refusal| refusal.error), read);
    for entry in entries(list).flatten() {
        assert!(value_number(entry.value).is_none_or(|number| number.size() <= entry.value.len()));
    }
}

pub fn sets(random: &mut Random) {
    let (mut bounded, mut model) = (BoundedRangeSet::<6>::new(), BTreeSet::new());
    let (mut set, mut array) = (RangeSet::new(), ArrayRangeSet::new());
    for _ in 0..12 {
        let (start, len, before) = (random.below(40), random.below(5), bounded.clone());
        let range = start..start + len;
        let is_insert = random.below(3) > 0;
        let answer = if is_insert { bounded.insert(range.clone()) } else { bounded.remove(range.clone()) };
        if answer.is_err() {
            assert!(bounded == before && bounded.len() == 6);
            continue;
        }
        let changed = if is_insert {
            model.extend(range.clone());
            [set.insert(range.clone()), array.insert(range)]
        } else {
            model.retain(|number| !range.contains(number));
            [set.remove(range.clone()), array.remove(range)]
        };
        assert_eq!(changed.map(Ok), [answer; 2]);
        assert!(set.iter().eq(&bounded) && array == *bounded.as_set());
        assert!(set.elts().eq(model.iter().copied()) && (0..45).all(|n| set.contains(n) == model.contains(&n)));
    }
    let (delay, mut out) = (random.number(), vec![]);
    if Ack::encode_from(delay, &set, None, &mut out).is_ok() {
        let ack = Ack::from_bytes(&out).unwrap();
        let mut numbers: Vec<u64> = ack.iter().flatten().collect();
        numbers.sort_unstable();
        assert!(numbers.into_iter().eq(set.elts()));
    }
}
