//! Which connections a datagram may belong to, by the ids that its sides chose and by addresses.

use quic_wire::{ConnectionId, Side};
use std::collections::{HashMap, VecDeque};
use std::net::SocketAddr;

/// How many connections may share an id or a pair of addresses, and are tried.
const MOST_OWNERS: usize = 8;

/// How many ids, and how many pairs of addresses, of a connection are remembered at most, the latest.
pub(crate) const MOST_PLACES: usize = 256;

/// From whom, to whom.
pub(crate) type Path = (SocketAddr, SocketAddr);

/// A connection, by its number, and the side that sends.
pub(crate) type Owner = (usize, Side);

/// What a connection is found by.
#[derive(Default)]
struct Places {
    ids: VecDeque<(ConnectionId, Side)>,
    paths: VecDeque<(Path, Side)>,
}

/// The ids and paths of the connections that are known.
#[derive(Default)]
pub(crate) struct Index {
    by_id: HashMap<ConnectionId, Vec<Owner>>,
    by_path: HashMap<Path, Vec<Owner>>,
    of: HashMap<usize, Places>,
    // How many ids have as many bytes.
    lens: [usize; 21],
}

impl Index {
    /// The senders of packets to an id.
    pub(crate) fn to_id(&self, id: &[u8]) -> &[Owner] {
        let id = ConnectionId::try_from(id).ok().filter(|id| !id.is_empty());
        id.and_then(|id| self.by_id.get(&id)).map_or(&[], Vec::as_slice)
    }

    /// The senders of packets to the ids that a short header may have, and their lengths, the longest first.
    pub(crate) fn to_short<'a>(&'a self, packet: &'a [u8]) -> impl Iterator<Item = (&'a [Owner], usize)> {
        let lens = (1..self.lens.len()).rev().filter(move |&len| self.lens[len] > 0);
        let owners = lens.filter_map(move |len| Some((self.to_id(packet.get(1..1 + len)?), len)));
        owners.filter(|(owners, _)| !owners.is_empty())
    }

    /// The senders on a path, the latest first.
    pub(crate) fn on_path(&self, path: Path) -> impl Iterator<Item = Owner> {
        self.by_path.get(&path).into_iter().flatten().rev().copied()
    }

    /// Adds an id to which a connection's packets are sent. So many of the connection are remembered. If too many share
    /// it, one that `is_weak` makes room.
    pub(crate) fn add_id(&mut self, id: ConnectionId, owner: Owner, most: usize, is_weak: impl Fn(usize) -> bool) {
        if id.is_empty() {
            return;
        }
        let owners = self.by_id.entry(id).or_insert_with(|| Vec::with_capacity(1));
        if owners.contains(&owner) {
            return;
        }
        self.lens[id.len()] += usize::from(owners.is_empty());
        push(owners, owner, is_weak);
        self.of.entry(owner.0).or_default().ids.push_back((id, owner.1));
        self.remember_ids(owner.0, most);
    }

    /// Adds the addresses between which a connection's packets are sent. So many of the connection are remembered.
    pub(crate) fn add_path(&mut self, path: Path, owner: Owner, most: usize, is_weak: impl Fn(usize) -> bool) {
        let owners = self.by_path.entry(path).or_insert_with(|| Vec::with_capacity(1));
        if owners.last() == Some(&owner) {
            return;
        }
        let is_new = !owners.contains(&owner);
        owners.retain(|one| *one != owner);
        push(owners, owner, is_weak);
        if !is_new {
            return;
        }
        self.of.entry(owner.0).or_default().paths.push_back((path, owner.1));
        self.remember_paths(owner.0, most);
    }

    /// Forgets all ids of a connection but the latest.
    pub(crate) fn remember_ids(&mut self, connection: usize, most: usize) {
        while let Some(places) = self.of.get_mut(&connection).filter(|places| places.ids.len() > most) {
            let Some((id, side)) = places.ids.pop_front() else { return };
            if places.ids.capacity() > 4 * most {
                places.ids.shrink_to(most);
            }
            self.remove_id(id, (connection, side));
        }
    }

    /// Forgets all pairs of addresses of a connection but the latest.
    pub(crate) fn remember_paths(&mut self, connection: usize, most: usize) {
        while let Some(places) = self.of.get_mut(&connection).filter(|places| places.paths.len() > most) {
            let Some((path, side)) = places.paths.pop_front() else { return };
            if places.paths.capacity() > 4 * most {
                places.paths.shrink_to(most);
            }
            self.remove_path(path, (connection, side));
        }
    }

    /// Removes all of a connection.
    pub(crate) fn forget(&mut self, connection: usize) {
        let Places { ids, paths } = self.of.remove(&connection).unwrap_or_default();
        ids.into_iter().for_each(|(id, side)| self.remove_id(id, (connection, side)));
        paths.into_iter().for_each(|(path, side)| self.remove_path(path, (connection, side)));
    }

    fn remove_id(&mut self, id: ConnectionId, owner: Owner) {
        let Some(owners) = self.by_id.get_mut(&id) else { return };
        owners.retain(|one| *one != owner);
        if owners.is_empty() {
            self.by_id.remove(&id);
            self.lens[id.len()] -= 1;
        }
    }

    fn remove_path(&mut self, path: Path, owner: Owner) {
        let Some(owners) = self.by_path.get_mut(&path) else { return };
        owners.retain(|one| *one != owner);
        if owners.is_empty() {
            self.by_path.remove(&path);
        }
    }
}

// Anyone can begin a connection, and only its ends have the secrets: one without makes room first, then the oldest.
fn push(owners: &mut Vec<Owner>, owner: Owner, is_weak: impl Fn(usize) -> bool) {
    if owners.len() >= MOST_OWNERS {
        owners.remove(owners.iter().position(|(connection, _)| is_weak(*connection)).unwrap_or(0));
    }
    owners.push(owner);
}

#[cfg(test)]
mod tests {
    use super::*;

    fn path(port: u16) -> Path {
        (([10, 0, 0, 1], port).into(), ([10, 0, 0, 2], 443).into())
    }

    #[test]
    fn the_known_ids_of_a_short_header() {
        let mut index = Index::default();
        index.add_id(ConnectionId::new(&[1, 2]), (0, Side::Client), MOST_PLACES, |_| false);
        index.add_id(ConnectionId::new(&[1, 2, 3]), (1, Side::Server), MOST_PLACES, |_| false);
        let (one, two) = ((&[(0, Side::Client)][..], 2), (&[(1, Side::Server)][..], 3));
        let all = |index: &Index, packet: &[u8]| index.to_short(packet).map(|(_, len)| len).collect::<Vec<_>>();
        assert_eq!(index.to_short(&[0x40, 1, 2, 3, 4]).collect::<Vec<_>>(), [two, one]);
        assert_eq!(index.to_short(&[0x40, 1, 2, 4]).collect::<Vec<_>>(), [one]);
        assert_eq!(all(&index, &[0x40, 1]), [0; 0]);
        index.forget(1);
        assert_eq!(all(&index, &[0x40, 1, 2, 3, 4]), [2]);
    }

    #[test]
    fn those_that_anyone_began_make_room() {
        let mut index = Index::default();
        for connection in 0..100 {
            index.add_path(path(1), (connection, Side::Client), MOST_PLACES, |one| one != 3);
            index.add_id(ConnectionId::new(&[7; 8]), (connection, Side::Client), MOST_PLACES, |one| one != 3);
        }
        let owners: Vec<_> = index.on_path(path(1)).map(|owner| owner.0).collect();
        assert_eq!(owners, [99, 98, 97, 96, 95, 94, 93, 3]);
        assert!(index.to_id(&[7; 8]).contains(&(3, Side::Client)));
    }

    #[test]
    fn a_connection_has_so_many_places() {
        let mut index = Index::default();
        for n in 0..2000u16 {
            index.add_path(path(n), (0, Side::Client), MOST_PLACES, |_| false);
            index.add_id(ConnectionId::new(&n.to_be_bytes()), (0, Side::Client), MOST_PLACES, |_| false);
        }
        assert_eq!((index.by_path.len(), index.by_id.len()), (MOST_PLACES, MOST_PLACES));
        index.remember_paths(0, 3);
        assert_eq!(index.on_path(path(1996)).count() + index.on_path(path(1997)).count(), 1);
        assert_eq!((index.by_path.len(), index.by_id.len()), (3, MOST_PLACES));
        index.remember_ids(0, 5);
        assert_eq!((index.by_id.len(), index.to_id(&1994u16.to_be_bytes()), index.lens[2]), (5, &[][..], 5));
        index.add_id(ConnectionId::new(&[1]), (0, Side::Client), 5, |_| false);
        assert_eq!((index.by_id.len(), index.to_id(&1995u16.to_be_bytes()), index.lens[2]), (5, &[][..], 4));
        index.forget(0);
        assert_eq!((index.by_path.len(), index.by_id.len(), index.lens), (0, 0, [0; 21]));
    }
}
