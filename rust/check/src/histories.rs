//! The histories of the connections of a capture.

use crate::history::History;
use std::collections::HashMap;

/// The histories, by the numbers of their connections.
pub(crate) struct Histories {
    /// The one in use: most packets are of the connection of the one before.
    current: (usize, Box<History>),
    others: HashMap<usize, Box<History>>,
}

/// The number of no connection.
const NONE: usize = usize::MAX;

impl Default for Histories {
    fn default() -> Histories {
        Histories { current: (NONE, Box::default()), others: HashMap::new() }
    }
}

impl Histories {
    /// That of a connection, which begins now if it didn't before.
    pub(crate) fn of(&mut self, number: usize) -> &mut History {
        if self.current.0 != number {
            let next = self.others.remove(&number).unwrap_or_default();
            let (before, history) = std::mem::replace(&mut self.current, (number, next));
            if before != NONE {
                self.others.insert(before, history);
            }
        }
        &mut self.current.1
    }

    /// Removes that of a connection.
    pub(crate) fn remove(&mut self, number: usize) -> Option<Box<History>> {
        if self.current.0 != number {
            return self.others.remove(&number);
        }
        Some(std::mem::replace(&mut self.current, (NONE, Box::default())).1)
    }

    /// How many there are, at least one.
    pub(crate) fn len(&self) -> usize {
        1 + self.others.len()
    }
}
