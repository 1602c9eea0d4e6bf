//! The rules of a checker, by what they are about.

use crate::rule::{Check, Rule};

/// Kinds of rules, by [`Check`].
#[derive(Clone, Copy, Debug)]
pub(crate) enum Kind {
    Packet,
    Done,
    Again,
    Retry,
    Rest,
    Forbidden,
    Invalid,
    Empty,
    Parameters,
    List,
    Refusal,
    Datagram,
    /// Of permitted frames of a type, which is below 64.
    Frame(u8),
}

/// How many types of frames have rules.
const TYPES: usize = 64;

/// The rules.
pub(crate) struct Table {
    all: Vec<&'static Rule>,
    kinds: [Vec<&'static Rule>; Kind::Frame(0).index() + TYPES],
}

impl Kind {
    const fn index(self) -> usize {
        match self {
            Kind::Packet => 0,
            Kind::Done => 1,
            Kind::Again => 2,
            Kind::Retry => 3,
            Kind::Rest => 4,
            Kind::Forbidden => 5,
            Kind::Invalid => 6,
            Kind::Empty => 7,
            Kind::Parameters => 8,
            Kind::List => 9,
            Kind::Refusal => 10,
            Kind::Datagram => 11,
            Kind::Frame(ty) => 12 + ty as usize,
        }
    }

    // That of a rule, which may be about frames of several types.
    fn all_of(check: &Check) -> Vec<Kind> {
        vec![match check {
            Check::Packet(_) => Kind::Packet,
            Check::Done(_) => Kind::Done,
            Check::Again(_) => Kind::Again,
            Check::Retry(_) => Kind::Retry,
            Check::Rest(_) => Kind::Rest,
            Check::Forbidden(_) => Kind::Forbidden,
            Check::Invalid(_) => Kind::Invalid,
            Check::Empty(_) => Kind::Empty,
            Check::Parameters(_) => Kind::Parameters,
            Check::List(_) => Kind::List,
            Check::Refusal(_) => Kind::Refusal,
            Check::Datagram(_) => Kind::Datagram,
            Check::Frame(types, _) => {
                return (0..TYPES as u8).filter(|ty| types.has((*ty).into())).map(Kind::Frame).collect();
            }
        }]
    }
}

impl Table {
    pub(crate) fn new(rules: impl IntoIterator<Item = &'static Rule>) -> Table {
        let all: Vec<_> = rules.into_iter().collect();
        let mut kinds = std::array::from_fn(|_| Vec::new());
        for rule in &all {
            Kind::all_of(&rule.check).iter().for_each(|kind| kinds[kind.index()].push(*rule));
        }
        Table { all, kinds }
    }

    pub(crate) fn all(&self) -> &[&'static Rule] {
        &self.all
    }

    /// Those of a kind.
    pub(crate) fn of(&self, kind: Kind) -> &[&'static Rule] {
        self.kinds.get(kind.index()).map_or(&[], Vec::as_slice)
    }
}
