//! Sets of packet numbers: sorted runs, none empty, none touching the next.
//!
//! ```
//! use quic_wire::range_set::RangeSet;
//! let mut set = RangeSet::new();
//! assert!(set.insert(3..5) && set.insert(5..9) && !set.insert_one(4));
//! assert_eq!(set.iter().collect::<Vec<_>>(), [3..9]);
//! assert!(set.contains(8) && !set.contains(9));
//! ```
use crate::error::grown;
use crate::frame::Ack;
use crate::proved::quic_acked::acked::newly_acknowledged;
use crate::proved::quic_ranges::range_set as proved;
use core::fmt;
use core::iter::FusedIterator;
use core::ops::Range;

pub use proved::{EltIter, Iter, Replace};

impl FusedIterator for Iter<'_> {}
impl FusedIterator for EltIter<'_> {}

// What both sets have.
macro_rules! set {
    ($(#[$doc:meta])* $name:ident) => {
        $(#[$doc])*
        pub struct $name(proved::$name);

        impl $name {
            /// The empty set.
            pub fn new() -> Self {
                $name(proved::$name::new())
            }

            // The proved set.
            pub(crate) fn proved(&self) -> &proved::$name {
                &self.0
            }

            /// Whether a number is in the set.
            pub fn contains(&self, x: u64) -> bool {
                self.0.contains(x)
            }

            /// Whether the set is empty.
            pub fn is_empty(&self) -> bool {
                self.0.is_empty()
            }

            /// The least number of the set, `None` if it is empty.
            pub fn min(&self) -> Option<u64> {
                self.0.min()
            }

            /// The greatest number of the set, `None` if it is empty.
            pub fn max(&self) -> Option<u64> {
                self.0.max()
            }

            /// The number of runs.
            pub fn len(&self) -> usize {
                self.0.len()
            }

            /// The run of the least numbers.
            pub fn peek_min(&self) -> Option<Range<u64>> {
                self.iter().next()
            }

            /// The runs, ascending.
            pub fn iter(&self) -> Iter<'_> {
                self.0.iter()
            }

            /// The numbers of the set, ascending.
            pub fn elts(&self) -> EltIter<'_> {
                self.0.elts()
            }

            /// Inserts a range, and returns whether that changed the set; an empty or reversed range never does.
            #[inline]
            pub fn insert(&mut self, x: Range<u64>) -> bool {
                grown(self.0.insert(x))
            }

            /// Inserts a number, and returns whether it wasn't there. 2^64 - 1 is never inserted.
            #[inline]
            pub fn insert_one(&mut self, x: u64) -> bool {
                x != u64::MAX && grown(self.0.insert_one(x))
            }

            /// Removes a range, and returns whether that changed the set.
            #[inline]
            pub fn remove(&mut self, x: Range<u64>) -> bool {
                grown(self.0.remove(x))
            }

            /// Removes the numbers of another set.
            pub fn subtract(&mut self, other: &Self) {
                grown(self.0.subtract(&other.0));
            }

            /// Removes the run of the least numbers and returns it.
            pub fn pop_min(&mut self) -> Option<Range<u64>> {
                self.0.pop_min()
            }

            /// Makes the set empty.
            pub fn clear(&mut self) {
                *self = $name::new();
            }
        }

        impl Clone for $name {
            fn clone(&self) -> Self {
                $name(grown(self.0.try_clone()))
            }
        }

        impl Default for $name {
            fn default() -> Self {
                $name::new()
            }
        }

        impl PartialEq for $name {
            fn eq(&self, other: &Self) -> bool {
                self.iter().eq(other.iter())
            }
        }

        impl Eq for $name {}

        /// The runs.
        impl fmt::Debug for $name {
            fn fmt(&self, f: &mut fmt::Formatter<'_>) -> fmt::Result {
                f.debug_set().entries(self.iter()).finish()
            }
        }

        impl<'a> IntoIterator for &'a $name {
            type Item = Range<u64>;
            type IntoIter = Iter<'a>;

            fn into_iter(self) -> Iter<'a> {
                self.iter()
            }
        }

        impl Extend<Range<u64>> for $name {
            fn extend<T: IntoIterator<Item = Range<u64>>>(&mut self, ranges: T) {
                ranges.into_iter().for_each(|range| {
                    self.insert(range);
                });
            }
        }

        impl FromIterator<Range<u64>> for $name {
            fn from_iter<T: IntoIterator<Item = Range<u64>>>(ranges: T) -> Self {
                let mut set = $name::new();
                set.extend(ranges);
                set
            }
        }
    };
}

set! {
    /// A finite set of numbers below 2^64 - 1, without a bound on its runs.
    RangeSet
}

set! {
    /// A finite set of numbers below 2^64 - 1. Up to two runs need no allocation.
    ArrayRangeSet
}

impl RangeSet {
    /// Inserts a range, and returns the nonempty parts of it that were in the set before. The set is the union from
    /// this call on, however many parts are read.
    pub fn replace(&mut self, x: Range<u64>) -> Replace<'_> {
        grown(self.0.replace(x))
    }

    /// Inserts the numbers of another set.
    pub fn add(&mut self, other: &Self) {
        grown(self.0.add(&other.0));
    }
}

impl RangeSet {
    /// The numbers of the set that an ACK acknowledges (RFC 9000, section 19.3). If the set has the packets in flight,
    /// they are newly acknowledged (RFC 9002, appendix A.7); [`RangeSet::subtract`] then removes them.
    ///
    /// ```
    /// use quic_wire::frame::Ack;
    /// use quic_wire::range_set::RangeSet;
    /// let mut in_flight = RangeSet::new();
    /// in_flight.insert(4..8);
    /// let ack = Ack::from_parts(9, 0, &[3, 0, 4], None)?;
    /// assert_eq!(in_flight.acknowledged(&ack).iter().collect::<Vec<_>>(), [4..5, 6..8]);
    /// # Ok::<(), quic_wire::frame::AckError>(())
    /// ```
    pub fn acknowledged(&self, ack: &Ack<'_>) -> RangeSet {
        RangeSet(grown(newly_acknowledged(ack, &self.0)))
    }
}

/// No room for one more run. Nothing changed.
#[derive(Clone, Copy, Debug, PartialEq, Eq, Hash)]
pub struct Full;

impl fmt::Display for Full {
    fn fmt(&self, f: &mut fmt::Formatter<'_>) -> fmt::Result {
        f.write_str("no room for one more run")
    }
}

impl core::error::Error for Full {}

/// A set of at most `N` runs, so that a peer can't make it grow without bound. That bound is kept in Rust: no proof
/// covers it. Each change of the set is one of [`ArrayRangeSet`].
///
/// ```
/// use quic_wire::range_set::{BoundedRangeSet, Full};
/// // A peer that leaves out every second packet.
/// let mut received = BoundedRangeSet::<2>::new();
/// assert_eq!([1, 3, 5].map(|n| received.insert_one(n)), [Ok(true), Ok(true), Err(Full)]);
/// assert_eq!(received.insert_or_drop_min(5..6), Some(1..2));
/// assert_eq!(received.iter().collect::<Vec<_>>(), [3..4, 5..6]);
/// ```
#[derive(Clone, Debug, Default, PartialEq, Eq)]
pub struct BoundedRangeSet<const N: usize>(ArrayRangeSet);

impl<const N: usize> BoundedRangeSet<N> {
    /// The empty set.
    pub fn new() -> Self {
        BoundedRangeSet(ArrayRangeSet::new())
    }

    /// Inserts a range, and returns whether that changed the set.
    ///
    /// # Errors
    ///
    /// If there is no room for one more run.
    pub fn insert(&mut self, x: Range<u64>) -> Result<bool, Full> {
        let changed = self.0.insert(x.clone());
        if self.0.len() > N {
            // There is one more run, so the range touched none, and is removed whole.
            self.0.remove(x);
            return Err(Full);
        }
        Ok(changed)
    }

    /// Inserts a number, and returns whether it wasn't there. 2^64 - 1 is never inserted.
    ///
    /// # Errors
    ///
    /// As [`BoundedRangeSet::insert`].
    pub fn insert_one(&mut self, x: u64) -> Result<bool, Full> {
        self.insert(x..x.saturating_add(1))
    }

    /// Inserts a range. If there is no room for one more run, that of the least numbers, the range or one that was
    /// there, is dropped and returned.
    pub fn insert_or_drop_min(&mut self, x: Range<u64>) -> Option<Range<u64>> {
        self.0.insert(x);
        if self.0.len() > N { self.0.pop_min() } else { None }
    }

    /// Removes a range, and returns whether that changed the set.
    ///
    /// # Errors
    ///
    /// If a run would be split in two and there is no room for one more.
    pub fn remove(&mut self, x: Range<u64>) -> Result<bool, Full> {
        let changed = self.0.remove(x.clone());
        if self.0.len() > N {
            // There is one more run, so the range was within one, which is whole again.
            self.0.insert(x);
            return Err(Full);
        }
        Ok(changed)
    }

    /// Removes the run of the least numbers and returns it.
    pub fn pop_min(&mut self) -> Option<Range<u64>> {
        self.0.pop_min()
    }

    /// Makes the set empty.
    pub fn clear(&mut self) {
        self.0.clear();
    }

    /// The set, as [`crate::frame::Ack::encode`] accepts it.
    pub fn as_set(&self) -> &ArrayRangeSet {
        &self.0
    }
}

impl<const N: usize> core::ops::Deref for BoundedRangeSet<N> {
    type Target = ArrayRangeSet;

    fn deref(&self) -> &ArrayRangeSet {
        &self.0
    }
}

impl<'a, const N: usize> IntoIterator for &'a BoundedRangeSet<N> {
    type Item = Range<u64>;
    type IntoIter = Iter<'a>;

    fn into_iter(self) -> Iter<'a> {
        self.0.iter()
    }
}
