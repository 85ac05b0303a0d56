//! What is looked for.
use core::ops::{Bound, RangeBounds};

/// When an entry intersects a range. The two rules differ only if the lower bound is excluded. A
/// drain to the end visits the same nodes by both.
#[derive(Clone, Copy, Debug, PartialEq, Eq, Hash)]
pub enum Rule {
    /// Rule 1, that of the crate iset: it ends after the lower bound, and starts before the upper
    /// one, or at it if it is included. Suits any ordered key.
    Any = 1,
    /// Rule 2: some whole address lies in both. A range in which no whole address lies is refused
    /// as [`BadRange`](crate::Refusal::BadRange).
    Whole = 2,
}

/// What a lookup looks for.
#[derive(Clone, Copy, Debug, PartialEq, Eq, Hash)]
pub enum Query {
    /// The entries that intersect the range between two bounds. An entry does if it ends after the
    /// lower bound, and starts before the upper one, or at it if it is included. That is
    /// [`Rule::Any`].
    Overlap(Bound<u64>, Bound<u64>),
    /// The entries that intersect the range between two bounds by a rule.
    Ruled(Rule, Bound<u64>, Bound<u64>),
    /// The entries whose range is this interval.
    Exact {
        /// Where it starts.
        start: u64,
        /// Where it ends: it does not hold this address.
        end: u64,
    },
}

impl Query {
    /// The entries that intersect a range.
    ///
    /// ```
    /// use core::ops::Bound;
    /// use iset_proved::Query;
    ///
    /// let (lo, hi) = (Bound::Included(20), Bound::Excluded(25));
    /// assert_eq!(Query::overlap(20..25), Query::Overlap(lo, hi));
    /// assert_eq!(Query::overlap(..), Query::Overlap(Bound::Unbounded, Bound::Unbounded));
    /// ```
    pub fn overlap(range: impl RangeBounds<u64>) -> Query {
        Query::Overlap(range.start_bound().cloned(), range.end_bound().cloned())
    }

    /// The entries with an address in a range, which are those that intersect it by
    /// [`Rule::Whole`].
    ///
    /// ```
    /// use core::ops::Bound;
    /// use iset_proved::{Query, Rule};
    ///
    /// let (lo, hi) = (Bound::Excluded(5), Bound::Unbounded);
    /// assert_eq!(Query::whole((lo, hi)), Query::Ruled(Rule::Whole, lo, hi));
    /// ```
    pub fn whole(range: impl RangeBounds<u64>) -> Query {
        let (lo, hi) = (range.start_bound().cloned(), range.end_bound().cloned());
        Query::Ruled(Rule::Whole, lo, hi)
    }

    /// The entries that hold an address.
    ///
    /// ```
    /// use iset_proved::Query;
    ///
    /// assert_eq!(Query::at(20), Query::overlap(20..=20));
    /// ```
    pub fn at(address: u64) -> Query {
        Query::overlap(address..=address)
    }
}
