//! Why a call was refused.
use core::fmt;

/// Why a call was refused. A refused call changes nothing that was lent to it.
///
/// ```
/// use iset_proved::Refusal;
///
/// assert_eq!(Refusal::from_number(3), Some(Refusal::NoSuch));
/// assert_eq!(Refusal::NoSuch.to_string(), "no entry in that slot (3)");
/// assert_eq!(Refusal::ShortOutput.number(), 9);
/// assert_eq!(Refusal::from_number(0), None);
/// assert_eq!(Refusal::from_number(77), Some(Refusal::Unknown(77)));
/// ```
#[derive(Clone, Copy, Debug, PartialEq, Eq, Hash)]
#[non_exhaustive]
pub enum Refusal {
    /// The slices do not hold the count, the entries to build, or, for an insertion, one more
    /// entry.
    NoRoom,
    /// The store does not pass the check.
    Broken,
    /// The slot is not below the count.
    NoSuch,
    /// Neither bound is unbounded, and the lower one is above the upper one, or equal to it unless
    /// both are included; or, by [`Rule::Whole`](crate::Rule::Whole), no whole address lies in the
    /// range.
    BadRange,
    /// A given interval does not end after its start.
    BadInterval,
    /// The list to build is not sorted by start, then end.
    NotSorted,
    /// No lookup of this query in this store has this cursor.
    BadCursor,
    /// The length of the list to build is not a multiple of 3.
    BadList,
    /// The drain's limit is above the output's length, the output of a plain lookup or of a plan
    /// has fewer places than there are entries, an image is longer than the output, or a buffer for
    /// hits is empty.
    ShortOutput,
    /// Of bit vectors and stacks. None of these calls returns it.
    BadBit,
    /// The map has changed since the ticket was taken.
    Stale,
    /// The bytes have not the layout or the length of an image.
    BadImage,
    /// A stored entry intersects the new one: see [`DisjointMap`](crate::DisjointMap).
    Overlap,
    /// Two entries intersect: see [`DisjointMap`](crate::DisjointMap).
    NotDisjoint,
    /// The plan of a renumbering does not name each slot below the count once.
    BadPlan,
    /// The answer slice has fewer places than the answer has numbers. This crate never passes such
    /// a slice.
    ShortAnswer,
    /// A bound's kind is not 0, 1 or 2. This crate never passes such a kind.
    BadBound,
    /// A number that this crate does not know: the archives belong to another version of the
    /// library.
    Unknown(u64),
}

/// Each refusal with its number and its words, which are those of `iset_refusal_name` in
/// include/iset.h.
const ALL: [(Refusal, u64, &str); 17] = [
    (Refusal::NoRoom, 1, "not enough room in the memory"),
    (Refusal::Broken, 2, "the store does not pass the check"),
    (Refusal::NoSuch, 3, "no entry in that slot"),
    (Refusal::BadRange, 4, "the bounds are not in order"),
    (
        Refusal::BadInterval,
        5,
        "the interval does not end after its start",
    ),
    (Refusal::NotSorted, 6, "the list is not sorted"),
    (
        Refusal::BadCursor,
        7,
        "the cursor does not belong to this lookup",
    ),
    (
        Refusal::BadList,
        8,
        "the list's length is not a multiple of 3",
    ),
    (Refusal::ShortOutput, 9, "the output is too short"),
    (Refusal::BadBit, 10, "no such bit"),
    (
        Refusal::Stale,
        11,
        "the map has changed since the ticket was taken",
    ),
    (
        Refusal::BadImage,
        12,
        "the bytes are not laid out as an image",
    ),
    (
        Refusal::Overlap,
        13,
        "a stored entry intersects the new one",
    ),
    (Refusal::NotDisjoint, 14, "two entries intersect"),
    (
        Refusal::BadPlan,
        15,
        "the plan does not name each slot once",
    ),
    (Refusal::ShortAnswer, 101, "the answer is too short"),
    (Refusal::BadBound, 102, "a bound's kind is not 0, 1 or 2"),
];

impl Refusal {
    /// The refusal of a number that a call returned: `None` for 0 alone, which means that nothing
    /// was refused, and [`Refusal::Unknown`] for a number that is not listed.
    pub fn from_number(number: u64) -> Option<Refusal> {
        if number == 0 {
            return None;
        }
        let known = ALL.iter().find(|row| row.1 == number);
        Some(known.map_or(Refusal::Unknown(number), |row| row.0))
    }

    /// The number that a call returns for it.
    pub fn number(self) -> u64 {
        match self {
            Refusal::Unknown(number) => number,
            _ => self.row().map_or(0, |row| row.1),
        }
    }

    fn row(self) -> Option<&'static (Refusal, u64, &'static str)> {
        ALL.iter().find(|row| row.0 == self)
    }
}

impl fmt::Display for Refusal {
    fn fmt(&self, f: &mut fmt::Formatter<'_>) -> fmt::Result {
        let words = self.row().map_or("unknown refusal", |row| row.2);
        write!(f, "{words} ({})", self.number())
    }
}

// Rust before 1.81, with which some tests are built, has no such trait in core.
#[cfg(not(iset_no_core_error))]
impl core::error::Error for Refusal {}
