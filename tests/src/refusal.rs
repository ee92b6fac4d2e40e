//! The refusals by their numbers, and answers as the calls give them.
use Refusal::*;

/// A refusal of the documents; the number is theirs.
#[derive(Clone, Copy, Debug, PartialEq, Eq, PartialOrd, Ord)]
pub enum Refusal {
    /// capacity not allowed, length above capacity, or total above length
    BadHandle = 1,
    /// words not exactly capacity / 64
    WordCount = 2,
    /// counters not exactly as many as the capacity needs
    CounterCount = 3,
    /// a position above the length; for look and turn also at it
    Position = 4,
    /// a span whose start is above its end
    Span = 5,
    /// no such stroke
    NotFound = 6,
    /// the strip is full
    Full = 7,
    /// v neither 0 nor 1
    BadValue = 8,
    /// a record that does not fit
    Unfit = 9,
    /// no sound chain, or a part that is not one record of the length held
    Unsound = 10,
    /// a label not from 1 to 64
    BadLabel = 11,
    /// a row has the label already
    LabelPresent = 12,
    /// an image under 16 or over 2^32 bytes, or no room for the record or the merged rows
    NoRoom = 13,
    /// no row has the label
    LabelAbsent = 14,
    /// a row whose ones, entries or padding are wrong
    WrongRow = 15,
    /// two strips of unequal capacity or length
    Unequal = 16,
    /// a width not from 1 to 65,536, or a number of misfires not from 1 to the width
    BadWindow = 17,
    /// a label in both of two images, with unequal rows
    Conflict = 18,
}

/// All refusals, in the order of their numbers.
pub const REFUSALS: [Refusal; 18] = [
    BadHandle,
    WordCount,
    CounterCount,
    Position,
    Span,
    NotFound,
    Full,
    BadValue,
    Unfit,
    Unsound,
    BadLabel,
    LabelPresent,
    NoRoom,
    LabelAbsent,
    WrongRow,
    Unequal,
    BadWindow,
    Conflict,
];

/// The answer of a call that tells one value.
pub type Answer = Result<u64, Refusal>;

/// The answer of a call that tells one value, which may be negative.
pub type Signed = Result<i64, Refusal>;

/// What holds over all outcomes of a strip with strokes still waiting: the least and the most, or the earliest and the latest.
/// There is no latest where some outcome has none.
#[derive(Clone, Copy, Debug, PartialEq, Eq)]
pub struct Bounds {
    pub low: u64,
    pub high: Option<u64>,
}

/// The answer of a call that tells bounds.
pub type Bounded = Result<Bounds, Refusal>;

/// The answer of any call: two values, 0 where there is none.
pub type Values = Result<(u64, u64), Refusal>;

impl Refusal {
    pub fn number(self) -> u64 {
        self as u64
    }

    /// The refusal of a number that a call told.
    pub fn of(number: u64) -> Refusal {
        *REFUSALS.iter().find(|refusal| refusal.number() == number).unwrap_or_else(|| panic!("no refusal {number}"))
    }

    /// This refusal, where it applies.
    pub fn when(self, applies: bool) -> Result<(), Refusal> {
        if applies {
            Err(self)
        } else {
            Ok(())
        }
    }
}

/// An answer told as one number: the value, or 2^32 plus the refusal's number.
pub fn answer(told: u64) -> Answer {
    if told < 1 << 32 {
        Ok(told)
    } else {
        Err(Refusal::of(told - (1 << 32)))
    }
}

/// An answer told as one signed number: the value, or 2^32 plus the refusal's number.
pub fn signed(told: i64) -> Signed {
    if told < 1 << 32 {
        Ok(told)
    } else {
        Err(Refusal::of(told as u64 - (1 << 32)))
    }
}

/// An answer told as three numbers: the refusal's or 0, and two values, both 0 where refused.
pub fn values(told: &[u64]) -> Values {
    match told[0] {
        0 => Ok((told[1], told[2])),
        number => {
            assert_eq!(told[1..3], [0, 0], "values told with refusal {number}");
            Err(Refusal::of(number))
        }
    }
}

/// The three numbers of an answer.
pub fn numbers(told: Values) -> [u64; 3] {
    match told {
        Ok((first, second)) => [0, first, second],
        Err(refusal) => [refusal.number(), 0, 0],
    }
}
