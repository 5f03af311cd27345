//! Why a call is refused.

use std::error::Error;
use std::fmt;

/// Why a call is refused. Smaller numbers are checked first.
///
/// ```
/// use robinflint::{strip, Refusal};
///
/// let refusal = strip("漢").unwrap_err();
/// assert_eq!(refusal, Refusal::OutsideTable);
/// assert_eq!(refusal.number(), 4);
/// assert_eq!(refusal.to_string(), "the text has a character outside the table");
/// ```
#[derive(Clone, Copy, Debug, PartialEq, Eq, PartialOrd, Ord, Hash)]
pub enum Refusal {
    /// 1: a number of the caller's is out of its range.
    Argument = 1,
    /// 2: the text has more than 256 bytes, an entry more than 1,024.
    TooLong = 2,
    /// 3: the text is ill-formed UTF-8. No `&str` is refused with it.
    IllFormed = 3,
    /// 4: the text is well formed and has a code point outside the table; of raw keys, one that is not ASCII.
    OutsideTable = 4,
    /// 5: the entry has more than 16 parts, or a part has more than 256 bytes.
    Parts = 5,
    /// 6: the position is not below the count.
    Position = 6,
    /// 7: the whole output is longer than the lent buffer.
    NoRoom = 7,
}

impl Refusal {
    /// All of them, in the order in which they are checked.
    pub const ALL: [Refusal; 7] = [
        Refusal::Argument,
        Refusal::TooLong,
        Refusal::IllFormed,
        Refusal::OutsideTable,
        Refusal::Parts,
        Refusal::Position,
        Refusal::NoRoom,
    ];

    /// The number that the C functions give, 1 to 7.
    pub fn number(self) -> u64 {
        self as u64
    }

    /// The refusal of a number.
    ///
    /// ```
    /// use robinflint::Refusal;
    /// assert_eq!(Refusal::from_number(6), Some(Refusal::Position));
    /// assert_eq!(Refusal::from_number(0), None);
    /// ```
    pub fn from_number(number: u64) -> Option<Refusal> {
        Refusal::ALL.into_iter().find(|refusal| refusal.number() == number)
    }

    /// Whether the writer of the text causes it (2 to 5), and not the calling program (1, 6, 7). An engine shows the
    /// first to the writer; the second is an error of its own.
    ///
    /// ```
    /// use robinflint::Refusal;
    /// assert!(Refusal::TooLong.is_of_text());
    /// assert!(!Refusal::NoRoom.is_of_text());
    /// ```
    pub fn is_of_text(self) -> bool {
        match self {
            Refusal::TooLong | Refusal::IllFormed | Refusal::OutsideTable | Refusal::Parts => true,
            Refusal::Argument | Refusal::Position | Refusal::NoRoom => false,
        }
    }
}

impl fmt::Display for Refusal {
    fn fmt(&self, to: &mut fmt::Formatter<'_>) -> fmt::Result {
        to.write_str(match self {
            Refusal::Argument => "a number of the caller is out of its range",
            Refusal::TooLong => "the text is too long",
            Refusal::IllFormed => "the text is not well-formed UTF-8",
            Refusal::OutsideTable => "the text has a character outside the table",
            Refusal::Parts => "the entry has too many parts, or a part is too long",
            Refusal::Position => "the position is not below the count",
            Refusal::NoRoom => "the output is longer than the buffer",
        })
    }
}

impl Error for Refusal {}
