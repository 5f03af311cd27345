//! The nine tones.

/// The tone of a syllable, or none.
///
/// ```
/// use robinflint::Tone;
/// assert_eq!(Tone::T5.number(), 5);
/// assert_eq!(Tone::from_number(0), Some(Tone::None));
/// assert_eq!(Tone::from_number(10), None);
/// ```
#[derive(Clone, Copy, Debug, Default, PartialEq, Eq, PartialOrd, Ord, Hash)]
pub enum Tone {
    /// No tone is given.
    #[default]
    None = 0,
    /// Tone 1, which has no mark.
    T1 = 1,
    /// Tone 2, U+0301.
    T2 = 2,
    /// Tone 3, U+0300.
    T3 = 3,
    /// Tone 4, which has no mark.
    T4 = 4,
    /// Tone 5, U+0302.
    T5 = 5,
    /// Tone 6, U+0303.
    T6 = 6,
    /// Tone 7, U+0304.
    T7 = 7,
    /// Tone 8, U+030D.
    T8 = 8,
    /// Tone 9, U+0306.
    T9 = 9,
}

impl Tone {
    /// All of them, by their numbers.
    pub const ALL: [Tone; 10] = [
        Tone::None,
        Tone::T1,
        Tone::T2,
        Tone::T3,
        Tone::T4,
        Tone::T5,
        Tone::T6,
        Tone::T7,
        Tone::T8,
        Tone::T9,
    ];

    /// 0 for none, else 1 to 9.
    pub fn number(self) -> u64 {
        self as u64
    }

    /// The tone of a number.
    pub fn from_number(number: u64) -> Option<Tone> {
        Tone::ALL.into_iter().find(|tone| tone.number() == number)
    }
}
