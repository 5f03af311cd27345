//! Typing one key behind a text.

use crate::sys::TELEX_ROOM;
use crate::{calls, Refusal};

/// How tones are typed.
#[derive(Clone, Copy, Debug, PartialEq, Eq, PartialOrd, Ord, Hash)]
pub enum Mode {
    /// By digits, whatever the settings are.
    Numeric = 0,
    /// By the keys of the settings.
    Telex = 1,
}

impl Mode {
    /// The number that the C functions take.
    pub fn number(self) -> u64 {
        self as u64
    }
}

/// The keys of the seven tones that have a mark, each from `!` to `~`. The default keys, s f l x j j w, are
/// those that khiin begins with.
///
/// ```
/// use robinflint::Settings;
///
/// let settings = Settings { t6: 'y', ..Settings::default() };
/// assert_eq!((settings.t2, settings.t6, settings.t9), ('s', 'y', 'w'));
/// ```
#[derive(Clone, Copy, Debug, PartialEq, Eq, Hash)]
pub struct Settings {
    /// The key of tone 2.
    pub t2: char,
    /// The key of tone 3.
    pub t3: char,
    /// The key of tone 5.
    pub t5: char,
    /// The key of tone 6.
    pub t6: char,
    /// The key of tone 7.
    pub t7: char,
    /// The key of tone 8. It may be that of tone 7: then the text's end decides.
    pub t8: char,
    /// The key of tone 9.
    pub t9: char,
}

impl Default for Settings {
    fn default() -> Settings {
        Settings { t2: 's', t3: 'f', t5: 'l', t6: 'x', t7: 'j', t8: 'j', t9: 'w' }
    }
}

impl Settings {
    /// The keys as the C function takes them. A key outside a byte becomes 0, which is refused as it would be.
    fn bytes(&self) -> [u8; 7] {
        [self.t2, self.t3, self.t5, self.t6, self.t7, self.t8, self.t9]
            .map(|key| u8::try_from(key).unwrap_or_default())
    }
}

/// What a text becomes when a key is typed behind it.
///
/// Refuses with [`Argument`](Refusal::Argument) where the key is not from space to `~` or a key of the settings not
/// from `!` to `~`, in either mode; then with [`TooLong`](Refusal::TooLong) and
/// [`OutsideTable`](Refusal::OutsideTable).
///
/// ```
/// use robinflint::{telex, Mode, Refusal, Settings};
///
/// let settings = Settings::default();
/// let steps = [
///     ("a", 's', "á"),
///     ("ah", 'j', "a\u{30d}h"),
///     ("ā", 'j', "aj"),
///     ("a\u{207f}", 'n', "an"),
///     ("t", 's', "ts"),
/// ];
/// for (text, key, becomes) in steps {
///     assert_eq!(telex(text, key, Mode::Telex, &settings)?, becomes);
/// }
/// assert_eq!(telex("a", '2', Mode::Numeric, &settings)?, "á");
/// assert_eq!(telex("a", 'é', Mode::Telex, &settings), Err(Refusal::Argument));
/// # Ok::<(), Refusal>(())
/// ```
pub fn telex(text: &str, key: char, mode: Mode, settings: &Settings) -> Result<String, Refusal> {
    telex_bytes(text.as_bytes(), key, mode, settings)
}

/// [`telex`] for a text that may be ill-formed, which it refuses with [`IllFormed`](Refusal::IllFormed).
pub fn telex_bytes(text: &[u8], key: char, mode: Mode, settings: &Settings) -> Result<String, Refusal> {
    let mut lent = [0; TELEX_ROOM];
    let reply = calls::telex(text, key, mode, &settings.bytes(), &mut lent)?;
    Ok(reply.text(&lent).to_owned())
}
