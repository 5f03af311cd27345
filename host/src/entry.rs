//! A dictionary entry and its keyings.

use crate::sys::{Reply, KEYING_ROOM};
use crate::{calls, Refusal};
use std::fmt;

/// What the keyings of a list end their syllables in.
#[derive(Clone, Copy, Debug, PartialEq, Eq, PartialOrd, Ord, Hash)]
pub enum Kind {
    /// No tone key.
    Detoned = 0,
    /// The tone's digit, or nothing.
    Numeric = 1,
    /// The tone's telex key, or nothing.
    Telex = 2,
}

impl Kind {
    /// All of them, by their numbers.
    pub const ALL: [Kind; 3] = [Kind::Detoned, Kind::Numeric, Kind::Telex];

    /// The number that the C functions take.
    pub fn number(self) -> u64 {
        self as u64
    }
}

/// A dictionary entry whose text has been checked. A space divides its parts.
///
/// ```
/// use robinflint::{Entry, Kind, Refusal};
///
/// let entry = Entry::new("tâi oân")?;
/// assert_eq!(entry.count(Kind::Numeric)?, 4);
/// assert_eq!(entry.keying(Kind::Numeric, 0)?, "tai5oan5");
/// assert_eq!(entry.keying(Kind::Telex, 3)?, "taioan");
/// assert_eq!(entry.keying(Kind::Telex, 4), Err(Refusal::Position));
/// # Ok::<(), Refusal>(())
/// ```
#[derive(Clone, Copy, Debug, PartialEq, Eq, Hash)]
pub struct Entry<'t> {
    text: &'t [u8],
}

impl<'t> Entry<'t> {
    /// Checks an entry.
    ///
    /// Refuses with [`TooLong`](Refusal::TooLong) above 1,024 bytes, [`OutsideTable`](Refusal::OutsideTable) and
    /// [`Parts`](Refusal::Parts).
    ///
    /// ```
    /// use robinflint::{Entry, Refusal};
    /// assert!(Entry::new(&[ "a"; 16 ].join(" ")).is_ok());
    /// assert_eq!(Entry::new(&[ "a"; 17 ].join(" ")), Err(Refusal::Parts));
    /// ```
    pub fn new(text: &'t str) -> Result<Entry<'t>, Refusal> {
        Entry::from_bytes(text.as_bytes())
    }

    /// [`new`](Entry::new) for an entry that may be ill-formed, which it refuses with
    /// [`IllFormed`](Refusal::IllFormed).
    pub fn from_bytes(text: &'t [u8]) -> Result<Entry<'t>, Refusal> {
        let entry = Entry { text };
        // Every list has a keying at 0, so that this is refused for the text alone.
        entry.ask(Kind::Detoned, 0, &mut [0; KEYING_ROOM])?;
        Ok(entry)
    }

    /// How many keyings of a kind there are: at least 1, at most 2^32.
    pub fn count(&self, kind: Kind) -> Result<u64, Refusal> {
        Ok(self.ask(kind, 0, &mut [0; KEYING_ROOM])?.count)
    }

    /// The keying at a position, counted from 0. Refuses with [`Position`](Refusal::Position).
    pub fn keying(&self, kind: Kind, position: u64) -> Result<String, Refusal> {
        let mut lent = [0; KEYING_ROOM];
        let reply = self.ask(kind, position, &mut lent)?;
        Ok(reply.text(&lent).to_owned())
    }

    /// All keyings of a kind, in the order of their positions.
    pub fn keyings(&self, kind: Kind) -> Result<Keyings<'t>, Refusal> {
        let mut lent = [0; KEYING_ROOM];
        let first = self.ask(kind, 0, &mut lent)?;
        Ok(Keyings {
            entry: *self,
            kind,
            position: 0,
            count: first.count,
            ready: Some(first),
            refusal: None,
            lent,
        })
    }

    fn ask(&self, kind: Kind, position: u64, lent: &mut [u8]) -> Result<Reply, Refusal> {
        calls::keying(self.text, kind, position, lent)
    }
}

/// The keyings of an entry, one after the other. It holds one buffer, which each call of [`next`](Keyings::next)
/// fills anew, and allocates nothing.
///
/// ```
/// use robinflint::{Entry, Kind, Refusal};
///
/// let mut keyings = Entry::new("tâi oân")?.keyings(Kind::Numeric)?;
/// assert_eq!(keyings.count(), 4);
/// assert_eq!(keyings.next(), Some("tai5oan5"));
/// assert_eq!(keyings.next(), Some("tai5oan"));
/// assert_eq!(keyings.remaining(), 2);
/// # Ok::<(), Refusal>(())
/// ```
///
/// As an iterator it gives each keying as a `String` of its own:
///
/// ```
/// use robinflint::{Entry, Kind, Refusal};
///
/// let all: Vec<String> = Entry::new("tâi oân")?.keyings(Kind::Telex)?.into_iter().collect();
/// assert_eq!(all, ["tailoanl", "tailoan", "taioanl", "taioan"]);
/// # Ok::<(), Refusal>(())
/// ```
#[derive(Clone)]
pub struct Keyings<'t> {
    entry: Entry<'t>,
    kind: Kind,
    /// The position of the next keying.
    position: u64,
    count: u64,
    /// The reply of the next keying, where it already is in the buffer: the call that asked for the count wrote it.
    ready: Option<Reply>,
    refusal: Option<Refusal>,
    lent: [u8; KEYING_ROOM],
}

impl Keyings<'_> {
    /// The next keying, in the buffer of `self`, or `None` behind the last one.
    // The trait's `next` cannot give out what `self` holds.
    #[allow(clippy::should_implement_trait)]
    pub fn next(&mut self) -> Option<&str> {
        let reply = self.step()?;
        Some(reply.text(&self.lent))
    }

    /// How many keyings there are in all.
    pub fn count(&self) -> u64 {
        self.count
    }

    /// How many keyings are still to come.
    pub fn remaining(&self) -> u64 {
        self.count.saturating_sub(self.position)
    }

    /// Why the keyings ended before the last one. An entry is checked before there are keyings of it, so this can
    /// only be [`NoRoom`](Refusal::NoRoom), and no entry is known that has a keying longer than the buffer.
    pub fn refusal(&self) -> Option<Refusal> {
        self.refusal
    }

    /// Puts the next keying into the buffer.
    fn step(&mut self) -> Option<Reply> {
        if self.remaining() == 0 {
            return None;
        }
        let asked = match self.ready.take() {
            Some(reply) => Ok(reply),
            None => self.entry.ask(self.kind, self.position, &mut self.lent),
        };
        match asked {
            Ok(reply) => {
                self.position = self.position.saturating_add(1);
                Some(reply)
            }
            Err(refusal) => {
                self.refusal = Some(refusal);
                self.position = self.count;
                None
            }
        }
    }
}

impl fmt::Debug for Keyings<'_> {
    fn fmt(&self, to: &mut fmt::Formatter<'_>) -> fmt::Result {
        to.debug_struct("Keyings")
            .field("entry", &self.entry)
            .field("kind", &self.kind)
            .field("position", &self.position)
            .field("count", &self.count)
            .finish_non_exhaustive()
    }
}

impl<'t> IntoIterator for Keyings<'t> {
    type Item = String;
    type IntoIter = OwnedKeyings<'t>;

    fn into_iter(self) -> OwnedKeyings<'t> {
        OwnedKeyings { keyings: self }
    }
}

/// The keyings of an entry, each in a `String` of its own.
#[derive(Clone, Debug)]
pub struct OwnedKeyings<'t> {
    keyings: Keyings<'t>,
}

impl Iterator for OwnedKeyings<'_> {
    type Item = String;

    fn next(&mut self) -> Option<String> {
        self.keyings.next().map(str::to_owned)
    }

    fn size_hint(&self) -> (usize, Option<usize>) {
        // The lower bound is 0, since a refusal would end the keyings before the last.
        (0, usize::try_from(self.keyings.remaining()).ok())
    }
}
