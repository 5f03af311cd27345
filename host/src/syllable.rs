//! One syllable: stripping, the tone letter, records, composing, aligning.

use crate::sys::Reply;
use crate::sys::{ALIGN_ROOM, CANDIDATE_ROOM, COMPOSE_ROOM, FROM_RAW_ROOM, STRIP_ROOM};
use crate::{calls, Refusal, Tone};

/// A text without its tone marks, in NFD, and its tone.
#[derive(Clone, Debug, PartialEq, Eq, Hash)]
pub struct Stripped {
    /// The text without its tone marks, in NFD.
    pub text: String,
    /// The tone of the last mark that was dropped. Without one it is T4 where the text ends as a stopped syllable
    /// does (h, p, t, k, and h before a nasal sign), else T1.
    pub tone: Tone,
}

/// Takes the tone marks off a text.
///
/// Refuses with [`TooLong`](Refusal::TooLong) and [`OutsideTable`](Refusal::OutsideTable).
///
/// ```
/// use robinflint::{strip, Refusal, Tone};
///
/// let cases = [("á", "a", Tone::T2), ("ah", "ah", Tone::T4), ("", "", Tone::T1), ("á\u{302}", "a", Tone::T5)];
/// for (text, bare, tone) in cases {
///     let stripped = strip(text)?;
///     assert_eq!((stripped.text.as_str(), stripped.tone), (bare, tone));
/// }
/// assert_eq!(strip(&"a".repeat(257)), Err(Refusal::TooLong));
/// # Ok::<(), Refusal>(())
/// ```
pub fn strip(text: &str) -> Result<Stripped, Refusal> {
    strip_bytes(text.as_bytes())
}

/// [`strip`] for a text that may be ill-formed, which it refuses with [`IllFormed`](Refusal::IllFormed).
///
/// ```
/// use robinflint::{strip_bytes, Refusal};
/// assert_eq!(strip_bytes(b"a\xCC"), Err(Refusal::IllFormed));
/// ```
pub fn strip_bytes(text: &[u8]) -> Result<Stripped, Refusal> {
    let mut lent = [0; STRIP_ROOM];
    let reply = calls::strip(text, &mut lent)?;
    Ok(Stripped { text: reply.text(&lent).to_owned(), tone: reply.tone() })
}

/// Where the letter stands that takes the tone mark, in bytes, or `None` where there is no such letter. It looks at
/// the text as it is given, and not at its NFD.
///
/// Refuses with [`TooLong`](Refusal::TooLong) and [`OutsideTable`](Refusal::OutsideTable).
///
/// ```
/// use robinflint::{tone_letter, Refusal};
/// assert_eq!(tone_letter("hoan")?, Some(2));
/// assert_eq!(tone_letter("x")?, None);
/// # Ok::<(), Refusal>(())
/// ```
pub fn tone_letter(text: &str) -> Result<Option<usize>, Refusal> {
    tone_letter_bytes(text.as_bytes())
}

/// [`tone_letter`] for a text that may be ill-formed, which it refuses with [`IllFormed`](Refusal::IllFormed).
pub fn tone_letter_bytes(text: &[u8]) -> Result<Option<usize>, Refusal> {
    let reply = calls::tone_letter(text)?;
    Ok(if reply.length == 0 { None } else { usize::try_from(reply.position).ok() })
}

/// What a record is written as: the text of `body` with the mark of `tone`, and with `--` before it for `khin`. Where
/// the tone has a mark and the text no letter to put it on, that is `raw` as it is given.
///
/// [`Syllable::compose`] is this call for a record. Refuses with [`TooLong`](Refusal::TooLong) and
/// [`OutsideTable`](Refusal::OutsideTable), for `raw` first.
///
/// ```
/// use robinflint::{compose, Refusal, Tone};
/// assert_eq!(compose("hoan2", "hoan", Tone::T2, false)?, "hoán");
/// assert_eq!(compose("a20", "a", Tone::T2, true)?, "--á");
/// assert_eq!(compose("x2", "x", Tone::T2, false)?, "x2");
/// # Ok::<(), Refusal>(())
/// ```
pub fn compose(raw: &str, body: &str, tone: Tone, khin: bool) -> Result<String, Refusal> {
    compose_bytes(raw.as_bytes(), body.as_bytes(), tone, khin)
}

/// [`compose`] for texts that may be ill-formed, which it refuses with [`IllFormed`](Refusal::IllFormed).
pub fn compose_bytes(raw: &[u8], body: &[u8], tone: Tone, khin: bool) -> Result<String, Refusal> {
    let mut lent = [0; COMPOSE_ROOM];
    let reply = calls::compose(raw, body, tone, khin, &mut lent)?;
    Ok(reply.text(&lent).to_owned())
}

/// A syllable record: the keys of a syllable, how many of them are its body, its tone and whether it is khin, that is
/// in the neutral tone.
///
/// The body is always the beginning of the raw input, so a record is made only by the calls that see to it. The
/// default is the record of no keys.
#[derive(Clone, Debug, Default, PartialEq, Eq, Hash)]
pub struct Syllable {
    raw: String,
    body_len: usize,
    tone: Tone,
    khin: bool,
}

impl Syllable {
    /// The record of raw keys, which have to be ASCII: a last key 1 to 9 is the tone and no part of the body.
    ///
    /// Refuses with [`TooLong`](Refusal::TooLong) and [`OutsideTable`](Refusal::OutsideTable).
    ///
    /// ```
    /// use robinflint::{Refusal, Syllable, Tone};
    ///
    /// let syllable = Syllable::from_raw("hoan2")?;
    /// assert_eq!((syllable.body(), syllable.tone()), ("hoan", Tone::T2));
    ///
    /// let composed = [
    ///     ("oo2", "ó\u{358}"),
    ///     ("eo8", "o\u{30d}\u{324}"),
    ///     ("onn1", "o\u{358}\u{207f}"),
    ///     ("x2", "x2"),
    ///     ("Eo1", "o\u{324}"),
    ///     ("hoan2", "hoán"),
    /// ];
    /// for (raw, text) in composed {
    ///     assert_eq!(Syllable::from_raw(raw)?.compose()?, text);
    /// }
    /// assert_eq!(Syllable::from_raw("á"), Err(Refusal::OutsideTable));
    /// # Ok::<(), Refusal>(())
    /// ```
    pub fn from_raw(keys: &str) -> Result<Syllable, Refusal> {
        Syllable::from_raw_bytes(keys.as_bytes())
    }

    /// [`from_raw`](Syllable::from_raw) for keys that may not be UTF-8: a byte above 7F is refused with
    /// [`OutsideTable`](Refusal::OutsideTable).
    pub fn from_raw_bytes(keys: &[u8]) -> Result<Syllable, Refusal> {
        let mut lent = [0; FROM_RAW_ROOM];
        let reply = calls::from_raw(keys, &mut lent)?;
        Ok(Syllable::of(reply, &lent))
    }

    /// The records that a composed syllable may be typed as: two where it holds U+0358, which is typed with `u` or
    /// with `o`, else one.
    ///
    /// Refuses with [`TooLong`](Refusal::TooLong) and [`OutsideTable`](Refusal::OutsideTable).
    ///
    /// ```
    /// use robinflint::{Refusal, Syllable, Tone};
    ///
    /// let khin = &Syllable::candidates("--á")?[0];
    /// assert_eq!((khin.raw(), khin.body(), khin.tone(), khin.khin()), ("a20", "a", Tone::T2, true));
    ///
    /// let both = Syllable::candidates("ó\u{358}")?;
    /// assert_eq!(both.iter().map(Syllable::raw).collect::<Vec<_>>(), ["ou2", "oo2"]);
    /// # Ok::<(), Refusal>(())
    /// ```
    pub fn candidates(text: &str) -> Result<Vec<Syllable>, Refusal> {
        Syllable::candidates_bytes(text.as_bytes())
    }

    /// [`candidates`](Syllable::candidates) for a text that may be ill-formed, which it refuses with
    /// [`IllFormed`](Refusal::IllFormed).
    pub fn candidates_bytes(text: &[u8]) -> Result<Vec<Syllable>, Refusal> {
        let mut lent = [0; CANDIDATE_ROOM];
        let first = calls::candidate(text, 0, &mut lent)?;
        let mut all = vec![Syllable::of(first, &lent)];
        for position in 1..first.count {
            let reply = calls::candidate(text, position, &mut lent)?;
            all.push(Syllable::of(reply, &lent));
        }
        Ok(all)
    }

    /// How many of the keys were typed for the syllable `target`, and their record, or `None` where they do not begin
    /// as the target does.
    ///
    /// Refuses with [`TooLong`](Refusal::TooLong) and [`OutsideTable`](Refusal::OutsideTable), for the keys first.
    ///
    /// ```
    /// use robinflint::{Refusal, Syllable};
    ///
    /// let (length, syllable) = Syllable::align("a1i1", "a")?.expect("the keys begin with a");
    /// assert_eq!((length, syllable.body()), (3, "a1i"));
    /// assert_eq!(Syllable::align("b", "a")?, None);
    /// # Ok::<(), Refusal>(())
    /// ```
    pub fn align(keys: &str, target: &str) -> Result<Option<(usize, Syllable)>, Refusal> {
        Syllable::align_bytes(keys.as_bytes(), target.as_bytes())
    }

    /// [`align`](Syllable::align) for texts that may be ill-formed: keys are refused with
    /// [`OutsideTable`](Refusal::OutsideTable), a target with [`IllFormed`](Refusal::IllFormed).
    pub fn align_bytes(keys: &[u8], target: &[u8]) -> Result<Option<(usize, Syllable)>, Refusal> {
        let mut lent = [0; ALIGN_ROOM];
        let reply = calls::align(keys, target, &mut lent)?;
        if reply.length == 0 {
            return Ok(None);
        }
        let syllable = Syllable::of(reply, &lent);
        Ok(Some((syllable.raw.len(), syllable)))
    }

    /// What the record is written as.
    ///
    /// Refuses with [`TooLong`](Refusal::TooLong): the raw input of a candidate can have more than 256 bytes.
    ///
    /// ```
    /// use robinflint::{Refusal, Syllable};
    /// assert_eq!(Syllable::candidates("--á")?[0].compose()?, "--á");
    /// # Ok::<(), Refusal>(())
    /// ```
    pub fn compose(&self) -> Result<String, Refusal> {
        compose(&self.raw, self.body(), self.tone, self.khin)
    }

    /// The raw input: the body, and the keys of tone and khin.
    pub fn raw(&self) -> &str {
        &self.raw
    }

    /// The body, with which the raw input begins.
    pub fn body(&self) -> &str {
        self.raw.get(..self.body_len).unwrap_or_default()
    }

    /// The bytes of the body.
    pub fn body_len(&self) -> usize {
        self.body_len
    }

    /// The tone.
    pub fn tone(&self) -> Tone {
        self.tone
    }

    /// Whether the syllable is khin, that is in the neutral tone.
    pub fn khin(&self) -> bool {
        self.khin
    }

    /// The record of a reply, whose raw input is in the lent buffer.
    fn of(reply: Reply, lent: &[u8]) -> Syllable {
        Syllable {
            raw: reply.text(lent).to_owned(),
            body_len: usize::try_from(reply.body).unwrap_or_default(),
            tone: reply.tone(),
            khin: reply.khin != 0,
        }
    }
}
