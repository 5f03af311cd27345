//! The calls of the C side, what they answer, and who can answer them.

/// What every call of the C side returns.
#[repr(C)]
#[derive(Clone, Copy, Debug, Default, PartialEq, Eq)]
pub struct Reply {
    pub code: u64,
    pub length: u64,
    pub count: u64,
    pub body: u64,
    pub tone: u64,
    pub khin: u64,
    pub position: u64,
}

impl Reply {
    /// A refusal has every other field 0.
    pub fn refusal(code: u64) -> Reply {
        Reply { code, ..Reply::default() }
    }

    pub fn fields(&self) -> [u64; 7] {
        [self.code, self.length, self.count, self.body, self.tone, self.khin, self.position]
    }
}

/// A call with its numbers.
#[derive(Clone, Copy, Debug, PartialEq, Eq)]
pub enum Call {
    Strip,
    ToneLetter,
    Nfd,
    Nfc,
    StripKhin,
    HasToneLetter,
    Keys { form: u64, kind: u64 },
    FromRaw,
    Compose { tone: u64, khin: u64 },
    Candidate { position: u64 },
    Keying { kind: u64, position: u64 },
    Telex { key: u64, mode: u64 },
    Align,
    Listing { from: u64 },
}

/// The names of the calls, by their numbers.
pub const NAMES: [&str; 14] = [
    "strip",
    "tone_letter",
    "nfd",
    "nfc",
    "strip_khin",
    "has_tone_letter",
    "keys",
    "from_raw",
    "compose",
    "candidate",
    "keying",
    "telex",
    "align",
    "listing",
];

impl Call {
    /// The call's number in a record and its place in a table.
    pub fn number(self) -> usize {
        match self {
            Call::Strip => 0,
            Call::ToneLetter => 1,
            Call::Nfd => 2,
            Call::Nfc => 3,
            Call::StripKhin => 4,
            Call::HasToneLetter => 5,
            Call::Keys { .. } => 6,
            Call::FromRaw => 7,
            Call::Compose { .. } => 8,
            Call::Candidate { .. } => 9,
            Call::Keying { .. } => 10,
            Call::Telex { .. } => 11,
            Call::Align => 12,
            Call::Listing { .. } => 13,
        }
    }

    /// Whether the call writes to a lent buffer.
    pub fn writes(self) -> bool {
        !matches!(self, Call::ToneLetter | Call::StripKhin | Call::HasToneLetter)
    }

    /// The call of one text.
    pub fn of(self, text: &[u8]) -> Question<'_> {
        Question { call: self, text, second: &[] }
    }
}

/// A call and the bytes that it is given. `second` is the body that compose
/// takes behind the raw input, the seven tone keys of telex, or the target that
/// the keys are aligned with.
#[derive(Clone, Copy, Debug)]
pub struct Question<'a> {
    pub call: Call,
    pub text: &'a [u8],
    pub second: &'a [u8],
}

/// One side of the comparison.
pub trait Subject {
    fn name(&self) -> &'static str;
    fn call(&self, question: Question, out: &mut [u8]) -> Reply;
}
