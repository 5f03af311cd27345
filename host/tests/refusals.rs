//! Every refusal of every call at the C boundary, with the nearest inputs on both sides of it.

mod common;

use common::{accepted, ask, full_and_short, refused, Call, TONE_KEYS};
use robinflint::sys;

/// U+024F is the last code point of its block, and U+0250 the first one behind it.
const INSIDE: &[u8] = "\u{24f}".as_bytes();
const OUTSIDE: &[u8] = "\u{250}".as_bytes();
/// Two bytes that begin a longer sequence, and the second of which does not continue it.
const ILL_FORMED: &[u8] = b"\xC3a";

fn letters(count: usize) -> Vec<u8> {
    vec![b'a'; count]
}

/// The refusals of a text of 256 bytes: 2, 3, 4, in this order, and what lies beside each.
fn refusals_of_text(call: impl for<'a> Fn(&'a [u8]) -> Call<'a>) {
    accepted(call(&letters(256)));
    refused(call(&letters(257)), 2);
    accepted(call("\u{e1}".as_bytes()));
    refused(call(ILL_FORMED), 3);
    // The ends of Unicode's table 3-7: overlong, a surrogate, above 10FFFF, cut off.
    for bytes in [&b"\xC1\xBF"[..], b"\xE0\x9F\xBF", b"\xED\xA0\x80", b"\xF4\x90\x80\x80", b"a\xCD", b"\x80"]
    {
        refused(call(bytes), 3);
    }
    accepted(call(INSIDE));
    refused(call(OUTSIDE), 4);
    for text in
        ["\u{b6}", "\u{b8}", "\u{bf}", "\u{291}", "\u{293}", "\u{2ff}", "\u{370}", "\u{1f00}", "\u{10000}"]
    {
        refused(call(text.as_bytes()), 4);
    }
    for text in
        ["\u{0}", "\u{7f}", "\u{b7}", "\u{c0}", "\u{292}", "\u{36f}", "\u{1d3a}", "\u{1eff}", "\u{226f}"]
    {
        accepted(call(text.as_bytes()));
    }
    // Together: 2 before 3 before 4.
    refused(call(&[&letters(256), &ILL_FORMED[..1]].concat()), 2);
    refused(call(&[OUTSIDE, ILL_FORMED].concat()), 3);
}

/// The refusals of raw keys: 2, then 4 for any byte above 7F, and never 3.
fn refusals_of_keys(call: impl for<'a> Fn(&'a [u8]) -> Call<'a>) {
    accepted(call(&letters(256)));
    refused(call(&letters(257)), 2);
    accepted(call(b"a\x7F"));
    refused(call(b"a\x80"), 4);
    refused(call("\u{e1}".as_bytes()), 4);
    refused(call(ILL_FORMED), 4);
    refused(call(&[&letters(256), &b"\x80"[..]].concat()), 2);
}

#[test]
fn strip() {
    refusals_of_text(|text| Call::Strip { text });
    full_and_short(Call::Strip { text: b"chhia" });
    full_and_short(Call::Strip { text: "o\u{358}\u{301}".as_bytes() });
    // The empty output fits a buffer without room.
    assert_eq!(ask(Call::Strip { text: b"" }, 0).reply.code, 0);
}

#[test]
fn tone_letter() {
    refusals_of_text(|text| Call::ToneLetter { text });
}

#[test]
fn from_raw() {
    refusals_of_keys(|keys| Call::FromRaw { keys });
    full_and_short(Call::FromRaw { keys: b"hoan2" });
    assert_eq!(ask(Call::FromRaw { keys: b"" }, 0).reply.code, 0);
}

#[test]
fn compose() {
    refusals_of_text(|raw| Call::Compose { raw, body: b"a", tone: 1, khin: 0 });
    refusals_of_text(|body| Call::Compose { raw: b"a", body, tone: 1, khin: 0 });
    let with = |tone, khin| Call::Compose { raw: b"a2", body: b"a", tone, khin };
    for tone in 0..=9 {
        accepted(with(tone, 0));
        accepted(with(tone, 1));
    }
    for number in [10, 256, 1 << 32, u64::MAX] {
        refused(with(number, 0), 1);
        refused(with(2, number), 1);
    }
    refused(with(2, 2), 1);
    full_and_short(with(2, 1));
    // 1 before all; the raw input passes 2 to 4 before the body.
    let (long, ill) = (letters(257), ILL_FORMED);
    refused(Call::Compose { raw: &long, body: &long, tone: 10, khin: 0 }, 1);
    refused(Call::Compose { raw: &long, body: ill, tone: 1, khin: 2 }, 1);
    refused(Call::Compose { raw: OUTSIDE, body: &long, tone: 1, khin: 0 }, 4);
    refused(Call::Compose { raw: ill, body: &long, tone: 1, khin: 0 }, 3);
    refused(Call::Compose { raw: &long, body: ill, tone: 1, khin: 0 }, 2);
}

#[test]
fn candidate() {
    refusals_of_text(|text| Call::Candidate { text, position: 0 });
    let dotted = "o\u{358}".as_bytes();
    for (text, count) in [(&b"a"[..], 1), (dotted, 2), (b"", 1)] {
        let seen = accepted(Call::Candidate { text, position: count - 1 });
        assert_eq!(seen.reply.count, count);
        refused(Call::Candidate { text, position: count }, 6);
        refused(Call::Candidate { text, position: u64::MAX }, 6);
    }
    full_and_short(Call::Candidate { text: dotted, position: 0 });
    full_and_short(Call::Candidate { text: dotted, position: 1 });
    // What is wrong with the text comes before what is wrong with the position.
    refused(Call::Candidate { text: OUTSIDE, position: 9 }, 4);
}

#[test]
fn keying() {
    let entry = "t\u{e2}i o\u{e2}n".as_bytes();
    for kind in 0..=2 {
        let with = |position| Call::Keying { entry, kind, position };
        let count = accepted(with(0)).reply.count;
        accepted(with(count - 1));
        refused(with(count), 6);
        refused(with(u64::MAX), 6);
        full_and_short(with(0));
        full_and_short(with(count - 1));
    }
    for kind in [3, 256, 1 << 32, u64::MAX] {
        refused(Call::Keying { entry, kind, position: 0 }, 1);
    }
}

/// The first numeric keying of an entry.
fn first(entry: &[u8]) -> Call<'_> {
    Call::Keying { entry, kind: 1, position: 0 }
}

/// A keying of an entry at a position that no list has.
fn far(entry: &[u8], kind: u64) -> Call<'_> {
    Call::Keying { entry, kind, position: u64::MAX }
}

/// The telex step.
fn typed(text: &[u8], key: u64, mode: u64, tone_keys: [u8; 7]) -> Call<'_> {
    Call::Telex { text, key, mode, tone_keys }
}

#[test]
fn keying_of_long_and_of_many_parts() {
    let parts = |sizes: &[usize]| sizes.iter().map(|size| letters(*size)).collect::<Vec<_>>().join(&b' ');
    accepted(first(&parts(&[256, 256, 256, 253])));
    refused(first(&parts(&[256, 256, 256, 254])), 2);
    accepted(first(&parts(&[256])));
    refused(first(&parts(&[257])), 5);
    refused(first(&parts(&[1, 257])), 5);
    accepted(first(&parts(&[1; 16])));
    refused(first(&parts(&[1; 17])), 5);
    // Empty parts count.
    accepted(first(&[b' '; 15]));
    refused(first(&[b' '; 16]), 5);
    refused(first(ILL_FORMED), 3);
    accepted(first(INSIDE));
    refused(first(OUTSIDE), 4);
}

#[test]
fn keying_in_order() {
    let many = |part: &[u8]| [part; 17].join(&b' ');
    refused(far(&letters(1025), 3), 1);
    refused(far(&[&letters(1024), &ILL_FORMED[..1]].concat(), 1), 2);
    refused(far(&many(&[OUTSIDE, ILL_FORMED].concat()), 1), 3);
    refused(far(&many(OUTSIDE), 1), 4);
    refused(far(&many(b"a"), 1), 5);
    refused(far(b"a", 1), 6);
}

#[test]
fn align() {
    refusals_of_keys(|keys| Call::Align { keys, target: b"a" });
    refusals_of_text(|target| Call::Align { keys: b"a", target });
    full_and_short(Call::Align { keys: b"a1i1", target: b"a" });
    // "No alignment" is an answer of length 0, which fits everywhere.
    assert_eq!(ask(Call::Align { keys: b"b", target: b"a" }, 0).reply, sys::Reply::default());
    // The keys pass 2 and 4 before the target is looked at.
    let long = letters(257);
    refused(Call::Align { keys: b"\x80", target: &long }, 4);
    refused(Call::Align { keys: &long, target: ILL_FORMED }, 2);
    refused(Call::Align { keys: b"a", target: &long }, 2);
}

#[test]
fn telex() {
    refusals_of_text(|text| Call::Telex { text, key: 0x73, mode: 1, tone_keys: TONE_KEYS });
    full_and_short(typed("a\u{207f}".as_bytes(), 0x73, 1, TONE_KEYS));
    for mode in [0, 1] {
        for key in [0x20, 0x7E] {
            accepted(typed(b"a", key, mode, TONE_KEYS));
        }
        for key in [0, 0x1F, 0x7F, 0x80, 0x100 + 0x73, (1 << 32) + 0x73, u64::MAX] {
            refused(typed(b"a", key, mode, TONE_KEYS), 1);
        }
        for at in 0..7 {
            for (setting, code) in [(0x20, 1), (0x21, 0), (0x7E, 0), (0x7F, 1), (0x80, 1), (0xFF, 1), (0, 1)]
            {
                let mut tone_keys = TONE_KEYS;
                tone_keys[at] = setting;
                let seen = ask(typed(b"a", 0x73, mode, tone_keys), sys::TELEX_ROOM);
                assert_eq!(seen.reply.code, code, "mode {mode}, setting {at} is {setting:#x}");
            }
        }
    }
    for mode in [2, 256, 1 << 32, u64::MAX] {
        refused(typed(b"a", 0x73, mode, TONE_KEYS), 1);
    }
    refused(typed(&letters(257), 0x7F, 1, TONE_KEYS), 1);
}

/// The inputs that the header names beside each room have an output of exactly that many bytes.
#[test]
fn the_longest_outputs() {
    let strokes = "\u{1d9}".repeat(128);
    let keys = letters(256);
    let body = format!("\u{344}\u{344}{}", "onn".repeat(84));
    let entry = [strokes.as_str(), &strokes, &strokes, &format!("{}a", "\u{1d9}".repeat(126))].join(" ");
    let toned = format!("{}\u{1d8}", "\u{1d9}".repeat(127));
    let witnesses = [
        Call::Strip { text: strokes.as_bytes() },
        Call::FromRaw { keys: &keys },
        Call::Align { keys: &keys, target: &keys },
        Call::Candidate { text: strokes.as_bytes(), position: 0 },
        Call::Compose { raw: b"x", body: body.as_bytes(), tone: 8, khin: 1 },
        Call::Keying { entry: entry.as_bytes(), kind: 1, position: 0 },
        Call::Keying { entry: entry.as_bytes(), kind: 2, position: 0 },
        Call::Telex { text: toned.as_bytes(), key: 0x73, mode: 1, tone_keys: TONE_KEYS },
    ];
    for call in witnesses {
        assert_eq!(accepted(call).out.len(), call.room(), "{call:?}");
        full_and_short(call);
    }
    let detoned = accepted(Call::Keying { entry: entry.as_bytes(), kind: 0, position: 0 });
    assert_eq!(detoned.out.len(), 2551);
}
