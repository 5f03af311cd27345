//! Document 01's examples, starred and not, through the functions of the crate.

use robinflint::{strip, telex, tone_letter, Entry, Kind, Mode, Settings, Syllable, Tone};

#[test]
fn strip_takes_the_marks_off() {
    let cases = [
        ("\u{e1}", "a", Tone::T2),
        ("ah", "ah", Tone::T4),
        ("", "", Tone::T1),
        ("\u{e1}\u{302}", "a", Tone::T5),
        ("\u{1ea5}", "a", Tone::T2),
    ];
    // U+1EA5 is a with U+0302 and U+0301: both marks go, and the last one gives the tone.
    for (text, bare, tone) in cases {
        let stripped = strip(text).unwrap();
        assert_eq!((stripped.text.as_str(), stripped.tone), (bare, tone), "{text}");
    }
}

#[test]
fn each_tone_has_its_mark() {
    let marks = [
        ('\u{301}', Tone::T2),
        ('\u{300}', Tone::T3),
        ('\u{302}', Tone::T5),
        ('\u{303}', Tone::T6),
        ('\u{304}', Tone::T7),
        ('\u{30d}', Tone::T8),
        ('\u{306}', Tone::T9),
    ];
    for (mark, tone) in marks {
        let stripped = strip(&format!("a{mark}")).unwrap();
        assert_eq!((stripped.text.as_str(), stripped.tone), ("a", tone));
    }
}

#[test]
fn from_raw_and_compose() {
    let cases = [
        ("oo2", "\u{f3}\u{358}"),
        ("eo8", "o\u{30d}\u{324}"),
        ("onn1", "o\u{358}\u{207f}"),
        ("x2", "x2"),
        ("Eo1", "o\u{324}"),
        ("hoan2", "ho\u{e1}n"),
        ("", ""),
    ];
    for (raw, text) in cases {
        assert_eq!(Syllable::from_raw(raw).unwrap().compose().unwrap(), text, "{raw}");
    }
}

#[test]
fn from_raw_takes_the_tone_key() {
    assert_eq!(Syllable::from_raw("").unwrap(), Syllable::default());
    for (raw, body, tone) in
        [("a2", "a", Tone::T2), ("a0", "a0", Tone::None), ("a", "a", Tone::None), ("5", "", Tone::T5)]
    {
        let syllable = Syllable::from_raw(raw).unwrap();
        assert_eq!(
            (syllable.raw(), syllable.body(), syllable.tone(), syllable.khin()),
            (raw, body, tone, false)
        );
        assert_eq!(syllable.body_len(), body.len());
    }
}

#[test]
fn candidates_of_a_composed_syllable() {
    let khin = Syllable::candidates("--\u{e1}").unwrap();
    assert_eq!(khin.len(), 1);
    assert_eq!((khin[0].raw(), khin[0].body(), khin[0].tone(), khin[0].khin()), ("a20", "a", Tone::T2, true));
    assert_eq!(Syllable::candidates("").unwrap(), [Syllable::default()]);
    let both = Syllable::candidates("\u{f3}\u{358}").unwrap();
    assert_eq!(both.iter().map(Syllable::raw).collect::<Vec<_>>(), ["ou2", "oo2"]);
    for syllable in both {
        assert_eq!(syllable.compose().unwrap(), "\u{f3}\u{358}");
    }
}

#[test]
fn align_takes_the_keys_of_the_target() {
    let (length, syllable) = Syllable::align("a1i1", "a").unwrap().unwrap();
    assert_eq!((length, syllable.raw(), syllable.body(), syllable.tone()), (3, "a1i", "a1i", Tone::None));
    assert_eq!(Syllable::align("b", "a").unwrap(), None);
    // The key that may be the tone's is the one at the prefix's length and one more, not the one at its end.
    for (keys, target, length) in [("ax1", "a", 2), ("o11", "o\u{358}", 2), ("a2x2", "\u{e1}", 3)] {
        let (aligned, syllable) = Syllable::align(keys, target).unwrap().unwrap();
        assert_eq!((aligned, syllable.raw()), (length, &keys[..length]));
    }
    assert_eq!(Syllable::align("--a2", "--\u{e1}").unwrap(), None);
    assert_eq!(Syllable::align("", "").unwrap(), None);
}

#[test]
fn the_telex_step() {
    let cases = [
        ("a", 's', "\u{e1}"),
        ("ah", 'j', "a\u{30d}h"),
        ("\u{101}", 'j', "aj"),
        ("a\u{207f}", 'n', "an"),
        ("t", 's', "ts"),
        // A shared key of the tones 7 and 8 rewrites an old tone, and a repeated key keeps the case it is typed in.
        ("\u{101}", 'h', "a\u{30d}h"),
        ("\u{e1}", 'S', "aS"),
    ];
    for (text, key, becomes) in cases {
        assert_eq!(telex(text, key, Mode::Telex, &Settings::default()).unwrap(), becomes, "{text} {key}");
    }
}

#[test]
fn the_numeric_mode_has_digits_whatever_the_settings_are() {
    for settings in [Settings::default(), Settings { t2: '9', t9: '2', ..Settings::default() }] {
        assert_eq!(telex("a", '2', Mode::Numeric, &settings).unwrap(), "\u{e1}");
        assert_eq!(telex("a", 's', Mode::Numeric, &settings).unwrap(), "as");
    }
}

#[test]
fn the_tone_letter() {
    // First o, a or e, and a final, side by side, of which the second is the letter; then o, a, e, u, i, ng, n, m.
    let cases =
        [("hoan", Some(2)), ("oxoan", Some(3)), ("mn", Some(1)), ("hng", Some(1)), ("x", None), ("", None)];
    for (text, position) in cases {
        assert_eq!(tone_letter(text).unwrap(), position, "{text}");
    }
}

/// The listing of document 01, whole.
#[test]
fn the_listing_of_an_entry() {
    let entry = Entry::new("t\u{e2}i o\u{e2}n").unwrap();
    let count = |kind| entry.count(kind).unwrap();
    let counts = (count(Kind::Numeric), count(Kind::Telex), count(Kind::Detoned));
    let mut lines = vec![format!("2 0 {} {} {}", counts.0, counts.1, counts.2)];
    for (letter, kind) in [('N', Kind::Numeric), ('T', Kind::Telex), ('D', Kind::Detoned)] {
        for (position, keying) in entry.keyings(kind).unwrap().into_iter().enumerate() {
            assert_eq!(entry.keying(kind, position as u64).unwrap(), keying);
            lines.push(format!("{letter} {position} {keying}"));
        }
    }
    let listed =
        std::fs::read_to_string(concat!(env!("CARGO_MANIFEST_DIR"), "/../crates/keylist/stdout")).unwrap();
    assert_eq!(lines.join("\n") + "\n", listed);
}

#[test]
fn sixteen_parts_with_four_choices_each() {
    let text = ["o\u{358}"; 16].join(" ");
    let entry = Entry::new(&text).unwrap();
    assert_eq!(entry.count(Kind::Numeric).unwrap(), 1 << 32);
    assert_eq!(entry.count(Kind::Telex).unwrap(), 1 << 32);
    assert_eq!(entry.count(Kind::Detoned).unwrap(), 1 << 16);
    assert_eq!(entry.keying(Kind::Numeric, 0).unwrap(), "ou1".repeat(16));
    assert_eq!(entry.keying(Kind::Numeric, (1 << 32) - 1).unwrap(), "oo".repeat(16));
}
