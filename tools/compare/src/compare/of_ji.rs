//! The texts that the calls of ji are given.

use super::{Calls, Run};
use crate::call::Call;
use crate::inputs::{self, Maker, Style, STYLES};
use crate::rules;

/// Each family draws from a seed of its own, so that one more family leaves the
/// others as they were.
pub fn run(run: &mut Run, seed: u64) {
    short(run);
    bytes(run);
    syllables(run);
    at_bounds(run);
    wrong_numbers(run);
    random_short(run, &mut Maker::new(seed ^ 1));
    random_lengths(run, &mut Maker::new(seed ^ 2));
    too_long(run, &mut Maker::new(seed ^ 3));
    damaged(run, &mut Maker::new(seed ^ 4));
    khin(run, &mut Maker::new(seed ^ 5));
}

fn short(run: &mut Run) {
    let (table, telling) = (rules::table(), inputs::telling());
    run.feed(Calls::ALL, b"");
    inputs::scalars(&mut |text| run.feed(Calls::CHECKING, text));
    run.family("every code point of Unicode alone");
    inputs::tuples(&table, 2, &mut |text| run.feed(Calls::WRITING, text));
    run.family("every pair over the whole table");
    inputs::tuples(&telling, 3, &mut |text| run.feed(Calls::WRITING, text));
    run.family("every triple over the telling alphabet");
    inputs::tuples(&telling, 2, &mut |text| run.feed(Calls::LETTER, text));
    inputs::tuples(&inputs::letters(), 3, &mut |text| run.feed(Calls::LETTER, text));
    run.family("every pair over the telling alphabet and triple over the tone letters, for the tone letter");
    for size in 4..=5 {
        inputs::tuples(&inputs::keying()[..if size == 4 { 16 } else { 11 }], size, &mut |text| {
            run.feed(Calls::WRITING, text)
        });
        inputs::tuples(&inputs::marking(), size, &mut |text| run.feed(Calls::WRITING, text));
    }
    run.family("every text of 4 or 5 over what keys and what reorders");
}

fn bytes(run: &mut Run) {
    let all: Vec<u8> = (0..=255).collect();
    for size in 1..=2 {
        inputs::byte_tuples(&all, size, &mut |text| run.feed(Calls::ALL, text));
    }
    run.family("every sequence of 1 or 2 bytes");
    for size in 3..=4 {
        inputs::byte_tuples(&inputs::BYTES, size, &mut |text| run.feed(Calls::CHECKING, text));
    }
    run.family("every sequence of 3 or 4 bytes at the edges of UTF-8");
}

fn syllables(run: &mut Run) {
    let mut count = 0;
    inputs::syllables(&mut |text| {
        run.feed(Calls::WRITING, text);
        if count % 4 == 1 {
            run.feed(Calls::LETTER, text);
        }
        count += 1;
    });
    run.family("every well-formed syllable, decomposed and composed");
}

fn at_bounds(run: &mut Run) {
    for text in inputs::edges() {
        run.feed(Calls::ALL, &text);
    }
    run.family("at the bounds");
}

/// Forms and kinds that there are not, which win over any fault of the text.
fn wrong_numbers(run: &mut Run) {
    let numbers =
        [0, 1, 2, 3, 4, 255, 256, 257, 258, 1 << 16, 1 << 31, 1 << 32, (1 << 32) + 1, 1 << 63, u64::MAX];
    let long = vec![b'a'; 257];
    let texts: [&[u8]; 7] = [
        b"",
        "o\u{358}\u{301}".as_bytes(),
        &long,
        &[0xC3],
        "\u{250}".as_bytes(),
        b"ah",
        "\u{1e73}".as_bytes(),
    ];
    for form in numbers {
        for kind in numbers {
            for text in texts {
                let call = Call::Keys { form, kind };
                run.ask(call.of(text));
            }
        }
    }
    run.family("keys with wrong forms and kinds");
}

fn random_short(run: &mut Run, maker: &mut Maker) {
    for count in 0..350_000 {
        let size = 1 + maker.random.below(12);
        let text = maker.pieces(STYLES[count % STYLES.len()], size);
        run.feed(Calls::WRITING, &text);
        run.feed(Calls::KHIN, &text);
        if count % 4 == 0 {
            run.feed(Calls::LETTER, &text);
        }
    }
    run.family("random texts of 1 to 12 pieces");
}

fn random_lengths(run: &mut Run, maker: &mut Maker) {
    for size in 0..=rules::MOST {
        for turn in 0..350 {
            let text = maker.text(STYLES[turn % STYLES.len()], size);
            run.feed(Calls::STRIP, &text);
            run.feed(Calls::NORMAL, &text);
            if turn % 5 == 0 {
                run.feed(Calls::KEYS, &text);
            }
            if turn % 10 == 0 {
                run.feed(Calls::LETTER, &text);
            }
        }
    }
    run.family("random texts of every length from 0 to 256 bytes");
}

fn too_long(run: &mut Run, maker: &mut Maker) {
    let sizes = (257..=320).chain([511, 512, 513, 1000, 1024, 4096, 65_535, 65_536, 65_537]);
    for size in sizes {
        for style in STYLES {
            let text = maker.text(style, size);
            run.feed(Calls::ALL, &text);
            let mut copy = text.clone();
            let at = maker.random.below(copy.len());
            copy[at] = 0xFF;
            run.feed(Calls::ALL, &copy);
        }
    }
    run.family("texts above 256 bytes, good and bad");
}

fn damaged(run: &mut Run, maker: &mut Maker) {
    for count in 0..200_000 {
        let size = match count % 4 {
            0 => 250 + maker.random.below(7),
            1 => maker.random.below(257),
            _ => maker.random.below(24),
        };
        let text = maker.text(STYLES[count % STYLES.len()], size);
        let copy = maker.damaged(&text);
        run.feed(if count % 8 == 0 { Calls::ALL } else { Calls::WRITING }, &copy);
    }
    run.family("damaged copies of good texts");
}

fn khin(run: &mut Run, maker: &mut Maker) {
    for size in 1..=6 {
        inputs::byte_tuples(&[b'-', 0xC2, 0xB7, b'a', 0xC3, 0x80, 0x00], size, &mut |text| {
            run.feed(Calls::KHIN, text)
        });
    }
    for size in 0..=1024 {
        for begin in ["", "-", "--", "---", "\u{b7}", "\u{b7}\u{b7}", "--\u{b7}", "\u{b7}--"] {
            let text = [begin.as_bytes(), &maker.text(Style::Any, size)].concat();
            run.feed(Calls::KHIN, &text);
            run.feed(Calls::KHIN, &maker.damaged(&text));
        }
    }
    run.family("beginnings with and without the khin sign");
}
