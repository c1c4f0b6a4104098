//! Walks of cards of two to four words: words, steps, steps back and draws.

use super::{bytes, Maker, FULL, PROGRAM, REFUSED, TSC1, TSC2};
use crate::replay::{commas, hex, words};
use crate::{accept, encode, mask, step, step_back, Card};

/// The starts of the published generators' runs.
const STARTS: [[u32; 4]; 4] = [
    [0, 0, 0, 0],
    [0xffff_ffff, 0xffff_ffff, 0xffff_ffff, 0xffff_ffff],
    [0x0123_4567, 0x89ab_cdef, 0xfedc_ba98, 0x7654_3210],
    [0x8000_0000, 0x0000_0001, 0x7fff_ffff, 0x1248_8421],
];

pub(super) const CALLS: [&str; 4] = ["step", "back", "draw", "words"];

pub fn make(maker: &mut Maker) {
    published(maker);
    sizes(maker);
    counts(maker);
    refused_cards(maker);
    word_counts(maker);
    document_words(maker);
    high_bits(maker);
}

fn published(maker: &mut Maker) {
    maker.section("TSC-1 and TSC-2 from four starts: words, then steps and steps back of each run");
    for card in [TSC1, TSC2] {
        let card = accept(&bytes(card)).expect("an accepted card");
        for start in STARTS {
            run(maker, &card, &start, 1000);
        }
    }
}

/// Each m, n, filter and sum term.
fn sizes(maker: &mut Maker) {
    maker.section(
        "every size, filter and sum term, random rings and starts: words, steps and steps back",
    );
    let mut number = 0;
    for (words, width) in (2..=4).flat_map(|m| (2..=32).map(move |n| (m, n))) {
        for (filter, sum_term) in [(1, 0), (1, 1), (2, 0), (2, 1)] {
            let card = Card {
                odd_power: [1, 255, 3, 7, 129][number % 5],
                even_power: [2, 254, 0, 16, 100, 4, 30][number % 7],
                filter,
                sum_term,
                ..maker.card(words, width)
            };
            let start = maker.state(words, width);
            run(maker, &card, &start, 40);
            number += 1;
        }
    }
}

/// Words from the start. A step back from the start, the step that undoes it, and one more back;
/// a step from the start and the step back that undoes it. A draw from the state after the words,
/// and three steps back from there.
pub(super) fn run(maker: &mut Maker, card: &Card, start: &[u32], count: usize) {
    let bytes = hex(&encode(card));
    maker.line(format!("words {bytes} {} {count}", words(start)));
    let mut call = |name, state: &[u32]| maker.line(format!("{name} {bytes} {}", words(state)));

    let before = step_back(card, start);
    call("back", start);
    call("step", &before);
    call("back", &before);

    let mut state = step(card, start);
    call("step", start);
    call("back", &state);

    for _ in 1..count {
        state = step(card, &state);
    }
    call("draw", &state);
    for _ in 0..3 {
        call("back", &state);
        state = step_back(card, &state);
    }
}

fn counts(maker: &mut Maker) {
    maker.section("counts of words at the edges");
    for (card, state) in [(TSC1, "0,0,0,0"), (PROGRAM, "2,3"), (FULL, "1ffff,0,1")] {
        for count in [0, 1, 2, 1024] {
            maker.line(format!("words {card} {state} {count}"));
        }
    }
}

/// One of the calls; `words` with a count of 0, 1 or 1024.
pub(super) fn call(maker: &mut Maker, name: &str, card: &str, state: &str) {
    let count = match name {
        "words" => [" 0", " 1", " 1024"][maker.below(3)],
        _ => "",
    };
    maker.line(format!("{name} {card} {state}{count}"));
}

fn refused_cards(maker: &mut Maker) {
    maker.section("each refusal of a card, with states good and bad");
    for card in REFUSED {
        for state in ["1,2,3,4", "4,4", "-", "0,0,0"] {
            for name in CALLS {
                call(maker, name, card, state);
            }
        }
    }
}

fn word_counts(maker: &mut Maker) {
    maker.section("states of 0 to 9 words, also with high bits");
    for card in [TSC1, PROGRAM, FULL] {
        for count in 0..10 {
            for name in CALLS {
                call(maker, name, card, &commas(vec![0; count]));
                call(maker, name, card, &commas(vec!["ffffffff"; count]));
            }
        }
    }
}

/// P6 of document 01, 29 bits, with words at the edge, and too few of them.
fn document_words(maker: &mut Maker) {
    maker.section("P6 of document 01 with words at the edge");
    for state in [
        "1fffffff,1fffffff,1fffffff,1fffffff",
        "0,0,0,20000000",
        "20000000,0,0",
        "0,0,0",
        "0,0,0,0,20000000",
    ] {
        for name in CALLS {
            call(maker, name, "021d", state);
        }
    }
}

/// For each width, states with the largest words, then one word too large at each place.
fn high_bits(maker: &mut Maker) {
    maker.section("state words of 2^n - 1, 2^n and more");
    for width in 2..=31 {
        let m = 2 + width % 3;
        let card = maker.card(m, width);
        let card = hex(&encode(&card));
        let largest = vec![mask(width); usize::from(m)];
        for name in CALLS {
            call(maker, name, &card, &words(&largest));
        }
        for place in 0..largest.len() {
            let mut state = maker.state(m, width);
            state[place] = [1 << width, u32::MAX, 1 << 31][maker.below(3)];
            let name = CALLS[maker.below(4)];
            call(maker, name, &card, &words(&state));
        }
    }
}
