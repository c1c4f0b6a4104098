//! What the calls refuse with cards of five to eight words: each refusal of a card, of a state, of
//! lists and of a span.

use super::super::cards::both;
use super::super::margins::LISTS;
use super::super::ranks::{lists, pick_list, text};
use super::super::strips::SPANS;
use super::super::walks::{call, CALLS};
use super::super::Maker;
use super::{margin, WORDS};
use crate::replay::{commas, hex, words};
use crate::{encode, mask, Card};

pub fn make(maker: &mut Maker) {
    refused_cards(maker);
    word_counts(maker);
    high_bits(maker);
    refused_lists(maker);
    spans(maker);
}

/// A card for each refusal from 1 to 9.
fn refused(maker: &mut Maker, count: u8) -> [Vec<u8>; 9] {
    let card = maker.card(count, 7);
    let bytes = encode(&card);
    let table_cut = 4 + maker.below(1 << count);
    let with = |place: usize, byte: u8| {
        let mut changed = bytes.clone();
        changed[place] = byte;
        changed
    };
    let changed = |change: fn(&mut Card)| {
        let mut changed = card.clone();
        change(&mut changed);
        encode(&changed)
    };
    [
        bytes[..table_cut.min(bytes.len() - 1)].to_vec(),
        match count {
            8 => with(2, 33),
            _ => with(3, 1 << count),
        },
        with(2, 32),
        vec![0x01, count],
        [&bytes[..], &[0]].concat(),
        changed(|card| card.constant |= 128),
        changed(|card| card.table.swap(0, 1)),
        changed(|card| card.constant &= 126),
        changed(|card| card.even_power |= 1),
    ]
}

/// With a good state, then with one that is refused as well; lists and spans are good or not.
fn refused_cards(maker: &mut Maker) {
    maker
        .section("5 to 8 words: each refusal of a card, with states, lists and spans good and bad");
    for count in WORDS {
        for card in refused(maker, count) {
            both(maker, &card);
            let card = hex(&card);
            for length in [count, count % 3] {
                let state = words(&maker.state(length, 7));
                let name = CALLS[maker.below(4)];
                call(maker, name, &card, &state);
            }
            let state = words(&maker.state(count, 7));
            for name in CALLS {
                call(maker, name, &card, &state);
            }
            let (shovels, times) = LISTS[maker.below(LISTS.len())];
            maker.line(format!("pick {card} {state} {shovels} {times}"));
            maker.line(format!("margin {card} {state} {shovels} {times}"));
            let (place, length) = SPANS[maker.below(SPANS.len())];
            maker.line(format!("strip {card} {state} 7,8,9 {place} {length}"));
        }
    }
}

fn word_counts(maker: &mut Maker) {
    maker.section("5 to 8 words: states of 0 to 10 words, also with high bits");
    for count in WORDS {
        let card = maker.card(count, 31);
        let card = text(&card);
        for length in 0..=10 {
            let name = CALLS[maker.below(4)];
            call(maker, name, &card, &commas(vec![1; length]));
            let name = CALLS[maker.below(4)];
            call(maker, name, &card, &commas(vec!["ffffffff"; length]));
        }
        for name in CALLS {
            call(maker, name, &card, &commas(vec![1; 4]));
        }
        let three = commas(vec!["ffffffff"; 3]);
        maker.line(format!("strip {card} {three} 7,8,9 1 3"));
        maker.line(format!("pick {card} {three} 7 -"));
        maker.line(format!("margin {card} {three} 7 -"));
    }
}

/// One word too large at each place, the others as large as can be.
fn high_bits(maker: &mut Maker) {
    maker.section("5 to 8 words: state words of 2^n - 1 and 2^n");
    for count in WORDS {
        for width in [2, 8, 31] {
            let card = maker.card(count, width);
            let card = text(&card);
            let largest = vec![mask(width); count.into()];
            call(maker, "draw", &card, &words(&largest));
            for place in 0..largest.len() {
                let mut state = largest.clone();
                state[place] += 1;
                call(maker, CALLS[place % 4], &card, &words(&state));
            }
            let mut state = largest;
            state[usize::from(count) - 1] = 1 << width;
            let state = words(&state);
            maker.line(format!("strip {card} {state} 7,8,9 4 0"));
            maker.line(format!("pick {card} {state} 7,7 300,300"));
            maker.line(format!("margin {card} {state} 7 300"));
        }
    }
}

/// Words of 2 bits rank four.
fn refused_lists(maker: &mut Maker) {
    maker.section("5 to 8 words: each refusal of lists, and lists that are firm");
    for count in WORDS {
        let card = maker.card(count, 2);
        let state = words(&maker.state(count, 2));
        for (shovels, times) in LISTS {
            let fields = format!("{} {state} {shovels} {times}", text(&card));
            maker.line(format!("pick {fields}"));
            maker.line(format!("margin {fields}"));
        }
        for list in lists(5) {
            pick_list(maker, &text(&card), &state, &list);
        }
        let many: Vec<u16> = (0..65).collect();
        margin(maker, &card, &vec![0; count.into()], &many, &[9; 65]);
        margin(maker, &card, &vec![3; count.into()], &many[..64], &[9; 64]);
    }
}

fn spans(maker: &mut Maker) {
    maker.section("5 to 8 words: spans that just fit, and that just don't");
    for count in WORDS {
        let card = maker.card(count, 32);
        let card = text(&card);
        let state = words(&maker.state(count, 32));
        for (place, length) in [(0, 3), (0, 4), (2, 1), (2, 2), (3, 0), (3, 1), (4, 0)] {
            maker.line(format!("strip {card} {state} 7,8,9 {place} {length}"));
        }
    }
}
