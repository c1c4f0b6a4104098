//! Cards of five to eight words: the check and the reader.

use super::super::cards::{both, broken_tables, check, damage, fields_for, put};
use super::super::Maker;
use super::WORDS;
use crate::encode;

pub fn make(maker: &mut Maker) {
    every_map(maker);
    cuts(maker);
    entries(maker);
    broken_rings(maker);
    one_change(maker);
    two_changes(maker);
    damaged(maker);
    other_counts(maker);
}

/// Only maps with a words field. The shorter tables have most of them.
fn every_map(maker: &mut Maker) {
    maker.section("cards of 5 to 8 words: every map, then a byte less and a byte more");
    for (number, map) in (1..=255).step_by(2).enumerate() {
        let count = [5, 6, 5, 7, 5, 6, 5, 8][number % 8];
        let mut card = fields_for(maker, map, count);
        both(maker, &card);
        check(maker, &card[..card.len() - 1]);
        card.push(0);
        check(maker, &card);
    }
}

/// At each field's ends, inside the table, and with bytes behind up to 512 in all.
fn cuts(maker: &mut Maker) {
    maker.section("cards of 5 to 8 words: cut short, and with bytes behind, up to 512 in all");
    for count in WORDS {
        let card = fields_for(maker, 0xff, count);
        let size = 1 << count;
        let inside = maker.below(size);
        let ends = [0, 1, 2, 3, 4, 3 + inside, 2 + size, 3 + size];
        for length in ends.into_iter().chain(card.len() - 7..=card.len()) {
            check(maker, &card[..length]);
        }
        both(maker, &card);
        for length in [card.len() + 1, 268.max(card.len() + 2), 512] {
            let mut long = card.clone();
            long.resize_with(length, || maker.byte());
            check(maker, &long);
        }
    }
}

/// For eight words every byte is in range.
fn entries(maker: &mut Maker) {
    maker.section("cards of 5 to 8 words: entries of 2^m - 1, 2^m and 255");
    for count in WORDS {
        let size: usize = 1 << count;
        let card = fields_for(maker, 0x07, count);
        let inside = 1 + maker.below(size - 2);
        for place in [0, inside, size - 1] {
            for entry in [size - 1, size.min(255), 255] {
                let mut changed = card.clone();
                changed[3 + place] = entry as u8;
                both(maker, &changed);
            }
        }
    }
}

fn broken_rings(maker: &mut Maker) {
    maker.section("cards of 5 to 8 words: broken rings");
    for count in WORDS.repeat(4) {
        for table in broken_tables(maker, count) {
            check(maker, &[&[0x05, count], &table[..]].concat());
        }
    }
}

/// Changes of a card with every field: the place, from the table's end where `behind`, and the bytes
/// written there.
const CHANGES: [(bool, usize, &[u8]); 22] = [
    (false, 0, &[0x7f]),                  // no bit for the sum term: long
    (false, 0, &[0xfb]),                  // no bit for the table: tableless
    (false, 1, &[9]),                     // words: range
    (false, 1, &[1]),                     // words: range
    (false, 1, &[4]),                     // words: idle
    (false, 1, &[3]),                     // words: a smaller table
    (false, 2, &[33]),                    // width: range
    (false, 2, &[32]),                    // width: idle
    (false, 2, &[2]),                     // width: the constant is wide
    (false, 3, &[255]),                   // table: range, but for eight words
    (false, 4, &[0, 0]),                  // table: an entry twice
    (true, 0, &[1]),                      // odd power: idle
    (true, 0, &[4]),                      // odd power: even
    (true, 1, &[2]),                      // even power: idle
    (true, 1, &[7]),                      // even power: odd
    (true, 2, &[0x21, 0x84, 0x48, 0x12]), // constant: idle
    (true, 2, &[0x45, 0x23, 0x02, 0xff]), // constant: wide
    (true, 2, &[0x44]),                   // constant: even
    (true, 6, &[3]),                      // filter: range
    (true, 6, &[1]),                      // filter: idle
    (true, 7, &[2]),                      // sum term: range
    (true, 8, &[0]),                      // a byte behind
];

fn change(card: &mut Vec<u8>, count: u8, (behind, place, bytes): (bool, usize, &[u8])) {
    let start = if behind { 3 + (1 << count) } else { 0 };
    put(card, start + place, bytes);
}

fn one_change(maker: &mut Maker) {
    maker.section("cards of 6 to 8 words: one with every field, with one change");
    for count in [6, 7, 8] {
        let card = fields_for(maker, 0xff, count);
        for one in CHANGES {
            let mut changed = card.clone();
            change(&mut changed, count, one);
            both(maker, &changed);
        }
    }
}

fn two_changes(maker: &mut Maker) {
    maker.section("cards of 5 words: one with every field, with one or two changes");
    let card = fields_for(maker, 0xff, 5);
    for (number, first) in CHANGES.into_iter().enumerate() {
        for &second in &CHANGES[number..] {
            let mut changed = card.clone();
            change(&mut changed, 5, first);
            change(&mut changed, 5, second);
            check(maker, &changed);
        }
    }
}

fn damaged(maker: &mut Maker) {
    maker.section("cards of 5 to 8 words: damaged at random");
    for number in 0..200 {
        let count = [5, 6, 5, 7, 5, 6, 5, 8][number % 8];
        let width = 2 + maker.below(31) as u8;
        let mut card = encode(&maker.card(count, width));
        for _ in 0..1 + maker.below(2) {
            damage(maker, &mut card);
        }
        both(maker, &card);
    }
}

/// Words of 0 to 10 with a table that would fit eight.
fn other_counts(maker: &mut Maker) {
    maker.section("cards: a table of 256 entries, and any number of words");
    let card = fields_for(maker, 0x05, 8);
    for count in (0..=10).chain([16, 255]) {
        let mut changed = card.clone();
        changed[1] = count;
        check(maker, &changed);
    }
}
