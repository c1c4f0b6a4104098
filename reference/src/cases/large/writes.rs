//! The writer with tables of up to 256 entries.

use super::super::writes::{write, write_changed, write_given};
use super::super::Maker;
use super::WORDS;
use crate::{encode, mask, Card, TABLE_ENTRIES, TSC1_TABLE};

pub fn make(maker: &mut Maker) {
    pages(maker);
    absent_values(maker);
    unused_entries(maker);
    entries(maker);
    lengths(maker);
    broken(maker);
    two_changes(maker);
}

fn pages(maker: &mut Maker) {
    maker.section("write: 5 to 8 words, pages around the needed length, none, and long ones");
    for count in WORDS {
        for width in [31, 32] {
            let card = Card {
                odd_power: 3,
                even_power: 0,
                filter: 2,
                sum_term: 0,
                ..maker.card(count, width)
            };
            let needed = encode(&card).len();
            for page in [0, 1, needed - 1, needed, needed + 1, 512] {
                write(maker, &card, page);
            }
        }
    }
}

/// As for fewer words, but with the words field always.
fn absent_values(maker: &mut Maker) {
    maker
        .section("write: 5 to 8 words, every set of other values that differ from the absent ones");
    for (number, map) in (0..=255u8).filter(|map| map & 5 == 5).enumerate() {
        let width = match map & 2 {
            0 => 32,
            _ => 29 + maker.byte() % 3,
        };
        let card = maker.card(WORDS[number % 4], width);
        write_given(maker, card, map);
    }
}

/// For every number of words, those behind the table up to the last of 256, one of them not 0.
fn unused_entries(maker: &mut Maker) {
    maker.section("write: 2 to 8 words, entries behind the table, 0 or not");
    for count in 2..=8 {
        let mut card = maker.card(count, 32);
        if count == 4 {
            card.table = TSC1_TABLE.to_vec();
        }
        let size = card.table.len();
        card.table.resize(TABLE_ENTRIES, 0);
        write(maker, &card, 270);
        for place in [size, 16, 17, 254, 255] {
            if place >= size && place < TABLE_ENTRIES {
                let mut changed = card.clone();
                changed.table[place] = [1, 255][maker.below(2)];
                changed.table.truncate(place + 1);
                write(maker, &changed, 270);
            }
        }
    }
}

/// For eight words none is out of range, but the ring is broken.
fn entries(maker: &mut Maker) {
    maker.section("write: 5 to 8 words, entries of 2^m and 255");
    for count in WORDS {
        let card = maker.card(count, 32);
        let size = card.table.len();
        for place in [0, size / 2, size - 1] {
            for entry in [size.min(128), 255] {
                let mut changed = card.clone();
                changed.table[place] = entry as u8;
                write(maker, &changed, 270);
            }
        }
    }
}

/// Entries not handed over are 0, of which a ring has one, here the last; more than 256 are no case.
fn lengths(maker: &mut Maker) {
    maker.section("write: tables of 2^m - 1, 256 and 257 entries");
    for count in WORDS {
        let mut card = maker.card(count, 32);
        let last = card.table.len() - 1;
        let zero = card.table.iter().position(|&entry| entry == 0);
        card.table = relabelled(&card.table, zero.unwrap_or(last), last);
        card.table.truncate(last);
        write(maker, &card, 270);
        card.table.truncate(last - 1);
        write(maker, &card, 270);
    }
    for (count, length) in [(2, 257), (8, 256), (8, 257), (9, 256)] {
        let mut card = maker.card(8, 32);
        card.words = count;
        card.table.resize(length, 0);
        write(maker, &card, 270);
    }
}

/// The ring with two places exchanged, neither of which is 0.
fn relabelled(table: &[u8], one: usize, other: usize) -> Vec<u8> {
    let name = |place: usize| match place {
        _ if place == one => other,
        _ if place == other => one,
        _ => place,
    };
    let entry = |place: usize| name(table[name(place)].into()) as u8;
    (0..table.len()).map(entry).collect()
}

/// By 2, 6, 7, 8, 9, each with a page that is too small as well.
fn broken(maker: &mut Maker) {
    maker.section(
        "write: 5 to 8 words, numbers out of range, wide and even constants, broken rings, powers",
    );
    for count in WORDS {
        let card = maker.card(count, 7);
        let changes: [fn(&mut Card); 9] = [
            |card| card.width = 33,
            |card| card.filter = 3,
            |card| card.sum_term = 2,
            |card| card.constant |= 128,
            |card| card.table.swap(0, 1),
            |card| card.table = vec![],
            |card| card.constant &= mask(card.width) - 1,
            |card| card.odd_power &= 254,
            |card| card.even_power |= 1,
        ];
        for change in changes {
            let mut changed = card.clone();
            change(&mut changed);
            let page = [0, 270][maker.below(2)];
            write(maker, &changed, page);
        }
    }
}

/// Changes that the writer refuses, for values with 5 words and 17 bits.
const CHANGES: [fn(&mut Card); 15] = [
    |values| values.words = 0,
    |values| values.words = 1,
    |values| values.words = 4,
    |values| values.words = 6,
    |values| values.words = 9,
    |values| values.width = 1,
    |values| values.width = 33,
    |values| values.table[3] = 32,
    |values| values.table.resize(33, 1),
    |values| values.filter = 3,
    |values| values.sum_term = 2,
    |values| values.constant = 1 << 17,
    |values| values.table.swap(0, 1),
    |values| values.constant = 2,
    |values| values.odd_power = 0,
];

fn two_changes(maker: &mut Maker) {
    maker.section("write: 5 words, one or two changes, for the order");
    let card = maker.card(5, 17);
    write_changed(maker, &card, &CHANGES, [0, 42, 50]);
}
