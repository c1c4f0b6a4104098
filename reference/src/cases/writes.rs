//! The writer of cards of two to four words, with the refusals 2, 6, 7, 8, 9 and 16.

use super::{bytes, Maker, FULL, PROGRAM, TSC1, TSC2};
use crate::replay::commas;
use crate::{accept, encode, Card, TSC1_CONSTANT, TSC1_TABLE};

/// The most entries handed over here, those of four words. Larger tables are in the module `large`.
const ENTRIES: usize = 16;

/// Changes that the writer refuses, for values with 3 words and 17 bits. With 5 words the table is
/// no ring.
const CHANGES: [fn(&mut Card); 20] = [
    |values| values.words = 0,
    |values| values.words = 1,
    |values| values.words = 5,
    |values| values.words = 255,
    |values| values.width = 0,
    |values| values.width = 1,
    |values| values.width = 33,
    |values| values.width = 255,
    |values| values.table[2] = 8,
    |values| values.table[7] = 255,
    |values| values.table[8] = 1,
    |values| values.table[15] = 7,
    |values| values.filter = 0,
    |values| values.filter = 3,
    |values| values.sum_term = 2,
    |values| values.constant = 1 << 17,
    |values| values.table.swap(0, 1),
    |values| values.constant = 2,
    |values| values.odd_power = 0,
    |values| values.even_power = 255,
];

pub fn make(maker: &mut Maker) {
    pages(maker);
    absent_values(maker);
    ranges(maker);
    entries(maker);
    short_tables(maker);
    constants(maker);
    powers(maker);
    two_changes(maker);
    random_values(maker);
}

/// The case with the table as it stands; C in decimal or in hex.
pub(super) fn write(maker: &mut Maker, values: &Card, page: usize) {
    let constant = match maker.below(2) {
        0 => format!("{}", values.constant),
        _ => format!("0x{:x}", values.constant),
    };
    maker.line(format!(
        "write {} {} {} {} {} {constant} {} {} {page}",
        values.words,
        values.width,
        commas(&values.table),
        values.odd_power,
        values.even_power,
        values.filter,
        values.sum_term
    ));
}

/// The values of a card that the check accepts.
fn values(card: &str) -> Card {
    accept(&bytes(card)).expect("an accepted card")
}

fn pages(maker: &mut Maker) {
    maker.section("write: pages around the needed length, none, and long ones");
    let mut cards: Vec<Card> = [TSC1, TSC2, PROGRAM, FULL].map(values).to_vec();
    for number in 0..60 {
        cards.push(match number {
            0 => maker.card(4, 31),
            _ => maker.any_card(),
        });
    }
    for card in &cards {
        let needed = encode(card).len();
        for page in [0, needed - 1, needed, needed + 1] {
            write(maker, card, page);
        }
    }
    for card in &cards[..5] {
        for page in [1, 25, 26, 27, 64, 600] {
            write(maker, card, page);
        }
    }
}

/// For each set of values, those differ from the absent ones. The table is the absent one only for
/// m = 4.
fn absent_values(maker: &mut Maker) {
    maker.section("write: every set of values that differ from the absent ones");
    for map in 0..=255u8 {
        let given = |bit: u8| (map >> bit) & 1 == 1;
        let words = if given(0) { 2 + maker.byte() % 2 } else { 4 };
        let width = if given(1) { 29 + maker.byte() % 3 } else { 32 };
        let mut card = maker.card(words, width);
        if !given(2) && words == 4 {
            card.table = TSC1_TABLE.to_vec();
        }
        write_given(maker, card, map);
    }
}

/// From the odd power on, the values with a bit in the map differ from the absent ones. The page
/// has room.
pub fn write_given(maker: &mut Maker, mut card: Card, map: u8) {
    let given = |bit: u8| (map >> bit) & 1 == 1;
    card.odd_power = if given(3) { card.odd_power | 2 } else { 1 };
    card.even_power = if given(4) { card.even_power & 252 } else { 2 };
    if !given(5) {
        card.constant = TSC1_CONSTANT;
    }
    card.filter = 1 + u8::from(given(6));
    card.sum_term = u8::from(!given(7));
    let page = encode(&card).len() + maker.below(3);
    write(maker, &card, page);
}

fn ranges(maker: &mut Maker) {
    maker.section("write: each value at and past the ends of its range");
    for card in [TSC1, PROGRAM, FULL].map(values) {
        for value in [0, 1, 2, 3, 4, 5, 7, 8, 16, 31, 32, 33, 64, 255] {
            let (mut words, mut width) = (card.clone(), card.clone());
            let (mut filter, mut sum_term) = (card.clone(), card.clone());
            words.words = value;
            width.width = value;
            filter.filter = value;
            sum_term.sum_term = value;
            for changed in [words, width, filter, sum_term] {
                write(maker, &changed, 28);
            }
        }
    }
}

/// Each entry of the array in turn, used or not.
fn entries(maker: &mut Maker) {
    maker.section("write: table entries at and past the end of their range, and unused ones");
    for card in [TSC2, PROGRAM, FULL].map(values) {
        let size = card.table.len();
        for place in 0..ENTRIES {
            for entry in [1, size - 1, size, 255] {
                let mut changed = card.clone();
                changed.table.resize(ENTRIES, 0);
                changed.table[place] = entry as u8;
                write(maker, &changed, 26);
            }
        }
    }
}

/// The first entries of a ring, and those of a ring for a larger m.
fn short_tables(maker: &mut Maker) {
    maker.section("write: tables of each length");
    for card in [TSC1, TSC2, PROGRAM, FULL].map(values) {
        for count in 0..=ENTRIES {
            let mut changed = card.clone();
            changed.table.resize(count, 0);
            write(maker, &changed, 30);
        }
    }
    for words in 2..=4 {
        for table in [vec![], TSC1_TABLE.to_vec(), (0..16).collect(), vec![1; 16]] {
            let mut changed = values(TSC1);
            (changed.words, changed.table) = (words, table);
            write(maker, &changed, 30);
        }
    }
}

fn constants(maker: &mut Maker) {
    maker.section("write: constants around 2^n, and even ones");
    for width in 2..=32 {
        let mut card = maker.card(2 + width % 3, width);
        let limit: u64 = 1 << width;
        for constant in [
            0,
            1,
            limit - 2,
            limit - 1,
            limit,
            limit + 1,
            TSC1_CONSTANT.into(),
        ] {
            if let Ok(constant) = u32::try_from(constant) {
                card.constant = constant;
                write(maker, &card, 26);
            }
        }
    }
}

fn powers(maker: &mut Maker) {
    maker.section("write: powers at the edges");
    let edges = [0, 1, 2, 3, 253, 254, 255];
    for (a, b) in edges.into_iter().flat_map(|a| edges.map(|b| (a, b))) {
        let mut card = values([TSC1, PROGRAM][maker.below(2)]);
        (card.odd_power, card.even_power) = (a, b);
        write(maker, &card, 20);
    }
}

/// Each two of the changes, on a page that is too small or just large enough.
fn two_changes(maker: &mut Maker) {
    maker.section("write: one or two changes, for the order");
    let mut full = values(FULL);
    full.table.resize(ENTRIES, 0);
    write_changed(maker, &full, &CHANGES, [0, 18, 19]);
}

/// One or two of the changes made, on one of the pages.
pub fn write_changed(maker: &mut Maker, card: &Card, changes: &[fn(&mut Card)], pages: [usize; 3]) {
    for (number, first) in changes.iter().enumerate() {
        for second in &changes[number..] {
            let mut changed = card.clone();
            first(&mut changed);
            second(&mut changed);
            let page = pages[maker.below(3)];
            write(maker, &changed, page);
        }
    }
}

fn random_values(maker: &mut Maker) {
    maker.section("write: random values, one of them changed at random");
    for _ in 0..200 {
        let mut card = maker.any_card();
        let place = maker.below(card.table.len());
        match maker.below(8) {
            0 => card.words = 2 + maker.byte() % 3,
            1 => card.width = maker.byte() % 40,
            2 => card.table[place] = maker.byte() % 17,
            3 => card.odd_power = maker.byte(),
            4 => card.even_power = maker.byte(),
            5 => card.constant = maker.word() >> maker.below(31),
            6 => card.table.push(maker.byte() % 2),
            _ => {}
        }
        card.table.truncate(ENTRIES);
        let page = 10 + maker.below(20);
        write(maker, &card, page);
    }
}
