//! Cards of two to four words: the check and the reader, with the refusals 1 to 9 and 1 to 6.

use super::{bytes, Maker, FULL, PROGRAM, TSC1, TSC2};
use crate::encode;
use crate::replay::hex;

/// Cards on which the order of the checks shows: a field's checks before the next field, the
/// tableless card at the table's place, idle before long and wide.
const ORDER: &str = "c003 050309 0103ff 0903 0303 030320 030321 2208218448 220821844812 0208 \
    28040a000000 2801 280100 28020a000000 1802 180204 1803 180303 3803030a000000 30002184 c001 \
    c00200 c002 05020001020304 0502000102030401 0502000102 050200010204 250200010203 \
    2502000102030a000000 2702020001020304000000 2702020001020302000000 0f0202000102030402 0c050900";

/// Changes of the full card: the place and the bytes written there.
const CHANGES: [(usize, &[u8]); 24] = [
    (0, &[0x7f]),                    // no bit for the sum term: long
    (0, &[0xfb]),                    // no bit for the table: tableless
    (1, &[5]),                       // words: the table is short
    (1, &[4]),                       // words: idle
    (2, &[1]),                       // width: range
    (2, &[33]),                      // width: range
    (2, &[32]),                      // width: idle
    (2, &[16]),                      // width: the constant is wide
    (5, &[8]),                       // table: range
    (10, &[255]),                    // table: range
    (5, &[5]),                       // table: an entry twice
    (3, &[3, 5]),                    // table: two rings
    (11, &[1]),                      // odd power: idle
    (11, &[4]),                      // odd power: even
    (12, &[2]),                      // even power: idle
    (12, &[7]),                      // even power: odd
    (13, &[0x21, 0x84, 0x48, 0x12]), // constant: idle, and wide
    (13, &[0x45, 0x23, 0x02, 0x00]), // constant: wide
    (13, &[0x44]),                   // constant: even
    (17, &[1]),                      // filter: idle
    (17, &[3]),                      // filter: range
    (18, &[1]),                      // sum term: idle
    (18, &[2]),                      // sum term: range
    (19, &[0]),                      // a byte behind
];

/// Cards with each field given its absent value, alone and among others.
const IDLE: &str = "0104 0220 040305090d01060b0f0400080e0a07020c 0801 1002 2021844812 4001 8001 \
    030420 070220010203 0904 090401 0a2003 0a1d01 180302 180102 3000218448120102 60218448120100 \
    60210000000102 600100000001 c00201 c00100 c00101 ff041c00";

pub fn make(maker: &mut Maker) {
    accepted(maker);
    every_map(maker);
    one_field(maker);
    widths(maker);
    small_tables(maker);
    broken_rings(maker);
    powers(maker);
    cuts(maker);
    listed(maker, "cards: idle fields", IDLE);
    listed(maker, "cards: several refusals, for the order", ORDER);
    two_changes(maker);
    damaged(maker);
    random_bytes(maker);
    long(maker);
}

fn listed(maker: &mut Maker, content: &str, cards: &str) {
    maker.section(content);
    for card in cards.split(' ') {
        both(maker, &bytes(card));
    }
}

/// A check and a read of the same card.
pub(super) fn both(maker: &mut Maker, card: &[u8]) {
    check(maker, card);
    maker.line(format!("read {}", hex(card)));
}

pub(super) fn check(maker: &mut Maker, card: &[u8]) {
    maker.line(format!("check {}", hex(card)));
}

fn accepted(maker: &mut Maker) {
    maker.section("cards: accepted ones of every size");
    for (words, width) in (2..=4).flat_map(|m| (2..=32).map(move |n| (m, n))) {
        let card = maker.card(words, width);
        both(maker, &encode(&card));
    }
}

/// The map and its fields, none of them idle; refused only where the table is missing. Words, if
/// given, are 2 or 3.
fn fields(maker: &mut Maker, map: u8) -> Vec<u8> {
    let words = match map & 1 {
        1 => 2 + maker.byte() % 2,
        _ => 4,
    };
    fields_for(maker, map, words)
}

/// The same for this number of words.
pub(super) fn fields_for(maker: &mut Maker, map: u8, words: u8) -> Vec<u8> {
    let bit = |number: u8| (map >> number) & 1 == 1;
    let width = 29 + maker.byte() % 3;
    let values = maker.card(words, width);
    let constant = (values.constant & 0x1fff_ffff).to_le_bytes();
    let given: [&[u8]; 8] = [
        &[words],
        &[width],
        &values.table,
        &[values.odd_power | 2],
        &[values.even_power & 252],
        &constant,
        &[2],
        &[0],
    ];
    let mut card = vec![map];
    for (number, field) in given.into_iter().enumerate() {
        if bit(number as u8) {
            card.extend(field);
        }
    }
    card
}

fn every_map(maker: &mut Maker) {
    maker.section("cards: every map with its fields, then a byte less and a byte more");
    for map in 0..=255 {
        let mut card = fields(maker, map);
        both(maker, &card);
        check(maker, &card[..card.len() - 1]);
        card.push(0);
        check(maker, &card);
    }
}

fn one_field(maker: &mut Maker) {
    maker.section("cards: every value of a field of one byte, alone");
    for map in [0x01, 0x02, 0x40, 0x80] {
        for value in 0..=255 {
            check(maker, &[map, value]);
        }
        for value in [0, 1, 2, 3, 4, 5, 31, 32, 33, 255] {
            maker.line(format!("read {}", hex(&[map, value])));
        }
    }
}

fn widths(maker: &mut Maker) {
    maker.section("cards: constants around 2^n, and even ones");
    for width in 2..32 {
        let limit: u32 = 1 << width;
        for constant in [0, limit - 2, limit - 1, limit, limit | 1, u32::MAX] {
            let mut card = vec![0x22, width];
            card.extend(constant.to_le_bytes());
            both(maker, &card);
        }
    }
    for constant in [0, 1, 2, u32::MAX - 1, u32::MAX, 0x1248_8420, 0x1248_8421] {
        let mut card = vec![0x20];
        card.extend(constant.to_le_bytes());
        both(maker, &card);
    }
}

fn small_tables(maker: &mut Maker) {
    maker.section("cards: every table for m = 2");
    for table in 0..=255u8 {
        let entries = [0, 2, 4, 6].map(|shift| (table >> shift) & 3);
        check(maker, &[&[0x05, 2], &entries[..]].concat());
    }
}

fn broken_rings(maker: &mut Maker) {
    maker.section("cards: broken rings for m = 3 and 4");
    for words in [3, 4].repeat(20) {
        for table in broken_tables(maker, words) {
            let map: &[u8] = if words == 4 { &[0x04] } else { &[0x05, 3] };
            check(maker, &[map, &table].concat());
        }
    }
}

/// Tables made of a ring: the same entry everywhere, all entries in place, two rings, a ring that
/// leaves 0 out, one entry changed, any entries.
pub(super) fn broken_tables(maker: &mut Maker, words: u8) -> Vec<Vec<u8>> {
    let ring = maker.card(words, 32).table;
    let size = ring.len();
    let mut tables = vec![ring.clone(); 6];
    tables[0] = vec![maker.below(size) as u8; size];
    tables[1] = (0..size).map(|place| place as u8).collect();
    let (one, other) = (maker.below(size), maker.below(size));
    tables[2].swap(one, other);
    let last = ring.iter().position(|&entry| entry == 0).unwrap_or(0);
    tables[3][last] = ring[0];
    tables[4][one] = other as u8;
    tables[5] = (0..size).map(|_| maker.below(size) as u8).collect();
    tables
}

fn powers(maker: &mut Maker) {
    maker.section("cards: every odd power, every even power, and pairs of them");
    for power in 0..=255 {
        check(maker, &[0x08, power]);
        check(maker, &[0x10, power]);
    }
    let edges = [0, 1, 2, 3, 4, 253, 254, 255];
    for (a, b) in edges.into_iter().flat_map(|a| edges.map(|b| (a, b))) {
        both(maker, &[0x18, a, b]);
    }
}

fn cuts(maker: &mut Maker) {
    maker.section("cards: cut short at every length, and with bytes behind");
    let longest = fields(maker, 0xfe);
    for card in [TSC1, TSC2, PROGRAM, FULL]
        .map(bytes)
        .into_iter()
        .chain([longest])
    {
        for length in 0..=card.len() {
            both(maker, &card[..length]);
        }
        for more in [1, 2, 7, 38, 45] {
            let behind: Vec<u8> = (0..more).map(|_| maker.byte()).collect();
            both(maker, &[&card[..], &behind].concat());
        }
    }
}

/// The full card with each two of the changes.
fn two_changes(maker: &mut Maker) {
    maker.section("cards: one with every field, with one or two changes, for the order");
    for (number, first) in CHANGES.iter().enumerate() {
        for second in &CHANGES[number..] {
            let mut card = bytes(FULL);
            for (place, change) in [first, second] {
                put(&mut card, *place, change);
            }
            both(maker, &card);
        }
    }
}

/// Writes a change over the card, which grows where it ends before it.
pub(super) fn put(card: &mut Vec<u8>, place: usize, change: &[u8]) {
    card.resize(card.len().max(place + change.len()), 0);
    card[place..place + change.len()].copy_from_slice(change);
}

fn damaged(maker: &mut Maker) {
    maker.section("cards: damaged at random");
    for number in 0..800 {
        let mut card = match number % 2 {
            0 => encode(&maker.any_card()),
            _ => {
                let map = maker.byte();
                fields(maker, map)
            }
        };
        for _ in 0..1 + maker.below(2) {
            damage(maker, &mut card);
        }
        both(maker, &card);
    }
}

/// A byte changed, a bit flipped, a map bit flipped, a byte put in or left out, two swapped.
pub(super) fn damage(maker: &mut Maker, card: &mut Vec<u8>) {
    let place = maker.below(card.len());
    match maker.below(9) {
        0 => card[place] = maker.byte(),
        1 => card[place] = maker.byte() % 5,
        2 | 3 => card[place] ^= 1 << maker.below(8),
        4 | 5 => card[0] ^= 1 << maker.below(8),
        6 => card.insert(place, maker.byte() % 5),
        7 if card.len() > 1 => {
            card.remove(place);
        }
        _ => {
            let other = maker.below(card.len());
            card.swap(place, other);
        }
    }
}

fn random_bytes(maker: &mut Maker) {
    maker.section("cards: random bytes, large and small");
    for number in 0..200 {
        let end = [256, 5][number % 2];
        let length = 1 + maker.below(30);
        let mut card: Vec<u8> = (0..length).map(|_| maker.below(end) as u8).collect();
        card[0] = maker.byte();
        both(maker, &card);
    }
}

/// Long cards: sound but for the bytes behind them, and others.
fn long(maker: &mut Maker) {
    maker.section("cards: long ones, up to 600 bytes");
    let fronts = [TSC1, TSC2, FULL, "0101", "0301", "ff"];
    let lengths = [27, 63, 64, 65, 128, 255, 256, 257, 512, 600];
    for (front, length) in fronts.into_iter().cycle().zip(lengths) {
        let mut card = bytes(front);
        card.resize(length, 2);
        both(maker, &card);
    }
    let random: Vec<u8> = (0..600).map(|_| maker.byte()).collect();
    both(maker, &random);
}
