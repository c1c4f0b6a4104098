//! Bad places of tables (document 02, Eleven): every table of two words, tables of each kind of three
//! to eight words, and the refusals 1 to 6 and 26.

use super::cards::damage;
use super::tables::{card_with, Make, KINDS};
use super::{bytes, syntax, Maker, FULL, PROGRAM, REFUSED, TSC1, TSC2};
use crate::replay::hex;
use crate::{encode, is_ring, Card};

/// A legal line.
const SAMPLE: &str = "badbit 050200010203";

/// The numbers of words that have tables of each kind, and how many each has.
const WORDS: [u8; 6] = [3, 4, 5, 6, 7, 8];
const OF_KIND: usize = 5;

/// Lines at the edges: digits of either case, a card of no bytes; other names; answers.
const EDGES: &str = "\
badbit FF031105030006010702040506452301000200
badbit fF031105030006010702040506452301000200
badbit 040305090D01060B0F0400080E0a07020c
badbit 05020102030
badbit 0x00
badbit 00,00
badbit -
badbit --
badbit 00 -
badbit - 00
badbit 00 0,0,0,0
badbit 050200010203 0
Badbit 00
badbits 00
bad 00
bad_places 00
places 1 0
refused 26";

pub fn make(maker: &mut Maker) {
    two_words(maker);
    listed(maker);
    for (name, table) in KINDS {
        of_kind(maker, name, table);
    }
    regular(maker);
    other_checks(maker);
    refused(maker);
    damaged(maker);
    lines(maker);
}

/// The case with this card.
fn places(maker: &mut Maker, card: &[u8]) {
    maker.line(format!("badbit {}", hex(card)));
}

/// A card with this table, and else random values that the check accepts.
fn dressed(maker: &mut Maker, table: &[u8]) -> Card {
    let width = 2 + maker.below(31) as u8;
    let words = card_with(table).words;
    Card {
        table: table.to_vec(),
        ..maker.card(words, width)
    }
}

/// A table for so many words.
fn made(maker: &mut Maker, table: Make, words: u8) -> Vec<u8> {
    table(1 << words, &mut |end| maker.below(end))
}

/// One of any entries that is no ring.
fn broken(maker: &mut Maker, words: u8) -> Vec<u8> {
    let [(_, any), ..] = KINDS;
    loop {
        let table = made(maker, any, words);
        if !is_ring(&table) {
            return table;
        }
    }
}

fn two_words(maker: &mut Maker) {
    maker.section("bad places: every table for m = 2");
    for table in 0..=u8::MAX {
        let entries = [0, 2, 4, 6].map(|shift| (table >> shift) & 3);
        places(maker, &encode(&card_with(&entries)));
    }
}

fn listed(maker: &mut Maker) {
    maker.section("bad places: accepted cards, and one for each refusal from 1 to 9");
    for card in [TSC1, TSC2, PROGRAM, FULL].into_iter().chain(REFUSED) {
        places(maker, &bytes(card));
    }
}

/// Every other card has more fields than its table needs.
fn of_kind(maker: &mut Maker, name: &str, table: Make) {
    maker.section(&format!("bad places: {name}"));
    for number in 0..OF_KIND {
        for words in WORDS {
            let table = made(maker, table, words);
            let card = match number % 2 {
                0 => card_with(&table),
                _ => dressed(maker, &table),
            };
            places(maker, &encode(&card));
        }
    }
}

/// From each place: itself; the same, 0 or the last; the next one, two on, or half the size on; the
/// neighbour; the one as far from the end; the next one, and from the last to 1 or to itself.
fn regular(maker: &mut Maker) {
    maker.section("bad places: regular tables");
    for words in WORDS {
        let last = (1 << words) - 1;
        let rules: [&dyn Fn(usize) -> usize; 10] = [
            &|place| place,
            &|_| 0,
            &|_| last,
            &|place| (place + 1) & last,
            &|place| (place + 2) & last,
            &|place| (place + last.div_ceil(2)) & last,
            &|place| place ^ 1,
            &|place| last - place,
            &|place| if place == last { 1 } else { place + 1 },
            &|place| last.min(place + 1),
        ];
        for rule in rules {
            let table: Vec<u8> = (0..=last).map(|place| rule(place) as u8).collect();
            places(maker, &encode(&card_with(&table)));
        }
    }
}

/// A ring and a table that is none, with an even constant, an even odd power or an odd even power.
fn other_checks(maker: &mut Maker) {
    maker.section("bad places: what 8 and 9 would refuse, of rings and others");
    for words in 2..=8 {
        let ring = maker.card(words, 32).table;
        for table in [ring, broken(maker, words)] {
            for check in 0..3 {
                let mut card = dressed(maker, &table);
                match check {
                    0 => card.constant &= !1,
                    1 => card.odd_power &= !1,
                    _ => card.even_power |= 1,
                }
                places(maker, &encode(&card));
            }
        }
    }
}

/// Cards with this table and something wrong that is looked at before it: the table or the sum term is
/// short; an entry, the width or the sum term is out of range or idle; there is no table; a byte is left
/// over; the constant is wide. But for eight words every entry is in range, and for four, which are not
/// given, an absent table is TSC-1's.
fn wrong_cards(words: u8, table: &[u8]) -> Vec<Vec<u8>> {
    let front = |map: u8| match words {
        4 => vec![map & !1],
        _ => vec![map, words],
    };
    let card = |map: u8, width: &[u8], behind: &[u8]| {
        let front = front(map);
        [&front[..], width, table, behind].concat()
    };
    let mut short = card(0x05, &[], &[]);
    let mut out_of_range = short.clone();
    let inside = short.len() - table.len() / 2;
    out_of_range[inside] = table.len().min(255) as u8;
    short.pop();
    vec![
        short,
        card(0x85, &[], &[]),
        out_of_range,
        card(0x07, &[33], &[]),
        card(0x85, &[], &[2]),
        card(0x07, &[32], &[]),
        card(0x85, &[], &[1]),
        front(0x01),
        card(0x05, &[], &[0]),
        card(0x07, &[28], &[]),
    ]
}

fn refused(maker: &mut Maker) {
    maker.section("bad places: each refusal from 1 to 6, of tables that are no rings");
    for words in 2..=8 {
        let table = broken(maker, words);
        for card in wrong_cards(words, &table) {
            places(maker, &card);
        }
    }
}

fn damaged(maker: &mut Maker) {
    maker.section("bad places: cards of 2 to 5 words damaged at random");
    for number in 0..40 {
        let table = broken(maker, 2 + number % 4);
        let mut card = encode(&dressed(maker, &table));
        damage(maker, &mut card);
        places(maker, &card);
    }
}

/// The form of a line, as in the module `syntax`.
fn lines(maker: &mut Maker) {
    maker.section("form of a line: bad places");
    maker.line(EDGES);
    syntax::blanks_and_counts(maker, SAMPLE);
    syntax::forms(maker, SAMPLE);
    for count in [600, 601] {
        let card = "00".repeat(count);
        maker.line(format!("badbit {card}"));
        maker.line(format!("badbit {card}0"));
    }
}

#[cfg(test)]
mod tests {
    use super::super::tables::{first_fixed, first_repeat, first_swap};
    use super::*;
    use crate::read;
    use crate::replay::{answer, commas};
    use std::collections::HashSet;

    /// The legal cases of a section as their cards, with their answers.
    fn answered(section: impl Fn(&mut Maker)) -> Vec<(Vec<u8>, String)> {
        let mut maker = Maker::new();
        section(&mut maker);
        let lines = String::from_utf8_lossy(&maker.lines);
        let row = |line: &str| {
            let told = answer(line.as_bytes()).filter(|told| told != "syntax")?;
            Some((bytes(line.split(' ').nth(1)?), told))
        };
        lines.lines().filter_map(row).collect()
    }

    /// How many places are told.
    fn count(told: &str) -> Option<usize> {
        let (count, _) = told.strip_prefix("places ")?.split_once(' ')?;
        count.parse().ok()
    }

    fn pair((one, other): (usize, usize)) -> Vec<usize> {
        vec![one, other]
    }

    /// What is told of a table of this kind, by its place in KINDS, worked out apart from the call; none
    /// where it is no place alone and no pair.
    fn expected(kind: usize, table: &[u8]) -> Option<Vec<usize>> {
        match kind {
            1..=2 => Some(vec![first_fixed(table)?]),
            3 => Some(vec![table.len() - 1]),
            4 | 8 => first_repeat(table).map(pair),
            5 => Some(vec![table.len() - 2, table.len() - 1]),
            6 | 7 => first_swap(table).map(pair),
            _ => None,
        }
    }

    #[test]
    fn each_kind_is_told() {
        let mut sizes = HashSet::new();
        for (kind, (name, make)) in KINDS.into_iter().enumerate() {
            let rows = answered(|maker| of_kind(maker, name, make));
            assert_eq!(rows.len(), OF_KIND * WORDS.len());
            for (card, told) in rows {
                let table = read(&card).unwrap().table;
                if let Some(places) = expected(kind, &table) {
                    let count = places.len();
                    assert_eq!(told, format!("places {count} {}", commas(places)), "{name}");
                }
                match kind {
                    9 | 10 => assert!(count(&told) >= Some(3), "{told}"),
                    11 => assert_eq!(count(&told), Some(table.len() / 2)),
                    12 => assert_eq!(told, "refused 26"),
                    _ => {}
                }
                sizes.insert((kind, table.len()));
            }
        }
        assert_eq!(sizes.len(), KINDS.len() * WORDS.len());
    }

    /// Of a swap and a repeated entry with the same first place the second one decides, either way; of
    /// equal shortest cycles the one that is told has place 0 or not.
    #[test]
    fn close_ones() {
        let (mut swaps, mut repeats) = (0, 0);
        for (name, make) in &KINDS[7..=8] {
            for (card, _) in answered(|maker| of_kind(maker, name, *make)) {
                let table = read(&card).unwrap().table;
                let (swap, repeat) = (first_swap(&table).unwrap(), first_repeat(&table).unwrap());
                swaps += usize::from(swap.0 == repeat.0 && swap < repeat);
                repeats += usize::from(swap.0 == repeat.0 && repeat < swap);
            }
        }
        assert!(swaps >= 3 && repeats >= 3, "{swaps} {repeats}");
        let (name, make) = KINDS[10];
        let rows = answered(|maker| of_kind(maker, name, make));
        let with_0 = rows.iter().filter(|row| row.1.contains(" 0,")).count();
        assert!(with_0 >= 8 && rows.len() - with_0 >= 8, "{with_0}");
    }

    /// Each number of words has every refusal; four words are never tableless. 7 to 9 are not told.
    #[test]
    fn refusals_of_each_size() {
        let mut found = HashSet::new();
        for (card, told) in answered(make) {
            let words = match card[..] {
                [map, words, ..] if map & 1 == 1 => words,
                _ => 4,
            };
            if let Some(refusal) = told.strip_prefix("refused ") {
                found.insert((words, refusal.parse::<u8>().unwrap()));
            }
        }
        for words in 2..=8 {
            for refusal in (1..=6).chain([26]) {
                let is_told = found.contains(&(words, refusal));
                assert!(is_told || (words, refusal) == (4, 4), "{words} {refusal}");
            }
        }
        assert!(found.iter().all(|row| !(7..=9).contains(&row.1)));
    }

    /// Every count up to 8 and every half, and not too much of them all.
    #[test]
    fn counts_and_bytes() {
        let mut maker = Maker::new();
        make(&mut maker);
        let lines = maker.lines.iter().filter(|&&byte| byte == b'\n').count();
        assert!(lines <= 1_000 && maker.lines.len() <= 150_000);
        let rows = answered(make);
        let counts: HashSet<usize> = rows.iter().filter_map(|row| count(&row.1)).collect();
        let mut all = (1..=8).chain([16, 32, 64, 128]);
        assert!(all.all(|count| counts.contains(&count)));
    }
}
