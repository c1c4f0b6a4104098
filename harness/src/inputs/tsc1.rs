//! P1, which the library steps by gate formulas (document 02, Nine), and cards that are nearly P1, which go by their tables.

use super::{idle_card, Card};
use crate::random::Random;
use reference::{check, encode, TSC1_CONSTANT, TSC1_TABLE};

/// A card's bytes in three of fourteen inputs: twice P1, once nearly.
pub(super) fn card(random: &mut Random) -> Option<Vec<u8>> {
    match random.below(14) {
        0 | 1 => Some(encode(&tsc1())),
        2 => Some(nearly_p1(random)),
        _ => None,
    }
}

/// The values of an accepted card as often: twice those of P1, once nearly.
pub(super) fn values(random: &mut Random) -> Option<Card> {
    match random.below(14) {
        0 | 1 => Some(tsc1()),
        2 => Some(changed(random)),
        _ => None,
    }
}

fn tsc1() -> Card {
    Card {
        words: 4,
        width: 32,
        table: TSC1_TABLE.to_vec(),
        odd_power: 1,
        even_power: 2,
        constant: TSC1_CONSTANT,
        filter: 1,
        sum_term: 1,
    }
}

/// Another byte, none, a second one, a value of P1 written out, two entries exchanged, which is no ring, or another value.
fn nearly_p1(random: &mut Random) -> Vec<u8> {
    match random.below(10) {
        0 => vec![random.within(1, 255) as u8],
        1 => vec![],
        2 => vec![0, [0, random.byte()][random.below(2)]],
        3 => idle_card(&tsc1(), random),
        4 => {
            let mut card = tsc1();
            let [one, other, _] = three_places(random);
            card.table.swap(one, other);
            encode(&card)
        }
        _ => encode(&changed(random)),
    }
}

/// TSC-1 with one value changed that the check still accepts: the constant has 29 bits and is odd.
fn changed(random: &mut Random) -> Card {
    let mut card = tsc1();
    match random.below(7) {
        0 => card.width = random.within(29, 31) as u8,
        1 => move_three_entries(&mut card, random),
        2 => card.odd_power = 1 + 2 * random.within(1, 127) as u8,
        3 => card.even_power = [0, 2 * random.within(2, 127) as u8][random.below(2)],
        4 => card.constant ^= 2 << random.below(31),
        5 => card.filter = 2,
        _ => card.sum_term = 0,
    }
    card
}

/// Three different places of a table of 16.
fn three_places(random: &mut Random) -> [usize; 3] {
    let mut places: [usize; 16] = std::array::from_fn(|place| place);
    random.shuffle(&mut places);
    let [one, other, third, ..] = places;
    [one, other, third]
}

/// Moves three entries round, the one way or the other: one of them leaves a ring, as moving two never does.
fn move_three_entries(card: &mut Card, random: &mut Random) {
    let [one, other, third] = three_places(random);
    for _ in 0..2 {
        card.table.swap(one, other);
        card.table.swap(other, third);
        if check(&encode(card)) == 0 {
            return;
        }
    }
    unreachable!("one way round is a ring");
}
