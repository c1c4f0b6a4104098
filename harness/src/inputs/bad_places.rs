//! Random inputs for bad places: cards with tables of each kind, whose other values the check may turn down; some of them damaged.

use super::{card_bytes, encode, sound_form, word_count, Card, Input};
use crate::random::Random;
use reference::cases::tables::KINDS;

impl Input {
    /// For bad places: one card in four as for the pick; of the others one in four damaged, and some with a constant that is too wide.
    pub fn of_bad_places(random: &mut Random) -> Input {
        let any = Input::random(random);
        let values = values(random);
        let card = match random.below(16) {
            0..=3 => any.card,
            4..=6 => card_bytes(&values, random),
            7 => encode(&too_wide(values, random)),
            _ => encode(&values),
        };
        Input { card, ..any }
    }
}

/// Values of sound form with a table of any kind.
fn values(random: &mut Random) -> Card {
    let words = [2, word_count(random), word_count(random)][random.below(3)];
    let width = [32, random.within(2, 32) as u8][random.below(2)];
    Card {
        table: table(words, random),
        ..sound_form(words, width, random)
    }
}

/// With a constant of 2^n or more.
fn too_wide(values: Card, random: &mut Random) -> Card {
    let width = random.within(2, 31) as u8;
    Card {
        width,
        constant: values.constant | 1 << random.within(width.into(), 31),
        ..values
    }
}

/// Two words have any entries: there are not all of the kinds.
fn table(words: u8, random: &mut Random) -> Vec<u8> {
    let [(_, any), ..] = KINDS;
    let make = match words {
        2 => any,
        _ => KINDS[random.below(KINDS.len())].1,
    };
    make(1 << words, &mut |end| random.below(end))
}
