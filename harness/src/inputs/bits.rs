//! Random inputs for the counts of bits: strips of few words and of as many as are taken, of words of many kinds, and pages around the
//! needed length.

use super::{accepted_values, word_count, Card, Input};
use crate::random::Random;
use reference::{encode, mask};
use tiedraw::MOST_STRIP_WORDS;

/// once in so many inputs the strip is long
const LONG: usize = 250;
/// no call needs a longer page
const MOST_PAGE: usize = 32 * MOST_STRIP_WORDS;

impl Input {
    /// For the counts: one card in three as for the other calls; the others, and those of long strips, are accepted.
    pub fn of_bits(random: &mut Random) -> Input {
        let mut input = Input::random(random);
        let long = random.once_in(LONG);
        if long || !random.once_in(3) {
            input.card = encode(&counted_values(random));
        }
        let width = reference::read(&input.card).map_or(32, |card| card.width);
        let length = match long {
            true => long_length(random),
            false => length(random),
        };
        input.strip = strip(width, length, random);
        input.page = page(usize::from(width) * length, random);
        input
    }
}

/// Values that the check accepts, of 32 bits, any width or a narrow one.
fn counted_values(random: &mut Random) -> Card {
    let width = [32, random.within(2, 32), random.within(2, 6)][random.below(3)];
    accepted_values(word_count(random), width as u8, random)
}

fn length(random: &mut Random) -> usize {
    match random.below(20) {
        0 => 0,
        1 => random.below(600),
        _ => random.within(1, 40),
    }
}

/// As many words as are taken, one more, about as many, or so many that a count cut to 16 bits would pass.
fn long_length(random: &mut Random) -> usize {
    match random.below(5) {
        0 | 1 => MOST_STRIP_WORDS,
        2 => MOST_STRIP_WORDS + 1,
        3 => MOST_STRIP_WORDS - 5 + random.below(10),
        _ => 65536 + random.below(MOST_STRIP_WORDS + 1),
    }
}

/// Zeros, ones, bits by turns, few ones, few zeros, one after the other, or any; some with a word that is too wide.
fn strip(width: u8, length: usize, random: &mut Random) -> Vec<u32> {
    let kind = random.below(10);
    let place = random.below(length + 1);
    let first = usize::from(width) - 1; // the top bit's place, at which bits by turns begin with a one
    let word = |at: usize, random: &mut Random| match kind {
        0 => 0,
        1 => u32::MAX,
        2 => [0x5555_5555, 0xaaaa_aaaa][(first + at * usize::from(width)) % 2],
        3 => (random.word() & random.word() & random.word()) as u32,
        4 => (random.word() | random.word() | random.word()) as u32,
        5 => [0, u32::MAX][usize::from(at < place)],
        6 => [0, u32::MAX][usize::from(at >= place)],
        _ => random.word() as u32,
    };
    let mut strip: Vec<u32> = (0..length)
        .map(|at| word(at, random) & mask(width))
        .collect();
    if length > 0 && random.once_in(8) {
        let next = mask(width).wrapping_add(1);
        strip[random.below(length)] = [next, next, random.word() as u32][random.below(3)];
    }
    strip
}

/// A page with just room, with more, with a byte less, with little or none, or of a length that is the needed one cut to 8 or 16 bits;
/// with random bytes on it.
fn page(needed: usize, random: &mut Random) -> Vec<u8> {
    let needed = needed.min(MOST_PAGE);
    let length = match random.below(24) {
        0 => 0,
        1 => random.below(needed + 1),
        2..=4 => needed.saturating_sub(1),
        5 => needed % 256,
        6 => needed % 65536,
        7 => needed + 256,
        8..=14 => needed + random.below(8),
        _ => needed,
    };
    (0..length).map(|_| random.byte()).collect()
}
