//! Picks: ties of every size, and the refusals 1 to 15 and 18.

use super::{bytes, Maker, FULL, PROGRAM, REFUSED, TSC1, TSC2};
use crate::accept;
use crate::pick::call_pick;
use crate::replay::{commas, words};

/// P1, P2, the program's card, P6, P11 and P12 of document 01; 3 words of 2 and of 17 bits; 2
/// words of 32 bits.
const CARDS: [&str; 9] = [
    TSC1,
    TSC2,
    PROGRAM,
    "021d",
    "0803",
    "1000",
    "270302050300060107020403000000",
    FULL,
    "45020203010002",
];

/// Lists of shovels and times for the refusals, most of them short.
pub(super) const SHORT: [(&str, &str); 14] = [
    ("7,4", "300,300"),
    ("5,5", "1,1"),
    ("7", "-"),
    ("-", "300"),
    ("-", "-"),
    ("7,7", "300"),
    ("4,7", "300,299"),
    ("9,2", "0,4294967295"),
    ("65535,0", "4294967295,4294967295"),
    ("5,6,5", "3,1,3"),
    ("65535,65535", "0,1"),
    ("0,0", "4294967295,0"),
    ("1,2,3", "1,1,1,1"),
    ("3", "4294967295"),
];

/// Longer lists, all shovels 100 + place and all times 60 but at one place: the count of shovels
/// and of times, the place, its shovel and its time.
const LONG: [(usize, usize, usize, u16, u32); 16] = [
    (64, 64, 63, 163, 60),
    (64, 64, 63, 163, 0),
    (64, 64, 0, 100, u32::MAX),
    (64, 64, 63, 100, 60),
    (64, 64, 63, 162, 60),
    (64, 64, 0, 163, 0),
    (65, 65, 64, 164, 60),
    (65, 65, 64, 100, 60),
    (65, 64, 0, 100, 60),
    (64, 65, 0, 100, 60),
    (66, 66, 65, 165, 0),
    (66, 66, 65, 100, 60),
    (66, 65, 0, 100, 60),
    (65, 66, 0, 100, 60),
    (65, 0, 0, 100, 60),
    (0, 65, 0, 100, 60),
];

/// Cards and states for all the lists: accepted, too large a word, wrong counts of words.
pub(super) const CALLS: [(&str, &str); 7] = [
    (PROGRAM, "0,0"),
    (PROGRAM, "2,3"),
    (PROGRAM, "0,4"),
    (PROGRAM, "4,0,0"),
    (PROGRAM, "-"),
    ("021d", "0,0,0,20000000"),
    (TSC1, "ffffffff,12488421,edb77bde,edb77bde"),
];

pub fn make(maker: &mut Maker) {
    ties(maker);
    refused_cards(maker);
    refused_lists(maker);
}

/// For each length from 1 to 64, lists with each number of equals, and one more with all equal at
/// the largest time. Each card has a state that goes on from pick to pick.
fn ties(maker: &mut Maker) {
    maker.section("picks: lists of 1 to 64 with ties of every size, in two orders from one state");
    let mut states = CARDS.map(|card| {
        let words = accept(&bytes(card)).expect("an accepted card").words;
        vec![0; usize::from(words)]
    });
    let mut number = 0;
    for length in 1..=64 {
        for ties in 1..=length + 1 {
            let card = CARDS[number % CARDS.len()];
            let list = random_list(maker, length, ties);
            two_orders(maker, card, &mut states[number % CARDS.len()], list);
            number += 1;
        }
    }
}

/// Shovels with their times in random order, `ties` of them with the least time; all of them with
/// the largest time there is if `ties` is more than the length.
pub fn random_list(maker: &mut Maker, length: usize, ties: usize) -> Vec<(u16, u32)> {
    let (base, stride) = random_shovels(maker);
    let (mut least, spread) = random_times(maker);
    if ties > length {
        least = u32::MAX;
    }
    let mut list = Vec::new();
    for place in 0..length {
        let shovel = base.wrapping_add(stride.wrapping_mul(place as u16));
        let time = match place < ties {
            true => least,
            false => least + 1 + maker.word() % spread,
        };
        list.push((shovel, time));
    }
    for place in (1..length).rev() {
        let other = maker.below(place + 1);
        list.swap(place, other);
    }
    list
}

/// The lowest place's shovel and the difference from place to place, most of them small to keep
/// the lines short: 65535 and up from 0; a hundred or so and up; any 16 bits.
pub(super) fn random_shovels(maker: &mut Maker) -> (u16, u16) {
    match maker.below(8) {
        0..=3 => (65535, 1),
        4..=6 => (maker.below(300) as u16, 1 + maker.below(9) as u16),
        _ => (maker.word() as u16, maker.word() as u16 | 1),
    }
}

/// The least time and how far the others lie above it, most of them small.
fn random_times(maker: &mut Maker) -> (u32, u32) {
    match maker.below(40) {
        0 => (0, u32::MAX),
        1 => (u32::MAX - 1, 1),
        2 => (maker.word() >> 1, 1 << 31),
        3..=5 => (maker.word() % 1000, 3),
        6..=16 => (0, 9),
        _ => (maker.word() % 6, 4),
    }
}

/// The pick, then the same list in another order from the same state: reversed, or from the middle.
/// The state goes on, but where there are too many equals.
pub fn two_orders(maker: &mut Maker, card: &str, state: &mut [u32], list: Vec<(u16, u32)>) {
    let (mut shovels, mut times): (Vec<u16>, Vec<u32>) = list.into_iter().unzip();
    let start = words(state);
    let answer = call_pick(&bytes(card), state, &shovels, &times);
    assert!(answer.is_ok() || answer == Err(18), "good but for 18");
    pick(maker, card, &start, &shovels, &times);
    if maker.below(2) == 0 {
        shovels.reverse();
        times.reverse();
    } else {
        let half = shovels.len() / 2;
        shovels.rotate_left(half);
        times.rotate_left(half);
    }
    pick(maker, card, &start, &shovels, &times);
}

pub fn pick(maker: &mut Maker, card: &str, state: &str, shovels: &[u16], times: &[u32]) {
    let (shovels, times) = (commas(shovels), commas(times));
    maker.line(format!("pick {card} {state} {shovels} {times}"));
}

/// The first of the lists are good, then twice the same shovel, uneven, none.
fn refused_cards(maker: &mut Maker) {
    maker.section("picks: each refusal of a card, with states and lists good and bad");
    for card in REFUSED {
        for state in ["1,2,3,4", "4,4"] {
            for (shovels, times) in &SHORT[..5] {
                maker.line(format!("pick {card} {state} {shovels} {times}"));
            }
        }
    }
}

fn refused_lists(maker: &mut Maker) {
    maker.section("picks: each refusal of a state and of lists, and lists that are just good");
    for (card, state) in CALLS {
        for (shovels, times) in SHORT {
            maker.line(format!("pick {card} {state} {shovels} {times}"));
        }
        for (shovel_count, time_count, place, shovel, time) in LONG {
            let mut shovels: Vec<u16> = (100..166).collect();
            let mut times = [60; 66];
            shovels[place] = shovel;
            times[place] = time;
            let (shovels, times) = (&shovels[..shovel_count], &times[..time_count]);
            pick(maker, card, state, shovels, times);
        }
    }
}

#[cfg(test)]
mod tests {
    use super::*;
    use crate::replay::answers;

    /// Every length with every number of equals, and the same answer in both orders: 18 where the
    /// card's words can't rank so many.
    #[test]
    fn every_length_and_tie() {
        let mut maker = Maker::new();
        ties(&mut maker);
        let answers = answers(&maker.lines);
        let answers: Vec<&str> = answers.lines().collect();
        let counts = (1..=64usize).flat_map(|length| (1..=length).chain([length]));
        let cards = CARDS.iter().cycle();
        for ((pair, k), card) in answers.chunks(2).zip(counts).zip(cards) {
            let width = accept(&bytes(card)).unwrap().width;
            let too_many = k as u64 > 1 << width;
            assert_eq!(pair[0] == "refused 18", too_many);
            assert_eq!(pair[0].contains(&format!(" ties {k} ")), !too_many);
            assert_eq!(pair[0], pair[1]);
        }
        assert_eq!(answers.len(), 2 * (64 * 65 / 2 + 64));
    }
}
