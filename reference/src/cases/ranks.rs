//! Fair ranks (document 02, Two): every number of equals on narrow cards, words passed over up to
//! sixteen times, words around L, and 18 behind the other refusals.

use super::picks::{pick, random_list, two_orders};
use super::Maker;
use crate::pick::limit;
use crate::replay::{hex, words};
use crate::{encode, mask, step, step_back, word, Card};

/// Cards with words of 2 bits that are refused by 7, 8 and 9.
const REFUSED: [&str; 3] = [
    "2702020001020301000000",
    "2702020102030002000000",
    "2f0202010203000201000000",
];

pub fn make(maker: &mut Maker) {
    every_number(maker);
    every_run(maker);
    around_the_limit(maker);
    too_many(maker);
}

/// A card as the cases have it.
pub(super) fn text(card: &Card) -> String {
    hex(&encode(card))
}

/// 1 to 2^n + 1 equals, 64 at most, and up to 4 shovels more. The states go on from pick to pick.
/// From 4 bits on the cards take turns, to keep the cases few.
fn every_number(maker: &mut Maker) {
    maker.section("picks: every number of equals that narrow words can rank, and one more");
    for width in 2..=8 {
        let mut cards = cards(maker, width);
        for k in 1..=64.min((1 << width) + 1) {
            let turns = if width < 4 { cards.len() } else { 1 };
            cards.rotate_left(1);
            for (card, state) in &mut cards[..turns] {
                let length = 64.min(k + maker.below(5));
                let list = random_list(maker, length, k);
                two_orders(maker, card, state, list);
            }
        }
    }
}

/// Cards of this width with 2 to 4 words and either filter, each with a random state.
fn cards(maker: &mut Maker, width: u8) -> Vec<(String, Vec<u32>)> {
    let mut cards = Vec::new();
    for (words, filter) in [(2, 1), (3, 2), (4, 1), (2, 2), (3, 1), (4, 2)] {
        let mut card = maker.card(words, width);
        card.filter = filter;
        cards.push((text(&card), maker.state(words, width)));
    }
    cards
}

/// Where all sixteen words are passed over, the last serves.
fn every_run(maker: &mut Maker) {
    maker.section("picks: 1 to 16 words passed over");
    for passed in (1..=16).chain([16, 16]) {
        for (filter, sum_term) in [(1, 0), (1, 1), (2, 0), (2, 1)] {
            let (card, mut state, k) = find(maker, filter, sum_term, passed);
            let list = random_list(maker, k + 1, k);
            two_orders(maker, &text(&card), &mut state, list);
        }
    }
}

/// A card with this filter and sum term, a state from which so many words are passed over, and the
/// number of equals, one more than half of 2^n: L is the same, and almost half of the words are
/// passed over. The powers are small, so that the search is quick.
pub(super) fn find(
    maker: &mut Maker,
    filter: u8,
    sum_term: u8,
    passed: usize,
) -> (Card, Vec<u32>, usize) {
    loop {
        let (words, width) = (2 + maker.below(3) as u8, 2 + maker.below(5) as u8);
        let mut card = maker.card(words, width);
        card.odd_power &= 7;
        card.even_power &= 7;
        (card.filter, card.sum_term) = (filter, sum_term);
        let k = (1 << (width - 1)) + 1;
        for _ in 0..50 {
            let state = maker.state(words, width);
            if passed_over(&card, &state, k) == passed {
                return (card, state, k);
            }
        }
    }
}

/// How many words are passed over for k equals, 16 at most.
pub(super) fn passed_over(card: &Card, start: &[u32], k: usize) -> usize {
    let limit = limit(card.width, k);
    let mut state = start.to_vec();
    for passed in 0..16 {
        state = step(card, &state);
        if u64::from(word(card, &state)) < limit {
            return passed;
        }
    }
    16
}

/// For a power of two as the number of equals, where L is 2^n, and for any number.
fn around_the_limit(maker: &mut Maker) {
    maker.section("picks: the first word is L - 1, L or 2^n - 1, for every width");
    for width in 2..=32 {
        let card = maker.card(4, width);
        let power = 2 << maker.below(width.min(6).into());
        let any = 2 + maker.below(mask(width).min(63) as usize);
        for k in [power, any] {
            let (limit, largest) = (limit(width, k), u64::from(mask(width)));
            let mut firsts = vec![limit - 1, limit.min(largest), largest];
            firsts.dedup();
            for first in firsts {
                let state = before(maker, &card, first as u32);
                let list = random_list(maker, k, k).into_iter();
                let (shovels, times): (Vec<u16>, Vec<u32>) = list.unzip();
                pick(maker, &text(&card), &words(&state), &shovels, &times);
            }
        }
    }
}

/// A random state after which this word comes, for a card of four words or more: either filter
/// adds x3.
pub(super) fn before(maker: &mut Maker, card: &Card, wanted: u32) -> Vec<u32> {
    let mut after = maker.state(card.words, card.width);
    after[3] = 0;
    after[3] = wanted.wrapping_sub(word(card, &after)) & mask(card.width);
    step_back(card, &after)
}

/// A list of shovels from 1 up, but for the last: how many shovels, times and equals there are,
/// and the last shovel.
pub(super) type List = (usize, usize, usize, usize);

/// Lists around k equals, which are one too many: refused by 18, also among later shovels; good
/// with one equal less; refused by 12, 14 and 15, also for a later shovel that stands twice.
pub(super) fn lists(k: usize) -> [List; 9] {
    [
        (k, k, k, k),
        (k + 2, k + 2, k, k + 2),
        (64, 64, k, 64),
        (k, k, k - 1, k),
        (64, 64, k - 1, 64),
        (k + 1, k, k, k + 1),
        (65, 65, k, 65),
        (k + 1, k + 1, k + 1, 1),
        (k + 2, k + 2, k, k + 1),
    ]
}

/// All lists with a good state, some with a word too large or one too many.
fn too_many(maker: &mut Maker) {
    maker.section("picks: one equal too many, with cards, states and lists good and bad");
    for width in 2..=5 {
        let card = maker.card(4 - width % 3, width);
        let good = maker.state(card.words, width);
        let (mut high, mut long) = (good.clone(), good.clone());
        high[1] |= 1 << width;
        long.push(0);
        for (state, count) in [(good, 9), (high, 2), (long, 2)] {
            for list in &lists((1 << width) + 1)[..count] {
                pick_list(maker, &text(&card), &words(&state), list);
            }
        }
    }
    for card in REFUSED {
        pick_list(maker, card, "2,3", &lists(5)[0]);
    }
}

pub(super) fn pick_list(maker: &mut Maker, card: &str, state: &str, list: &List) {
    let (shovels, times) = shovels_and_times(list);
    pick(maker, card, state, &shovels, &times);
}

pub(super) fn shovels_and_times(list: &List) -> (Vec<u16>, Vec<u32>) {
    let &(shovel_count, time_count, ties, last) = list;
    let mut shovels: Vec<u16> = (1..=shovel_count as u16).collect();
    shovels[shovel_count - 1] = last as u16;
    let mut times = vec![61; time_count];
    times[..ties].fill(60);
    (shovels, times)
}

#[cfg(test)]
mod tests {
    use super::*;
    use crate::replay::answers;

    /// The answers to the cases of a section.
    fn answered(section: fn(&mut Maker)) -> Vec<String> {
        let mut maker = Maker::new();
        section(&mut maker);
        let answers = answers(&maker.lines);
        answers.lines().map(str::to_string).collect()
    }

    /// Every number of equals with every width, and the same answer in both orders.
    #[test]
    fn numbers_of_equals() {
        let answers = answered(every_number);
        let mut pairs = answers.chunks(2);
        for width in 2..=8 {
            for k in 1..=64.min((1 << width) + 1) {
                for pair in pairs.by_ref().take(if width < 4 { 6 } else { 1 }) {
                    let too_many = k > 1 << width;
                    assert_eq!(pair[0] == "refused 18", too_many);
                    assert_eq!(pair[0].contains(&format!(" ties {k} ")), !too_many);
                    assert_eq!(pair[0], pair[1]);
                }
            }
        }
        assert_eq!(pairs.next(), None);
    }

    /// One word more is taken than is passed over, 16 at most; the same answer in both orders.
    #[test]
    fn runs() {
        let answers = answered(every_run);
        for (number, eight) in answers.chunks(8).enumerate() {
            let taken = format!(" taken {} ", 16.min(number + 2));
            assert!(eight.iter().all(|answer| answer.contains(&taken)));
            assert!(eight.chunks(2).all(|pair| pair[0] == pair[1]));
        }
        assert_eq!(answers.len(), 8 * 18);
    }

    /// A card by 7 to 9, a state by 10 and 11, lists by 12, 14 and 15, each before 18.
    #[test]
    fn refusals_in_order() {
        let numbers = answered(too_many)
            .iter()
            .map(|answer| match answer.strip_prefix("refused ") {
                Some(number) => number.parse().unwrap(),
                None => 0,
            })
            .collect::<Vec<u8>>();
        let width = [18, 18, 18, 0, 0, 12, 14, 15, 15, 11, 11, 10, 10];
        assert_eq!(numbers, [&width.repeat(4), &[7, 8, 9][..]].concat());
    }
}
