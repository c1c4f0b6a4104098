//! Cards of five to eight words (document 02, Five), and every number of words side by side: the
//! calls on each size here, then a module each for the cards, for what the calls refuse, and for the
//! writer.

mod calls;
mod cards;
mod writes;

use super::cards::both;
use super::picks::{random_list, two_orders};
use super::ranks::{before, passed_over, text};
use super::strips::{random_span, random_strip, strip};
use super::walks::run;
use super::writes::write;
use super::Maker;
use crate::pick::limit;
use crate::replay::{commas, words};
use crate::{encode, mask, step, Card};

/// The widths at which every number of words has every call.
const WIDTHS: [u8; 6] = [2, 3, 7, 8, 31, 32];
/// The numbers of words that are new.
const WORDS: [u8; 4] = [5, 6, 7, 8];

pub fn make(maker: &mut Maker) {
    every_call(maker);
    every_width(maker);
    words_of_one_bit(maker);
    runs(maker);
    around_the_limit(maker);
    cards::make(maker);
    calls::make(maker);
    writes::make(maker);
}

/// Either filter for five words or more, else one of them.
fn every_call(maker: &mut Maker) {
    maker.section("2 to 8 words of 2, 3, 7, 8, 31 and 32 bits, each through every call");
    for (count, width) in (2..=8).flat_map(|m| WIDTHS.map(|n| (m, n))) {
        let either: &[u8] = if count > 4 { &[1, 2] } else { &[1 + width % 2] };
        for &filter in either {
            let card = Card {
                filter,
                ..maker.card(count, width)
            };
            on_state(maker, &card);
            on_lists(maker, &card);
        }
    }
}

/// The card read, checked and written, walks of it, and a strip.
fn on_state(maker: &mut Maker, card: &Card) {
    let bytes = encode(card);
    both(maker, &bytes);
    let page = bytes.len() + maker.below(3);
    write(maker, card, page);
    let start = maker.state(card.words, card.width);
    run(maker, card, &start, 12);
    let lent = random_strip(maker, 5);
    let span = random_span(maker, 5);
    strip(maker, &bytes, &start, &lent, span);
}

/// A pick in two orders, and a margin.
fn on_lists(maker: &mut Maker, card: &Card) {
    let mut state = maker.state(card.words, card.width);
    let length = 2 + maker.below(3);
    let ties = 2 + maker.below(length - 1);
    let list = random_list(maker, length, ties);
    two_orders(maker, &text(card), &mut state, list);

    let list = random_list(maker, 3, 1 + length % 2);
    let (shovels, times): (Vec<u16>, Vec<u32>) = list.into_iter().unzip();
    margin(maker, card, &state, &shovels, &times);
}

fn margin(maker: &mut Maker, card: &Card, state: &[u32], shovels: &[u16], times: &[u32]) {
    let (card, state) = (text(card), words(state));
    let (shovels, times) = (commas(shovels), commas(times));
    maker.line(format!("margin {card} {state} {shovels} {times}"));
}

/// The filters and sum terms take turns, and so do powers at the ends. Where the width is 4 to 7, or
/// divides one of these, a word is turned by 0.
fn every_width(maker: &mut Maker) {
    maker.section("5 to 8 words of every width: words, a step and a step back");
    for (number, (count, width)) in WORDS
        .into_iter()
        .flat_map(|m| (2..=32).map(move |n| (m, n)))
        .enumerate()
    {
        let card = Card {
            odd_power: [1, 255, 3, 129, 77][number % 5],
            even_power: [2, 254, 0, 16, 100, 4, 30][number % 7],
            filter: 1 + (number % 2) as u8,
            sum_term: (number / 2 % 2) as u8,
            ..maker.card(count, width)
        };
        let bytes = text(&card);
        let start = maker.state(count, width);
        maker.line(format!("words {bytes} {} 16", words(&start)));
        maker.line(format!("step {bytes} {}", words(&start)));
        maker.line(format!("back {bytes} {}", words(&step(&card, &start))));
        maker.line(format!("back {bytes} {}", words(&start)));
    }
}

/// States in which one word alone is not 0 after the step, so that its turn shows in the word; and
/// the largest words, where every sum runs over.
fn words_of_one_bit(maker: &mut Maker) {
    maker.section("5 to 8 words: one word alone has a bit, for each word; then all bits");
    for (count, width) in WORDS.into_iter().flat_map(|m| [5, 32].map(|n| (m, n))) {
        for filter in [1, 2] {
            let card = Card {
                filter,
                even_power: 0,
                constant: 1,
                sum_term: 0,
                ..maker.card(count, width)
            };
            for k in 0..=usize::from(count) {
                let mut state = vec![0; count.into()];
                match state.get_mut(k) {
                    Some(word) => *word = 2 << maker.below(usize::from(width) - 1),
                    None => state.fill(mask(width)),
                }
                maker.line(format!("draw {} {}", text(&card), words(&state)));
            }
        }
    }
}

/// Of words of 6 bits and 33 equals, as L is 33; the card's higher columns mostly stand still, so
/// that large words come in long runs.
fn runs(maker: &mut Maker) {
    maker.section("picks of 5 to 8 words: 1, 4 and 16 words passed over");
    for (count, passed) in WORDS.into_iter().flat_map(|m| [1, 4, 16].map(|p| (m, p))) {
        let (card, mut state) = loop {
            let card = Card {
                odd_power: 1,
                even_power: 0,
                constant: 1,
                filter: 1 + maker.byte() % 2,
                sum_term: 0,
                ..maker.card(count, 6)
            };
            let state = maker.state(count, 6);
            if passed_over(&card, &state, 33) == passed {
                break (card, state);
            }
        };
        let list = random_list(maker, 34, 33);
        two_orders(maker, &text(&card), &mut state, list);
    }
}

fn around_the_limit(maker: &mut Maker) {
    maker.section("picks of 5 to 8 words: the first word is L - 1, L or 2^n - 1, or 0");
    for (count, width) in WORDS.into_iter().flat_map(|m| WIDTHS.map(|n| (m, n))) {
        let card = maker.card(count, width);
        let limit = limit(width, 3) as u32;
        let mut firsts = vec![0, limit - 1, limit, mask(width)];
        firsts.dedup();
        for first in firsts {
            let mut state = before(maker, &card, first);
            let list = random_list(maker, 4, 3);
            two_orders(maker, &text(&card), &mut state, list);
        }
    }
}

#[cfg(test)]
mod tests {
    use super::super::tests::refusals_of_calls;
    use super::*;
    use crate::replay::answer;
    use std::collections::HashSet;

    /// The legal cases with their answers.
    fn answered() -> Vec<(String, String)> {
        let mut maker = Maker::new();
        make(&mut maker);
        let lines = String::from_utf8(maker.lines).unwrap();
        let row = |line: &str| Some((line.to_string(), answer(line.as_bytes())?));
        let rows = lines.lines().filter_map(row);
        rows.filter(|row| row.1 != "syntax").collect()
    }

    /// The number of words that a case names, 4 if its card names none.
    fn count(case: &str) -> Option<u8> {
        let fields: Vec<&str> = case.split(' ').collect();
        if fields[0] == "write" {
            return fields[1].parse().ok();
        }
        let card = crate::replay::card(fields[1].as_bytes())?;
        match card.first()? & 1 {
            1 => card.get(1).copied(),
            _ => Some(4),
        }
    }

    /// Each number of words from 5 to 8 has all of the refusals of each call.
    #[test]
    fn every_refusal_of_every_call() {
        let mut found = HashSet::new();
        for (case, answer) in answered() {
            let call = case.split(' ').next().unwrap().to_string();
            let words: Vec<&str> = answer.split(' ').collect();
            if let ["refused" | "verdict", number] = words[..] {
                found.insert((call, count(&case), number.parse().unwrap()));
            }
        }
        for (call, refusals) in refusals_of_calls() {
            for m in WORDS {
                for &refusal in &refusals {
                    let row = (call.to_string(), Some(m), refusal);
                    assert!(found.contains(&row), "{row:?}");
                }
            }
        }
    }

    /// Each number of words at each of the widths has an answer of each call.
    #[test]
    fn every_size_of_every_call() {
        let mut maker = Maker::new();
        every_call(&mut maker);
        let mut found = HashSet::new();
        for line in String::from_utf8(maker.lines).unwrap().lines().skip(1) {
            let fields: Vec<&str> = line.split(' ').collect();
            let told = answer(line.as_bytes()).unwrap();
            assert!(
                !told.starts_with("refused") || told == "refused 19",
                "{line}"
            );
            let width = match fields[0] {
                "write" => fields[2].parse().unwrap(),
                _ => {
                    crate::accept(&super::super::bytes(fields[1]))
                        .unwrap()
                        .width
                }
            };
            found.insert((fields[0].to_string(), count(line).unwrap(), width));
        }
        for call in "check read step back draw words strip pick margin write".split(' ') {
            for (m, n) in (2..=8).flat_map(|m| WIDTHS.map(|n| (m, n))) {
                assert!(found.contains(&(call.to_string(), m, n)), "{call} {m} {n}");
            }
        }
    }

    /// The numbers of words passed over, and that order makes no difference.
    #[test]
    fn passed_words() {
        let mut maker = Maker::new();
        runs(&mut maker);
        let told: Vec<String> = maker
            .lines
            .split(|&byte| byte == b'\n')
            .filter_map(answer)
            .filter(|told| told != "syntax")
            .collect();
        assert_eq!(told.len(), 2 * 3 * WORDS.len());
        for (pair, taken) in told.chunks(2).zip([2, 5, 16].into_iter().cycle()) {
            assert!(pair[0].contains(&format!(" taken {taken} ")), "{}", pair[0]);
            assert_eq!(pair[0], pair[1]);
        }
    }
}
