//! Recorded picks: ties and none on every number of words, pages of every length around the needed
//! one, numbers and words of many bytes, and the refusals 1 to 16 and 18.

use super::super::picks::{random_list, CALLS, SHORT};
use super::super::ranks::{find, lists, shovels_and_times, text};
use super::super::{bytes, short, Maker, FULL, PROGRAM, REFUSED, TSC1, TSC2};
use super::NUMBERS;
use crate::record::call_recorded_pick;
use crate::replay::commas;
use crate::{accept, Card};

/// Two words of 32 bits, filter 2.
const WIDE: &str = "45020203010002";

pub fn make(maker: &mut Maker) {
    sizes(maker);
    equals(maker);
    passed_over(maker);
    numbers(maker);
    state_words(maker);
    pages(maker);
    in_a_row(maker);
    refused_cards(maker);
    refused_lists(maker);
    too_many(maker);
    refused_large(maker);
}

/// The case with these fields.
fn recorded(
    maker: &mut Maker,
    card: &str,
    state: &str,
    (shovels, times): (&str, &str),
    truck: u16,
    page: usize,
) {
    maker.line(format!(
        "recpick {card} {state} {shovels} {times} {truck} {page}"
    ));
}

/// Random values but for a card, a state, a list and a page.
fn on_list(maker: &mut Maker, card: &str, state: &[u32], list: &[(u16, u32)], page: usize) {
    let shovels = commas(list.iter().map(|entry| entry.0));
    let times = commas(list.iter().map(|entry| entry.1));
    let truck = truck(maker);
    recorded(maker, card, &short(state), (&shovels, &times), truck, page);
}

/// A truck's number, at an edge or any.
fn truck(maker: &mut Maker) -> u16 {
    match maker.below(3) {
        0 => NUMBERS[maker.below(NUMBERS.len())],
        1 => maker.below(300) as u16,
        _ => maker.word() as u16,
    }
}

/// The bytes that a page needs.
fn needed(words: u8) -> usize {
    8 + 4 * usize::from(words)
}

/// The values of a card that the check accepts.
fn values(card: &str) -> Card {
    accept(&bytes(card)).expect("an accepted card")
}

/// A tie and none from the same state, on pages that just have room and that just have not.
fn sizes(maker: &mut Maker) {
    maker.section("recorded picks: 2 to 8 words, ties and none, pages around the needed length");
    let small = (2..=4).flat_map(|m| [2, 3, 7, 8, 31, 32].map(|n| (m, n)));
    let large = (5..=8).flat_map(|m| [2, 32].map(|n| (m, n)));
    for (count, width) in small.chain(large) {
        let card = text(&maker.card(count, width));
        let state = maker.state(count, width);
        let (needed, more) = (needed(count), 1 + maker.below(3));
        let length = 2 + maker.below(3);
        let tie = random_list(maker, length, 2);
        let none = random_list(maker, length, 1);
        for page in [needed - 1, needed, needed + more] {
            on_list(maker, &card, &state, &tie, page);
        }
        for page in [needed - 1, needed] {
            on_list(maker, &card, &state, &none, page);
        }
    }
}

/// Each card has a state that goes on from pick to pick.
fn equals(maker: &mut Maker) {
    maker.section("recorded picks: 1 to 64 equals");
    let cards = [WIDE, FULL, TSC1];
    let mut states = cards.map(|card| vec![0; values(card).words.into()]);
    for k in 1..=64 {
        let (card, state) = (cards[k % 3], &mut states[k % 3]);
        let length = 64.min(k + maker.below(2));
        let list = random_list(maker, length, k);
        going_on(maker, card, state, &list);
    }
}

/// The case on a page with room, after which the state is as the call leaves it.
fn going_on(maker: &mut Maker, card: &str, state: &mut [u32], list: &[(u16, u32)]) {
    let page = 8 + 4 * state.len() + [0, 0, 1, 4][maker.below(4)];
    on_list(maker, card, state, list, page);
    let (shovels, times): (Vec<u16>, Vec<u32>) = list.iter().copied().unzip();
    let answer = call_recorded_pick(&bytes(card), state, &shovels, &times, 0, &mut vec![0; page]);
    assert!(answer.is_ok() || answer == Err(18), "good but for 18");
}

fn passed_over(maker: &mut Maker) {
    maker.section("recorded picks: 1 to 16 words passed over");
    for passed in (1..=16).chain([16]) {
        let (filter, sum_term) = (1 + passed as u8 % 2, passed as u8 / 2 % 2);
        let (card, mut state, k) = find(maker, filter, sum_term, passed);
        let list = random_list(maker, k + 1, k);
        going_on(maker, &text(&card), &mut state, &list);
    }
}

/// From 0, 0 the lower of two equals is chosen, from 2, 3 the higher one.
fn numbers(maker: &mut Maker) {
    maker.section("recorded picks: trucks and shovels at the edges");
    for (number, truck) in NUMBERS.into_iter().enumerate() {
        for place in 0..NUMBERS.len() {
            let other = NUMBERS[(place + 1 + number % 10) % NUMBERS.len()];
            let shovels = format!("{},{other}", NUMBERS[place]);
            let state = ["0,0", "2,3"][(number + place) % 2];
            recorded(maker, PROGRAM, state, (&shovels, "5,5"), truck, 16);
        }
    }
}

/// Words whose four bytes differ, and words with one bit or all.
fn state_words(maker: &mut Maker) {
    maker.section("recorded picks: state words of 32 bits");
    for number in 0..40 {
        let card = [TSC1, TSC2, WIDE, "0803"][number % 4];
        let words = values(card).words;
        let state: Vec<u32> = (0..words)
            .map(|_| match maker.below(4) {
                0 => 1 << maker.below(32),
                1 => [0, u32::MAX, 0x0102_0304, 0x00ff_0000][maker.below(4)],
                _ => maker.word(),
            })
            .collect();
        let ties = 2 + maker.below(3);
        let list = random_list(maker, ties, ties);
        on_list(maker, card, &state, &list, needed(words));
    }
}

/// A tie and none, on pages up to a few bytes more than needed; a tie on long pages.
fn pages(maker: &mut Maker) {
    maker.section("recorded picks: pages of every length up to the needed one and more");
    for (card, state) in [(PROGRAM, "2,3"), (FULL, "1ffff,0,1"), (TSC1, "1,2,3,4")] {
        for page in 0..=needed(values(card).words) + 2 {
            for times in ["8,8", "8,9"] {
                let truck = truck(maker);
                recorded(maker, card, state, ("7,4", times), truck, page);
            }
        }
        for page in [64, 255, 256, 257, 600] {
            recorded(maker, card, state, ("7,4", "8,8"), 9, page);
        }
    }
}

/// Four picks in a row on each card, then one on any page.
fn in_a_row(maker: &mut Maker) {
    maker.section("recorded picks: random cards, four picks in a row, then any page");
    for number in 0..36 {
        let words = 2 + maker.below(3) as u8;
        let width = match number % 3 {
            0 => 2 + maker.below(31) as u8,
            _ => 2 + maker.below(5) as u8,
        };
        let card = text(&maker.card(words, width));
        let mut state = maker.state(words, width);
        for _ in 0..4 {
            let list = any_list(maker);
            going_on(maker, &card, &mut state, &list);
        }
        let list = any_list(maker);
        let page = maker.below(2 * needed(words));
        on_list(maker, &card, &state, &list, page);
    }
}

/// Up to five shovels with any number of equals.
fn any_list(maker: &mut Maker) -> Vec<(u16, u32)> {
    let length = 1 + maker.below(5);
    let ties = 1 + maker.below(length);
    random_list(maker, length, ties)
}

fn refused_cards(maker: &mut Maker) {
    maker.section("recorded picks: each refusal of a card, with states, lists, pages good and bad");
    for card in REFUSED {
        for state in ["1,2,3,4", "4,4"] {
            for lists in &SHORT[..3] {
                let page = [0, 23, 24][maker.below(3)];
                recorded(maker, card, state, *lists, 9, page);
            }
        }
    }
}

/// Each on a page that is too small and on one that has room.
fn refused_lists(maker: &mut Maker) {
    maker.section("recorded picks: each refusal of a state and of lists, and lists that are good");
    for (number, (card, state)) in CALLS.into_iter().enumerate() {
        let needed = needed(values(card).words);
        for lists in SHORT {
            let small = [needed - 1, 0][number % 2];
            recorded(maker, card, state, lists, 9, small);
            recorded(maker, card, state, lists, 9, needed);
        }
    }
}

/// Lists around one equal too many, of which some have 64 and 65 shovels.
fn too_many(maker: &mut Maker) {
    maker.section("recorded picks: one equal too many, and 65 shovels, on pages good and bad");
    for width in [2, 3] {
        let card = maker.card(4 - width % 3, width);
        let state = maker.state(card.words, width);
        for list in lists((1 << width) + 1) {
            let (shovels, times) = shovels_and_times(&list);
            let (shovels, times) = (commas(shovels), commas(times));
            for page in [needed(card.words) - 1, needed(card.words)] {
                let (card, state) = (text(&card), short(&state));
                recorded(maker, &card, &state, (&shovels, &times), 9, page);
            }
        }
    }
}

/// 10, 11 and 18 on pages that are too small, then 16 on a page for four words.
fn refused_large(maker: &mut Maker) {
    maker.section("recorded picks: 5 to 8 words, 10, 11, 18 and 16");
    for count in 5..=8 {
        let card = text(&maker.card(count, 2));
        let state = maker.state(count, 2);
        let mut high = state.clone();
        high[usize::from(count) - 1] |= 4;
        let (five, tie) = (("1,2,3,4,5", "6,6,6,6,6"), ("7,4", "6,6"));
        let page = needed(count) - 1;
        recorded(maker, &card, &short(&state[..4]), tie, 9, page);
        recorded(maker, &card, &short(&high), five, 9, page);
        recorded(maker, &card, &short(&state), five, 9, page);
        recorded(maker, &card, &short(&state), tie, 9, 24);
    }
}

#[cfg(test)]
mod tests {
    use super::*;
    use crate::replay::answer;
    use std::collections::HashSet;

    /// The cases and their answers.
    fn answered() -> Vec<(String, String)> {
        let mut maker = Maker::new();
        make(&mut maker);
        let lines = String::from_utf8(maker.lines).unwrap();
        let row = |line: &str| Some((line.to_string(), answer(line.as_bytes())?));
        lines.lines().filter_map(row).collect()
    }

    /// The answer to a case.
    fn told(case: String) -> String {
        answer(case.as_bytes()).unwrap()
    }

    /// The answer without the page is that of the case `pick`; only a page too small gets 16.
    #[test]
    fn as_picks() {
        for (case, recorded) in answered() {
            let fields: Vec<&str> = case.split(' ').collect();
            let picked = told(format!("pick {}", fields[1..5].join(" ")));
            let words: Vec<&str> = recorded.split(' ').collect();
            match words[..] {
                ["refused", "16"] => {
                    let page: usize = fields[6].parse().unwrap();
                    assert!(page < needed(values(fields[1]).words), "{case}");
                    assert!(picked.starts_with("shovel "), "{case}");
                }
                ["refused", _] => assert_eq!(recorded, picked, "{case}"),
                _ => {
                    let without = [&words[..6], &words[8..]].concat();
                    assert_eq!(without.join(" "), picked, "{case}");
                }
            }
        }
    }

    /// The desk reads from the front of the page what the pick told, and the state of the case; the
    /// truck's cab reads the shovel. Other bytes are as lent, and all of them without a tie.
    #[test]
    fn pages_read_back() {
        let mut ties_found = HashSet::new();
        let mut taken_found = HashSet::new();
        for (case, recorded) in answered() {
            let fields: Vec<&str> = case.split(' ').collect();
            let words: Vec<&str> = recorded.split(' ').collect();
            let [_, shovel, _, ties, _, taken, _, page, _, _] = words[..] else {
                continue; // refused
            };
            assert_eq!(page.len(), 2 * fields[6].parse::<usize>().unwrap());
            let needed = needed(values(fields[1]).words);
            let (front, rest) = page.split_at(if ties == "1" { 0 } else { 2 * needed });
            assert_eq!(rest.replace("a5", ""), "");
            ties_found.insert(ties.to_string());
            taken_found.insert(taken.to_string());
            if ties == "1" {
                continue;
            }
            let truck = fields[5];
            let padded = |digits: &str| format!("{digits:0>8}");
            let state: Vec<String> = fields[2].split(',').map(padded).collect();
            let state = state.join(",");
            assert_eq!(
                told(format!("desk {front}")),
                format!("truck {truck} shovel {shovel} ties {ties} taken {taken} state {state}")
            );
            assert_eq!(
                told(format!("cab {truck} {front}")),
                format!("shovel {shovel}")
            );
        }
        assert_eq!(ties_found.len(), 64);
        assert_eq!(taken_found.len(), 17);
    }

    /// A tie and none, for each number of words, on a page with just room and one byte short.
    #[test]
    fn every_size() {
        let mut found = HashSet::new();
        for (case, recorded) in answered() {
            let fields: Vec<&str> = case.split(' ').collect();
            let picked = told(format!("pick {}", fields[1..5].join(" ")));
            if !picked.starts_with("shovel ") {
                continue;
            }
            let tie = !picked.contains(" ties 1 ");
            let words = values(fields[1]).words;
            let page: usize = fields[6].parse().unwrap();
            if page == needed(words) || page + 1 == needed(words) {
                let good = recorded.starts_with("shovel ");
                assert_eq!(good, page == needed(words), "{case}");
                found.insert((words, tie, good));
            }
        }
        assert_eq!(found.len(), 7 * 2 * 2);
    }
}
