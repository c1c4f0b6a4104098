//! Margins of picks (document 02, Four): short lists with small differences, times at the ends, too
//! many equals a little later, long lists, the refusals 1 to 15, 18 and 19, and the form of a line.

use super::picks::random_list;
use super::{bytes, syntax, Maker, FULL, PROGRAM, REFUSED, TSC1, TSC2};
use crate::replay::{commas, hex, words};
use crate::{accept, encode};

const MAX: u32 = u32::MAX;

/// Lists of shovels and times for the refusals: good; firm; empty; a shovel twice; two more that are
/// firm; uneven; a shovel twice among later and among too many equals; too many for words of 2 bits;
/// at last one shovel before too many, which is firm with the program's card from 0, 0.
pub(super) const LISTS: [(&str, &str); 14] = [
    ("7,4", "305,300"),
    ("7", "300"),
    ("-", "-"),
    ("7,7", "300,305"),
    ("0", "0"),
    ("65535", "4294967295"),
    ("7", "-"),
    ("-", "300"),
    ("7,7", "300"),
    ("5,6,5", "3,1,3"),
    ("1,2,3,4,5,1", "9,9,9,9,9,9"),
    ("1,2,3,4,5", "9,9,9,9,9"),
    ("3,1,2,5,4,6", "9,9,9,9,9,10"),
    ("1,2,3,4,5,6", "0,1,1,1,1,1"),
];

/// Cards and states for all the lists: accepted, too large a word, wrong counts of words.
const CALLS: [(&str, &str); 8] = [
    (PROGRAM, "0,0"),
    (PROGRAM, "2,3"),
    (TSC1, "0,0,0,0"),
    (PROGRAM, "0,4"),
    (PROGRAM, "4,0,0"),
    (PROGRAM, "-"),
    ("021d", "0,0,0,20000000"),
    (FULL, "1ffff,20000,0"),
];

/// A legal line.
const SAMPLE: &str = "margin 00 1,2,3,4 7,4 300,305";

/// Lines at the edges: digits of either case, leading zeros, the largest numbers and one more; a
/// line is judged before the call; other names.
const EDGES: &str = "\
margin 08FF 0A,0,0,0 4,7 1,2
margin 00 FFFFFFFF,ffffffff,000000000000,0 00004,7 000000000000000,4294967295
margin 00 0,0,0,0 65535,0 4294967295,0
margin 00 0,0,0,0 65536,0 4294967295,0
margin 00 0,0,0,0 65535,0 4294967296,0
margin 00 0,0,0,0 65535,0 0,18446744073709551616
margin 00 100000000,0,0,0 4,7 1,2
margin 00 0,0,0,0 4,7 1,-2
margin 00 0,0,0,0 4,7 1,+2
margin 00 0,0,0,0 4,a 1,2
margin 00 0,0,0,0 4,7 1,2,
margin 00 0,0,0,0 4;7 1,2
margin 0 0,0,0,0 4,7 1,2
margin 0g 0,0,0,0 4,7 1,2
margin 0802 0,0,0,0 4,7 1,4294967296
margin - - - -
Margin 00 0,0,0,0 4,7 1,2
margins 00 0,0,0,0 4,7 1,2
change 4 raised 6 shovel 7 ties 1 taken 0";

pub fn make(maker: &mut Maker) {
    pairs(maker);
    refused_cards(maker);
    refused_lists(maker);
    lines(maker);
}

/// Each list in two orders from one state.
fn pairs(maker: &mut Maker) {
    short_lists(maker);
    equals(maker);
    ends(maker);
    widest(maker);
    great_times(maker);
    crowds(maker);
    too_many(maker);
    long_lists(maker);
}

/// A shovel and its time.
type Entry = (u16, u32);

fn margin(maker: &mut Maker, card: &str, state: &str, list: &[Entry]) {
    let shovels = commas(list.iter().map(|entry| entry.0));
    let times = commas(list.iter().map(|entry| entry.1));
    maker.line(format!("margin {card} {state} {shovels} {times}"));
}

/// The list, of two shovels or more, from a random state; then reversed, or from the middle.
fn two_orders(maker: &mut Maker, card: &str, mut list: Vec<Entry>) {
    let values = accept(&bytes(card)).expect("an accepted card");
    let state = words(&maker.state(values.words, values.width));
    margin(maker, card, &state, &list);
    if maker.below(2) == 0 {
        list.reverse();
    } else {
        let half = list.len() / 2;
        list.rotate_left(half);
    }
    margin(maker, card, &state, &list);
}

/// A random card with words of this width.
fn of_width(maker: &mut Maker, width: u8) -> String {
    let words = 2 + maker.below(3) as u8;
    hex(&encode(&maker.card(words, width)))
}

/// P1, P2, the program's card and the full one, random cards with words of 2 to 5 bits, and any.
fn card(maker: &mut Maker) -> String {
    match maker.below(8) {
        0 => TSC1.to_string(),
        1 => TSC2.to_string(),
        2 => PROGRAM.to_string(),
        3 => FULL.to_string(),
        4..=6 => {
            let width = 2 + maker.below(4) as u8;
            of_width(maker, width)
        }
        _ => hex(&encode(&maker.any_card())),
    }
}

/// Most lists have one shovel with the least time, since otherwise a second is enough.
fn short_lists(maker: &mut Maker) {
    maker.section("margins: short lists, these and the next in two orders from one state");
    for _ in 0..125 {
        let card = card(maker);
        let length = 2 + maker.below(6);
        let ties = match maker.below(4) {
            0 => 1 + maker.below(length + 1),
            _ => 1,
        };
        let list = random_list(maker, length, ties);
        two_orders(maker, &card, list);
    }
}

/// A second is enough, and either way of a shovel may do. Some are too many.
fn equals(maker: &mut Maker) {
    maker.section("margins: equal times");
    for length in [3, 3, 4, 4, 5, 6] {
        for time in [0, 60, MAX] {
            let card = card(maker);
            let list = (0..length).map(|shovel| (shovel, time)).collect();
            two_orders(maker, &card, list);
        }
    }
}

/// One of the smallest or greatest times, or one in the middle.
fn end_time(maker: &mut Maker) -> u32 {
    let near = [0, 0, 1, 2][maker.below(4)];
    match maker.below(5) {
        0 | 1 => near,
        2 | 3 => MAX - near,
        _ => MAX / 2 + near,
    }
}

fn ends(maker: &mut Maker) {
    maker.section("margins: times around 0, 2147483648 and 4294967295");
    for number in 0..60 {
        let card = card(maker);
        let length = 2 + number / 20;
        let list = (0..length).map(|shovel| (3 * shovel, end_time(maker)));
        let list = list.collect();
        two_orders(maker, &card, list);
    }
}

/// One shovel, the lowest or the highest, as near as can be, and 1 to 3 as far as can be. Only a tie
/// can send the truck elsewhere.
fn widest(maker: &mut Maker) {
    maker.section("margins: one time of 0, the others 4294967295");
    for later in [1, 1, 1, 1, 2, 2, 2, 3, 3, 3] {
        for first in [0, 9] {
            let card = card(maker);
            let mut list: Vec<Entry> = (1..=later).map(|shovel| (shovel, MAX)).collect();
            list.push((first, 0));
            two_orders(maker, &card, list);
        }
    }
}

fn great_times(maker: &mut Maker) {
    maker.section("margins: any times of 32 bits, and differences of thousands");
    for number in 0..40 {
        let card = card(maker);
        let length = 2 + maker.below(5);
        let spread = if number % 2 == 0 { MAX } else { 9999 };
        let entry = |_| (maker.word() as u16, maker.word() % spread);
        let list = (0..length).map(entry).collect();
        two_orders(maker, &card, list);
    }
}

/// One shovel, the lowest or the highest, and 2^n - 1, 2^n or 2^n + 1 that are equal a little later.
fn crowds(maker: &mut Maker) {
    maker.section("margins: one shovel, and later about as many equals as words can rank");
    for width in [2, 2, 2, 3, 4, 5] {
        for later in (1 << width) - 1..=(1 << width) + 1 {
            for (first, least) in [(0, 0), (0, 9), (65535, 0), (65535, 9)] {
                let card = of_width(maker, width);
                let time = least + 1 + maker.below(3) as u32;
                let mut list: Vec<Entry> = (1..=later).map(|shovel| (shovel, time)).collect();
                let place = maker.below(list.len() + 1);
                list.insert(place, (first, least));
                two_orders(maker, &card, list);
            }
        }
    }
}

/// First refused by 18, then with one of the equals a second later.
fn too_many(maker: &mut Maker) {
    maker.section("margins: one equal more than words can rank, and no more than that");
    for width in [2, 2, 3, 4, 5] {
        let card = of_width(maker, width);
        let mut list: Vec<Entry> = (0..=1 << width).map(|shovel| (shovel, 60)).collect();
        two_orders(maker, &card, list.clone());
        let place = maker.below(list.len());
        list[place].1 += 1;
        two_orders(maker, &card, list);
    }
}

fn long_lists(maker: &mut Maker) {
    maker.section("margins: 64 shovels");
    for (width, ties) in [(2, 1), (4, 1), (5, 32), (5, 1), (6, 64), (6, 1), (32, 1)] {
        let card = of_width(maker, width);
        let list = random_list(maker, 64, ties);
        two_orders(maker, &card, list);
    }
    for first in [0, 65535] {
        let mut list: Vec<Entry> = (1..64).map(|shovel| (shovel, 2)).collect();
        list.push((first, 0));
        two_orders(maker, PROGRAM, list.clone());
        two_orders(maker, TSC1, list);
    }
}

fn refused_cards(maker: &mut Maker) {
    maker.section("margins: each refusal of a card, with states and lists good and bad");
    for card in REFUSED {
        for state in ["1,2,3,4", "4,4"] {
            for (shovels, times) in &LISTS[..4] {
                maker.line(format!("margin {card} {state} {shovels} {times}"));
            }
        }
    }
}

fn refused_lists(maker: &mut Maker) {
    maker.section("margins: each refusal of a state and of lists, and lists that are firm");
    for (card, state) in CALLS {
        for (shovels, times) in LISTS {
            maker.line(format!("margin {card} {state} {shovels} {times}"));
        }
    }
    for (shovel_count, time_count, last) in [(65, 65, 64), (65, 65, 0), (64, 64, 0), (65, 64, 64)] {
        let mut shovels: Vec<u16> = (0..shovel_count).collect();
        shovels[shovel_count as usize - 1] = last;
        let (shovels, times) = (commas(shovels), commas(vec![9; time_count]));
        maker.line(format!("margin {PROGRAM} 2,3 {shovels} {times}"));
    }
}

/// The form of a line, as in the module `syntax`.
fn lines(maker: &mut Maker) {
    maker.section("form of a line: margins");
    maker.line(EDGES);
    syntax::blanks_and_counts(maker, SAMPLE);
    for count in [600, 601] {
        let list = commas(vec![0; count]);
        maker.line(format!("margin 00 0,0,0,0 {list} {list}"));
    }
}

#[cfg(test)]
mod tests {
    use super::*;
    use crate::replay::answer;

    /// The legal cases of a section, or of all, with their answers.
    fn answered(section: fn(&mut Maker)) -> Vec<(String, String)> {
        let mut maker = Maker::new();
        section(&mut maker);
        let mut rows = Vec::new();
        for line in maker.lines.split(|&byte| byte == b'\n') {
            match answer(line) {
                Some(answer) if answer != "syntax" => {
                    rows.push((String::from_utf8_lossy(line).into_owned(), answer));
                }
                _ => {}
            }
        }
        rows
    }

    #[test]
    fn every_refusal_and_both_directions() {
        let rows = answered(make);
        let count = |text: &str| rows.iter().filter(|row| row.1.contains(text)).count();
        for refusal in (1..=15).chain([18, 19]) {
            let text = format!("refused {refusal}");
            assert!(rows.iter().any(|row| row.1 == text), "{refusal}");
        }
        assert!(count(" lowered ") >= 200 && count(" raised ") >= 200);
        let ties = count("change ") - count(" ties 1 ");
        assert!(count(" ties 1 ") >= 200 && ties >= 200);
    }

    #[test]
    fn order_makes_no_difference() {
        for pair in answered(pairs).chunks(2) {
            assert_ne!(pair[0].0, pair[1].0);
            assert_eq!(pair[0].1, pair[1].1, "{}", pair[0].0);
        }
    }

    /// The case `pick` with the shovel's time changed.
    fn changed(case: &str, shovel: &str, way: &str, seconds: u32) -> String {
        let fields: Vec<&str> = case.split(' ').collect();
        let mut times: Vec<u32> = fields[4].split(',').map(|t| t.parse().unwrap()).collect();
        let number = |field: &str| field.parse::<u16>().unwrap();
        let mut shovels = fields[3].split(',').map(number);
        let place = shovels.position(|other| other == number(shovel)).unwrap();
        match way {
            "raised" => times[place] += seconds,
            _ => times[place] -= seconds,
        }
        let (card, state) = (fields[1], fields[2]);
        format!("pick {card} {state} {} {}", fields[3], commas(times))
    }

    /// The changed pick is what the case `pick` answers, and the unchanged pick goes elsewhere.
    #[test]
    fn changed_picks() {
        for (case, told) in answered(make) {
            let words: Vec<&str> = told.split(' ').collect();
            let ["change", shovel, way, seconds, _, other, ..] = words[..] else {
                continue;
            };
            let changed = changed(&case, shovel, way, seconds.parse().unwrap());
            let pick = answer(changed.as_bytes()).unwrap();
            assert!(
                pick.starts_with(&format!("{} state ", words[4..].join(" "))),
                "{case}"
            );
            let unchanged = answer(case.replace("margin", "pick").as_bytes()).unwrap();
            assert!(
                !unchanged.starts_with(&format!("shovel {other} ")),
                "{case}"
            );
        }
    }
}
