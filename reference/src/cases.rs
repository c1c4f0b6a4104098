//! Seeded cases for `replay`, always the same ones, in sections that each open with a comment.
//!
//! The walks (`step`, `back`, `draw`, `words`), the picks, the cards (`check`, `read`), the writer
//! (`write`), the form of a line, the strips (`strip`), the fair ranks of picks, the margins
//! (`margin`), the cards of five to eight words, the records (`recpick`, `desk`, `cab`), the counts of
//! bits (`nist`), the map (`mappick`, `within`) and the bad places (`badbit`) have a module each, in the
//! order in which they came, so that earlier cases stay as they are. States that go on from case to
//! case come from this crate's own calls.

mod bad_places;
mod bits;
mod cards;
mod large;
mod map;
mod margins;
mod picks;
mod ranks;
mod records;
mod strips;
mod syntax;
pub mod tables;
mod walks;
mod writes;

use crate::replay::commas;
use crate::{mask, next, Card};

/// Document 01's cards P1 and P2 and the program's, in hex.
const TSC1: &str = "00";
const TSC2: &str = "7405020b0c0d04030e0f080106070a0900000100000002";
const PROGRAM: &str = "2702020102030001000000";
/// A card with every field: 3 words of 17 bits.
const FULL: &str = "ff031105030006010702040506452301000200";

/// A card for each refusal from 1 to 9, and some more of 1, 8 and 9.
const REFUSED: [&str; 12] = [
    "-",
    "0101",
    "0801",
    "0103",
    "05020001020300",
    "021c",
    "050200010203",
    "2702020102030002000000",
    "0802",
    "20218448",
    "2022844812",
    "1003",
];

/// Gathers the lines; `next` gives the random numbers.
struct Maker {
    x: u32,
    lines: Vec<u8>,
}

impl Maker {
    fn new() -> Maker {
        Maker {
            x: 2463534242,
            lines: Vec::new(),
        }
    }

    fn line(&mut self, line: impl AsRef<[u8]>) {
        self.lines.extend(line.as_ref());
        self.lines.push(b'\n');
    }

    fn section(&mut self, content: &str) {
        self.line(format!("# {content}"));
    }

    /// A random number below `end`.
    fn below(&mut self, end: usize) -> usize {
        next(&mut self.x) as usize % end
    }

    /// A random number of 32 bits.
    fn word(&mut self) -> u32 {
        next(&mut self.x)
    }

    /// A random number of 8 bits.
    fn byte(&mut self) -> u8 {
        next(&mut self.x) as u8
    }

    /// A random state of this size.
    fn state(&mut self, words: u8, width: u8) -> Vec<u32> {
        (0..words).map(|_| self.word() & mask(width)).collect()
    }

    /// A random card of this size that the check accepts.
    fn card(&mut self, words: u8, width: u8) -> Card {
        random_card(words, width, &mut self.x)
    }

    /// A random card of two to four words that the check accepts.
    fn any_card(&mut self) -> Card {
        let words = 2 + self.below(3) as u8;
        let width = 2 + self.below(31) as u8;
        self.card(words, width)
    }
}

/// A card that the check accepts; the swaps (Sattolo) make a random ring of the table.
pub fn random_card(words: u8, width: u8, x: &mut u32) -> Card {
    let mut table: Vec<u8> = (0..=u8::MAX).take(1 << words).collect();
    for place in (1..table.len()).rev() {
        table.swap(place, next(x) as usize % place);
    }
    Card {
        words,
        width,
        table,
        odd_power: next(x) as u8 | 1,
        even_power: next(x) as u8 & 254,
        constant: next(x) & mask(width) | 1,
        filter: 1 + (next(x) % 2) as u8,
        sum_term: (next(x) % 2) as u8,
    }
}

/// The bytes of a card given in hex.
fn bytes(hex: &str) -> Vec<u8> {
    crate::replay::card(hex.as_bytes()).expect("pairs of hex digits")
}

/// Words in hex, no longer than need be.
fn short(words: &[u32]) -> String {
    commas(words.iter().map(|word| format!("{word:x}")))
}

/// All cases, a line each.
pub fn cases() -> Vec<u8> {
    let mut maker = Maker::new();
    walks::make(&mut maker);
    picks::make(&mut maker);
    cards::make(&mut maker);
    writes::make(&mut maker);
    syntax::make(&mut maker);
    strips::make(&mut maker);
    ranks::make(&mut maker);
    margins::make(&mut maker);
    large::make(&mut maker);
    records::make(&mut maker);
    bits::make(&mut maker);
    map::make(&mut maker);
    bad_places::make(&mut maker);
    maker.lines
}

#[cfg(test)]
mod tests {
    use super::*;
    use crate::accept;
    use crate::pick::limit;
    use crate::replay::{answer, words};

    /// The cases with their answers, without the comments.
    fn answered() -> Vec<(String, String)> {
        let mut rows = Vec::new();
        for line in cases().split(|&byte| byte == b'\n') {
            if let Some(answer) = answer(line) {
                rows.push((String::from_utf8_lossy(line).into_owned(), answer));
            }
        }
        rows
    }

    /// The rows of one call, without those of the wrong form.
    fn of_call<'a>(rows: &'a [(String, String)], call: &str) -> Vec<&'a (String, String)> {
        let legal =
            |row: &&(String, String)| row.0.split(' ').next() == Some(call) && row.1 != "syntax";
        rows.iter().filter(legal).collect()
    }

    /// The refusals of the calls that the module `large` has for each number of words.
    pub fn refusals_of_calls() -> [(&'static str, Vec<u8>); 10] {
        let state: Vec<u8> = (1..=11).collect();
        [
            ("check", (1..=9).collect()),
            ("read", (1..=6).collect()),
            ("step", state.clone()),
            ("back", state.clone()),
            ("draw", state.clone()),
            ("words", state),
            ("strip", (1..=11).chain([17]).collect()),
            ("pick", (1..=15).chain([18]).collect()),
            ("margin", (1..=15).chain([18, 19]).collect()),
            ("write", vec![2, 6, 7, 8, 9, 16]),
        ]
    }

    /// Those of recorded picks, desk and cab, of counts, by the map, and of bad places.
    fn refusals_of_others() -> [(&'static str, Vec<u8>); 7] {
        [
            ("recpick", (1..=16).chain([18]).collect()),
            ("desk", vec![20]),
            ("cab", vec![20, 21]),
            ("nist", (1..=9).chain(22..=24).collect()),
            ("mappick", (1..=15).chain([18, 25]).collect()),
            ("within", (12..=15).chain([25]).collect()),
            ("badbit", (1..=6).chain([26]).collect()),
        ]
    }

    #[test]
    fn every_refusal_of_every_call() {
        let rows = answered();
        for (call, refusals) in refusals_of_calls().into_iter().chain(refusals_of_others()) {
            let word = if call == "check" {
                "verdict"
            } else {
                "refused"
            };
            let mut found: Vec<u8> = of_call(&rows, call)
                .iter()
                .filter_map(|(_, answer)| answer.strip_prefix(word)?.trim().parse().ok())
                .filter(|&refusal| refusal != 0)
                .collect();
            found.sort();
            found.dedup();
            assert_eq!(found, refusals, "{call}");
        }
        assert!(rows.iter().all(|(_, answer)| !answer.contains("CHANGED")));
    }

    /// As many as the programs had that these cases replace, and more picks; strips, margins, records,
    /// counts, the map and bad places are new.
    #[test]
    fn enough_of_each() {
        let rows = answered();
        let count = |call: &str, answer: &str| {
            let rows = of_call(&rows, call).into_iter();
            rows.filter(|row| row.1.starts_with(answer)).count()
        };
        let mut words = 0;
        for (line, answer) in of_call(&rows, "words") {
            let wanted: usize = line.split(' ').next_back().unwrap().parse().unwrap();
            let list = answer
                .strip_prefix("words ")
                .map(|rest| rest.split(' ').next().unwrap());
            if let Some(list) = list {
                let found = if list == "-" {
                    0
                } else {
                    list.split(',').count()
                };
                assert_eq!(found, wanted, "{line}");
                words += found;
            }
        }
        assert!(words >= 22_880);
        assert!(count("back", "state") >= 1_912);
        assert!(count("step", "state") >= 300 && count("draw", "word") >= 300);
        assert!(of_call(&rows, "pick").len() >= 5_400);
        assert!(count("strip", "strip") >= 300 && count("strip", "refused 17") >= 100);
        assert!(count("margin", "change") >= 600 && count("margin", "refused 19") >= 30);
        assert!(count("recpick", "shovel") >= 500 && count("recpick", "") >= 1_000);
        assert!(count("desk", "truck") >= 120 && count("desk", "") >= 600);
        assert!(count("cab", "shovel") >= 120 && count("cab", "refused 21") >= 120);
        assert!(count("cab", "") >= 600);
        assert!(count("nist", "counts") >= 500 && count("nist", "") >= 800);
        assert!(count("nist", "refused 23") >= 100 && count("nist", "refused 24") >= 100);
        assert!(count("mappick", "shovel") >= 400 && count("mappick", "") >= 600);
        assert!(count("mappick", "refused 25") >= 60 && count("within", "refused 25") >= 60);
        assert!(count("within", "count") >= 300 && count("within", "") >= 450);
        assert!(count("badbit", "places") >= 650 && count("badbit", "refused 26") >= 60);
        assert!(rows.iter().filter(|row| row.1 == "syntax").count() >= 1_000);
        assert!(cases().len() < 4_600_000);
    }

    /// The words that a pick took, by the case `words`: all but the last are passed over, the last
    /// serves or is the sixteenth, and the state is as they leave it. Each number of words comes up,
    /// and so do L as a word passed over and L - 1 as one that serves.
    #[test]
    fn picks_take_the_words() {
        let mut counts = [0; 17];
        let (mut at_limit, mut below_limit) = (0, 0);
        for (line, picked) in of_call(&answered(), "pick") {
            let case: Vec<&str> = line.split(' ').collect();
            let picked: Vec<&str> = picked.split(' ').collect();
            let [_, _, _, ties, _, taken, _, after] = picked[..] else {
                continue; // refused
            };
            let drawing = format!("words {} {} {taken}", case[1], case[2]);
            let drawn = answer(drawing.as_bytes()).unwrap();
            let drawn: Vec<&str> = drawn.split(' ').collect();
            assert_eq!(after, drawn[3], "{line}");

            let word = |digits| u64::from_str_radix(digits, 16).ok(); // none for `-`
            let words: Vec<u64> = drawn[1].split(',').filter_map(word).collect();
            let width = accept(&bytes(case[1])).unwrap().width;
            let limit = limit(width, ties.parse().unwrap());
            let passed = words.iter().filter(|&&word| word >= limit).count();
            let taken: usize = if ties == "1" { 0 } else { 16.min(passed + 1) };
            assert_eq!(words.len(), taken, "{line}");
            counts[taken] += 1;
            at_limit += usize::from(words.contains(&limit));
            below_limit += usize::from(words.last() == Some(&(limit - 1)));
        }
        assert!(counts.iter().all(|&count| count >= 8) && counts[16] >= 32);
        assert!(at_limit >= 60 && below_limit >= 60);
    }

    /// The step of each state that a step back answers is the state that was given.
    #[test]
    fn steps_back_are_undone() {
        for (line, back) in of_call(&answered(), "back") {
            if let Some(before) = back.strip_prefix("state ") {
                let fields: Vec<&str> = line.split(' ').collect();
                let word = |digits| u32::from_str_radix(digits, 16).unwrap();
                let given: Vec<u32> = fields[2].split(',').map(word).collect();
                let step = answer(format!("step {} {before}", fields[1]).as_bytes());
                assert_eq!(step, Some(format!("state {}", words(&given))), "{line}");
            }
        }
    }
}
