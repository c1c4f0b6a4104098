//! Strips of words (document 02, One): spans of all kinds, the refusals 1 to 11 and 17, and the
//! form of a line.

use super::{bytes, syntax, Maker, FULL, PROGRAM, REFUSED, TSC1, TSC2};
use crate::fill::call_fill;
use crate::replay::{commas, hex, words};
use crate::{accept, encode};

/// Places and counts far past a strip of three words. Within 8, 16 or 32 bits some of them, or
/// their sums, would lie inside it.
const FAR: [(u32, u32); 26] = [
    (256, 0),
    (0, 256),
    (257, 1),
    (1, 257),
    (255, 1),
    (601, 0),
    (0, 601),
    (0, 1025),
    (65536, 0),
    (0, 65536),
    (65537, 1),
    (1, 65537),
    (65535, 1),
    (1 << 31, 0),
    (0, 1 << 31),
    (1 << 31, 1 << 31),
    ((1 << 31) - 1, (1 << 31) + 2),
    (u32::MAX, 0),
    (0, u32::MAX),
    (u32::MAX, 1),
    (1, u32::MAX),
    (u32::MAX, 4),
    (2, u32::MAX),
    (3, u32::MAX),
    (3, u32::MAX - 2),
    (u32::MAX, u32::MAX),
];

/// Spans of a strip of three words, for the order of the refusals: good, with no words wanted, one
/// word too many, past the end with no words wanted.
pub(super) const SPANS: [(usize, usize); 4] = [(1, 2), (1, 0), (1, 3), (4, 0)];

/// Cards and states: a word too large, too many or too few words, also with one too large, and
/// the largest words that are good.
const STATES: [(&str, &str); 12] = [
    (PROGRAM, "4,0"),
    (PROGRAM, "0,4"),
    (PROGRAM, "4,0,0"),
    (PROGRAM, "4"),
    (PROGRAM, "-"),
    ("021d", "0,0,0,20000000"),
    ("021d", "20000000,0,0"),
    (TSC1, "0,0,0"),
    (TSC1, "0,0,0,0,0"),
    (FULL, "0,20000,0"),
    (FULL, "0,0,ffffffff"),
    (FULL, "1ffff,1ffff,1ffff"),
];

/// A legal line.
const SAMPLE: &str = "strip 00 1,2,3,4 5,6,7 1 1";

/// Lines at the edges: digits of either case, leading zeros, the largest numbers and one more; a
/// line is judged before the call; other names.
const EDGES: &str = "\
strip 00 0,0,0,0 A5a5A5a5,00000000000000ffffffff,0 0001 01
strip 08FF 0,0,0,0 1,2 0 2
strip 00 0,0,0,0 100000000 0 0
strip 00 0,0,0,0 1,10000000000000000 0 0
strip 00 0,0,0,0 1,2 00000000000000000000001 000
strip 00 0,0,0,0 1,2 4294967295 4294967295
strip 00 0,0,0,0 1,2 4294967296 0
strip 00 0,0,0,0 1,2 0 4294967296
strip 00 0,0,0,0 1,2 18446744073709551615 1
strip 00 0,0,0,0 1,2 1 18446744073709551615
strip 00 0,0,0,0 1,2 18446744073709551616 0
strip 0802 0,0,0,0 1,2 0 4294967296
strip 00 0,0,0 1,g 3 0
strip - - - 0 0
strip 00 - - 0 0
strip 00 0,0,0,0 - 0 0
Strip 00 0,0,0,0 1,2 0 0
strips 00 0,0,0,0 1,2 0 0
fill 00 0,0,0,0 1,2 0 0";

pub fn make(maker: &mut Maker) {
    random_spans(maker);
    parts(maker);
    every_small_span(maker);
    ends(maker);
    far_spans(maker);
    long_strips(maker);
    refused_cards(maker);
    refused_states(maker);
    lines(maker);
}

/// The case with these fields.
pub(super) fn strip(
    maker: &mut Maker,
    card: &[u8],
    state: &[u32],
    lent: &[u32],
    span: (usize, usize),
) {
    let (card, state, lent) = (hex(card), words(state), words(lent));
    let (place, count) = span;
    maker.line(format!("strip {card} {state} {lent} {place} {count}"));
}

/// A case that is not refused; strip and state are then as the call leaves them.
fn filled(
    maker: &mut Maker,
    card: &[u8],
    state: &mut [u32],
    lent: &mut [u32],
    span: (usize, usize),
) {
    strip(maker, card, state, lent, span);
    call_fill(card, state, lent, span.0, span.1).expect("an accepted call");
}

/// A strip of random words, of 32 bits whatever the card.
pub(super) fn random_strip(maker: &mut Maker, length: usize) -> Vec<u32> {
    (0..length).map(|_| maker.word()).collect()
}

/// A random span of a strip of this length.
pub(super) fn random_span(maker: &mut Maker, length: usize) -> (usize, usize) {
    let place = maker.below(length + 1);
    (place, maker.below(length - place + 1))
}

/// P1, P2, the program's card and the full one, then random cards, each with a random state.
fn cards(maker: &mut Maker, random: usize) -> Vec<(Vec<u8>, Vec<u32>)> {
    let mut cards: Vec<Vec<u8>> = [TSC1, TSC2, PROGRAM, FULL].map(bytes).to_vec();
    for _ in 0..random {
        cards.push(encode(&maker.any_card()));
    }
    let with_state = |card: Vec<u8>| {
        let values = accept(&card).expect("an accepted card");
        (card, maker.state(values.words, values.width))
    };
    cards.into_iter().map(with_state).collect()
}

/// The state goes on from strip to strip.
fn random_spans(maker: &mut Maker) {
    maker.section("strips: random words, places and counts on many cards");
    for (number, (card, mut state)) in cards(maker, 70).into_iter().enumerate() {
        let strips = if number < 4 { 20 } else { 1 };
        for _ in 0..strips {
            let length = maker.below(12);
            let mut lent = random_strip(maker, length);
            let span = random_span(maker, length);
            filled(maker, &card, &mut state, &mut lent, span);
        }
    }
}

/// Three cases: a fill, the fill behind it on the strip and from the state that it left, and one
/// fill of both.
fn parts(maker: &mut Maker) {
    maker.section("strips: a fill, the fill behind it, and one fill of both");
    for (card, start) in cards(maker, 26) {
        let length = 2 + maker.below(9);
        let lent = random_strip(maker, length);
        let (place, count) = random_span(maker, length);
        let part = maker.below(count + 1);
        let (mut state, mut left) = (start.clone(), lent.clone());
        filled(maker, &card, &mut state, &mut left, (place, part));
        let behind = (place + part, count - part);
        strip(maker, &card, &state, &left, behind);
        strip(maker, &card, &start, &lent, (place, count));
    }
}

fn every_small_span(maker: &mut Maker) {
    maker.section("strips: each place and count around strips of 0 to 3 words");
    for length in 0..=3 {
        for place in 0..=length + 1 {
            for count in 0..=length + 2 {
                let state = maker.state(2, 2);
                let lent = random_strip(maker, length);
                strip(maker, &bytes(PROGRAM), &state, &lent, (place, count));
            }
        }
    }
}

fn ends(maker: &mut Maker) {
    maker.section("strips: spans that just fit, and that just don't");
    for (card, state) in cards(maker, 1) {
        let lent = random_strip(maker, 5);
        for span in [(0, 5), (0, 6), (3, 2), (3, 3), (5, 0), (5, 1), (6, 0)] {
            strip(maker, &card, &state, &lent, span);
        }
    }
}

fn far_spans(maker: &mut Maker) {
    maker.section("strips: places and counts up to 4294967295");
    for lent in ["-", "ffffffff,0,80000001"] {
        for (place, count) in FAR {
            maker.line(format!("strip {PROGRAM} 2,3 {lent} {place} {count}"));
        }
    }
}

fn long_strips(maker: &mut Maker) {
    maker.section("strips: 64 and 600 words");
    for (card, state) in &cards(maker, 0)[..2] {
        let lent = random_strip(maker, 64);
        for span in [
            (0, 64),
            (0, 65),
            (7, 50),
            (63, 1),
            (63, 2),
            (64, 0),
            (65, 0),
        ] {
            strip(maker, card, state, &lent, span);
        }
    }
    let lent = random_strip(maker, 600);
    strip(maker, &bytes(TSC1), &[0; 4], &lent, (0, 600));
    strip(maker, &bytes(FULL), &[0; 3], &lent, (299, 300));
}

fn refused_cards(maker: &mut Maker) {
    maker.section("strips: each refusal of a card, with states and spans good and bad");
    for card in REFUSED {
        for state in ["1,2,3,4", "4,4"] {
            for (place, count) in SPANS {
                maker.line(format!("strip {card} {state} 7,8,9 {place} {count}"));
            }
        }
    }
}

fn refused_states(maker: &mut Maker) {
    maker.section("strips: each refusal of a state, with spans good and bad");
    for (card, state) in STATES {
        for (place, count) in SPANS {
            maker.line(format!("strip {card} {state} 7,8,9 {place} {count}"));
        }
    }
}

/// The form of a line, as in the module `syntax`.
fn lines(maker: &mut Maker) {
    maker.section("form of a line: strips");
    maker.line(EDGES);
    syntax::blanks_and_counts(maker, SAMPLE);
    syntax::forms(maker, SAMPLE);
    for count in [600, 601] {
        let card = "00".repeat(count);
        let list = commas(vec![0; count]);
        maker.line(format!("strip {card} 0,0,0,0 1 0 1"));
        maker.line(format!("strip 00 {list} 1 0 1"));
        maker.line(format!("strip 00 0,0,0,0 {list} {count} 1"));
    }
    let zeros = "0".repeat(700);
    maker.line(format!("strip 00 1,2,3,4 {zeros}5,6 {zeros}1 {zeros}1"));
}

#[cfg(test)]
mod tests {
    use super::*;
    use crate::replay::{answer, answers};

    /// The lines of one or all of the sections.
    fn made(section: fn(&mut Maker)) -> Vec<u8> {
        let mut maker = Maker::new();
        section(&mut maker);
        maker.lines
    }

    /// The fill behind a fill answers as one fill of both.
    #[test]
    fn parts_are_the_whole() {
        let answers = answers(&made(parts));
        let answers: Vec<&str> = answers.lines().collect();
        assert!(answers.len() >= 90);
        for three in answers.chunks(3) {
            assert!(three[0].starts_with("strip "));
            assert_eq!(three[1], three[2]);
        }
    }

    /// The list of words in a case or an answer.
    fn list(field: &str) -> Vec<u32> {
        let word = |digits| u32::from_str_radix(digits, 16).unwrap();
        match field {
            "-" => Vec::new(),
            _ => field.split(',').map(word).collect(),
        }
    }

    /// What a strip that is not refused should answer, by the case `words`.
    fn by_words(case: &str) -> String {
        let fields: Vec<&str> = case.split(' ').collect();
        let [_, card, state, lent, place, count] = fields[..] else {
            panic!("six fields: {case}");
        };
        let drawn = answer(format!("words {card} {state} {count}").as_bytes()).unwrap();
        let drawn: Vec<&str> = drawn.split(' ').collect();
        let (mut strip, place): (Vec<u32>, usize) = (list(lent), place.parse().unwrap());
        for (number, word) in list(drawn[1]).into_iter().enumerate() {
            strip[place + number] = word;
        }
        format!("strip {} state {}", words(&strip), drawn[3])
    }

    /// Strip and state are as the case `words` says, within the span and outside it.
    #[test]
    fn strips_hold_the_words() {
        for line in made(make).split(|&byte| byte == b'\n') {
            match answer(line) {
                Some(answer) if answer.starts_with("strip ") => {
                    let case = String::from_utf8_lossy(line);
                    assert_eq!(answer, by_words(&case), "{case}");
                }
                _ => {}
            }
        }
    }
}
