//! Counts for the NIST tests (document 02, Eight): words of every width and kind, pages of every
//! length around the needed one, strips up to the longest and past it, the refusals 1 to 9 and 22 to
//! 24, and the form of a line.

use super::ranks::text;
use super::{short, syntax, Maker, FULL, PROGRAM, REFUSED, TSC1, TSC2};
use crate::fill::call_fill;
use crate::replay::commas;
use crate::{encode, mask, Card, TSC1_TABLE};

/// The longest page of a case.
const MOST_PAGE: usize = 600;

/// A legal line.
const SAMPLE: &str = "nist 00 1,2 64";

/// Lines at the edges: digits of either case, leading zeros, the largest numbers and one more; a
/// line is judged before the call; other names.
const EDGES: &str = "\
nist 08FF ABCDEF01,00000000000000ffffffff 0064
nist 00 abcdef01,FFFFFFFF 64
nist 00 - 00000000000000000000
nist 00 1 600
nist 00 1 601
nist 00 1 65568
nist 00 1 18446744073709551648
nist 00 1 0x20
nist 00 1 -
nist 00 100000000 64
nist 00 1,10000000000000001 64
nist 00 0x1 64
nist 0 1 64
nist 0802 1 601
nist 0802 1,g 64
nist - - 0
nist - - -
nist 1 00 64
nist 00 64 1
nist 1 64
nist 00 0,0,0,0 1 64
Nist 00 1 64
nists 00 1 64
bits 00 1 64
counts 00 1 64";

pub fn make(maker: &mut Maker) {
    every_width(maker);
    kinds_of_words(maker);
    single_bits(maker);
    lengths(maker);
    words_drawn(maker);
    pages(maker);
    full_pages(maker);
    wide_words(maker);
    refused_cards(maker);
    long_strips(maker);
    lines(maker);
}

/// The case with these fields.
fn nist(maker: &mut Maker, card: &str, strip: &[u32], page: usize) {
    maker.line(format!("nist {card} {} {page}", short(strip)));
}

/// A card of this width, mostly a short one: the table of TSC-1 and any constant.
fn card(maker: &mut Maker, width: u8) -> String {
    if maker.below(8) == 0 {
        let words = [2, 2, 3, 4, 5][maker.below(5)];
        return text(&maker.card(words, width));
    }
    text(&Card {
        words: 4,
        width,
        table: TSC1_TABLE.to_vec(),
        odd_power: 1,
        even_power: 2,
        constant: maker.word() & mask(width) | 1,
        filter: 1,
        sum_term: 1,
    })
}

/// The bytes that a page needs.
fn needed(width: u8, strip: &[u32]) -> usize {
    usize::from(width) * strip.len()
}

/// Random words of this width.
fn random_words(maker: &mut Maker, width: u8, length: usize) -> Vec<u32> {
    (0..length).map(|_| maker.word() & mask(width)).collect()
}

/// Pages that just have room, that just have not, and that have more, on three strips and one card.
fn every_width(maker: &mut Maker) {
    maker.section("counts: 2 to 32 bits, random words, pages around the needed length");
    for width in 2..=32 {
        let card = card(maker, width);
        for _ in 0..3 {
            let length = 1 + maker.below(9);
            let strip = random_words(maker, width, length);
            let needed = needed(width, &strip);
            let more = 1 + maker.below(9);
            for page in [needed - 1, needed, needed + more] {
                nist(maker, &card, &strip, page);
            }
        }
    }
}

/// A word of a kind: zeros, ones, by turns, half and half, one bit alone, few ones, few zeros.
fn word_of(maker: &mut Maker, kind: usize, width: u8) -> u32 {
    let word = match kind {
        0 => 0,
        1 => u32::MAX,
        2 => 0x5555_5555 << maker.below(2),
        3 => mask(width) >> (width / 2),
        4 => !(mask(width) >> (width / 2)),
        5 => 1 << maker.below(32),
        6 => !(1 << maker.below(32)),
        7 => maker.word() & maker.word(),
        _ => maker.word() | maker.word(),
    };
    word & mask(width)
}

/// Strips of one kind, and strips whose first words are of one kind and the others of another, so
/// that the running sum goes far and comes back.
fn kinds_of_words(maker: &mut Maker) {
    maker.section(
        "counts: words of zeros, of ones, by turns, half and half, with few ones or zeros",
    );
    for number in 0..144 {
        let width = 2 + maker.below(31) as u8;
        let length = 1 + maker.below(MOST_PAGE / usize::from(width)).min(17);
        let kinds = match number {
            0..36 => [number % 9; 2],
            _ => [number % 9, maker.below(9)],
        };
        let place = maker.below(length + 1);
        let strip: Vec<u32> = (0..length)
            .map(|k| word_of(maker, kinds[usize::from(k >= place)], width))
            .collect();
        let page = needed(width, &strip) + [0, 0, 1, 2][maker.below(4)];
        let card = card(maker, width);
        nist(maker, &card, &strip, page.min(MOST_PAGE));
    }
}

/// Each bit of a word alone, then each bit alone a zero, with a word beside it.
fn single_bits(maker: &mut Maker) {
    maker.section("counts: one bit alone, at each place of 32, 17 and 2 bits");
    for (card, width) in [(TSC1, 32), (FULL, 17), (PROGRAM, 2)] {
        for place in 0..width {
            nist(maker, card, &[1 << place], width.into());
            let beside = maker.word() & mask(width);
            let strip = [mask(width) ^ 1 << place, beside];
            nist(maker, card, &strip, needed(width, &strip));
        }
    }
}

/// No words too, on no page and on long ones.
fn lengths(maker: &mut Maker) {
    maker.section("counts: strips of 0 to 18 words");
    for (card, width) in [(PROGRAM, 2), (FULL, 17), ("021f", 31), (TSC2, 32)] {
        for length in 0..=18 {
            let strip = random_words(maker, width, length);
            nist(maker, card, &strip, needed(width, &strip));
        }
        for page in [1, 2, 32, MOST_PAGE] {
            nist(maker, card, &[], page);
        }
    }
}

/// What the card itself draws.
fn words_drawn(maker: &mut Maker) {
    maker.section("counts: words that a card draws");
    for number in 0..60 {
        let card = match number {
            0..20 => maker.card(4, 32),
            _ => maker.any_card(),
        };
        let mut state = maker.state(card.words, card.width);
        let length = 1 + maker.below(12);
        let (bytes, mut strip) = (encode(&card), vec![0; length]);
        call_fill(&bytes, &mut state, &mut strip, 0, length).expect("an accepted call");
        nist(maker, &text(&card), &strip, needed(card.width, &strip));
    }
}

fn pages(maker: &mut Maker) {
    maker.section("counts: pages of every length up to the needed one and more, and long ones");
    for (card, width, length) in [(PROGRAM, 2, 7), ("220501000000", 5, 3), (FULL, 17, 2)] {
        let strip = random_words(maker, width, length);
        for page in 0..=needed(width, &strip) + 2 {
            nist(maker, card, &strip, page);
        }
        for page in [64, 255, 256, 257, MOST_PAGE] {
            nist(maker, card, &strip, page);
        }
    }
}

/// As many bits as a page can have, and a word more.
fn full_pages(maker: &mut Maker) {
    maker.section("counts: up to 600 bits, and a word more");
    for width in [2, 3, 8, 25, 30, 31, 32] {
        let most = MOST_PAGE / usize::from(width);
        let card = card(maker, width);
        let strip = random_words(maker, width, most + 1);
        nist(maker, &card, &strip, MOST_PAGE);
        nist(maker, &card, &strip[1..], needed(width, &strip[1..]) - 1);
        nist(maker, &card, &strip[1..], needed(width, &strip[1..]));
    }
}

/// Each place of a strip has a word too wide, the others being as large as can be. With 32 bits none
/// is too wide.
fn wide_words(maker: &mut Maker) {
    maker.section("counts: words of 2^n - 1, of 2^n and more, on pages good and bad");
    for width in 2..=31 {
        let card = card(maker, width);
        let length = 1 + maker.below(4);
        let largest = vec![mask(width); length];
        let needed = needed(width, &largest);
        nist(maker, &card, &largest, needed);
        for place in 0..length {
            let mut strip = largest.clone();
            let high = 1 << (u32::from(width) + maker.below(32 - usize::from(width)) as u32);
            strip[place] = [1 << width, high, high | maker.word(), u32::MAX][maker.below(4)];
            let page = [needed, needed - 1, 0, MOST_PAGE][maker.below(4)];
            nist(maker, &card, &strip, page);
        }
        let mut first_and_last = largest;
        first_and_last[0] = 1 << width;
        first_and_last[length - 1] = 1 << 31;
        nist(maker, &card, &first_and_last, needed);
    }
    for length in [1, 2, 5] {
        nist(maker, TSC1, &vec![u32::MAX; length], 32 * length);
    }
}

fn refused_cards(maker: &mut Maker) {
    maker.section("counts: each refusal of a card, with strips and pages good and bad");
    for card in REFUSED {
        for strip in [&[][..], &[1, 2], &[0, u32::MAX]] {
            for page in [0, 64] {
                nist(maker, card, strip, page);
            }
        }
    }
}

/// No page has room for 16,384 words of 2 bits. The line of 16,400 has a refused card.
fn long_strips(maker: &mut Maker) {
    maker.section(
        "counts: 16,384 and 16,385 words, the last too wide or not, and lines of 16,400 and 16,401",
    );
    let mut strip: Vec<u32> = (0..16_384).map(|_| maker.word() & mask(2)).collect();
    nist(maker, PROGRAM, &strip, MOST_PAGE);
    strip[16_383] = 4;
    nist(maker, PROGRAM, &strip, MOST_PAGE);
    strip.push(0);
    nist(maker, PROGRAM, &strip, 0);
    strip.resize(16_400, 1);
    nist(maker, "0802", &strip, 0);
    strip.push(1);
    nist(maker, TSC1, &strip, MOST_PAGE);
}

/// The form of a line, as in the module `syntax`.
fn lines(maker: &mut Maker) {
    maker.section("form of a line: counts");
    maker.line(EDGES);
    syntax::blanks_and_counts(maker, SAMPLE);
    syntax::forms(maker, SAMPLE);
    for count in [600, 601] {
        maker.line(format!("nist {} 1 64", "00".repeat(count)));
        maker.line(format!("nist 00 {} 600", commas(vec![0; count])));
    }
    let zeros = "0".repeat(700);
    maker.line(format!("nist 00 {zeros}1,2 {zeros}64"));
}

#[cfg(test)]
mod tests {
    use super::super::bytes;
    use super::*;
    use crate::accept;
    use crate::replay::answer;
    use std::collections::HashSet;

    /// The legal cases by their fields, and their answers by their words.
    fn answered() -> Vec<(Vec<String>, Vec<String>)> {
        let mut maker = Maker::new();
        make(&mut maker);
        let split = |line: &str| line.split(' ').map(str::to_string).collect();
        let row = |line: &[u8]| {
            let told = answer(line).filter(|told| told != "syntax")?;
            Some((split(&String::from_utf8_lossy(line)), split(&told)))
        };
        let lines = maker.lines.split(|&byte| byte == b'\n');
        lines.filter_map(row).collect()
    }

    /// Card, strip and page of a case.
    fn fields(case: &[String]) -> (Vec<u8>, Vec<u32>, usize) {
        let word = |digits| u32::from_str_radix(digits, 16).unwrap();
        let strip = match case[2].as_str() {
            "-" => Vec::new(),
            list => list.split(',').map(word).collect(),
        };
        (bytes(&case[1]), strip, case[3].parse().unwrap())
    }

    /// What a running sum comes to, and how far it goes.
    fn sum(bits: impl Iterator<Item = char>) -> (i32, i32) {
        bits.fold((0, 0), |(sum, most), bit| {
            let sum = sum + if bit == '1' { 1 } else { -1 };
            (sum, most.max(sum.abs()))
        })
    }

    /// The page has the words' digits in base 2 and the bytes as lent behind them; the counts are
    /// those of the text.
    #[test]
    fn pages_have_the_bits() {
        for (case, told) in answered() {
            if told[0] != "counts" {
                continue;
            }
            let (card, strip, length) = fields(&case);
            let width = usize::from(accept(&card).unwrap().width);
            let text: String = strip
                .iter()
                .map(|word| format!("{word:0width$b}"))
                .collect();
            let page = match length {
                0 => "-".to_string(),
                _ => format!("{text:.<length$}"),
            };
            let (balance, forward) = sum(text.chars());
            let (_, backward) = sum(text.chars().rev());
            let changes = text.matches("01").count() + text.matches("10").count();
            let runs = usize::from(!text.is_empty()) + changes;
            let counts = format!("counts {balance} {forward} {backward} {runs} page {page}");
            assert_eq!(told.join(" "), counts, "{case:?}");
        }
    }

    /// By the first check that applies, worked out apart from the call.
    #[test]
    fn refusals_by_the_fields() {
        for (case, told) in answered() {
            let (card, strip, page) = fields(&case);
            let width = match accept(&card) {
                Ok(values) => u32::from(values.width),
                Err(refusal) => {
                    assert_eq!(told.join(" "), format!("refused {refusal}"));
                    continue;
                }
            };
            let wide = |word: &u32| u64::from(*word) >> width != 0;
            let refusal = match strip.len() {
                16_385.. => Some("22"),
                _ if strip.iter().any(wide) => Some("23"),
                words if page < words * width as usize => Some("24"),
                _ => None,
            };
            let refused = (told[0] == "refused").then(|| told[1].as_str());
            assert_eq!(refused, refusal, "{case:?}");
        }
    }

    /// Each width has counts on a page with just room, 24 on one a byte short, and 23 where a word
    /// can be too wide; runs, balances and distances are of all sizes.
    #[test]
    fn every_kind() {
        let mut found = HashSet::new();
        let mut values = [(); 4].map(|()| HashSet::new());
        for (case, told) in answered() {
            let (card, strip, page) = fields(&case);
            let Ok(width) = accept(&card).map(|values| values.width) else {
                continue;
            };
            let needed = needed(width, &strip);
            match told[..] {
                _ if told[0] == "counts" && page == needed => found.insert((width, 0)),
                _ if told[1] == "24" && page + 1 == needed => found.insert((width, 24)),
                _ if told[1] == "23" => found.insert((width, 23)),
                _ => false,
            };
            if told[0] == "counts" {
                for (values, told) in values.iter_mut().zip(&told[1..]) {
                    values.insert(told.parse::<i32>().unwrap());
                }
            }
        }
        assert_eq!(found.len(), 31 + 31 + 30);
        let [balances, forward, backward, runs] = values;
        assert!(balances.iter().any(|&sum| sum < -200) && balances.iter().any(|&sum| sum > 200));
        assert!(forward.len() >= 80 && backward.len() >= 80 && runs.len() >= 100);
        assert!(forward.difference(&backward).count() >= 5);
    }
}
