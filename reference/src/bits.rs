//! Counts for the NIST tests (document 02, Eight): the bits of a strip as SP 800-22 reads them, and
//! what its frequency, cumulative sums and runs tests count.

use crate::{accept, mask};

/// The most words of a strip.
const MOST_STRIP: usize = 16_384;

/// The four integers; all 0 for no bits.
#[derive(Clone, Copy, PartialEq, Debug)]
pub struct BitCounts {
    pub balance: i64,  // ones minus zeros
    pub forward: u64,  // the largest distance from zero of the running sum
    pub backward: u64, // the same, read from the last bit to the first
    pub runs: u64,
}

/// The bits of the words, each word's top bit first.
fn bits(strip: &[u32], width: u8) -> Vec<bool> {
    let mut bits = Vec::new();
    for word in strip {
        for place in (0..width).rev() {
            bits.push((word >> place) & 1 == 1);
        }
    }
    bits
}

/// Ones minus zeros.
fn balance(bits: &[bool]) -> i64 {
    let ones = bits.iter().filter(|&&bit| bit).count();
    let zeros = bits.len() - ones;
    ones as i64 - zeros as i64
}

/// The largest distance from zero of the running sum, to which a one adds 1 and a zero -1.
fn largest_distance(bits: impl IntoIterator<Item = bool>) -> u64 {
    let (mut sum, mut largest) = (0i64, 0);
    for bit in bits {
        sum += if bit { 1 } else { -1 };
        largest = largest.max(sum.unsigned_abs());
    }
    largest
}

/// One run, and one more where neighbours differ; none without bits.
fn runs(bits: &[bool]) -> u64 {
    if bits.is_empty() {
        return 0;
    }
    let differing = bits.windows(2).filter(|pair| pair[0] != pair[1]);
    1 + differing.count() as u64
}

/// Refusals 22, 23, 24, in this order.
fn check_strip(strip: &[u32], width: u8, page_length: usize) -> Result<(), u8> {
    if strip.len() > MOST_STRIP {
        return Err(22);
    }
    if strip.iter().any(|&word| word > mask(width)) {
        return Err(23);
    }
    if page_length < usize::from(width) * strip.len() {
        return Err(24);
    }
    Ok(())
}

/// Writes the bits of the strip to the front of the page, as ASCII 0 and 1, and answers their
/// counts; or a refusal number with the page unchanged: 1 to 9 for the card, then 22, 23, 24.
pub fn call_bit_counts(card: &[u8], strip: &[u32], page: &mut [u8]) -> Result<BitCounts, u8> {
    let width = accept(card)?.width;
    check_strip(strip, width, page.len())?;
    let bits = bits(strip, width);
    for (byte, &bit) in page.iter_mut().zip(&bits) {
        *byte = if bit { b'1' } else { b'0' };
    }
    Ok(BitCounts {
        balance: balance(&bits),
        forward: largest_distance(bits.iter().copied()),
        backward: largest_distance(bits.iter().rev().copied()),
        runs: runs(&bits),
    })
}

#[cfg(test)]
mod tests {
    use super::*;
    use crate::cases::random_card;
    use crate::{encode, next, Card, TSC1_TABLE};

    const LENT: u8 = b'.';

    /// TSC-1 with words of this width, and 1 for its constant.
    fn of_width(width: u8) -> Vec<u8> {
        encode(&Card {
            words: 4,
            width,
            table: TSC1_TABLE.to_vec(),
            odd_power: 1,
            even_power: 2,
            constant: 1,
            filter: 1,
            sum_term: 1,
        })
    }

    /// One call: the answer, and the page after it as text.
    fn counted(card: &[u8], strip: &[u32], page: usize) -> (Result<BitCounts, u8>, String) {
        let mut page = vec![LENT; page];
        let answer = call_bit_counts(card, strip, &mut page);
        (answer, String::from_utf8(page).unwrap())
    }

    fn counts(balance: i64, forward: u64, backward: u64, runs: u64) -> BitCounts {
        BitCounts {
            balance,
            forward,
            backward,
            runs,
        }
    }

    /// The words that have these bits.
    fn words(text: &str, width: u8) -> Vec<u32> {
        let word = |bits| u32::from_str_radix(bits, 2).unwrap();
        let places = (0..text.len()).step_by(width.into());
        places
            .map(|place| word(&text[place..][..width.into()]))
            .collect()
    }

    /// The counts of a text of bits, in words of this width, with two bytes of the page behind them.
    fn assert_counts(text: &str, width: u8, expected: BitCounts) {
        let strip = words(text, width);
        let told = counted(&of_width(width), &strip, text.len() + 2);
        assert_eq!(told, (Ok(expected), format!("{text}..")), "{width}");
    }

    /// Ten bits that SP 800-22 works through: the sum 2 of the frequency test, the 7 runs, the largest
    /// cumulative sum 4. The running sums, forward and backward, are
    /// 1 0 1 2 1 2 1 2 1 2 and 1 0 1 0 1 0 1 2 1 2,
    /// 1 0 -1 0 1 0 1 0 1 2 and 1 2 1 2 1 2 3 2 1 2,
    /// 1 0 1 2 1 2 1 2 3 4 and 1 2 3 2 3 2 3 4 3 4.
    #[test]
    fn published_examples() {
        for (text, expected) in [
            ("1011010101", counts(2, 2, 2, 9)),
            ("1001101011", counts(2, 2, 3, 7)),
            ("1011010111", counts(4, 4, 4, 7)),
        ] {
            for width in [2, 5, 10] {
                assert_counts(text, width, expected);
            }
        }
    }

    /// Its example of 100 bits, those of pi: the sum -16, 52 runs, the largest cumulative sums 16 and 19.
    #[test]
    fn published_hundred_bits() {
        let text = "11001001000011111101101010100010001000010110100011\
            00001000110100110001001100011001100010100010111000";
        for width in [2, 4, 5, 10, 20, 25] {
            assert_counts(text, width, counts(-16, 16, 19, 52));
        }
    }

    #[test]
    fn few_bits() {
        for (text, expected) in [
            ("00", counts(-2, 2, 2, 1)),
            ("01", counts(0, 1, 1, 2)),
            ("10", counts(0, 1, 1, 2)),
            ("11", counts(2, 2, 2, 1)),
            ("001", counts(-1, 2, 1, 2)),
            ("100", counts(-1, 1, 2, 2)),
            ("011", counts(1, 1, 2, 2)),
            ("110", counts(1, 2, 1, 2)),
            ("000111", counts(0, 3, 3, 2)),
            ("010101", counts(0, 1, 1, 6)),
        ] {
            assert_counts(text, text.len() as u8, expected);
        }
    }

    /// Zeros alone, ones alone, and words of zeros and of ones by turns.
    #[test]
    fn even_words() {
        for width in 2..=32u8 {
            let (card, ones) = (of_width(width), mask(width));
            for length in 1..=40 {
                let bits = length * i64::from(width);
                let most = bits as u64;
                let told = |strip: &[u32]| counted(&card, strip, bits as usize).0;
                let zeros = vec![0; length as usize];
                assert_eq!(told(&zeros), Ok(counts(-bits, most, most, 1)));
                let all = vec![ones; length as usize];
                assert_eq!(told(&all), Ok(counts(bits, most, most, 1)));
                let turns: Vec<u32> = (0..length as u32).map(|k| (k + 1) % 2 * ones).collect();
                let word = u64::from(width);
                let odd = i64::from(width) * (length % 2);
                assert_eq!(told(&turns), Ok(counts(odd, word, word, length as u64)));
            }
        }
    }

    #[test]
    fn no_bits() {
        for width in 2..=32 {
            for page in [0, 1, 600] {
                let none = (Ok(counts(0, 0, 0, 0)), ".".repeat(page));
                assert_eq!(counted(&of_width(width), &[], page), none);
            }
        }
    }

    /// Each bit of a word alone: the top bit comes first.
    #[test]
    fn top_bit_first() {
        for width in 2..=32 {
            for place in 0..width {
                let before = usize::from(width - 1 - place);
                let mut text = "0".repeat(width.into());
                text.replace_range(before..=before, "1");
                let (_, page) = counted(&of_width(width), &[1 << place, 0], 64);
                assert!(page.starts_with(&text), "{page}");
            }
        }
    }

    /// Exactly n bytes for each word, and one byte less.
    #[test]
    fn page_sizes() {
        for width in 2..=32u8 {
            for length in 0..=20 {
                let (card, strip) = (of_width(width), vec![1; length]);
                let needed = usize::from(width) * length;
                for page in needed..needed + 3 {
                    let (answer, page) = counted(&card, &strip, page);
                    assert!(answer.is_ok());
                    assert_eq!(page[needed..].replace('.', ""), "");
                    assert!(!page[..needed].contains('.'));
                }
                for page in [0, needed / 2, needed.saturating_sub(1)] {
                    if page < needed {
                        let refused = (Err(24), ".".repeat(page));
                        assert_eq!(counted(&card, &strip, page), refused);
                    }
                }
            }
        }
    }

    /// A word of 2^n or more at each place, whatever the page; with 32 bits there is none.
    #[test]
    fn wide_words() {
        for width in 2..32 {
            let card = of_width(width);
            for word in [1 << width, mask(width) << 1, 1 << 31, u32::MAX] {
                for place in 0..5 {
                    let mut strip = [mask(width); 5];
                    strip[place] = word;
                    for page in [0, 5 * usize::from(width), 600] {
                        let refused = (Err(23), ".".repeat(page));
                        assert_eq!(counted(&card, &strip, page), refused);
                    }
                }
            }
        }
        assert!(counted(&of_width(32), &[u32::MAX; 5], 160).0.is_ok());
    }

    /// 16,384 words and one more.
    #[test]
    fn long_strips() {
        for width in [2, 31, 32] {
            let (card, needed) = (of_width(width), usize::from(width) * 16_384);
            assert!(counted(&card, &[1; 16_384], needed).0.is_ok());
            for (words, page, refusal) in [
                (16_384, needed - 1, 24),
                (16_384, 0, 24),
                (16_385, needed + 32, 22),
                (16_385, 0, 22),
                (65_537, 65_537 * 32, 22),
            ] {
                let refused = (Err(refusal), ".".repeat(page));
                assert_eq!(counted(&card, &vec![1; words], page), refused);
            }
        }
        let told = |word| counted(&of_width(32), &[word; 16_384], 524_288).0;
        let all = counts(524_288, 524_288, 524_288, 1);
        assert_eq!(told(u32::MAX), Ok(all));
        assert_eq!(told(0xaaaa_aaaa), Ok(counts(0, 1, 1, 524_288)));
    }

    /// 22 before 23, and 23 before 24.
    #[test]
    fn refusals_in_order() {
        for width in 2..32 {
            let mut strip = vec![0; 16_384];
            strip.push(1 << width);
            for page in [0, 1, 32 * 16_385] {
                let told = |strip: &[u32]| counted(&of_width(width), strip, page);
                assert_eq!(told(&strip), (Err(22), ".".repeat(page)));
                assert_eq!(told(&strip[1..]), (Err(23), ".".repeat(page)));
            }
        }
    }

    /// A card's refusal comes first, whatever strip and page are.
    #[test]
    fn cards_come_first() {
        let rows: [(&[u8], u8); 9] = [
            (&[], 1),
            (&[0x01, 1], 2),
            (&[0x08, 1], 3),
            (&[0x01, 3], 4),
            (&[0x05, 2, 0, 1, 2, 3, 0], 5),
            (&[0x02, 28], 6),
            (&[0x05, 2, 0, 1, 2, 3], 7),
            (&[0x20, 2, 0, 0, 0], 8),
            (&[0x08, 2], 9),
        ];
        for (card, refusal) in rows {
            for strip in [&[][..], &[1, 2], &[u32::MAX; 3], &[0; 16_385]] {
                for page in [0, 1, 64, 600] {
                    let refused = (Err(refusal), ".".repeat(page));
                    assert_eq!(counted(card, strip, page), refused);
                }
            }
        }
    }

    /// Every prefix summed anew, and the runs split apart.
    fn by_text(text: &str) -> BitCounts {
        let sum = |text: &str| text.matches('1').count() as i64 - text.matches('0').count() as i64;
        let distances = |text: &str| {
            let prefixes = (0..=text.len()).map(|end| sum(&text[..end]).unsigned_abs());
            prefixes.max().unwrap()
        };
        let reversed: String = text.chars().rev().collect();
        let apart = text.replace("01", "0 1").replace("10", "1 0");
        counts(
            sum(text),
            distances(text),
            distances(&reversed),
            apart.split_whitespace().count() as u64,
        )
    }

    /// Random words of random cards: the page's front is the bits, and the counts are its own.
    #[test]
    fn counts_of_the_page() {
        let mut x = 11;
        for _ in 0..3_000 {
            let (m, n) = (2 + next(&mut x) % 7, 2 + next(&mut x) % 31);
            let card = encode(&random_card(m as u8, n as u8, &mut x));
            let sparse = next(&mut x) % 3;
            let word = |_| match sparse {
                0 => next(&mut x) & next(&mut x) & next(&mut x) & mask(n as u8),
                1 => (next(&mut x) | next(&mut x) | next(&mut x)) & mask(n as u8),
                _ => next(&mut x) & mask(n as u8),
            };
            let strip: Vec<u32> = (0..12).map(word).collect();
            let strip = &strip[..next(&mut x) as usize % 13];
            let needed = strip.len() * n as usize;
            let (answer, page) = counted(&card, strip, needed + 3);
            let (text, behind) = page.split_at(needed);
            assert_eq!(behind, "...");
            assert_eq!(words(text, n as u8), strip);
            assert_eq!(answer, Ok(by_text(text)), "{text}");
        }
    }
}
