//! The counts of NIST SP 800-22 through the wrapper: document 02, Eight.
use tiedraw::{bit_counts, BitCounts, Card, Generator, Refusal, Values, MOST_STRIP_WORDS};

const PROGRAM: &[u8] = &[0x27, 2, 2, 1, 2, 3, 0, 1, 0, 0, 0];
const LENT: u8 = 0xa5;

/// TSC-1's card, but for words of this width.
fn card_of(width: u8) -> Card {
    let constant = Values::default().constant & (u32::MAX >> (32 - width));
    let values = Values {
        width,
        constant,
        ..Values::default()
    };
    Card::from_values(&values).unwrap()
}

fn counts(balance: i32, forward: u32, backward: u32, runs: u32) -> BitCounts {
    BitCounts {
        balance,
        forward,
        backward,
        runs,
    }
}

/// The largest distance from zero of the running sum.
fn excursion<'a>(bits: impl Iterator<Item = &'a u8>) -> u32 {
    let mut sum = 0_i32;
    let sums = bits.map(|&bit| {
        sum += if bit == b'1' { 1 } else { -1 };
        sum.unsigned_abs()
    });
    sums.max().unwrap_or(0)
}

/// The counts of bits, as the standard defines them.
fn reckoned(bits: &[u8]) -> BitCounts {
    let ones = bits.iter().filter(|&&bit| bit == b'1').count() as i32;
    let changes = bits.windows(2).filter(|pair| pair[0] != pair[1]).count();
    let runs = if bits.is_empty() { 0 } else { 1 + changes };
    counts(
        2 * ones - bits.len() as i32,
        excursion(bits.iter()),
        excursion(bits.iter().rev()),
        runs as u32,
    )
}

/// The bits of words, each the top bit first.
fn spelt(words: &[u32], width: usize) -> Vec<u8> {
    let spell = |word: &u32| format!("{word:0width$b}").into_bytes();
    words.iter().flat_map(spell).collect()
}

/// What the card answers, and the same by the call on a page of any length, whose further bytes are as they were lent.
fn told(card: &Card, words: &[u32]) -> (BitCounts, Vec<u8>) {
    let (counts, bits) = card.bit_counts(words).unwrap();
    for further in [0, 1, 100] {
        let mut page = vec![LENT; bits.len() + further];
        assert_eq!(bit_counts(card.bytes(), words, &mut page), Ok(counts));
        assert_eq!(page[..bits.len()], bits);
        assert_eq!(page[bits.len()..], vec![LENT; further]);
    }
    (counts, bits)
}

#[test]
fn the_standards_examples() {
    let card = card_of(10);
    let word = |bits: &[u8]| {
        bits.iter()
            .fold(0, |word, bit| 2 * word + u32::from(bit & 1))
    };
    let told = |bits: &str| {
        let words: Vec<u32> = bits.as_bytes().chunks(10).map(word).collect();
        let (counts, written) = told(&card, &words);
        assert_eq!(written, bits.as_bytes());
        counts
    };
    // of the frequency test (balance 2), the runs test (7 runs), the cumulative sums test (4 forward)
    assert_eq!(told("1011010101"), counts(2, 2, 2, 9));
    assert_eq!(told("1001101011"), counts(2, 2, 3, 7));
    assert_eq!(told("1011010111"), counts(4, 4, 4, 7));
    // of all three: the first 100 binary digits of pi
    let pi = "11001001000011111101101010100010001000010110100011\
              00001000110100110001001100011001100010100010111000";
    assert_eq!(told(pi), counts(-16, 16, 19, 52));
}

#[test]
fn no_bits_count_0() {
    for width in [2, 10, 32] {
        let none = (counts(0, 0, 0, 0), vec![]);
        assert_eq!(told(&card_of(width), &[]), none);
    }
}

#[test]
fn each_word_of_every_width_is_written_top_bit_first() {
    for width in 2..=32_u8 {
        let (card, mask) = (card_of(width), u32::MAX >> (32 - width));
        let words = [1, 0, mask, 1 << (width - 1), 0xdead_beef & mask, 2];
        let bits = spelt(&words, width.into());
        assert_eq!(told(&card, &words), (reckoned(&bits), bits));
    }
    let card = Card::new(PROGRAM).unwrap();
    assert_eq!(told(&card, &[0, 1, 2, 3]).1, b"00011011");
}

#[test]
fn the_words_of_a_generator_are_counted() {
    for card in [Card::default(), card_of(29), card_of(7)] {
        let mut server = Generator::new(card.clone(), &[0; 4]).unwrap();
        for length in [1, 2, 100, 5000] {
            let mut words = vec![0; length];
            server.fill(&mut words);
            let bits = spelt(&words, card.width() as usize);
            assert_eq!(told(&card, &words), (reckoned(&bits), bits));
        }
    }
}

#[test]
fn the_sums_may_lie_on_either_side() {
    let card = card_of(8);
    assert_eq!(told(&card, &[0xf0]).0, counts(0, 4, 4, 2));
    assert_eq!(told(&card, &[0x0f]).0, counts(0, 4, 4, 2));
    assert_eq!(told(&card, &[0x00]).0, counts(-8, 8, 8, 1));
    assert_eq!(told(&card, &[0x07]).0, counts(-2, 5, 3, 2));
    assert_eq!(told(&card, &[0xe0]).0, counts(-2, 3, 5, 2));
    assert_eq!(told(&card, &[0x55]).0, counts(0, 1, 1, 8));
}

#[test]
fn the_longest_strip() {
    let card = Card::default();
    let most = (MOST_STRIP_WORDS * 32) as u32;
    for (word, expected) in [
        (u32::MAX, counts(most as i32, most, most, 1)),
        (0, counts(-(most as i32), most, most, 1)),
        (0xaaaa_aaaa, counts(0, 1, 1, most)),
    ] {
        let words = vec![word; MOST_STRIP_WORDS];
        assert_eq!(told(&card, &words), (expected, spelt(&words, 32)));
    }
    let longer = vec![0; MOST_STRIP_WORDS + 1];
    assert_eq!(card.bit_counts(&longer), Err(Refusal::StripTooLong));
}

// ---- Refusals.

/// The refusal of a call on a page of so many bytes, which are as they were lent.
fn refused(card: &[u8], words: &[u32], room: usize) -> Refusal {
    let mut page = vec![LENT; room];
    let refusal = bit_counts(card, words, &mut page).unwrap_err();
    assert_eq!(page, vec![LENT; room]);
    refusal
}

#[test]
fn a_card_is_refused_before_the_strip() {
    let rows: [&[u8]; 9] = [
        &[],
        &[0x40, 3],
        &[0x08, 1],
        &[0x01, 3],
        &[0, 0],
        &[0x02, 28],
        &[0x05, 2, 0, 1, 2, 3],
        &[0x20, 2, 0, 0, 0],
        &[0x08, 2],
    ];
    for (number, card) in (1..).zip(rows) {
        for words in [&[][..], &[0], &vec![u32::MAX; MOST_STRIP_WORDS + 1]] {
            for room in [0, 64] {
                assert_eq!(refused(card, words, room).number(), number);
            }
        }
    }
}

#[test]
fn a_strip_that_is_too_long_then_a_wide_word_then_a_small_page() {
    let wide = vec![4; MOST_STRIP_WORDS + 1];
    for room in [0, 3, 2 * wide.len(), 40_000] {
        assert_eq!(refused(PROGRAM, &wide, room), Refusal::StripTooLong);
    }
    for room in [0, 3, 2 * MOST_STRIP_WORDS] {
        let longest = &wide[1..];
        assert_eq!(refused(PROGRAM, longest, room), Refusal::StripWordTooWide);
        for words in [[4, 0, 3], [0, 4, 3], [0, 3, 4], [3, 0, u32::MAX]] {
            assert_eq!(refused(PROGRAM, &words, room), Refusal::StripWordTooWide);
        }
    }
    for room in 0..6 {
        assert_eq!(refused(PROGRAM, &[0, 3, 2], room), Refusal::BitPageTooSmall);
    }
    assert!(bit_counts(PROGRAM, &[0, 3, 2], &mut [LENT; 6]).is_ok());
    let longest = &vec![3; MOST_STRIP_WORDS];
    let needed = 2 * MOST_STRIP_WORDS;
    assert_eq!(
        refused(PROGRAM, longest, needed - 1),
        Refusal::BitPageTooSmall
    );
    assert!(bit_counts(PROGRAM, longest, &mut vec![LENT; needed]).is_ok());
}

#[test]
fn words_at_the_edge_of_each_width() {
    for width in 2..=31 {
        let (card, bound) = (card_of(width), 1_u32 << width);
        assert!(card.bit_counts(&[bound - 1]).is_ok());
        for word in [bound, bound + 1, u32::MAX] {
            assert_eq!(card.bit_counts(&[word]), Err(Refusal::StripWordTooWide));
        }
    }
    assert!(card_of(32).bit_counts(&[u32::MAX]).is_ok());
}

#[test]
fn the_refusals_of_counts_have_their_numbers_and_trade_words() {
    let long = vec![0; MOST_STRIP_WORDS + 1];
    for (refusal, number, text) in [
        (
            refused(PROGRAM, &long, 0),
            22,
            "refusal 22 (strip too long): the strip has more than 16,384 words",
        ),
        (
            refused(PROGRAM, &[4], 0),
            23,
            "refusal 23 (strip bits): a strip word is wider than the card says",
        ),
        (
            refused(PROGRAM, &[3], 1),
            24,
            "refusal 24 (bit page): the page has fewer bytes than the strip has bits",
        ),
    ] {
        assert_eq!(
            (refusal.number(), refusal.to_string()),
            (number, text.into())
        );
    }
}
