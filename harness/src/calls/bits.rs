//! Counts of bits (document 02, Eight), by the library and by the second program, and what is promised of them.

use super::promises::demand;
use super::{compare_call, expected, kind_of_card, lend, library, row, shared, widened};
use super::{Observed, GUARD, GUARD_BYTE, NIST};
use crate::inputs::Input;
use reference::bits::call_bit_counts;
use reference::mask;
use tiedraw::ffi::tiedraw_count_bits;
use tiedraw::MOST_STRIP_WORDS;

// ---- The library, and the second program. The page is what is lent; the strip is only read.

pub(super) fn library_counts(input: &Input) -> Observed {
    let (card, n) = (shared(&input.card), input.card.len());
    let on_strip = |strip: *mut u32, length| {
        lend(&input.page, GUARD_BYTE, |page, room| unsafe {
            tiedraw_count_bits(card, n, strip, length, page, room)
        })
    };
    let ((a, page, around_page), strip, around) = lend(&input.strip, GUARD, on_strip);
    let balance = i64::from(a.balance) as u64;
    let others = [a.forward, a.backward, a.runs].map(u64::from);
    Observed {
        values: row([balance].into_iter().chain(others)),
        refusal: a.refusal,
        lent: widened(&page),
        strip,
        around: around && around_page,
    }
}

pub(super) fn second_counts(input: &Input) -> Observed {
    let mut page = input.page.clone();
    let told = call_bit_counts(&input.card, &input.strip, &mut page);
    let values = told.map(|c| row([c.balance as u64, c.forward, c.backward, c.runs]));
    Observed {
        strip: input.strip.clone(),
        ..expected(values, widened(&page))
    }
}

// ---- What is promised, held on the library's own answers.

/// The words whose bits are written there; none where there is another byte than 0 and 1.
fn words_of(text: &[u32], width: u8) -> Option<Vec<u32>> {
    let add = |word: u32, &byte: &u32| match byte {
        0x30 => Some(word << 1),
        0x31 => Some(word << 1 | 1),
        _ => None,
    };
    let words = text.chunks(width.into());
    words.map(|bits| bits.iter().try_fold(0, add)).collect()
}

/// Neither distance is less than the balance's, nor do they differ by more than that.
fn bounded(after: &Observed, bits: u64) -> bool {
    let [balance, forward, backward, runs, ..] = after.values;
    let distance = (balance as i64).unsigned_abs();
    let far = [forward, backward].map(|count| (distance..=bits).contains(&count));
    far == [true; 2]
        && forward.abs_diff(backward) <= distance
        && (bits ^ balance) & 1 == 0
        && runs <= bits
        && (runs == 0) == (bits == 0)
}

/// The counts with other words in the strip's place.
fn with_strip(input: &Input, strip: impl Iterator<Item = u32>) -> [u64; 4] {
    let other = Input {
        strip: strip.collect(),
        ..input.clone()
    };
    let [balance, forward, backward, runs, ..] = library(NIST, &other).values;
    [balance, forward, backward, runs]
}

/// Of an input that is not refused.
fn keeps_promises(input: &Input, after: &Observed, width: u8) -> Result<(), String> {
    let bits = usize::from(width) * input.strip.len();
    let [balance, forward, backward, runs, ..] = after.values;
    let read = words_of(&after.lent[..bits], width);
    let same = read.as_ref() == Some(&input.strip);
    demand(same, "the bits on the page are the words", input)?;
    let bounded = bounded(after, bits as u64);
    demand(bounded, "balance, distances and runs go together", input)?;

    let last_first = |word: &u32| word.reverse_bits() >> (32 - width);
    let told = with_strip(input, input.strip.iter().rev().map(last_first));
    let exchanged = told == [balance, backward, forward, runs];
    demand(exchanged, "reversed bits exchange the distances", input)?;

    let told = with_strip(input, input.strip.iter().map(|word| word ^ mask(width)));
    let negated = told == [balance.wrapping_neg(), forward, backward, runs];
    demand(negated, "flipped bits negate the balance alone", input)
}

// ---- The comparison.

/// What must come up; an input may be of several kinds.
pub const BITS: [&str; 14] = [
    "of no bits",
    "of more zeros",
    "of as many zeros as ones",
    "of more ones",
    "farther from zero forward",
    "farther from zero backward",
    "of one run",
    "of neighbours that all differ",
    "on a page with just room",
    "on a page with more room",
    "of 16,384 words of 32 bits",
    "of one word too many",
    "of words up to 2^n",
    "on a page that lacks one byte",
];

/// Which kinds of BITS an input is of.
fn kinds(input: &Input, after: &Observed, width: u8) -> [bool; BITS.len()] {
    let (words, page) = (input.strip.len(), input.page.len());
    let bits = usize::from(width) * words;
    let [balance, forward, backward, runs, ..] = after.values.map(|value| value as i64);
    let counted = after.refusal == 0;
    let some = counted && words > 0;
    let largest = input.strip.iter().max().map(|&word| u64::from(word));
    [
        counted && words == 0,
        balance < 0,
        some && balance == 0,
        balance > 0,
        forward > backward,
        forward < backward,
        runs == 1,
        some && runs == bits as i64,
        some && page == bits,
        some && page > bits,
        counted && words == MOST_STRIP_WORDS && width == 32,
        after.refusal == 22 && words == MOST_STRIP_WORDS + 1,
        after.refusal == 23 && largest == Some(1 << width),
        after.refusal == 24 && page + 1 == bits,
    ]
}

/// What the counts told on one input, where the two sides agree and what is promised holds.
pub struct ToldBits {
    pub refusal: u8,
    /// the place in CARDS
    pub card: usize,
    pub kinds: [bool; BITS.len()],
}

/// The counts on one input.
pub fn compare_bits(input: &Input) -> Result<ToldBits, String> {
    let after = compare_call(NIST, input)?;
    let width = reference::accept(&input.card).map_or(0, |card| card.width);
    if after.refusal == 0 {
        keeps_promises(input, &after, width)?;
    }
    Ok(ToldBits {
        refusal: after.refusal,
        card: kind_of_card(&input.card),
        kinds: kinds(input, &after, width),
    })
}
