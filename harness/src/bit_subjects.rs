//! What is timed of counts of bits: the library's call beside Rust, on as many words as it takes.

use crate::by_hand::bits::{self, Counts};
use crate::timing::Subject;
use std::hint::black_box;
use tiedraw::ffi::tiedraw_count_bits;
use tiedraw::MOST_STRIP_WORDS;

/// TSC-1, and its width
const CARD: &[u8] = &[0];
const WIDTH: u32 = 32;

/// The library's, on slices; none where it is refused.
fn count(strip: &[u32], page: &mut [u8]) -> Option<Counts> {
    let told = unsafe {
        tiedraw_count_bits(
            black_box(CARD).as_ptr(),
            CARD.len(),
            strip.as_ptr(),
            strip.len(),
            page.as_mut_ptr(),
            page.len(),
        )
    };
    (told.refusal == 0).then_some(Counts {
        balance: told.balance,
        forward: told.forward,
        backward: told.backward,
        runs: told.runs,
    })
}

fn count_by_hand(strip: &[u32], page: &mut [u8]) -> Option<Counts> {
    bits::count(black_box(WIDTH), strip, page)
}

/// Words that the card draws.
fn drawn() -> Vec<u32> {
    let mut strip = vec![0; MOST_STRIP_WORDS];
    tiedraw::fill(CARD, &mut [1, 2, 3, 4], &mut strip, 0, MOST_STRIP_WORDS).unwrap();
    strip
}

type Count = fn(&[u32], &mut [u8]) -> Option<Counts>;

fn counts_and_page(count: Count, strip: &[u32]) -> (Option<Counts>, Vec<u8>) {
    let mut page = vec![0; WIDTH as usize * strip.len()];
    (count(strip, &mut page), page)
}

/// Counts of bits: the library's and Rust's, which give the same counts and page.
pub fn counts(names: [&str; 2], calls: usize) -> [Subject; 2] {
    let strip = drawn();
    let library = counts_and_page(count, &strip);
    assert!(library.0.is_some() && library == counts_and_page(count_by_hand, &strip));
    let subject = |name, count: Count| {
        let (strip, mut page) = (strip.clone(), library.1.clone());
        Subject::call(name, calls, move || {
            black_box(count(black_box(&strip), black_box(&mut page)));
        })
    };
    [subject(names[0], count), subject(names[1], count_by_hand)]
}
