//! What is timed on a card: the library's calls, and Rust's fills.

use crate::by_hand::{Fill, Setup, State};
use crate::timing::Subject;
use reference::{accept, Card};
use std::array::from_fn;
use std::hint::black_box;

/// the words of a fill
pub const SPAN: usize = 4096;

/// The state that calls start from: 1, 2 and so on.
fn start(card: &Card) -> Vec<u32> {
    (1..=card.words.into()).collect()
}

/// With 0 past the card's words.
fn padded<const M: usize>(state: &[u32]) -> State<M> {
    from_fn(|k| state.get(k).copied().unwrap_or(0))
}

// ---- The library.

/// A call that takes a card and a state.
fn on_state(
    name: &str,
    bytes: &'static [u8],
    calls: usize,
    call: impl Fn(&[u8], &mut [u32]) + 'static,
) -> Subject {
    let mut state = start(&accept(bytes).unwrap());
    Subject::call(name, calls, move || call(black_box(bytes), &mut state))
}

pub fn draw(name: &str, bytes: &'static [u8], calls: usize) -> Subject {
    on_state(name, bytes, calls, |card, state| {
        black_box(tiedraw::draw(card, state).unwrap());
    })
}

pub fn step(name: &str, bytes: &'static [u8], calls: usize) -> Subject {
    on_state(name, bytes, calls, |card, state| {
        tiedraw::step(card, state).unwrap()
    })
}

pub fn step_back(name: &str, bytes: &'static [u8], calls: usize) -> Subject {
    on_state(name, bytes, calls, |card, state| {
        tiedraw::step_back(card, state).unwrap()
    })
}

pub fn check(name: &str, bytes: &'static [u8], calls: usize) -> Subject {
    Subject::call(name, calls, move || {
        tiedraw::check(black_box(bytes)).unwrap()
    })
}

/// As many words as are told, in fills of SPAN and one of the rest: each word counts as a call.
fn in_fills(name: &str, words: usize, mut fill: impl FnMut(&mut [u32]) + 'static) -> Subject {
    let mut strip = [0; SPAN];
    Subject::new(name, words, move |words| {
        for done in (0..words).step_by(SPAN) {
            let count = SPAN.min(words - done);
            fill(black_box(&mut strip[..count]));
        }
    })
}

pub fn fill(name: &str, bytes: &'static [u8], words: usize) -> Subject {
    let mut state = start(&accept(bytes).unwrap());
    in_fills(name, words, move |strip| {
        tiedraw::fill(black_box(bytes), &mut state, strip, 0, strip.len()).unwrap();
    })
}

// ---- Rust.

/// Rust's fill, what depends on the card alone worked out beforehand.
pub fn fill_by_hand<const M: usize, const E: usize>(
    name: &str,
    bytes: &[u8],
    words: usize,
    fill: Fill<M, E>,
) -> Subject {
    let card = accept(bytes).unwrap();
    let setup = Setup::new(&card);
    let mut state = padded(&start(&card));
    compare(name, bytes, &setup, fill);
    in_fills(name, words, move |strip| {
        fill(black_box(&setup), &mut state, strip)
    })
}

/// Rust's fill gives the library's words and state, so that the same thing is timed.
fn compare<const M: usize, const E: usize>(
    name: &str,
    bytes: &[u8],
    setup: &Setup<M, E>,
    fill: Fill<M, E>,
) {
    let mut state = start(&accept(bytes).unwrap());
    let mut by_hand = (padded(&state), [0; SPAN]);
    let mut strip = [0; SPAN];
    tiedraw::fill(bytes, &mut state, &mut strip, 0, SPAN).unwrap();
    fill(setup, &mut by_hand.0, &mut by_hand.1);
    let library = (padded(&state), strip);
    assert!(
        by_hand == library,
        "not the library's words or state: {name}"
    );
}
