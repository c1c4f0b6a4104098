//! Whether a call takes as long whatever the selector is: medians for states chosen by their selectors.

use crate::by_hand::State;
use crate::random::Random;
use crate::timing::within;
use reference::{selector, Card};
use std::array::from_fn;
use std::hint::black_box;
use std::time::Instant;

/// A call is too short for the clock: a block, one call from each of so many states, is timed. With 512 the processor
/// learns their selectors by heart, and a branch on the selector's bits does not show; with 4096 it does.
const STATES: usize = 8192;
/// blocks of each kind
const BLOCKS: usize = 201;
const SEED: u64 = 20261115;

/// What is wanted of the selector. Its bit 0 is 1 for every accepted card, so that 'all zeros' is all above bit 0.
type Wanted = fn(&mut Random) -> u32;
const KINDS: [(&str, Wanted); 4] = [
    ("all ones", |_| u32::MAX),
    ("all zeros above bit 0", |_| 1),
    ("alternating", |_| 0x5555_5555),
    ("random", |random| random.word() as u32 | 1),
];

fn with_column<const M: usize>(state: &State<M>, i: u32, c: u32) -> State<M> {
    from_fn(|k| state[k] | (c >> k & 1) << i)
}

/// A random state of M words of 32 bits with the selector wanted. Bit i + 1 depends on the columns up to i alone, so
/// they are chosen from the lowest up, each anew until it fits: about one in two does.
fn state_with<const M: usize>(card: &Card, wanted: u32, random: &mut Random) -> State<M> {
    let mut state = [0; M];
    for i in 0..32 {
        // above the top column nothing is asked for
        let fits = |state: &State<M>| (selector(card, state) ^ wanted) >> i >> 1 & 1 == 0;
        let mut tries = (0..1000).map(|_| with_column(&state, i, random.word() as u32));
        state = tries.find(fits).expect("a column that fits");
    }
    assert_eq!(selector(card, &state), wanted);
    state
}

fn states<const M: usize>(card: &Card, wanted: Wanted) -> Vec<State<M>> {
    let mut random = Random::new(SEED, 0);
    let mut one = || {
        let wanted = wanted(&mut random);
        state_with(card, wanted, &mut random)
    };
    (0..STATES).map(|_| one()).collect()
}

/// Nanoseconds of one call, in a block of one from each state.
fn block<const M: usize>(states: &[State<M>], call: &mut impl FnMut(&mut State<M>)) -> f64 {
    let start = Instant::now();
    for given in states {
        let mut state = *black_box(given);
        call(&mut state);
        black_box(&state);
    }
    start.elapsed().as_nanos() as f64 / states.len() as f64
}

fn median(mut times: Vec<f64>) -> f64 {
    times.sort_by(f64::total_cmp);
    times[times.len() / 2]
}

/// The median of each kind, by turns between them.
fn medians<const M: usize>(card: &Card, mut call: impl FnMut(&mut State<M>)) -> [f64; KINDS.len()] {
    let states = KINDS.map(|(_, wanted)| states(card, wanted));
    let mut times = KINDS.map(|_| Vec::new());
    for _ in 0..BLOCKS {
        for (states, times) in states.iter().zip(&mut times) {
            times.push(block(states, &mut call));
        }
    }
    times.map(median)
}

/// Whether the slowest kind takes at most so many times as long as the quickest, on a card of M words of 32 bits.
pub fn steady<const M: usize>(
    name: &str,
    card: &Card,
    most: f64,
    call: impl FnMut(&mut State<M>),
) -> bool {
    let medians = medians(card, call);
    for ((kind, _), median) in KINDS.iter().zip(medians) {
        println!(
            "{median:>9.1} ns  {name}, selector {kind}: median of {BLOCKS} blocks of {STATES}"
        );
    }
    let slowest = medians.into_iter().fold(0.0, f64::max);
    let quickest = medians.into_iter().fold(f64::INFINITY, f64::min);
    let name = format!("{name}: slowest to quickest selector");
    within(&name, slowest / quickest, most)
}
