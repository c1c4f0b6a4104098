//! How long ten million words of TSC-1 take, by the library and by Rust: the report of document 02, Nine.

use crate::by_hand::{self, gates, Setup, State};
use crate::subjects::SPAN;
use crate::timing::within;
use reference::accept;
use std::hint::black_box;
use std::time::Instant;

const WORDS: usize = 10_000_000;
/// whole runs of each way, by turns; the quickest counts
const RUNS: usize = 3;
/// the library's to the quicker Rust that goes column by column
const MOST_OF_COLUMNS: f64 = 0.1;

const P1: &[u8] = &[0];
const START: State<4> = [1, 2, 3, 4];

/// A way to fill a strip: its name and itself.
type Way = (&'static str, Box<dyn Fn(&mut State<4>, &mut [u32])>);

fn library() -> Way {
    let fill = |state: &mut State<4>, strip: &mut [u32]| {
        tiedraw::fill(black_box(P1), state, strip, 0, strip.len()).unwrap()
    };
    ("the library's fill", Box::new(fill))
}

fn rust(name: &'static str, fill: by_hand::Fill<4, 16>) -> Way {
    let setup = Setup::new(&accept(P1).unwrap());
    let fill = move |state: &mut State<4>, strip: &mut [u32]| fill(black_box(&setup), state, strip);
    (name, Box::new(fill))
}

fn ways() -> [Way; 4] {
    [
        library(),
        rust("Rust by the gate formulas", gates::fill_by_gates),
        rust(
            "Rust column by column, for TSC-1 alone",
            gates::fill_by_columns,
        ),
        rust(
            "Rust column by column, for any card",
            by_hand::fill_by_columns,
        ),
    ]
}

/// All words in fills of SPAN, each strip handed on; gives the state after them.
fn run((_, fill): &Way, mut hand_on: impl FnMut(&[u32])) -> State<4> {
    let (mut state, mut strip) = (START, [0; SPAN]);
    for done in (0..WORDS).step_by(SPAN) {
        let strip = &mut strip[..SPAN.min(WORDS - done)];
        fill(&mut state, black_box(strip));
        hand_on(strip);
    }
    state
}

/// The state after all words, and a digest of them in their order (FNV-1a, a word at a time).
fn outcome(way: &Way) -> (State<4>, u64) {
    let mut digest = 0xcbf2_9ce4_8422_2325;
    let state = run(way, |strip| {
        for &word in strip {
            digest = (digest ^ u64::from(word)).wrapping_mul(0x0100_0000_01b3);
        }
    });
    (state, digest)
}

/// Seconds of one run, which must end in this state.
fn seconds(way: &Way, after: State<4>) -> f64 {
    let start = Instant::now();
    let state = run(way, |strip| _ = black_box(strip));
    let seconds = start.elapsed().as_secs_f64();
    assert_eq!(state, after, "{}", way.0);
    seconds
}

/// Prints the quickest run of each way as a table, and says whether the goal is held. All ways must give the same words and end in the same state.
pub fn report() -> bool {
    let ways = ways();
    let [library, by_hand @ ..] = ways.each_ref().map(outcome);
    assert_eq!(by_hand, [library; 3], "not the library's words or state");
    let (after, digest) = library;
    let mut best = ways.each_ref().map(|_| f64::INFINITY);
    for _ in 0..RUNS {
        for (way, best) in ways.iter().zip(&mut best) {
            *best = best.min(seconds(way, after));
        }
    }
    println!("| ten million words of TSC-1 | seconds | to the library's |");
    println!("|---|---|---|");
    for ((name, _), seconds) in ways.iter().zip(best) {
        println!("| {name} | {seconds:.4} | {:.2} |", seconds / best[0]);
    }
    println!("in fills of {SPAN}, the quickest of {RUNS} whole runs; all from {START:x?} to {after:08x?}, the words' digest {digest:016x}");
    let columns = best[2].min(best[3]);
    within(
        "ten million words to Rust column by column",
        best[0] / columns,
        MOST_OF_COLUMNS,
    )
}
