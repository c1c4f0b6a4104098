//! TSC-1 alone in Rust by hand, what the library's fill on P1 is timed beside (document 02, Nine): by the published gate formulas
//! on whole words, and column by column, with the same selector and word. Nothing is asked of a card.

use super::{Setup, State};
use reference::{TSC1_CONSTANT, TSC1_TABLE};
use std::array::from_fn;

/// Document 002 (13).
fn selector([x0, x1, x2, x3]: State<4>) -> u32 {
    let p = x0 & x1 & x2 & x3;
    let s = x0.wrapping_add(x1).wrapping_add(x2).wrapping_add(x3);
    p.wrapping_add(TSC1_CONSTANT) ^ p ^ s << 1
}

/// The filter (15).
fn word([x0, x1, x2, x3]: State<4>) -> u32 {
    let first = x0.rotate_left(9).wrapping_add(x1).rotate_left(15);
    first.wrapping_add(x2.rotate_left(7).wrapping_add(x3))
}

fn fill(state: &mut State<4>, strip: &mut [u32], step: impl Fn(State<4>) -> State<4>) {
    let mut x = *state;
    for output in strip {
        x = step(x);
        *output = word(x);
    }
    *state = x;
}

// ---- By the gate formulas.

/// The table applied once (16).
fn once([t0, t1, t2, t3]: State<4>) -> State<4> {
    [
        !t3 ^ (t2 & !t1 & t0),
        t2 ^ (t3 & t1 & t0) ^ (!t3 & !t1 & !t0),
        t0 ^ (t3 & !t2 & !t1),
        t1 ^ (t3 & t2 & !t0),
    ]
}

/// The table applied twice (17).
fn twice([t0, t1, t2, t3]: State<4>) -> State<4> {
    [
        !t1 ^ (t3 & t2 & !t0) ^ (!t3 & !t2 & t0),
        t0 ^ (!t3 & t2 & t1),
        !t3 ^ (t2 & !t1 & t0) ^ (!t2 & t1 & !t0),
        t2 ^ (!t3 & !t1 & !t0),
    ]
}

fn step_by_gates(x: State<4>) -> State<4> {
    let a = selector(x);
    let (u, v) = (once(x), twice(x));
    from_fn(|k| (u[k] & a) | (v[k] & !a))
}

pub fn fill_by_gates(_: &Setup<4, 16>, state: &mut State<4>, strip: &mut [u32]) {
    fill(state, strip, step_by_gates)
}

// ---- Column by column.

/// The image of each column, by the table twice, then once. Its bits stand 32 places apart, two in a number, so that two words
/// are shifted together.
static IMAGES: [[u64; 2]; 32] = images();

const fn images() -> [[u64; 2]; 32] {
    let mut images = [[0; 2]; 32];
    let mut at = 0;
    while at < 32 {
        let once = TSC1_TABLE[at % 16];
        let twice = TSC1_TABLE[once as usize];
        let image = if at < 16 { twice } else { once } as u64;
        let [low, high] = [image & 3, image >> 2];
        images[at] = [low & 1 | low >> 1 << 32, high & 1 | high >> 1 << 32];
        at += 1;
    }
    images
}

/// The quickest of those tried: one look at a table for the selector's bit and the column, from the top down, out of line.
#[inline(never)]
fn step_by_columns(x: State<4>) -> State<4> {
    let a = selector(x);
    let [x0, x1, x2, x3] = x;
    let mut after = [0; 2];
    for i in (0..u32::BITS).rev() {
        let bits = [a, x3, x2, x1, x0].map(|word| word >> i & 1);
        let at = bits.into_iter().fold(0, |at, bit| at << 1 | bit as usize);
        for (words, image) in after.iter_mut().zip(IMAGES[at]) {
            *words = *words << 1 | image;
        }
    }
    let [low, high] = after;
    [low, low >> 32, high, high >> 32].map(|word| word as u32)
}

pub fn fill_by_columns(_: &Setup<4, 16>, state: &mut State<4>, strip: &mut [u32]) {
    fill(state, strip, step_by_columns)
}
