//! TSC-1 by gates (document 002, 5.3 Implementation; document 02, Nine): equations (16) and (17) for
//! the bits of a column, and for whole words, which have all columns side by side.

use crate::TSC1_CONSTANT;
use std::array::from_fn;
use std::ops::{BitAnd, BitXor, Not};

/// What a gate takes: a bit, or a word, whose bits it takes each by itself.
pub trait Gated: Copy + BitAnd<Output = Self> + BitXor<Output = Self> + Not<Output = Self> {}

impl Gated for bool {}
impl Gated for u32 {}

/// u, the table of TSC-1 applied once, document 002 (16); t0 and u0 stand first.
pub fn table_once<T: Gated>([t0, t1, t2, t3]: [T; 4]) -> [T; 4] {
    let u3 = t1 ^ (t3 & t2 & !t0);
    let u2 = t0 ^ (t3 & !t2 & !t1);
    let u1 = t2 ^ (t3 & t1 & t0) ^ (!t3 & !t1 & !t0);
    let u0 = !t3 ^ (t2 & !t1 & t0);
    [u0, u1, u2, u3]
}

/// v, the table of TSC-1 applied twice, document 002 (17).
pub fn table_twice<T: Gated>([t0, t1, t2, t3]: [T; 4]) -> [T; 4] {
    let v3 = t2 ^ (!t3 & !t1 & !t0);
    let v2 = !t3 ^ (t2 & !t1 & t0) ^ (!t2 & t1 & !t0);
    let v1 = t0 ^ (!t3 & t2 & t1);
    let v0 = !t1 ^ (t3 & t2 & !t0) ^ (!t3 & !t2 & t0);
    [v0, v1, v2, v3]
}

/// The selector of TSC-1, document 002 (13).
fn selector([x0, x1, x2, x3]: [u32; 4]) -> u32 {
    let p = x0 & x1 & x2 & x3;
    let s = x0.wrapping_add(x1).wrapping_add(x2).wrapping_add(x3);
    p.wrapping_add(TSC1_CONSTANT) ^ p ^ s.wrapping_mul(2)
}

/// The step of TSC-1, document 002 (Theorem 2), all columns together: bit k of a column is a bit of
/// word k, so the words are t0 to t3.
pub fn step_by_gates(x: [u32; 4]) -> [u32; 4] {
    let alpha = selector(x);
    let (u, v) = (table_once(x), table_twice(x));
    from_fn(|k| (alpha & u[k]) ^ (!alpha & v[k]))
}

#[cfg(test)]
mod tests {
    use super::*;
    use crate::{accept, call_draw, column, next, step, step_back, word, Card, TSC1_TABLE};

    const ONES: u32 = u32::MAX;

    /// P1 of document 01.
    fn p1() -> Card {
        accept(&[0]).unwrap()
    }

    /// The bits of a column, bit 0 first.
    fn bits(column: u8) -> [bool; 4] {
        from_fn(|k| column >> k & 1 == 1)
    }

    fn table(column: u8) -> u8 {
        TSC1_TABLE[usize::from(column)]
    }

    fn random_state(x: &mut u32) -> [u32; 4] {
        from_fn(|_| next(x))
    }

    /// States of words that are all zeros, all ones or alternate by bits, pairs, bytes or halves.
    fn regular_states() -> Vec<[u32; 4]> {
        let words = [
            0,
            ONES,
            0x5555_5555,
            0xaaaa_aaaa,
            0xcccc_cccc,
            0x00ff_00ff,
            0xffff_0000,
        ];
        let count: usize = words.len();
        let state = |number: usize| from_fn(|k| words[number / count.pow(k as u32) % count]);
        (0..count.pow(4)).map(state).collect()
    }

    /// The gates' step is the one column by column, and the step back undoes it.
    fn assert_same_step(card: &Card, state: [u32; 4]) {
        let after = step_by_gates(state);
        assert_eq!(step(card, &state), after, "{state:08x?}");
        assert_eq!(step_back(card, &after), state, "{after:08x?}");
    }

    #[test]
    fn table_on_bits() {
        for t in 0..16 {
            assert_eq!(table_once(bits(t)), bits(table(t)), "{t}");
            assert_eq!(table_twice(bits(t)), bits(table(table(t))), "{t}");
        }
    }

    /// The paper's shorter form of u0 and v2.
    #[test]
    fn shared_gates() {
        for t in 0..16 {
            let [t0, t1, t2, t3] = bits(t);
            let y = (!t1 & (t2 & t0)) ^ t3;
            let z = !t1 | (t2 | t0);
            assert_eq!(table_once(bits(t))[0], !y);
            assert_eq!(table_twice(bits(t))[2], y ^ z);
        }
    }

    /// Each pair of columns, the one at an even place and the other at an odd one.
    #[test]
    fn table_on_words() {
        let words = |even: u8, odd: u8| -> [u32; 4] {
            let ones = |column: u8, k: usize| 0u32.wrapping_sub(u32::from(column >> k & 1));
            from_fn(|k| (ones(even, k) & 0x5555_5555) | (ones(odd, k) & 0xaaaa_aaaa))
        };
        for (even, odd) in (0..16).flat_map(|even| (0..16).map(move |odd| (even, odd))) {
            let given = words(even, odd);
            assert_eq!(table_once(given), words(table(even), table(odd)));
            let twice = words(table(table(even)), table(table(odd)));
            assert_eq!(table_twice(given), twice);
        }
    }

    /// Document 01, P1: the state after zeros and its word.
    #[test]
    fn published_example() {
        let after = step_by_gates([0; 4]);
        assert_eq!(after, [ONES, 0x1248_8421, 0xedb7_7bde, 0xedb7_7bde]);
        assert_eq!(word(&p1(), &after), 0x0b85_7478);
        assert_same_step(&p1(), [0; 4]);
    }

    #[test]
    fn step_on_regular_states() {
        let card = p1();
        let states = regular_states();
        assert!(states.contains(&[0; 4]) && states.contains(&[ONES; 4]));
        for state in states {
            assert_same_step(&card, state);
        }
    }

    /// One bit alone is 1, or alone 0.
    #[test]
    fn step_on_single_bits() {
        let card = p1();
        for (k, i) in (0..4).flat_map(|k| (0..32).map(move |i| (k, i))) {
            let state = from_fn(|word| u32::from(word == k) << i);
            assert_same_step(&card, state);
            assert_same_step(&card, state.map(|word| !word));
        }
    }

    /// Random states, in which each column value stands at each place with either selector bit; at place
    /// 0 that bit is 1.
    #[test]
    fn step_on_random_states() {
        let card = p1();
        let mut x = 9;
        let mut seen = [[[false; 2]; 16]; 32];
        for _ in 0..10_000 {
            let state = random_state(&mut x);
            assert_same_step(&card, state);
            let alpha = selector(state);
            for i in 0..32 {
                let value = column(&state, i);
                seen[usize::from(i)][usize::from(value)][(alpha >> i & 1) as usize] = true;
            }
        }
        assert_eq!(seen[0], [[false, true]; 16]);
        assert_eq!(seen[1..], [[[true; 2]; 16]; 31]);
    }

    /// The words and states of draws one after the other, from zeros and from a random state.
    #[test]
    fn along_a_walk() {
        let mut x = 10;
        for start in [[0; 4], random_state(&mut x)] {
            let (mut state, mut drawn) = (start, start);
            for _ in 0..10_000 {
                state = step_by_gates(state);
                let output = call_draw(&[0], &mut drawn);
                assert_eq!((state, Ok(word(&p1(), &state))), (drawn, output));
            }
        }
    }

    /// TSC-1 with one value changed: accepted, and its step or its word is another.
    fn changed_cards() -> [Card; 6] {
        let mut table = TSC1_TABLE.to_vec();
        table[..3].rotate_left(1); // two entries exchanged would be no ring
        [
            Card { table, ..p1() },
            Card {
                odd_power: 3,
                ..p1()
            },
            Card {
                even_power: 0,
                ..p1()
            },
            Card {
                constant: 0x1248_8423,
                ..p1()
            },
            Card { filter: 2, ..p1() },
            Card {
                sum_term: 0,
                ..p1()
            },
        ]
    }

    /// The gates are P1's alone.
    #[test]
    fn no_other_card() {
        let mut x = 11;
        for card in changed_cards() {
            assert_eq!(accept(&crate::encode(&card)), Ok(card.clone()));
            let draw = |state: [u32; 4]| {
                let after = step(&card, &state);
                let output = word(&card, &after);
                (after, output)
            };
            let by_gates = |state: [u32; 4]| {
                let after = step_by_gates(state);
                (after.to_vec(), word(&p1(), &after))
            };
            let mut states = (0..100).map(|_| random_state(&mut x));
            assert!(
                states.any(|state| draw(state) != by_gates(state)),
                "{card:?}"
            );
        }
    }
}
