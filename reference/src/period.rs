//! After how many words they repeat (document 02, Six), counted out for small cards.
//!
//! N is 2^(m n), the number of states. Document 002 (5.2, Period) argues by columns; `opposite` is
//! that argument for half a walk.

use crate::{column, put_column, Card};

/// The least d from 1 up to the length of `round` by which the endless sequence that repeats
/// `round` can be shifted and stay the same. A round has at least one entry.
pub fn least_period<T: PartialEq>(round: &[T]) -> usize {
    let length = round.len();
    let stays = |d: usize| (0..length).all(|k| round[k] == round[(k + d) % length]);
    let mut shifts = 1..=length;
    shifts.find(|&d| stays(d)).expect("no empty round")
}

/// The state N/2 steps after `state`, for an accepted card, without walking. The columns below the
/// top one are back after every 2^(m (n-1)) steps, and N/2 is 2^(m-1) times that. Each time the
/// top column goes on by the same odd power of the table, so in all it goes half round the ring,
/// as it does by the table itself 2^(m-1) times.
pub fn opposite(card: &Card, state: &[u32]) -> Vec<u32> {
    let top = card.width - 1;
    let mut value = column(state, top);
    for _ in 0..1 << (card.words - 1) {
        value = card.table[usize::from(value)];
    }
    let mut after: Vec<u32> = state.iter().map(|x| x & !(1 << top)).collect();
    put_column(&mut after, top, value);
    after
}

#[cfg(test)]
mod tests {
    use super::*;
    use crate::cases::random_card;
    use crate::{accept, mask, next, step, word, TSC2_TABLE};

    /// Words and width of small cards, with 16 to 4096 states.
    const SIZES: [(u8, u8); 11] = [
        (2, 2),
        (2, 3),
        (2, 4),
        (2, 5),
        (3, 2),
        (3, 3),
        (3, 4),
        (4, 2),
        (4, 3),
        (5, 2),
        (6, 2),
    ];

    /// Accepted cards of all these sizes: at most `most` of a size, fewer where walks are long,
    /// with small powers there.
    fn small_cards(most: usize, x: &mut u32) -> Vec<Card> {
        let mut cards = Vec::new();
        for (words, width) in SIZES {
            let bits = words * width;
            for _ in 0..most.min(1 << (18 - bits)) {
                let mut card = random_card(words, width, x);
                if bits > 8 {
                    card.odd_power &= 7;
                    card.even_power &= 7;
                }
                cards.push(card);
            }
        }
        cards
    }

    /// N, for a small card.
    fn count_of_states(card: &Card) -> usize {
        let bits = u32::from(card.words) * u32::from(card.width);
        1usize.checked_shl(bits).expect("a small card")
    }

    /// The N states that come after `start`, the last of which is `start` for an accepted card.
    fn states_of_walk(card: &Card, start: &[u32]) -> Vec<Vec<u32>> {
        let mut states = Vec::new();
        let mut state = start.to_vec();
        for _ in 0..count_of_states(card) {
            state = step(card, &state);
            states.push(state.clone());
        }
        states
    }

    /// The N words drawn one after the other from `start`, for a small card. A draw steps first.
    fn words_of_walk(card: &Card, start: &[u32]) -> Vec<u32> {
        let states = states_of_walk(card, start);
        states.iter().map(|state| word(card, state)).collect()
    }

    fn random_state(card: &Card, x: &mut u32) -> Vec<u32> {
        let low = mask(card.width);
        (0..card.words).map(|_| next(x) & low).collect()
    }

    /// The N states in the order of their numbers, without a step.
    fn all_states(card: &Card) -> Vec<Vec<u32>> {
        let low = mask(card.width) as usize;
        let part = |number: usize, k: u8| (number >> (k * card.width) & low) as u32;
        let state = |number| (0..card.words).map(|k| part(number, k)).collect();
        (0..count_of_states(card)).map(state).collect()
    }

    /// The words of a state and of its opposite.
    fn two_words(card: &Card, state: &[u32]) -> [u32; 2] {
        [word(card, state), word(card, &opposite(card, state))]
    }

    #[test]
    fn least_periods_by_hand() {
        let rows: [(&str, usize); 9] = [
            ("a", 1),
            ("aa", 1),
            ("ab", 2),
            ("aba", 3),
            ("abab", 2),
            ("abba", 4),
            ("aabaab", 3),
            ("ababa", 5),
            ("abababac", 8),
        ];
        for (round, period) in rows {
            assert_eq!(least_period(round.as_bytes()), period, "{round}");
        }
    }

    /// Document 01, The program; the last word is that of zeros.
    #[test]
    fn words_of_the_program() {
        let card = accept(&[0x27, 2, 2, 1, 2, 3, 0, 1, 0, 0, 0]).unwrap();
        let words = words_of_walk(&card, &[0, 0]);
        assert_eq!(words[..4], [0, 0, 3, 2]);
        assert_eq!(words[3..], words_of_walk(&card, &[1, 1])[..13]);
        assert_eq!((words.len(), words[15]), (16, 0));
    }

    #[test]
    fn opposite_is_half_a_walk_on() {
        let mut x = 7;
        for card in small_cards(200, &mut x) {
            for _ in 0..3 {
                let start = random_state(&card, &mut x);
                let mut state = start.clone();
                for _ in 0..count_of_states(&card) / 2 {
                    state = step(&card, &state);
                }
                assert_eq!(opposite(&card, &start), state, "{card:?} {start:?}");
            }
        }
    }

    /// No walk of a large card can be counted out. But what is half a walk on stays so when both
    /// states step, the half walks lead back in two, and no state is its own opposite.
    #[test]
    fn opposites_of_large_cards() {
        let mut x = 8;
        for _ in 0..2000 {
            let (words, width) = (2 + next(&mut x) % 7, 2 + next(&mut x) % 31);
            let card = random_card(words as u8, width as u8, &mut x);
            let state = random_state(&card, &mut x);
            let other = opposite(&card, &state);
            assert_ne!(other, state);
            assert_eq!(opposite(&card, &other), state);
            assert_eq!(step(&card, &other), opposite(&card, &step(&card, &state)));
        }
    }

    /// True when every state has the word of its opposite.
    fn opposites_agree(card: &Card) -> bool {
        all_states(card).iter().all(|state| {
            let [here, there] = two_words(card, state);
            here == there
        })
    }

    /// Where opposites agree, the words repeat after N/2, and on some cards before; elsewhere
    /// after N.
    #[test]
    fn words_repeat_early_where_opposites_agree() {
        let mut x = 9;
        let (mut early, mut earlier, mut full) = (0, 0, 0);
        for card in small_cards(1000, &mut x) {
            let agree = opposites_agree(&card);
            for _ in 0..2 {
                let start = random_state(&card, &mut x);
                let round = words_of_walk(&card, &start);
                let (first, second) = round.split_at(round.len() / 2);
                let period = least_period(&round);
                assert_eq!(first == second, agree, "{card:?} {start:?}");
                assert_eq!(period <= first.len(), agree, "{card:?} {start:?}");
                assert_eq!(period < round.len(), agree, "{card:?} {start:?}");
                earlier += usize::from(period < first.len());
            }
            early += usize::from(agree);
            full += usize::from(!agree);
        }
        assert!(early >= 100 && earlier > 0 && full >= 1000);
    }

    /// Document 002, the proof of Theorem 2; so column n - 1 alone has the period N.
    #[test]
    fn periods_of_columns() {
        let mut x = 10;
        for card in small_cards(100, &mut x) {
            for _ in 0..2 {
                let states = states_of_walk(&card, &random_state(&card, &mut x));
                for i in 0..card.width {
                    let round: Vec<u8> = states.iter().map(|state| column(state, i)).collect();
                    let period = 1 << (card.words * (i + 1));
                    assert_eq!(least_period(&round), period, "{card:?} {i}");
                }
            }
        }
    }

    /// Two words of 3 bits, whose turns by 9 and 15 are none: the word is x0 + x1. Half a walk
    /// flips the top bit of both.
    #[test]
    fn accepted_card_with_early_words() {
        let card = accept(&[0x27, 2, 3, 1, 3, 0, 2, 1, 0, 0, 0]).unwrap();
        let mut walk = states_of_walk(&card, &[0, 0]);
        assert_eq!(walk.last(), Some(&vec![0, 0]));
        walk.sort();
        walk.dedup();
        assert_eq!(walk.len(), 64);
        for start in walk {
            let round = words_of_walk(&card, &start);
            assert_eq!(round[..32], round[32..], "{start:?}");
            assert_eq!(least_period(&round), 32, "{start:?}");
        }
    }

    /// The words of zeros and of its opposite, with cards P1 and P2: by the table's eighth power
    /// the top column is 4 and 6.
    #[test]
    fn opposites_of_zeros() {
        let tsc2 = [&[0x74], &TSC2_TABLE[..], &[0, 1, 0, 0, 0, 2]].concat();
        let top = 1 << 31;
        for (card, other, words) in [
            (vec![0], [0, 0, top, 0], [0x0000_0000, 0x0000_0040]),
            (tsc2, [0, top, top, 0], [0x0000_0000, 0x0020_2000]),
        ] {
            let card = accept(&card).unwrap();
            assert_eq!(opposite(&card, &[0; 4]), other);
            assert_eq!(two_words(&card, &[0; 4]), words);
        }
    }
}
