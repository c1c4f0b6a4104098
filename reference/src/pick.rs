//! The pick of a shovel (document 01, Step, word and pick; Refusal table) by a fair rank (document
//! 02, Two).

use crate::{accept_call, call_draw};

/// The most words of one pick.
const MOST_TAKEN: usize = 16;

/// The answer of a pick.
#[derive(Clone, Copy, PartialEq, Debug)]
pub struct Picked {
    pub shovel: u16,
    pub ties: usize,  // k, the number of equals
    pub taken: usize, // the number of words taken, which is how many steps the state made
}

/// Refusals 12 to 15 for the shovels and the lists beside them, which have these counts.
pub(crate) fn check_lists(shovels: &[u16], counts: &[usize]) -> Result<(), u8> {
    if counts.iter().any(|&count| count != shovels.len()) {
        return Err(12);
    }
    if shovels.is_empty() {
        return Err(13);
    }
    if shovels.len() > 64 {
        return Err(14);
    }
    let mut sorted = shovels.to_vec();
    sorted.sort();
    if sorted.windows(2).any(|pair| pair[0] == pair[1]) {
        return Err(15);
    }
    Ok(())
}

/// The shovels with the least time or distance, the lowest number first.
fn equals<T: Ord>(shovels: &[u16], far: &[T]) -> Vec<u16> {
    let least = far.iter().min();
    let mut equals = Vec::new();
    for (shovel, far) in shovels.iter().zip(far) {
        if Some(far) == least {
            equals.push(*shovel);
        }
    }
    equals.sort();
    equals
}

/// L: the largest multiple of k not above 2^n, which can be 2^32.
pub fn limit(width: u8, k: usize) -> u64 {
    let k = k as u64;
    (1u64 << width) / k * k
}

/// The rank among k equals and the number of words taken for it. The first word below L serves, or
/// else the sixteenth. One equal takes no word.
fn fair_rank(card: &[u8], state: &mut [u32], width: u8, k: usize) -> Result<(usize, usize), u8> {
    if k == 1 {
        return Ok((0, 0));
    }
    let limit = limit(width, k);
    let mut word = limit; // none drawn yet
    let mut taken = 0;
    while word >= limit && taken < MOST_TAKEN {
        word = u64::from(call_draw(card, state)?);
        taken += 1;
    }
    Ok(((word % k as u64) as usize, taken))
}

/// The chosen shovel, the number of equals and the number of words taken, or a refusal number with
/// the state unchanged: 1 to 15, then 18 where there are more equals than words of n bits.
pub fn call_pick(
    card: &[u8],
    state: &mut [u32],
    shovels: &[u16],
    times: &[u32],
) -> Result<Picked, u8> {
    let width = accept_call(card, state)?.width;
    check_lists(shovels, &[times.len()])?;
    draw_nearest(card, state, width, shovels, times)
}

/// One of the shovels with the least time or distance, with the state moved; or 18 with the state
/// unchanged. Everything else has been checked.
pub(crate) fn draw_nearest<T: Ord>(
    card: &[u8],
    state: &mut [u32],
    width: u8,
    shovels: &[u16],
    far: &[T],
) -> Result<Picked, u8> {
    let equals = equals(shovels, far);
    let ties = equals.len();
    if ties as u64 > 1u64 << width {
        return Err(18);
    }
    let (rank, taken) = fair_rank(card, state, width, ties)?;
    Ok(Picked {
        shovel: equals[rank],
        ties,
        taken,
    })
}

#[cfg(test)]
mod tests {
    use super::*;
    use crate::cases::random_card;
    use crate::{accept, encode, mask, next, step_back};

    const PROGRAM: [u8; 11] = [0x27, 2, 2, 1, 2, 3, 0, 1, 0, 0, 0]; // document 01, The program

    /// The program's card with this width.
    fn of_width(width: u8) -> [u8; 11] {
        let mut card = PROGRAM;
        card[2] = width;
        card
    }

    /// The answer of a pick and the state after it.
    type Answer = (Result<Picked, u8>, Vec<u32>);

    fn pick(card: &[u8], state: &[u32], shovels: &[u16], times: &[u32]) -> Answer {
        let mut lent = state.to_vec();
        let answer = call_pick(card, &mut lent, shovels, times);
        (answer, lent)
    }

    /// One pick among shovels 1 to k, all equal.
    fn pick_of(card: &[u8], state: &[u32], k: u16) -> Answer {
        let shovels: Vec<u16> = (1..=k).collect();
        pick(card, state, &shovels, &vec![60; shovels.len()])
    }

    fn picked(shovel: u16, ties: usize, taken: usize, state: &[u32]) -> Answer {
        let answer = Picked {
            shovel,
            ties,
            taken,
        };
        (Ok(answer), state.to_vec())
    }

    /// Document 01, At the edges. One equal takes no word.
    #[test]
    fn examples() {
        for shovels in [[7, 4], [4, 7]] {
            let first = pick(&PROGRAM, &[0, 0], &shovels, &[300; 2]);
            assert_eq!(first, picked(4, 2, 1, &[1, 2]));
            let third = pick(&PROGRAM, &[2, 3], &shovels, &[300; 2]);
            assert_eq!(third, picked(7, 2, 1, &[1, 1]));
        }
        for state in [[0, 0], [2, 3]] {
            let unmoved = picked(7, 1, 0, &state);
            assert_eq!(pick(&PROGRAM, &state, &[4, 7], &[300, 299]), unmoved);
            assert_eq!(pick(&PROGRAM, &state, &[7, 4], &[299, 300]), unmoved);
        }
    }

    /// From 2, 3 the words are 3 and 2 (document 01, The program), and for three equals 3 is passed
    /// over. With 3 bits, the words from 0, 0 are 7, 5, 6, 6, 5, 5, 4.
    #[test]
    fn words_are_passed_over() {
        let shovels = [0, 65535, 10, 40, 30]; // 0 has a longer time than the others
        let times = [6, 5, 5, 5, 5];
        for (state, k, answer) in [
            ([2, 3], 1, picked(65535, 1, 0, &[2, 3])),
            ([2, 3], 2, picked(65535, 2, 1, &[1, 1])),
            ([2, 3], 3, picked(65535, 3, 2, &[2, 0])),
            ([2, 3], 4, picked(65535, 4, 1, &[1, 1])),
            ([1, 1], 2, picked(10, 2, 1, &[2, 0])),
            ([1, 1], 3, picked(65535, 3, 1, &[2, 0])),
            ([1, 1], 4, picked(40, 4, 1, &[2, 0])),
        ] {
            let (shovels, times) = (&shovels[..k + 1], &times[..k + 1]);
            assert_eq!(pick(&PROGRAM, &state, shovels, times), answer);
        }
        for (k, rank, taken, state) in [
            (1, 0, 0, [0, 0]),
            (2, 1, 1, [1, 6]),
            (3, 2, 2, [6, 7]),
            (4, 3, 1, [1, 6]),
            (5, 4, 7, [7, 5]),
            (6, 5, 2, [6, 7]),
            (7, 5, 2, [6, 7]),
            (8, 7, 1, [1, 6]),
        ] {
            let answer = picked(rank + 1, usize::from(k), taken, &state);
            assert_eq!(pick_of(&of_width(3), &[0, 0], k), answer);
        }
    }

    /// All of 2^n words serve for 2^n equals. Words of 6 bits can rank all that a list may have.
    #[test]
    fn as_many_equals_as_words() {
        for (width, shovel, state, refusal) in [
            (2, 1, [1, 2], 18),
            (3, 8, [1, 6], 18),
            (5, 15, [1, 30], 18),
            (6, 49, [1, 62], 14),
        ] {
            let k = 1 << width;
            let answer = picked(shovel, usize::from(k), 1, &state);
            assert_eq!(pick_of(&of_width(width), &[0, 0], k), answer);
            let refused = (Err(refusal), vec![0, 0]);
            assert_eq!(pick_of(&of_width(width), &[0, 0], k + 1), refused);
        }
    }

    /// For 33 equals L is 33, and here sixteen words in a row are passed over.
    #[test]
    fn sixteenth_word_serves() {
        let card = [0xe7, 2, 6, 1, 2, 3, 0, 0x31, 0, 0, 0, 2, 0];
        let mut state = vec![0x39, 0x19];
        let answer = pick_of(&card, &state, 33);
        let words: Vec<u32> = (0..16)
            .map(|_| call_draw(&card, &mut state).unwrap())
            .collect();
        assert!(words.iter().all(|&word| word >= 33));
        assert_eq!(words[15] % 33, 7);
        assert_eq!(answer, picked(8, 33, 16, &state));
    }

    /// The word is 2^32 - 1. For 2, 4 to 64 equals L is 2^32, and it serves. For 3 equals L is the
    /// word itself, and the next word serves.
    #[test]
    fn largest_word() {
        let after = [0, 0, 0, u32::MAX];
        let state = step_back(&accept(&[0]).unwrap(), &after);
        for k in [2, 4, 8, 16, 32, 64] {
            let answer = picked(k, usize::from(k), 1, &after);
            assert_eq!(pick_of(&[0], &state, k), answer);
        }
        let (answer, end) = pick_of(&[0], &after, 3);
        let answer = answer.unwrap();
        assert_eq!(answer.taken, 1);
        assert_eq!(pick_of(&[0], &state, 3), picked(answer.shovel, 3, 2, &end));
    }

    /// State, shovels, times and the refusal number, 0 for none.
    type Row<'a> = (&'a [u32], &'a [u16], &'a [u32], u8);

    /// With the program's card, which can rank four, and with one that is refused. Five equals are
    /// refused wherever nothing else is.
    #[test]
    fn refusals_in_order_leave_the_state() {
        let many: Vec<u16> = (0..64).chain([0]).collect(); // first and last are the same
        let mut four_least = [1; 64];
        four_least[10..14].fill(0);
        let rows: [Row; 15] = [
            (&[4], &[], &[], 10),
            (&[4], &many[..5], &[1; 5], 10),
            (&[0, 4], &[7], &[], 11),
            (&[0, 4], &many[..5], &[1; 5], 11),
            (&[2, 3], &[7], &[], 12),
            (&[2, 3], &[7, 7], &[1], 12),
            (&[2, 3], &many, &[1; 64], 12),
            (&[2, 3], &[], &[], 13),
            (&[2, 3], &many, &[1; 65], 14),
            (&[2, 3], &many[1..], &[1; 64], 18),
            (&[2, 3], &many[1..], &four_least, 0),
            (&[2, 3], &[5, 6, 5], &[3, 1, 3], 15),
            (&[2, 3], &[1, 2, 3, 4, 5, 1], &[1; 6], 15),
            (&[2, 3], &[1, 2, 3, 4, 5, 6], &[1, 1, 1, 1, 1, 2], 18),
            (&[2, 3], &[1, 2, 3, 4, 5, 6], &[1, 1, 2, 1, 1, 2], 0),
        ];
        for (state, shovels, times, refusal) in rows {
            let (answer, after) = pick(&PROGRAM, state, shovels, times);
            assert_eq!(answer.err().unwrap_or(0), refusal);
            assert_eq!(after == state, refusal != 0);

            let refused = (Err(9), state.to_vec());
            assert_eq!(pick(&[0x08, 0x02], state, shovels, times), refused);
        }
    }

    /// What a pick among shovels 0 to k - 1 should be, L being found by adding.
    fn by_adding(card: &[u8], start: &[u32], width: u32, k: u32) -> Answer {
        let multiples = (k..=1 << width).step_by(k as usize);
        let limit = multiples.last().expect("k is at most 2^n");
        let mut state = start.to_vec();
        let mut words = Vec::new();
        while words.len() < 16 && words.iter().all(|&word| word >= limit) {
            words.push(call_draw(card, &mut state).unwrap());
        }
        let rank = words[words.len() - 1] % k;
        picked(rank as u16, k as usize, words.len(), &state)
    }

    /// On narrow cards, and with the list in both orders.
    #[test]
    fn random_picks() {
        let mut x = 4;
        let mut most = 0;
        for _ in 0..20_000 {
            let (words, width) = (2 + next(&mut x) % 7, 2 + next(&mut x) % 7);
            let card = encode(&random_card(words as u8, width as u8, &mut x));
            let low = mask(width as u8);
            let state: Vec<u32> = (0..words).map(|_| next(&mut x) & low).collect();
            let k = 2 + next(&mut x) % (64.min(1 << width) - 1);
            let mut shovels: Vec<u16> = (0..k as u16).collect();
            let times = vec![60; shovels.len()];
            let answer = by_adding(&card, &state, width, k);
            assert_eq!(pick(&card, &state, &shovels, &times), answer);
            shovels.reverse();
            assert_eq!(pick(&card, &state, &shovels, &times), answer);
            most = most.max(answer.0.unwrap().taken);
        }
        assert!(most >= 10);
    }
}
