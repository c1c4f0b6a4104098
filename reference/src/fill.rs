//! A strip of words (document 02, One).

use crate::{accept_call, call_draw};

/// Refusal 17: the place is greater than the strip's length, or the count doesn't fit behind it.
fn check_span(length: usize, place: usize, count: usize) -> Result<(), u8> {
    if place > length || count > length - place {
        return Err(17);
    }
    Ok(())
}

/// Writes the words of `count` draws into the strip from `place` on, or answers a refusal number
/// with strip and state unchanged: 1 to 11, then 17. No draw is refused, since a step leaves m
/// words of n bits.
pub fn call_fill(
    card: &[u8],
    state: &mut [u32],
    strip: &mut [u32],
    place: usize,
    count: usize,
) -> Result<(), u8> {
    accept_call(card, state)?;
    check_span(strip.len(), place, count)?;
    for word in &mut strip[place..][..count] {
        *word = call_draw(card, state)?;
    }
    Ok(())
}

#[cfg(test)]
mod tests {
    use super::*;
    use crate::cases::random_card;
    use crate::{encode, mask, next};

    const PROGRAM: [u8; 11] = [0x27, 2, 2, 1, 2, 3, 0, 1, 0, 0, 0]; // document 01, The program
    const LENT: u32 = 0xa5a5_a5a5;

    /// One fill: the answer, the strip and the state after it.
    fn fill(
        card: &[u8],
        state: &[u32],
        strip: &[u32],
        (place, count): (usize, usize),
    ) -> (Result<(), u8>, Vec<u32>, Vec<u32>) {
        let (mut state, mut strip) = (state.to_vec(), strip.to_vec());
        let answer = call_fill(card, &mut state, &mut strip, place, count);
        (answer, strip, state)
    }

    /// Document 01, At the edges and The program: the words from zeros, put at each place.
    #[test]
    fn examples() {
        let first = vec![0xffff_ffff, 0x1248_8421, 0xedb7_7bde, 0xedb7_7bde];
        let after = (Ok(()), vec![LENT, 0x0b85_7478], first);
        assert_eq!(fill(&[0], &[0; 4], &[LENT; 2], (1, 1)), after);

        let words = [0, 0, 3, 2];
        let states = [[0, 0], [1, 2], [2, 3], [1, 1], [2, 0]];
        for place in 0..=6 {
            for count in 0..=4.min(6 - place) {
                let mut strip = vec![LENT; 6];
                strip[place..place + count].copy_from_slice(&words[..count]);
                let after = (Ok(()), strip, states[count].to_vec());
                assert_eq!(fill(&PROGRAM, &[0, 0], &[LENT; 6], (place, count)), after);
            }
        }
    }

    #[test]
    fn spans() {
        const MAX: usize = usize::MAX;
        for (length, place, count, fits) in [
            (0, 0, 0, true),
            (0, 0, 1, false),
            (0, 1, 0, false),
            (3, 0, 3, true),
            (3, 0, 4, false),
            (3, 2, 1, true),
            (3, 2, 2, false),
            (3, 3, 0, true),
            (3, 3, 1, false),
            (3, 4, 0, false),
            (3, 0, MAX, false),
            (3, 1, MAX, false), // a sum modulo 2^64 would be 0
            (3, 3, MAX, false),
            (3, MAX, 0, false),
            (3, MAX, 1, false),
            (3, MAX, 4, false),
            (3, MAX, MAX, false),
        ] {
            let (answer, strip, state) =
                fill(&PROGRAM, &[2, 3], &vec![LENT; length], (place, count));
            assert_eq!(answer, if fits { Ok(()) } else { Err(17) });
            if !fits || count == 0 {
                assert_eq!((strip, state), (vec![LENT; length], vec![2, 3]));
            }
        }
    }

    /// Card, then state, then span; also where no words are wanted.
    #[test]
    fn refusals_in_order_leave_strip_and_state() {
        let rows: [(&[u8], &[u32], u8); 7] = [
            (&[], &[4], 1),
            (&[0x08, 0x02], &[1, 2, 3], 9),
            (&[0x08, 0x02], &[0; 4], 9),
            (&PROGRAM, &[4], 10),
            (&PROGRAM, &[], 10),
            (&PROGRAM, &[0, 4], 11),
            (&[0x02, 0x1d], &[1 << 29, 0, 0, 0], 11),
        ];
        for (card, state, refusal) in rows {
            for span in [(0, 2), (0, 0), (2, 0), (3, 0), (1, 2), (1, usize::MAX)] {
                let unchanged = (Err(refusal), vec![LENT; 2], state.to_vec());
                assert_eq!(fill(card, state, &[LENT; 2], span), unchanged);
            }
        }
    }

    /// A fill is so many draws, and also a fill of a part and then one of the rest.
    #[test]
    fn as_single_draws_and_in_parts() {
        let mut x = 3;
        for _ in 0..500 {
            let (words, width) = (2 + next(&mut x) % 7, 2 + next(&mut x) % 31);
            let card = encode(&random_card(words as u8, width as u8, &mut x));
            let low = mask(width as u8);
            let start: Vec<u32> = (0..words).map(|_| next(&mut x) & low).collect();
            let lent: Vec<u32> = (0..12).map(|_| next(&mut x)).collect();
            let place = next(&mut x) as usize % 13;
            let count = next(&mut x) as usize % (13 - place);
            let whole = fill(&card, &start, &lent, (place, count));

            let (mut state, mut strip) = (start.clone(), lent.clone());
            for number in 0..count {
                strip[place + number] = call_draw(&card, &mut state).unwrap();
            }
            assert_eq!(whole, (Ok(()), strip, state));

            let part = next(&mut x) as usize % (count + 1);
            let (_, strip, state) = fill(&card, &start, &lent, (place, part));
            let rest = fill(&card, &state, &strip, (place + part, count - part));
            assert_eq!(whole, rest);
        }
    }
}
