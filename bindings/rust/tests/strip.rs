//! A strip of words through the wrapper: document 02, One.
use tiedraw::{Card, Generator, Refusal};

const PROGRAM: &[u8] = &[0x27, 2, 2, 1, 2, 3, 0, 1, 0, 0, 0];
const TSC2: &[u8] = &[
    0x74, 5, 2, 11, 12, 13, 4, 3, 14, 15, 8, 1, 6, 7, 10, 9, 0, 0, 1, 0, 0, 0, 2,
];
const WORST_POWERS: &[u8] = &[0x18, 255, 254];
const MAX: usize = usize::MAX;

/// Accepted cards, each with a state.
fn starts() -> [(&'static [u8], Vec<u32>); 5] {
    [
        (PROGRAM, vec![2, 3]),
        (&[0], vec![0; 4]),
        (&[0x02, 29], vec![1, 2, 3, (1 << 29) - 1]),
        (TSC2, vec![1, 2, 3, u32::MAX]),
        (WORST_POWERS, vec![1, 2, 3, 4]),
    ]
}

/// What is lent: no word stands twice.
fn strip(length: usize) -> Vec<u32> {
    (0..length as u32).map(|i| 0xa5a5_a500 + i).collect()
}

/// One fill of such a strip: the answer, the strip and the state after it.
fn fill(
    card: &[u8],
    state: &[u32],
    length: usize,
    (place, count): (usize, usize),
) -> (Result<(), Refusal>, Vec<u32>, Vec<u32>) {
    let (mut state, mut strip) = (state.to_vec(), strip(length));
    let answer = tiedraw::fill(card, &mut state, &mut strip, place, count);
    (answer, strip, state)
}

#[test]
fn the_program_fills_as_printed() {
    let words = [0, 0, 3, 2];
    let states = [[0, 0], [1, 2], [2, 3], [1, 1], [2, 0]];
    for place in 0..=6 {
        for count in 0..=words.len().min(6 - place) {
            let mut after = strip(6);
            after[place..place + count].copy_from_slice(&words[..count]);
            assert_eq!(
                fill(PROGRAM, &[0, 0], 6, (place, count)),
                (Ok(()), after, states[count].to_vec())
            );
        }
    }
}

#[test]
fn a_fill_is_as_many_draws() {
    for (card, start) in starts() {
        for (place, count) in [(0, 0), (9, 0), (3, 1), (0, 9), (2, 5), (4, 5)] {
            let (mut state, mut after) = (start.clone(), strip(9));
            for word in &mut after[place..place + count] {
                *word = tiedraw::draw(card, &mut state).unwrap();
            }
            assert_eq!(
                fill(card, &start, 9, (place, count)),
                (Ok(()), after, state)
            );
        }
    }
}

#[test]
fn a_fill_and_the_fill_behind_it_are_one() {
    for (card, start) in starts() {
        let whole = fill(card, &start, 300, (20, 256));
        for part in [0, 1, 128, 255, 256] {
            let (_, mut strip, mut state) = fill(card, &start, 300, (20, part));
            let answer = tiedraw::fill(card, &mut state, &mut strip, 20 + part, 256 - part);
            assert_eq!((answer, strip, state), whole);
        }
    }
}

#[test]
fn a_span_that_does_not_fit_is_refused_and_changes_nothing() {
    let state = vec![2, 3];
    let nothing = fill(PROGRAM, &state, 0, (0, 0));
    assert_eq!(nothing, (Ok(()), vec![], state.clone()));
    for (length, place, count) in [
        (0, 0, 1),
        (0, 1, 0),
        (3, 0, 4),
        (3, 2, 2),
        (3, 3, 1),
        (3, 4, 0),
        (3, 0, MAX),
        (3, 1, MAX), // the sum is 0 modulo 2^64
        (3, MAX, 0),
        (3, MAX, 1),
        (3, MAX, MAX),
    ] {
        assert_eq!(
            fill(PROGRAM, &state, length, (place, count)),
            (Err(Refusal::SpanOutOfBounds), strip(length), state.clone()),
            "place {place} and count {count}"
        );
    }
}

#[test]
fn card_and_state_are_refused_before_the_span_and_change_nothing() {
    let rows: [(&[u8], &[u32], u8); 13] = [
        (&[], &[0; 4], 1),
        (&[0x40, 3], &[0; 4], 2),
        (&[0x08, 1], &[0; 4], 3),
        (&[0x01, 3], &[0; 3], 4),
        (&[0, 0], &[0; 4], 5),
        (&[0x02, 28], &[0; 4], 6),
        (&[0x05, 2, 0, 1, 2, 3], &[0; 2], 7),
        (&[0x20, 2, 0, 0, 0], &[0; 4], 8),
        (&[0x08, 2], &[0; 4], 9),
        (&[0x08, 2], &[0; 5], 9),
        (PROGRAM, &[], 10),
        (PROGRAM, &[0, 4, 0], 10),
        (PROGRAM, &[0, 4], 11),
    ];
    for (card, state, number) in rows {
        for span in [(0, 2), (0, 0), (2, 0), (3, 0), (1, 2), (0, MAX), (MAX, 0)] {
            let refusal = Refusal::from_number(number).unwrap();
            assert_eq!(
                fill(card, state, 2, span),
                (Err(refusal), strip(2), state.to_vec())
            );
        }
    }
}

#[test]
fn a_generator_fills_whole_slices() {
    for (card, start) in starts() {
        let mut server = Generator::new(Card::new(card).unwrap(), &start).unwrap();
        let mut standby = server.clone();
        server.fill(&mut []);
        assert_eq!(server, standby);
        let mut words = strip(9);
        server.fill(&mut words[2..7]);
        let mut after = strip(9);
        after[2..7].fill_with(|| standby.draw());
        assert_eq!((words, server), (after, standby));
    }
}
