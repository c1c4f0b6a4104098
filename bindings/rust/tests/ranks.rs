//! Fair ranks through the wrapper: document 02, Two.
use tiedraw::{Card, Choice, Generator, Refusal, Shovel};

/// from its start sixteen words in a row are passed over for 33 ties
const LONG_RUN: &[u8] = &[0xe7, 2, 6, 1, 2, 3, 0, 0x31, 0, 0, 0, 2, 0];
const LONG_RUN_START: &[u32] = &[0x39, 0x19];

/// The card of document 01's program, with words of this many bits.
fn program(width: u8) -> [u8; 11] {
    [0x27, 2, width, 1, 2, 3, 0, 1, 0, 0, 0]
}

fn server(card: &[u8], state: &[u32]) -> Generator {
    Generator::new(Card::new(card).unwrap(), state).unwrap()
}

/// Shovels 1 to `ties`, all equal, and two that are further.
fn tied(ties: u16) -> Vec<Shovel> {
    let shovel = |number| Shovel {
        number,
        time: 300 + u32::from(number > ties),
    };
    (1..=ties + 2).map(shovel).collect()
}

fn choice(shovel: u16, ties: u16, taken: usize) -> Choice {
    Choice {
        shovel,
        ties: ties as u8,
        taken: taken as u8,
    }
}

/// What a pick among shovels 1 to `ties` should be, by single draws; the server has made them.
fn by_draws(server: &mut Generator, ties: u16) -> Choice {
    let words = 1u64 << server.card().width();
    let limit = words - words % u64::from(ties);
    let mut taken = 1;
    let mut word = server.draw();
    while u64::from(word) >= limit && taken < tiedraw::MOST_TAKEN {
        word = server.draw();
        taken += 1;
    }
    choice(1 + (word % u32::from(ties)) as u16, ties, taken)
}

#[test]
fn words_are_passed_over() {
    // from 2, 3 the words are 3 and 2, and from 0, 0 with 3 bits 7, 5, 6, 6, 5, 5, 4
    for (width, start, ties, shovel, taken, after) in [
        (2, [2, 3], 1, 1, 0, [2, 3]),
        (2, [2, 3], 2, 2, 1, [1, 1]),
        (2, [2, 3], 3, 3, 2, [2, 0]),
        (2, [2, 3], 4, 4, 1, [1, 1]),
        (3, [0, 0], 3, 3, 2, [6, 7]),
        (3, [0, 0], 5, 5, 7, [7, 5]),
        (3, [0, 0], 7, 6, 2, [6, 7]),
    ] {
        let mut server = server(&program(width), &start);
        let picked = server.pick(&tied(ties));
        assert_eq!(picked, Ok(choice(shovel, ties, taken)));
        assert_eq!(server.state(), after);
    }
}

#[test]
fn the_sixteenth_word_serves() {
    let mut server = server(LONG_RUN, LONG_RUN_START);
    let mut standby = server.clone();
    let picked = server.pick(&tied(33)).unwrap();
    assert_eq!(picked, choice(8, 33, tiedraw::MOST_TAKEN));
    let mut words = [0; tiedraw::MOST_TAKEN];
    standby.fill(&mut words);
    assert!(words.iter().all(|&word| word >= 33));
    assert_eq!(server, standby);
}

#[test]
fn the_largest_word_of_32_bits_is_passed_over_for_3_ties_but_not_for_2_or_4() {
    let mut before = server(&[0], &[0, 0, 0, u32::MAX]);
    before.step_back();
    for (ties, taken) in [(2, 1), (3, 2), (4, 1)] {
        let (mut server, mut standby) = (before.clone(), before.clone());
        let picked = server.pick(&tied(ties)).unwrap();
        assert_eq!(usize::from(picked.taken), taken);
        assert_eq!(picked, by_draws(&mut standby, ties));
        assert_eq!(server, standby);
    }
    assert_eq!(before.draw(), u32::MAX);
}

#[test]
fn picks_are_as_their_draws_and_steps_back_take_them_back() {
    for (card, start) in [
        (&[0][..], &[0; 4][..]),
        (&program(2), &[2, 3]),
        (&program(5), &[0, 0]),
        (LONG_RUN, LONG_RUN_START),
    ] {
        let mut server = server(card, start);
        let mut standby = server.clone();
        let most = 62.min(1 << server.card().width().min(6));
        for ties in (2..=most).cycle().take(300) {
            let before = server.clone();
            let picked = server.pick(&tied(ties)).unwrap();
            assert_eq!(picked, by_draws(&mut standby, ties));
            assert_eq!(server, standby);
            let mut back = server.clone();
            (0..picked.taken).for_each(|_| back.step_back());
            assert_eq!(back, before);
        }
    }
}

#[test]
fn the_order_of_the_list_makes_no_difference() {
    for (card, start, ties) in [
        (&program(2)[..], &[2, 3][..], 3),
        (&program(2), &[2, 3], 5),
        (&program(3), &[0, 0], 5),
        (LONG_RUN, LONG_RUN_START, 33),
    ] {
        let mut list = tied(ties);
        let mut one = server(card, start);
        let choice = one.pick(&list);
        for turn in 1..list.len() {
            list.rotate_left(turn);
            list[turn..].reverse();
            let mut other = server(card, start);
            assert_eq!(other.pick(&list), choice);
            assert_eq!(other, one);
        }
    }
}

#[test]
fn more_ties_than_words_are_refused_and_change_nothing() {
    for (width, shovel, after) in [(2, 1, [1, 2]), (3, 8, [1, 6]), (5, 15, [1, 30])] {
        let start = server(&program(width), &[0, 0]);
        let mut server = start.clone();
        for ties in [(1 << width) + 1, 62] {
            assert_eq!(server.pick(&tied(ties)), Err(Refusal::TooManyTies));
            assert_eq!(server, start);
        }
        let picked = server.pick(&tied(1 << width));
        assert_eq!(picked, Ok(choice(shovel, 1 << width, 1)));
        assert_eq!(server.state(), after);
    }
}

/// Card, state, shovels, how many times, and the refusal's number.
type Row<'a> = (&'a [u8], &'a [u32], &'a [u16], usize, u8);

#[test]
fn too_many_ties_are_told_last() {
    let equals = [300; 65];
    let numbers: Vec<u16> = (1..=65).collect();
    let rows: [Row; 7] = [
        (&[0x08, 2], &[2, 3], &numbers[..5], 5, 9),
        (&program(2), &[2], &numbers[..5], 5, 10),
        (&program(2), &[2, 4], &numbers[..5], 5, 11),
        (&program(2), &[2, 3], &numbers[..6], 5, 12),
        (&program(2), &[2, 3], &numbers, 65, 14),
        (&program(2), &[2, 3], &[1, 2, 3, 4, 5, 1], 6, 15),
        (&program(2), &[2, 3], &numbers[..64], 64, 18),
    ];
    for (card, state, shovels, times, number) in rows {
        let mut lent = state.to_vec();
        let refusal = tiedraw::pick(card, &mut lent, shovels, &equals[..times]).unwrap_err();
        assert_eq!(refusal.number(), number);
        assert_eq!(lent, state);
    }
}
