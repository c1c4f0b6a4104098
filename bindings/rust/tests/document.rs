//! The examples of document 01 through the wrapper.
use tiedraw::{Card, Choice, Generator, Refusal, Shovel, Values};

const PROGRAM: [u8; 11] = [0x27, 2, 2, 1, 2, 3, 0, 1, 0, 0, 0];

fn server(state: &[u32]) -> Generator {
    Generator::new(Card::new(&PROGRAM).unwrap(), state).unwrap()
}

fn shovels(pairs: &[(u16, u32)]) -> Vec<Shovel> {
    pairs
        .iter()
        .map(|&(number, time)| Shovel { number, time })
        .collect()
}

fn choice(shovel: u16, ties: u8, taken: u8) -> Choice {
    Choice {
        shovel,
        ties,
        taken,
    }
}

#[test]
fn the_program_draws_as_printed() {
    let mut server = server(&[0, 0]);
    for (state, word) in [([1, 2], 0), ([2, 3], 0), ([1, 1], 3), ([2, 0], 2)] {
        assert_eq!((server.draw(), server.state()), (word, &state[..]));
    }
    for state in [[1, 1], [2, 3], [1, 2], [0, 0]] {
        server.step_back();
        assert_eq!(server.state(), state);
    }
    server.step();
    assert_eq!(server.state(), [1, 2]);
}

#[test]
fn a_tie_goes_by_rank_and_not_by_place() {
    for list in [[(7, 300), (4, 300)], [(4, 300), (7, 300)]] {
        for (state, shovel, after) in [([0, 0], 4, [1, 2]), ([2, 3], 7, [1, 1])] {
            let mut server = server(&state);
            assert_eq!(server.pick(&shovels(&list)), Ok(choice(shovel, 2, 1)));
            assert_eq!(server.state(), after);
        }
    }
    let mut server = server(&[0, 0]);
    let alone = server.pick(&shovels(&[(4, 300), (7, 299)]));
    assert_eq!(alone, Ok(choice(7, 1, 0)));
    assert_eq!(server.state(), [0, 0]);
}

#[test]
fn what_is_unsound_is_refused_and_changes_nothing() {
    assert_eq!(
        Card::new(&[0x05, 2, 0, 1, 2, 3]),
        Err(Refusal::NotSingleCycle)
    );
    let card = Card::new(&PROGRAM).unwrap();
    assert_eq!(Generator::new(card.clone(), &[0]), Err(Refusal::WordCount));
    assert_eq!(Generator::new(card, &[0, 4]), Err(Refusal::WordTooWide));
    let mut server = server(&[2, 3]);
    let crowd: Vec<(u16, u32)> = (0..65).map(|number| (number, 1)).collect();
    for (list, refusal) in [
        (&[][..], Refusal::NoShovel),
        (&crowd[..], Refusal::TooManyShovels),
        (&[(5, 1), (6, 1), (5, 2)][..], Refusal::DuplicateShovel),
    ] {
        assert_eq!(server.pick(&shovels(list)), Err(refusal));
        assert_eq!(server.state(), [2, 3]);
    }
    let mut page = [7; 10];
    assert_eq!(
        tiedraw::write(&values(), &mut page),
        Err(Refusal::BufferTooSmall)
    );
    assert_eq!(page, [7; 10]);
    assert_eq!(
        tiedraw::pick(&PROGRAM, &mut [0, 0], &[1], &[]),
        Err(Refusal::LengthMismatch)
    );
}

fn values() -> Values {
    Values {
        words: 2,
        width: 2,
        table: vec![1, 2, 3, 0],
        odd_power: 1,
        even_power: 2,
        constant: 1,
        filter: 1,
        sum_term: 1,
    }
}

#[test]
fn values_become_a_card() {
    assert_eq!(Card::from_values(&values()).unwrap().bytes(), PROGRAM);
    let overlong = Values {
        table: vec![0; tiedraw::TABLE_SIZE + 1],
        ..values()
    };
    assert_eq!(Card::from_values(&overlong), Err(Refusal::OutOfRange));
}

#[test]
fn a_refusal_tells_its_number_and_trade_word() {
    let refusal = Card::new(&[0x08, 2]).unwrap_err();
    assert_eq!((refusal.number(), refusal.trade_word()), (9, "powers"));
    assert_eq!(
        refusal.to_string(),
        "refusal 9 (powers): the odd power is even, or the even power is odd"
    );
}
