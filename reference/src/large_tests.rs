//! Tests of cards of five to eight words (document 02, Five), with words worked out by hand.

use crate::cases::random_card;
use crate::*;

/// Entry and place differ by one: a ring through all entries in turn.
fn ring(words: u8) -> Vec<u8> {
    (0..1usize << words)
        .map(|place| ((place + 1) % (1 << words)) as u8)
        .collect()
}

/// Map, words, the ring and the bytes behind it. The map has bits 0 and 2.
fn with_ring(map: u8, words: u8, behind: &[u8]) -> Vec<u8> {
    [&[map, words], &ring(words)[..], behind].concat()
}

/// All eight fields: 31 bits, a = 3, b = 0, C = 4030201 hex, filter 2, sum term 0.
fn every_field(words: u8) -> Vec<u8> {
    let behind = [3, 0, 1, 2, 3, 4, 2, 0];
    [&[0xff, words, 31], &ring(words)[..], &behind].concat()
}

#[test]
fn word_counts() {
    for (words, verdict) in [
        (0, 2),
        (1, 2),
        (2, 4),
        (3, 4),
        (4, 3),
        (5, 4),
        (6, 4),
        (7, 4),
        (8, 4),
        (9, 2),
        (16, 2),
        (255, 2),
    ] {
        assert_eq!(check(&[0x01, words]), verdict, "{words}");
        assert_eq!(read(&[0x01, words]).err(), Some(verdict), "{words}");
    }
}

#[test]
fn tables() {
    for words in 5..=8 {
        let card = with_ring(0x05, words, &[]);
        assert_eq!(check(&card), 0);
        assert_eq!(check(&card[..card.len() - 1]), 1);
        assert_eq!(check(&[&card[..], &[0]].concat()), 5);
        let mut identity = card.clone();
        identity[2..].copy_from_slice(&(0..=255).take(1 << words).collect::<Vec<u8>>());
        assert_eq!(check(&identity), 7);
        for place in [2, 9, card.len() - 1] {
            for entry in [127, 128, 255] {
                let mut changed = card.clone();
                changed[place] = entry;
                let in_range = usize::from(entry) < 1 << words;
                let verdict = if in_range { 7 } else { 2 };
                let kept = changed == card;
                assert_eq!(check(&changed), if kept { 0 } else { verdict });
            }
        }
    }
    // m = 4 still takes 16 entries, of which the last is 16 here; then 16 are left over
    assert_eq!(check(&[&[0x04][..], &ring(5)].concat()), 2);
    assert_eq!(check(&[&[0x04][..], &ring(4), &ring(4)].concat()), 5);
}

/// No entry is out of range for m = 8, whatever the 256 bytes are.
#[test]
fn every_byte_is_an_entry_of_eight_words() {
    for byte in 0..=255 {
        let card = [&[0x05, 8], &[byte; 256][..]].concat();
        assert_eq!(check(&card), 7);
        assert_eq!(read(&card).unwrap().table, [byte; 256]);
    }
}

#[test]
fn longest_cards() {
    for (words, length) in [(5, 43), (6, 75), (7, 139), (8, 267)] {
        let card = every_field(words);
        assert_eq!(card.len(), length);
        assert_eq!(check(&card), 0);
        assert_eq!(write(&read(&card).unwrap()), Ok(card.clone()));
        for cut in 0..length {
            assert_eq!(check(&card[..cut]), 1, "{cut}");
        }
        let long = [&card[..], &[0; 245]].concat();
        for cut in length + 1..=long.len() {
            assert_eq!(check(&long[..cut]), 5, "{cut}");
        }
    }
}

/// Width, the words from x4 on, the output word by filter 1 and by filter 2. The first four words are
/// 0, 0, 0, 0: with C = 1, b = 0 and no sum term, column 0 alone goes on by one, and x0 becomes 1.
const ROWS: [(u8, &[u32], u32, u32); 7] = [
    (2, &[2], 3, 3),
    (2, &[2, 2], 0, 0),
    (3, &[2, 4, 6], 5, 3),
    (2, &[2, 2, 2, 2], 3, 3),
    (5, &[2, 4, 8, 16], 7, 0x1d),
    (7, &[8, 4, 2, 64], 0x4b, 0x74),
    (
        32,
        &[1 << 28, 1 << 27, 1 << 31, 0x0200_0001],
        0x0100_00a3,
        0x0200_10ab,
    ),
];

#[test]
fn words_by_hand() {
    for (width, rest, first, second) in ROWS {
        for (filter, word) in [(1, first), (2, second)] {
            let words = 4 + rest.len() as u8;
            let card = Card {
                words,
                width,
                table: ring(words),
                odd_power: 1,
                even_power: 0,
                constant: 1,
                filter,
                sum_term: 0,
            };
            let card = write(&card).unwrap();
            let before = [&[0; 4], rest].concat();
            let mut state = before.clone();
            assert_eq!(call_draw(&card, &mut state), Ok(word), "{rest:?}");
            assert_eq!(state, [&[1, 0, 0, 0], rest].concat());
            assert_eq!(call_step_back(&card, &mut state), 0);
            assert_eq!(state, before);
        }
    }
}

/// p and s take in all words. Five words of 2 bits, C = 1, a = 1, b = 2, sum term 1, filter 1.
#[test]
fn selector_of_all_words() {
    let card = with_ring(0x27, 5, &[]);
    let card = [&card[..2], &[2], &card[2..], &[1, 0, 0, 0]].concat();
    for (before, after, word) in [
        ([0, 0, 0, 0, 0], [1, 2, 0, 0, 0], 0),
        ([3, 3, 3, 3, 0], [2, 0, 0, 0, 3], 1), // p is 0, s is 0 modulo 4, the selector 1
        ([1, 1, 1, 1, 0], [0, 2, 0, 0, 1], 2), // p is 0, s is 0 modulo 4, the selector 1
        ([0, 0, 0, 0, 1], [3, 0, 0, 0, 1], 0), // p is 0, s is 1, the selector 3
        ([1, 1, 1, 1, 1], [0, 2, 0, 0, 0], 1), // p is 1, s is 1, the selector 3 XOR 2
    ] {
        let mut state = before;
        assert_eq!(call_draw(&card, &mut state), Ok(word), "{before:?}");
        assert_eq!(state, after);
        assert_eq!(call_step_back(&card, &mut state), 0);
        assert_eq!(state, before);
    }
}

#[test]
fn states() {
    let card = every_field(8);
    for length in (0..=16).filter(|&length| length != 8) {
        let mut state = vec![u32::MAX; length];
        assert_eq!(call_step(&card, &mut state), 10);
        assert_eq!(state, vec![u32::MAX; length]);
    }
    for place in 0..8 {
        let mut state = vec![mask(31); 8];
        assert_eq!(call_step(&card, &mut state), 0);
        state[place] = 1 << 31;
        let lent = state.clone();
        assert_eq!(call_draw(&card, &mut state), Err(11));
        assert_eq!(call_step_back(&card, &mut state), 11);
        assert_eq!(state, lent);
    }
}

/// The values of a card as the writer takes them, with its array of 256 entries.
fn values(card: &[u8]) -> Card {
    let mut values = read(card).unwrap();
    values.table.resize(TABLE_ENTRIES, 0);
    values
}

#[test]
fn unused_entries() {
    let program = [0x27, 2, 2, 1, 2, 3, 0, 1, 0, 0, 0];
    let others = (5..=7).map(every_field);
    for card in [vec![0], program.to_vec()].into_iter().chain(others) {
        let good = values(&card);
        let mut page = [0xa5; 300];
        assert_eq!(call_write(&good, &mut page), Ok(card.len()));
        assert_eq!(page[..card.len()], card);
        assert!(page[card.len()..].iter().all(|&byte| byte == 0xa5));
        for place in 1 << good.words..TABLE_ENTRIES {
            let mut bad = good.clone();
            bad.table[place] = 1;
            assert_eq!(call_write(&bad, &mut page), Err(2), "{place}");
        }
    }
}

#[test]
fn writer_of_eight_words() {
    let card = every_field(8);
    let good = values(&card);
    let mut page = [0xa5; 267];
    assert_eq!(call_write(&good, &mut page[..266]), Err(16));
    assert_eq!(page, [0xa5; 267]);
    assert_eq!(call_write(&good, &mut page), Ok(267));
    assert_eq!(page[..], card);
    for length in [0, 16, 255, 257, 512] {
        let mut other = good.clone();
        other.table.resize(length, 0);
        assert_eq!(call_write(&other, &mut page), Err(2));
    }
    for words in [0, 1, 9, 255] {
        let mut other = good.clone();
        other.words = words;
        assert_eq!(call_write(&other, &mut page), Err(2));
    }
    let mut seven = good;
    seven.words = 7; // entries of 128 and more
    assert_eq!(call_write(&seven, &mut page), Err(2));
}

/// True when the walk from zeros brings up all of N states and is back after N steps.
fn covers(card: &Card) -> bool {
    let number = |state: &[u32]| {
        let digits = state.iter().map(|&x| x as usize);
        digits.fold(0, |sum, x| sum << card.width | x)
    };
    let zeros = vec![0; card.words.into()];
    let mut seen = vec![false; 1 << (card.words * card.width)];
    let mut state = zeros.clone();
    for _ in 0..seen.len() {
        if std::mem::replace(&mut seen[number(&state)], true) {
            return false;
        }
        state = step(card, &state);
    }
    state == zeros
}

/// Document 01, demand 3, on five to eight words with states of up to 16 bits.
#[test]
fn check_accepts_exactly_the_full_walks() {
    let mut x = 6;
    for (words, width) in [(5, 2), (5, 3), (6, 2), (7, 2), (8, 2)] {
        let mut verdicts = [0; 10];
        for number in 0..60 {
            let mut card = random_card(words, width, &mut x);
            card.odd_power &= 7; // quick walks
            card.even_power &= 7;
            let place = next(&mut x) as usize % (1 << words);
            match number % 6 {
                0 => card.table.rotate_left(1),
                1 => card.table[place] = card.table[place / 2],
                2 => card.constant ^= 1,
                3 => card.odd_power ^= 1,
                4 => card.even_power ^= 1,
                _ => {}
            }
            let bytes = encode(&card);
            assert_eq!(read(&bytes), Ok(card.clone()));
            let verdict = check(&bytes);
            assert_eq!(verdict == 0, covers(&card), "{card:?}");
            verdicts[usize::from(verdict)] += 1;
        }
        assert!([0, 7, 8, 9].iter().all(|&v| verdicts[v] >= 5));
    }
}
