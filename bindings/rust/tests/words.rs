//! Cards of five to eight words through the wrapper: document 02, Five.
use tiedraw::{Card, Generator, Refusal, Shovel, Values, MOST_CARD_BYTES, MOST_WORDS, TABLE_SIZE};

const WORDS: std::ops::RangeInclusive<u8> = 5..=MOST_WORDS as u8;

/// A card whose table, 5 c + 3 modulo 2^words, is a single cycle.
fn values(words: u8, width: u8, filter: u8) -> Values {
    let entry = |c: u32| ((5 * c + 3) % (1 << words)) as u8;
    Values {
        words,
        width,
        table: (0..1 << words).map(entry).collect(),
        constant: 0x1248_8421 & (u32::MAX >> (32 - width)),
        filter,
        ..Values::default()
    }
}

/// Every field of a card of 8 words differs from its absent value, so that no card is longer.
fn longest() -> Values {
    Values {
        odd_power: 3,
        even_power: 4,
        constant: 0x2233_4455,
        sum_term: 0,
        ..values(8, 31, 2)
    }
}

fn server(values: &Values) -> Generator {
    let mask = u32::MAX >> (32 - values.width);
    let word = |k: u8| 0x9e37_79b9_u32.wrapping_mul(u32::from(k) + 1) & mask;
    let start: Vec<u32> = (0..values.words).map(word).collect();
    Generator::new(Card::from_values(values).unwrap(), &start).unwrap()
}

/// Words, width and filter of a card; the words of four draws, and the state after them.
type Row = (u8, u8, u8, [u32; 4], &'static [u32]);

/// Worked out from documents 01 and 02 by a separate program.
#[rustfmt::skip]
const DRAWN: [Row; 9] = [
    (5, 32, 1, [0x4c6c3751, 0xc7e332af, 0xa32add50, 0x72ffd45d],
        &[0x1877e803, 0x31988f46, 0x693e62a6, 0x2c4c7317, 0xe5cc6fd5]),
    (5, 4, 2, [0x9, 0x4, 0xe, 0x1], &[0x3, 0x6, 0x6, 0x7, 0x5]),
    (6, 5, 1, [0x10, 0x17, 0x1c, 0x1e], &[0xf, 0x0, 0x2, 0x1d, 0x1d, 0x4]),
    (6, 32, 2, [0xf01556c7, 0xce96219d, 0x0b708022, 0xce35729d],
        &[0x6f1c0b4f, 0x635c7260, 0x19f71182, 0x0862081d, 0x95e3609d, 0x50905c04]),
    (7, 31, 1, [0x5b430205, 0x1afb2797, 0x20acf00d, 0x2a901448],
        &[0x0f0059e9, 0x4a37ecbc, 0x109141b6, 0x00220047, 0x5da6ac77, 0x58840494, 0x6a5d964f]),
    (7, 6, 2, [0x2b, 0x3d, 0x3d, 0x1b], &[0x29, 0x3c, 0x36, 0x7, 0x37, 0x14, 0xf]),
    (8, 32, 2, [0x8f6a2f63, 0x32bc5d33, 0xf577116c, 0x7467647b],
        &[0x83cca541, 0x4f924066, 0x95352586, 0x806eb417, 0x556fec95, 0xd4844404, 0xebd9fafd, 0x777165d4]),
    (8, 3, 1, [0x0, 0x3, 0x2, 0x6], &[0x1, 0x6, 0x6, 0x7, 0x5, 0x4, 0x5, 0x4]),
    (8, 2, 2, [0x0, 0x3, 0x3, 0x2], &[0x1, 0x2, 0x2, 0x3, 0x1, 0x0, 0x1, 0x0]),
];

#[test]
fn draws_fills_and_steps_are_as_worked_out() {
    for (words, width, filter, drawn, after) in DRAWN {
        let mut server = server(&values(words, width, filter));
        let before = server.clone();
        let (mut stepped, mut filled) = (before.clone(), before.clone());
        assert_eq!([(); 4].map(|()| server.draw()), drawn);
        assert_eq!(server.state(), after);
        let mut strip = [0; 4];
        filled.fill(&mut strip);
        assert_eq!((strip, &filled), (drawn, &server));
        (0..4).for_each(|_| stepped.step());
        assert_eq!(stepped, server);
        (0..4).for_each(|_| server.step_back());
        assert_eq!(server, before);
    }
}

#[test]
fn a_walk_brings_up_every_state_once_and_returns() {
    for words in WORDS {
        let mut server = server(&values(words, 2, 1));
        let start = server.clone();
        let mut seen = vec![false; 1 << (2 * words)];
        for _ in 0..seen.len() {
            server.step();
            let place = server
                .state()
                .iter()
                .fold(0, |place, word| place * 4 + word);
            assert!(!std::mem::replace(&mut seen[place as usize], true));
        }
        assert_eq!(server, start);
    }
}

/// Of these shovels 4, 7 and 9 tie.
fn shovels() -> [Shovel; 4] {
    [(9, 60), (4, 60), (7, 60), (2, 61)].map(|(number, time)| Shovel { number, time })
}

#[test]
fn a_pick_goes_by_the_word() {
    for (words, width, filter, drawn, _) in DRAWN {
        let mut server = server(&values(words, width, filter));
        let mut standby = server.clone();
        let choice = server.pick(&shovels()).unwrap();
        // the first word of each row is below the largest multiple of 3
        assert_eq!(choice.shovel, [4, 7, 9][drawn[0] as usize % 3]);
        assert_eq!((choice.ties, choice.taken), (3, 1));
        standby.step();
        assert_eq!(server, standby);
    }
}

#[test]
fn a_margin_is_what_the_changed_list_is_picked_by() {
    for (words, width, filter, _, _) in DRAWN {
        let mut server = server(&values(words, width, filter));
        let near = server.margin(&shovels()).unwrap();
        let change = |mut shovel: Shovel| {
            match near.raised {
                _ if shovel.number != near.changed => {}
                true => shovel.time += near.seconds,
                false => shovel.time -= near.seconds,
            }
            shovel
        };
        let unchanged = server.clone().pick(&shovels()).unwrap();
        assert_ne!(near.choice.shovel, unchanged.shovel);
        assert_eq!(server.pick(&shovels().map(change)), Ok(near.choice));
    }
}

#[test]
fn a_card_is_written_read_and_accepted() {
    for words in WORDS {
        let card = Card::from_values(&values(words, 32, 1)).unwrap();
        assert_eq!(card.bytes()[..2], [0x05, words]);
        assert_eq!(card.bytes().len(), 2 + (1 << words));
        assert_eq!(card.values(), &values(words, 32, 1));
        assert_eq!(card.words(), words.into());
    }
    let card = Card::from_values(&longest()).unwrap();
    assert_eq!(
        (card.bytes()[0], card.bytes().len()),
        (0xff, MOST_CARD_BYTES)
    );
    assert_eq!(card.values(), &longest());
    assert_eq!(card.values().table.len(), TABLE_SIZE);
    assert_eq!(Card::new(card.bytes()), Ok(card));
}

#[test]
fn the_words_field() {
    for (words, refusal) in [
        (1, Refusal::OutOfRange),
        (2, Refusal::TableMissing),
        (4, Refusal::Redundant),
        (5, Refusal::TableMissing),
        (8, Refusal::TableMissing),
        (9, Refusal::OutOfRange),
        (255, Refusal::OutOfRange),
    ] {
        assert_eq!(Card::new(&[0x01, words]), Err(refusal));
    }
}

#[test]
fn the_table_of_a_card() {
    for words in WORDS {
        let bytes = Card::from_values(&values(words, 32, 1))
            .unwrap()
            .bytes()
            .to_vec();
        let refusal = |card: &[u8]| Card::new(card).unwrap_err();
        assert_eq!(refusal(&bytes[..bytes.len() - 1]), Refusal::Truncated);
        assert_eq!(
            refusal(&[&bytes[..], &[0]].concat()),
            Refusal::TrailingBytes
        );
        let mut other = bytes.clone();
        other[2] = 0;
        assert_eq!(refusal(&other), Refusal::NotSingleCycle);
        if words < 8 {
            other[2] = 1 << words; // with 8 words every byte is an entry
            assert_eq!(refusal(&other), Refusal::OutOfRange);
        }
    }
}

/// What the writer makes of these values on a page of so many bytes, which a refusal leaves as it was.
fn written(values: &Values, room: usize) -> Result<usize, Refusal> {
    let mut page = vec![0xa5; room];
    let answer = tiedraw::write(values, &mut page);
    assert!(answer.is_ok() || page.iter().all(|&byte| byte == 0xa5));
    answer
}

#[test]
fn the_table_of_the_writer() {
    for words in 2..8 {
        let mut values = values(words, 32, 1);
        values.table.resize(TABLE_SIZE, 0);
        assert_eq!(Card::from_values(&values).unwrap().words(), words.into());
        for place in [1 << words, TABLE_SIZE - 1] {
            values.table[place] = 1;
            assert_eq!(written(&values, 300), Err(Refusal::OutOfRange));
            values.table[place] = 0;
        }
        values.table.push(0);
        assert_eq!(written(&values, 300), Err(Refusal::OutOfRange));
    }
    let mut longer = longest();
    longer.table.push(0);
    assert_eq!(written(&longer, 300), Err(Refusal::OutOfRange));
    let short = Values {
        table: longest().table[..255].to_vec(),
        ..longest()
    };
    assert_eq!(written(&short, 300), Err(Refusal::NotSingleCycle));
}

#[test]
fn the_page_and_the_words_of_the_writer() {
    assert_eq!(
        written(&longest(), MOST_CARD_BYTES - 1),
        Err(Refusal::BufferTooSmall)
    );
    assert_eq!(written(&longest(), MOST_CARD_BYTES), Ok(MOST_CARD_BYTES));
    for words in [0, 1, 9, 32, 255] {
        let values = Values { words, ..longest() };
        assert_eq!(written(&values, 300), Err(Refusal::OutOfRange));
    }
}

#[test]
fn a_state_has_as_many_words_as_the_card_says() {
    for words in WORDS {
        let card = Card::from_values(&values(words, 7, 2)).unwrap();
        for count in [0, 4, words - 1, words + 1] {
            let answer = Generator::new(card.clone(), &vec![0; count.into()]);
            assert_eq!(answer, Err(Refusal::WordCount));
        }
        let mut state = vec![0; words.into()];
        *state.last_mut().unwrap() = 1 << 7;
        let lent = state.clone();
        assert_eq!(
            tiedraw::draw(card.bytes(), &mut state),
            Err(Refusal::WordTooWide)
        );
        assert_eq!(state, lent);
    }
}
