//! Cards read, written again and made from values; the bounds; refusals by their numbers; the versions.
use tiedraw::{Card, Generator, Refusal, Shovel, Values};

const PROGRAM: &[u8] = &[0x27, 2, 2, 1, 2, 3, 0, 1, 0, 0, 0];
const TSC2: &[u8] = &[
    0x74, 5, 2, 11, 12, 13, 4, 3, 14, 15, 8, 1, 6, 7, 10, 9, 0, 0, 1, 0, 0, 0, 2,
];
/// every field but the words: the longest card of 4 words
const LONG: &[u8] = &[
    0xfe, 31, 5, 2, 11, 12, 13, 4, 3, 14, 15, 8, 1, 6, 7, 10, 9, 0, 3, 4, 0x55, 0x44, 0x33, 0x22,
    2, 0,
];

fn tsc1() -> Values {
    Values {
        words: 4,
        width: 32,
        table: vec![3, 5, 9, 13, 1, 6, 11, 15, 4, 0, 8, 14, 10, 7, 2, 12],
        odd_power: 1,
        even_power: 2,
        constant: 0x1248_8421,
        filter: 1,
        sum_term: 1,
    }
}

#[test]
fn a_card_is_read() {
    assert_eq!(tiedraw::read(&[0]), Ok(tsc1()));
    let program = Values {
        words: 2,
        width: 2,
        table: vec![1, 2, 3, 0],
        constant: 1,
        ..tsc1()
    };
    assert_eq!(tiedraw::read(PROGRAM), Ok(program));
    let long = Values {
        words: 4,
        width: 31,
        table: vec![5, 2, 11, 12, 13, 4, 3, 14, 15, 8, 1, 6, 7, 10, 9, 0],
        odd_power: 3,
        even_power: 4,
        constant: 0x2233_4455,
        filter: 2,
        sum_term: 0,
    };
    assert_eq!(tiedraw::read(LONG), Ok(long));
}

#[test]
fn the_reader_refuses_by_1_to_6_alone() {
    let rows: [(&[u8], Refusal); 6] = [
        (&[], Refusal::Truncated),
        (&[0x40, 3], Refusal::OutOfRange),
        (&[0x08, 1], Refusal::Redundant),
        (&[0x01, 3], Refusal::TableMissing),
        (&[0, 0], Refusal::TrailingBytes),
        (&[0x02, 28], Refusal::ConstantTooWide),
    ];
    for (card, refusal) in rows {
        assert_eq!(tiedraw::read(card), Err(refusal));
        assert_eq!(Card::new(card), Err(refusal));
    }
    let even_power = tiedraw::read(&[0x08, 2]).unwrap();
    assert_eq!(even_power.odd_power, 2);
    assert_eq!(Card::from_values(&even_power), Err(Refusal::PowerParity));
}

#[test]
fn a_card_knows_its_values_and_they_make_it_again() {
    for bytes in [&[0], PROGRAM, TSC2, LONG, &[0x02, 29], &[0x10, 0]] {
        let card = Card::new(bytes).unwrap();
        assert_eq!(tiedraw::read(bytes).as_ref(), Ok(card.values()));
        assert_eq!(card.words(), usize::from(card.values().words));
        assert_eq!(card.width(), u32::from(card.values().width));
        assert_eq!(card.values().table.len(), 1 << card.words());
        assert_eq!(Card::from_values(card.values()), Ok(card));
    }
}

#[test]
fn tsc1_is_the_default() {
    assert_eq!(Values::default(), tsc1());
    assert_eq!(Card::default(), Card::new(&[0]).unwrap());
    assert_eq!(Card::from_values(&Values::default()), Ok(Card::default()));
    let mut server = Generator::new(Card::default(), &[0; 4]).unwrap();
    assert_eq!(server.draw(), 0x0b85_7478);
}

#[test]
fn the_most_shovels_are_picked_from() {
    let mut server = Generator::new(Card::default(), &[0; 4]).unwrap();
    let shovel = |number| Shovel { number, time: 9 };
    let most: Vec<Shovel> = (0..tiedraw::MOST_SHOVELS as u16).map(shovel).collect();
    let ties = server.pick(&most).unwrap().ties;
    assert_eq!(usize::from(ties), tiedraw::MOST_SHOVELS);
}

#[test]
fn every_number_is_a_refusal_but_0() {
    assert_eq!(Refusal::from_number(0), None);
    assert_eq!(Refusal::from_number(1), Some(Refusal::Truncated));
    assert_eq!(Refusal::from_number(16), Some(Refusal::BufferTooSmall));
    assert_eq!(Refusal::from_number(17), Some(Refusal::SpanOutOfBounds));
    assert_eq!(Refusal::from_number(18), Some(Refusal::TooManyTies));
    assert_eq!(Refusal::from_number(19), Some(Refusal::NoSuchChange));
    assert_eq!(Refusal::from_number(20), Some(Refusal::MalformedRecord));
    assert_eq!(Refusal::from_number(21), Some(Refusal::TruckMismatch));
    assert_eq!(Refusal::from_number(22), Some(Refusal::StripTooLong));
    assert_eq!(Refusal::from_number(23), Some(Refusal::StripWordTooWide));
    assert_eq!(Refusal::from_number(24), Some(Refusal::BitPageTooSmall));
    assert_eq!(Refusal::from_number(25), Some(Refusal::OffMap));
    assert_eq!(Refusal::from_number(26), Some(Refusal::SingleCycle));
    for number in 1..=255 {
        let refusal = Refusal::from_number(number).unwrap();
        assert_eq!(refusal.number(), number);
        let unknown = matches!(refusal, Refusal::Unknown(_));
        assert_eq!(unknown, number > 26);
        assert_eq!(refusal.trade_word() == "unknown", unknown);
    }
    let unknown = Refusal::from_number(29).unwrap();
    assert_eq!(unknown, Refusal::Unknown(29));
    assert_eq!(
        unknown.to_string(),
        format!(
            "refusal 29: unknown to this binding, version {}",
            tiedraw::VERSION
        )
    );
}

#[test]
fn the_library_goes_with_the_binding() {
    assert_eq!(tiedraw::check_version(), Ok(()));
    let library = tiedraw::library_version();
    let start = format!("{}.{}.", library.major, library.minor);
    assert!(tiedraw::VERSION.starts_with(&start));
    assert_eq!(library.to_string(), format!("{start}{}", library.patch));
}
