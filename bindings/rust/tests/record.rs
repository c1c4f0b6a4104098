//! Recorded picks, the desk and the cab, through the wrapper: document 02, Seven.
use tiedraw::{order_for, pick_recorded, read_record, Card, Choice, Generator, Record, Refusal};
use tiedraw::{Shovel, Values, MOST_RECORD_BYTES, MOST_TAKEN, MOST_WORDS};

const PROGRAM: &[u8] = &[0x27, 2, 2, 1, 2, 3, 0, 1, 0, 0, 0];
/// what truck 258 leaves of a tie of 4 and 7 with the program's card, from 0, 0
const LEFT: &[u8] = &[0x1f, 2, 1, 4, 0, 2, 1, 2, 0, 0, 0, 0, 0, 0, 0, 0];
const LENT: u8 = 0xa5;
/// from its start sixteen words in a row are passed over for 33 ties
const LONG_RUN: &[u8] = &[0xe7, 2, 6, 1, 2, 3, 0, 0x31, 0, 0, 0, 2, 0];
const LONG_RUN_START: &[u32] = &[0x39, 0x19];

fn server(card: &[u8], state: &[u32]) -> Generator {
    Generator::new(Card::new(card).unwrap(), state).unwrap()
}

/// Shovels that are equally near.
fn tied(numbers: impl IntoIterator<Item = u16>) -> Vec<Shovel> {
    let shovel = |number| Shovel { number, time: 300 };
    numbers.into_iter().map(shovel).collect()
}

/// A card of so many words, whose table, 5 c + 3 modulo 2^words, is a single cycle; and a state of it.
fn sized(words: u8, width: u8) -> Generator {
    let entry = |c: u32| ((5 * c + 3) % (1 << words)) as u8;
    let mask = u32::MAX >> (32 - width);
    let values = Values {
        words,
        width,
        table: (0..1 << words).map(entry).collect(),
        constant: 0x1248_8421 & mask,
        ..Values::default()
    };
    let word = |k: u8| 0x9e37_79b9_u32.wrapping_mul(u32::from(k) + 1) & mask;
    let start: Vec<u32> = (0..words).map(word).collect();
    server(Card::from_values(&values).unwrap().bytes(), &start)
}

/// The bytes of a record, as document 02 has them.
fn written(record: &Record) -> Vec<u8> {
    let mut bytes = vec![0x03];
    bytes.extend(record.truck.to_le_bytes());
    bytes.extend(record.shovel.to_le_bytes());
    for (bit, field) in [(0x04, record.ties), (0x08, record.taken)] {
        bytes[0] |= field.map_or(0, |_| bit);
        bytes.extend(field);
    }
    if let Some(state) = &record.state {
        bytes[0] |= 0x10;
        bytes.push(state.len() as u8);
        bytes.extend(state.iter().flat_map(|word| word.to_le_bytes()));
    }
    bytes
}

/// The same truck and shovel with each of the 8 sets of further fields, and states of 2 to 8 words.
fn whole_records() -> Vec<Record> {
    let mut records = vec![];
    for set in 0..8 {
        for words in 2..=MOST_WORDS as u32 {
            let given = |bit: u8| set & bit != 0;
            let word = |k: u32| 0x0102_0304_u32.wrapping_mul(k + words);
            records.push(Record {
                truck: 513,
                shovel: 1027,
                ties: given(1).then(|| 2 * words as u8),
                taken: given(2).then(|| 255 - words as u8),
                state: given(4).then(|| (0..words).map(word).collect()),
            });
        }
    }
    records
}

fn torn(record: &[u8]) {
    assert_eq!(read_record(record), Err(Refusal::MalformedRecord));
    // also where the bytes would name another truck: 20 comes before 21
    for truck in [0, 258, 513, u16::MAX] {
        assert_eq!(order_for(truck, record), Err(Refusal::MalformedRecord));
    }
}

// ---- A recorded pick.

#[test]
fn the_papers_example() {
    for numbers in [[7, 4], [4, 7]] {
        let mut server = server(PROGRAM, &[0, 0]);
        let (choice, record) = server.pick_recorded(258, &tied(numbers)).unwrap();
        assert_eq!((choice.shovel, choice.ties, choice.taken), (4, 2, 1));
        assert_eq!(server.state(), [1, 2]);
        assert_eq!(record.unwrap().as_slice(), LEFT);
        assert_eq!(order_for(258, &record.unwrap()), Ok(4));
    }
    let read = Record {
        truck: 258,
        shovel: 4,
        ties: Some(2),
        taken: Some(1),
        state: Some(vec![0, 0]),
    };
    assert_eq!(read_record(LEFT), Ok(read));
}

#[test]
fn without_a_tie_there_is_no_record_and_the_page_is_untouched() {
    let mut one = server(PROGRAM, &[2, 3]);
    let list = [(7, 300), (4, 299)].map(|(number, time)| Shovel { number, time });
    let (choice, record) = one.pick_recorded(258, &list).unwrap();
    assert_eq!((choice.shovel, choice.ties, choice.taken), (4, 1, 0));
    assert_eq!((record, one), (None, server(PROGRAM, &[2, 3])));
    let (mut state, mut page) = ([2, 3], [LENT; MOST_RECORD_BYTES]);
    let told = pick_recorded(PROGRAM, &mut state, &[7, 4], &[300, 299], 258, &mut page);
    assert_eq!(told, Ok((choice, None)));
    assert_eq!((state, page), ([2, 3], [LENT; MOST_RECORD_BYTES]));
}

#[test]
fn the_record_is_at_the_front_of_the_page_and_bytes_past_it_are_untouched() {
    for words in 2..=MOST_WORDS as u8 {
        let start = sized(words, 32);
        let (card, length) = (start.card().bytes(), 8 + 4 * usize::from(words));
        let mut server = start.clone();
        let (choice, record) = server.pick_recorded(7, &tied([9, 4, 6])).unwrap();
        for room in [length, length + 1, 60] {
            let (mut state, mut page) = (start.state().to_vec(), vec![LENT; room]);
            let told = pick_recorded(card, &mut state, &[9, 4, 6], &[300; 3], 7, &mut page);
            assert_eq!(told, Ok((choice, record.as_deref())));
            assert_eq!(state, server.state());
            assert_eq!(page[..length], record.unwrap()[..]);
            assert!(page[length..].iter().all(|&byte| byte == LENT));
        }
    }
    let longest = sized(8, 2).pick_recorded(0, &tied([1, 2])).unwrap();
    assert_eq!(longest.1.unwrap().len(), MOST_RECORD_BYTES);
    assert_eq!(MOST_RECORD_BYTES, 40);
}

#[test]
fn a_recorded_pick_is_the_pick() {
    let run = server(LONG_RUN, LONG_RUN_START);
    let (choice, record) = run.clone().pick_recorded(1, &tied(1..=33)).unwrap();
    assert_eq!(usize::from(choice.taken), MOST_TAKEN);
    assert_eq!(read_record(&record.unwrap()).unwrap().taken, Some(16));
    for mut one in [run, server(PROGRAM, &[2, 3]), sized(5, 3), sized(8, 32)] {
        let mut other = one.clone();
        let most = 1 << one.card().width().min(6);
        for ties in (1..=most).cycle().take(100) {
            let list = tied((0..ties).map(|place| 1000 - 7 * place));
            let (before, choice) = (one.state().to_vec(), other.pick(&list).unwrap());
            let (told, record) = one.pick_recorded(ties, &list).unwrap();
            assert_eq!((told, &one), (choice, &other));
            let expected = Record {
                truck: ties,
                shovel: choice.shovel,
                ties: Some(choice.ties),
                taken: Some(choice.taken),
                state: Some(before),
            };
            let bytes = record.map(|bytes| bytes.to_vec());
            assert_eq!(bytes, (ties > 1).then(|| written(&expected)));
        }
    }
}

#[test]
fn the_order_of_the_list_makes_no_difference_to_the_record() {
    for start in [server(LONG_RUN, LONG_RUN_START), sized(8, 32), sized(3, 7)] {
        let mut list = tied((0..33).map(|place| 7 * place));
        list.extend(tied([1, 2]).iter().map(|shovel| Shovel {
            time: 301,
            ..*shovel
        }));
        let told = start.clone().pick_recorded(9, &list);
        for turn in 1..list.len() {
            list.rotate_left(turn);
            list[turn..].reverse();
            assert_eq!(start.clone().pick_recorded(9, &list), told);
        }
    }
}

#[test]
fn every_truck_and_shovel_is_recorded_whole() {
    for (truck, shovel) in [(0, 0), (255, 256), (256, 255), (u16::MAX, u16::MAX)] {
        // from 2, 3 the greater of two is chosen, from 0, 0 the lesser
        for (state, other) in [([2, 3], 0), ([0, 0], u16::MAX)] {
            if shovel != other {
                let mut server = server(PROGRAM, &state);
                let (_, record) = server.pick_recorded(truck, &tied([shovel, other])).unwrap();
                let read = read_record(&record.unwrap()).unwrap();
                assert_eq!((read.truck, read.shovel), (truck, shovel));
                assert_eq!(order_for(truck, &record.unwrap()), Ok(shovel));
            }
        }
    }
}

#[test]
fn the_bytes_of_a_record_are_a_value() {
    let record = |truck| {
        let mut server = server(PROGRAM, &[0, 0]);
        server
            .pick_recorded(truck, &tied([7, 4]))
            .unwrap()
            .1
            .unwrap()
    };
    let (one, copy) = (record(258), record(258));
    assert_eq!(one, copy);
    assert_ne!(one, record(259));
    assert_eq!((one.as_ref(), one.to_vec()), (LEFT, LEFT.to_vec()));
    let shown = "RecordBytes([1f, 02, 01, 04, 00, 02, 01, 02, 00, 00, 00, 00, 00, 00, 00, 00])";
    assert_eq!(format!("{one:?}"), shown);
}

// ---- The desk.

#[test]
fn the_desk_reads_every_field_and_tells_which_lack() {
    let rows: [(&[u8], Option<u8>, Option<u8>); 3] = [
        (&[0x03, 1, 2, 3, 4], None, None),
        (&[0x07, 1, 2, 3, 4, 0], Some(0), None),
        (&[0x0b, 1, 2, 3, 4, 0], None, Some(0)),
    ];
    for (bytes, ties, taken) in rows {
        let record = Record {
            truck: 513,
            shovel: 1027,
            ties,
            taken,
            state: None,
        };
        assert_eq!(read_record(bytes), Ok(record));
    }
    let other = [
        0x1b, 255, 255, 255, 255, 255, 2, 1, 2, 3, 4, 255, 254, 253, 252,
    ];
    let record = Record {
        truck: u16::MAX,
        shovel: u16::MAX,
        ties: None,
        taken: Some(255),
        state: Some(vec![0x0403_0201, 0xfcfd_feff]),
    };
    assert_eq!(read_record(&other), Ok(record));
}

#[test]
fn each_set_of_fields_is_read_as_it_was_written() {
    let mut maps = vec![];
    for record in whole_records() {
        let bytes = written(&record);
        maps.push(bytes[0]);
        assert_eq!(order_for(513, &bytes), Ok(1027));
        assert_eq!(read_record(&bytes), Ok(record));
    }
    maps.dedup();
    assert_eq!(maps, [0x03, 0x07, 0x0b, 0x0f, 0x13, 0x17, 0x1b, 0x1f]);
}

#[test]
fn the_desk_makes_the_pick_again() {
    let starts = (2..=MOST_WORDS as u8).flat_map(|words| [sized(words, 7), sized(words, 32)]);
    for mut server in starts.chain([server(LONG_RUN, LONG_RUN_START)]) {
        for ties in (2..=64).cycle().take(100) {
            let list = tied((0..ties).map(|place| 37 * place));
            let (choice, bytes) = server.pick_recorded(ties, &list).unwrap();
            let bytes = bytes.unwrap();
            assert_eq!(bytes.len(), 8 + 4 * server.state().len());
            let record = read_record(&bytes).unwrap();
            let mut desk = Generator::new(server.card().clone(), &record.state.unwrap()).unwrap();
            assert_eq!(desk.pick(&list), Ok(choice));
            assert_eq!(desk, server);
            let told = Choice {
                shovel: record.shovel,
                ties: record.ties.unwrap(),
                taken: record.taken.unwrap(),
            };
            assert_eq!((told, record.truck), (choice, ties));
        }
    }
}

// ---- The cab.

#[test]
fn a_cab_hears_the_same_whatever_else_a_record_holds() {
    for record in whole_records() {
        let bytes = written(&record);
        assert_eq!(order_for(513, &bytes), Ok(1027));
        for truck in [0, 1, 258, 512, 514, 1027, u16::MAX] {
            assert_eq!(order_for(truck, &bytes), Err(Refusal::TruckMismatch));
        }
    }
    let other = [
        0x1f, 2, 1, 4, 0, 9, 16, 3, 1, 2, 3, 4, 5, 6, 7, 8, 9, 10, 11, 12,
    ];
    for truck in 0..=u16::MAX {
        let heard = order_for(truck, LEFT);
        assert_eq!(heard.is_ok(), truck == 258);
        assert_eq!(heard, order_for(truck, &other));
    }
}

// ---- Torn records.

#[test]
fn the_papers_torn_records() {
    let rows: [&[u8]; 8] = [
        &[],
        &[0x03],
        &[0x03, 1, 2, 3],
        &[0x03, 1, 2, 3, 4, 0],
        &[0x02, 1, 2, 3, 4],
        &[0x23, 1, 2, 3, 4],
        &[0x13, 1, 2, 3, 4],
        &[0x13, 1, 2, 3, 4, 1, 0, 0, 0, 0],
    ];
    rows.into_iter().for_each(torn);
}

#[test]
fn a_record_that_is_cut_or_followed_is_torn() {
    for record in whole_records() {
        let bytes = written(&record);
        (0..bytes.len()).for_each(|length| torn(&bytes[..length]));
        for more in [&[0][..], &[0xff], &[0; 40]] {
            torn(&[&bytes, more].concat());
        }
    }
    torn(&vec![0x1f; 1 << 20]);
}

#[test]
fn a_map_without_bit_0_or_1_or_with_5_to_7_is_torn() {
    for record in whole_records() {
        let bytes = written(&record);
        for map in 0..=255 {
            let mut other = bytes.clone();
            other[0] = map;
            if map & 0x03 != 0x03 || map & 0xe0 != 0 {
                torn(&other);
                // also where the bytes of a lacking field are left out
                let fields = (u8::from(map & 1 == 0) + u8::from(map & 2 == 0)) * 2;
                torn(&[&[map], &bytes[1 + usize::from(fields)..]].concat());
            }
        }
    }
}

#[test]
fn a_state_has_2_to_8_words_and_a_count() {
    for count in 0..=255_u8 {
        let state = vec![1; usize::from(count) * 4];
        let bytes = [&[0x13, 1, 2, 3, 4, count], &state[..]].concat();
        match count {
            2..=8 => assert_eq!(
                read_record(&bytes).unwrap().state.unwrap().len(),
                count.into()
            ),
            _ => torn(&bytes),
        }
        torn(&[0x13, 1, 2, 3, 4, count]);
    }
    torn(&[0x13, 1, 2, 3, 4]);
    torn(&[0x1f, 1, 2, 3, 4, 5, 6]);
}

// ---- Refusals of a recorded pick.

/// The call on a page of so many bytes; a refusal has left state and page as they were lent.
fn recorded(
    card: &[u8],
    state: &[u32],
    shovels: &[u16],
    times: &[u32],
    room: usize,
) -> Result<Choice, Refusal> {
    let (mut lent, mut page) = (state.to_vec(), vec![LENT; room]);
    let told = pick_recorded(card, &mut lent, shovels, times, 258, &mut page);
    let told = told.map(|(choice, _)| choice);
    if told.is_err() {
        assert_eq!((&lent[..], page), (state, vec![LENT; room]));
    }
    told
}

/// Card, state, shovels, how many times, and the refusal's number.
type Row<'a> = (&'a [u8], &'a [u32], &'a [u16], usize, u8);

#[test]
fn what_the_pick_refuses_is_refused_before_the_page() {
    let equals = [300; 65];
    let numbers: Vec<u16> = (1..=65).collect();
    let rows: [Row; 17] = [
        (&[], &[0; 4], &[7], 1, 1),
        (&[0x40, 3], &[0; 4], &[7], 1, 2),
        (&[0x08, 1], &[0; 4], &[7], 1, 3),
        (&[0x01, 3], &[0; 3], &[7], 1, 4),
        (&[0, 0], &[0; 4], &[7], 1, 5),
        (&[0x02, 28], &[0; 4], &[7], 1, 6),
        (&[0x05, 2, 0, 1, 2, 3], &[0; 2], &[7], 1, 7),
        (&[0x20, 2, 0, 0, 0], &[0; 4], &[7], 1, 8),
        (&[0x08, 2], &[0; 4], &[7], 1, 9),
        (PROGRAM, &[4], &[7], 1, 10),
        (PROGRAM, &[0, 4], &[7], 1, 11),
        (PROGRAM, &[2, 3], &[7, 7], 1, 12),
        (PROGRAM, &[2, 3], &[7], 0, 12),
        (PROGRAM, &[2, 3], &[], 0, 13),
        (PROGRAM, &[2, 3], &numbers, 65, 14),
        (PROGRAM, &[2, 3], &[1, 2, 3, 4, 5, 1], 6, 15),
        (PROGRAM, &[2, 3], &numbers[..64], 64, 18),
    ];
    for (card, state, shovels, times, number) in rows {
        let refusal = Refusal::from_number(number).unwrap();
        for room in [0, 7, 15, 16, MOST_RECORD_BYTES, 100] {
            let told = recorded(card, state, shovels, &equals[..times], room);
            assert_eq!(told, Err(refusal));
        }
    }
}

#[test]
fn a_page_that_is_too_short_is_refused_tie_or_not() {
    for words in 2..=MOST_WORDS as u8 {
        let server = sized(words, 5);
        let (card, state) = (server.card().bytes(), server.state());
        let needed = 8 + 4 * usize::from(words);
        for (shovels, times) in [
            (&[7, 4][..], &[300, 300][..]),
            (&[7, 4], &[300, 299]),
            (&[7], &[0]),
        ] {
            for room in 0..needed {
                let told = recorded(card, state, shovels, times, room);
                assert_eq!(told, Err(Refusal::BufferTooSmall));
            }
            let told = recorded(card, state, shovels, times, needed);
            let picked = tiedraw::pick(card, &mut state.to_vec(), shovels, times);
            assert_eq!(told, picked);
        }
    }
}

#[test]
fn a_generator_refuses_lists_and_stays_where_it_is() {
    let start = server(PROGRAM, &[2, 3]);
    let mut server = start.clone();
    for (list, refusal) in [
        (tied([]), Refusal::NoShovel),
        (tied(0..65), Refusal::TooManyShovels),
        (tied([5, 6, 5]), Refusal::DuplicateShovel),
        (tied(0..5), Refusal::TooManyTies),
    ] {
        assert_eq!(server.pick_recorded(258, &list), Err(refusal));
        assert_eq!(server, start);
    }
}

#[test]
fn the_refusals_of_records_have_their_numbers_and_trade_words() {
    for (refusal, number, text) in [
        (
            order_for(258, &LEFT[1..]).unwrap_err(),
            20,
            "refusal 20 (torn): a record's map, state count or length is not of its form",
        ),
        (
            order_for(259, LEFT).unwrap_err(),
            21,
            "refusal 21 (other truck): the record is of another truck than the cab's",
        ),
        (
            recorded(PROGRAM, &[0, 0], &[7], &[300], 15).unwrap_err(),
            16,
            "refusal 16 (small page): the page has fewer bytes than the card or the record needs",
        ),
    ] {
        assert_eq!(
            (refusal.number(), refusal.to_string()),
            (number, text.into())
        );
    }
}
