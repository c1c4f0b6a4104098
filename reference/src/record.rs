//! Records of ties, for the desk and the cab (document 02, Seven).
//!
//! A record is a map byte, then the fields whose bit is 1, from bit 0 up, low bytes first: truck (2
//! bytes), shovel (2), equals (1), words taken (1), and the state before the pick, a count of 2 to
//! 8 and that many words (4 bytes each). Bits 0 and 1 always stand, bits 5 to 7 never.

use crate::pick::{call_pick, Picked};
use crate::MOST_WORDS;

/// The refusal of bytes that are no whole record.
const TORN: u8 = 20;
/// The refusal to a cab of another truck.
const OTHER_TRUCK: u8 = 21;

/// The fields of a record; none for one that is lacking.
#[derive(Clone, PartialEq, Debug)]
pub struct Record {
    pub truck: u16,
    pub shovel: u16,
    pub ties: Option<u8>,        // k, the number of equals
    pub taken: Option<u8>,       // the number of words taken
    pub state: Option<Vec<u32>>, // that before the pick, 2 to 8 words
}

/// The bytes of a record, whole if a state has 2 to 8 words.
pub fn write_record(record: &Record) -> Vec<u8> {
    let mut bytes = vec![0b11];
    bytes.extend(record.truck.to_le_bytes());
    bytes.extend(record.shovel.to_le_bytes());
    if let Some(ties) = record.ties {
        bytes[0] |= 1 << 2;
        bytes.push(ties);
    }
    if let Some(taken) = record.taken {
        bytes[0] |= 1 << 3;
        bytes.push(taken);
    }
    if let Some(state) = &record.state {
        bytes[0] |= 1 << 4;
        bytes.push(state.len() as u8);
        bytes.extend(state.iter().flat_map(|word| word.to_le_bytes()));
    }
    bytes
}

/// Takes `count` bytes from the front of `rest`, which is torn if it has fewer.
fn take<'a>(rest: &mut &'a [u8], count: usize) -> Result<&'a [u8], u8> {
    crate::take(rest, count).or(Err(TORN))
}

/// A field of one byte.
fn byte(rest: &mut &[u8]) -> Result<u8, u8> {
    Ok(take(rest, 1)?[0])
}

/// A field of two bytes.
fn two_bytes(rest: &mut &[u8]) -> Result<u16, u8> {
    let two = take(rest, 2)?;
    Ok(u16::from_le_bytes([two[0], two[1]]))
}

/// The count and the words of a state.
fn state(rest: &mut &[u8]) -> Result<Vec<u32>, u8> {
    let count = byte(rest)?;
    if !(2..=MOST_WORDS).contains(&count) {
        return Err(TORN);
    }
    let bytes = take(rest, 4 * usize::from(count))?;
    let word = |four: &[u8]| u32::from_le_bytes([four[0], four[1], four[2], four[3]]);
    Ok(bytes.chunks(4).map(word).collect())
}

/// The desk: every field of a record, or 20 where map, state count or length breaks its form. No
/// value of a field but the count is judged.
pub fn read_record(bytes: &[u8]) -> Result<Record, u8> {
    let mut rest = bytes;
    let map = byte(&mut rest)?;
    let present = |bit: u8| (map >> bit) & 1 == 1;
    let always = present(0) && present(1);
    let never = present(5) || present(6) || present(7);
    if !always || never {
        return Err(TORN);
    }
    let truck = two_bytes(&mut rest)?;
    let shovel = two_bytes(&mut rest)?;
    let ties = present(2).then(|| byte(&mut rest)).transpose()?;
    let taken = present(3).then(|| byte(&mut rest)).transpose()?;
    let state = present(4).then(|| state(&mut rest)).transpose()?;
    if !rest.is_empty() {
        return Err(TORN);
    }
    Ok(Record {
        truck,
        shovel,
        ties,
        taken,
        state,
    })
}

/// The cab of a truck: the shovel alone, or 20, then 21 where the record is another truck's.
pub fn order_for(truck: u16, bytes: &[u8]) -> Result<u16, u8> {
    let record = read_record(bytes)?;
    if record.truck != truck {
        return Err(OTHER_TRUCK);
    }
    Ok(record.shovel)
}

/// A pick that leaves the record of a tie at the front of the page. Its answer, or a refusal number
/// with state and page unchanged: those of the pick, 1 to 15 and 18, then 16 where the page has
/// fewer than 8 + 4m bytes, tie or not. The pick is made on a copy of the state.
pub fn call_recorded_pick(
    card: &[u8],
    state: &mut [u32],
    shovels: &[u16],
    times: &[u32],
    truck: u16,
    page: &mut [u8],
) -> Result<Picked, u8> {
    let mut after = state.to_vec();
    let pick = call_pick(card, &mut after, shovels, times)?;
    if page.len() < 8 + 4 * state.len() {
        return Err(16);
    }
    if pick.ties > 1 {
        let record = Record {
            truck,
            shovel: pick.shovel,
            ties: Some(pick.ties as u8),
            taken: Some(pick.taken as u8),
            state: Some(state.to_vec()),
        };
        let bytes = write_record(&record);
        page[..bytes.len()].copy_from_slice(&bytes);
    }
    state.copy_from_slice(&after);
    Ok(pick)
}

#[cfg(test)]
mod tests {
    use super::*;
    use crate::cases::random_card;
    use crate::{encode, mask, next};

    const PROGRAM: [u8; 11] = [0x27, 2, 2, 1, 2, 3, 0, 1, 0, 0, 0]; // document 01, The program
    const LENT: u8 = 0xa5;

    /// The bits of the map that stand always, those that may, and those that never do.
    const ALWAYS: u8 = 0b11;
    const MAY: [u8; 3] = [1 << 2, 1 << 3, 1 << 4];
    const NEVER: [u8; 3] = [1 << 5, 1 << 6, 1 << 7];

    /// The answer of a recorded pick, and page and state after it.
    type Answer = (Result<Picked, u8>, Vec<u8>, Vec<u32>);

    /// One recorded pick on a lent page.
    fn recorded(
        card: &[u8],
        state: &[u32],
        lists: (&[u16], &[u32]),
        truck: u16,
        page: usize,
    ) -> Answer {
        let (mut state, mut page) = (state.to_vec(), vec![LENT; page]);
        let answer = call_recorded_pick(card, &mut state, lists.0, lists.1, truck, &mut page);
        (answer, page, state)
    }

    fn picked(shovel: u16, ties: usize, taken: usize) -> Result<Picked, u8> {
        Ok(Picked {
            shovel,
            ties,
            taken,
        })
    }

    // ---- Recorded picks ----

    /// Document 01, At the edges, and document 02, Two: the words from 2, 3 are 3 and 2, and for
    /// three equals 3 is passed over. The record's bytes are written out here.
    #[test]
    fn records_of_ties() {
        type Row<'a> = (&'a [u32], &'a [u16], u16, Answer);
        let rows: [Row; 4] = [
            (
                &[0, 0],
                &[7, 4],
                258,
                (
                    picked(4, 2, 1),
                    vec![0x1f, 2, 1, 4, 0, 2, 1, 2, 0, 0, 0, 0, 0, 0, 0, 0],
                    vec![1, 2],
                ),
            ),
            (
                &[2, 3],
                &[7, 4],
                65535,
                (
                    picked(7, 2, 1),
                    vec![0x1f, 255, 255, 7, 0, 2, 1, 2, 2, 0, 0, 0, 3, 0, 0, 0],
                    vec![1, 1],
                ),
            ),
            (
                &[2, 3],
                &[770, 4, 9],
                0,
                (
                    picked(770, 3, 2),
                    vec![0x1f, 0, 0, 2, 3, 3, 2, 2, 2, 0, 0, 0, 3, 0, 0, 0],
                    vec![2, 0],
                ),
            ),
            (
                &[1, 1],
                &[65280, 65535, 0, 255],
                128,
                (
                    picked(65280, 4, 1),
                    vec![0x1f, 128, 0, 0, 255, 4, 1, 2, 1, 0, 0, 0, 1, 0, 0, 0],
                    vec![2, 0],
                ),
            ),
        ];
        for (state, shovels, truck, (answer, record, after)) in rows {
            let times = vec![300; shovels.len()];
            for more in [0, 1, 100] {
                let page = [&record[..], &vec![LENT; more]].concat();
                let lists = (shovels, &times[..]);
                let told = recorded(&PROGRAM, state, lists, truck, page.len());
                assert_eq!(told, (answer, page, after.clone()));
            }
        }
    }

    /// P1 of document 01 from words with four different bytes each, then from zeros.
    #[test]
    fn records_of_four_words() {
        let state = [0x0403_0201, 0xf8f7_f6f5, 0x8000_0000, 0x0000_00ff];
        let (answer, page, _) = recorded(&[0], &state, (&[9, 8], &[0; 2]), 0x1234, 25);
        let shovel = answer.unwrap().shovel as u8;
        let front = [0x1f, 0x34, 0x12, shovel, 0, 2, 1, 4];
        let words = [
            1, 2, 3, 4, 0xf5, 0xf6, 0xf7, 0xf8, 0, 0, 0, 0x80, 0xff, 0, 0, 0,
        ];
        assert_eq!(page, [&front[..], &words, &[LENT]].concat());

        let after = [0xffff_ffff, 0x1248_8421, 0xedb7_7bde, 0xedb7_7bde];
        let (answer, page, state) = recorded(&[0], &[0; 4], (&[9, 8], &[0; 2]), 1, 24);
        assert_eq!(answer, picked(8, 2, 1)); // the word is 0b857478 hex, rank 0
        assert_eq!(page, [&[0x1f, 1, 0, 8, 0, 2, 1, 4], &[0; 16][..]].concat());
        assert_eq!(state, after);
    }

    #[test]
    fn no_tie_leaves_page_and_state() {
        for state in [[0, 0], [2, 3]] {
            for page in [16, 17, 600] {
                let unmoved = (picked(7, 1, 0), vec![LENT; page], state.to_vec());
                let lists: (&[u16], &[u32]) = (&[4, 7], &[300, 299]);
                assert_eq!(recorded(&PROGRAM, &state, lists, 5, page), unmoved);
                let alone: (&[u16], &[u32]) = (&[7], &[0]);
                assert_eq!(recorded(&PROGRAM, &state, alone, 5, page), unmoved);
            }
        }
    }

    /// 8 + 4m bytes and one less, tie or not, for each number of words.
    #[test]
    fn page_sizes() {
        let mut x = 7;
        for words in 2..=8 {
            let card = encode(&random_card(words, 32, &mut x));
            let state: Vec<u32> = (0..words).map(|_| next(&mut x)).collect();
            let needed = [16, 20, 24, 28, 32, 36, 40][usize::from(words) - 2];
            for times in [[60, 60], [60, 61]] {
                let lists: (&[u16], &[u32]) = (&[1, 2], &times);
                for page in [0, 1, needed - 4, needed - 1] {
                    let refused = (Err(16), vec![LENT; page], state.clone());
                    assert_eq!(recorded(&card, &state, lists, 9, page), refused);
                }
                for page in [needed, needed + 1, needed + 4, 600] {
                    let (answer, page, after) = recorded(&card, &state, lists, 9, page);
                    let written = if answer.unwrap().ties == 1 { 0 } else { needed };
                    assert_eq!(after == state, written == 0);
                    assert_eq!(page[0] == LENT, written == 0);
                    assert!(page[written..].iter().all(|&byte| byte == LENT));
                }
            }
        }
    }

    /// State, shovels, times and the refusal number on a large page, 0 for none.
    type Row<'a> = (&'a [u32], &'a [u16], &'a [u32], u8);

    /// The program's card can rank four. On a page that is too small, only what would not be
    /// refused otherwise gets 16.
    #[test]
    fn refusals_in_order_leave_page_and_state() {
        let many: Vec<u16> = (0..65).collect();
        let rows: [Row; 12] = [
            (&[4], &[], &[1], 10),
            (&[2, 3, 0], &many[..5], &[1; 5], 10),
            (&[0, 4], &[], &[1], 11),
            (&[0, 4], &many[..5], &[1; 5], 11),
            (&[2, 3], &[7, 7], &[1], 12),
            (&[2, 3], &[], &[], 13),
            (&[2, 3], &many, &[1; 65], 14),
            (&[2, 3], &[5, 6, 5], &[3, 1, 3], 15),
            (&[2, 3], &[1, 2, 3, 4, 1], &[1; 5], 15),
            (&[2, 3], &many[..5], &[1; 5], 18),
            (&[2, 3], &many[..4], &[1; 4], 0),
            (&[2, 3], &many[..2], &[1, 2], 0),
        ];
        for (state, shovels, times, refusal) in rows {
            let lists = (shovels, times);
            for page in [0, 15, 16, 600] {
                let unchanged = |number| (Err(number), vec![LENT; page], state.to_vec());
                let told = recorded(&PROGRAM, state, lists, 9, page);
                match refusal {
                    0 if page < 16 => assert_eq!(told, unchanged(16)),
                    0 => assert!(told.0.is_ok()),
                    _ => assert_eq!(told, unchanged(refusal)),
                }
                for (card, number) in [(&[][..], 1), (&[8, 1], 3), (&[8, 2], 9)] {
                    assert_eq!(recorded(card, state, lists, 9, page), unchanged(number));
                }
            }
        }
    }

    /// A random card of 2 to 8 words, a state, and up to 8 shovels of which some are equals.
    fn random_pick(x: &mut u32) -> (Vec<u8>, Vec<u32>, Vec<u16>, Vec<u32>) {
        let (words, width) = (2 + next(x) % 7, [2, 3, 4, 31, 32][next(x) as usize % 5]);
        let card = encode(&random_card(words as u8, width, x));
        let state = (0..words).map(|_| next(x) & mask(width)).collect();
        let base = next(x) as u16;
        let shovels: Vec<u16> = (0..1 + next(x) as u16 % 8)
            .map(|place| base.wrapping_mul(place + 1))
            .collect();
        let times = shovels.iter().map(|_| next(x) % 2).collect();
        (card, state, shovels, times)
    }

    /// Answer and state are those of a pick. The desk reads back what a tie left, the truck's cab
    /// hears the shovel, and a pick from the recorded state gives the same shovel and state after.
    #[test]
    fn as_a_pick_and_read_back() {
        let mut x = 8;
        let (mut ties, mut most) = (0, 0);
        for _ in 0..6_000 {
            let (card, state, shovels, times) = random_pick(&mut x);
            let (truck, length) = (next(&mut x) as u16, 40 + next(&mut x) as usize % 4);
            let lists = (&shovels[..], &times[..]);
            let (told, page, after) = recorded(&card, &state, lists, truck, length);
            let mut moved = state.clone();
            assert_eq!(told, call_pick(&card, &mut moved, &shovels, &times));
            assert_eq!(after, moved);
            let pick = match told {
                Ok(pick) if pick.ties > 1 => pick,
                _ => {
                    assert_eq!((page, after), (vec![LENT; length], state));
                    continue;
                }
            };
            let (bytes, rest) = page.split_at(8 + 4 * state.len());
            assert!(rest.iter().all(|&byte| byte == LENT));
            let record = read_record(bytes).unwrap();
            assert_eq!((record.truck, record.shovel), (truck, pick.shovel));
            assert_eq!(record.ties.map(usize::from), Some(pick.ties));
            assert_eq!(record.taken.map(usize::from), Some(pick.taken));
            assert_eq!(order_for(truck, bytes), Ok(pick.shovel));

            let mut before = record.state.unwrap();
            assert_eq!(before, state);
            let again = call_pick(&card, &mut before, &shovels, &times);
            assert_eq!((again, before), (Ok(pick), after));
            ties += 1;
            most = most.max(pick.taken);
        }
        assert!(ties >= 2_000 && most >= 8);
    }

    // ---- Desk and cab ----

    /// A whole record of each set of the fields that may lack, with its bytes written out.
    fn whole() -> [(Vec<u8>, Record); 8] {
        let record = |ties, taken, state| Record {
            truck: 0x0201,
            shovel: 0x0403,
            ties,
            taken,
            state,
        };
        let state = Some(vec![0x0d0c_0b0a, 0xffff_fffe, 0]);
        let words = [3, 10, 11, 12, 13, 254, 255, 255, 255, 0, 0, 0, 0];
        let with_words = |front: &[u8]| [front, &words].concat();
        [
            (vec![0x03, 1, 2, 3, 4], record(None, None, None)),
            (vec![0x07, 1, 2, 3, 4, 5], record(Some(5), None, None)),
            (vec![0x0b, 1, 2, 3, 4, 6], record(None, Some(6), None)),
            (vec![0x0f, 1, 2, 3, 4, 5, 6], record(Some(5), Some(6), None)),
            (
                with_words(&[0x13, 1, 2, 3, 4]),
                record(None, None, state.clone()),
            ),
            (
                with_words(&[0x17, 1, 2, 3, 4, 5]),
                record(Some(5), None, state.clone()),
            ),
            (
                with_words(&[0x1b, 1, 2, 3, 4, 6]),
                record(None, Some(6), state.clone()),
            ),
            (
                with_words(&[0x1f, 1, 2, 3, 4, 5, 6]),
                record(Some(5), Some(6), state),
            ),
        ]
    }

    #[test]
    fn every_set_of_lacking_fields() {
        for (bytes, record) in whole() {
            assert_eq!(read_record(&bytes), Ok(record.clone()));
            assert_eq!(write_record(&record), bytes);
            for truck in 0..=u16::MAX {
                let answer = if truck == 0x0201 { Ok(0x0403) } else { Err(21) };
                assert_eq!(order_for(truck, &bytes), answer);
            }
        }
    }

    /// A field that stands with 0 is told as 0, and no value of a field is judged.
    #[test]
    fn any_values() {
        for value in 0..=255 {
            let bytes = [0x0f, value, 0, 0, value, value, value];
            let record = read_record(&bytes).unwrap();
            assert_eq!(record.truck, u16::from(value));
            assert_eq!(record.shovel, u16::from(value) << 8);
            assert_eq!((record.ties, record.taken), (Some(value), Some(value)));
            assert_eq!(record.state, None);
        }
        for (byte, word) in [(0, 0), (255, u32::MAX), (1, 0x0101_0101)] {
            let bytes = [&[0x13, 0, 0, 0, 0, 8], &[byte; 32][..]].concat();
            let record = read_record(&bytes).unwrap();
            assert_eq!(record.state, Some(vec![word; 8]));
            assert_eq!((record.ties, record.taken), (None, None));
        }
    }

    /// Torn for the desk, and for every cab, be it the record's or another.
    fn assert_torn(bytes: &[u8]) {
        assert_eq!(read_record(bytes), Err(20), "{bytes:?}");
        for truck in 0..=u16::MAX {
            assert_eq!(order_for(truck, bytes), Err(20), "{bytes:?}");
        }
    }

    /// Every shorter length, none included, and bytes behind.
    #[test]
    fn torn_lengths() {
        for (bytes, _) in whole() {
            for length in 0..bytes.len() {
                assert_torn(&bytes[..length]);
            }
            for more in [1, 2, 4, 580] {
                assert_torn(&[&bytes[..], &vec![0; more]].concat());
            }
        }
    }

    /// A bit lacks that always stands, with its field and without; a bit stands that never does,
    /// with a byte for it and without.
    #[test]
    fn torn_maps() {
        for (bytes, _) in whole() {
            for bit in [1, 2, 3] {
                let map = bytes[0] & !bit;
                assert_torn(&[&[map], &bytes[1..]].concat());
                assert_torn(&[&[map], &bytes[3..]].concat());
                assert_torn(&[&[map], &bytes[5..]].concat());
            }
            for bit in NEVER.into_iter().chain([0xe0]) {
                let map = bytes[0] | bit;
                assert_torn(&[&[map], &bytes[1..]].concat());
                assert_torn(&[&[map], &bytes[1..], &[0]].concat());
            }
        }
        for map in 0..=255u8 {
            let sound = map & ALWAYS == ALWAYS && NEVER.iter().all(|bit| map & bit == 0);
            let bare = read_record(&[map, 0, 0, 0, 0]).is_ok();
            assert_eq!(bare, sound && MAY.iter().all(|bit| map & bit == 0));
        }
    }

    /// Each count with as many words, then one word less and one more.
    #[test]
    fn torn_counts() {
        for front in [&[0x13, 1, 2, 3, 4][..], &[0x1f, 1, 2, 3, 4, 5, 6]] {
            assert_torn(front); // the count is missing
            for count in 0..=255u8 {
                let with = |words: usize| [front, &[count], &vec![0; 4 * words]].concat();
                let words = usize::from(count);
                match count {
                    2..=8 => assert!(read_record(&with(words)).is_ok()),
                    0 | 1 | 9 | 10 | 130 | 255 => assert_torn(&with(words)),
                    _ => assert_eq!(read_record(&with(words)), Err(20)),
                }
                assert_eq!(read_record(&with(words + 1)), Err(20));
                assert_eq!(read_record(&with(words.saturating_sub(1))).ok(), None);
            }
        }
    }

    /// Whole records with the same truck and shovel, whatever else differs or lacks.
    #[test]
    fn cabs_hear_the_shovel_alone() {
        let mut x = 9;
        let mut heard = Vec::new();
        for number in 0..64 {
            let stands = |bit: u32| number >> bit & 1 == 1;
            let words = 2 + next(&mut x) % 7;
            let bytes = write_record(&Record {
                truck: 300,
                shovel: 7,
                ties: stands(0).then(|| next(&mut x) as u8),
                taken: stands(1).then(|| next(&mut x) as u8),
                state: stands(2).then(|| (0..words).map(|_| next(&mut x)).collect()),
            });
            let cabs = [300, 7, 0, 44, 301, 65535];
            heard.push(cabs.map(|truck| order_for(truck, &bytes)));
        }
        let other = Err(21);
        let told = [Ok(7), other, other, other, other, other];
        assert!(heard.iter().all(|&heard| heard == told));
    }

    /// True for a whole record, by its length alone once the map is sound.
    fn is_whole(bytes: &[u8]) -> bool {
        let Some(&map) = bytes.first() else {
            return false;
        };
        let state_at = 5 + (map >> 2 & 1) + (map >> 3 & 1);
        let count = bytes.get(usize::from(state_at)).copied();
        let length = match (map & 0xf3, count) {
            (0x03, _) => usize::from(state_at),
            (0x13, Some(count @ 2..=8)) => usize::from(state_at + 1 + 4 * count),
            _ => return false,
        };
        bytes.len() == length
    }

    /// Random bytes, with small ones at the front so that many are nearly whole.
    #[test]
    fn random_bytes() {
        let mut x = 10;
        let mut found = [0; 2];
        for _ in 0..200_000 {
            let length = next(&mut x) as usize % 24;
            let mut bytes: Vec<u8> = (0..length).map(|_| next(&mut x) as u8 % 5).collect();
            if let Some(map) = bytes.first_mut() {
                *map = (next(&mut x) as u8 & 0x1f) | (3 << (next(&mut x) % 8));
            }
            let read = read_record(&bytes);
            assert_eq!(read.is_ok(), is_whole(&bytes), "{bytes:?}");
            match read {
                Ok(record) => assert_eq!(write_record(&record), bytes),
                Err(refusal) => assert_eq!(refusal, 20),
            }
            found[usize::from(is_whole(&bytes))] += 1;
        }
        assert!(found.iter().all(|&count| count >= 1_000), "{found:?}");
    }
}
