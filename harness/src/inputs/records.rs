//! Random inputs for the calls of records: recorded picks with trucks and pages, and records whole and torn for desk and cab.

use super::{
    accepted_values, any_times, numbers, slow_values, sound_state, tied_times, tsc1, word_count,
};
use super::{Card, Input, MOST_WORDS};
use crate::random::Random;
use reference::encode;
use reference::record::{write_record, Record};

/// What the calls of records take beside card, state, lists and page.
#[derive(Clone, Debug, Default, PartialEq)]
pub struct Records {
    /// the recorded pick's
    pub truck: u16,
    /// its lists, in another order
    pub shovels: Vec<u16>,
    pub times: Vec<u32>,
    /// for desk and cab
    pub record: Vec<u8>,
    /// whole, with the truck and shovel that the record was made with and no other field the same
    pub twin: Vec<u8>,
    /// the truck whose cab asks
    pub cab: u16,
}

impl Input {
    /// For recorded picks, desk and cab: one pick in three as for the pick; the others with an accepted card, a state of its
    /// size and a sound list.
    pub fn of_records(random: &mut Random) -> Input {
        let mut input = Input::random(random);
        if !random.once_in(3) {
            let card = tsc1::values(random).unwrap_or_else(|| recorded_values(random));
            input.card = encode(&card);
            input.state = sound_state(&card, random);
            input.times = match random.below(2) {
                0 => any_times(random),
                _ => tied_times(card.width, random),
            };
            input.shovels = numbers(input.times.len(), random);
        }
        input.page = record_page(input.state.len(), random);
        input.records = Records::random(&input.shovels, &input.times, random);
        input
    }
}

impl Records {
    fn random(shovels: &[u16], times: &[u32], random: &mut Random) -> Records {
        let (shovels, times) = reordered(shovels, times, random);
        let fields = fields(random);
        let record = record_bytes(&fields, random);
        Records {
            truck: number(random),
            shovels,
            times,
            cab: cab(&record, random),
            record,
            twin: write_record(&twin(&fields, random)),
        }
    }
}

/// Values that the check accepts: half of them of 32 bits, so that a tie may have any size.
fn recorded_values(random: &mut Random) -> Card {
    let words = word_count(random);
    match random.below(4) {
        0 | 1 => accepted_values(words, 32, random),
        2 => accepted_values(words, random.within(2, 32) as u8, random),
        _ => slow_values(words, random),
    }
}

/// Lists of one length in another order; others as they are.
fn reordered(shovels: &[u16], times: &[u32], random: &mut Random) -> (Vec<u16>, Vec<u32>) {
    if shovels.len() != times.len() {
        return (shovels.to_vec(), times.to_vec());
    }
    let mut pairs: Vec<(u16, u32)> = shovels.iter().copied().zip(times.iter().copied()).collect();
    random.shuffle(&mut pairs);
    pairs.into_iter().unzip()
}

/// A page of a length around the one that a record of so many words needs, of none, of any, or so long that a length cut to 8 or 16
/// bits would be too small; with random bytes on it.
fn record_page(words: usize, random: &mut Random) -> Vec<u8> {
    let needed = 8 + 4 * words.min(10);
    let length = match random.below(200) {
        0..=9 => 0,
        10..=24 => random.below(needed),
        25..=39 => random.below(600),
        40..=49 => needed - 1 + 256,
        50 => random.below(needed) + 65536,
        _ => needed + random.below(8) - 2,
    };
    bytes(length, random)
}

fn bytes(length: usize, random: &mut Random) -> Vec<u8> {
    (0..length).map(|_| random.byte()).collect()
}

/// The number of a truck or shovel: at the edges of a byte and of two, or any.
fn number(random: &mut Random) -> u16 {
    let any = random.word() as u16;
    [0, 255, 256, 65535, any, any, any, any][random.below(8)]
}

// ---- Records.

/// A byte, once in three lacking.
fn byte_or_none(random: &mut Random) -> Option<u8> {
    let byte = [0, 1, 255, random.byte()][random.below(4)];
    (!random.once_in(3)).then_some(byte)
}

/// A state of 2 to 8 words.
fn state(random: &mut Random) -> Vec<u32> {
    let words = random.within(2, MOST_WORDS.into());
    let kind = random.below(8);
    let word = |random: &mut Random| match kind {
        0 => 0,
        1 => u32::MAX,
        _ => random.word() as u32,
    };
    (0..words).map(|_| word(random)).collect()
}

/// The fields of a whole record, each set of lacking ones.
fn fields(random: &mut Random) -> Record {
    Record {
        truck: number(random),
        shovel: number(random),
        ties: byte_or_none(random),
        taken: byte_or_none(random),
        state: (!random.once_in(3)).then(|| state(random)),
    }
}

/// Lacking, or another byte; one where it lacked.
fn other_byte(field: Option<u8>, random: &mut Random) -> Option<u8> {
    match field {
        Some(_) if random.once_in(3) => None,
        Some(byte) => Some(byte ^ random.within(1, 255) as u8),
        None => Some(random.byte()),
    }
}

/// The same truck and shovel, and no other field the same.
fn twin(fields: &Record, random: &mut Random) -> Record {
    let mut other = state(random);
    let state = match &fields.state {
        Some(_) if random.once_in(3) => None,
        Some(state) => {
            other[0] = !state[0];
            Some(other)
        }
        None => Some(other),
    };
    Record {
        truck: fields.truck,
        shovel: fields.shovel,
        ties: other_byte(fields.ties, random),
        taken: other_byte(fields.taken, random),
        state,
    }
}

/// A record's bytes: as they are, damaged by one byte or bit, cut short, with bytes behind, with another map or count, or random.
fn record_bytes(fields: &Record, random: &mut Random) -> Vec<u8> {
    let mut record = write_record(fields);
    let place = random.below(record.len());
    match random.below(20) {
        0 => record[place] = random.byte(),
        1 => record[place] ^= 1 << random.below(8),
        2 => record.truncate(place),
        3 => _ = record.pop(),
        4 | 5 => {
            let more = [1, 4, 256, 65536, random.within(1, 40)][random.below(5)];
            record.extend(bytes(more, random));
        }
        6 => record[0] ^= 1 << random.below(8),
        7 => record[0] |= 1 << random.within(5, 7),
        8 => record[0] &= !(1 << random.below(2)),
        9 | 10 => record = with_count(fields, random),
        11 => record = bytes(random.below(60), random),
        12 => record = small_record(random),
        _ => {}
    }
    record
}

/// A state of any count, mostly one that isn't allowed, with as many words, or as many as would be right.
fn with_count(fields: &Record, random: &mut Random) -> Vec<u8> {
    let right = random.within(2, MOST_WORDS.into()) as u8;
    let high = right | 1 << random.within(4, 7);
    let count = [0, 1, 9, high, random.byte()][random.below(5)];
    let words = [count, right][random.below(2)];
    let mut record = write_record(&Record {
        state: None,
        ..fields.clone()
    });
    record[0] |= 1 << 4;
    record.push(count);
    record.extend(bytes(4 * usize::from(words), random));
    record
}

/// A plausible map with small bytes after it, so that some are whole and many nearly so.
fn small_record(random: &mut Random) -> Vec<u8> {
    let mut record = vec![3 | random.byte() & [0x0c, 0x1c, 0x3f][random.below(3)]];
    record.extend((0..random.within(4, 20)).map(|_| random.below(5) as u8));
    record
}

/// The record's truck, or another one that is like it in part.
fn cab(record: &[u8], random: &mut Random) -> u16 {
    let pair = |at: usize| match record.get(at..at + 2) {
        Some(&[low, high]) => u16::from_le_bytes([low, high]),
        _ => 0,
    };
    let truck = pair(1);
    match random.below(12) {
        0 => truck.swap_bytes(),
        1 => truck ^ 1 << random.below(16),
        2 => pair(3),
        3 => truck & 255,
        4 => random.word() as u16,
        _ => truck,
    }
}
