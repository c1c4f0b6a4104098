//! A record read in Rust by hand, for the desk and for a cab (document 02, Seven): what the library's calls are timed beside.

use tiedraw::MOST_WORDS;

/// The fields of a record; of a state, how many words there are, and zeros past them.
#[derive(Debug, PartialEq)]
pub struct Record {
    pub truck: u16,
    pub shovel: u16,
    pub ties: Option<u8>,
    pub taken: Option<u8>,
    pub words: Option<u8>,
    pub state: [u32; MOST_WORDS],
}

/// A byte off the front where the bit stands, and none where it does not; nothing where the bytes end before it.
fn field(map: u8, bit: u8, rest: &mut &[u8]) -> Option<Option<u8>> {
    if map >> bit & 1 == 0 {
        return Some(None);
    }
    let (&byte, behind) = rest.split_first()?;
    *rest = behind;
    Some(Some(byte))
}

/// The bytes are these words and no more.
fn state(words: Option<u8>, bytes: &[u8]) -> Option<[u32; MOST_WORDS]> {
    let count = words.map_or(0, usize::from);
    let allowed = words.is_none() || (2..=MOST_WORDS).contains(&count);
    if !allowed || bytes.len() != 4 * count {
        return None;
    }
    let mut state = [0; MOST_WORDS];
    for (word, four) in state.iter_mut().zip(bytes.chunks_exact(4)) {
        *word = u32::from_le_bytes(four.try_into().unwrap());
    }
    Some(state)
}

/// For the desk; none where it is torn.
pub fn read(bytes: &[u8]) -> Option<Record> {
    let (&[map, truck_low, truck_high, low, high], mut rest) = bytes.split_first_chunk()?;
    if map & 0xe3 != 3 {
        return None;
    }
    let ties = field(map, 2, &mut rest)?;
    let taken = field(map, 3, &mut rest)?;
    let words = field(map, 4, &mut rest)?;
    Some(Record {
        truck: u16::from_le_bytes([truck_low, truck_high]),
        shovel: u16::from_le_bytes([low, high]),
        ties,
        taken,
        words,
        state: state(words, rest)?,
    })
}

/// For the cab of a truck; none where it is torn or another truck's.
pub fn order(truck: u16, bytes: &[u8]) -> Option<u16> {
    let record = read(bytes)?;
    (record.truck == truck).then_some(record.shovel)
}
