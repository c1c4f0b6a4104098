//! Recorded picks, and records as the desk and a cab read them.
//!
//! SAFETY, of each call below: as of the calls in `lib.rs`.

use crate::{ffi, version, Choice, Refusal, MOST_RECORD_BYTES};
use std::fmt;
use std::ops::Deref;

/// What a recorded pick leaves of a tie, as the desk reads it. A field that other pits' records may lack is `None` then,
/// which is not 0; the records of our picks have every field.
#[derive(Clone, Debug, PartialEq, Eq, Hash)]
pub struct Record {
    /// the number of the truck
    pub truck: u16,
    /// the number of the shovel that was chosen
    pub shovel: u16,
    /// how many had the least time
    pub ties: Option<u8>,
    /// how many words were taken
    pub taken: Option<u8>,
    /// the state before the pick, 2 to 8 words: a pick from it, of the same card and list, is this pick
    pub state: Option<Vec<u32>>,
}

impl Record {
    fn of(record: ffi::Record) -> Record {
        let given = |flag: u8, number: u8| (flag == 1).then(|| number);
        let state = || record.state[..record.words.into()].to_vec();
        Record {
            truck: record.truck,
            shovel: record.shovel,
            ties: given(record.ties_given, record.ties),
            taken: given(record.taken_given, record.taken),
            state: (record.state_given == 1).then(state),
        }
    }
}

/// The bytes of a record, in place: a slice of 16 to [`MOST_RECORD_BYTES`].
#[derive(Clone, Copy, PartialEq, Eq, Hash)]
pub struct RecordBytes {
    page: [u8; MOST_RECORD_BYTES], // zeros past the record
    length: usize,
}

impl RecordBytes {
    /// Of a record that a pick has left.
    pub(crate) fn of(record: &[u8]) -> RecordBytes {
        let (mut page, length) = ([0; MOST_RECORD_BYTES], record.len());
        page[..length].copy_from_slice(record);
        RecordBytes { page, length }
    }

    /// The bytes, to be sent or kept.
    pub fn as_slice(&self) -> &[u8] {
        &self.page[..self.length]
    }
}

impl Deref for RecordBytes {
    type Target = [u8];

    fn deref(&self) -> &[u8] {
        self.as_slice()
    }
}

impl AsRef<[u8]> for RecordBytes {
    fn as_ref(&self) -> &[u8] {
        self.as_slice()
    }
}

impl fmt::Debug for RecordBytes {
    fn fmt(&self, f: &mut fmt::Formatter) -> fmt::Result {
        write!(f, "RecordBytes({:02x?})", self.as_slice())
    }
}

/// A pick, as [`pick()`](crate::pick()) makes it, for a truck. A tie leaves its record at the front of the page, with
/// every field, the state as it was lent: 8 + 4 bytes for each of its words. That part of the page is answered beside the
/// choice; none where one shovel was nearest, and the page is then untouched, as are the bytes past a record.
///
/// Or what the pick refuses, 1 to 15 or 18; or 16 where the page is shorter than a record, tie or not. A page of
/// [`MOST_RECORD_BYTES`] is never too small.
///
/// ```
/// let program = [0x27, 2, 2, 1, 2, 3, 0, 1, 0, 0, 0];
/// let (mut state, mut page) = ([0, 0], [0xa5; tiedraw::MOST_RECORD_BYTES]);
/// let (choice, record) =
///     tiedraw::pick_recorded(&program, &mut state, &[7, 4], &[300, 300], 258, &mut page)?;
/// assert_eq!((choice.shovel, state), (4, [1, 2]));
/// assert_eq!(record, Some(&[0x1f, 2, 1, 4, 0, 2, 1, 2, 0, 0, 0, 0, 0, 0, 0, 0][..]));
/// assert_eq!(page[16..], [0xa5; 24]);
/// let small = tiedraw::pick_recorded(&program, &mut state, &[7], &[300], 258, &mut page[..15]);
/// assert_eq!(small, Err(tiedraw::Refusal::BufferTooSmall));
/// # Ok::<(), tiedraw::Refusal>(())
/// ```
pub fn pick_recorded<'page>(
    card: &[u8],
    state: &mut [u32],
    shovels: &[u16],
    times: &[u32],
    truck: u16,
    page: &'page mut [u8],
) -> Result<(Choice, Option<&'page [u8]>), Refusal> {
    version::ensure();
    let choice = Choice::of(unsafe {
        ffi::tiedraw_pick_recorded(
            card.as_ptr(),
            card.len(),
            state.as_mut_ptr(),
            state.len(),
            shovels.as_ptr(),
            shovels.len(),
            times.as_ptr(),
            times.len(),
            truck,
            page.as_mut_ptr(),
            page.len(),
        )
    })?;
    let page: &[u8] = page;
    let record = || &page[..8 + 4 * state.len()];
    Ok((choice, (choice.ties > 1).then(record)))
}

/// Every field of a record, for the desk, and which it lacks; or refusal 20. The slice is the record, not the page that
/// it stands on: bytes past it are torn too.
///
/// ```
/// use tiedraw::{read_record, Record, Refusal};
/// let given = Record {
///     truck: 513,
///     shovel: 1027,
///     ties: Some(0),
///     taken: None,
///     state: None,
/// };
/// assert_eq!(read_record(&[0x07, 1, 2, 3, 4, 0]), Ok(given));
/// assert_eq!(read_record(&[0x07, 1, 2, 3, 4]), Err(Refusal::MalformedRecord));
/// ```
pub fn read_record(record: &[u8]) -> Result<Record, Refusal> {
    version::ensure();
    let answer = unsafe { ffi::tiedraw_read_record(record.as_ptr(), record.len()) };
    Refusal::result(answer.refusal).map(|()| Record::of(answer.record))
}

/// The shovel of a record, for the cab of this truck, and nothing else of it; or refusal 20, or 21 where the record is of
/// another truck. From two records of the same truck and shovel a cab hears the same.
///
/// ```
/// use tiedraw::{order_for, Refusal};
/// let record = [0x07, 1, 2, 3, 4, 0];
/// assert_eq!(order_for(513, &record), Ok(1027));
/// assert_eq!(order_for(258, &record), Err(Refusal::TruckMismatch));
/// ```
pub fn order_for(truck: u16, record: &[u8]) -> Result<u16, Refusal> {
    version::ensure();
    let answer = unsafe { ffi::tiedraw_order(truck, record.as_ptr(), record.len()) };
    Refusal::result(answer.refusal).map(|()| answer.shovel)
}
