//! What is timed of records: the library's recorded picks, and desk and cab beside Rust.

use crate::by_hand::records::{self, Record};
use crate::timing::Subject;
use std::hint::black_box;
use tiedraw::ffi::{tiedraw_order, tiedraw_pick_recorded, tiedraw_read_record, Choice};

/// the bytes of a record of four words
const LENGTH: usize = 24;
const TRUCK: u16 = 258;

// ---- The library, on slices.

fn pick_recorded(
    card: &[u8],
    state: &mut [u32],
    shovels: &[u16],
    times: &[u32],
    page: &mut [u8],
) -> Choice {
    let answer = unsafe {
        tiedraw_pick_recorded(
            card.as_ptr(),
            card.len(),
            state.as_mut_ptr(),
            state.len(),
            shovels.as_ptr(),
            shovels.len(),
            times.as_ptr(),
            times.len(),
            TRUCK,
            page.as_mut_ptr(),
            page.len(),
        )
    };
    assert_eq!(answer.refusal, 0);
    answer
}

/// None where it is refused.
fn read(record: &[u8]) -> Option<Record> {
    let told = unsafe { tiedraw_read_record(record.as_ptr(), record.len()) };
    let given = |flag: u8, number: u8| (flag == 1).then_some(number);
    let fields = told.record;
    (told.refusal == 0).then_some(Record {
        truck: fields.truck,
        shovel: fields.shovel,
        ties: given(fields.ties_given, fields.ties),
        taken: given(fields.taken_given, fields.taken),
        words: given(fields.state_given, fields.words),
        state: fields.state,
    })
}

/// None where it is refused.
fn order(truck: u16, record: &[u8]) -> Option<u16> {
    let told = unsafe { tiedraw_order(truck, record.as_ptr(), record.len()) };
    (told.refusal == 0).then_some(told.shovel)
}

// ---- What is timed.

/// On a card of four words.
pub fn recorded_pick(
    name: &str,
    card: &'static [u8],
    calls: usize,
    shovels: Vec<u16>,
    times: Vec<u32>,
) -> Subject {
    let (mut state, mut page) = ([1, 2, 3, 4], [0; LENGTH]);
    Subject::call(name, calls, move || {
        let (shovels, page) = (black_box(&shovels), black_box(&mut page));
        black_box(pick_recorded(card, &mut state, shovels, &times, page));
    })
}

/// A record of four words with every field, as a pick on TSC-1 leaves it.
fn full_record() -> [u8; LENGTH] {
    let mut page = [0; LENGTH];
    pick_recorded(&[0], &mut [1, 2, 3, 4], &[7, 4], &[300, 300], &mut page);
    page
}

/// Readers for the desk: the library's and Rust's, which read the same.
pub fn desks(names: [&str; 2], calls: usize) -> [Subject; 2] {
    let record = full_record();
    assert!(read(&record).is_some() && read(&record) == records::read(&record));
    let subject = |name, read: fn(&[u8]) -> Option<Record>| {
        Subject::call(name, calls, move || {
            black_box(read(black_box(&record)));
        })
    };
    [subject(names[0], read), subject(names[1], records::read)]
}

/// The same for the truck's cab.
pub fn cabs(names: [&str; 2], calls: usize) -> [Subject; 2] {
    let record = full_record();
    assert!(order(TRUCK, &record).is_some());
    assert_eq!(order(TRUCK, &record), records::order(TRUCK, &record));
    let subject = |name, order: fn(u16, &[u8]) -> Option<u16>| {
        Subject::call(name, calls, move || {
            black_box(order(black_box(TRUCK), black_box(&record)));
        })
    };
    [subject(names[0], order), subject(names[1], records::order)]
}
