//! The calls of records (document 02, Seven), by the library and by the second program.

use super::promises::{
    as_plain, demand, heard_alike, in_another_order, made_again, read_back, with_record_left,
};
use super::{compare_call, expected, kind_of_card, kind_of_words, lend, library, row, shared};
use super::{widened, Observed, Values, CAB, DESK, GUARD, GUARD_BYTE, PICK, RECPICK};
use crate::inputs::Input;
use reference::record::{call_recorded_pick, order_for, read_record, Record};
use std::cmp::Ordering;
use tiedraw::ffi::{tiedraw_order, tiedraw_pick_recorded, tiedraw_read_record, RecordReading};

// ---- The library.

pub(super) fn library_pick(input: &Input) -> Observed {
    let (card, n) = (shared(&input.card), input.card.len());
    let (shovels, times) = (&input.shovels, &input.times);
    let (s, k, t, l) = (shared(shovels), shovels.len(), shared(times), times.len());
    let truck = input.records.truck;
    let on_state = |state, m| {
        lend(&input.page, GUARD_BYTE, |page, room| unsafe {
            tiedraw_pick_recorded(card, n, state, m, s, k, t, l, truck, page, room)
        })
    };
    let ((a, page, around_page), lent, around) = lend(&input.state, GUARD, on_state);
    Observed {
        values: row([a.shovel.into(), a.ties.into(), a.taken.into()]),
        refusal: a.refusal,
        lent,
        strip: widened(&page),
        around: around && around_page,
    }
}

/// Of a field that lacks the header says nothing but that it does; beside a refusal everything is 0.
fn desk_values(told: &RecordReading) -> Values {
    let record = &told.record;
    let flags = [record.ties_given, record.taken_given, record.state_given];
    let numbers = [record.ties, record.taken, record.words];
    let optional = flags.into_iter().zip(numbers);
    row([record.truck, record.shovel]
        .map(u64::from)
        .into_iter()
        .chain(optional.flat_map(|(given, number)| [given.into(), number.into()]))
        .chain(record.state.map(u64::from)))
}

pub(super) fn library_desk(record: &[u8]) -> Observed {
    let (told, lent, around) = lend(record, GUARD_BYTE, |record, length| unsafe {
        tiedraw_read_record(record, length)
    });
    Observed {
        values: desk_values(&told),
        refusal: told.refusal,
        lent: widened(&lent),
        strip: vec![],
        around,
    }
}

pub(super) fn library_cab(truck: u16, record: &[u8]) -> Observed {
    let (told, lent, around) = lend(record, GUARD_BYTE, |record, length| unsafe {
        tiedraw_order(truck, record, length)
    });
    Observed {
        values: row([told.shovel.into()]),
        refusal: told.refusal,
        lent: widened(&lent),
        strip: vec![],
        around,
    }
}

// ---- The second program.

pub(super) fn second_pick(input: &Input) -> Observed {
    let (mut state, mut page) = (input.state.clone(), input.page.clone());
    let answer = call_recorded_pick(
        &input.card,
        &mut state,
        &input.shovels,
        &input.times,
        input.records.truck,
        &mut page,
    );
    let values = answer.map(|p| row([p.shovel.into(), p.ties as u64, p.taken as u64]));
    Observed {
        strip: widened(&page),
        ..expected(values, state)
    }
}

/// The fields as the library tells them, flags before numbers, and zeros for what lacks.
pub(super) fn record_values(record: &Record) -> Values {
    let state = record.state.as_deref().unwrap_or(&[]);
    let words = record.state.as_ref().map(|state| state.len() as u8);
    let optional = [record.ties, record.taken, words];
    row([record.truck, record.shovel]
        .map(u64::from)
        .into_iter()
        .chain(
            optional
                .iter()
                .flat_map(|field| [field.is_some().into(), field.unwrap_or(0).into()]),
        )
        .chain(state.iter().map(|&word| word.into())))
}

pub(super) fn second_desk(record: &[u8]) -> Observed {
    let fields = read_record(record);
    expected(fields.map(|fields| record_values(&fields)), widened(record))
}

pub(super) fn second_cab(truck: u16, record: &[u8]) -> Observed {
    let shovel = order_for(truck, record);
    expected(shovel.map(|shovel| row([shovel.into()])), widened(record))
}

// ---- The comparison.

/// What desk and cab are handed: whole records by the fields that they have, then torn ones by the first thing that breaks their form.
pub const RECORDS: [&str; 15] = [
    "without ties, taken and state",
    "without taken and state",
    "without ties and state",
    "without state",
    "without ties and taken",
    "without taken",
    "without ties",
    "with every field",
    "of no byte",
    "without bit 0 or 1",
    "with bit 5, 6 or 7",
    "with a count below 2",
    "with a count above 8",
    "that is too short",
    "that is too long",
];

/// so many of them are whole
const WHOLE: usize = 8;

/// The byte where the count of a state stands, if the map says that there is one.
fn state_count(record: &[u8]) -> Option<u8> {
    let map = *record.first()?;
    let at = 5 + (map >> 2 & 1) + (map >> 3 & 1);
    record
        .get(usize::from(at))
        .copied()
        .filter(|_| map >> 4 & 1 == 1)
}

/// The place in RECORDS.
fn kind(record: &[u8]) -> usize {
    let Some(&map) = record.first() else {
        return WHOLE;
    };
    match (map & 3, map >> 5, state_count(record)) {
        (0..=2, ..) => 9,
        (_, 1.., _) => 10,
        (.., Some(0 | 1)) => 11,
        (.., Some(9..)) => 12,
        _ => by_length(record, map),
    }
}

/// Of a record whose map and count, if it is there, are of the form.
fn by_length(record: &[u8], map: u8) -> usize {
    let front = 5 + (map >> 2 & 1) + (map >> 3 & 1) + (map >> 4 & 1);
    let words = state_count(record).unwrap_or(0);
    match record.len().cmp(&usize::from(front + 4 * words)) {
        Ordering::Less => 13,
        Ordering::Equal => usize::from(map >> 2),
        Ordering::Greater => 14,
    }
}

/// What recorded pick, desk and cab told on one input, where the two sides agree and what is promised holds.
#[derive(Default)]
pub struct ToldRecords {
    /// calls, their refusals, and the places in CARDS
    pub answers: Vec<(usize, u8, usize)>,
    /// how many were equally near, 1 without a tie; none if a plain pick was refused
    pub ties: Option<usize>,
    /// whether the page was too small
    pub small: bool,
    /// places in RECORDS
    pub kinds: Vec<usize>,
    /// whether there were two records that differ in all but truck and shovel
    pub twins: bool,
}

impl ToldRecords {
    /// Desk and cab on the record of an input.
    fn read(&mut self, input: &Input) -> Result<(), String> {
        let record = &input.records.record;
        let card = kind_of_words(state_count(record).unwrap_or(0));
        let [desk, cab] = [compare_call(DESK, input)?, compare_call(CAB, input)?];
        self.answers.push((DESK, desk.refusal, card));
        self.answers.push((CAB, cab.refusal, card));
        let kind = kind(record);
        self.kinds.push(kind);
        let told = (desk.refusal == 0) == (kind < WHOLE);
        demand(told, "whole records are read, and no others", input)
    }

    /// The recorded pick, and what is promised of it.
    fn pick(&mut self, input: &Input) -> Result<(), String> {
        let after = compare_call(RECPICK, input)?;
        let card = kind_of_card(&input.card);
        self.answers.push((RECPICK, after.refusal, card));
        let plain = library(PICK, input);
        as_plain(input, &after, &plain)?;
        in_another_order(input, &after)?;
        let ties = plain.values[1] as usize;
        self.ties = (plain.refusal == 0).then_some(ties);
        self.small = after.refusal == 16;
        if after.refusal == 0 && ties > 1 {
            let mut left = with_record_left(input, &after);
            read_back(input, &after, &left)?;
            made_again(input, &after, &left)?;
            left.records.cab = input.records.cab;
            self.read(&left)?;
        }
        Ok(())
    }
}

/// Recorded pick, desk and cab on one input; on what the pick left, the desk and mostly another cab as well.
pub fn compare_records(input: &Input) -> Result<ToldRecords, String> {
    let mut told = ToldRecords::default();
    told.pick(input)?;
    told.read(input)?;
    told.twins = heard_alike(input)?;
    Ok(told)
}
