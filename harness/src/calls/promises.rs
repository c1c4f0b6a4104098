//! What is promised of records (document 02, Seven), held on the library's own answers, without the second program.

use super::records::{library_cab, library_desk, record_values};
use super::{library, row, Observed, CAB, DESK, PICK, RECPICK};
use crate::inputs::{Input, Records};
use reference::record::Record;

/// A text that says the input, where a promise does not hold.
pub(super) fn demand(holds: bool, promise: &str, input: &Input) -> Result<(), String> {
    holds
        .then_some(())
        .ok_or_else(|| format!("not held: {promise}\n{input:x?}"))
}

/// A recorded pick is the plain one, but that a page may be too small for it.
pub(super) fn as_plain(input: &Input, after: &Observed, plain: &Observed) -> Result<(), String> {
    let same = match after.refusal {
        16 => plain.refusal == 0,
        _ => {
            (after.refusal, &after.values, &after.lent)
                == (plain.refusal, &plain.values, &plain.lent)
        }
    };
    demand(same, "a recorded pick is a pick", input)
}

/// The same list in another order: the same answer, state and page.
pub(super) fn in_another_order(input: &Input, after: &Observed) -> Result<(), String> {
    let other = Input {
        shovels: input.records.shovels.clone(),
        times: input.records.times.clone(),
        ..input.clone()
    };
    let same = library(RECPICK, &other) == *after;
    demand(same, "the order of the list makes no difference", input)
}

/// The input with the record that its pick left, for the cab of its truck.
pub(super) fn with_record_left(input: &Input, after: &Observed) -> Input {
    let record = &after.strip[..8 + 4 * input.state.len()];
    Input {
        records: Records {
            record: record.iter().map(|&byte| byte as u8).collect(),
            cab: input.records.truck,
            ..input.records.clone()
        },
        ..input.clone()
    }
}

/// The desk reads what a tie left, `left`, as it was, and the truck's cab hears the shovel.
pub(super) fn read_back(input: &Input, after: &Observed, left: &Input) -> Result<(), String> {
    let [shovel, ties, taken, ..] = after.values;
    let fields = record_values(&Record {
        truck: input.records.truck,
        shovel: shovel as u16,
        ties: Some(ties as u8),
        taken: Some(taken as u8),
        state: Some(input.state.clone()),
    });
    let desk = library(DESK, left);
    let reads = desk.refusal == 0 && desk.values == fields;
    demand(reads, "the desk reads back what the pick wrote", left)?;
    let cab = library(CAB, left);
    let hears = cab.refusal == 0 && cab.values == row([shovel]);
    demand(hears, "the truck's cab hears the shovel", left)
}

/// A plain pick from the state that the desk reads is the recorded one: the same answer and state after it.
pub(super) fn made_again(input: &Input, after: &Observed, left: &Input) -> Result<(), String> {
    let [_, _, _, _, _, _, _, words, state @ ..] = library(DESK, left).values;
    let recorded = state.iter().take(words as usize).map(|&word| word as u32);
    let replayed = Input {
        state: recorded.collect(),
        ..input.clone()
    };
    let again = library(PICK, &replayed);
    let same = again.refusal == 0 && (&again.values, &again.lent) == (&after.values, &after.lent);
    demand(same, "a pick from the recorded state is the same", input)
}

/// Whether both are whole, have truck and shovel in common, and no other field.
fn are_twins(one: &Observed, other: &Observed) -> bool {
    let (a, b) = (&one.values, &other.values);
    let whole = one.refusal == 0 && other.refusal == 0;
    let (ties, taken, state) = (2..4, 4..6, 6..);
    whole
        && a[..2] == b[..2]
        && a[ties.clone()] != b[ties]
        && a[taken.clone()] != b[taken]
        && a[state.clone()] != b[state]
}

/// Whether the record has its twin; then the cab that asks and the truck's own hear the same from both.
pub(super) fn heard_alike(input: &Input) -> Result<bool, String> {
    let (record, twin) = (&input.records.record, &input.records.twin);
    let (one, other) = (library_desk(record), library_desk(twin));
    if !are_twins(&one, &other) {
        return Ok(false);
    }
    let hears = |cab: u16, record: &[u8]| {
        let told = library_cab(cab, record);
        (told.refusal, told.values)
    };
    let mut cabs = [input.records.cab, one.values[0] as u16].into_iter();
    let same = cabs.all(|cab| hears(cab, record) == hears(cab, twin));
    demand(same, "a cab hears the same of one truck and shovel", input)?;
    Ok(true)
}
