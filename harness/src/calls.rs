//! The calls, by the library and by the second program, and everything that a caller can observe of them.

pub mod bad_places;
pub mod bits;
pub mod map;
mod promises;
pub mod records;

use crate::hex;
use crate::inputs::Input;
use reference::fill::call_fill;
use reference::margin::{call_margin, margin_by_all_amounts};
use reference::pick::{call_pick, limit};
use reference::{call_write, Card, MOST_WORDS, TABLE_ENTRIES};
use std::hint::black_box;
use std::iter::once;
use tiedraw::{ffi, MOST_TAKEN};

pub const CALLS: [&str; 16] = [
    "check",
    "step",
    "step_back",
    "draw",
    "fill",
    "pick",
    "write",
    "read",
    "margin",
    "recpick",
    "desk",
    "cab",
    "nist",
    "mappick",
    "within",
    "badbit",
];
const CHECK: usize = 0;
const PICK: usize = 5;
/// those before it are made on each input; it, those of records, the counts of bits, those by the map and the bad places have inputs of
/// their own
pub const MARGIN: usize = 8;
/// those of records
const RECPICK: usize = 9;
const DESK: usize = 10;
const CAB: usize = 11;
/// the counts of bits
pub const NIST: usize = 12;
/// those by the map
pub const MAPPICK: usize = 13;
pub const WITHIN: usize = 14;
/// the bad places
pub const BADBIT: usize = 15;

/// The numbers that a call answers, and zeros behind them: at most the reader's, seven and the table.
type Values = [u64; 7 + TABLE_ENTRIES];
const ZEROS: Values = [0; 7 + TABLE_ENTRIES];

/// The answer's values, the refusal, the state, page or record and the strip after the call, and whether all around them is as it was.
#[derive(Debug, PartialEq)]
struct Observed {
    values: Values,
    refusal: u8,
    lent: Vec<u32>,
    /// empty but for the fill and the counts; of a recorded pick, the page
    strip: Vec<u32>,
    around: bool,
}

fn row(numbers: impl IntoIterator<Item = u64>) -> Values {
    let mut values = ZEROS;
    for (value, number) in values.iter_mut().zip(numbers) {
        *value = number;
    }
    values
}

/// A page's bytes as words.
fn widened(page: &[u8]) -> Vec<u32> {
    page.iter().map(|&byte| byte.into()).collect()
}

/// The eight values of a card of either side.
macro_rules! eight {
    ($card:expr) => {{
        let card = $card;
        let constant = u64::from(card.constant);
        let sizes = [card.words, card.width];
        let powers = [card.odd_power, card.even_power];
        let kinds = [card.filter, card.sum_term];
        let bytes = sizes.iter().chain(&powers).chain(&kinds).chain(&card.table);
        row(once(constant).chain(bytes.map(|&byte| byte.into())))
    }};
}

// ---- The library.

/// what stands around lent words
const GUARD: u32 = 0xa5c3_96e1;
/// and around lent bytes
const GUARD_BYTE: u8 = 0xa5;

/// Lends a copy of the words between guards, and gives back the words after the call, and whether
/// the guards are as they were. An empty slice is lent as null.
fn lend<T: Copy + PartialEq, R>(
    words: &[T],
    guard: T,
    call: impl FnOnce(*mut T, usize) -> R,
) -> (R, Vec<T>, bool) {
    let mut all = vec![guard; words.len() + 8];
    let inside = 4..4 + words.len();
    all[inside.clone()].copy_from_slice(words);
    let start = match words.len() {
        0 => std::ptr::null_mut(),
        _ => all[inside.clone()].as_mut_ptr(),
    };
    let answer = call(start, words.len());
    let lent = all.drain(inside).collect();
    (answer, lent, all.iter().all(|x| *x == guard))
}

/// The pointer of what is only read; null for an empty slice.
fn shared<T>(slice: &[T]) -> *const T {
    match slice.len() {
        0 => std::ptr::null(),
        _ => slice.as_ptr(),
    }
}

/// Call number `call` of the library.
fn library(call: usize, input: &Input) -> Observed {
    match CALLS[call] {
        "fill" => return library_fill(input),
        "write" => return library_write(&input.values, &input.page),
        "margin" => return library_margin(input),
        "recpick" => return records::library_pick(input),
        "desk" => return records::library_desk(&input.records.record),
        "cab" => return records::library_cab(input.records.cab, &input.records.record),
        "nist" => return bits::library_counts(input),
        "mappick" => return map::library_pick(input),
        "within" => return map::library_within(input),
        "badbit" => return bad_places::library_places(&input.card),
        _ => {}
    }
    let (card, n) = (shared(&input.card), input.card.len());
    let on_state = |state, m| match CALLS[call] {
        "check" => (ZEROS, unsafe { ffi::tiedraw_check(card, n) }),
        "read" => {
            let answer = unsafe { ffi::tiedraw_read(card, n) };
            (eight!(answer.card), answer.refusal)
        }
        "step" => (ZEROS, unsafe { ffi::tiedraw_step(card, n, state, m) }),
        "step_back" => (ZEROS, unsafe { ffi::tiedraw_step_back(card, n, state, m) }),
        "draw" => {
            let answer = unsafe { ffi::tiedraw_draw(card, n, state, m) };
            (row([answer.word.into()]), answer.refusal)
        }
        _ => {
            let (shovels, times) = (&input.shovels, &input.times);
            let (s, k, t, l) = (shared(shovels), shovels.len(), shared(times), times.len());
            let answer = unsafe { ffi::tiedraw_pick(card, n, state, m, s, k, t, l) };
            let numbers = [answer.shovel, answer.ties.into(), answer.taken.into()];
            (row(numbers.map(u64::from)), answer.refusal)
        }
    };
    let ((values, refusal), lent, around) = lend(&input.state, GUARD, on_state);
    Observed {
        values,
        refusal,
        lent,
        strip: vec![],
        around,
    }
}

fn library_fill(input: &Input) -> Observed {
    let (card, n) = (shared(&input.card), input.card.len());
    let (place, count) = input.span;
    let on_state = |state, m| {
        lend(&input.strip, GUARD, |strip, length| unsafe {
            ffi::tiedraw_fill(card, n, state, m, strip, length, place, count)
        })
    };
    let ((refusal, strip, around_strip), lent, around) = lend(&input.state, GUARD, on_state);
    Observed {
        values: ZEROS,
        refusal,
        lent,
        strip,
        around: around && around_strip,
    }
}

fn library_margin(input: &Input) -> Observed {
    let (card, n) = (shared(&input.card), input.card.len());
    let (shovels, times) = (&input.shovels, &input.times);
    let (s, k, t, l) = (shared(shovels), shovels.len(), shared(times), times.len());
    let (a, lent, around) = lend(&input.state, GUARD, |state, m| unsafe {
        ffi::tiedraw_margin(card, n, state, m, s, k, t, l)
    });
    Observed {
        values: row([
            a.changed.into(),
            a.raised.into(),
            a.seconds.into(),
            a.shovel.into(),
            a.ties.into(),
            a.taken.into(),
        ]),
        refusal: a.refusal,
        lent,
        strip: vec![],
        around,
    }
}

fn library_write(v: &Card, page: &[u8]) -> Observed {
    let (answer, lent, around) = lend(page, GUARD_BYTE, |page, room| unsafe {
        ffi::tiedraw_write(
            v.words,
            v.width,
            shared(&v.table),
            v.table.len(),
            v.odd_power,
            v.even_power,
            v.constant,
            v.filter,
            v.sum_term,
            page,
            room,
        )
    });
    Observed {
        values: row([answer.length as u64]),
        refusal: answer.refusal,
        lent: widened(&lent),
        strip: vec![],
        around,
    }
}

// ---- The second program.

fn expected(answer: Result<Values, u8>, lent: Vec<u32>) -> Observed {
    Observed {
        values: answer.unwrap_or(ZEROS),
        refusal: answer.err().unwrap_or(0),
        lent,
        strip: vec![],
        around: true,
    }
}

/// Call number `call` of the second program.
fn second_program(call: usize, input: &Input) -> Observed {
    let card = &input.card;
    let mut state = input.state.clone();
    let answer = match CALLS[call] {
        "check" => Err(reference::check(card)),
        "read" => reference::read(card).map(|card| eight!(card)),
        "step" => Err(reference::call_step(card, &mut state)),
        "step_back" => Err(reference::call_step_back(card, &mut state)),
        "draw" => reference::call_draw(card, &mut state).map(|word| row([word.into()])),
        "pick" => call_pick(card, &mut state, &input.shovels, &input.times)
            .map(|p| row([p.shovel.into(), p.ties as u64, p.taken as u64])),
        "margin" => second_margin(input),
        "fill" => return second_fill(input),
        "recpick" => return records::second_pick(input),
        "desk" => return records::second_desk(&input.records.record),
        "cab" => return records::second_cab(input.records.cab, &input.records.record),
        "nist" => return bits::second_counts(input),
        "mappick" => return map::second_pick(input),
        "within" => return map::second_within(input),
        "badbit" => return bad_places::second_places(&input.card),
        _ => return second_write(&input.values, &input.page),
    };
    expected(answer, state)
}

fn second_fill(input: &Input) -> Observed {
    let (mut state, mut strip) = (input.state.clone(), input.strip.clone());
    let (place, count) = input.span;
    let answer = call_fill(&input.card, &mut state, &mut strip, place, count);
    Observed {
        strip,
        ..expected(answer.map(|()| ZEROS), state)
    }
}

/// Where times are so small that every amount of seconds can be tried, and is.
fn all_amounts(input: &Input) -> bool {
    input.times.iter().all(|&time| time < 200)
}

fn second_margin(input: &Input) -> Result<Values, u8> {
    let margin = match all_amounts(input) {
        true => margin_by_all_amounts,
        false => call_margin,
    };
    let told = margin(&input.card, &input.state, &input.shovels, &input.times)?;
    Ok(row([
        told.changed.into(),
        told.raised.into(),
        told.seconds.into(),
        told.pick.shovel.into(),
        told.pick.ties as u64,
        told.pick.taken as u64,
    ]))
}

/// The second program's writer takes the papers' array of 256 entries; the library's rule for tables of another length is put around it.
fn second_write(values: &Card, page: &[u8]) -> Observed {
    let mut lent = page.to_vec();
    let mut card = values.clone();
    let answer = match card.table.len() > TABLE_ENTRIES {
        true => Err(2),
        false => {
            card.table.resize(TABLE_ENTRIES, 0);
            call_write(&card, &mut lent).map(|length| row([length as u64]))
        }
    };
    expected(answer, widened(&lent))
}

// ---- The comparison.

/// The cards that are counted apart, also where they are refused.
pub const CARDS: [&str; 3] = ["P1", "others up to four words", "five to eight words"];
/// P1's place
pub const P1: usize = 0;

/// The place of a card of so many words that is not P1.
fn kind_of_words(words: u8) -> usize {
    match words {
        5..=MOST_WORDS => 2,
        _ => 1,
    }
}

/// The place of a card's bytes.
fn kind_of_card(card: &[u8]) -> usize {
    match card {
        [0] => P1,
        [map, words, ..] if map & 1 == 1 => kind_of_words(*words),
        _ => 1,
    }
}

/// The fields that an accepted card may give alone: bits 1 to 7.
pub const FIELDS: [&str; 7] = [
    "width",
    "table",
    "odd power",
    "even power",
    "constant",
    "filter",
    "sum term",
];

/// The place of the one field that an accepted card gives, which is P1 but for this value.
fn changed_field(card: &[u8]) -> Option<usize> {
    let map = *card.first()?;
    let alone = map.is_power_of_two();
    (map.trailing_zeros() as usize)
        .checked_sub(1)
        .filter(|_| alone)
}

/// What the calls before the margin told on one input, where the two sides agree.
#[derive(Default)]
pub struct Told {
    pub refusals: [u8; MARGIN],
    /// for each call, the place in CARDS
    pub cards: [usize; MARGIN],
    /// the place in FIELDS, where a draw was answered on P1 with one value changed
    pub changed: Option<usize>,
    /// where the pick is counted, as `pick_column` says
    pub pick: Option<usize>,
    /// words that the fill wrote
    pub filled: usize,
}

/// Where a pick is counted: at 0 without ties, else at one more than the words passed over; nowhere if it was refused.
fn pick_column(input: &Input, after: &Observed) -> Option<usize> {
    if after.refusal != 0 {
        return None;
    }
    let [_, ties, taken, ..] = after.values.map(|value| value as usize);
    let last_too = || {
        let card = reference::accept(&input.card).expect("the card of a pick");
        u64::from(reference::word(&card, &after.lent)) >= limit(card.width, ties)
    };
    Some(taken + usize::from(taken == MOST_TAKEN && last_too()))
}

/// Whether what was lent to a call is as it was.
fn untouched(name: &str, input: &Input, after: &Observed) -> bool {
    match name {
        "write" => after.lent == widened(&input.page),
        "fill" => after.lent == input.state && after.strip == input.strip,
        "recpick" => after.lent == input.state && after.strip == widened(&input.page),
        "desk" | "cab" => after.lent == widened(&input.records.record),
        "nist" => after.lent == widened(&input.page) && after.strip == input.strip,
        "within" | "badbit" => after.lent.is_empty(),
        _ => after.lent == input.state,
    }
}

/// One call on one input, as the library answers it; or a text that says the input and how the two sides differ.
fn compare_call(call: usize, input: &Input) -> Result<Observed, String> {
    let name = CALLS[call];
    let handed = input.clone();
    let left = library(call, &handed);
    let right = second_program(call, input);
    let kept = left.refusal == 0 || untouched(name, input, &left);
    if left != right || !kept || black_box(&handed) != input {
        let card = hex(&input.card);
        return Err(format!("{name}: the library\n  {left:x?}\nthe second program\n  {right:x?}\ncard {card}\n{input:x?}"));
    }
    Ok(left)
}

/// All calls before the margin on one input.
pub fn compare(input: &Input) -> Result<Told, String> {
    let mut told = Told::default();
    for (call, name) in CALLS[..MARGIN].iter().enumerate() {
        let after = compare_call(call, input)?;
        told.refusals[call] = after.refusal;
        told.cards[call] = match *name {
            "write" => kind_of_words(input.values.words),
            _ => kind_of_card(&input.card),
        };
        match *name {
            "draw" if after.refusal == 0 => told.changed = changed_field(&input.card),
            "pick" => told.pick = pick_column(input, &after),
            "fill" if after.refusal == 0 => told.filled = input.span.1,
            _ => {}
        }
    }
    Ok(told)
}

/// The margins that are counted; the second half are those that `all_amounts` says.
pub const MARGINS: [&str; 6] = [
    "lowered",
    "raised",
    "firm, of several shovels",
    "lowered, with every amount tried",
    "raised, with every amount tried",
    "firm, of several shovels, with every amount tried",
];

/// What the margin told on one input, where the two sides agree.
pub struct ToldMargin {
    pub refusal: u8,
    /// the place in CARDS
    pub card: usize,
    /// the place in MARGINS
    pub column: Option<usize>,
}

/// The margin on one input.
pub fn compare_margin(input: &Input) -> Result<ToldMargin, String> {
    let after = compare_call(MARGIN, input)?;
    let [_, raised, ..] = after.values.map(|value| value as usize);
    let column = match (after.refusal, input.shovels.len()) {
        (0, _) => Some(raised),
        (19, 2..) => Some(2),
        _ => None,
    };
    let half = MARGINS.len() / 2 * usize::from(all_amounts(input));
    Ok(ToldMargin {
        refusal: after.refusal,
        card: kind_of_card(&input.card),
        column: column.map(|column| half + column),
    })
}
