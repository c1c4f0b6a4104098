//! Replays cases: a case a line, one answer line for each.
//!
//! Lines end with a line feed, which the last may lack. A line that begins with `#` is a comment
//! and gets no answer. A line is a word and its fields with exactly one blank between them; a
//! line of any other form is answered by `syntax`. Words are eight hex digits in an answer.
//!
//! | case | answer |
//! |---|---|
//! | `check CARD` | `verdict V`, 0 or the refusal |
//! | `read CARD` | `fields m n t0,t1,.. a b 0xC filter sum` |
//! | `step CARD STATE`, `back CARD STATE` | `state w,..` |
//! | `draw CARD STATE` | `word W state w,..` |
//! | `words CARD STATE COUNT` | `words w,.. state w,..` |
//! | `strip CARD STATE STRIP PLACE COUNT` | `strip w,.. state w,..`, the whole strip |
//! | `pick CARD STATE SHOVELS TIMES` | `shovel S ties K taken T state w,..` |
//! | `margin CARD STATE SHOVELS TIMES` | `change S lowered D shovel X ties K taken T`, or `raised` |
//! | `write m n T a b C filter sum PAGELEN` | `length L page HEX` |
//! | `recpick CARD STATE SHOVELS TIMES TRUCK PAGELEN` | `shovel S ties K taken T page HEX state w,..` |
//! | `desk RECORD` | `truck N shovel S ties K taken T state w,..`, `absent` for one that lacks |
//! | `cab TRUCK RECORD` | `shovel S` |
//! | `nist CARD STRIP PAGELEN` | `counts BALANCE FORWARD BACKWARD RUNS page TEXT` |
//! | `mappick CARD STATE X:Y SHOVELS PLACES` | `shovel S ties K taken T state w,..` |
//! | `within X:Y RADIUS SHOVELS PLACES` | `count N numbers n,..`, all 64 numbers |
//! | `badbit CARD` | `places N p,..`, all N of them |
//!
//! All but `check` may answer `refused V` instead, with ` CHANGED` behind it if the lent state,
//! strip or page isn't as it was. A page is lent with every byte a5 and shown whole; that of `nist`
//! is lent with every byte `.` and shown as text. A margin is lent the state to read only; S is the
//! shovel whose time is changed by D, X that of the pick.
//!
//! CARD and RECORD are pairs of hex digits, at most 600 of them. Lists have commas: STATE and STRIP
//! are words of 32 bits in hex; SHOVELS, TIMES and T decimal numbers of 16, of 32 and of 8 bits. A
//! list has at most 600 numbers, STRIP of `nist` at most 16,400, T at most the writer's 256; entries
//! that are not given are 0. `-` is an empty string or list. C has 32 bits, in decimal or in hex
//! after `0x`; PLACE and COUNT of `strip` have 32 bits, TRUCK has 16; COUNT of `words` is at most
//! 1024, PAGELEN at most 600; all other single numbers have 8 bits. Hex digits may have either case,
//! numbers leading zeros.
//!
//! X:Y is a place, two coordinates with a colon between them; PLACES is a list of at most 600. A
//! coordinate and RADIUS are decimal numbers of -2147483648 to 2147483647 with `-` in front or
//! nothing.

mod bad_places;
mod bits;
mod map;
mod records;

use crate::fill::call_fill;
use crate::margin::call_margin;
use crate::pick::{call_pick, Picked};
use crate::{
    accept_call, call_draw, call_step, call_step_back, call_write, check, read, Card, TABLE_ENTRIES,
};
use bad_places::bad_places_answer;
use bits::counts_answer;
use map::{map_pick_answer, place, places, signed, within_answer};
use records::{cab_answer, desk_answer, recorded_answer};
use std::fmt::Display;

/// The most bytes of an input.
pub const MOST_INPUT: usize = 5 << 20;
/// The most bytes of a card, a record or a page, and the most numbers of a list.
const MOST_LISTED: usize = 600;
/// The most words of a strip whose bits are counted, some more than the call takes.
const MOST_COUNTED: usize = 16_400;
/// The most words of one case.
const MOST_WORDS: usize = 1024;
/// Every byte of a page as it is lent.
const LENT: u8 = 0xa5;

/// The answer lines for an input; `too long` alone for one of more than `MOST_INPUT` bytes.
pub fn answers(input: &[u8]) -> String {
    if input.len() > MOST_INPUT {
        return "too long\n".to_string();
    }
    let mut text = String::new();
    for line in input.split_inclusive(|&byte| byte == b'\n') {
        if let Some(answer) = answer(line.strip_suffix(b"\n").unwrap_or(line)) {
            text.push_str(&answer);
            text.push('\n');
        }
    }
    text
}

/// The answer to a line without its line feed; none to a comment.
pub fn answer(line: &[u8]) -> Option<String> {
    if line.starts_with(b"#") {
        return None;
    }
    Some(replay(line).unwrap_or_else(|| "syntax".to_string()))
}

/// The answer to a case, or none if the line hasn't its form. The fields are read before the call.
fn replay(line: &[u8]) -> Option<String> {
    let fields: Vec<&[u8]> = line.split(|&byte| byte == b' ').collect();
    Some(match fields[..] {
        [b"check", c] => format!("verdict {}", check(&card(c)?)),
        [b"read", c] => read_answer(&card(c)?),
        [b"step", c, s] => step_answer(call_step, &card(c)?, &state(s)?),
        [b"back", c, s] => step_answer(call_step_back, &card(c)?, &state(s)?),
        [b"draw", c, s] => draw_answer(&card(c)?, &state(s)?),
        [b"words", c, s, count] => words_answer(&card(c)?, &state(s)?, limited(count, MOST_WORDS)?),
        [b"strip", c, s, strip, place, count] => strip_answer(
            &card(c)?,
            &state(s)?,
            &list(strip, 16, MOST_LISTED)?,
            number::<u32>(place, 10)? as usize,
            number::<u32>(count, 10)? as usize,
        ),
        [b"pick", c, s, shovels, times] => on_lists(pick_answer, c, s, shovels, times)?,
        [b"margin", c, s, shovels, times] => on_lists(margin_answer, c, s, shovels, times)?,
        [b"write", m, n, t, a, b, c, filter, sum, page] => {
            let values = Card {
                words: number(m, 10)?,
                width: number(n, 10)?,
                table: table(t)?,
                odd_power: number(a, 10)?,
                even_power: number(b, 10)?,
                constant: constant(c)?,
                filter: number(filter, 10)?,
                sum_term: number(sum, 10)?,
            };
            write_answer(&values, limited(page, MOST_LISTED)?)
        }
        [b"recpick", c, s, shovels, times, truck, page] => {
            let (truck, page) = (number(truck, 10)?, limited(page, MOST_LISTED)?);
            let call = |card: &[u8], state: &[u32], shovels: &[u16], times: &[u32]| {
                recorded_answer(card, state, shovels, times, truck, page)
            };
            on_lists(call, c, s, shovels, times)?
        }
        [b"desk", record] => desk_answer(&card(record)?),
        [b"cab", truck, record] => cab_answer(number(truck, 10)?, &card(record)?),
        [b"nist", c, strip, page] => counts_answer(
            &card(c)?,
            &list(strip, 16, MOST_COUNTED)?,
            limited(page, MOST_LISTED)?,
        ),
        [b"mappick", c, s, truck, shovels, others] => map_pick_answer(
            &card(c)?,
            &state(s)?,
            place(truck)?,
            &list(shovels, 10, MOST_LISTED)?,
            &places(others)?,
        ),
        [b"within", truck, radius, shovels, others] => within_answer(
            place(truck)?,
            signed(radius)?,
            &list(shovels, 10, MOST_LISTED)?,
            &places(others)?,
        ),
        [b"badbit", c] => bad_places_answer(&card(c)?),
        _ => return None,
    })
}

/// The answer to a case with these fields, by a call with a card, a state, shovels and times.
fn on_lists(
    call: impl Fn(&[u8], &[u32], &[u16], &[u32]) -> String,
    c: &[u8],
    s: &[u8],
    shovels: &[u8],
    times: &[u8],
) -> Option<String> {
    let (card, state) = (card(c)?, state(s)?);
    let shovels: Vec<u16> = list(shovels, 10, MOST_LISTED)?;
    let times: Vec<u32> = list(times, 10, MOST_LISTED)?;
    Some(call(&card, &state, &shovels, &times))
}

// ---- Fields of a line: none if malformed or too large ----

/// One digit or more and nothing else; leading zeros are fine, the value must fit the type, of 32
/// bits at most.
fn number<T: TryFrom<u64>>(field: &[u8], base: u32) -> Option<T> {
    if field.is_empty() {
        return None;
    }
    let mut value: u64 = 0;
    for &byte in field {
        let digit = char::from(byte).to_digit(base)?;
        value = value.saturating_mul(base.into());
        value = value.saturating_add(digit.into());
    }
    T::try_from(value).ok()
}

/// A decimal number of at most `most`.
fn limited(field: &[u8], most: usize) -> Option<usize> {
    let value = usize::from(number::<u16>(field, 10)?);
    (value <= most).then_some(value)
}

/// The constant C: decimal, or hex after `0x`.
fn constant(field: &[u8]) -> Option<u32> {
    match field.strip_prefix(b"0x") {
        Some(digits) => number(digits, 16),
        None => number(field, 10),
    }
}

/// At most `most` entries with commas between them, or `-`.
fn listed<T>(field: &[u8], most: usize, entry: impl Fn(&[u8]) -> Option<T>) -> Option<Vec<T>> {
    if field == b"-" {
        return Some(Vec::new());
    }
    let entries = field.split(|&byte| byte == b',');
    let list: Vec<T> = entries.map(entry).collect::<Option<_>>()?;
    (list.len() <= most).then_some(list)
}

/// A list of numbers.
fn list<T: TryFrom<u64>>(field: &[u8], base: u32, most: usize) -> Option<Vec<T>> {
    listed(field, most, |digits| number(digits, base))
}

/// The words of a state, in hex.
fn state(field: &[u8]) -> Option<Vec<u32>> {
    list(field, 16, MOST_LISTED)
}

/// The array of table entries; those not given are 0.
fn table(field: &[u8]) -> Option<Vec<u8>> {
    let mut entries = list(field, 10, TABLE_ENTRIES)?;
    entries.resize(TABLE_ENTRIES, 0);
    Some(entries)
}

/// The bytes of a card or a record: pairs of hex digits, or `-`.
pub(crate) fn card(field: &[u8]) -> Option<Vec<u8>> {
    if field == b"-" {
        return Some(Vec::new());
    }
    if field.is_empty() || field.len() % 2 == 1 || field.len() > 2 * MOST_LISTED {
        return None;
    }
    field.chunks(2).map(|pair| number(pair, 16)).collect()
}

// ---- Texts of bytes and lists, `-` for none; a case takes the same ----

/// Two hex digits for each byte.
pub fn hex(bytes: &[u8]) -> String {
    match bytes {
        [] => "-".to_string(),
        _ => bytes.iter().map(|byte| format!("{byte:02x}")).collect(),
    }
}

/// The numbers with commas between them.
pub fn commas<T: Display>(numbers: impl IntoIterator<Item = T>) -> String {
    let texts: Vec<String> = numbers
        .into_iter()
        .map(|number| number.to_string())
        .collect();
    match &texts[..] {
        [] => "-".to_string(),
        _ => texts.join(","),
    }
}

/// Words as eight hex digits, with commas between them.
pub fn words(words: &[u32]) -> String {
    commas(words.iter().map(|word| format!("{word:08x}")))
}

// ---- The calls ----

/// A refusal; `kept` says whether what was lent is as it was (document 01, Refusal table).
fn refused(refusal: u8, kept: bool) -> String {
    let changed = if kept { "" } else { " CHANGED" };
    format!("refused {refusal}{changed}")
}

/// Makes a call on the lent state: its answer and the state after it, or its refusal.
fn on_state(state: &[u32], call: impl FnOnce(&mut [u32]) -> Result<String, u8>) -> String {
    let mut lent = state.to_vec();
    match call(&mut lent) {
        Ok(answer) => format!("{answer}state {}", words(&lent)),
        Err(refusal) => refused(refusal, lent == state),
    }
}

fn read_answer(card: &[u8]) -> String {
    match read(card) {
        Ok(values) => format!(
            "fields {} {} {} {} {} 0x{:08x} {} {}",
            values.words,
            values.width,
            commas(&values.table),
            values.odd_power,
            values.even_power,
            values.constant,
            values.filter,
            values.sum_term
        ),
        Err(refusal) => refused(refusal, true),
    }
}

/// A step or a step back.
fn step_answer(call: fn(&[u8], &mut [u32]) -> u8, card: &[u8], state: &[u32]) -> String {
    on_state(state, |lent| match call(card, lent) {
        0 => Ok(String::new()),
        refusal => Err(refusal),
    })
}

fn draw_answer(card: &[u8], state: &[u32]) -> String {
    on_state(state, |lent| {
        let word = call_draw(card, lent)?;
        Ok(format!("word {word:08x} "))
    })
}

/// A row of draws. A bad card or state is refused also if none is wanted.
fn words_answer(card: &[u8], state: &[u32], count: usize) -> String {
    on_state(state, |lent| {
        accept_call(card, lent)?;
        let drawn: Result<Vec<u32>, u8> = (0..count).map(|_| call_draw(card, lent)).collect();
        Ok(format!("words {} ", words(&drawn?)))
    })
}

/// A fill. The strip is shown whole, also the words that are as lent.
fn strip_answer(card: &[u8], state: &[u32], strip: &[u32], place: usize, count: usize) -> String {
    let (mut lent_state, mut lent_strip) = (state.to_vec(), strip.to_vec());
    match call_fill(card, &mut lent_state, &mut lent_strip, place, count) {
        Ok(()) => format!("strip {} state {}", words(&lent_strip), words(&lent_state)),
        Err(refusal) => refused(refusal, lent_strip == strip && lent_state == state),
    }
}

/// What a pick told.
fn picked(pick: &Picked) -> String {
    format!(
        "shovel {} ties {} taken {}",
        pick.shovel, pick.ties, pick.taken
    )
}

fn pick_answer(card: &[u8], state: &[u32], shovels: &[u16], times: &[u32]) -> String {
    on_state(state, |lent| {
        let pick = call_pick(card, lent, shovels, times)?;
        Ok(format!("{} ", picked(&pick)))
    })
}

/// The changed shovel, how it is changed, and the changed pick.
fn margin_answer(card: &[u8], state: &[u32], shovels: &[u16], times: &[u32]) -> String {
    match call_margin(card, state, shovels, times) {
        Ok(margin) => {
            let way = if margin.raised { "raised" } else { "lowered" };
            let change = format!("change {} {way} {}", margin.changed, margin.seconds);
            format!("{change} {}", picked(&margin.pick))
        }
        Err(refusal) => refused(refusal, true),
    }
}

fn write_answer(values: &Card, page_length: usize) -> String {
    let mut page = vec![LENT; page_length];
    match call_write(values, &mut page) {
        Ok(length) => format!("length {length} page {}", hex(&page)),
        Err(refusal) => refused(refusal, is_as_lent(&page)),
    }
}

/// True when a page is as it was lent.
fn is_as_lent(page: &[u8]) -> bool {
    page.iter().all(|&byte| byte == LENT)
}

#[cfg(test)]
mod tests {
    use super::*;

    fn text(line: &str) -> String {
        answer(line.as_bytes()).unwrap_or("no answer".to_string())
    }

    /// Rows of a line and its answer.
    pub(super) fn assert_answers(rows: &str) {
        for row in rows.lines() {
            let (line, answer) = row.split_once(" = ").unwrap();
            assert_eq!(text(line), answer, "{line}");
        }
    }

    /// Document 01, At the edges: P1 to P12, then Others; The program.
    #[test]
    fn examples() {
        assert_answers(
            "\
check 00 = verdict 0
step 00 0,0,0,0 = state ffffffff,12488421,edb77bde,edb77bde
draw 00 0,0,0,0 = word 0b857478 state ffffffff,12488421,edb77bde,edb77bde
back 00 ffffffff,12488421,edb77bde,edb77bde = state 00000000,00000000,00000000,00000000
check 7405020b0c0d04030e0f080106070a0900000100000002 = verdict 0
draw 7405020b0c0d04030e0f080106070a0900000100000002 0,0,0,0 = word 02401008 state 00000001,00000000,00000001,00000000
check - = verdict 1
check 0103 = verdict 4
check 021c = verdict 6
check 021d = verdict 0
check 050200010203 = verdict 7
check 05020001020300 = verdict 5
check 0801 = verdict 3
check 0802 = verdict 9
check 0803 = verdict 0
check 1000 = verdict 0
check 0101 = verdict 2
check 0105 = verdict 4
check 0104 = verdict 3
check 0221 = verdict 2
check 0220 = verdict 3
check 2702020102030002000000 = verdict 8
check 2702020102030004000000 = verdict 6
check 050201020303 = verdict 7
pick 2702020102030001000000 0,0 7,4 300,300 = shovel 4 ties 2 taken 1 state 00000001,00000002
pick 2702020102030001000000 2,3 7,4 300,300 = shovel 7 ties 2 taken 1 state 00000001,00000001
pick 2702020102030001000000 0,0 4,7 300,299 = shovel 7 ties 1 taken 0 state 00000000,00000000
check 2702020102030001000000 = verdict 0
draw 2702020102030001000000 0,0 = word 00000000 state 00000001,00000002
words 2702020102030001000000 0,0 4 = words 00000000,00000000,00000003,00000002 state 00000002,00000000",
        );
    }

    #[test]
    fn fields_and_refusals() {
        assert_answers(
            "\
read 00 = fields 4 32 3,5,9,13,1,6,11,15,4,0,8,14,10,7,2,12 1 2 0x12488421 1 1
read 050200010203 = fields 2 32 0,1,2,3 1 2 0x12488421 1 1
read 2702020102030001000000 = fields 2 2 1,2,3,0 1 2 0x00000001 1 1
read 021c = refused 6
words 00 0,0,0,0 0 = words - state 00000000,00000000,00000000,00000000
words 0802 0,0,0,0 0 = refused 9
words 00 - 0 = refused 10
words 021d 0,0,0,20000000 0 = refused 11
step - - = refused 1
back 00 0,0,0 = refused 10
draw 021d 0,20000000,0,0 = refused 11
pick 00 0,0,0,0 7 - = refused 12
pick 00 0,0,0,0 - - = refused 13
pick 00 0,0,0,0 7,7 1,2 = refused 15",
        );
        assert_eq!(refused(11, true), "refused 11");
        assert_eq!(refused(11, false), "refused 11 CHANGED");
    }

    /// Document 02, One: words of the printout of document 01 within the span, the others as lent.
    #[test]
    fn strips() {
        assert_answers(
            "\
strip 00 0,0,0,0 1,ffffffff 1 1 = strip 00000001,0b857478 state ffffffff,12488421,edb77bde,edb77bde
strip 2702020102030001000000 1,2 a,b,c,d,e 1 3 = strip 0000000a,00000000,00000003,00000002,0000000e state 00000002,00000000
strip 2702020102030001000000 1,2 a,b 1 0 = strip 0000000a,0000000b state 00000001,00000002
strip 2702020102030001000000 1,2 a,b 2 0 = strip 0000000a,0000000b state 00000001,00000002
strip 2702020102030001000000 1,2 - 0 0 = strip - state 00000001,00000002
strip 2702020102030001000000 1,2 - 0 1 = refused 17
strip 2702020102030001000000 1,2 a,b 3 0 = refused 17
strip 2702020102030001000000 1,2 a,b 1 2 = refused 17
strip 2702020102030001000000 1,2 a,b 1 4294967295 = refused 17
strip 2702020102030001000000 1,2 a,b 4294967295 1 = refused 17
strip 0802 1,2,3 a,b 3 0 = refused 9
strip 00 1,2,3 a,b 3 0 = refused 10
strip 021d 0,0,0,20000000 a,b 3 0 = refused 11
strip 021d 0,0,0,20000000 a,b 0 0 = refused 11",
        );
    }

    /// Document 02, Two: from 2, 3 the words are 3 and 2, and for three equals 3 is passed over.
    #[test]
    fn words_taken() {
        assert_answers(
            "\
pick 2702020102030001000000 2,3 7,4,9 300,300,300 = shovel 9 ties 3 taken 2 state 00000002,00000000
pick 2702020102030001000000 2,3 7,4,9,1 300,300,300,300 = shovel 9 ties 4 taken 1 state 00000001,00000001
pick 2702020102030001000000 2,3 7,4,9,1,2 300,300,300,300,300 = refused 18
pick 2702020102030001000000 2,3 7,4,9,1,7 300,300,300,300,300 = refused 15",
        );
    }

    /// Document 02, Four: from 0, 0 a tie goes to 4 as before, from 2, 3 to 7.
    #[test]
    fn margins() {
        assert_answers(
            "\
margin 2702020102030001000000 0,0 4,7 300,305 = change 4 raised 6 shovel 7 ties 1 taken 0
margin 2702020102030001000000 0,0 7,4 305,300 = change 4 raised 6 shovel 7 ties 1 taken 0
margin 2702020102030001000000 2,3 4,7 300,305 = change 4 raised 5 shovel 7 ties 2 taken 1
margin 2702020102030001000000 2,3 7,4 300,300 = change 4 lowered 1 shovel 4 ties 1 taken 0
margin 2702020102030001000000 2,3 4,7 0,4294967295 = change 4 raised 4294967295 shovel 7 ties 2 taken 1
margin 2702020102030001000000 0,0 4,7 0,4294967295 = refused 19
margin 2702020102030001000000 0,0 7 300 = refused 19
margin 2702020102030001000000 0,0 7,4,9,1,2 300,300,300,300,300 = refused 18
margin 2702020102030001000000 0,0 7,7 300,300 = refused 15
margin 00 0,0,0,0 - - = refused 13
margin 00 0,0,0,0 7 - = refused 12
margin 021d 0,0,0,20000000 7 300 = refused 11
margin 00 0,0,0 7 300 = refused 10
margin 0802 - - - = refused 9",
        );
    }

    /// Pages, entries not given or not used, and the order of the writer's checks.
    #[test]
    fn writer() {
        assert_answers(
            "\
write 4 32 3,5,9,13,1,6,11,15,4,0,8,14,10,7,2,12 1 2 0x12488421 1 1 3 = length 1 page 00a5a5
write 4 32 3,5,9,13,1,6,11,15,4,0,8,14,10,7,2,12 1 2 306742305 1 1 1 = length 1 page 00
write 4 32 3,5,9,13,1,6,11,15,4,0,8,14,10,7,2,12 1 2 306742305 1 1 0 = refused 16
write 2 2 1,2,3,0 1 2 1 1 1 12 = length 11 page 2702020102030001000000a5
write 2 2 1,2,3 1 2 1 1 1 11 = length 11 page 2702020102030001000000
write 2 2 1,2,3,0,0,0,0,0,0,0,0,0,0,0,0,0 1 2 1 1 1 11 = length 11 page 2702020102030001000000
write 2 2 1,2,3,0,0,0,0,0,0,0,0,0,0,0,0,1 1 2 1 1 1 12 = refused 2
write 0 2 1,2,3,0 1 2 1 1 1 12 = refused 2
write 255 255 255 0 255 4294967295 255 255 0 = refused 2
write 2 33 1,2,3,0 1 2 4294967295 1 1 12 = refused 2
write 2 2 1,2,3,0 1 2 4 0 1 12 = refused 2
write 2 2 1,2,3,0 1 2 4 1 2 12 = refused 2
write 2 2 1,2,3,4 1 2 4 1 1 12 = refused 2
write 2 2 0,1,2,3 2 1 4 1 1 0 = refused 6
write 2 2 0,1,2,3 2 1 2 1 1 0 = refused 7
write 4 32 - 1 2 1 1 1 26 = refused 7
write 2 2 1,2,3,0 2 1 2 1 1 0 = refused 8
write 2 2 1,2,3,0 0 2 1 1 1 0 = refused 9
write 2 2 1,2,3,0 1 255 1 1 1 0 = refused 9
write 2 2 1,2,3,0 1 2 1 1 1 10 = refused 16",
        );
    }

    #[test]
    fn lines() {
        let verdict = "verdict 0\n";
        assert_eq!(answers(b""), "");
        assert_eq!(answers(b"\n"), "syntax\n");
        assert_eq!(answers(b"check 00"), verdict);
        assert_eq!(answers(b"check 00\n"), verdict);
        assert_eq!(answers(b"check 00\n\n"), "verdict 0\nsyntax\n");
        assert_eq!(answers(b"#\n# check 00\ncheck 00\n#\xff"), verdict);
        assert_eq!(
            answers(b" #\ncheck 00\r\n\xff\ncheck 0802"),
            "syntax\nsyntax\nsyntax\nverdict 9\n"
        );
    }

    #[test]
    fn input_is_limited() {
        let mut input = vec![b'#'; MOST_INPUT];
        input[MOST_INPUT - 9..].copy_from_slice(b"\ncheck 00");
        assert_eq!(answers(&input), "verdict 0\n");
        input.push(b'\n');
        assert_eq!(answers(&input), "too long\n");
    }

    /// Too few and too many fields, blanks, words.
    #[test]
    fn syntax_of_lines() {
        let lines = "|-| |check|check |check  00| check 00|check 00 |check 00 00|check 00\r|\
            Check 00|checks 00|00|check\t00|read|step 00|step 00 0 0|words 00 0,0,0,0|\
            strip 00 0,0,0,0 - 0|strip 00 0,0,0,0 - 0 0 0|strip 00 0,0,0,0  0 0|\
            pick 00 0,0,0,0 1|pick 00 0,0,0,0 1 1 1|write 2 2 1,2,3,0 1 2 1 1 1|\
            recpick|recpick 00 0,0,0,0 1 1 1|recpick 00 0,0,0,0 1 1 1 24 0|recpick 00 0,0,0,0 1 1  24|\
            desk|desk |desk 03 03|desk  03|Desk 03|cab|cab 1|cab 03|cab 1 03 03|cab 1  03|cab  03|\
            nist|nist 00|nist 00 1|nist 00 1 32 0|nist 00  32|nist  1 32|nist 00 1 |Nist 00 1 32|\
            mappick|mappick 00 0,0,0,0 0:0 1|mappick 00 0,0,0,0 0 0 1 0:0|mappick 00 0,0,0,0 0:0 1 0:0 0|\
            mappick 00 0,0,0,0  1 0:0|Mappick 00 0,0,0,0 0:0 1 0:0|map 00 0,0,0,0 0:0 1 0:0|\
            within|within 0:0 1|within 0:0 1 1|within 0:0 1 1 0:0 0|within 0 0 1 1 0:0|within 0:0  1 0:0|\
            Within 0:0 1 1 0:0|within 00 0:0 1 1 0:0|\
            badbit|badbit |badbit 00 00|badbit  00|badbit 00 |Badbit 00|badbits 00|bad 00|badbit 00 0,0,0,0|\
            margin|margin 00 0,0,0,0 1|margin 00 0,0,0,0 1 1 1|margin 00 0,0,0,0  1|Margin 00 0 1 1|\
            write 2 2 1,2,3,0 1 2 1 1 1 12 0|chéck 00|check 00#";
        for line in lines.split('|') {
            assert_eq!(text(line), "syntax", "{line}");
        }
    }

    /// Whether the line is malformed with each of the forms in place of `@`.
    pub(super) fn assert_syntax(line: &str, forms: &str, syntax: bool) {
        for form in forms.split(' ') {
            let line = line.replace('@', form);
            assert_eq!(text(&line) == "syntax", syntax, "{line}");
        }
    }

    /// Each decimal field, the largest number it takes, and whether it is a list.
    const DECIMALS: [(&str, u64, bool); 24] = [
        ("words 00 0,0,0,0 @", 1024, false),
        ("strip 00 0,0,0,0 1 @ 1", 4294967295, false),
        ("strip 00 0,0,0,0 1 0 @", 4294967295, false),
        ("pick 00 0,0,0,0 @ 1", 65535, true),
        ("pick 00 0,0,0,0 1 @", 4294967295, true),
        ("margin 00 0,0,0,0 @ 1", 65535, true),
        ("margin 00 0,0,0,0 1 @", 4294967295, true),
        ("write @ 2 0 1 2 1 1 1 12", 255, false),
        ("write 2 @ 0 1 2 1 1 1 12", 255, false),
        ("write 2 2 @ 1 2 1 1 1 12", 255, true),
        ("write 2 2 0 @ 2 1 1 1 12", 255, false),
        ("write 2 2 0 1 @ 1 1 1 12", 255, false),
        ("write 2 2 0 1 2 @ 1 1 12", 4294967295, false),
        ("write 2 2 0 1 2 1 @ 1 12", 255, false),
        ("write 2 2 0 1 2 1 1 @ 12", 255, false),
        ("write 2 2 0 1 2 1 1 1 @", 600, false),
        ("recpick 00 0,0,0,0 @ 1 1 24", 65535, true),
        ("recpick 00 0,0,0,0 1 @ 1 24", 4294967295, true),
        ("recpick 00 0,0,0,0 1 1 @ 24", 65535, false),
        ("recpick 00 0,0,0,0 1 1 1 @", 600, false),
        ("cab @ 0301020304", 65535, false),
        ("nist 00 1 @", 600, false),
        ("mappick 00 0,0,0,0 0:0 @ 0:0", 65535, true),
        ("within 0:0 0 @ 0:0", 65535, true),
    ];

    #[test]
    fn syntax_of_decimals() {
        for (line, largest, is_list) in DECIMALS {
            assert_syntax(
                line,
                &format!("0 {largest} 00000000000000000000{largest}"),
                false,
            );
            assert_syntax(line, &format!("{} {largest}0", largest + 1), true);
            assert_syntax(line, "18446744073709551616 18446744073709551617", true);
            assert_syntax(
                line,
                "+1 -1 + 1, ,1 1,,1 1,- -- a 0x 0X1 1.0 1e1 1_0 1; é1 ١",
                true,
            );
            assert_syntax(line, "- 1,1", !is_list);
        }
    }

    #[test]
    fn syntax_of_hex() {
        for line in [
            "check @",
            "desk @",
            "cab 1 @",
            "recpick @ - - - 1 24",
            "nist @ 1 32",
            "mappick @ - 0:0 - -",
            "badbit @",
        ] {
            assert_syntax(line, "- 00 aB Ab 0123456789abcdefABCDEF", false);
            assert_syntax(line, "0 000 0x00 0g -- 00, 00,00 +0 00- é", true);
        }
        for line in [
            "draw 00 @",
            "strip 00 0,0,0,0 @ 0 0",
            "margin 00 @ 1 1",
            "recpick 00 @ 1 1 1 24",
            "nist 00 @ 600",
            "mappick 00 @ 0:0 1 0:0",
        ] {
            assert_syntax(
                line,
                "- 0 f,F,00 FFFFFFFF,ffffffff,0000000000000ffffffff",
                false,
            );
            assert_syntax(line, "100000000 0,0,0,100000000 0,10000000000000000", true);
            assert_syntax(line, "1, ,1 1,,1 1,- -- 0x1 +1 -1 g é", true);
        }
        let line = "write 2 2 0 1 2 @ 1 1 12";
        assert_syntax(
            line,
            "0x0 0xA 0xa 0xFfffffff 0x0000000000000000000000000000001",
            false,
        );
        assert_syntax(
            line,
            "0x100000000 0x10000000000000001 0x+1 0xg 0x- 00x1 x1 ff",
            true,
        );
    }

    #[test]
    fn syntax_of_tables() {
        for (count, syntax) in [
            (0, false),
            (16, false),
            (17, false),
            (256, false),
            (257, true),
            (600, true),
        ] {
            let table = commas(vec![0; count]);
            assert_syntax("write 2 2 @ 1 2 1 1 1 12", &table, syntax);
        }
    }

    #[test]
    fn syntax_of_long_fields() {
        for (count, syntax) in [(600, false), (601, true)] {
            let card = "00".repeat(count);
            let list = commas(vec![1; count]);
            let places = commas(vec!["0:0"; count]);
            for line in [
                format!("check {card}"),
                format!("read {card}"),
                format!("step {card} 0,0,0,0"),
                format!("back 00 {list}"),
                format!("strip 00 {list} - 0 0"),
                format!("strip 00 0,0,0,0 {list} 0 0"),
                format!("pick 00 0,0,0,0 {list} -"),
                format!("pick 00 0,0,0,0 - {list}"),
                format!("margin {card} 0,0,0,0 1 1"),
                format!("margin 00 {list} 1 1"),
                format!("margin 00 0,0,0,0 {list} {list}"),
                format!("margin 00 0,0,0,0 {list} -"),
                format!("margin 00 0,0,0,0 - {list}"),
                format!("recpick {card} 0,0,0,0 1 1 1 24"),
                format!("recpick 00 {list} 1 1 1 24"),
                format!("recpick 00 0,0,0,0 {list} - 1 24"),
                format!("recpick 00 0,0,0,0 - {list} 1 24"),
                format!("desk {card}"),
                format!("cab 1 {card}"),
                format!("nist {card} 1 32"),
                format!("mappick {card} - 0:0 - -"),
                format!("mappick 00 {list} 0:0 - -"),
                format!("mappick 00 0,0,0,0 0:0 {list} -"),
                format!("mappick 00 0,0,0,0 0:0 - {places}"),
                format!("within 0:0 0 {list} -"),
                format!("within 0:0 0 - {places}"),
                format!("badbit {card}"),
            ] {
                assert_eq!(text(&line) == "syntax", syntax, "{line}");
            }
        }
        for (count, syntax) in [(601, false), (16_400, false), (16_401, true)] {
            let list = commas(vec![1; count]);
            assert_syntax("nist 00 @ 600", &list, syntax);
        }
        let zeros = "0".repeat(5000);
        let line = format!("words 00 {zeros}1,2,3,4 {zeros}0");
        assert_eq!(
            text(&line),
            "words - state 00000001,00000002,00000003,00000004"
        );
    }

    /// Bytes that are no text are malformed in every field and as a line.
    #[test]
    fn any_byte_may_come() {
        for byte in 0..=255u8 {
            let line = [b"check 0", &[byte][..]].concat();
            assert_eq!(replay(&line).is_some(), byte.is_ascii_hexdigit(), "{byte}");
            let line = [b"words 00 0,0,0,0 ", &[byte][..]].concat();
            assert_eq!(replay(&line).is_some(), byte.is_ascii_digit(), "{byte}");
            let line = [b"draw 00 1", &[byte][..], b"1"].concat();
            let legal = byte.is_ascii_hexdigit() || byte == b',';
            assert_eq!(replay(&line).is_some(), legal, "{byte}");
            assert_eq!(replay(&[byte]), None);
        }
    }
}
