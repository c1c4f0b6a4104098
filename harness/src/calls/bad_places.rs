//! Bad places of tables (document 02, Eleven), by the library and by the second program, and what is promised of them.

use super::promises::demand;
use super::{compare_call, expected, kind_of_card, library, row, shared, Observed, BADBIT, CHECK};
use crate::inputs::Input;
use reference::bad_places::call_bad_places;
use reference::cases::tables::{first_repeat, first_swap};
use reference::{encode, Card};
use std::iter::once;
use tiedraw::ffi::tiedraw_bad_places;
use tiedraw::{MOST_BAD_PLACES, TABLE_SIZE};

// ---- The library, and the second program. Nothing is lent.

pub(super) fn library_places(card: &[u8]) -> Observed {
    let told = unsafe { tiedraw_bad_places(shared(card), card.len()) };
    let places = told.places.map(u64::from);
    Observed {
        values: row(once(told.count.into()).chain(places)),
        refusal: told.refusal,
        lent: vec![],
        strip: vec![],
        around: true,
    }
}

pub(super) fn second_places(card: &[u8]) -> Observed {
    let told = call_bad_places(card);
    let values = told.map(|places| {
        let count = places.len() as u64;
        row(once(count).chain(places.into_iter().map(u64::from)))
    });
    expected(values, vec![])
}

// ---- What is promised, held on the library's own answers.

/// The places that were told.
fn told_places(after: &Observed) -> Vec<usize> {
    let [count, places @ ..] = &after.values;
    let places = places.iter().take(*count as usize);
    places.map(|&place| place as usize).collect()
}

/// The check's verdict on the input's card with another table.
fn verdict(input: &Input, card: &Card, table: Vec<u8>) -> u8 {
    let card = Card {
        table,
        ..card.clone()
    };
    let other = Input {
        card: encode(&card),
        ..input.clone()
    };
    library(CHECK, &other).refusal
}

/// The table's entries at these places, and elsewhere what `entry` says.
fn completed(table: &[u8], places: &[usize], entry: impl Fn(usize) -> usize) -> Vec<u8> {
    let at = |place: usize| match places.contains(&place) {
        true => table[place],
        false => entry(place) as u8,
    };
    (0..table.len()).map(at).collect()
}

/// Where each place leads, that is not one of these, so that their chains are joined to one ring; of places whose entries differ and
/// close no cycle.
fn joining(table: &[u8], places: &[usize]) -> Vec<usize> {
    let mut stands = [false; TABLE_SIZE];
    for &place in places {
        stands[usize::from(table[place])] = true;
    }
    let fronts: Vec<usize> = (0..table.len()).filter(|&front| !stands[front]).collect();
    let nexts = fronts.iter().cycle().skip(1);
    let mut leads = vec![0; table.len()];
    for (&front, &next) in fronts.iter().zip(nexts) {
        let mut end = front;
        while places.contains(&end) {
            end = table[end].into();
        }
        leads[end] = next;
    }
    leads
}

/// A verdict of 7 has places, and one of 0, 8 or 9 none; a card that can't be read is refused alike.
fn goes_with_the_check(input: &Input, after: &Observed) -> Result<(), String> {
    let right = match library(CHECK, input).refusal {
        7 => after.refusal == 0,
        0 | 8 | 9 => after.refusal == 26,
        refusal => after.refusal == refusal,
    };
    demand(right, "bad places go with the check's verdict", input)
}

/// Two of the entries are the same, or they lead to each other and to no other place.
fn excludes(table: &[u8], places: &[usize]) -> bool {
    let entries: Vec<usize> = places.iter().map(|&place| table[place].into()).collect();
    let mut different = entries.clone();
    different.sort_unstable();
    different.dedup();
    different.len() < entries.len() || different == places
}

/// Of an input that is not refused: the places stand in order; whatever is put elsewhere, the check says 7; and without any one of them
/// there is a completion to which it doesn't.
fn keeps_promises(input: &Input, card: &Card, after: &Observed) -> Result<(), String> {
    let (table, places) = (&card.table, told_places(after));
    let ordered = places.windows(2).all(|pair| pair[0] < pair[1]);
    let within = places.iter().all(|&place| place < table.len());
    let counted = (1..=table.len() / 2).contains(&places.len());
    let held = ordered && within && counted && excludes(table, &places);
    demand(held, "the places exclude a ring by themselves", input)?;

    let size = table.len();
    let next = completed(table, &places, |place| (place + 1) % size);
    let far = completed(table, &places, |place| (5 * place + 3) % size);
    let broken = [next, far].map(|table| verdict(input, card, table));
    demand(broken == [7; 2], "every completion gets 7", input)?;

    for left_out in 0..places.len() {
        let mut fewer = places.clone();
        fewer.remove(left_out);
        let leads = joining(table, &fewer);
        let ring = completed(table, &fewer, |place| leads[place]);
        let mended = verdict(input, card, ring) != 7;
        demand(mended, "no fewer of the places do", input)?;
    }
    Ok(())
}

// ---- The comparison.

/// What must come up; an input may be of several kinds.
pub const PLACES: [&str; 25] = [
    "place alone",
    "place alone, the last of 256",
    "place alone, behind a repeated entry or a swap",
    "repeated entry",
    "repeated entry of the last two of 256 places alone",
    "swap",
    "swap before a repeated entry",
    "repeated entry before a swap",
    "swap before a repeated entry of the same first place",
    "repeated entry before a swap of the same first place",
    "cycle of three",
    "cycle of four to 127",
    "cycle of 128",
    "shortest cycle with place 0, of several",
    "shortest cycle without place 0, of several",
    "bad places beside what 8 or 9 refuses",
    "ring beside what 8 or 9 refuses",
    "ring that is absent",
    "bad places of 2 words",
    "bad places of 3 words",
    "bad places of 4 words",
    "bad places of 5 words",
    "bad places of 6 words",
    "bad places of 7 words",
    "bad places of 8 words",
];

/// Which of the first ten of PLACES these are of.
fn kinds_of_few(table: &[u8], places: &[usize]) -> [bool; 10] {
    let (repeat, swap) = (first_repeat(table), first_swap(table));
    let pairs = [repeat, swap].into_iter().flatten();
    let (alone, two) = (places.len() == 1, places.len() == 2);
    let first = pairs.min().map(|pair| pair.0);
    let same_first = match (repeat, swap) {
        (Some(repeat), Some(swap)) => repeat.0 == swap.0,
        _ => false,
    };
    let both = two && repeat.is_some() && swap.is_some();
    let repeated = two && table[places[0]] == table[places[1]];
    [
        alone,
        alone && places[0] == TABLE_SIZE - 1,
        alone && first.is_some_and(|first| first < places[0]),
        repeated,
        two && places[0] == TABLE_SIZE - 2,
        two && !repeated,
        both && !repeated,
        both && repeated,
        both && !repeated && same_first,
        both && repeated && same_first,
    ]
}

/// How many cycles of so many places a table without repeated entries has.
fn cycles_of(table: &[u8], count: usize) -> usize {
    let length = |start: usize| {
        let mut place = usize::from(table[start]);
        let mut length = 1;
        while place != start {
            place = table[place].into();
            length += 1;
        }
        length
    };
    let on_them = (0..table.len()).filter(|&place| length(place) == count);
    on_them.count() / count
}

/// Which of the next five these are of.
fn kinds_of_cycle(table: &[u8], places: &[usize]) -> [bool; 5] {
    let count = places.len();
    let several = count > 2 && cycles_of(table, count) > 1;
    [
        count == 3,
        (4..MOST_BAD_PLACES).contains(&count),
        count == MOST_BAD_PLACES,
        several && places[0] == 0,
        several && places[0] != 0,
    ]
}

/// Which of the others an input is of.
fn kinds_of_card(input: &Input, card: &Card, told: bool) -> [bool; 10] {
    let bad_powers = card.odd_power & 1 == 0 || card.even_power & 1 == 1;
    let other_checks = bad_powers || card.constant & 1 == 0;
    let absent = input.card[0] >> 2 & 1 == 0;
    let mut kinds = [false; 10];
    kinds[..3].copy_from_slice(&[told && other_checks, !told && other_checks, !told && absent]);
    kinds[usize::from(card.words) + 1] = told;
    kinds
}

/// Which kinds of PLACES an input is of, whose card is read.
fn kinds(input: &Input, card: &Card, after: &Observed) -> [bool; PLACES.len()] {
    let places = told_places(after);
    let found = kinds_of_few(&card.table, &places)
        .into_iter()
        .chain(kinds_of_cycle(&card.table, &places))
        .chain(kinds_of_card(input, card, after.refusal == 0));
    let mut kinds = [false; PLACES.len()];
    for (kind, found) in kinds.iter_mut().zip(found) {
        *kind = found;
    }
    kinds
}

/// What was told on one input, where the two sides agree and what is promised holds.
pub struct ToldPlaces {
    pub refusal: u8,
    /// the place in CARDS
    pub card: usize,
    /// how many places
    pub count: usize,
    pub kinds: [bool; PLACES.len()],
}

/// The bad places on one input.
pub fn compare_bad_places(input: &Input) -> Result<ToldPlaces, String> {
    let after = compare_call(BADBIT, input)?;
    goes_with_the_check(input, &after)?;
    let mut told = ToldPlaces {
        refusal: after.refusal,
        card: kind_of_card(&input.card),
        count: after.values[0] as usize,
        kinds: [false; PLACES.len()],
    };
    if let Ok(card) = reference::read(&input.card) {
        if after.refusal == 0 {
            keeps_promises(input, &card, &after)?;
        }
        told.kinds = kinds(input, &card, &after);
    }
    Ok(told)
}
