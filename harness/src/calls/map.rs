//! Picks by the map and lists within a radius (document 02, Ten), by the library and by the second program.

mod promises;

use super::{compare_call, expected, kind_of_card, lend, row, shared};
use super::{Observed, GUARD, MAPPICK, WITHIN};
use crate::inputs::map::{EDGE, MOST_RADIUS};
use crate::inputs::Input;
use promises::{far, keeps_promises};
use reference::map::{call_pick_by_map, call_within};
use std::iter::once;
use tiedraw::ffi::{tiedraw_pick_by_map, tiedraw_within};
use tiedraw::MOST_SHOVELS;

// ---- The library, and the second program. A list within a radius is lent nothing.

pub(super) fn library_pick(input: &Input) -> Observed {
    let (card, n) = (shared(&input.card), input.card.len());
    let (shovels, map) = (&input.shovels, &input.map);
    let (s, k) = (shared(shovels), shovels.len());
    let (xs, a, ys, b) = (shared(&map.xs), map.xs.len(), shared(&map.ys), map.ys.len());
    let (told, lent, around) = lend(&input.state, GUARD, |state, m| unsafe {
        tiedraw_pick_by_map(card, n, state, m, map.x, map.y, s, k, xs, a, ys, b)
    });
    Observed {
        values: row([told.shovel.into(), told.ties.into(), told.taken.into()]),
        refusal: told.refusal,
        lent,
        strip: vec![],
        around,
    }
}

pub(super) fn library_within(input: &Input) -> Observed {
    let (shovels, map) = (&input.shovels, &input.map);
    let (s, k) = (shared(shovels), shovels.len());
    let (xs, a, ys, b) = (shared(&map.xs), map.xs.len(), shared(&map.ys), map.ys.len());
    let told = unsafe { tiedraw_within(map.x, map.y, map.radius, s, k, xs, a, ys, b) };
    let numbers = told.shovels.map(u64::from);
    Observed {
        values: row(once(told.count.into()).chain(numbers)),
        refusal: told.refusal,
        lent: vec![],
        strip: vec![],
        around: true,
    }
}

pub(super) fn second_pick(input: &Input) -> Observed {
    let (mut state, map) = (input.state.clone(), &input.map);
    let told = call_pick_by_map(
        &input.card,
        &mut state,
        map.x,
        map.y,
        &input.shovels,
        &map.xs,
        &map.ys,
    );
    let values = told.map(|p| row([p.shovel.into(), p.ties as u64, p.taken as u64]));
    expected(values, state)
}

pub(super) fn second_within(input: &Input) -> Observed {
    let (shovels, map) = (&input.shovels, &input.map);
    let told = call_within(map.x, map.y, map.radius, shovels, &map.xs, &map.ys);
    let values = told.map(|near| {
        let numbers = near.shovels.map(u64::from);
        row(once(near.count as u64).chain(numbers))
    });
    expected(values, vec![])
}

// ---- The comparison.

/// What must come up; an input may be of several kinds.
pub const MAPS: [&str; 23] = [
    "pick of one nearest",
    "pick of equals at different places",
    "pick of equals at one place",
    "pick of 64 equals",
    "pick with more than 32 bits of a squared distance",
    "pick from corner to corner",
    "list of none",
    "list of some",
    "list of all",
    "list of 64",
    "list with a shovel on the edge",
    "list with a shovel just outside",
    "list of radius 0",
    "list of radius 3000000",
    "truck a metre off the map",
    "shovel a metre off the map",
    "coordinate of -2147483648",
    "radius of -1",
    "radius of 3000001",
    "wrong count of xs alone",
    "wrong count of ys alone",
    "wrong count of both alike",
    "list of three different counts",
];

/// Which of the first six of MAPS a pick is of.
fn kinds_of_pick(input: &Input, after: &Observed) -> [bool; 6] {
    let [_, ties, ..] = after.values.map(|value| value as usize);
    let far = match after.refusal {
        0 => far(input),
        _ => vec![],
    };
    let least = far.iter().min().copied();
    let (xs, ys) = (&input.map.xs, &input.map.ys);
    let spots = far.iter().zip(xs.iter().zip(ys));
    let equals = spots.filter(|(far, _)| Some(**far) == least);
    let mut places: Vec<_> = equals.map(|(_, place)| place).collect();
    places.dedup();
    let tie = ties > 1;
    [
        ties == 1,
        tie && places.len() > 1,
        tie && places.len() == 1,
        ties == MOST_SHOVELS,
        least > Some(u32::MAX.into()),
        least == Some(8_000_000_000_000),
    ]
}

/// Which of the next eight a list is of.
fn kinds_of_list(input: &Input, after: &Observed) -> [bool; 8] {
    let told = after.refusal == 0;
    let (count, all) = (after.values[0] as usize, input.shovels.len());
    let radius = input.map.radius;
    let edge = u64::from(radius.unsigned_abs()).pow(2);
    let at = |square: u64| told && far(input).contains(&square);
    [
        told && count == 0,
        told && count > 0 && count < all,
        told && count == all,
        told && count == MOST_SHOVELS,
        at(edge),
        at(edge + 1),
        told && radius == 0,
        told && radius == MOST_RADIUS,
    ]
}

/// Which of the others it is of, by what is refused.
fn kinds_of_refusal(input: &Input, refusal: u8) -> [bool; 9] {
    let map = &input.map;
    let metre = |coordinate: &i32| coordinate.unsigned_abs() == EDGE as u32 + 1;
    let truck = [map.x, map.y];
    let shovels = || map.xs.iter().chain(&map.ys);
    let (off, uneven) = (refusal == 25, refusal == 12);
    let (k, a, b) = (input.shovels.len(), map.xs.len(), map.ys.len());
    [
        off && truck.iter().any(metre),
        off && shovels().any(metre),
        off && shovels().chain(&truck).any(|&least| least == i32::MIN),
        off && map.radius == -1,
        off && map.radius == MOST_RADIUS + 1,
        uneven && a != k && b == k,
        uneven && b != k && a == k,
        uneven && a != k && a == b,
        uneven && a != k && b != k && a != b,
    ]
}

/// What pick and list told on one input, where the two sides agree and what is promised holds.
pub struct ToldMap {
    pub pick: u8,
    pub list: u8,
    /// the place in CARDS; a list takes no card, and is counted by that of its input
    pub card: usize,
    pub kinds: [bool; MAPS.len()],
}

/// The pick by the map and the list within the radius on one input.
pub fn compare_map(input: &Input) -> Result<ToldMap, String> {
    let pick = compare_call(MAPPICK, input)?;
    let list = compare_call(WITHIN, input)?;
    keeps_promises(input, &pick, &list)?;
    let mut kinds = [false; MAPS.len()];
    let found = kinds_of_pick(input, &pick)
        .into_iter()
        .chain(kinds_of_list(input, &list))
        .chain(kinds_of_refusal(input, list.refusal));
    for (kind, found) in kinds.iter_mut().zip(found) {
        *kind = found;
    }
    Ok(ToldMap {
        pick: pick.refusal,
        list: list.refusal,
        card: kind_of_card(&input.card),
        kinds,
    })
}
