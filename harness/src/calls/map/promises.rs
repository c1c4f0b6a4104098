//! What is promised by the map (document 02, Ten), held on the library's own answers, without the second program.

use super::super::promises::demand;
use super::super::{library, Observed, MAPPICK, PICK, WITHIN};
use crate::inputs::map::{Map, MOST_RADIUS};
use crate::inputs::Input;

/// No two places of the map are so far apart.
const OVER_DIAGONAL: i32 = 2_828_428;

/// The squared distances, of places on the map.
pub(super) fn far(input: &Input) -> Vec<u64> {
    let Map { x, y, xs, ys, .. } = &input.map;
    let square = |from: &i32, to: &i32| u64::from(from.abs_diff(*to)).pow(2);
    let places = xs.iter().zip(ys);
    places.map(|(a, b)| square(x, a) + square(y, b)).collect()
}

/// The input with another map.
fn with_map(input: &Input, map: Map) -> Input {
    Input {
        map,
        ..input.clone()
    }
}

/// Both lists from the end; of lists of one length.
fn reversed(input: &Input) -> Input {
    let mut other = input.clone();
    other.shovels.reverse();
    other.map.xs.reverse();
    other.map.ys.reverse();
    other
}

/// The map turned by a quarter, so that north is west. What is off it stays off.
fn turned(input: &Input) -> Input {
    let map = input.map.clone();
    let west = |y: i32| y.wrapping_neg();
    let turned = Map {
        x: west(map.y),
        y: map.x,
        radius: map.radius,
        xs: map.ys.into_iter().map(west).collect(),
        ys: map.xs,
    };
    with_map(input, turned)
}

/// Answers, refusals and state, also where a call is refused.
fn alike(call: usize, input: &Input, after: &Observed) -> Result<(), String> {
    let even = [&input.map.xs, &input.map.ys].map(|list| list.len() == input.shovels.len());
    let same = even != [true; 2] || library(call, &reversed(input)) == *after;
    demand(same, "the order of the list makes no difference", input)?;
    let same = library(call, &turned(input)) == *after;
    demand(same, "a quarter turn of the map makes no difference", input)
}

/// For each distance, how many different ones are smaller.
fn ranks(far: &[u64]) -> Vec<u32> {
    let mut different = far.to_vec();
    different.sort_unstable();
    different.dedup();
    far.iter()
        .map(|far| different.partition_point(|other| other < far) as u32)
        .collect()
}

/// A pick by the map that gets this far is the timed one with ranks for times.
fn as_timed(input: &Input, after: &Observed) -> Result<(), String> {
    let timed = Input {
        times: ranks(&far(input)),
        ..input.clone()
    };
    let same = library(PICK, &timed) == *after;
    demand(same, "a pick by the map is a pick by ranks", input)
}

/// The distance and the number of each that a list has.
fn keys(input: &Input, list: &Observed) -> Option<Vec<(u64, u64)>> {
    let far = far(input);
    let [count, numbers @ ..] = &list.values;
    let key = |&number: &u64| {
        let mut shovels = input.shovels.iter();
        let place = shovels.position(|&shovel| u64::from(shovel) == number)?;
        Some((far[place], number))
    };
    let listed = numbers.iter().take(*count as usize);
    listed.map(key).collect()
}

/// A list has as many as are near enough, these, and in their order.
fn lists_the_near(input: &Input, list: &Observed) -> Result<(), String> {
    let edge = u64::from(input.map.radius.unsigned_abs()).pow(2);
    let near = |far: &u64| *far <= edge;
    let keys = keys(input, list).unwrap_or_default();
    let ordered = keys.windows(2).all(|pair| pair[0] < pair[1]);
    let all = far(input).iter().filter(|far| near(far)).count();
    let listed = list.values[0] as usize == all && keys.len() == all;
    let held = ordered && listed && keys.iter().all(|key| near(&key.0));
    demand(
        held,
        "a list has those near enough, by distance and number",
        input,
    )
}

/// The same list within another radius.
fn within(input: &Input, radius: i32) -> Observed {
    let map = Map {
        radius,
        ..input.map.clone()
    };
    library(WITHIN, &with_map(input, map))
}

/// Everything is within more than the diagonal.
fn lists_all(input: &Input) -> Result<(), String> {
    let all = |radius| within(input, radius).values[0] as usize == input.shovels.len();
    let held = all(OVER_DIAGONAL) && all(MOST_RADIUS);
    demand(held, "no place is farther than the diagonal", input)
}

/// The shovel that was picked is one of the first of the whole list, which are as many as the pick tells.
fn picks_the_first(input: &Input, pick: &Observed) -> Result<(), String> {
    let keys = keys(input, &within(input, MOST_RADIUS)).unwrap_or_default();
    let [shovel, ties, ..] = pick.values;
    let least = keys.first().map(|key| key.0);
    let equals: Vec<u64> = keys
        .iter()
        .take_while(|key| Some(key.0) == least)
        .map(|key| key.1)
        .collect();
    let held = equals.contains(&shovel) && equals.len() == ties as usize;
    demand(held, "the pick is among the first of the list", input)
}

/// Of what both calls told on an input.
pub(super) fn keeps_promises(
    input: &Input,
    pick: &Observed,
    list: &Observed,
) -> Result<(), String> {
    alike(MAPPICK, input, pick)?;
    alike(WITHIN, input, list)?;
    if matches!(pick.refusal, 0 | 18) {
        as_timed(input, pick)?;
        lists_all(input)?;
    }
    if pick.refusal == 0 {
        picks_the_first(input, pick)?;
    }
    if list.refusal == 0 {
        lists_the_near(input, list)?;
    }
    Ok(())
}
