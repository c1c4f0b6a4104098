//! What is timed by the map: the library's picks and lists within a radius, beside Rust.

use crate::by_hand::map::{self, Map, Near};
use crate::by_hand::{Setup, State};
use crate::timing::Subject;
use reference::accept;
use std::hint::black_box;
use tiedraw::ffi::{tiedraw_pick_by_map, tiedraw_within};
use tiedraw::Choice;

/// TSC-1
const CARD: &[u8] = &[0];
const START: State<4> = [1, 2, 3, 4];

/// places five kilometres from 0, 0
const RING: [(i32, i32); 4] = [(3000, 4000), (-4000, 3000), (0, 5000), (-5000, 0)];

/// The truck at 0, 0, and shovels in descending order at these places.
fn map_of(count: u16, place: impl Fn(i32) -> (i32, i32)) -> Map {
    let (xs, ys) = (0..count.into()).map(place).unzip();
    Map {
        x: 0,
        y: 0,
        shovels: (0..count).rev().collect(),
        xs,
        ys,
    }
}

/// So many kilometres from 0, 0, from one to as many as there are shovels, in no order.
pub fn spread(count: u16) -> Map {
    map_of(count, |place| {
        let far = 1000 * (37 * place % i32::from(count) + 1);
        [(far, 0), (0, far), (-far, 0), (0, -far)][place as usize % 4]
    })
}

/// The first tie; the others are a metre farther.
pub fn tied(count: u16, ties: i32) -> Map {
    map_of(count, |place| match place < ties {
        true => RING[place as usize % 4],
        false => (0, -5001),
    })
}

// ---- The library, on slices; none where it is refused.

fn pick(state: &mut State<4>, map: &Map) -> Option<Choice> {
    let told = unsafe {
        tiedraw_pick_by_map(
            black_box(CARD).as_ptr(),
            CARD.len(),
            state.as_mut_ptr(),
            state.len(),
            map.x,
            map.y,
            map.shovels.as_ptr(),
            map.shovels.len(),
            map.xs.as_ptr(),
            map.xs.len(),
            map.ys.as_ptr(),
            map.ys.len(),
        )
    };
    (told.refusal == 0).then_some(Choice {
        shovel: told.shovel,
        ties: told.ties,
        taken: told.taken,
    })
}

fn within(map: &Map, radius: i32) -> Option<Near> {
    let told = unsafe {
        tiedraw_within(
            map.x,
            map.y,
            radius,
            map.shovels.as_ptr(),
            map.shovels.len(),
            map.xs.as_ptr(),
            map.xs.len(),
            map.ys.as_ptr(),
            map.ys.len(),
        )
    };
    (told.refusal == 0).then_some((told.count, told.shovels))
}

// ---- What is timed: the library's and Rust's, which tell the same.

/// Picks on TSC-1, of Rust's the card's part worked out.
pub fn picks(names: [&str; 2], calls: usize, map: &Map) -> [Subject; 2] {
    let setup = Setup::<4, 16>::new(&accept(CARD).unwrap());
    let mut states = [START; 2];
    for _ in 0..100 {
        let [one, other] = &mut states;
        let library = pick(one, map);
        assert!(library.is_some() && library == map::pick(&setup, other, map));
        assert_eq!(states[0], states[1]);
    }
    let (mut state, mut other, same) = (START, START, map.clone());
    let map = map.clone();
    [
        Subject::call(names[0], calls, move || {
            black_box(pick(&mut state, black_box(&map)));
        }),
        Subject::call(names[1], calls, move || {
            black_box(map::pick(black_box(&setup), &mut other, black_box(&same)));
        }),
    ]
}

/// Lists within a radius, of so many shovels.
pub fn lists(names: [&str; 2], calls: usize, map: &Map, radius: i32, count: u8) -> [Subject; 2] {
    let library = within(map, radius);
    assert!(library.is_some_and(|near| near.0 == count));
    assert_eq!(library, map::within(map, radius));
    let subject = |name, within: fn(&Map, i32) -> Option<Near>| {
        let map = map.clone();
        Subject::call(name, calls, move || {
            black_box(within(black_box(&map), black_box(radius)));
        })
    };
    [subject(names[0], within), subject(names[1], map::within)]
}
