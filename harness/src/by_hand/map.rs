//! The nearest shovel and those within a radius in Rust by hand (document 02, Ten): what the library's calls are timed beside.

use super::{step_by_masks, Setup, State};
use tiedraw::{Choice, MOST_SHOVELS, MOST_TAKEN};

const LIMIT: i32 = 1_000_000;
const MOST_RADIUS: i32 = 3_000_000;

/// Where the truck and the shovels are.
#[derive(Clone, Debug)]
pub struct Map {
    pub x: i32,
    pub y: i32,
    pub shovels: Vec<u16>,
    pub xs: Vec<i32>,
    pub ys: Vec<i32>,
}

/// How many are near enough, and their numbers with zeros past them.
pub type Near = (u8, [u16; MOST_SHOVELS]);

impl Map {
    /// Whether the lists have one length, of 1 to 64, no shovel twice, and everything on the map.
    fn is_sound(&self) -> bool {
        let count = self.shovels.len();
        let even = self.xs.len() == count && self.ys.len() == count;
        let on_map = |coordinate: &i32| (-LIMIT..=LIMIT).contains(coordinate);
        even && (1..=MOST_SHOVELS).contains(&count)
            && self.has_no_shovel_twice()
            && on_map(&self.x)
            && on_map(&self.y)
            && self.xs.iter().all(on_map)
            && self.ys.iter().all(on_map)
    }

    /// Of at most 64.
    fn has_no_shovel_twice(&self) -> bool {
        let mut sorted = [0; MOST_SHOVELS];
        let sorted = &mut sorted[..self.shovels.len()];
        sorted.copy_from_slice(&self.shovels);
        sorted.sort_unstable();
        sorted.windows(2).all(|pair| pair[0] != pair[1])
    }

    /// The squared distance and the number of each shovel.
    fn keys(&self) -> impl Iterator<Item = (u64, u16)> + '_ {
        let square = |from: i32, to: i32| u64::from(from.abs_diff(to)).pow(2);
        let places = self.xs.iter().zip(&self.ys);
        let far = places.map(move |(&x, &y)| square(self.x, x) + square(self.y, y));
        far.zip(self.shovels.iter().copied())
    }
}

/// None where it is refused.
pub fn within(map: &Map, radius: i32) -> Option<Near> {
    if !map.is_sound() || !(0..=MOST_RADIUS).contains(&radius) {
        return None;
    }
    let edge = u64::from(radius.unsigned_abs()).pow(2);
    let mut near = [(0, 0); MOST_SHOVELS];
    let mut count = 0;
    for key in map.keys().filter(|key| key.0 <= edge) {
        near[count] = key;
        count += 1;
    }
    near[..count].sort_unstable();
    Some((count as u8, near.map(|key| key.1)))
}

/// The rank among equals and the words taken for it, with the state moved; none where it is refused.
fn rank<const M: usize, const E: usize>(
    setup: &Setup<M, E>,
    state: &mut State<M>,
    equals: usize,
) -> Option<(usize, usize)> {
    let words = 1 << setup.width;
    let limit = words - words % equals; // 0 where there are more equals than words
    if equals == 1 || limit == 0 {
        return (equals == 1).then_some((0, 0));
    }
    let mut taken = 0;
    loop {
        *state = step_by_masks(setup, state);
        taken += 1;
        let word = setup.word(state) as usize;
        if word < limit || taken == MOST_TAKEN {
            return Some((word % equals, taken));
        }
    }
}

/// None where it is refused.
pub fn pick<const M: usize, const E: usize>(
    setup: &Setup<M, E>,
    state: &mut State<M>,
    map: &Map,
) -> Option<Choice> {
    if !map.is_sound() {
        return None;
    }
    let mut least = u64::MAX;
    let mut equals = [0; MOST_SHOVELS];
    let mut ties = 0;
    for (far, shovel) in map.keys() {
        if far < least {
            (least, ties) = (far, 0);
        }
        if far == least {
            equals[ties] = shovel;
            ties += 1;
        }
    }
    let (rank, taken) = rank(setup, state, ties)?;
    let (_, shovel, _) = equals[..ties].select_nth_unstable(rank);
    Some(Choice {
        shovel: *shovel,
        ties: ties as u8,
        taken: taken as u8,
    })
}
