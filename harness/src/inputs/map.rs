//! Random inputs for picks by the map and lists within a radius: places on circles, mirrored, at one place, in corners and anywhere, at the
//! ends of the map and off it; lists of different lengths; radii around the distances.

use super::{accepted_values, slow_values, Card, Input};
use super::{encode, numbers, shovel_count, sound_state, tied_times, tsc1, word_count};
use crate::random::Random;

/// The largest coordinate of the map, and the largest radius.
pub const EDGE: i32 = 1_000_000;
pub const MOST_RADIUS: i32 = 3_000_000;

/// What the calls by the map take beside card, state and shovels.
#[derive(Clone, Debug, Default, PartialEq)]
pub struct Map {
    /// the truck's place
    pub x: i32,
    pub y: i32,
    pub radius: i32,
    /// those of the shovels
    pub xs: Vec<i32>,
    pub ys: Vec<i32>,
}

/// Two coordinates.
type Place = (i32, i32);

impl Input {
    /// For the map: one card and state in three as for the pick; the others with an accepted card and a state of its size.
    pub fn of_map(random: &mut Random) -> Input {
        let mut input = Input::random(random);
        if !random.once_in(3) {
            let card = tsc1::values(random).unwrap_or_else(|| drawn_values(random));
            input.card = encode(&card);
            input.state = sound_state(&card, random);
        }
        let width = reference::read(&input.card).map_or(32, |card| card.width);
        let (truck, places) = places(width, random);
        input.shovels = shovels(places.len(), random);
        input.map = Map::random(truck, places, random);
        input
    }
}

impl Map {
    fn random((x, y): Place, places: Vec<Place>, random: &mut Random) -> Map {
        let (xs, ys): (Vec<i32>, Vec<i32>) = places.into_iter().unzip();
        let mut map = Map {
            x,
            y,
            radius: 0,
            xs,
            ys,
        };
        if random.once_in(10) {
            map.move_off(random);
        }
        map.radius = map.any_radius(random);
        map.cut(random);
        map
    }

    /// One coordinate off the map, by a metre or by far, or at its end.
    fn move_off(&mut self, random: &mut Random) {
        let far = [1, 1, random.below(EDGE as usize) as i32][random.below(3)];
        let ends = [i32::MIN, i32::MAX, i32::MIN + 1, EDGE, -EDGE];
        let any = random.word() as i32;
        let off = [EDGE + far, -EDGE - far, ends[random.below(5)], any][random.below(4)];
        let length = self.xs.len();
        let coordinate = match random.below(4) {
            0 => &mut self.x,
            1 => &mut self.y,
            2 if length > 0 => &mut self.xs[random.below(length)],
            _ if length > 0 => &mut self.ys[random.below(length)],
            _ => &mut self.x,
        };
        *coordinate = off;
    }

    /// The radius of one of the shovels, or a metre more or less; at an end; outside; or any.
    fn any_radius(&self, random: &mut Random) -> i32 {
        let any = random.below(MOST_RADIUS as usize + 1) as i32;
        match random.below(16) {
            0 => [
                -1,
                MOST_RADIUS + 1,
                i32::MIN,
                i32::MAX,
                random.word() as i32,
            ][random.below(5)],
            1 => [0, 1, MOST_RADIUS][random.below(3)],
            2 => [2_828_427, 2_828_428, 2_000_000, 65_536][random.below(4)],
            3 => any,
            4 => random.below(50) as i32,
            _ => self.radius_of_one(random),
        }
    }

    /// Within the limits.
    fn radius_of_one(&self, random: &mut Random) -> i32 {
        let Some(one) = self.xs.len().checked_sub(1) else {
            return 0;
        };
        let one = random.below(one + 1);
        let square = |from: i32, to: i32| (f64::from(to) - f64::from(from)).powi(2);
        let far = square(self.x, self.xs[one]) + square(self.y, self.ys[one]);
        (far.sqrt() as i32)
            .saturating_add(random.below(3) as i32 - 1)
            .clamp(0, MOST_RADIUS)
    }

    /// Lists of different lengths: either too long, too short or empty, both, or one each way.
    fn cut(&mut self, random: &mut Random) {
        let Map { xs, ys, .. } = self;
        let more = [0, EDGE + 1, random.word() as i32][random.below(3)];
        match random.below(96) {
            0 => xs.push(more),
            1 => ys.push(more),
            2 => _ = xs.pop(),
            3 => _ = ys.pop(),
            4 => xs.clear(),
            5 => ys.clear(),
            6 => {
                xs.push(more);
                ys.push(more);
            }
            7 => {
                xs.pop();
                ys.pop();
            }
            8 => {
                xs.pop();
                ys.push(more);
            }
            9 => {
                xs.push(more);
                ys.pop();
            }
            10 => {
                xs.clear();
                ys.clear();
            }
            11 => xs.resize(xs.len() + 256, more),
            12 => ys.resize(ys.len() + 256, more),
            _ => {}
        }
    }
}

/// Values that the check accepts, of 32 bits, any width or a narrow one, or those of a slow card.
fn drawn_values(random: &mut Random) -> Card {
    let words = word_count(random);
    match random.below(4) {
        0 => accepted_values(words, 32, random),
        1 => accepted_values(words, random.within(2, 32) as u8, random),
        2 => accepted_values(words, random.within(2, 6) as u8, random),
        _ => slow_values(words, random),
    }
}

/// Different numbers, but one in twelve lists has one twice.
fn shovels(count: usize, random: &mut Random) -> Vec<u16> {
    let mut shovels = numbers(count, random);
    if count > 1 && random.once_in(12) {
        shovels[random.below(count)] = shovels[random.below(count)];
    }
    shovels
}

// ---- Places.

/// A truck's place and places, all on the map: anywhere; of few coordinates; in corners and on edges; across the map; around the truck, with
/// ties.
fn places(width: u8, random: &mut Random) -> (Place, Vec<Place>) {
    match random.below(16) {
        0..=3 => scattered(2 * EDGE as usize + 1, random),
        4 | 5 => scattered([1, 2, 4, 30][random.below(4)], random),
        6 => on_edges(random),
        7 => across(random),
        _ => around(width, random),
    }
}

/// Coordinates of so many values, up to the end of the map or around 0.
fn scattered(values: usize, random: &mut Random) -> (Place, Vec<Place>) {
    let base = [-EDGE, -(values as i32) / 2, EDGE + 1 - values as i32][random.below(3)];
    let place = |random: &mut Random| {
        let mut coordinate = || (base + random.below(values) as i32).clamp(-EDGE, EDGE);
        (coordinate(), coordinate())
    };
    let truck = place(random);
    let count = shovel_count(random);
    (truck, (0..count).map(|_| place(random)).collect())
}

/// Coordinates within two metres of the ends and of 0.
fn on_edges(random: &mut Random) -> (Place, Vec<Place>) {
    let place = |random: &mut Random| {
        let mut coordinate = || {
            let inward = random.below(3) as i32;
            [inward - EDGE, EDGE - inward, inward][random.below(3)]
        };
        (coordinate(), coordinate())
    };
    let truck = place(random);
    let count = shovel_count(random);
    (truck, (0..count).map(|_| place(random)).collect())
}

/// From a corner to within two metres of the one across.
fn across(random: &mut Random) -> (Place, Vec<Place>) {
    let mut end = || [-EDGE, EDGE][random.below(2)];
    let truck = (end(), end());
    let place = |random: &mut Random| {
        let mut inward = |from: i32| from - from.signum() * random.below(3) as i32;
        (inward(-truck.0), inward(-truck.1))
    };
    let count = shovel_count(random);
    (truck, (0..count).map(|_| place(random)).collect())
}

/// What is as far as this from 0, 0: signs changed, coordinates exchanged.
fn mirrored((x, y): Place, random: &mut Random) -> Place {
    let (x, y) = [(x, y), (y, x)][random.below(2)];
    [(x, y), (-x, y), (x, -y), (-x, -y)][random.below(4)]
}

/// The places of one squared distance from 0, 0: five metres; 64 places; or the images of any place.
fn ring(random: &mut Random) -> Vec<Place> {
    const FIVE: [Place; 3] = [(5, 0), (4, 3), (3, 4)];
    const OF_64: [Place; 8] = [
        (20, 165),
        (27, 164),
        (45, 160),
        (60, 155),
        (83, 144),
        (88, 141),
        (101, 132),
        (115, 120),
    ];
    let scale = [1, 1, 7, 6_000][random.below(4)];
    let scaled = |(x, y): &Place| (x * scale, y * scale);
    match random.below(3) {
        0 => FIVE.iter().map(scaled).collect(),
        1 => OF_64.iter().map(scaled).collect(),
        _ => {
            let most = [3, 400, EDGE as usize][random.below(3)];
            vec![(random.below(most) as i32, random.below(most) as i32)]
        }
    }
}

/// Shovels that are nearest on a ring around the truck, as many as a timed pick has; the others up to two metres farther or anywhere.
fn around(width: u8, random: &mut Random) -> (Place, Vec<Place>) {
    let ring = ring(random);
    let times = tied_times(width, random);
    let least = times.iter().min().copied();
    let offset = |time: u32, random: &mut Random| {
        let (x, y) = ring[random.below(ring.len())];
        let farther = usize::from(Some(time) != least) * random.within(1, 2);
        mirrored((x + farther as i32, y), random)
    };
    let offsets: Vec<Place> = times.iter().map(|&time| offset(time, random)).collect();
    let reach = offsets.iter().map(|(x, y)| x.abs().max(y.abs())).max();
    let truck = with_room(reach.unwrap_or(0).min(EDGE), random);
    let on_map = |coordinate: i32| coordinate.clamp(-EDGE, EDGE);
    let places = offsets
        .iter()
        .map(|(x, y)| (on_map(truck.0 + x), on_map(truck.1 + y)));
    (truck, places.collect())
}

/// A place with so many metres of the map around it.
fn with_room(reach: i32, random: &mut Random) -> Place {
    let most = EDGE - reach;
    let mut coordinate = || {
        let any = random.below(2 * most as usize + 1) as i32 - most;
        [0, most, -most, any, any][random.below(5)]
    };
    (coordinate(), coordinate())
}
