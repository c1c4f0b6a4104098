//! By the map when times are missing (document 02, Ten): the pick of the nearest shovel, and the
//! shovels within a radius. A place is two coordinates in whole metres.

use crate::accept_call;
use crate::pick::{check_lists, draw_nearest, Picked};
use std::ops::RangeInclusive;

/// The coordinates of the map.
const MAP: RangeInclusive<i32> = -1_000_000..=1_000_000;
/// The radii that a list may have.
const RADII: RangeInclusive<i32> = 0..=3_000_000;
/// The most shovels of a list.
pub const MOST_SHOVELS: usize = 64;

/// The shovels within a radius, by distance and then number; 0 past the count.
#[derive(Clone, Copy, PartialEq, Debug)]
pub struct Within {
    pub count: usize,
    pub shovels: [u16; MOST_SHOVELS],
}

/// Refusal 25 for the truck's place and the shovels' coordinates.
fn check_places(x: i32, y: i32, xs: &[i32], ys: &[i32]) -> Result<(), u8> {
    let mut coordinates = [x, y].into_iter().chain(xs.iter().chain(ys).copied());
    if coordinates.any(|coordinate| !MAP.contains(&coordinate)) {
        return Err(25);
    }
    Ok(())
}

/// A number times itself.
fn square(number: i64) -> i64 {
    number * number
}

/// The squared distance of two places on the map, at most 8 * 10^12.
fn squared_distance(x: i32, y: i32, other_x: i32, other_y: i32) -> i64 {
    let east = i64::from(other_x) - i64::from(x);
    let north = i64::from(other_y) - i64::from(y);
    square(east) + square(north)
}

/// Those of the shovels from the truck.
fn squared_distances(x: i32, y: i32, xs: &[i32], ys: &[i32]) -> Vec<i64> {
    let places = xs.iter().zip(ys);
    places
        .map(|(&other_x, &other_y)| squared_distance(x, y, other_x, other_y))
        .collect()
}

/// The nearest shovel, the number of equals and the number of words taken, or a refusal number with
/// the state unchanged: 1 to 15, then 25, then 18. Equals are drawn as in a timed pick.
pub fn call_pick_by_map(
    card: &[u8],
    state: &mut [u32],
    x: i32,
    y: i32,
    shovels: &[u16],
    xs: &[i32],
    ys: &[i32],
) -> Result<Picked, u8> {
    let width = accept_call(card, state)?.width;
    check_lists(shovels, &[xs.len(), ys.len()])?;
    check_places(x, y, xs, ys)?;
    let far = squared_distances(x, y, xs, ys);
    draw_nearest(card, state, width, shovels, &far)
}

/// The shovels whose distance from the truck is at most the radius, or a refusal number: 12 to 15,
/// then 25.
pub fn call_within(
    x: i32,
    y: i32,
    radius: i32,
    shovels: &[u16],
    xs: &[i32],
    ys: &[i32],
) -> Result<Within, u8> {
    check_lists(shovels, &[xs.len(), ys.len()])?;
    check_places(x, y, xs, ys)?;
    if !RADII.contains(&radius) {
        return Err(25);
    }
    let far = squared_distances(x, y, xs, ys).into_iter();
    let mut near: Vec<(i64, u16)> = far.zip(shovels.iter().copied()).collect();
    near.retain(|entry| entry.0 <= square(radius.into()));
    near.sort();
    let mut listed = [0; MOST_SHOVELS];
    for (place, (_, shovel)) in listed.iter_mut().zip(&near) {
        *place = *shovel;
    }
    Ok(Within {
        count: near.len(),
        shovels: listed,
    })
}

#[cfg(test)]
mod tests {
    use super::*;
    use crate::cases::random_card;
    use crate::pick::call_pick;
    use crate::{encode, mask, next};

    const PROGRAM: [u8; 11] = [0x27, 2, 2, 1, 2, 3, 0, 1, 0, 0, 0]; // document 01, The program
    const EDGE: i32 = 1_000_000;
    /// The places five metres from 0, 0.
    const CIRCLE: [(i32, i32); 12] = [
        (5, 0),
        (4, 3),
        (3, 4),
        (0, 5),
        (-3, 4),
        (-4, 3),
        (-5, 0),
        (-4, -3),
        (-3, -4),
        (0, -5),
        (3, -4),
        (4, -3),
    ];

    /// The answer of a pick and the state after it.
    type Answer = (Result<Picked, u8>, Vec<u32>);

    fn pick(
        card: &[u8],
        state: &[u32],
        (x, y): (i32, i32),
        shovels: &[u16],
        places: &[(i32, i32)],
    ) -> Answer {
        let (xs, ys): (Vec<i32>, Vec<i32>) = places.iter().copied().unzip();
        let mut lent = state.to_vec();
        let answer = call_pick_by_map(card, &mut lent, x, y, shovels, &xs, &ys);
        (answer, lent)
    }

    fn timed(card: &[u8], state: &[u32], shovels: &[u16], times: &[u32]) -> Answer {
        let mut lent = state.to_vec();
        let answer = call_pick(card, &mut lent, shovels, times);
        (answer, lent)
    }

    fn picked(shovel: u16, ties: usize, taken: usize, state: &[u32]) -> Answer {
        let answer = Picked {
            shovel,
            ties,
            taken,
        };
        (Ok(answer), state.to_vec())
    }

    /// The numbers that are listed; past them are zeros.
    fn listed(
        (x, y): (i32, i32),
        radius: i32,
        shovels: &[u16],
        places: &[(i32, i32)],
    ) -> Result<Vec<u16>, u8> {
        let (xs, ys): (Vec<i32>, Vec<i32>) = places.iter().copied().unzip();
        let within = call_within(x, y, radius, shovels, &xs, &ys)?;
        let (numbers, rest) = within.shovels.split_at(within.count);
        assert!(rest.iter().all(|&number| number == 0));
        Ok(numbers.to_vec())
    }

    #[test]
    fn distances() {
        for (one, other, squared) in [
            ((0, 0), (0, 0), 0),
            ((0, 0), (3, 4), 25),
            ((-3, -4), (0, 0), 25),
            ((-3, 4), (3, -4), 100),
            ((7, -9), (7, -9), 0),
            ((0, 0), (65_536, 0), 1 << 32),
            ((0, 0), (EDGE, EDGE), 2_000_000_000_000),
            ((-EDGE, EDGE), (EDGE, EDGE), 4_000_000_000_000),
            ((-EDGE, -EDGE), (EDGE, EDGE), 8_000_000_000_000),
            ((-EDGE, EDGE), (EDGE, -EDGE), 8_000_000_000_000),
        ] {
            assert_eq!(squared_distance(one.0, one.1, other.0, other.1), squared);
            assert_eq!(squared_distance(other.0, other.1, one.0, one.1), squared);
        }
    }

    /// Neither the sum of the coordinates nor the larger one decides, nor do 32 bits: 65535:362 is
    /// 2^32 - 27 from 0:0, 65536:0 is 2^32. The state is not moved.
    #[test]
    fn nearest_alone() {
        for (truck, near, far) in [
            ((0, 0), (3, 4), (5, 1)),
            ((0, 0), (5, 0), (4, 4)),
            ((0, 0), (0, 1), (65_536, 0)),
            ((0, 0), (65_535, 362), (65_536, 0)),
            ((-10, -20), (-7, -16), (-16, -20)),
            ((-EDGE, -EDGE), (EDGE, 999_999), (EDGE, EDGE)),
            ((EDGE, -EDGE), (-999_999, EDGE), (-EDGE, EDGE)),
        ] {
            let alone = picked(7, 1, 0, &[2, 3]);
            let answer = pick(&PROGRAM, &[2, 3], truck, &[4, 7], &[far, near]);
            assert_eq!(answer, alone, "{near:?}");
            let answer = pick(&PROGRAM, &[2, 3], truck, &[7, 4], &[near, far]);
            assert_eq!(answer, alone, "{near:?}");
        }
    }

    /// From 0, 0 the word is 0 and the lowest number goes; from 2, 3 the words are 3 and 2, and for
    /// three equals 3 is passed over. The places may stand anywhere on the circle.
    #[test]
    fn ties_on_a_circle() {
        for (turn, k, answer) in [
            (0, 2, picked(8, 2, 1, &[1, 1])),
            (3, 3, picked(9, 3, 2, &[2, 0])),
            (7, 4, picked(10, 4, 1, &[1, 1])),
        ] {
            let mut places = CIRCLE;
            places.rotate_left(turn);
            let shovels = [7, 8, 9, 10];
            let (shovels, places) = (&shovels[..k], &places[..k]);
            let told = |state: &[u32]| pick(&PROGRAM, state, (0, 0), shovels, places);
            assert_eq!(told(&[2, 3]), answer);
            assert_eq!(told(&[0, 0]), picked(7, k, 1, &[1, 2]));
        }
    }

    /// All of the circle, moved with the truck to each edge, is as many equal times.
    #[test]
    fn whole_circle() {
        let shovels: Vec<u16> = (100..112).collect();
        let far = [(6, 0), (4, 4), (-5, 1)];
        for (x, y) in [(0, 0), (-17, 40), (EDGE - 6, 5 - EDGE), (-EDGE + 6, 0)] {
            let places: Vec<(i32, i32)> = CIRCLE.iter().map(|(a, b)| (a + x, b + y)).collect();
            let equal = timed(&[0], &[1, 2, 3, 4], &shovels, &[60; 12]);
            assert_eq!(pick(&[0], &[1, 2, 3, 4], (x, y), &shovels, &places), equal);

            let far = far.map(|(a, b)| (a + x, b + y));
            let places = [&far[..], &places].concat();
            let shovels = [&[0, 1, 2], &shovels[..]].concat();
            assert_eq!(pick(&[0], &[1, 2, 3, 4], (x, y), &shovels, &places), equal);
        }
    }

    /// Five are too many for words of 2 bits, at one place as on the circle; farther ones don't count.
    #[test]
    fn too_many_equals() {
        let shovels = [1, 2, 3, 4, 5];
        let refused = (Err(18), vec![2, 3]);
        let told = |places: &[(i32, i32)]| pick(&PROGRAM, &[2, 3], (0, 0), &shovels, places);
        assert_eq!(told(&[(0, 0); 5]), refused);
        assert_eq!(told(&[(EDGE, EDGE); 5]), refused);
        assert_eq!(told(&CIRCLE[2..7]), refused);
        let mut places = [(-3, 4); 5];
        places[1] = (-3, 5);
        assert_eq!(told(&places), picked(5, 4, 1, &[1, 1]));
    }

    /// From a corner the two next ones are at the same distance, and from the middle all four.
    #[test]
    fn corners() {
        let corners = [(EDGE, EDGE), (EDGE, -EDGE), (-EDGE, EDGE), (-EDGE, -EDGE)];
        let shovels = [9, 8, 7, 6];
        let told = |truck, places: &[(i32, i32)]| {
            pick(&PROGRAM, &[2, 3], truck, &shovels[..places.len()], places)
        };
        assert_eq!(told((0, 0), &corners), picked(9, 4, 1, &[1, 1]));
        assert_eq!(told((EDGE, EDGE), &corners), picked(9, 1, 0, &[2, 3]));
        let others = &corners[..3];
        assert_eq!(told((-EDGE, -EDGE), others), picked(8, 2, 1, &[1, 1]));

        let all = |truck, radius| listed(truck, radius, &shovels, &corners);
        assert_eq!(all((-EDGE, -EDGE), 1_999_999), Ok(vec![6]));
        assert_eq!(all((-EDGE, -EDGE), 2_000_000), Ok(vec![6, 7, 8]));
        assert_eq!(all((-EDGE, -EDGE), 2_828_427), Ok(vec![6, 7, 8]));
        assert_eq!(all((-EDGE, -EDGE), 2_828_428), Ok(vec![6, 7, 8, 9]));
        assert_eq!(all((-EDGE, -EDGE), 3_000_000), Ok(vec![6, 7, 8, 9]));
        assert_eq!(all((0, 0), 1_414_213), Ok(vec![]));
        assert_eq!(all((0, 0), 1_414_214), Ok(vec![6, 7, 8, 9]));
    }

    /// The edge counts. 65536 squared is 2^32, of which 32 bits are 0.
    #[test]
    fn edges() {
        let places = [(5, 1), (-3, -4), (4, 2), (0, 0), (65_536, 0), (0, 65_537)];
        let shovels = [60, 50, 40, 30, 20, 10];
        for (radius, numbers) in [
            (0, &[30][..]),
            (1, &[30]),
            (4, &[30]),
            (5, &[30, 40, 50]),
            (6, &[30, 40, 50, 60]),
            (65_535, &[30, 40, 50, 60]),
            (65_536, &[30, 40, 50, 60, 20]),
            (65_537, &[30, 40, 50, 60, 20, 10]),
        ] {
            let told = listed((0, 0), radius, &shovels, &places);
            assert_eq!(told, Ok(numbers.to_vec()), "{radius}");
        }
    }

    #[test]
    fn radius_0() {
        let places = [(-9, 8), (-9, 9), (-9, 8), (-8, 8), (-9, 8)];
        let shovels = [65_535, 1, 0, 2, 3];
        let told = |truck| listed(truck, 0, &shovels, &places);
        assert_eq!(told((-9, 8)), Ok(vec![0, 3, 65_535]));
        assert_eq!(told((-9, 9)), Ok(vec![1]));
        assert_eq!(told((9, -8)), Ok(vec![]));
    }

    /// By distance, whatever the number, and by number on one circle.
    #[test]
    fn by_distance_and_then_number() {
        let shovels: Vec<u16> = (0..12).map(|k| 11 - k).collect();
        let told = listed((0, 0), 5, &shovels, &CIRCLE);
        assert_eq!(told, Ok((0..12).collect()));
        assert_eq!(listed((0, 0), 4, &shovels, &CIRCLE), Ok(vec![]));
        let places = [(0, 3), (3, 0), (-1, 0), (2, 2), (0, -1), (0, 0)];
        let told = listed((0, 0), 3, &[1, 0, 9, 3, 8, 7], &places);
        assert_eq!(told, Ok(vec![7, 8, 9, 3, 0, 1]));
    }

    /// Everything is within 3,000,000 metres, and 64 leave no zero behind them.
    #[test]
    fn sixty_four() {
        let shovels: Vec<u16> = (1..=64).rev().collect();
        let along: Vec<(i32, i32)> = (0..64).map(|k| (EDGE, EDGE - k)).collect();
        let told = listed((-EDGE, -EDGE), 3_000_000, &shovels, &along);
        assert_eq!(told, Ok((1..=64).collect()));
        let told = listed((EDGE, EDGE), 31, &shovels, &along);
        assert_eq!(told, Ok((33..=64).rev().collect()));
        let told = listed((5, 5), 0, &shovels, &[(5, 5); 64]);
        assert_eq!(told, Ok((1..=64).collect()));

        let equal = timed(&[0], &[1, 2, 3, 4], &shovels, &[0; 64]);
        let told = pick(&[0], &[1, 2, 3, 4], (5, 5), &shovels, &[(-7, 8); 64]);
        assert_eq!(told, equal);
        let told = pick(&PROGRAM, &[2, 3], (EDGE, EDGE), &shovels, &along);
        assert_eq!(told, picked(64, 1, 0, &[2, 3]));
    }

    /// Shovels, the lists of coordinates, and the refusal, 0 for none.
    type Row<'a> = (&'a [u16], &'a [i32], &'a [i32], u8);

    /// 12 to 15 come before 25, which places off the map would get everywhere.
    #[test]
    fn refusals_of_lists() {
        let many: Vec<u16> = (0..64).chain([0]).collect(); // first and last are the same
        let off = [EDGE + 1; 66];
        let rows: [Row; 13] = [
            (&[7], &[], &[], 12),
            (&[7], &off[..1], &[], 12),
            (&[7], &[], &off[..1], 12),
            (&[], &off[..1], &[], 12),
            (&[], &[], &off[..1], 12),
            (&[], &off[..1], &off[..1], 12),
            (&[7, 7], &off[..2], &off[..1], 12),
            (&[7, 7], &off[..1], &off[..2], 12),
            (&many, &off[..65], &off[..66], 12),
            (&[], &[], &[], 13),
            (&many, &off[..65], &off[..65], 14),
            (&[7, 4, 7], &off[..3], &off[..3], 15),
            (&many[..64], &off[..64], &off[..64], 25),
        ];
        for (shovels, xs, ys, refusal) in rows {
            let mut state = [2, 3];
            let told = call_pick_by_map(&PROGRAM, &mut state, 0, 0, shovels, xs, ys);
            assert_eq!(told, Err(refusal));
            assert_eq!(state, [2, 3]);
            let told = call_within(0, 0, -1, shovels, xs, ys);
            assert_eq!(told, Err(refusal));

            for (card, state, refusal) in [
                (&[][..], vec![], 1),
                (&[0x08, 0x02], vec![4], 9),
                (&PROGRAM, vec![4], 10),
                (&PROGRAM, vec![0, 4], 11),
            ] {
                let mut lent = state.clone();
                let told = call_pick_by_map(card, &mut lent, off[0], 0, shovels, xs, ys);
                assert_eq!(told, Err(refusal));
                assert_eq!(lent, state);
            }
        }
    }

    /// Five shovels: the truck's place, their xs and their ys. What the pick with words of 2 bits and
    /// a list of the whole map tell.
    fn on_five(coordinates: [i32; 12]) -> (Result<Picked, u8>, Result<usize, u8>) {
        let [x, y, lists @ ..] = coordinates;
        let (xs, ys) = lists.split_at(5);
        let mut state = [2, 3];
        let pick = call_pick_by_map(&PROGRAM, &mut state, x, y, &[1, 2, 3, 4, 5], xs, ys);
        assert_eq!(state, [2, 3]);
        let within = call_within(x, y, 3_000_000, &[1, 2, 3, 4, 5], xs, ys);
        (pick, within.map(|within| within.count))
    }

    /// Each coordinate a metre off the map and as far off as 32 bits go, before the 18 of equals; the
    /// last metres of the map are on it.
    #[test]
    fn off_map() {
        for off in [-EDGE - 1, EDGE + 1, i32::MIN, i32::MIN + 1, i32::MAX] {
            for place in 0..12 {
                let mut coordinates = [0; 12];
                coordinates[place] = off;
                assert_eq!(on_five(coordinates), (Err(25), Err(25)));
            }
            assert_eq!(on_five([off; 12]), (Err(25), Err(25)));
        }
        for edge in [-EDGE, 1 - EDGE, 0, EDGE - 1, EDGE] {
            assert_eq!(on_five([edge; 12]), (Err(18), Ok(5)));
        }
    }

    #[test]
    fn radii() {
        for (radius, refused) in [
            (-1, true),
            (0, false),
            (3_000_000, false),
            (3_000_001, true),
            (i32::MIN, true),
            (i32::MIN + 1, true),
            (i32::MAX, true),
        ] {
            let told = listed((0, 0), radius, &[7], &[(0, 0)]);
            assert_eq!(told, if refused { Err(25) } else { Ok(vec![7]) });
        }
    }

    /// A coordinate: of few values, near an edge of the map, or any.
    fn coordinate(x: &mut u32, kind: u32) -> i32 {
        match kind {
            0 => (next(x) % 3) as i32 - 1,
            1 => (next(x) % 21) as i32 - 10,
            2 => EDGE - (next(x) % 3) as i32,
            3 => (next(x) % 3) as i32 - EDGE,
            _ => (next(x) % 2_000_001) as i32 - EDGE,
        }
    }

    /// A truck's place, and up to twelve shovels with theirs.
    type Spots = ((i32, i32), Vec<(u16, (i32, i32))>);

    fn random_spots(x: &mut u32) -> Spots {
        let kind = next(x) % 5;
        let place = |x: &mut u32| (coordinate(x, kind), coordinate(x, kind));
        let truck = place(x);
        let shovels = 0..1 + next(x) as u16 % 12;
        let spots = shovels.map(|k| (65_530u16.wrapping_add(k), place(x)));
        (truck, spots.collect())
    }

    /// The squared distance of each, worked out apart from the calls.
    fn far((truck, spots): &Spots) -> Vec<i128> {
        let square = |from: i32, to: i32| i128::from(to - from).pow(2);
        let places = spots.iter().map(|spot| spot.1);
        places
            .map(|(a, b)| square(truck.0, a) + square(truck.1, b))
            .collect()
    }

    fn reversed((truck, spots): &Spots) -> Spots {
        (*truck, spots.iter().rev().copied().collect())
    }

    /// The times that stand for distances: how many different ones are smaller.
    fn ranks(far: &[i128]) -> Vec<u32> {
        let mut different = far.to_vec();
        different.sort();
        different.dedup();
        let rank = |far| different.iter().position(|other| other == far);
        far.iter().map(|far| rank(far).unwrap() as u32).collect()
    }

    /// A pick is the timed one with ranks for times, in both orders.
    #[test]
    fn random_picks() {
        let mut x = 12;
        let mut ties = 0;
        for _ in 0..10_000 {
            let (words, width) = (2 + next(&mut x) as u8 % 7, 2 + next(&mut x) as u8 % 31);
            let card = encode(&random_card(words, width, &mut x));
            let state: Vec<u32> = (0..words).map(|_| next(&mut x) & mask(width)).collect();
            let spots = random_spots(&mut x);
            let shovels: Vec<u16> = spots.1.iter().map(|spot| spot.0).collect();
            let expected = timed(&card, &state, &shovels, &ranks(&far(&spots)));
            for (truck, spots) in [reversed(&spots), spots] {
                let (shovels, places): (Vec<u16>, Vec<(i32, i32)>) = spots.into_iter().unzip();
                assert_eq!(pick(&card, &state, truck, &shovels, &places), expected);
            }
            ties += usize::from(expected.0.is_ok_and(|picked| picked.ties > 1));
        }
        assert!(ties >= 2_000, "{ties}");
    }

    /// The shovels within a radius, each at the place that says how many are nearer, or as near with
    /// a lower number.
    fn by_counting(spots: &Spots, radius: i32) -> Vec<u16> {
        let numbers = spots.1.iter().map(|spot| spot.0);
        let keys: Vec<(i128, u16)> = far(spots).into_iter().zip(numbers).collect();
        let near = |key: &&(i128, u16)| key.0 <= i128::from(radius).pow(2);
        let mut listed = vec![0; keys.iter().filter(near).count()];
        for key in keys.iter().filter(near) {
            listed[keys.iter().filter(|other| *other < key).count()] = key.1;
        }
        listed
    }

    /// With a radius near the distance of one of the shovels, in both orders.
    #[test]
    fn random_radii() {
        let mut x = 13;
        let mut parts = 0;
        for _ in 0..10_000 {
            let spots = random_spots(&mut x);
            let some = far(&spots)[next(&mut x) as usize % spots.1.len()];
            let radius = (some as f64).sqrt() as i32 + (next(&mut x) % 2) as i32;
            let expected = by_counting(&spots, radius);
            parts += usize::from(!expected.is_empty() && expected.len() < spots.1.len());
            for (truck, spots) in [reversed(&spots), spots] {
                let (shovels, places): (Vec<u16>, Vec<(i32, i32)>) = spots.into_iter().unzip();
                let told = listed(truck, radius, &shovels, &places);
                assert_eq!(told.as_ref(), Ok(&expected));
            }
        }
        assert!(parts >= 3_000, "{parts}");
    }
}
