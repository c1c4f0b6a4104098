//! Picks by the map: ties of every size on circles, mirrored and at one place, distances as far and
//! as near to each other as can be, and the refusals 1 to 15, 18 and 25.

use super::super::picks::CALLS;
use super::super::ranks::{find, text as card_text};
use super::super::{bytes, short, Maker, FULL, PROGRAM, REFUSED, TSC1, TSC2};
use super::spots::{self, from, mirrored, numbered, reordered, shuffle};
use super::spots::{Place, Spot, CORNERS, EDGE, OF_64};
use super::{long_uneven, off_map, text, texts, LISTS};
use crate::map::call_pick_by_map;
use crate::{accept, Card};

pub fn make(maker: &mut Maker) {
    pairs(maker);
    corners(maker);
    large(maker);
    in_a_row(maker);
    refused_cards(maker);
    refused_lists(maker);
    off_the_map(maker);
    long_lists(maker);
}

/// Each list in two orders from one state.
fn pairs(maker: &mut Maker) {
    anywhere(maker);
    circles(maker);
    mirrored_places(maker);
    one_place(maker);
    near_misses(maker);
    low_bits(maker);
    passed_over(maker);
}

/// The case with these fields.
fn pick(maker: &mut Maker, card: &str, state: &[u32], truck: Place, list: &[Spot]) {
    let (state, truck) = (short(state), text(truck));
    let (shovels, places) = texts(list);
    maker.line(format!("mappick {card} {state} {truck} {shovels} {places}"));
}

/// The list from a state, and the same in another order.
fn two_orders(maker: &mut Maker, card: &str, state: &[u32], truck: Place, list: &[Spot]) {
    pick(maker, card, state, truck, list);
    let other = reordered(maker, list);
    pick(maker, card, state, truck, &other);
}

fn values(card: &str) -> Card {
    accept(&bytes(card)).expect("an accepted card")
}

/// P1, P2, the program's card and the full one, or a random one; each with a random state.
fn call(maker: &mut Maker) -> (String, Vec<u32>) {
    let card = match maker.below(6) {
        0 => TSC1.to_string(),
        1 => TSC2.to_string(),
        2 => PROGRAM.to_string(),
        3 => FULL.to_string(),
        _ => narrow(maker),
    };
    let values = values(&card);
    (card, maker.state(values.words, values.width))
}

/// A random card of 2 or 3 words of up to 6 bits, so that words are passed over.
fn narrow(maker: &mut Maker) -> String {
    let (words, width) = (2 + maker.below(2) as u8, 2 + maker.below(5) as u8);
    card_text(&maker.card(words, width))
}

/// From a random state.
fn from_any_state(maker: &mut Maker, truck: Place, list: &[Spot]) {
    let (card, state) = call(maker);
    two_orders(maker, &card, &state, truck, list);
}

fn anywhere(maker: &mut Maker) {
    maker.section("map picks: places anywhere, these and the next in two orders from one state");
    for _ in 0..45 {
        let truck = spots::anywhere(maker);
        let length = 2 + maker.below(5);
        let places = (0..length).map(|_| spots::anywhere(maker)).collect();
        let list = numbered(maker, places);
        from_any_state(maker, truck, &list);
    }
}

/// Up to 64 equals, each at a place of its own, and up to two shovels a little farther.
fn circles(maker: &mut Maker) {
    maker.section("map picks: 1 to 64 shovels on one circle");
    let circle = spots::circle(OF_64);
    let counts = (1..=12).chain([16, 17, 24, 31, 32, 33, 48, 63, 64]);
    for (number, count) in counts.enumerate() {
        let scale = [1, 1, 3, 40, 5_000][number % 5];
        let truck = spots::truck(maker, 167 * scale + 1);
        let mut offsets = circle.clone();
        shuffle(maker, &mut offsets);
        offsets.truncate(count);
        let farther = maker.below(3).min(64 - count);
        let places = offsets.iter().map(|(x, y)| (x * scale, y * scale));
        let mut places: Vec<Place> = places.map(|offset| from(truck, offset)).collect();
        places.extend((0..farther).map(|_| from(truck, (166 * scale + 1, 13 * scale))));
        let list = numbered(maker, places);
        let card = [TSC1, FULL, "45020203010002"][number % 3];
        let values = values(card);
        let state = maker.state(values.words, values.width);
        two_orders(maker, card, &state, truck, &list);
    }
}

/// Up to seven images of one place; in half of the lists one may lie a metre off.
fn mirrored_places(maker: &mut Maker) {
    maker.section("map picks: mirrored places, some a metre off");
    for number in 0..36 {
        let reach = [9, 300, 70_000, EDGE - 1][number % 4];
        let mut coordinate = || maker.below(reach as usize + 1) as i32;
        let place = (coordinate(), coordinate());
        let truck = spots::truck(maker, reach + 1);
        let length = 2 + maker.below(6);
        let mut offsets: Vec<Place> = (0..length).map(|_| mirrored(maker, place)).collect();
        if number % 8 < 4 {
            offsets[0].0 += maker.below(3) as i32 - 1;
        }
        let places = offsets.into_iter().map(|offset| from(truck, offset));
        let list = numbered(maker, places.collect());
        from_any_state(maker, truck, &list);
    }
}

/// The truck's own place too; one shovel may be a metre from it.
fn one_place(maker: &mut Maker) {
    maker.section("map picks: shovels at one place");
    for number in 0..15 {
        let truck = spots::truck(maker, 1);
        let place = match number % 3 {
            0 => truck,
            _ => spots::anywhere(maker),
        };
        let mut places = vec![place; 2 + maker.below(7)];
        if maker.below(2) == 0 {
            places.push(from(truck, (1, 0)));
        }
        let list = numbered(maker, places);
        from_any_state(maker, truck, &list);
    }
}

/// From a corner, places around the other corners: their distances differ by little.
fn near_misses(maker: &mut Maker) {
    maker.section("map picks: as far as can be, and almost as far");
    for number in 0..16 {
        let truck = CORNERS[number % 4];
        let far = (-truck.0, -truck.1);
        let length = 2 + maker.below(4);
        let mut inward = |from: i32| from - from.signum() * maker.below(3) as i32;
        let places = (0..length).map(|_| (inward(far.0), inward(far.1)));
        let places = places.collect();
        let list = numbered(maker, places);
        from_any_state(maker, truck, &list);
    }
}

/// Squares with zeros in their lowest 32 bits are 0 where only those are kept.
fn low_bits(maker: &mut Maker) {
    maker.section("map picks: squared distances alike in their lowest 32 bits");
    for number in 0..12 {
        let step = 1 << 16;
        let near = 1 + maker.below(9) as i32;
        let truck = spots::truck(maker, 7 * step);
        let times = 1 + maker.below(7) as i32;
        let offsets = match number % 3 {
            0 => vec![(0, near), (times * step, 0)],
            1 => vec![(near, step), (near, 2 * step), (near, 0)],
            _ => vec![(step - 1, 362), (step, 0), (step, 1), (step - 1, 363)],
        };
        let places = offsets.into_iter().map(|offset| from(truck, offset));
        let list = numbered(maker, places.collect());
        from_any_state(maker, truck, &list);
    }
}

/// Equals mirrored and at one place, and one shovel farther.
fn passed_over(maker: &mut Maker) {
    maker.section("map picks: 1 to 16 words passed over");
    for passed in (1..=16).chain([16]) {
        let (filter, sum_term) = (1 + passed as u8 % 2, passed as u8 / 2 % 2);
        let (card, state, k) = find(maker, filter, sum_term, passed);
        let truck = spots::truck(maker, 9);
        let mut offsets: Vec<Place> = (0..k).map(|_| mirrored(maker, (3, 4))).collect();
        offsets.push((-5, 1));
        let places = offsets.into_iter().map(|offset| from(truck, offset));
        let list = numbered(maker, places.collect());
        two_orders(maker, &card_text(&card), &state, truck, &list);
    }
}

/// From the corners, the middle of each edge and the middle of the map, to all corners and to three.
fn corners(maker: &mut Maker) {
    maker.section("map picks: from and to the corners of the map");
    for x in [-EDGE, 0, EDGE] {
        for y in [-EDGE, 0, EDGE] {
            for count in [3, 4] {
                let mut places = CORNERS.to_vec();
                places.rotate_left(maker.below(4));
                places.truncate(count);
                let list = numbered(maker, places);
                let (card, state) = call(maker);
                pick(maker, &card, &state, (x, y), &list);
            }
        }
    }
}

fn large(maker: &mut Maker) {
    maker.section("map picks: cards of 5 to 8 words");
    for (words, width) in [(5, 32), (6, 2), (7, 17), (8, 32)] {
        let card = card_text(&maker.card(words, width));
        let state = maker.state(words, width);
        for offset in [(5, 0), (-5, 1)] {
            let offsets = [(-3, 4), (4, -3), offset];
            let list = numbered(maker, offsets.to_vec());
            pick(maker, &card, &state, (0, 0), &list);
        }
    }
}

/// The state is as the pick before left it.
fn in_a_row(maker: &mut Maker) {
    maker.section("map picks: random cards, four picks in a row");
    let circle = spots::circle(25);
    for _ in 0..16 {
        let card = narrow(maker);
        let values = values(&card);
        let mut state = maker.state(values.words, values.width);
        for _ in 0..4 {
            let truck = spots::truck(maker, 5);
            let length = 1 + maker.below(6);
            let offset = |_| circle[maker.below(circle.len())];
            let offsets: Vec<Place> = (0..length).map(offset).collect();
            let places = offsets.into_iter().map(|offset| from(truck, offset));
            let list = numbered(maker, places.collect());
            pick(maker, &card, &state, truck, &list);
            going_on(&card, &mut state, truck, &list);
        }
    }
}

/// Leaves the state as the call does.
fn going_on(card: &str, state: &mut [u32], (x, y): Place, list: &[Spot]) {
    let shovels: Vec<u16> = list.iter().map(|spot| spot.0).collect();
    let (xs, ys): (Vec<i32>, Vec<i32>) = list.iter().map(|spot| spot.1).unzip();
    let answer = call_pick_by_map(&bytes(card), state, x, y, &shovels, &xs, &ys);
    assert!(answer.is_ok() || answer == Err(18), "good but for 18");
}

/// The first of the lists is good; then uneven, none, the truck and a shovel off the map.
fn refused_cards(maker: &mut Maker) {
    maker.section("map picks: each refusal of a card, with states and lists good and bad");
    for card in REFUSED {
        for (state, number) in [("1,2,3,4", 0), ("1,2,3,4", 9), ("4,4", 3), ("4,4", 5)] {
            let (truck, shovels, places) = LISTS[number];
            maker.line(format!("mappick {card} {state} {truck} {shovels} {places}"));
        }
    }
}

fn refused_lists(maker: &mut Maker) {
    maker.section("map picks: each refusal of a state and of lists, and lists that are just good");
    for (card, state) in CALLS {
        for (truck, shovels, places) in LISTS {
            maker.line(format!("mappick {card} {state} {truck} {shovels} {places}"));
        }
    }
}

fn off_the_map(maker: &mut Maker) {
    maker.section("map picks: coordinates at the ends of the map and off it");
    for (truck, list) in off_map(maker) {
        pick(maker, PROGRAM, &[2, 3], truck, &list);
    }
}

/// Shovels from 0 up at places in a row: how many, the last shovel, and the last place.
fn long_lists(maker: &mut Maker) {
    maker.section("map picks: 64 to 66 shovels, one twice or off the map, and uneven");
    let off = (EDGE + 1, 0);
    for (count, last, place) in [
        (64, 63, (1, 0)),
        (64, 63, (63, 0)),
        (64, 0, (63, 0)),
        (64, 63, off),
        (64, 0, off),
        (65, 64, (64, 0)),
        (65, 0, off),
        (66, 65, off),
    ] {
        let mut list: Vec<Spot> = (0..count).map(|k| (k, (k.into(), 0))).collect();
        *list.last_mut().expect("a shovel") = (last, place);
        pick(maker, PROGRAM, &[2, 3], (-3, 0), &list);
    }
    for (shovels, places) in long_uneven() {
        maker.line(format!("mappick {PROGRAM} 2,3 0:0 {shovels} {places}"));
    }
}

#[cfg(test)]
mod tests {
    use super::super::tests::{answered, Case};
    use super::*;
    use crate::replay::{answer, commas};
    use std::collections::HashSet;

    /// How many different distances are smaller.
    fn ranks(case: &Case) -> Vec<usize> {
        let far = case.far();
        let rank = |one: &i128| {
            let smaller: HashSet<&i128> = far.iter().filter(|other| *other < one).collect();
            smaller.len()
        };
        far.iter().map(rank).collect()
    }

    /// The answer of the case `pick` with these times.
    fn timed(case: &Case, times: Vec<usize>) -> String {
        let [_, card, state, _, shovels, _] = &case.fields[..] else {
            panic!("{case:?}");
        };
        let times = commas(times);
        answer(format!("pick {card} {state} {shovels} {times}").as_bytes()).unwrap()
    }

    /// What a timed pick tells with ranks of distances for times; off the map 25, but for 1 to 15.
    fn expected(case: &Case) -> String {
        if !case.is_off_map() {
            return timed(case, ranks(case));
        }
        let told = timed(case, vec![0; case.places.len()]);
        match told.strip_prefix("refused ") {
            Some(refusal) if refusal != "18" => told,
            _ => "refused 25".to_string(),
        }
    }

    #[test]
    fn as_timed_picks() {
        let mut ties = HashSet::new();
        let mut taken = HashSet::new();
        for (case, told) in answered(make) {
            assert_eq!(told, expected(&case), "{case:?}");
            let told: Vec<&str> = told.split(' ').collect();
            if let ["shovel", _, _, k, _, words, ..] = told[..] {
                ties.insert(k.to_string());
                taken.insert(words.to_string());
            }
        }
        assert!(ties.len() >= 21 && taken.len() == 17, "{ties:?} {taken:?}");
    }

    #[test]
    fn order_makes_no_difference() {
        for pair in answered(pairs).chunks(2) {
            assert_eq!(pair[0].1, pair[1].1, "{:?}", pair[0].0);
        }
    }
}
