//! Places of trucks and shovels: anywhere, on circles, mirrored, and in the corners of the map.

use super::super::picks::random_shovels;
use super::super::Maker;

/// Two coordinates in metres.
pub type Place = (i32, i32);
/// A shovel and its place.
pub type Spot = (u16, Place);

/// The largest coordinate of the map.
pub const EDGE: i32 = 1_000_000;
/// The corners of the map.
pub const CORNERS: [Place; 4] = [(EDGE, EDGE), (EDGE, -EDGE), (-EDGE, EDGE), (-EDGE, -EDGE)];
/// A squared distance that 64 places have.
pub const OF_64: i64 = 27_625;

/// The places at this squared distance from 0:0, which is found by trying.
pub fn circle(square: i64) -> Vec<Place> {
    let most = (square as f64).sqrt() as i64 + 1;
    let mut places = Vec::new();
    for x in -most..=most {
        let rest = square - x * x;
        let y = (rest.max(0) as f64).sqrt().round() as i64;
        if y * y != rest {
            continue;
        }
        places.push((x as i32, y as i32));
        if y != 0 {
            places.push((x as i32, -y as i32));
        }
    }
    places
}

/// A place as far from 0:0 as this one: signs changed, coordinates exchanged, or as it is.
pub fn mirrored(maker: &mut Maker, (x, y): Place) -> Place {
    let (x, y) = if maker.below(2) == 0 { (x, y) } else { (y, x) };
    let mut sign = || 1 - 2 * maker.below(2) as i32;
    (x * sign(), y * sign())
}

/// The place that lies so from the truck.
pub fn from(truck: Place, (x, y): Place) -> Place {
    (truck.0 + x, truck.1 + y)
}

/// A truck around which so many metres each way are on the map: in the middle, near an edge or
/// anywhere.
pub fn truck(maker: &mut Maker, reach: i32) -> Place {
    let most = EDGE - reach;
    let mut coordinate = || match maker.below(8) {
        0 => 0,
        1 => most,
        2 => -most,
        3 | 4 => (maker.below(41) as i32 - 20).clamp(-most, most),
        _ => maker.below(2 * most as usize + 1) as i32 - most,
    };
    (coordinate(), coordinate())
}

/// A place anywhere on the map.
pub fn anywhere(maker: &mut Maker) -> Place {
    truck(maker, 0)
}

/// The list in any order.
pub fn shuffle<T>(maker: &mut Maker, list: &mut [T]) {
    for place in (1..list.len()).rev() {
        list.swap(place, maker.below(place + 1));
    }
}

/// Shovels at these places, in any order.
pub fn numbered(maker: &mut Maker, mut places: Vec<Place>) -> Vec<Spot> {
    shuffle(maker, &mut places);
    let (base, stride) = random_shovels(maker);
    let number = |k: usize| base.wrapping_add(stride.wrapping_mul(k as u16));
    let mut list: Vec<Spot> = (0..).map(number).zip(places).collect();
    shuffle(maker, &mut list);
    list
}

/// The same list in another order, reversed or from the middle.
pub fn reordered(maker: &mut Maker, list: &[Spot]) -> Vec<Spot> {
    let mut list = list.to_vec();
    if maker.below(2) == 0 {
        list.reverse();
    } else {
        let half = list.len() / 2;
        list.rotate_left(half);
    }
    list
}
