//! By the map when times are missing, through the wrapper: document 02, Ten.
use tiedraw::{pick_by_map, within, Card, Choice, Generator, Place, PlacedShovel, Refusal, Shovel};
use tiedraw::{MOST_COORDINATE, MOST_RADIUS, MOST_SHOVELS};

const PROGRAM: &[u8] = &[0x27, 2, 2, 1, 2, 3, 0, 1, 0, 0, 0];
const FAR: i32 = MOST_COORDINATE;
/// the twelve places that are 5 m from 0, 0
const CIRCLE: [(i32, i32); 12] = [
    (3, 4),
    (4, 3),
    (5, 0),
    (4, -3),
    (3, -4),
    (0, -5),
    (-3, -4),
    (-4, -3),
    (-5, 0),
    (-4, 3),
    (-3, 4),
    (0, 5),
];

fn server(card: &[u8], state: &[u32]) -> Generator {
    Generator::new(Card::new(card).unwrap(), state).unwrap()
}

fn place((x, y): (i32, i32)) -> Place {
    Place { x, y }
}

fn shovel(number: u16, place: Place) -> PlacedShovel {
    PlacedShovel { number, place }
}

/// Shovels from `first` on, seven apart and the highest number first, at these places around (x, y).
fn around((x, y): (i32, i32), first: u16, places: &[(i32, i32)]) -> Vec<PlacedShovel> {
    let numbers = (0..places.len() as u16).rev().map(|k| first + 7 * k);
    let placed = |(number, &(dx, dy))| shovel(number, place((x + dx, y + dy)));
    numbers.zip(places).map(placed).collect()
}

/// The library's own lists.
fn apart(list: &[PlacedShovel]) -> (Vec<u16>, Vec<i32>, Vec<i32>) {
    (
        list.iter().map(|shovel| shovel.number).collect(),
        list.iter().map(|shovel| shovel.place.x).collect(),
        list.iter().map(|shovel| shovel.place.y).collect(),
    )
}

fn squared_distance(one: Place, other: Place) -> i64 {
    let square = |a: i32, b: i32| (i64::from(a) - i64::from(b)).pow(2);
    square(one.x, other.x) + square(one.y, other.y)
}

/// What a pick by the map should be: a timed pick where the nearest are at 0 seconds, and all others at 1.
fn by_times(
    server: &mut Generator,
    truck: Place,
    list: &[PlacedShovel],
) -> Result<Choice, Refusal> {
    let far = |shovel: &PlacedShovel| squared_distance(truck, shovel.place);
    let least = list.iter().map(far).min();
    let timed = |shovel: &PlacedShovel| Shovel {
        number: shovel.number,
        time: u32::from(Some(far(shovel)) != least),
    };
    server.pick(&list.iter().map(timed).collect::<Vec<Shovel>>())
}

/// What a list within a radius should be.
fn reckoned(truck: Place, radius: i32, list: &[PlacedShovel]) -> Vec<u16> {
    let far = |shovel: &PlacedShovel| (squared_distance(truck, shovel.place), shovel.number);
    let mut near: Vec<(i64, u16)> = list.iter().map(far).collect();
    near.retain(|entry| entry.0 <= i64::from(radius).pow(2));
    near.sort_unstable();
    near.into_iter().map(|entry| entry.1).collect()
}

/// Numbers by chance, always the same.
struct Chance(u32);

impl Chance {
    fn below(&mut self, bound: u32) -> u32 {
        self.0 = self.0.wrapping_mul(1_664_525).wrapping_add(1_013_904_223);
        ((u64::from(self.0) * u64::from(bound)) >> 32) as u32
    }

    /// At most so far from 0, 0 on each axis.
    fn place(&mut self, most: i32) -> Place {
        let mut coordinate = || self.below(2 * most as u32 + 1) as i32 - most;
        place((coordinate(), coordinate()))
    }

    /// A truck and up to 64 shovels, on a small, a large or the whole map.
    fn situation(&mut self) -> (Place, Vec<PlacedShovel>) {
        let most = [2, 20, 2000, FAR][self.below(4) as usize];
        let truck = self.place(most);
        let mut list = vec![];
        for k in 0..1 + self.below(MOST_SHOVELS as u32) as u16 {
            // an odd factor, so that no number stands twice
            list.push(shovel(1009_u16.wrapping_mul(k), self.place(most)));
        }
        (truck, list)
    }
}

// ---- Picks.

#[test]
fn the_nearest_alone_is_chosen_and_the_state_is_not_moved() {
    let truck = place((-3, 8));
    let mut server = server(PROGRAM, &[2, 3]);
    for (at, number) in [(0, 21), (1, 14), (2, 7), (3, 0)] {
        let mut places = [(0, 6), (6, 0), (-6, 0), (0, -6)];
        places[at] = (4, 4); // 32 square metres, where the others have 36
        let choice = server.pick_by_map(truck, &around((-3, 8), 0, &places));
        let alone = Choice {
            shovel: number,
            ties: 1,
            taken: 0,
        };
        assert_eq!(choice, Ok(alone));
        assert_eq!(server.state(), [2, 3]);
    }
    // at the truck's own place
    let here = around((-3, 8), 65_535, &[(0, 0)]);
    assert_eq!(server.pick_by_map(truck, &here).unwrap().shovel, 65_535);
}

#[test]
fn equally_near_ones_on_a_circle_are_drawn_as_by_times_in_any_order_of_the_list() {
    for ((x, y), state) in [((0, 0), [0; 4]), ((-70, 900), [1, 2, 3, 4])] {
        let mut list = around((x, y), 4, &CIRCLE);
        list.extend(around((x, y), 1000, &[(5, 1), (-6, 0), (-4, 4)]));
        let mut one = server(&[0], &state);
        let choice = one.pick_by_map(place((x, y)), &list).unwrap();
        assert_eq!((choice.ties, choice.taken), (12, 1));
        let mut timed = server(&[0], &state);
        assert_eq!(by_times(&mut timed, place((x, y)), &list), Ok(choice));
        assert_eq!(timed, one);
        for turn in 1..list.len() {
            list.rotate_left(turn);
            list[turn..].reverse();
            let mut other = server(&[0], &state);
            assert_eq!(other.pick_by_map(place((x, y)), &list), Ok(choice));
            assert_eq!(other, one);
        }
    }
}

#[test]
fn ranks_go_by_numbers_and_words_are_passed_over() {
    // from 2, 3 the words are 3, which is passed over for three ties, and 2
    for (shovel, ties, taken, after) in [(7, 2, 1, [1, 1]), (14, 3, 2, [2, 0]), (21, 4, 1, [1, 1])]
    {
        let mut server = server(PROGRAM, &[2, 3]);
        let list = around((0, 0), 0, &CIRCLE[..ties.into()]);
        let choice = Choice {
            shovel,
            ties,
            taken,
        };
        assert_eq!(server.pick_by_map(place((0, 0)), &list), Ok(choice));
        assert_eq!(server.state(), after);
    }
}

#[test]
fn picks_by_the_map_and_by_times_share_one_state() {
    let mut chance = Chance(1);
    let mut server = server(&[0], &[5, 6, 7, 8]);
    let (start, mut standby) = (server.clone(), server.clone());
    let (mut taken, mut tied) = (0, 0);
    for truck in 0..2000 {
        let (place, mut list) = chance.situation();
        let choice = match truck % 2 {
            0 => server.pick_by_map(place, &list).unwrap(),
            _ => by_times(&mut server, place, &list).unwrap(),
        };
        list.reverse();
        assert_eq!(standby.pick_by_map(place, &list), Ok(choice));
        taken += usize::from(choice.taken);
        tied += usize::from(choice.ties > 1);
    }
    assert!(tied > 100, "{tied}");
    assert_eq!(server, standby);
    (0..taken).for_each(|_| server.step_back());
    assert_eq!(server, start);
}

#[test]
fn squared_distances_are_not_cut_off() {
    let mut server = server(&[0], &[0; 4]);
    for (truck, places, nearest) in [
        // from corner to corner, 8 * 10^12, and a metre less
        ((-FAR, -FAR), [(FAR, FAR), (FAR, FAR - 1)], 1),
        ((FAR, FAR), [(-FAR, 1 - FAR), (-FAR, -FAR)], 0),
        ((-FAR, FAR), [(FAR, -FAR), (FAR - 1, -FAR)], 1),
        ((FAR, -FAR), [(1 - FAR, FAR), (-FAR, FAR)], 0),
        // 2^32, 2^33 and 2^34, which are 0 in 32 bits
        ((0, 0), [(65_536, 0), (1, 0)], 1),
        ((0, 0), [(1, 1), (65_536, 65_536)], 0),
        ((-50_000, 0), [(81_072, 0), (-50_000, 131_071)], 1),
        // 2^31, which is negative in 32 bits
        ((0, 0), [(32_768, 32_768), (0, 0)], 1),
    ] {
        let list = [shovel(0, place(places[0])), shovel(1, place(places[1]))];
        let choice = server.pick_by_map(place(truck), &list).unwrap();
        assert_eq!((choice.shovel, choice.ties), (nearest, 1), "{truck:?}");
    }
}

#[test]
fn all_corners_are_equally_far_and_64_shovels_may_be() {
    let corners = [(FAR, FAR), (FAR, -FAR), (-FAR, FAR), (-FAR, -FAR)];
    let places: Vec<(i32, i32)> = (0..MOST_SHOVELS).map(|k| corners[k % 4]).collect();
    let list = around((0, 0), 1, &places);
    let (mut one, mut timed) = (server(&[0], &[0; 4]), server(&[0], &[0; 4]));
    for _ in 0..100 {
        let choice = one.pick_by_map(place((0, 0)), &list).unwrap();
        assert_eq!(usize::from(choice.ties), MOST_SHOVELS);
        assert_eq!(by_times(&mut timed, place((0, 0)), &list), Ok(choice));
    }
    assert_eq!(one, timed);
}

#[test]
fn the_call_on_slices_is_the_generators() {
    let mut chance = Chance(2);
    let mut server = server(&[0], &[1; 4]);
    let mut state = server.state().to_vec();
    for _ in 0..500 {
        let (truck, list) = chance.situation();
        let (numbers, xs, ys) = apart(&list);
        let told = pick_by_map(&[0], &mut state, truck.x, truck.y, &numbers, &xs, &ys);
        assert_eq!(told, server.pick_by_map(truck, &list));
        assert_eq!(state, server.state());
    }
}

// ---- Shovels within a radius.

#[test]
fn the_edge_is_counted_and_a_radius_of_0_is_a_place() {
    let truck = place((10, -20));
    let mut list = around((10, -20), 1, &CIRCLE);
    list.extend(around((10, -20), 500, &[(5, 1), (0, 0), (1, 0), (0, 0)]));
    assert_eq!(truck.shovels_within(0, &list), Ok(vec![500, 514]));
    assert_eq!(truck.shovels_within(1, &list), Ok(vec![500, 514, 507]));
    assert_eq!(truck.shovels_within(4, &list), Ok(vec![500, 514, 507]));
    let circle = (0..12).map(|k| 1 + 7 * k);
    let mut near: Vec<u16> = [500, 514, 507].into_iter().chain(circle).collect();
    assert_eq!(truck.shovels_within(5, &list), Ok(near.clone()));
    near.push(521); // the square root of 26 is more than 5
    assert_eq!(truck.shovels_within(6, &list), Ok(near.clone()));
    assert_eq!(truck.shovels_within(MOST_RADIUS, &list), Ok(near));
    let nobody = around((10, -20), 1, &[(1, 0)]);
    assert_eq!(truck.shovels_within(0, &nobody), Ok(vec![]));
}

#[test]
fn from_corner_to_corner() {
    for (truck, corner) in [
        ((-FAR, -FAR), (FAR, FAR)),
        ((FAR, FAR), (-FAR, -FAR)),
        ((-FAR, FAR), (FAR, -FAR)),
        ((FAR, -FAR), (-FAR, FAR)),
    ] {
        let list = around(corner, 9, &[(0, 0)]);
        // the square root of 8 * 10^12 is 2828427.1
        for (radius, count) in [(0, 0), (2_828_427, 0), (2_828_428, 1), (MOST_RADIUS, 1)] {
            let near = place(truck).shovels_within(radius, &list).unwrap();
            assert_eq!(near, vec![9; count], "{radius}");
        }
        let side = around((truck.0, corner.1), 9, &[(0, 0)]);
        for (radius, count) in [(1_999_999, 0), (2_000_000, 1)] {
            let near = place(truck).shovels_within(radius, &side).unwrap();
            assert_eq!(near, vec![9; count], "{radius}");
        }
    }
}

#[test]
fn by_distance_and_then_by_number_whatever_the_order_of_the_list() {
    let mut chance = Chance(3);
    let mut listed = 0;
    for _ in 0..2000 {
        let (truck, mut list) = chance.situation();
        let other = list[chance.below(list.len() as u32) as usize].place;
        let edge = (squared_distance(truck, other) as f64).sqrt() as i32;
        let any = chance.below(MOST_RADIUS as u32 + 1) as i32;
        for radius in [0, edge, edge + 1, any] {
            let near = reckoned(truck, radius, &list);
            assert_eq!(truck.shovels_within(radius, &list).as_ref(), Ok(&near));
            let (numbers, xs, ys) = apart(&list);
            let told = within(truck.x, truck.y, radius, &numbers, &xs, &ys);
            assert_eq!(told.as_ref(), Ok(&near));
            list.reverse();
            assert_eq!(truck.shovels_within(radius, &list).as_ref(), Ok(&near));
            listed += near.len();
        }
    }
    assert!(listed > 10_000, "{listed}");
}

#[test]
fn all_64_may_be_listed() {
    let truck = place((0, 0));
    let list = around((0, 0), 0, &[(3, 4); MOST_SHOVELS]);
    let all: Vec<u16> = (0..MOST_SHOVELS as u16).map(|k| 7 * k).collect();
    assert_eq!(truck.shovels_within(5, &list), Ok(all));
    assert_eq!(truck.shovels_within(4, &list), Ok(vec![]));
}

// ---- Refusals.

/// Card, state, shovels, how many xs and ys, and the refusal's number.
type Row<'a> = (&'a [u8], &'a [u32], &'a [u16], usize, usize, u8);

/// Whatever is refused by 1 to 15 has places that are off the map as well.
#[test]
fn refusals_1_to_15_come_before_25_and_change_nothing() {
    let off = [i32::MIN; 67];
    let mut numbers: Vec<u16> = (1..=66).collect();
    numbers[64] = 1;
    let rows: [Row; 30] = [
        (&[], &[0; 4], &[7], 0, 1, 1),
        (&[0x40, 3], &[0; 4], &[7], 0, 1, 2),
        (&[0x08, 1], &[0; 4], &[7], 0, 1, 3),
        (&[0x01, 3], &[0; 3], &[7], 0, 1, 4),
        (&[0, 0], &[0; 4], &[7], 0, 1, 5),
        (&[0x02, 28], &[0; 4], &[7], 0, 1, 6),
        (&[0x05, 2, 0, 1, 2, 3], &[0; 2], &[7], 0, 1, 7),
        (&[0x20, 2, 0, 0, 0], &[0; 4], &[7], 0, 1, 8),
        (&[0x08, 2], &[0; 4], &[7], 0, 1, 9),
        (PROGRAM, &[4], &[7], 0, 1, 10),
        (PROGRAM, &[0, 4], &[7], 0, 1, 11),
        (PROGRAM, &[2, 3], &[7], 0, 1, 12),
        (PROGRAM, &[2, 3], &[7], 1, 0, 12),
        (PROGRAM, &[2, 3], &[7], 2, 1, 12),
        (PROGRAM, &[2, 3], &[7], 1, 2, 12),
        (PROGRAM, &[2, 3], &[7], 0, 0, 12),
        (PROGRAM, &[2, 3], &[7], 2, 2, 12),
        (PROGRAM, &[2, 3], &[7, 7], 1, 1, 12),
        (PROGRAM, &[2, 3], &[], 1, 0, 12),
        (PROGRAM, &[2, 3], &[], 0, 1, 12),
        (PROGRAM, &[2, 3], &[], 1, 1, 12),
        (PROGRAM, &[2, 3], &numbers[..65], 65, 64, 12),
        (PROGRAM, &[2, 3], &numbers[..65], 66, 65, 12),
        (PROGRAM, &[2, 3], &numbers[..64], 65, 65, 12),
        (PROGRAM, &[2, 3], &[], 0, 0, 13),
        (PROGRAM, &[2, 3], &numbers[..65], 65, 65, 14),
        (PROGRAM, &[2, 3], &numbers, 66, 66, 14),
        (PROGRAM, &[2, 3], &[7, 4, 7], 3, 3, 15),
        (PROGRAM, &[2, 3], &numbers[2..66], 64, 64, 25),
        (PROGRAM, &[2, 3], &[7], 1, 1, 25),
    ];
    for (card, state, shovels, x_count, y_count, number) in rows {
        let (mut lent, xs, ys) = (state.to_vec(), &off[..x_count], &off[..y_count]);
        let told = pick_by_map(card, &mut lent, i32::MAX, i32::MIN, shovels, xs, ys);
        assert_eq!(told.map_err(Refusal::number), Err(number));
        assert_eq!(lent, state);
        if number > 11 {
            for radius in [-1, 5] {
                let told = within(i32::MAX, i32::MIN, radius, shovels, xs, ys);
                assert_eq!(told.map_err(Refusal::number), Err(number));
            }
        }
    }
}

/// A truck's place, two shovels' places, and a radius, one of which may be off the map.
fn refused(numbers: [i32; 7]) -> (Option<Refusal>, Option<Refusal>) {
    let [x, y, x0, y0, x1, y1, radius] = numbers;
    let mut server = server(PROGRAM, &[2, 3]);
    let list = around((0, 0), 4, &[(x0, y0), (x1, y1)]);
    let picked = server.pick_by_map(place((x, y)), &list).err();
    if picked.is_some() {
        assert_eq!(server.state(), [2, 3]);
    }
    (picked, place((x, y)).shovels_within(radius, &list).err())
}

#[test]
fn each_coordinate_and_the_radius_may_be_off_the_map() {
    let beyond = [FAR + 1, -FAR - 1, i32::MAX, i32::MIN, i32::MIN + 1, 1 << 30];
    for place in 0..6 {
        for coordinate in beyond {
            let mut numbers = [1, 2, 3, 4, 5, 6, 7];
            numbers[place] = coordinate;
            let off = Some(Refusal::OffMap);
            assert_eq!(refused(numbers), (off, off), "{numbers:?}");
        }
        for coordinate in [FAR, -FAR, 0] {
            let mut numbers = [1, 2, 3, 4, 5, 6, 7];
            numbers[place] = coordinate;
            assert_eq!(refused(numbers), (None, None), "{numbers:?}");
        }
    }
    for radius in [-1, MOST_RADIUS + 1, i32::MIN, i32::MAX, -MOST_RADIUS] {
        let off = Some(Refusal::OffMap);
        assert_eq!(refused([1, 2, 3, 4, 5, 6, radius]), (None, off));
    }
    for radius in [0, 1, FAR + 1, MOST_RADIUS] {
        assert_eq!(refused([1, 2, 3, 4, 5, 6, radius]), (None, None));
    }
}

#[test]
fn off_the_map_comes_before_too_many_equals() {
    // words of 2 bits rank four, and five are equally near
    let list = around((0, 0), 4, &CIRCLE[..5]);
    let mut server = server(PROGRAM, &[2, 3]);
    let told = server.pick_by_map(place((0, 0)), &list);
    assert_eq!(told, Err(Refusal::TooManyTies));
    for truck in [(FAR + 1, 0), (0, -FAR - 1), (i32::MIN, i32::MIN)] {
        let told = server.pick_by_map(place(truck), &list);
        assert_eq!(told, Err(Refusal::OffMap));
    }
    for off in [(FAR + 1, 0), (0, i32::MIN)] {
        let mut list = list.clone();
        list.extend(around((0, 0), 1000, &[off]));
        let told = server.pick_by_map(place((0, 0)), &list);
        assert_eq!(told, Err(Refusal::OffMap));
    }
    assert_eq!(server.state(), [2, 3]);
    // no card, and so no 18
    assert_eq!(place((0, 0)).shovels_within(5, &list).unwrap().len(), 5);
}

#[test]
fn off_map_has_its_number_and_trade_word() {
    let list = [shovel(4, place((0, 0)))];
    let refusal = list[0].place.shovels_within(-1, &list).unwrap_err();
    assert_eq!((refusal.number(), refusal.trade_word()), (25, "off map"));
    assert_eq!(
        refusal.to_string(),
        "refusal 25 (off map): a coordinate is outside -1,000,000 to 1,000,000, or the radius outside 0 to 3,000,000"
    );
    assert_eq!((MOST_COORDINATE, MOST_RADIUS), (1_000_000, 3_000_000));
}
