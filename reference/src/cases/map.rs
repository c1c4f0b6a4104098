//! By the map when times are missing (document 02, Ten): picks and lists within a radius, a module
//! each; here what both take and the form of their lines.

mod picks;
mod radii;
mod spots;

use super::{syntax, Maker};
use crate::replay::commas;
use spots::Place;

/// A legal line of each kind.
const PICK: &str = "mappick 00 1,2,3,4 -1:2 7,4 3:4,-5:0";
const WITHIN: &str = "within -1:2 5 7,4 3:4,-5:0";

/// Lines at the edges: digits of either case, leading zeros, the largest numbers and one more; a
/// line is judged before the call; other names.
const EDGES: &str = "\
mappick 08FF 0A,0,0,0 -0:000 4,7 -00000000000000000001:0,1:-0
mappick 00 0,0,0,0 2147483647:-2147483648 65535,0 -2147483648:2147483647,0:0
mappick 00 0,0,0,0 2147483648:0 4,7 3:4,-5:0
mappick 00 0,0,0,0 0:-2147483649 4,7 3:4,-5:0
mappick 00 0,0,0,0 0:0 4,7 3:4,4294967295:0
mappick 00 0,0,0,0 0:0 4,7 3:4,0:-18446744073709551617
mappick 00 0,0,0,0 0:0 65536,7 3:4,-5:0
mappick 00 0,0,0,0 0:0 -4,7 3:4,-5:0
mappick 00 100000000,0,0,0 0:0 4,7 3:4,-5:0
mappick 0 0,0,0,0 0:0 4,7 3:4,-5:0
mappick 0802 0,0,0,0 0:0 4,7 3:4,-5:2147483648
mappick 0802 0,0,0,0 1000001:0 4,7 3:4,-5:0
mappick 00 0,0,0,0 0 4,7 3:4,-5:0
mappick 00 0,0,0,0 0,0 4,7 3:4,-5:0
mappick 00 0,0,0,0 0:0 4,7 3,4,-5,0
mappick 00 0,0,0,0 0:0 3:4,-5:0 4,7
mappick 00 0,0,0,0 4,7 0:0 3:4,-5:0
mappick 00 0,0,0,0 - - -
mappick - - 0:0 - -
mappick - - - - -
mappick 00 0,0,0,0 0:0 4,7 3:4,-5:0 5
Mappick 00 0,0,0,0 0:0 4,7 3:4,-5:0
mappicks 00 0,0,0,0 0:0 4,7 3:4,-5:0
map 00 0,0,0,0 0:0 4,7 3:4,-5:0
within -0:000 00000000000000000000005 4,7 0003:4,-5:-00
within 2147483647:-2147483648 -2147483648 65535,0 0:0,0:0
within 0:0 2147483647 4,7 3:4,-5:0
within 0:0 2147483648 4,7 3:4,-5:0
within 0:0 -2147483649 4,7 3:4,-5:0
within 0:0 4294967301 4,7 3:4,-5:0
within 0:0 18446744073709551621 4,7 3:4,-5:0
within 0:0 +5 4,7 3:4,-5:0
within 0:0 0x5 4,7 3:4,-5:0
within 0:0 5: 4,7 3:4,-5:0
within 0:0 5:0 4,7 3:4,-5:0
within 0:0 5,5 4,7 3:4,-5:0
within 0:0 - 4,7 3:4,-5:0
within - 5 4,7 3:4,-5:0
within 0:0 -1 4,7 3:4,-5:2147483648
within 5 0:0 4,7 3:4,-5:0
within 0:0 5 3:4,-5:0 4,7
within 0 0 5 4,7 3:4,-5:0
within 0:0 5 - -
within - - - -
within 00 0,0,0,0 0:0 5 4,7 3:4,-5:0
Within 0:0 5 4,7 3:4,-5:0
withins 0:0 5 4,7 3:4,-5:0
count 2 numbers 4,7";

/// A truck's place, shovels and places for the refusals: a tie; one alone; a shovel twice; uneven;
/// none; uneven and twice; a far one twice; the truck off the map, a shovel; a shovel twice and off
/// the map; uneven and none with the truck off the map; five equals, and with the truck off the map;
/// five and two at the ends of the map.
const LISTS: [(&str, &str, &str); 21] = [
    ("0:0", "7,4", "3:4,-5:0"),
    ("0:0", "7,4", "-6:0,4:3"),
    ("0:0", "5,5", "1:1,1:1"),
    ("0:0", "7", "-"),
    ("0:0", "-", "3:4"),
    ("0:0", "-", "-"),
    ("0:0", "7,7", "1:1"),
    ("0:0", "7", "1:1,2:2"),
    ("0:0", "5,6,5", "3:0,1:0,3:1"),
    ("1000001:0", "7,4", "3:4,-5:0"),
    ("0:-1000001", "7", "3:4"),
    ("0:0", "7,4", "3:4,1000001:0"),
    ("0:0", "7,4", "0:-2147483648,3:4"),
    ("0:0", "7,7", "1000001:0,3:4"),
    ("2147483647:0", "7,4", "1:1"),
    ("-1000001:0", "-", "-"),
    ("9:9", "1,2,3,4,5", "9:10,8:9,9:8,10:9,8:9"),
    ("9:1000001", "1,2,3,4,5", "9:10,8:9,9:8,10:9,8:9"),
    ("0:0", "1,2,3,4,5,6", "0:1,0:1,0:1,0:1,0:1,0:1000001"),
    ("1000000:-1000000", "1,2,3,4,5", "0:0,0:0,0:0,0:0,0:0"),
    (
        "-1000000:-1000000",
        "9,2",
        "1000000:1000000,1000000:1000000",
    ),
];

/// Coordinates at the ends of the map, off it, and as far off as 32 bits go; some that fewer bits
/// would cut to 0.
const COORDINATES: [i32; 10] = [
    1_000_000,
    -1_000_000,
    1_000_001,
    -1_000_001,
    1 << 20,
    -(1 << 20),
    -2_000_000,
    1 << 24,
    i32::MAX,
    i32::MIN,
];

pub fn make(maker: &mut Maker) {
    picks::make(maker);
    radii::make(maker);
    lines(maker);
}

/// The text of a place.
fn text((x, y): Place) -> String {
    format!("{x}:{y}")
}

/// The texts of shovels and of their places.
fn texts(list: &[spots::Spot]) -> (String, String) {
    let shovels = commas(list.iter().map(|spot| spot.0));
    let places = commas(list.iter().map(|spot| text(spot.1)));
    (shovels, places)
}

/// Each coordinate at each place: the truck's, the first shovel's and the last one's. Gives the
/// truck's place and the list.
fn off_map(maker: &mut Maker) -> Vec<(Place, Vec<spots::Spot>)> {
    let mut lists = Vec::new();
    for coordinate in COORDINATES {
        for at in 0..6 {
            let mut six = [(); 6].map(|()| maker.below(9) as i32 - 4);
            six[at] = coordinate;
            let [x, y, first_x, first_y, last_x, last_y] = six;
            let list = vec![(8, (first_x, first_y)), (6, (1, 1)), (9, (last_x, last_y))];
            lists.push(((x, y), list));
        }
    }
    lists
}

/// About 64 shovels, one of them twice, and a place more or less.
fn long_uneven() -> [(String, String); 3] {
    [(64, 65), (65, 64), (66, 65)].map(|(shovels, places)| {
        let numbers = (1..shovels).chain([1]);
        (commas(numbers), commas(vec!["0:0"; places]))
    })
}

/// The form of a line, as in the module `syntax`.
fn lines(maker: &mut Maker) {
    maker.section("form of a line: picks by the map and lists within a radius");
    maker.line(EDGES);
    for sample in [PICK, WITHIN] {
        syntax::blanks_and_counts(maker, sample);
    }
    for (sample, at) in [(PICK, 3), (PICK, 5), (WITHIN, 1), (WITHIN, 2), (WITHIN, 4)] {
        syntax::forms_at(maker, sample, at);
        syntax::signed_forms_at(maker, sample, at);
    }
    syntax::forms_at(maker, PICK, 4);
    syntax::forms_at(maker, WITHIN, 3);
    for count in [600, 601] {
        let bytes = "00".repeat(count);
        let (list, places) = (commas(vec![0; count]), commas(vec!["0:0"; count]));
        maker.line(format!("mappick {bytes} - 0:0 - -"));
        maker.line(format!("mappick - {list} 0:0 - -"));
        maker.line(format!("mappick - - 0:0 {list} {places}"));
        maker.line(format!("within 0:0 0 {list} {places}"));
        maker.line(format!("within 0:0 0 - {places}"));
    }
    let zeros = "0".repeat(700);
    maker.line(format!("mappick 00 1,2,3,4 -{zeros}1:{zeros} 4 {zeros}7:0"));
    maker.line(format!("within 0:-{zeros}1 {zeros}5 4 0:{zeros}4"));
}

#[cfg(test)]
mod tests {
    use super::*;
    use crate::replay::answer;

    /// A legal case of either kind: its fields, and what they say.
    #[derive(Debug)]
    pub struct Case {
        pub fields: Vec<String>,
        pub truck: (i128, i128),
        pub shovels: Vec<u16>,
        pub places: Vec<(i128, i128)>,
    }

    /// The parts of a list, none for `-`.
    fn parts(list: &str) -> impl Iterator<Item = &str> {
        list.split(',').filter(|part| *part != "-")
    }

    fn place(text: &str) -> (i128, i128) {
        let (x, y) = text.split_once(':').unwrap();
        (x.parse().unwrap(), y.parse().unwrap())
    }

    impl Case {
        fn new(line: &str) -> Case {
            let fields: Vec<String> = line.split(' ').map(str::to_string).collect();
            let [.., shovels, places] = &fields[..] else {
                panic!("{line}");
            };
            let truck = fields[if fields[0] == "within" { 1 } else { 3 }].as_str();
            Case {
                truck: place(truck),
                shovels: parts(shovels).map(|part| part.parse().unwrap()).collect(),
                places: parts(places).map(place).collect(),
                fields,
            }
        }

        /// The squared distances.
        pub fn far(&self) -> Vec<i128> {
            let (x, y) = self.truck;
            let places = self.places.iter();
            places
                .map(|(a, b)| (a - x).pow(2) + (b - y).pow(2))
                .collect()
        }

        /// That of a list within it.
        pub fn radius(&self) -> i128 {
            self.fields[2].parse().unwrap()
        }

        pub fn is_off_map(&self) -> bool {
            let mut all = self.places.iter().chain([&self.truck]);
            all.any(|(x, y)| x.abs().max(y.abs()) > 1_000_000)
        }
    }

    /// The legal cases of a section, or of all of a kind, with their answers.
    pub fn answered(section: fn(&mut Maker)) -> Vec<(Case, String)> {
        let mut maker = Maker::new();
        section(&mut maker);
        let lines = String::from_utf8(maker.lines).unwrap();
        let row = |line: &str| Some((Case::new(line), answer(line.as_bytes())?));
        let lines = lines.lines().filter(|line| !line.starts_with('#'));
        lines.filter_map(row).collect()
    }

    /// Malformed in many ways, and legal in some.
    #[test]
    fn forms_of_lines() {
        let mut maker = Maker::new();
        lines(&mut maker);
        let lines = maker.lines.split(|&byte| byte == b'\n');
        let answers: Vec<String> = lines.filter_map(answer).collect();
        let syntax = answers.iter().filter(|told| *told == "syntax").count();
        assert!(syntax >= 300 && answers.len() - syntax >= 100);
    }
}
