//! Fields and answers of picks by the map and of lists within a radius (document 02, Ten).

use super::{commas, listed, number, on_state, picked, refused, MOST_LISTED};
use crate::map::{call_pick_by_map, call_within};

/// Two coordinates.
type Place = (i32, i32);

/// A decimal number of 32 bits, with `-` in front or nothing.
pub(super) fn signed(field: &[u8]) -> Option<i32> {
    let (sign, digits) = match field.strip_prefix(b"-") {
        Some(digits) => (-1, digits),
        None => (1, field),
    };
    let size: u32 = number(digits, 10)?;
    i32::try_from(sign * i64::from(size)).ok()
}

/// Two coordinates with one colon between them.
pub(super) fn place(field: &[u8]) -> Option<Place> {
    let coordinates: Vec<&[u8]> = field.split(|&byte| byte == b':').collect();
    match coordinates[..] {
        [x, y] => Some((signed(x)?, signed(y)?)),
        _ => None,
    }
}

/// Places with commas between them, or `-`.
pub(super) fn places(field: &[u8]) -> Option<Vec<Place>> {
    listed(field, MOST_LISTED, place)
}

/// The coordinates of places, apart.
fn apart(places: &[Place]) -> (Vec<i32>, Vec<i32>) {
    places.iter().copied().unzip()
}

pub(super) fn map_pick_answer(
    card: &[u8],
    state: &[u32],
    (x, y): Place,
    shovels: &[u16],
    places: &[Place],
) -> String {
    let (xs, ys) = apart(places);
    on_state(state, |lent| {
        let pick = call_pick_by_map(card, lent, x, y, shovels, &xs, &ys)?;
        Ok(format!("{} ", picked(&pick)))
    })
}

/// All 64 numbers, also those past the count.
pub(super) fn within_answer(
    (x, y): Place,
    radius: i32,
    shovels: &[u16],
    places: &[Place],
) -> String {
    let (xs, ys) = apart(places);
    match call_within(x, y, radius, shovels, &xs, &ys) {
        Ok(near) => format!("count {} numbers {}", near.count, commas(near.shovels)),
        Err(refusal) => refused(refusal, true),
    }
}

#[cfg(test)]
mod tests {
    use super::super::answer;
    use super::super::tests::{assert_answers, assert_syntax};
    use super::*;

    #[test]
    fn signed_numbers() {
        for (field, value) in [
            ("0", Some(0)),
            ("-0", Some(0)),
            ("00", Some(0)),
            ("-000000000000000000000000001", Some(-1)),
            ("2147483647", Some(i32::MAX)),
            ("2147483648", None),
            ("-2147483648", Some(i32::MIN)),
            ("-2147483649", None),
            ("4294967295", None),
            ("-4294967295", None),
            ("4294967296", None),
            ("-18446744073709551617", None),
            ("", None),
            ("-", None),
            ("--1", None),
            ("+1", None),
            ("-+1", None),
            ("1-", None),
            ("- 1", None),
            ("0x1", None),
            ("a", None),
            ("1.0", None),
        ] {
            assert_eq!(signed(field.as_bytes()), value, "{field}");
        }
    }

    #[test]
    fn lists_of_places() {
        assert_eq!(place(b"3:-4"), Some((3, -4)));
        assert_eq!(place(b"-2147483648:2147483647"), Some((i32::MIN, i32::MAX)));
        assert_eq!(places(b"-"), Some(vec![]));
        assert_eq!(places(b"3:4,-5:0"), Some(vec![(3, 4), (-5, 0)]));
        for field in [
            "", ":", "3", "3:", ":4", "3:4:5", "3::4", "3;4", "3,4", "3:4 ",
        ] {
            assert_eq!(place(field.as_bytes()), None, "{field}");
            assert_eq!(places(field.as_bytes()), None, "{field}");
        }
        for field in ["-,-", "3:4,", ",3:4", "3:4,-", "3:4,,5:6", "3:4;5:6", "--"] {
            assert_eq!(places(field.as_bytes()), None, "{field}");
        }
        let many = |count| commas(vec!["0:0"; count]);
        assert_eq!(places(many(600).as_bytes()), Some(vec![(0, 0); 600]));
        assert_eq!(places(many(601).as_bytes()), None);
    }

    /// Each field with a sign.
    #[test]
    fn syntax_of_fields() {
        for line in ["mappick 00 0,0,0,0 @ 1 0:0", "within @ 0 1 0:0"] {
            assert_syntax(line, "0:0 -0:00 -2147483648:2147483647", false);
            assert_syntax(line, "- 0 0: :0 0:0,0:0 +1:0 0:2147483648 0:0:0", true);
        }
        for line in ["mappick 00 0,0,0,0 0:0 1 @", "within 0:0 0 1 @"] {
            assert_syntax(line, "- 0:0 0:0,-0:00 -2147483648:2147483647", false);
            assert_syntax(line, "0 0: :0 0:0, ,0:0 -,- 0:0,- 0:+1 -2147483649:0", true);
        }
        let line = "within 0:0 @ 1 0:0";
        assert_syntax(line, "0 -0 -1 3000001 -2147483648 2147483647 00005", false);
        assert_syntax(line, "- +1 1, 0:0 0x1 2147483648 -2147483649 --1", true);
    }

    /// From 2, 3 the words are 3 and 2, and for three equals 3 is passed over.
    #[test]
    fn map_picks() {
        assert_answers(
            "\
mappick 2702020102030001000000 0,0 0:0 7,4 3:4,6:0 = shovel 7 ties 1 taken 0 state 00000000,00000000
mappick 2702020102030001000000 2,3 0:0 7,4 3:4,-5:0 = shovel 7 ties 2 taken 1 state 00000001,00000001
mappick 2702020102030001000000 2,3 -1:-1 7,4,9 2:3,4:-1,-01:-6 = shovel 9 ties 3 taken 2 state 00000002,00000000
mappick 2702020102030001000000 2,3 0:0 1,2,3,4,5 1:0,0:1,-1:-0,0:-1,1:0 = refused 18
mappick 2702020102030001000000 2,3 0:1000001 1,2,3,4,5 1:0,0:1,-1:0,0:-1,1:0 = refused 25
mappick 2702020102030001000000 2,3 0:0 1,2 0:0,-2147483648:2147483647 = refused 25
mappick 2702020102030001000000 2,3 0:0 7,7 0:0,1000001:0 = refused 15
mappick 00 0,0,0,0 0:0 - - = refused 13
mappick 00 0,0,0,0 0:0 7 - = refused 12
mappick 00 0,0,0,0 0:0 7 0:0,0:0 = refused 12
mappick 021d 0,0,0,20000000 0:0 7 - = refused 11
mappick 00 0,0,0 0:0 7 - = refused 10
mappick 0802 - 0:0 - - = refused 9",
        );
    }

    fn told(line: &str) -> String {
        answer(line.as_bytes()).unwrap()
    }

    #[test]
    fn lists_within() {
        for (line, count, numbers) in [
            ("within 0:0 5 7,4,9 3:4,6:0,-5:0", 2, "7,9"),
            ("within 0:0 5 7,9,4 3:4,-5:0,4:2", 3, "4,7,9"),
            ("within -1:-1 0 7 -1:-1", 1, "7"),
            ("within 0:0 4 7,4,9 3:4,6:0,-5:0", 0, "0"),
            ("within 0:0 3000000 65535 -1000000:1000000", 1, "65535"),
        ] {
            let zeros = ",0".repeat(64 - numbers.split(',').count());
            assert_eq!(
                told(line),
                format!("count {count} numbers {numbers}{zeros}")
            );
        }
        assert_answers(
            "\
within 0:0 -1 7 0:0 = refused 25
within 0:0 3000001 7 0:0 = refused 25
within 0:-1000001 0 7 0:0 = refused 25
within 0:0 -1 7,7 0:0,0:0 = refused 15
within 0:0 -1 - - = refused 13
within 0:0 -1 7 - = refused 12
within 0:0 -1 - 0:0 = refused 12",
        );
    }
}
