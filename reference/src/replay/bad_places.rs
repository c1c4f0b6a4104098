//! The answer of the bad places of a table (document 02, Eleven).

use super::{commas, refused};
use crate::bad_places::call_bad_places;

/// How many places, and these.
pub(super) fn bad_places_answer(card: &[u8]) -> String {
    match call_bad_places(card) {
        Ok(places) => format!("places {} {}", places.len(), commas(places)),
        Err(refusal) => refused(refusal, true),
    }
}

#[cfg(test)]
mod tests {
    use super::super::tests::assert_answers;

    /// One place, two and more; those of the last are the even ones of y to y + 2.
    #[test]
    fn places() {
        assert_answers(
            "\
badbit 050200010203 = places 1 0
badbit 050201020303 = places 1 3
badbit 050201000302 = places 2 0,1
badbit 050202030101 = places 2 1,3
badbit 050203020101 = places 2 1,2
badbit 05030403050706010002 = places 3 0,4,6
badbit 05030203040506070001 = places 4 0,2,4,6",
        );
    }

    /// 7 to 9 are not told: the identity with an even constant, and rings with that and bad powers.
    #[test]
    fn refusals() {
        assert_answers(
            "\
badbit - = refused 1
badbit 0101 = refused 2
badbit 0801 = refused 3
badbit 0103 = refused 4
badbit 05020001020300 = refused 5
badbit 021c = refused 6
badbit 00 = refused 26
badbit 2702020102030001000000 = refused 26
badbit 2702020102030002000000 = refused 26
badbit 2702020001020302000000 = places 1 0
badbit 0802 = refused 26
badbit 1003 = refused 26",
        );
    }
}
