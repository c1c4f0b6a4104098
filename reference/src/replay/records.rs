//! The answers of recorded picks, the desk and the cab (document 02, Seven).

use super::{hex, is_as_lent, picked, refused, words, LENT};
use crate::record::{call_recorded_pick, order_for, read_record};
use std::fmt::Display;

/// A recorded pick. The page is shown whole, also where it is as lent.
pub(super) fn recorded_answer(
    card: &[u8],
    state: &[u32],
    shovels: &[u16],
    times: &[u32],
    truck: u16,
    page_length: usize,
) -> String {
    let (mut lent, mut page) = (state.to_vec(), vec![LENT; page_length]);
    match call_recorded_pick(card, &mut lent, shovels, times, truck, &mut page) {
        Ok(pick) => {
            let (page, after) = (hex(&page), words(&lent));
            format!("{} page {page} state {after}", picked(&pick))
        }
        Err(refusal) => refused(refusal, lent == state && is_as_lent(&page)),
    }
}

/// A field of a record, `absent` where it is lacking.
fn told<T: Display>(field: Option<T>) -> String {
    field.map_or("absent".to_string(), |value| value.to_string())
}

pub(super) fn desk_answer(record: &[u8]) -> String {
    match read_record(record) {
        Ok(record) => format!(
            "truck {} shovel {} ties {} taken {} state {}",
            record.truck,
            record.shovel,
            told(record.ties),
            told(record.taken),
            told(record.state.map(|state| words(&state)))
        ),
        Err(refusal) => refused(refusal, true),
    }
}

pub(super) fn cab_answer(truck: u16, record: &[u8]) -> String {
    match order_for(truck, record) {
        Ok(shovel) => format!("shovel {shovel}"),
        Err(refusal) => refused(refusal, true),
    }
}

#[cfg(test)]
mod tests {
    use super::super::tests::assert_answers;

    /// Document 01, At the edges, with a truck and a page; document 02, Two and Seven.
    #[test]
    fn recorded_picks() {
        assert_answers(
            "\
recpick 2702020102030001000000 0,0 7,4 300,300 258 16 = shovel 4 ties 2 taken 1 page 1f020104000201020000000000000000 state 00000001,00000002
recpick 2702020102030001000000 2,3 7,4 300,300 65535 18 = shovel 7 ties 2 taken 1 page 1fffff07000201020200000003000000a5a5 state 00000001,00000001
recpick 2702020102030001000000 2,3 7,4,770 300,300,300 0 16 = shovel 770 ties 3 taken 2 page 1f000002030302020200000003000000 state 00000002,00000000
recpick 2702020102030001000000 0,0 4,7 300,299 9 16 = shovel 7 ties 1 taken 0 page a5a5a5a5a5a5a5a5a5a5a5a5a5a5a5a5 state 00000000,00000000
recpick 2702020102030001000000 0,0 4,7 300,300 9 15 = refused 16
recpick 2702020102030001000000 0,0 4,7 300,299 9 15 = refused 16
recpick 2702020102030001000000 2,3 7,4,9,1,2 300,300,300,300,300 9 0 = refused 18
recpick 2702020102030001000000 2,3 7,7 300,300 9 0 = refused 15
recpick 00 0,0,0,0 - - 9 0 = refused 13
recpick 00 0,0,0,0 7 - 9 0 = refused 12
recpick 021d 0,0,0,20000000 7 - 9 0 = refused 11
recpick 00 0,0,0 7 - 9 0 = refused 10
recpick 0802 - - - 9 0 = refused 9",
        );
    }

    #[test]
    fn desks() {
        assert_answers(
            "\
desk 1f020104000201020000000000000000 = truck 258 shovel 4 ties 2 taken 1 state 00000000,00000000
desk 1bffffffffff0201020304fffefdfc = truck 65535 shovel 65535 ties absent taken 255 state 04030201,fcfdfeff
desk 0301020304 = truck 513 shovel 1027 ties absent taken absent state absent
desk 070102030400 = truck 513 shovel 1027 ties 0 taken absent state absent
desk 0b0102030400 = truck 513 shovel 1027 ties absent taken 0 state absent
desk - = refused 20
desk 03010203 = refused 20
desk 030102030400 = refused 20
desk 0201020304 = refused 20
desk 2301020304 = refused 20
desk 13010203040100000000 = refused 20",
        );
    }

    #[test]
    fn cabs() {
        assert_answers(
            "\
cab 258 1f020104000201020000000000000000 = shovel 4
cab 513 1f020104000201020000000000000000 = refused 21
cab 00513 0301020304 = shovel 1027
cab 1027 0301020304 = refused 21
cab 513 03010203 = refused 20
cab 0 03010203 = refused 20
cab 0 - = refused 20",
        );
    }
}
