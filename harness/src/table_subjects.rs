//! What is timed of bad places: the library's call beside Rust, on cards of eight words.

use crate::by_hand::tables::{self, Places};
use crate::timing::Subject;
use std::hint::black_box;
use tiedraw::ffi::tiedraw_bad_places;
use tiedraw::TABLE_SIZE;

/// The map and the words of a card whose other fields but the table are absent.
const FRONT: [u8; 2] = [0x05, 8];

/// A card with the table that has at each place this entry.
pub fn card_of(entry: impl Fn(usize) -> usize) -> Vec<u8> {
    let table = (0..TABLE_SIZE).map(|place| entry(place) as u8);
    FRONT.into_iter().chain(table).collect()
}

/// The library's, on a card; none where it is refused.
fn by_library(card: &[u8]) -> Option<Places> {
    let told = unsafe { tiedraw_bad_places(card.as_ptr(), card.len()) };
    (told.refusal == 0).then_some((told.count, told.places))
}

fn by_hand(card: &[u8]) -> Option<Places> {
    tables::bad_places(&card[FRONT.len()..])
}

/// Bad places of a card: the library's and Rust's, which tell the same, so many; 0 for a ring.
pub fn bad_places(names: [&str; 2], calls: usize, card: &[u8], count: u8) -> [Subject; 2] {
    let library = by_library(card);
    assert_eq!(library.map_or(0, |places| places.0), count, "{}", names[0]);
    assert_eq!(library, by_hand(card), "{}", names[0]);
    let subject = |name, places: fn(&[u8]) -> Option<Places>| {
        let card = card.to_vec();
        Subject::call(name, calls, move || {
            black_box(places(black_box(&card)));
        })
    };
    [subject(names[0], by_library), subject(names[1], by_hand)]
}
