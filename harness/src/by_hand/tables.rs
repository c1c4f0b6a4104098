//! The bad places of a table in Rust by hand (document 02, Eleven), in a time that grows as the table does: what the library's call is
//! timed beside.

use tiedraw::{MOST_BAD_PLACES, TABLE_SIZE};

/// How many, and the places with zeros past them.
pub type Places = (u8, [u8; MOST_BAD_PLACES]);

/// Places in ascending order.
fn told(places: impl IntoIterator<Item = usize>) -> Places {
    let mut listed = [0; MOST_BAD_PLACES];
    let mut count = 0;
    for (slot, place) in listed.iter_mut().zip(places) {
        *slot = place as u8;
        count += 1;
    }
    (count, listed)
}

/// The first two places with the same entry or each other's number, seen from the end.
fn first_pair(table: &[u8]) -> Option<[usize; 2]> {
    let mut with_entry = [TABLE_SIZE; TABLE_SIZE];
    let mut first = None;
    for (place, &entry) in table.iter().enumerate().rev() {
        let entry = usize::from(entry);
        let swapped = entry > place && usize::from(table[entry]) == place;
        let swap = if swapped { entry } else { TABLE_SIZE };
        let other = swap.min(with_entry[entry]);
        if other < TABLE_SIZE {
            first = Some([place, other]);
        }
        with_entry[entry] = place;
    }
    first
}

/// How long the cycle of a place is, of a table without repeated entries; all of it is marked.
fn cycle(table: &[u8], start: usize, visited: &mut [bool; TABLE_SIZE]) -> usize {
    let (mut place, mut length) = (start, 0);
    while !visited[place] {
        visited[place] = true;
        place = table[place].into();
        length += 1;
    }
    length
}

/// The least place of the shortest cycle, of a table without repeated entries; none of a ring.
fn shortest_cycle(table: &[u8]) -> Option<usize> {
    let mut visited = [false; TABLE_SIZE];
    let (mut least, mut shortest) = (None, table.len());
    for place in 0..table.len() {
        if visited[place] {
            continue;
        }
        let length = cycle(table, place, &mut visited);
        if length < shortest {
            (least, shortest) = (Some(place), length);
        }
    }
    least
}

/// Of a table with allowed entries; none of a ring.
pub fn bad_places(table: &[u8]) -> Option<Places> {
    let mut places = table.iter().enumerate();
    if let Some((fixed, _)) = places.find(|&(place, &entry)| usize::from(entry) == place) {
        return Some(told([fixed]));
    }
    if let Some(pair) = first_pair(table) {
        return Some(told(pair));
    }
    let mut on_cycle = [false; TABLE_SIZE];
    cycle(table, shortest_cycle(table)?, &mut on_cycle);
    Some(told((0..table.len()).filter(|&place| on_cycle[place])))
}
