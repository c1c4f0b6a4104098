//! Tables of each kind that the bad places tell apart (document 02, Eleven), of eight entries or
//! more, for the cases, the tests and the harness. Each brings its own random numbers.

use crate::{Card, TSC1_CONSTANT};

/// A random number below the one that is handed over.
pub type Below<'a> = dyn FnMut(usize) -> usize + 'a;
/// Makes a table with so many entries.
pub type Make = fn(usize, &mut Below) -> Vec<u8>;

/// What a table has, and how one is made.
pub const KINDS: [(&str, Make); 13] = [
    ("any entries", any),
    ("an entry at its own place, among any entries", fixed),
    ("an entry at its own place, and one cycle", fixed_and_cycle),
    ("an entry at its own place, the last, alone", fixed_at_end),
    ("repeated entries alone", repeats),
    ("the same entry in the last two places alone", repeat_at_end),
    ("swaps alone", swaps),
    ("a swap before a repeated entry", swap_before_repeat),
    ("a repeated entry before a swap", repeat_before_swap),
    ("cycles of three or more", cycles),
    ("equal shortest cycles", equal_cycles),
    ("two cycles of half the places", halves),
    ("a ring", ring),
];

/// A card with this table and else TSC-1's values.
pub fn card_with(table: &[u8]) -> Card {
    Card {
        words: table.len().trailing_zeros() as u8,
        width: 32,
        table: table.to_vec(),
        odd_power: 1,
        even_power: 2,
        constant: TSC1_CONSTANT,
        filter: 1,
        sum_term: 1,
    }
}

// ---- What a table has ----

/// The first two places, compared number by number, of which this holds.
fn first_pair(size: usize, holds: impl Fn(usize, usize) -> bool) -> Option<(usize, usize)> {
    let mut pairs = (0..size).flat_map(|one| (one + 1..size).map(move |other| (one, other)));
    pairs.find(|&(one, other)| holds(one, other))
}

/// The first place whose entry is its own number.
pub fn first_fixed(table: &[u8]) -> Option<usize> {
    (0..table.len()).find(|&place| usize::from(table[place]) == place)
}

/// The first two places with the same entry.
pub fn first_repeat(table: &[u8]) -> Option<(usize, usize)> {
    first_pair(table.len(), |one, other| table[one] == table[other])
}

/// The first two places that each have the other's number.
pub fn first_swap(table: &[u8]) -> Option<(usize, usize)> {
    first_pair(table.len(), |one, other| {
        usize::from(table[one]) == other && usize::from(table[other]) == one
    })
}

// ---- Tables ----

/// Makes tables until one is as wanted.
fn wanted(mut make: impl FnMut() -> Vec<u8>, is_wanted: impl Fn(&[u8]) -> bool) -> Vec<u8> {
    loop {
        let table = make();
        if is_wanted(&table) {
            return table;
        }
    }
}

/// A table with cycles of these sizes at any places.
fn of_cycles(sizes: &[usize], below: &mut Below) -> Vec<u8> {
    let size = sizes.iter().sum();
    let mut places: Vec<usize> = (0..size).collect();
    for place in (1..size).rev() {
        places.swap(place, below(place + 1));
    }
    let mut table = vec![0; size];
    for &size in sizes {
        let cycle = places.split_off(places.len() - size);
        for (place, next) in cycle.iter().zip(cycle.iter().cycle().skip(1)) {
            table[*place] = *next as u8;
        }
    }
    table
}

fn any(size: usize, below: &mut Below) -> Vec<u8> {
    (0..size).map(|_| below(size) as u8).collect()
}

fn fixed(size: usize, below: &mut Below) -> Vec<u8> {
    let mut table = any(size, below);
    let place = below(size);
    table[place] = place as u8;
    table
}

fn fixed_and_cycle(size: usize, below: &mut Below) -> Vec<u8> {
    of_cycles(&[1, size - 1], below)
}

/// The other places have one cycle, or any entries.
fn fixed_at_end(size: usize, below: &mut Below) -> Vec<u8> {
    let last = size - 1;
    let mut table = match below(2) {
        0 => of_cycles(&[last], below),
        _ => wanted(|| any(size, below), |table| first_fixed(table).is_none()),
    };
    table.resize(size, 0);
    table[last] = last as u8;
    table
}

/// True when there is a repeated entry, but neither a swap nor an entry at its own place.
fn only_repeats(table: &[u8]) -> bool {
    first_repeat(table).is_some() && first_swap(table).is_none() && first_fixed(table).is_none()
}

/// A ring with one to three entries changed.
fn repeats(size: usize, below: &mut Below) -> Vec<u8> {
    let changed = || {
        let mut table = ring(size, below);
        for _ in 0..1 + below(3) {
            table[below(size)] = below(size) as u8;
        }
        table
    };
    wanted(changed, only_repeats)
}

fn repeat_at_end(size: usize, below: &mut Below) -> Vec<u8> {
    let changed = || {
        let mut table = ring(size, below);
        table[size - 1] = table[size - 2];
        table
    };
    wanted(changed, only_repeats)
}

/// One to three swaps, and a cycle of the other places.
fn swaps(size: usize, below: &mut Below) -> Vec<u8> {
    let count = 1 + below(size.min(12) / 4);
    let mut sizes = vec![2; count];
    sizes.push(size - 2 * count);
    of_cycles(&sizes, below)
}

/// A swap, and one to three entries changed, half of them to a number of the swap.
fn swap_and_repeat(size: usize, below: &mut Below) -> Vec<u8> {
    let changed = || {
        let mut table = of_cycles(&[2, size - 2], below);
        for _ in 0..1 + below(3) {
            let place = below(size);
            table[place] = match (below(2), first_swap(&table)) {
                (0, Some((one, other))) => [one, other][below(2)] as u8,
                _ => below(size) as u8,
            };
        }
        table
    };
    let has_both = |table: &[u8]| first_repeat(table).is_some() && first_swap(table).is_some();
    wanted(changed, |table| {
        has_both(table) && first_fixed(table).is_none()
    })
}

fn swap_before_repeat(size: usize, below: &mut Below) -> Vec<u8> {
    wanted(
        || swap_and_repeat(size, below),
        |table| first_swap(table) < first_repeat(table),
    )
}

fn repeat_before_swap(size: usize, below: &mut Below) -> Vec<u8> {
    wanted(
        || swap_and_repeat(size, below),
        |table| first_repeat(table) < first_swap(table),
    )
}

/// As many as there are, in parts of `least` or more.
fn parts(mut count: usize, least: usize, below: &mut Below) -> Vec<usize> {
    let mut parts = Vec::new();
    while count >= 2 * least && below(3) > 0 {
        let part = least + below(count - 2 * least + 1);
        parts.push(part);
        count -= part;
    }
    if count > 0 {
        parts.push(count);
    }
    parts
}

/// Half of the shortest are small.
fn cycles(size: usize, below: &mut Below) -> Vec<u8> {
    let most = [size / 2, 6.min(size / 2)][below(2)];
    let shortest = 3 + below(most - 2);
    let mut sizes = vec![shortest];
    sizes.extend(parts(size - shortest, shortest, below));
    of_cycles(&sizes, below)
}

/// Two of the same size at least, which no other is below.
fn equal_cycles(size: usize, below: &mut Below) -> Vec<u8> {
    if size / 3 < 3 || below(6) == 0 {
        return halves(size, below);
    }
    let most = [size / 3, 6.min(size / 3)][below(2)];
    let shortest = 3 + below(most - 2);
    let mut sizes = vec![shortest; 2];
    sizes.extend(parts(size - 2 * shortest, shortest, below));
    of_cycles(&sizes, below)
}

fn halves(size: usize, below: &mut Below) -> Vec<u8> {
    of_cycles(&[size / 2; 2], below)
}

fn ring(size: usize, below: &mut Below) -> Vec<u8> {
    of_cycles(&[size], below)
}
