//! The bad places of a table (document 02, Eleven): the fewest places whose entries alone make every
//! completion get 7, and of several such sets the one whose ascending places come first, compared
//! number by number. A completion is any table with allowed entries that agrees at those places.
//!
//! For two words all sets of places and all completions are tried. For more there are too many of
//! them, and a rule takes their place; the tests hold it to trying for two and three words.

use crate::{is_ring, read};
use std::cmp::Ordering;

/// The words of a table for which everything is tried, and the entries of such a table.
const TRIED_WORDS: u8 = 2;
const TRIED_ENTRIES: usize = 1 << TRIED_WORDS;

/// The bad places of a card's table, ascending, or a refusal number: 1 to 6, then 26.
pub fn call_bad_places(card: &[u8]) -> Result<Vec<u8>, u8> {
    let card = read(card)?;
    match card.words {
        TRIED_WORDS => by_trying(&card.table),
        _ => by_rule(&card.table),
    }
    .ok_or(26)
}

/// Fewer places first, and of as many those that come first in comparison.
fn compare(one: &[u8], other: &[u8]) -> Ordering {
    one.len().cmp(&other.len()).then(one.cmp(other))
}

/// The first of some sets, each with its places ascending.
fn first(sets: impl Iterator<Item = Vec<u8>>) -> Option<Vec<u8>> {
    sets.min_by(|one, other| compare(one, other))
}

// ---- By trying ----

/// Every set of places of a table with so many entries.
fn sets(entries: usize) -> impl Iterator<Item = Vec<u8>> {
    let places = move |set: usize| (0..entries).filter(move |place| (set >> place) & 1 == 1);
    (0..1 << entries).map(move |set| places(set).map(|place| place as u8).collect())
}

/// Every table of two words.
fn tables() -> impl Iterator<Item = [u8; TRIED_ENTRIES]> {
    (0..=u8::MAX).map(|number| [0, 2, 4, 6].map(|shift| (number >> shift) & 3))
}

/// True when two tables have the same entries at these places.
fn agree(one: &[u8], other: &[u8], places: &[u8]) -> bool {
    places
        .iter()
        .all(|&place| one[usize::from(place)] == other[usize::from(place)])
}

/// True when every completion gets 7.
fn is_bad(table: &[u8], places: &[u8]) -> bool {
    tables()
        .filter(|completion| agree(completion, table, places))
        .all(|completion| !is_ring(&completion))
}

/// The bad places of a table of two words; none if it is a ring.
fn by_trying(table: &[u8]) -> Option<Vec<u8>> {
    first(sets(table.len()).filter(|places| is_bad(table, places)))
}

// ---- By the rule ----

/// The bad places of a table; none if it is a ring. Places whose entries differ and close no cycle are
/// chains, which can be joined to a ring. So a set is bad exactly if it has two places with the same
/// entry, or all places of a cycle that leaves some out, and the first set is one of these.
fn by_rule(table: &[u8]) -> Option<Vec<u8>> {
    let cycles = (0..table.len()).filter_map(|place| cycle(table, place));
    let short = cycles.filter(|places| places.len() < table.len());
    first(first_repeat(table).into_iter().chain(short))
}

/// The first two places with the same entry.
fn first_repeat(table: &[u8]) -> Option<Vec<u8>> {
    (0..table.len()).find_map(|place| {
        let behind = &table[place + 1..];
        let further = behind.iter().position(|entry| *entry == table[place])?;
        Some(vec![place as u8, (place + 1 + further) as u8])
    })
}

/// The places of the cycle whose least one this is; none if it is on no cycle, or another is less.
fn cycle(table: &[u8], least: usize) -> Option<Vec<u8>> {
    let mut places = vec![least as u8];
    let mut place = usize::from(table[least]);
    while place > least && places.len() < table.len() {
        places.push(place as u8);
        place = usize::from(table[place]);
    }
    places.sort();
    (place == least).then_some(places)
}

#[cfg(test)]
mod tests {
    use super::*;
    use crate::cases::tables::{self, card_with, KINDS};
    use crate::{check, encode, next, TSC1_TABLE, TSC2_TABLE};
    use std::collections::HashSet;

    fn told(table: &[u8]) -> Result<Vec<u8>, u8> {
        call_bad_places(&encode(&card_with(table)))
    }

    /// Tables of so many entries, of each kind by turns.
    fn of_each_kind(size: usize, count: usize) -> Vec<Vec<u8>> {
        let mut x = 11;
        let mut below = |end: usize| next(&mut x) as usize % end;
        let kinds = KINDS.iter().cycle().take(count);
        kinds.map(|(_, make)| make(size, &mut below)).collect()
    }

    /// Document 02, Eleven: the identity, and a repeated entry; of pairs the first in comparison.
    #[test]
    fn two_words() {
        for (table, places) in [
            ([0, 1, 2, 3], &[0][..]),
            ([1, 1, 2, 3], &[1]),
            ([0, 0, 0, 0], &[0]),
            ([3, 3, 3, 3], &[3]),
            ([1, 2, 3, 3], &[3]),
            ([1, 0, 3, 2], &[0, 1]),
            ([3, 2, 1, 0], &[0, 3]),
            ([2, 3, 0, 1], &[0, 2]),
            ([2, 3, 1, 1], &[1, 3]),
            ([3, 2, 1, 1], &[1, 2]),
            ([1, 0, 0, 0], &[0, 1]),
            ([1, 2, 3, 1], &[0, 3]),
            ([1, 2, 1, 0], &[0, 2]),
        ] {
            assert_eq!(told(&table), Ok(places.to_vec()), "{table:?}");
        }
        assert_eq!(told(&[1, 2, 3, 0]), Err(26));
        assert_eq!(told(&[2, 3, 1, 0]), Err(26));
    }

    /// The rule is what trying tells of every table of two words, and six of them are rings. Every
    /// card with a completion of the told places gets 7, but not so without any one of them.
    #[test]
    fn every_table_of_two_words() {
        let mut rings = 0;
        for table in tables() {
            let tried = by_trying(&table);
            assert_eq!(by_rule(&table), tried, "{table:?}");
            assert_eq!(told(&table), tried.clone().ok_or(26));
            let Some(places) = tried else {
                assert!(is_ring(&table));
                rings += 1;
                continue;
            };
            let mut verdicts = HashSet::new();
            for completion in tables().filter(|other| agree(other, &table, &places)) {
                verdicts.insert(check(&encode(&card_with(&completion))));
            }
            assert_eq!(verdicts, HashSet::from([7]), "{table:?}");
            for place in 0..places.len() {
                let mut fewer = places.clone();
                fewer.remove(place);
                assert!(!is_bad(&table, &fewer), "{table:?}");
            }
        }
        assert_eq!(rings, 6);
    }

    /// The rings that pass these places and then, in every order, the others.
    fn rings(passed: &[u8], others: &[u8]) -> Vec<Vec<u8>> {
        if others.is_empty() {
            let mut ring = vec![0; passed.len()];
            for (place, next) in passed.iter().zip(passed.iter().cycle().skip(1)) {
                ring[usize::from(*place)] = *next;
            }
            return vec![ring];
        }
        let after = |place: &u8| {
            let rest: Vec<u8> = others.iter().filter(|o| *o != place).copied().collect();
            rings(&[passed, &[*place]].concat(), &rest)
        };
        others.iter().flat_map(after).collect()
    }

    /// The places at which two tables agree, as bits.
    fn agreement(one: &[u8], other: &[u8]) -> usize {
        let places = (0..one.len()).filter(|&place| one[place] == other[place]);
        places.map(|place| 1 << place).sum()
    }

    /// The completions that don't get 7 are the rings that agree. Of eight entries there are 5,040
    /// rings, so that all sets of places can be tried on each.
    #[test]
    fn three_words_by_all_rings() {
        let rings = rings(&[0], &[1, 2, 3, 4, 5, 6, 7]);
        let different: HashSet<&Vec<u8>> = rings.iter().collect();
        assert!(different.len() == 5040 && rings.iter().all(|ring| is_ring(ring)));
        for table in of_each_kind(8, 1300) {
            let agreements: HashSet<usize> =
                rings.iter().map(|ring| agreement(ring, &table)).collect();
            let bad = |places: &Vec<u8>| {
                let set: usize = places.iter().map(|&place| 1 << place).sum();
                agreements.iter().all(|agreement| set & !agreement != 0)
            };
            let tried = first(sets(8).filter(bad));
            assert_eq!(told(&table), tried.ok_or(26), "{table:?}");
        }
    }

    /// A completion made by joining the chains of these places; a ring wherever there is one.
    fn completed(table: &[u8], places: &[u8]) -> Vec<u8> {
        let mut given = vec![None; table.len()];
        let mut is_entry = vec![false; table.len()];
        for &place in places {
            let entry = usize::from(table[usize::from(place)]);
            given[usize::from(place)] = Some(entry);
            is_entry[entry] = true;
        }
        let fronts: Vec<usize> = (0..table.len()).filter(|&place| !is_entry[place]).collect();
        let mut joined: Vec<usize> = given.iter().map(|entry| entry.unwrap_or(0)).collect();
        for (place, front) in fronts.iter().enumerate() {
            let mut end = *front;
            while let Some(entry) = given[end] {
                end = entry;
            }
            joined[end] = fronts[(place + 1) % fronts.len()];
        }
        joined.into_iter().map(|entry| entry as u8).collect()
    }

    /// Sets of fewer places than these, and of as many that come first in comparison: all of them, or
    /// of large tables some.
    fn earlier(size: usize, places: &[u8], x: &mut u32) -> Vec<Vec<u8>> {
        if size <= 16 {
            return sets(size)
                .filter(|set| compare(set, places).is_lt())
                .collect();
        }
        let mut drawn = Vec::new();
        for number in 0..200 {
            let mut all: Vec<u8> = (0..size).map(|place| place as u8).collect();
            for place in (1..size).rev() {
                all.swap(place, next(x) as usize % (place + 1));
            }
            let mut set = places.to_vec();
            match number % 2 {
                0 => set = all[..next(x) as usize % (places.len() + 1)].to_vec(),
                _ => _ = set.remove(next(x) as usize % places.len()),
            }
            set.sort();
            drawn.push(set);
        }
        drawn.retain(|set| compare(set, places).is_lt());
        drawn
    }

    /// Each earlier set of places has a completion that is a ring.
    #[test]
    fn earlier_sets_can_be_completed() {
        let mut x = 12;
        for (size, count) in [
            (8, 130),
            (16, 65),
            (32, 130),
            (64, 130),
            (128, 130),
            (256, 130),
        ] {
            for table in of_each_kind(size, count) {
                let Ok(places) = told(&table) else {
                    assert!(is_ring(&table));
                    continue;
                };
                for set in earlier(size, &places, &mut x) {
                    let ring = completed(&table, &set);
                    assert!(
                        is_ring(&ring) && agree(&ring, &table, &set),
                        "{table:?} {set:?}"
                    );
                }
            }
        }
    }

    /// In steps: a place that is its own entry; else two places with the same entry or each other's
    /// number; else the shortest cycle, and of several that of the least place.
    fn in_steps(table: &[u8]) -> Vec<u8> {
        let pairs = [tables::first_repeat(table), tables::first_swap(table)];
        if let Some(place) = tables::first_fixed(table) {
            return vec![place as u8];
        }
        if let Some((one, other)) = pairs.into_iter().flatten().min() {
            return vec![one as u8, other as u8];
        }
        let orbit = |start: usize| {
            let mut orbit = vec![start as u8];
            while table[usize::from(orbit[orbit.len() - 1])] != orbit[0] {
                orbit.push(table[usize::from(orbit[orbit.len() - 1])]);
            }
            orbit
        };
        let mut shortest = (0..table.len()).map(orbit).min_by_key(Vec::len).unwrap();
        shortest.sort();
        shortest
    }

    /// Every size, and every number of places that a shortest cycle of up to 12 has.
    #[test]
    fn the_rule_in_steps() {
        let mut counts = HashSet::new();
        for words in 3..=8 {
            for table in of_each_kind(1 << words, 650) {
                let steps = if is_ring(&table) {
                    Err(26)
                } else {
                    Ok(in_steps(&table))
                };
                assert_eq!(told(&table), steps, "{table:?}");
                counts.extend(steps.map(|places| places.len()));
            }
        }
        assert!((1..=12)
            .chain([16, 32, 64, 128])
            .all(|count| counts.contains(&count)));
        assert!(counts.iter().all(|&count| count <= 128));
    }

    /// The shortest cycle, and of several that of the least place, wherever the others are.
    #[test]
    fn shortest_cycles() {
        for (table, places) in [
            ([1, 2, 3, 0, 5, 6, 7, 4], &[0, 1, 2, 3][..]),
            ([6, 4, 7, 5, 2, 0, 3, 1], &[0, 3, 5, 6]),
            ([4, 3, 5, 7, 6, 1, 0, 2], &[0, 4, 6]),
            ([3, 6, 1, 5, 7, 4, 2, 0], &[1, 2, 6]),
        ] {
            assert_eq!(told(&table), Ok(places.to_vec()), "{table:?}");
        }
        let odd_and_even: Vec<u8> = (0..=255).map(|place: u8| place.wrapping_add(2)).collect();
        let even: Vec<u8> = (0..128).map(|half| 2 * half).collect();
        assert_eq!(told(&odd_and_even), Ok(even));
    }

    /// 1 to 6 as of the reader, then 26; 7 to 9 are not told. An absent table is TSC-1's.
    #[test]
    fn refusals() {
        let rows: [(&[u8], u8); 15] = [
            (&[], 1),
            (&[5, 2, 0, 1, 2], 1),
            (&[5, 2, 0, 1, 2, 4], 2),
            (&[1, 1], 2),
            (&[0x85, 2, 0, 1, 2, 3, 1], 3),
            (&[1, 3], 4),
            (&[5, 2, 0, 1, 2, 3, 0], 5),
            (&[5, 2, 1, 2, 3, 0, 0], 5),
            (&[2, 28], 6),
            (&[7, 2, 2, 0, 1, 2, 3], 6),
            (&[0x27, 2, 2, 0, 1, 2, 3, 4, 0, 0, 0], 6),
            (&[0], 26),
            (&[0x20, 0, 0, 0, 0], 26),
            (&[0x18, 0, 1], 26),
            (&[0x27, 2, 2, 1, 2, 3, 0, 2, 0, 0, 0], 26),
        ];
        for (card, refusal) in rows {
            assert_eq!(call_bad_places(card), Err(refusal), "{card:?}");
        }
        let even_constant = [0x27, 2, 2, 0, 1, 2, 3, 2, 0, 0, 0];
        assert_eq!(call_bad_places(&even_constant), Ok(vec![0]));
        let powers = [0x1d, 2, 1, 0, 3, 2, 0, 1];
        assert_eq!(call_bad_places(&powers), Ok(vec![0, 1]));
        assert_eq!(told(&TSC1_TABLE), Err(26));
        assert_eq!(told(&TSC2_TABLE), Err(26));
    }
}
