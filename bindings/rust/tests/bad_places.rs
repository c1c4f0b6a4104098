//! The bad places of a table, through the wrapper: document 02, Eleven.
use std::collections::HashSet;
use tiedraw::{bad_places, check, read, Card, Refusal, Values, MOST_BAD_PLACES, TABLE_SIZE};

/// A card of this table alone, of 2, 3 or 5 to 8 words.
fn card(table: &[u8]) -> Vec<u8> {
    let words = table.len().trailing_zeros() as u8;
    [&[0x05, words], table].concat()
}

fn told(table: &[u8]) -> Vec<u8> {
    bad_places(&card(table)).unwrap()
}

/// The table that leads from each of these places to the next, and from the last to the first, in each row.
fn cycles(rows: &[Vec<u8>]) -> Vec<u8> {
    let mut table = vec![0; rows.iter().map(Vec::len).sum()];
    for row in rows {
        for (i, &place) in row.iter().enumerate() {
            table[usize::from(place)] = row[(i + 1) % row.len()];
        }
    }
    table
}

/// Every order of 1 to `last`.
fn orders(last: u8) -> Vec<Vec<u8>> {
    if last == 0 {
        return vec![vec![]];
    }
    let put = |row: &Vec<u8>, at| [&row[..at], &[last], &row[at..]].concat();
    let shorter = orders(last - 1);
    let longer = |row| (0..usize::from(last)).map(move |at| put(row, at));
    shorter.iter().flat_map(longer).collect()
}

/// Every table of so many places that is a single cycle.
fn rings(size: u8) -> Vec<Vec<u8>> {
    let ring = |order: Vec<u8>| cycles(&[[vec![0], order].concat()]);
    orders(size - 1).into_iter().map(ring).collect()
}

/// The sets of places below `size`, as bits: fewer places before more, and as many in the order of comparison.
fn sets(size: u8) -> Vec<u32> {
    let mut all: Vec<u32> = (0..1 << size).collect();
    all.sort_by_key(|&set: &u32| (set.count_ones(), members(set)));
    all
}

fn members(set: u32) -> Vec<u8> {
    (0..32).filter(|place| set >> place & 1 == 1).collect()
}

/// The first set with whose entries no ring agrees: then every completion gets 7. None where the table itself is a ring.
fn searched(table: &[u8], rings: &[Vec<u8>], sets: &[u32]) -> Option<Vec<u8>> {
    let agrees = |ring: &Vec<u8>| {
        let same = (0..table.len()).filter(|&place| ring[place] == table[place]);
        same.fold(0, |set, place| set | 1 << place)
    };
    let mut agreed: Vec<u32> = rings.iter().map(agrees).collect();
    agreed.sort_unstable();
    agreed.dedup();
    let excluded = |set: &&u32| agreed.iter().all(|kept| *set & !kept != 0);
    sets.iter().find(excluded).map(|&set| members(set))
}

/// The same by the rule: a place that is its own entry; else two with the same entry or each other's; else the shortest
/// cycle.
fn reckoned(table: &[u8]) -> Option<Vec<u8>> {
    let entry = |place: u8| table[usize::from(place)];
    let places = || (0..table.len()).map(|place| place as u8);
    if let Some(own) = places().find(|&i| entry(i) == i) {
        return Some(vec![own]);
    }
    let clash = |i, j| i < j && (entry(i) == entry(j) || (entry(i) == j && entry(j) == i));
    let pairs = || places().flat_map(|i| places().map(move |j| (i, j)));
    if let Some((i, j)) = pairs().find(|&(i, j)| clash(i, j)) {
        return Some(vec![i, j]);
    }
    let walk = |start: u8| {
        let mut row = vec![start];
        while entry(row[row.len() - 1]) != start {
            row.push(entry(row[row.len() - 1]));
        }
        row.sort_unstable();
        row
    };
    let shortest = places().map(walk).min_by_key(Vec::len)?;
    (shortest.len() < table.len()).then(|| shortest)
}

/// Numbers by chance, always the same.
struct Chance(u32);

impl Chance {
    fn below(&mut self, bound: usize) -> usize {
        self.0 = self.0.wrapping_mul(1_664_525).wrapping_add(1_013_904_223);
        ((u64::from(self.0) * bound as u64) >> 32) as usize
    }

    fn order(&mut self, size: usize) -> Vec<u8> {
        let mut row: Vec<u8> = (0..size).map(|place| place as u8).collect();
        (1..size).for_each(|last| row.swap(last, self.below(last + 1)));
        row
    }

    /// Cycles of at least so many places.
    fn cycles(&mut self, size: usize, least: usize) -> Vec<u8> {
        let (mut left, mut rows) = (self.order(size), vec![]);
        while left.len() >= 2 * least {
            let count = least + self.below(left.len() - 2 * least + 1);
            rows.push(left.split_off(left.len() - count));
        }
        rows.push(left);
        cycles(&rows)
    }

    /// Of any entries; or a single cycle with some entry changed; or of cycles, none short.
    fn table(&mut self, size: usize) -> Vec<u8> {
        match self.below(4) {
            0 => (0..size).map(|_| self.below(size) as u8).collect(),
            1 => {
                let mut table = cycles(&[self.order(size)]);
                table[self.below(size)] = self.below(size) as u8;
                table
            }
            kind => self.cycles(size, kind + 1),
        }
    }
}

// ---- Which places are told.

#[test]
fn the_papers_tables_of_two_words() {
    assert_eq!(told(&[0, 1, 2, 3]), [0]);
    assert_eq!(told(&[1, 0, 3, 2]), [0, 1]);
    assert_eq!(told(&[2, 3, 1, 1]), [1, 3]);
    assert_eq!(told(&[3, 2, 1, 1]), [1, 2]);
    assert_eq!(told(&[1, 2, 3, 3]), [3]);
    assert_eq!(told(&[0, 0, 0, 0]), [0]);
    assert_eq!(told(&[1, 2, 1, 1]), [0, 2]);
}

#[test]
fn every_table_of_two_words_by_search() {
    let (rings, sets) = (rings(4), sets(4));
    assert_eq!(rings.len(), 6);
    let (mut counts, mut sound) = ([0; 5], 0);
    for number in 0_u8..=255 {
        let table = [number & 3, number >> 2 & 3, number >> 4 & 3, number >> 6];
        let answer = bad_places(&card(&table));
        let expected = searched(&table, &rings, &sets);
        assert_eq!(reckoned(&table), expected, "{table:?}");
        match &expected {
            Some(places) => counts[places.len()] += 1,
            None => sound += 1,
        }
        let expected = expected.ok_or(Refusal::SingleCycle);
        assert_eq!(answer, expected, "{table:?}");
        assert_eq!(check(&card(&table)).is_ok(), answer.is_err());
    }
    assert_eq!((counts, sound), ([0, 175, 75, 0, 0], 6));
}

#[test]
fn tables_of_three_words_by_search() {
    let (rings, sets) = (rings(8), sets(8));
    assert_eq!(rings.len(), 5040);
    let (mut chance, mut counts) = (Chance(1), [0; 9]);
    for _ in 0..150 {
        let table = chance.table(8);
        let expected = searched(&table, &rings, &sets);
        counts[expected.as_ref().map_or(0, Vec::len)] += 1;
        let expected = expected.ok_or(Refusal::SingleCycle);
        assert_eq!(bad_places(&card(&table)), expected, "{table:?}");
    }
    assert!(counts[..5].iter().all(|&count| count > 0), "{counts:?}");
    assert_eq!(counts[5..], [0; 4]);
}

#[test]
fn tables_of_every_size_by_the_rule() {
    let (mut chance, mut kinds) = (Chance(2), HashSet::new());
    for size in [4, 8, 32, 64, 128, 256] {
        for _ in 0..200 {
            let table = chance.table(size);
            let expected = reckoned(&table).ok_or(Refusal::SingleCycle);
            assert_eq!(bad_places(&card(&table)), expected, "{table:?}");
            kinds.insert(expected.map_or(0, |places| places.len().min(3)));
        }
    }
    assert_eq!(kinds.len(), 4);
}

#[test]
fn each_entry_of_tsc_1_changed() {
    assert_eq!(bad_places(&[0]), Err(Refusal::SingleCycle));
    let mut values = read(&[0]).unwrap();
    let card = |values: &Values| [&[0x04], &values.table[..]].concat();
    for place in 0..16 {
        for entry in 0..16 {
            let sound = std::mem::replace(&mut values.table[place], entry);
            let expected = match entry == sound {
                true => Err(Refusal::Redundant),
                false => Ok(reckoned(&values.table).unwrap()),
            };
            assert_eq!(bad_places(&card(&values)), expected);
            values.table[place] = sound;
        }
    }
}

#[test]
fn the_least_place_of_equally_short_cycles() {
    // 0 is in a longer one
    let rows = [
        vec![0, 9, 8, 15],
        vec![2, 3, 4],
        vec![14, 1, 5],
        vec![6, 7, 13],
        vec![10, 11, 12],
    ];
    let table = cycles(&rows);
    assert_eq!(
        bad_places(&[&[0x04], &table[..]].concat()),
        Ok(vec![1, 5, 14])
    );
}

#[test]
fn two_halves_are_128_places() {
    assert_eq!(MOST_BAD_PLACES, 128);
    let (lower, upper) = ((0..128).collect(), (128..=255).collect());
    let halves = cycles(&[upper, lower]);
    assert_eq!(halves.len(), TABLE_SIZE);
    assert_eq!(told(&halves), (0..128).collect::<Vec<u8>>());
    let odd: Vec<u8> = (0..128).map(|i| 2 * i + 1).collect();
    let even: Vec<u8> = (0..128).map(|i| 254 - 2 * i).collect();
    assert_eq!(
        told(&cycles(&[odd, even])),
        (0..128).map(|i| 2 * i).collect::<Vec<u8>>()
    );
    let (one_less, one_more) = ((0..127).rev().collect::<Vec<u8>>(), (127..=255).collect());
    let uneven = cycles(&[one_more, one_less]);
    assert_eq!(told(&uneven), (0..127).collect::<Vec<u8>>());
}

#[test]
fn they_may_be_the_last_of_256() {
    let mut table = cycles(&[(0..=255).collect()]);
    assert_eq!(bad_places(&card(&table)), Err(Refusal::SingleCycle));
    table[255] = 255;
    assert_eq!(told(&table), [255]);
    table[255] = 254;
    assert_eq!(told(&table), [253, 255]);
    table[253] = 0;
    assert_eq!(told(&table), [254, 255]);
}

#[test]
fn while_they_stand_no_other_change_mends_the_table() {
    let mut chance = Chance(3);
    for _ in 0..200 {
        let table = chance.table(8);
        let bad = match bad_places(&card(&table)) {
            Ok(places) => places,
            Err(refusal) => {
                assert_eq!(refusal, Refusal::SingleCycle);
                continue;
            }
        };
        for _ in 0..50 {
            let mut changed = chance.table(8);
            let stands = |&place: &u8| changed[usize::from(place)] = table[usize::from(place)];
            bad.iter().for_each(stands);
            assert_eq!(check(&card(&changed)), Err(Refusal::NotSingleCycle));
            assert!(bad_places(&card(&changed)).unwrap().len() <= bad.len());
        }
    }
}

// ---- Refusals.

#[test]
fn refusals_1_to_6_come_first() {
    let rows: [(&[u8], u8); 12] = [
        (&[], 1),
        (&[0x05, 2, 0, 1, 2], 1),
        (&[0x05, 9], 2),
        (&[0x05, 2, 0, 1, 2, 4], 2),
        (&[0x08, 1], 3),
        (
            &[0x04, 3, 5, 9, 13, 1, 6, 11, 15, 4, 0, 8, 14, 10, 7, 2, 12],
            3,
        ),
        (&[0x01, 3], 4),
        (&[0x05, 2, 0, 1, 2, 3, 0], 5),
        (&[0x05, 2, 1, 2, 3, 0, 0], 5),
        (&[0x07, 2, 28, 0, 1, 2, 3], 6),
        (&[0x07, 2, 28, 1, 2, 3, 0], 6),
        (&[0x27, 2, 2, 0, 1, 2, 3, 4, 0, 0, 0], 6),
    ];
    for (card, number) in rows {
        let refusal = bad_places(card).unwrap_err();
        assert_eq!(refusal.number(), number, "{card:02x?}");
        assert_eq!(read(card).unwrap_err(), refusal);
    }
}

#[test]
fn a_ring_is_26_whatever_check_would_say() {
    let rows: [(&[u8], Result<(), Refusal>); 5] = [
        (&[0], Ok(())),
        (&[0x27, 2, 2, 1, 2, 3, 0, 1, 0, 0, 0], Ok(())),
        (
            &[0x27, 2, 2, 1, 2, 3, 0, 2, 0, 0, 0],
            Err(Refusal::EvenConstant),
        ),
        (&[0x08, 2], Err(Refusal::PowerParity)),
        (&[0x10, 3], Err(Refusal::PowerParity)),
    ];
    for (card, verdict) in rows {
        assert_eq!(check(card), verdict);
        assert_eq!(bad_places(card), Err(Refusal::SingleCycle));
    }
}

#[test]
fn a_broken_table_is_looked_at_whatever_else_is_wrong() {
    // an even constant, and powers the wrong way round
    for more in [&[1, 0, 0, 0][..], &[2, 0, 0, 0]] {
        let even = [&[0x27, 2, 2, 2, 3, 1, 1], more].concat();
        assert_eq!(bad_places(&even), Ok(vec![1, 3]));
    }
    assert_eq!(bad_places(&[0x1d, 2, 2, 3, 1, 1, 2, 1]), Ok(vec![1, 3]));
}

#[test]
fn sound_ring_has_its_number_and_trade_word() {
    let refusal = bad_places(Card::default().bytes()).unwrap_err();
    assert_eq!((refusal.number(), refusal.trade_word()), (26, "sound ring"));
    assert_eq!(
        refusal.to_string(),
        "refusal 26 (sound ring): bad places are asked of a table that is a single cycle"
    );
}
