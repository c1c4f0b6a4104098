//! Desk and cab: whole records with each set of lacking fields, those that picks leave, and torn
//! ones of every kind.

use super::super::cards::damage;
use super::super::picks::random_list;
use super::super::{bytes, Maker, FULL, PROGRAM, TSC1, TSC2};
use super::NUMBERS;
use crate::accept;
use crate::record::{call_recorded_pick, write_record, Record};
use crate::replay::hex;

pub fn make(maker: &mut Maker) {
    whole(maker);
    values(maker);
    same_order(maker);
    left_by_picks(maker);
    every_map(maker);
    changed_maps(maker);
    cuts(maker);
    counts(maker);
    damaged(maker);
    random_bytes(maker);
    long(maker);
}

fn desk(maker: &mut Maker, record: &[u8]) {
    maker.line(format!("desk {}", hex(record)));
}

fn cab(maker: &mut Maker, truck: u16, record: &[u8]) {
    maker.line(format!("cab {truck} {}", hex(record)));
}

/// The two bytes that would be a record's truck, and another truck.
fn trucks(maker: &mut Maker, record: &[u8]) -> [u16; 2] {
    let pair = |place: usize| match record.get(place..place + 2) {
        Some(pair) => u16::from_le_bytes([pair[0], pair[1]]),
        None => 0,
    };
    let (truck, shovel) = (pair(1), pair(3));
    let other = match maker.below(6) {
        0 => truck.swap_bytes(),
        1 => truck ^ 1 << maker.below(16),
        2 => shovel,
        3 => truck.wrapping_add(1),
        4 => truck & 255,
        _ => maker.word() as u16,
    };
    [truck, other]
}

/// The desk, the truck's cab and another.
fn desk_and_cabs(maker: &mut Maker, record: &[u8]) {
    desk(maker, record);
    for truck in trucks(maker, record) {
        cab(maker, truck, record);
    }
}

/// The desk and one of the cabs.
fn desk_and_cab(maker: &mut Maker, record: &[u8]) {
    desk(maker, record);
    let truck = trucks(maker, record)[maker.below(2)];
    cab(maker, truck, record);
}

/// Random values. Bits 0 to 2 of the set say whether equals, words taken and the state stand, the
/// last with so many words.
fn random_record(maker: &mut Maker, set: u8, words: u8) -> Record {
    let stands = |bit: u8| (set >> bit) & 1 == 1;
    Record {
        truck: maker.word() as u16,
        shovel: maker.word() as u16,
        ties: stands(0).then(|| 2 + maker.byte() % 63),
        taken: stands(1).then(|| 1 + maker.byte() % 16),
        state: stands(2).then(|| maker.state(words, 32)),
    }
}

/// With a state of 2 to 8 words, where it stands.
fn whole(maker: &mut Maker) {
    maker.section("desk and cab: whole records with each set of fields, 2 to 8 words");
    for set in 0..8 {
        for words in 2..=8 {
            if set >= 4 || words <= 4 {
                let record = random_record(maker, set, words);
                desk_and_cabs(maker, &write_record(&record));
            }
        }
    }
}

/// No value but the count is judged.
fn values(maker: &mut Maker) {
    maker.section("desk and cab: values at the edges, of each set of fields");
    for set in 0..8 {
        for number in 0..7 {
            let mut record = random_record(maker, set, 2);
            record.truck = NUMBERS[maker.below(NUMBERS.len())];
            record.shovel = NUMBERS[maker.below(NUMBERS.len())];
            let small = [0, 1, 255, 16, 17, 64, 65];
            record.ties = record.ties.map(|_| small[number]);
            record.taken = record.taken.map(|_| small[(number + set as usize) % 7]);
            for word in record.state.iter_mut().flatten() {
                *word = [0, u32::MAX, 1, 1 << 31][maker.below(4)];
            }
            desk_and_cab(maker, &write_record(&record));
        }
    }
}

/// Two records with the same truck and shovel, all that else stands or lacks being any.
fn same_order(maker: &mut Maker) {
    maker.section("cab: two records with the same truck and shovel, to that truck and to another");
    for _ in 0..20 {
        let mut any = || {
            let (set, words) = (maker.below(8) as u8, 2 + maker.below(7) as u8);
            random_record(maker, set, words)
        };
        let (one, mut other) = (any(), any());
        (other.truck, other.shovel) = (one.truck, one.shovel);
        let (one, other) = (write_record(&one), write_record(&other));
        for truck in trucks(maker, &one) {
            cab(maker, truck, &one);
            cab(maker, truck, &other);
        }
    }
}

/// The record, then the page with bytes behind the record, which is torn.
fn left_by_picks(maker: &mut Maker) {
    maker.section("desk and cab: what picks leave, alone and with the page behind it");
    for number in 0..24 {
        let card = bytes([PROGRAM, FULL, TSC1, TSC2][number % 4]);
        let values = accept(&card).expect("an accepted card");
        let mut state = maker.state(values.words, values.width);
        let ties = 2 + maker.below(3);
        let list = random_list(maker, ties, ties).into_iter();
        let (shovels, times): (Vec<u16>, Vec<u32>) = list.unzip();
        let needed = 8 + 4 * state.len();
        let mut page = vec![0xa5; needed + [1, 1, 4, 16][maker.below(4)]];
        let truck = maker.word() as u16;
        call_recorded_pick(&card, &mut state, &shovels, &times, truck, &mut page)
            .expect("at most four equals");
        desk_and_cab(maker, &page[..needed]);
        desk_and_cab(maker, &page);
    }
}

/// The fields of the map's bits, with a state of two words. For bits 5 to 7 a byte each stands
/// behind, or none.
fn with_map(maker: &mut Maker, map: u8) -> Vec<u8> {
    let record = write_record(&random_record(maker, 7, 2));
    let mut bytes = vec![map];
    for (bit, field) in [1..3, 3..5, 5..6, 6..7, 7..16].into_iter().enumerate() {
        if (map >> bit) & 1 == 1 {
            bytes.extend(&record[field]);
        }
    }
    if maker.below(2) == 0 {
        bytes.extend(vec![2; (map >> 5).count_ones() as usize]);
    }
    bytes
}

/// Two cabs where one bit alone is wrong, and one where there is no more than bit 5.
fn every_map(maker: &mut Maker) {
    maker.section("desk and cab: every map with its fields");
    for map in 0..=255u8 {
        let bytes = with_map(maker, map);
        let wrong = (map & 0xe3) ^ 3;
        if wrong.is_power_of_two() {
            desk_and_cabs(maker, &bytes);
        } else if map < 64 {
            desk_and_cab(maker, &bytes);
        } else {
            desk(maker, &bytes);
        }
    }
}

fn changed_maps(maker: &mut Maker) {
    maker.section("desk and cab: whole records but for bit 0, 1, 5, 6 or 7 of the map");
    for (set, bit) in (0..8).flat_map(|set| [0, 1, 5, 6, 7].map(|bit| (set, bit))) {
        let mut record = write_record(&random_record(maker, set, 2));
        record[0] ^= 1 << bit;
        desk_and_cab(maker, &record);
    }
}

/// Each set of fields with a byte less and a byte more; all fields at every length.
fn cuts(maker: &mut Maker) {
    maker.section("desk and cab: records cut short, and with bytes behind");
    for set in 0..8 {
        let words = 2 + maker.below(7) as u8;
        let mut record = write_record(&random_record(maker, set, words));
        desk_and_cabs(maker, &record[..record.len() - 1]);
        record.push(0);
        desk_and_cabs(maker, &record);
    }
    let record = write_record(&random_record(maker, 7, 3));
    for length in 0..=record.len() {
        desk_and_cab(maker, &record[..length]);
    }
    for more in [1, 2, 4, 20] {
        desk_and_cab(maker, &[&record[..], &vec![3; more]].concat());
    }
}

/// Counts with as many words, counts of one word less and more, no count or no words, large counts.
fn counts(maker: &mut Maker) {
    maker.section("desk and cab: state counts of 0 to 12, wrong ones, none, and large ones");
    for words in 0..=12 {
        for set in [4, 7] {
            let mut record = write_record(&random_record(maker, set, words));
            desk_and_cabs(maker, &record);
            let count = record.len() - 1 - 4 * usize::from(words);
            if set == 7 && (2..=8).contains(&words) {
                record[count] = words - 1;
                desk_and_cab(maker, &record);
                record[count] = words + 1;
                desk_and_cab(maker, &record);
            }
        }
    }
    for set in 4..8 {
        let record = write_record(&random_record(maker, set, 2));
        desk_and_cabs(maker, &record[..record.len() - 9]);
        desk_and_cab(maker, &record[..record.len() - 8]);
    }
    for count in [16, 18, 34, 66, 127, 128, 130, 136, 255] {
        let mut record = write_record(&random_record(maker, 4, 2));
        record[5] = count;
        desk_and_cab(maker, &record);
    }
}

fn damaged(maker: &mut Maker) {
    maker.section("desk and cab: damaged at random");
    for number in 0..90 {
        let words = 2 + maker.below(3) as u8;
        let mut record = write_record(&random_record(maker, number % 8, words));
        for _ in 0..1 + maker.below(2) {
            damage(maker, &mut record);
        }
        desk_and_cab(maker, &record);
    }
}

/// Maps with a sound one among few, then small bytes.
fn random_bytes(maker: &mut Maker) {
    maker.section("desk and cab: random bytes");
    for _ in 0..50 {
        let length = 4 + maker.below(14);
        let mut record: Vec<u8> = (0..length).map(|_| maker.below(4) as u8).collect();
        record[0] = 3 | maker.below(64) as u8;
        desk_and_cab(maker, &record);
    }
}

/// The longest whole record has 40 bytes.
fn long(maker: &mut Maker) {
    maker.section("desk and cab: long ones, up to 600 bytes");
    for length in [40, 41, 64, 256, 296, 600] {
        let mut record = write_record(&random_record(maker, 7, 8));
        record.resize_with(length, || maker.byte());
        desk_and_cab(maker, &record);
    }
}

#[cfg(test)]
mod tests {
    use super::*;
    use crate::replay::answer;
    use std::collections::HashMap;

    /// The lines of a section, or of all, without the comments; fields and answer of each.
    fn answered(section: fn(&mut Maker)) -> Vec<(Vec<String>, String)> {
        let mut maker = Maker::new();
        section(&mut maker);
        let lines = String::from_utf8(maker.lines).unwrap();
        let row = |line: &str| {
            let fields = line.split(' ').map(str::to_string).collect();
            Some((fields, answer(line.as_bytes())?))
        };
        lines.lines().filter_map(row).collect()
    }

    /// What is torn about a record, found apart from its reader: the map first, then the state
    /// count, then the length. The set of fields for a whole one.
    fn kind(record: &[u8]) -> String {
        let Some(&map) = record.first() else {
            return "empty".to_string();
        };
        let wrong = (map & 0xe3) ^ 3;
        if wrong != 0 {
            return match wrong.is_power_of_two() {
                true => format!("bit {}", wrong.trailing_zeros()),
                false => "several bits".to_string(),
            };
        }
        let front = 5 + (map >> 2 & 1) + (map >> 3 & 1);
        let length = match (map >> 4, record.get(usize::from(front))) {
            (0, _) => front.into(),
            (_, None) if record.len() == usize::from(front) => return "no count".to_string(),
            (_, None) => usize::MAX,
            (_, Some(0..=1)) => return "low count".to_string(),
            (_, Some(9..)) => return "high count".to_string(),
            (_, Some(count)) => usize::from(front + 1 + 4 * count),
        };
        match record.len() {
            len if len + 1 == length => "a byte short".to_string(),
            len if len < length => "short".to_string(),
            len if len == length => format!("whole {}", map >> 2),
            len if len == length + 1 => "a byte long".to_string(),
            _ => "long".to_string(),
        }
    }

    /// How often each kind comes up at the desk, for the truck's cab and for another; 20 for all
    /// torn ones, 21 for none of them.
    #[test]
    fn every_kind() {
        let mut counts: HashMap<String, [usize; 3]> = HashMap::new();
        for (fields, told) in answered(make) {
            let record = bytes(fields.last().unwrap());
            let kind = kind(&record);
            let own = record
                .get(1..3)
                .map(|two| u16::from_le_bytes([two[0], two[1]]));
            let place = match &fields[..] {
                [call, _] if call == "desk" => 0,
                [_, truck, _] if truck.parse().ok() == own => 1,
                _ => 2,
            };
            if kind.starts_with("whole") {
                assert_eq!(told == "refused 21", place == 2, "{fields:?}");
                assert_ne!(told, "refused 20", "{fields:?}");
            } else {
                assert_eq!(told, "refused 20", "{fields:?}");
            }
            counts.entry(kind).or_default()[place] += 1;
        }
        let bits = [0, 1, 5, 6, 7].map(|bit| format!("bit {bit}"));
        let sets = [0, 1, 2, 3, 4, 5, 6, 7].map(|set| format!("whole {set}"));
        let others =
            "several bits,no count,low count,high count,a byte short,short,a byte long,long";
        let others = others.split(',').map(str::to_string);
        for kind in bits.into_iter().chain(sets).chain(others) {
            assert!(
                counts[&kind].iter().all(|&count| count >= 3),
                "{kind}: {:?}",
                counts[&kind]
            );
        }
        assert!(counts["empty"][0] >= 1 && counts["empty"][2] >= 1); // with no truck of its own
    }

    /// A lacking field is told as absent, and one that stands is not, whatever its value.
    #[test]
    fn lacking_fields() {
        for (fields, told) in answered(make) {
            let map = bytes(fields.last().unwrap()).first().copied().unwrap_or(0);
            let words: Vec<&str> = told.split(' ').collect();
            if let ["truck", _, "shovel", _, "ties", ties, "taken", taken, "state", state] =
                words[..]
            {
                for (bit, field) in [(2, ties), (3, taken), (4, state)] {
                    assert_eq!(field == "absent", (map >> bit) & 1 == 0, "{fields:?}");
                }
            }
        }
    }

    #[test]
    fn cabs_hear_the_same() {
        let rows = answered(same_order);
        assert_eq!(rows.len(), 80);
        for pair in rows.chunks(2) {
            assert_eq!(pair[0].0[1], pair[1].0[1]);
            assert_ne!(pair[0].0[2], pair[1].0[2]);
            assert_eq!(pair[0].1, pair[1].1);
        }
    }
}
