//! Random inputs: cards valid and damaged, states and lists of right and wrong size, strips and spans, values and pages for the writer;
//! and inputs for the margin, which the second program finds by trying, so that each takes long. Those for records, for counts of bits, by
//! the map and for bad places are in files of their own, and so are P1 and the cards nearly like it.

mod bad_places;
mod bits;
pub mod map;
mod records;
mod tsc1;

use crate::random::Random;
use map::Map;
pub use records::Records;
use reference::{
    check, encode, mask, step_back, word, Card, MOST_WORDS, TABLE_ENTRIES, TSC1_CONSTANT,
    TSC1_TABLE,
};

/// One input: each of the library's calls takes some of it.
#[derive(Clone, Debug, PartialEq)]
pub struct Input {
    pub card: Vec<u8>,
    pub state: Vec<u32>,
    pub strip: Vec<u32>,
    /// place and count
    pub span: (usize, usize),
    pub shovels: Vec<u16>,
    pub times: Vec<u32>,
    /// for the writer; the table has any number of entries
    pub values: Card,
    /// for the writer, for a recorded pick, or for the counts of bits
    pub page: Vec<u8>,
    /// empty but in inputs for records
    pub records: Records,
    /// empty but in inputs by the map
    pub map: Map,
}

impl Input {
    pub fn random(random: &mut Random) -> Input {
        let sound = sound_values(random);
        let card = tsc1::card(random).unwrap_or_else(|| card_bytes(&sound, random));
        let read = reference::read(&card).unwrap_or_else(|_| sound.clone());
        let state = state_words(&read, random);
        let strip: Vec<u32> = (0..random.below(41))
            .map(|_| random.word() as u32)
            .collect();
        let span = span(strip.len(), random);
        let (shovels, times) = lists(read.width, random);
        let values = writer_values(sound, random);
        let page = page_for(&values, random);
        Input {
            card,
            state,
            strip,
            span,
            shovels,
            times,
            values,
            page,
            records: Records::default(),
            map: Map::default(),
        }
    }

    /// For the margin: one in three as for the pick; the others with an accepted card, a state of its size and a sound list.
    pub fn of_margin(random: &mut Random) -> Input {
        let any = Input::random(random);
        if random.once_in(3) {
            return any;
        }
        let card = tsc1::values(random).unwrap_or_else(|| margin_values(random));
        let times = margin_times(card.width, random);
        Input {
            card: encode(&card),
            state: sound_state(&card, random),
            shovels: numbers(times.len(), random),
            times,
            ..any
        }
    }
}

/// Values that the check accepts: the swaps (Sattolo) make a random single cycle. Some fields have their absent values.
fn accepted_values(words: u8, width: u8, random: &mut Random) -> Card {
    let mut table: Vec<u8> = (0..=u8::MAX).take(1 << words).collect();
    for place in (1..table.len()).rev() {
        table.swap(place, random.below(place));
    }
    if words == 4 && random.once_in(3) {
        table = TSC1_TABLE.to_vec();
    }
    let mut constant = random.word() as u32 & mask(width) | 1;
    if random.once_in(3) && TSC1_CONSTANT <= mask(width) {
        constant = TSC1_CONSTANT;
    }
    Card {
        words,
        width,
        table,
        odd_power: [1, 255, random.byte() | 1][random.below(3)],
        even_power: [0, 2, 254, random.byte() & 254][random.below(4)],
        constant,
        filter: random.within(1, 2) as u8,
        sum_term: random.below(2) as u8,
    }
}

/// Values of sound form: accepted ones, six in ten with one thing changed that 7, 8 or 9 may turn down.
pub fn sound_form(words: u8, width: u8, random: &mut Random) -> Card {
    let mut card = accepted_values(words, width, random);
    let place = random.below(card.table.len());
    match random.below(10) {
        0 => card.table[place] = random.below(card.table.len()) as u8,
        1 => card.table.rotate_left(place),
        2 => card.table.swap(0, place),
        3 => card.constant = random.word() as u32 & mask(width),
        4 => card.odd_power = random.byte(),
        5 => card.even_power = random.byte(),
        _ => {}
    }
    card
}

/// Up to four words as often as more, and eight as often as five to seven.
fn word_count(random: &mut Random) -> u8 {
    let few = random.within(2, 4) as u8;
    let many = [random.within(5, 7) as u8, MOST_WORDS][random.below(2)];
    [few, many][random.below(2)]
}

/// Values of sound form, of 32 bits, any width or a narrow one; or those of a slow card.
fn sound_values(random: &mut Random) -> Card {
    let words = word_count(random);
    match random.below(6) {
        0..=2 => sound_form(words, 32, random),
        3 => sound_form(words, random.within(2, 32) as u8, random),
        4 => sound_form(words, random.within(2, 6) as u8, random),
        _ => slow_values(words, random),
    }
}

/// Values of a card whose higher columns mostly stand still: large words come in long runs, and a pick passes over many of them.
fn slow_values(words: u8, random: &mut Random) -> Card {
    Card {
        even_power: 0,
        constant: 1,
        filter: 1,
        sum_term: 0,
        ..accepted_values(words, 6, random)
    }
}

/// Values that the check accepts, of 2 to 4 bits, any width or 32, or those of a slow card.
fn margin_values(random: &mut Random) -> Card {
    let words = word_count(random);
    match random.below(5) {
        0 | 1 => accepted_values(words, random.within(2, 4) as u8, random),
        2 => accepted_values(words, random.within(2, 32) as u8, random),
        3 => accepted_values(words, 32, random),
        _ => slow_values(words, random),
    }
}

/// A card's bytes: as they are, damaged by one byte, cut short, with bytes behind, random, or with a field given that is absent.
fn card_bytes(sound: &Card, random: &mut Random) -> Vec<u8> {
    let mut bytes = encode(sound);
    let place = random.below(bytes.len());
    match random.below(16) {
        0 => bytes[place] = random.byte(),
        1 => bytes[place] ^= 1 << random.below(8),
        2 => bytes.truncate(place),
        3 => {
            let most = [1, 40, 300][random.below(3)];
            bytes.extend((0..random.within(1, most)).map(|_| random.byte()));
        }
        4 => {
            let most = [40, 300, 600][random.below(3)];
            bytes = (0..random.below(most)).map(|_| random.byte()).collect();
        }
        5 => bytes = small_card(random),
        6 => bytes = idle_card(sound, random),
        _ => {}
    }
    bytes
}

/// A random map with plausible fields after it.
fn small_card(random: &mut Random) -> Vec<u8> {
    let mut bytes = vec![random.byte() & [0xff, 0xdb, 0x03, 0xc3][random.below(4)]];
    bytes.extend((0..random.below(12)).map(|_| random.below(10) as u8));
    bytes
}

/// A card with one more field than it needs, which has its absent value.
fn idle_card(sound: &Card, random: &mut Random) -> Vec<u8> {
    let absent: [&[u8]; 8] = [
        &[4],
        &[32],
        &TSC1_TABLE,
        &[1],
        &[2],
        &TSC1_CONSTANT.to_le_bytes(),
        &[1],
        &[1],
    ];
    let bytes = encode(sound);
    let bit = random.below(8);
    let stands = |k: usize| bytes[0] >> k & 1 == 1;
    if stands(bit) {
        return bytes;
    }
    let before = |k: usize| match (stands(k), k) {
        (false, _) => 0,
        (true, 2) => sound.table.len(),
        (true, 5) => 4,
        (true, _) => 1,
    };
    let at = 1 + (0..bit).map(before).sum::<usize>();
    let mut idle = bytes;
    idle[0] |= 1 << bit;
    idle.splice(at..at, absent[bit].iter().copied());
    idle
}

/// State words: mostly a state of the card's size, also one whose next word is large; else of another size, or with high bits.
fn state_words(card: &Card, random: &mut Random) -> Vec<u32> {
    if card.words >= 4 && random.once_in(6) && check(&encode(card)) == 0 {
        return before_large_word(card, random);
    }
    let right = usize::from(card.words);
    let size = match random.below(24) {
        0 | 1 => random.below(11),
        2 => right + [256, 65536][random.below(2)],
        _ => right,
    };
    let width = [card.width, 32][usize::from(random.once_in(12))];
    let mut state = words(size, width, random);
    if size > 0 && random.once_in(16) {
        state[random.below(size)] = mask(card.width).wrapping_add(1);
    }
    state
}

/// A state of an accepted card, also one whose next word is large.
fn sound_state(card: &Card, random: &mut Random) -> Vec<u32> {
    if card.words >= 4 && random.once_in(4) {
        return before_large_word(card, random);
    }
    words(card.words.into(), card.width, random)
}

/// Words of so many bits: zeros, ones, one of ones among zeros, one of zeros among ones, of zeros, ones or bits by turns, or random.
fn words(count: usize, width: u8, random: &mut Random) -> Vec<u32> {
    let kind = random.below(18);
    let place = random.below(count.max(1));
    let word = |at: usize, random: &mut Random| match kind {
        0 => 0,
        1 => u32::MAX,
        2 => [0, u32::MAX][usize::from(at == place)],
        3 => [u32::MAX, 0][usize::from(at == place)],
        4 => [0, u32::MAX, 0x5555_5555, 0xaaaa_aaaa][random.below(4)],
        _ => random.word() as u32,
    };
    (0..count)
        .map(|at| word(at, random) & mask(width))
        .collect()
}

/// A state of an accepted card of four words or more whose next word is one of the 64 largest, so that wide cards have words passed over too. Either filter adds x3.
fn before_large_word(card: &Card, random: &mut Random) -> Vec<u32> {
    let largest = mask(card.width);
    let mut after: Vec<u32> = (0..card.words)
        .map(|_| random.word() as u32 & largest)
        .collect();
    let bits = random.below(7);
    let wanted = largest.wrapping_sub(random.below(1 << bits) as u32);
    after[3] = 0;
    after[3] = wanted.wrapping_sub(word(card, &after)) & largest;
    step_back(card, &after)
}

/// Place and count: half of them fit; the others don't, by little or by far, also where a number cut to 8, 16 or 32 bits, one with a sign, or the sum modulo 2^64 would.
fn span(length: usize, random: &mut Random) -> (usize, usize) {
    let place = random.below(length + 1);
    let room = length - place;
    let count = random.below(room + 1);
    let far = [1 << 8, 1 << 16, 1 << 32, 1 << 63][random.below(4)];
    let last = usize::MAX - [0, random.below(length + 2)][random.below(2)];
    match random.below(16) {
        0 => (length, 0),
        1 => (place, room),
        2 => (place, room + random.within(1, 3)),
        3 => (length + random.within(1, 3), 0),
        4 => (length + random.within(1, 3), random.below(length + 1)),
        5 => (place, count + far),
        6 => (place + far, [0, count][random.below(2)]),
        7 => (place, last),
        8 => (last, [0, count, last][random.below(3)]),
        9 => (place, random.below(length + 1).wrapping_sub(place)),
        10 => (last, random.below(length + 1).wrapping_sub(last)),
        _ => (place, count),
    }
}

/// How many shovels: few and many, around 64, and so many that a count cut to 8 or 16 bits would pass.
fn shovel_count(random: &mut Random) -> usize {
    match random.below(500) {
        0 => random.within(1, 64) + 65536,
        1..=10 => random.within(1, 64) + 256,
        11..=60 => random.within(63, 66),
        61..=100 => 0,
        101..=250 => random.within(1, 3),
        _ => random.within(1, 64),
    }
}

/// Times of few values or of any.
fn any_times(random: &mut Random) -> Vec<u32> {
    let values = [1, 2, 4, usize::MAX][random.below(4)];
    let base = [0, u32::MAX, random.word() as u32][random.below(3)];
    let time = |random: &mut Random| base.wrapping_add((random.word() as usize % values) as u32);
    (0..shovel_count(random)).map(|_| time(random)).collect()
}

/// Times of which many are the least: a little over half of the words that there are, so that almost half of them are passed over; about as many; or any number. Up to three are not the least.
fn tied_times(width: u8, random: &mut Random) -> Vec<u32> {
    let words = 1 << width.min(6);
    let ties = match random.below(4) {
        0 | 1 => words / 2 + random.within(1, 3),
        2 => words + random.below(3) - 1,
        _ => random.within(1, 64),
    };
    let least = [0, random.word() as u32 >> 1, u32::MAX - 1][random.below(3)];
    let mut times = vec![least; ties];
    times.resize_with(ties + random.below(4), || {
        least + 1 + random.word() as u32 % (u32::MAX - least)
    });
    random.shuffle(&mut times);
    times
}

/// Times for the margin: far apart, many of them the least, of lists that are often firm, or mostly near each other.
fn margin_times(width: u8, random: &mut Random) -> Vec<u32> {
    match random.below(8) {
        0 => far_times(random),
        1 => tied_times(width, random),
        2 => firm_times(width, random),
        _ => near_times(width, random),
    }
}

/// Times within few seconds of each other: half of the lists have them below 200, the others up to the greatest or
/// anywhere. In half of the lists all but three at most are the same: with few bits they may be too many equals.
fn near_times(width: u8, random: &mut Random) -> Vec<u32> {
    let count = match random.below(3) {
        0 => random.within(2, 6),
        1 => (1 << width.min(5)) + random.below(4) - 1,
        _ => random.within(1, 64),
    };
    // of long lists the second program tries many changes for each second
    let spread = [2, 4, 16, 1600 / count.max(16)][random.below(4)];
    let mut later = vec![random.below(spread); count];
    let others = [random.below(4), count][random.below(2)];
    for time in later.iter_mut().take(others) {
        *time = random.below(spread);
    }
    random.shuffle(&mut later);
    let last = u32::MAX as usize + 1 - spread;
    let base = [0, random.below(100), random.below(last), last][random.below(4)];
    later.iter().map(|later| (base + later) as u32).collect()
}

/// Times far apart: a few of any size, or up to 64 in large steps, so that the second program has not too many differences
/// to try.
fn far_times(random: &mut Random) -> Vec<u32> {
    let (count, step, steps) = match random.below(2) {
        0 => (random.within(2, 6), 1, 1 << 32),
        _ => (random.within(2, 64), random.below(1 << 25), 1 << 7),
    };
    let mut time = || (random.below(steps) * step) as u32;
    (0..count).map(|_| time()).collect()
}

/// Times of which one is 0, and the others are the greatest, or small and, with few bits, too many equals.
fn firm_times(width: u8, random: &mut Random) -> Vec<u32> {
    let (count, others) = match random.below(2) {
        0 => (random.within(2, 5), u32::MAX),
        _ => (
            (1 << width.min(5)) + random.within(2, 4),
            random.within(1, 20) as u32,
        ),
    };
    let mut times = vec![others; count];
    times[random.below(count)] = 0;
    times
}

/// Different shovel numbers, in any order.
fn numbers(count: usize, random: &mut Random) -> Vec<u16> {
    let first = random.word() as u16;
    let stride = random.word() as u16 | 1; // odd, so that no number stands twice up to 65,536
    let mut shovels: Vec<u16> = (0..count)
        .map(|i| first.wrapping_add((i as u16).wrapping_mul(stride)))
        .collect();
    random.shuffle(&mut shovels);
    shovels
}

/// Shovels and times: repeated numbers; lists of different lengths.
fn lists(width: u8, random: &mut Random) -> (Vec<u16>, Vec<u32>) {
    let mut times = match random.below(2) {
        0 => any_times(random),
        _ => tied_times(width, random),
    };
    let count = times.len();
    let mut shovels = numbers(count, random);
    if count > 1 && random.once_in(12) {
        shovels[random.below(count)] = shovels[random.below(count)];
    }
    let more = random.word() as u32;
    match random.below(48) {
        0 => times.push(more),
        1 => _ = times.pop(),
        2 => times.clear(),
        3 => times.resize(count + 256, more),
        _ => {}
    }
    (shovels, times)
}

/// The writer's values: those of a card, with the table as it is or filled up, cut, overlong or with an unused entry that may not be 0; some with a value out of range.
fn writer_values(mut values: Card, random: &mut Random) -> Card {
    let size = values.table.len();
    match random.below(10) {
        0 => values.table.resize(TABLE_ENTRIES, 0),
        1 => {
            let most = [size, TABLE_ENTRIES][random.below(2)];
            values
                .table
                .resize(random.below(most + 4), random.byte() % 2);
        }
        2 => values.table.resize(size + random.below(4), 0),
        3 => values.table.resize(TABLE_ENTRIES + random.below(4), 0),
        4 if size < TABLE_ENTRIES => {
            values.table.resize(TABLE_ENTRIES, 0);
            values.table[random.within(size, TABLE_ENTRIES - 1)] = random.byte();
        }
        _ => {}
    }
    let any = random.byte();
    match random.below(24) {
        0 => values.words = [0, 1, 9, any, word_count(random)][random.below(5)],
        1 => values.width = [0, 1, 33, any][random.below(4)],
        2 => values.filter = [0, 3, any][random.below(3)],
        3 => values.sum_term = [2, any][random.below(2)],
        4 => values.constant = random.word() as u32,
        5 if !values.table.is_empty() => {
            let place = random.below(values.table.len());
            values.table[place] = any;
        }
        _ => {}
    }
    values
}

/// A page of a length around the one needed, or of any up to 300, with random bytes on it.
fn page_for(values: &Card, random: &mut Random) -> Vec<u8> {
    let mut needed = values.clone();
    needed
        .table
        .resize(1 << values.words.clamp(2, MOST_WORDS), 0);
    let length = match random.below(8) {
        0 => random.below(40),
        1 => random.below(300),
        _ => (encode(&needed).len() + random.below(5)).saturating_sub(2),
    };
    (0..length).map(|_| random.byte()).collect()
}
