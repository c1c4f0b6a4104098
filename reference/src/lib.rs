//! A second, independent implementation of the generator, for comparison by running.
//!
//! Written from three papers alone: document 002 (Hong, Lee, Yeom and Han, "A New Class of Single
//! Cycle T-functions") defines TSC-1 and TSC-2; document 01, the scope, widens the sizes and has
//! the card and the refusal numbers; document 02 has the requests after that. Kept plain: column
//! by column, as document 002 (12) says. The module `gates` has the step of TSC-1 by gates, and its
//! tests hold it to that.

pub mod bad_places;
pub mod bits;
pub mod cases;
pub mod fill;
pub mod gates;
#[cfg(test)]
mod large_tests;
pub mod map;
pub mod margin;
pub mod period;
pub mod pick;
pub mod record;
pub mod replay;

/// The table of TSC-1, document 002 (14).
pub const TSC1_TABLE: [u8; 16] = [3, 5, 9, 13, 1, 6, 11, 15, 4, 0, 8, 14, 10, 7, 2, 12];
/// The table of TSC-2, document 002 (19).
pub const TSC2_TABLE: [u8; 16] = [5, 2, 11, 12, 13, 4, 3, 14, 15, 8, 1, 6, 7, 10, 9, 0];
/// The most words of a state, the largest m (document 02, Five).
pub const MOST_WORDS: u8 = 8;
/// The entries of the array in which the writer takes a table, 2^m for the largest m.
pub const TABLE_ENTRIES: usize = 1 << MOST_WORDS;
/// The most bytes that the program reads (document 02, Five).
pub const MOST_READ: usize = 512;
/// The constant C of TSC-1, document 002 (13).
pub const TSC1_CONSTANT: u32 = 0x1248_8421;

/// The eight values of a card (document 01, The card).
#[derive(Clone, PartialEq, Debug)]
pub struct Card {
    pub words: u8,      // m, the number of state words
    pub width: u8,      // n, the bits of a state word
    pub table: Vec<u8>, // 2^m entries, each below 2^m
    pub odd_power: u8,  // a, the table's power where the selector bit is 1
    pub even_power: u8, // b, the table's power where the selector bit is 0
    pub constant: u32,  // C
    pub filter: u8,     // 1 for document 002 (15), 2 for (20)
    pub sum_term: u8,   // 1 when the selector takes in 2s
}

/// 2^n - 1.
pub fn mask(width: u8) -> u32 {
    u32::MAX >> (32 - width)
}

// ---- Reader, check and writer (document 01, The card and Refusal table) ----

/// Takes `count` bytes from the front of `rest`, or refuses with 1.
fn take<'a>(rest: &mut &'a [u8], count: usize) -> Result<&'a [u8], u8> {
    let (field, after) = rest.split_at_checked(count).ok_or(1)?;
    *rest = after;
    Ok(field)
}

/// Reads a field of one byte from `low` to `high`, with the checks 1, 2, 3 in this order.
fn field(rest: &mut &[u8], present: bool, low: u8, high: u8, absent: u8) -> Result<u8, u8> {
    if !present {
        return Ok(absent);
    }
    let value = take(rest, 1)?[0];
    if value < low || value > high {
        return Err(2);
    }
    if value == absent {
        return Err(3);
    }
    Ok(value)
}

/// True when each entry is below 2^m, which for m = 8 is every byte.
fn entries_in_range(table: &[u8], words: u8) -> bool {
    table.iter().all(|&entry| u32::from(entry) < 1 << words)
}

/// Reads a card of sound form; refusals 1 to 6.
pub fn read(bytes: &[u8]) -> Result<Card, u8> {
    let mut rest = bytes;
    let map = take(&mut rest, 1)?[0];
    let present = |bit: u8| (map >> bit) & 1 == 1;

    let words = field(&mut rest, present(0), 2, MOST_WORDS, 4)?;
    let width = field(&mut rest, present(1), 2, 32, 32)?;
    let table = match (present(2), words) {
        (true, _) => take(&mut rest, 1 << words)?.to_vec(),
        (false, 4) => TSC1_TABLE.to_vec(),
        (false, _) => return Err(4),
    };
    if !entries_in_range(&table, words) {
        return Err(2);
    }
    if present(2) && table == TSC1_TABLE {
        return Err(3);
    }
    let odd_power = field(&mut rest, present(3), 0, 255, 1)?;
    let even_power = field(&mut rest, present(4), 0, 255, 2)?;
    let mut constant = TSC1_CONSTANT;
    if present(5) {
        let four = take(&mut rest, 4)?;
        constant = u32::from_le_bytes([four[0], four[1], four[2], four[3]]);
        if constant == TSC1_CONSTANT {
            return Err(3);
        }
    }
    let filter = field(&mut rest, present(6), 1, 2, 1)?;
    let sum_term = field(&mut rest, present(7), 0, 1, 1)?;

    if !rest.is_empty() {
        return Err(5);
    }
    if constant > mask(width) {
        return Err(6);
    }
    Ok(Card {
        words,
        width,
        table,
        odd_power,
        even_power,
        constant,
        filter,
        sum_term,
    })
}

/// True when following the table from 0 passes every entry and then comes back to 0.
fn is_ring(table: &[u8]) -> bool {
    let mut seen = vec![false; table.len()];
    let mut place = 0;
    for _ in 0..table.len() {
        seen[place] = true;
        place = usize::from(table[place]);
    }
    place == 0 && seen.iter().all(|&passed| passed)
}

/// The checks 7, 8, 9 of a card of sound form.
fn check_walk(card: &Card) -> Result<(), u8> {
    if !is_ring(&card.table) {
        return Err(7);
    }
    if card.constant & 1 == 0 {
        return Err(8);
    }
    if card.odd_power & 1 == 0 || card.even_power & 1 == 1 {
        return Err(9);
    }
    Ok(())
}

/// Reads a card and makes all checks; refusals 1 to 9.
pub fn accept(bytes: &[u8]) -> Result<Card, u8> {
    let card = read(bytes)?;
    check_walk(&card)?;
    Ok(card)
}

/// 0 for an accepted card, otherwise its refusal number, 1 to 9.
pub fn check(bytes: &[u8]) -> u8 {
    accept(bytes).err().unwrap_or(0)
}

/// Writes a card; refusals 2, 6, 7, 8, 9. A field stands only when it differs from its absent
/// value, the table always when m is not 4. A table of any other length than 2^m is 2.
pub fn write(card: &Card) -> Result<Vec<u8>, u8> {
    let in_range = (2..=MOST_WORDS).contains(&card.words)
        && (2..=32).contains(&card.width)
        && card.table.len() == 1 << card.words
        && entries_in_range(&card.table, card.words)
        && (1..=2).contains(&card.filter)
        && card.sum_term <= 1;
    if !in_range {
        return Err(2);
    }
    if card.constant > mask(card.width) {
        return Err(6);
    }
    check_walk(card)?;
    Ok(encode(card))
}

/// The bytes of a card, whether or not a check accepts it: the map, then the fields that stand, from bit 0 up.
pub fn encode(card: &Card) -> Vec<u8> {
    let table_stands = card.words != 4 || card.table != TSC1_TABLE;
    let constant = card.constant.to_le_bytes();
    let fields: [(bool, &[u8]); 8] = [
        (card.words != 4, &[card.words]),
        (card.width != 32, &[card.width]),
        (table_stands, &card.table),
        (card.odd_power != 1, &[card.odd_power]),
        (card.even_power != 2, &[card.even_power]),
        (card.constant != TSC1_CONSTANT, &constant),
        (card.filter != 1, &[card.filter]),
        (card.sum_term != 1, &[card.sum_term]),
    ];
    let mut bytes = vec![0];
    for (bit, (stands, field)) in fields.into_iter().enumerate() {
        if stands {
            bytes[0] |= 1 << bit;
            bytes.extend(field);
        }
    }
    bytes
}

// ---- Step, step back and word (document 01, Step, word and pick) ----

/// Column i: bit k is bit i of word k, document 002 (2).
fn column(state: &[u32], i: u8) -> u8 {
    let mut value = 0;
    for (k, x) in state.iter().enumerate() {
        value |= (((x >> i) & 1) as u8) << k;
    }
    value
}

/// Puts a value into column i of a state that has zeros there.
fn put_column(state: &mut [u32], i: u8, value: u8) {
    for (k, x) in state.iter_mut().enumerate() {
        *x |= u32::from((value >> k) & 1) << i;
    }
}

/// The selector, document 002 (13) and (18), within n bits; without 2s if the sum term is 0.
pub fn selector(card: &Card, state: &[u32]) -> u32 {
    let p = state.iter().fold(mask(card.width), |all, x| all & x);
    let s = state.iter().fold(0, |sum: u32, x| sum.wrapping_add(*x));
    let mut alpha = p.wrapping_add(card.constant) ^ p;
    if card.sum_term == 1 {
        alpha ^= s.wrapping_mul(2);
    }
    alpha & mask(card.width)
}

/// How often the table is applied to column i: a if the selector bit is 1, otherwise b.
fn power(card: &Card, selector: u32, i: u8) -> u8 {
    if (selector >> i) & 1 == 1 {
        card.odd_power
    } else {
        card.even_power
    }
}

/// The step, document 002 (12), for every card of sound form.
pub fn step(card: &Card, state: &[u32]) -> Vec<u32> {
    let alpha = selector(card, state);
    let mut after = vec![0; state.len()];
    for i in 0..card.width {
        let mut value = column(state, i);
        for _ in 0..power(card, alpha, i) {
            value = card.table[usize::from(value)];
        }
        put_column(&mut after, i, value);
    }
    after
}

/// The one state whose step is the given state, for an accepted card. Selector bit i depends
/// only on columns below i (document 002, Definition 2), so the columns come up from the lowest.
pub fn step_back(card: &Card, state: &[u32]) -> Vec<u32> {
    let mut place_of = vec![0; card.table.len()]; // an accepted table has every entry
    for (place, entry) in card.table.iter().enumerate() {
        place_of[usize::from(*entry)] = place as u8;
    }
    let mut before = vec![0; state.len()];
    for i in 0..card.width {
        // columns i and above are still 0 here, which leaves bit i as it is
        let alpha = selector(card, &before);
        let mut value = column(state, i);
        for _ in 0..power(card, alpha, i) {
            value = place_of[usize::from(value)];
        }
        put_column(&mut before, i, value);
    }
    before
}

/// A left turn within n bits by the amount modulo n.
fn rotate_left(value: u32, amount: u8, width: u8) -> u32 {
    let by = amount % width;
    if by == 0 {
        return value;
    }
    ((value << by) | (value >> (width - by))) & mask(width)
}

/// The filter of a state, document 002 (15) and (20), of its first four words; either adds the
/// words from x4 on, xk turned by k (document 02, Five). The output word is the filter of the
/// state after the step, so the caller steps first.
pub fn word(card: &Card, state: &[u32]) -> u32 {
    let rotate = |value: u32, amount: u8| rotate_left(value, amount, card.width);
    let add = |left: u32, right: u32| left.wrapping_add(right) & mask(card.width);
    let mut x = [0; MOST_WORDS as usize]; // absent words count as 0
    x[..state.len()].copy_from_slice(state);

    let of_four = if card.filter == 1 {
        let first = rotate(add(rotate(x[0], 9), x[1]), 15);
        let second = add(rotate(x[2], 7), x[3]);
        add(first, second)
    } else {
        let first = rotate(add(rotate(x[0], 11), x[1]), 14);
        let second = rotate(add(rotate(x[0], 13), x[2]), 22);
        let third = add(rotate(x[0], 12), x[3]);
        add(add(first, second), third)
    };
    (4..MOST_WORDS).fold(of_four, |sum, k| add(sum, rotate(x[usize::from(k)], k)))
}

// ---- Calls on card bytes and a lent state (document 01, Refusal table) ----

/// Refusals 1 to 9 for the card, then 10 and 11 for the state.
fn accept_call(card: &[u8], state: &[u32]) -> Result<Card, u8> {
    let card = accept(card)?;
    if state.len() != usize::from(card.words) {
        return Err(10);
    }
    if state.iter().any(|&x| x > mask(card.width)) {
        return Err(11);
    }
    Ok(card)
}

/// Writes a card to the front of the page and answers its length, or a refusal number with the
/// page unchanged: 2, 6, 7, 8, 9, then 16. The table is the array of 256 entries, those from 2^m on
/// 0; a table of any other length is 2.
pub fn call_write(values: &Card, page: &mut [u8]) -> Result<usize, u8> {
    if !(2..=MOST_WORDS).contains(&values.words) || values.table.len() != TABLE_ENTRIES {
        return Err(2);
    }
    let mut card = values.clone();
    let unused = card.table.split_off(1 << card.words);
    if unused.iter().any(|&entry| entry != 0) {
        return Err(2);
    }
    let bytes = write(&card)?;
    let place = page.get_mut(..bytes.len()).ok_or(16)?;
    place.copy_from_slice(&bytes);
    Ok(bytes.len())
}

/// Steps the state and answers its word, or a refusal number with the state unchanged.
pub fn call_draw(card: &[u8], state: &mut [u32]) -> Result<u32, u8> {
    let card = accept_call(card, state)?;
    let after = step(&card, state);
    state.copy_from_slice(&after);
    Ok(word(&card, state))
}

/// Steps the state; 0, or a refusal number with the state unchanged.
pub fn call_step(card: &[u8], state: &mut [u32]) -> u8 {
    call_draw(card, state).err().unwrap_or(0)
}

/// Steps the state back; 0, or a refusal number with the state unchanged.
pub fn call_step_back(card: &[u8], state: &mut [u32]) -> u8 {
    let before = match accept_call(card, state) {
        Ok(card) => step_back(&card, state),
        Err(refusal) => return refusal,
    };
    state.copy_from_slice(&before);
    0
}

/// Input numbers for the tests and the cases: xorshift32, the new x is the answer.
pub fn next(x: &mut u32) -> u32 {
    *x ^= *x << 13;
    *x ^= *x >> 17;
    *x ^= *x << 5;
    *x
}

#[cfg(test)]
mod tests {
    use super::*;
    use crate::cases::random_card;

    const PROGRAM: &str = "27 02 02 01 02 03 00 01 00 00 00"; // document 01, The program
    const TSC2: &str = "74 05 02 0b 0c 0d 04 03 0e 0f 08 01 06 07 0a 09 00 00 01 00 00 00 02";

    fn hex(text: &str) -> Vec<u8> {
        let byte = |two| u8::from_str_radix(two, 16).unwrap();
        text.split_whitespace().map(byte).collect()
    }

    /// True when the N states from zero are all different and state N is zero again.
    fn walk_passes_all(card: &Card) -> bool {
        let zero = vec![0; usize::from(card.words)];
        let mut seen = std::collections::HashSet::new();
        let mut state = zero.clone();
        while seen.insert(state.clone()) {
            state = step(card, &state);
        }
        state == zero && seen.len() == 1 << (card.words * card.width)
    }

    /// Document 01, At the edges: P1 and P3 to P12 (P2 is TSC2), then Others; the order of the
    /// checks; given values that equal the absent ones; the ranges; 8 and 9 by one field.
    const VERDICTS: &str = "00 = 0, = 1, 01 03 = 4, 02 1c = 6, 02 1d = 0,
        05 02 00 01 02 03 = 7, 05 02 00 01 02 03 00 = 5, 08 01 = 3, 08 02 = 9, 08 03 = 0, 10 00 = 0,
        01 01 = 2, 01 05 = 4, 01 04 = 3, 02 21 = 2, 02 20 = 3, 05 02 01 02 03 03 = 7,
        27 02 02 01 02 03 00 02 00 00 00 = 8, 27 02 02 01 02 03 00 04 00 00 00 = 6,
        c0 03 = 2, 05 03 09 = 1, 01 03 ff = 4, 09 03 = 4, 02 08 = 6, 20 21 84 48 = 1,
        04 03 05 09 0d 01 06 0b 0f 04 00 08 0e 0a 07 02 0c = 3,
        10 02 = 3, 20 21 84 48 12 = 3, 40 01 = 3, 80 01 = 3, 02 01 = 2, 40 00 = 2, 40 03 = 2,
        80 02 = 2, 05 02 01 02 03 04 = 2, 20 22 84 48 12 = 8, 10 03 = 9, 18 02 04 = 9";

    #[test]
    fn verdicts() {
        let others = VERDICTS.split(',').map(|row| row.split_once('=').unwrap());
        for (card, refusal) in others.chain([(TSC2, "0"), (PROGRAM, "0")]) {
            let bytes = hex(card);
            let refusal: u8 = refusal.trim().parse().unwrap();
            assert_eq!(check(&bytes), refusal, "{card}");
            match read(&bytes) {
                Ok(sound) if refusal == 0 => assert_eq!(write(&sound), Ok(bytes), "{card}"),
                Ok(sound) => assert_eq!(write(&sound), Err(refusal), "{card}"),
                Err(number) => assert!(number == refusal && refusal <= 6, "{card}"),
            }
        }
    }

    #[test]
    fn states_and_words() {
        let first = [0xffff_ffff, 0x1248_8421, 0xedb7_7bde, 0xedb7_7bde];
        let rows = [("00", first, 0x0b857478), (TSC2, [1, 0, 1, 0], 0x02401008)];
        for (card, after, output) in rows {
            let mut state = [0; 4];
            assert_eq!(call_draw(&hex(card), &mut state), Ok(output));
            assert_eq!(state, after);
        }
        let mut state = [0, 0];
        for (after, output) in [([1, 2], 0), ([2, 3], 0), ([1, 1], 3), ([2, 0], 2)] {
            assert_eq!(call_draw(&hex(PROGRAM), &mut state), Ok(output));
            assert_eq!(state, after);
        }
    }

    #[test]
    fn refused_calls_leave_the_state() {
        let rows: [(&str, &[u32], u8); 3] = [
            ("08 02", &[1, 2, 3], 9),
            ("02 1d", &[1 << 29, 0, 0], 10),
            ("02 1d", &[0, 0, 0, 1 << 29], 11),
        ];
        for (card, state, refusal) in rows {
            let mut lent = state.to_vec();
            assert_eq!(call_step(&hex(card), &mut lent), refusal);
            assert_eq!(call_step_back(&hex(card), &mut lent), refusal);
            assert_eq!(call_draw(&hex(card), &mut lent), Err(refusal));
            assert_eq!(lent, state);
        }
    }

    #[test]
    fn step_back_undoes_step() {
        let mut x = 1;
        for _ in 0..4000 {
            let (words, width) = (2 + next(&mut x) % 7, 2 + next(&mut x) % 31);
            let card = random_card(words as u8, width as u8, &mut x);
            let low = mask(card.width);
            let state: Vec<u32> = (0..words).map(|_| next(&mut x) & low).collect();
            assert_eq!(accept(&write(&card).unwrap()), Ok(card.clone()));
            assert_eq!(step_back(&card, &step(&card, &state)), state);
            assert_eq!(step(&card, &step_back(&card, &state)), state);
        }
    }

    /// Document 01, demand 3, on every size of at most 8 bits of state.
    #[test]
    fn check_accepts_exactly_the_full_walks() {
        let mut x = 2;
        for (words, width) in [(2, 2), (2, 3), (2, 4), (3, 2), (4, 2)] {
            let mut verdicts = [0; 10];
            for _ in 0..2000 {
                let mut card = random_card(words, width, &mut x);
                match next(&mut x) % 6 {
                    0 => card.table.rotate_left(next(&mut x) as usize % 4),
                    1 => {
                        let place = next(&mut x) as usize % 4;
                        card.table[place] = next(&mut x) as u8 % (1 << words);
                    }
                    2 => card.constant = next(&mut x) & mask(width),
                    3 => card.odd_power = next(&mut x) as u8,
                    4 => card.even_power = next(&mut x) as u8,
                    _ => {}
                }
                let bytes = encode(&card);
                assert_eq!(read(&bytes), Ok(card.clone()));
                let verdict = check(&bytes);
                assert_eq!(verdict == 0, walk_passes_all(&card), "{card:?}");
                verdicts[usize::from(verdict)] += 1;
            }
            assert!([0, 7, 8, 9].iter().all(|&v| verdicts[v] > 50));
        }
    }
}
