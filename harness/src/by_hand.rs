//! The generator in Rust as one would write it by hand for speed, for any accepted card: what the library's fill is timed
//! beside. All columns at once by minterm masks, and two ways column by column, with the same selector and word. And how near
//! a pick is, for the library's margin. Written for cards of up to M words with E = 2^M entries, so that a small card does not
//! pay for the largest; no loop over the words asks the card how many it has.

pub mod bits;
pub mod gates;
pub mod map;
pub mod records;
pub mod tables;

use reference::{mask, Card};
use std::array::from_fn;
use tiedraw::{Choice, Margin, Shovel, MOST_TAKEN};

/// Words past the card's are 0.
pub type State<const M: usize> = [u32; M];

/// What depends on the card alone, worked out once.
pub struct Setup<const M: usize, const E: usize> {
    /// n
    width: u32,
    /// 2^n - 1
    low: u32,
    /// ones in each word past m
    absent: State<M>,
    constant: u32,
    /// 2^n - 1 where the selector has the term 2s, else 0
    doubled: u32,
    filter: u8,
    /// places of the filter's rotations, below n
    rotations: [u32; 5],
    /// those of each word from x4 on
    more: State<M>,
    /// the table's even power, then its odd one
    powers: [[u32; E]; 2],
}

/// The table applied k times, for every entry; 0 past 2^m, which no column holds.
fn power<const E: usize>(table: &[u8], k: u8) -> [u32; E] {
    let image = |x: usize| (0..k).fold(x, |x, _| usize::from(table[x]));
    from_fn(|x| if x < table.len() { image(x) as u32 } else { 0 })
}

impl<const M: usize, const E: usize> Setup<M, E> {
    pub fn new(card: &Card) -> Setup<M, E> {
        let low = mask(card.width);
        let rotations = match card.filter {
            1 => [9, 15, 7, 0, 0],
            _ => [11, 14, 13, 22, 12],
        };
        Setup {
            width: card.width.into(),
            low,
            absent: from_fn(|k| if k < card.words.into() { 0 } else { u32::MAX }),
            constant: card.constant,
            doubled: low * u32::from(card.sum_term),
            filter: card.filter,
            rotations: rotations.map(|places| places % u32::from(card.width)),
            more: from_fn(|k| k as u32 % u32::from(card.width)),
            powers: [card.even_power, card.odd_power].map(|k| power(&card.table, k)),
        }
    }

    fn selector(&self, x: &State<M>) -> u32 {
        let mut p = self.low;
        let mut sum = 0u32;
        for (word, absent) in x.iter().zip(&self.absent) {
            p &= word | absent;
            sum = sum.wrapping_add(*word);
        }
        (p.wrapping_add(self.constant) & self.low) ^ p ^ (sum << 1 & self.doubled)
    }

    fn add(&self, x: u32, y: u32) -> u32 {
        x.wrapping_add(y) & self.low
    }

    /// Rotated left within n bits, without a branch where the places are 0.
    fn rotated(&self, x: u32, places: u32) -> u32 {
        (x << places & self.low) | (x >> 1 >> (self.width - 1 - places))
    }

    fn word(&self, x: &State<M>) -> u32 {
        let more = x.iter().zip(&self.more).skip(4);
        more.fold(self.word_of_four(x), |sum, (&word, &places)| {
            self.add(sum, self.rotated(word, places))
        })
    }

    fn word_of_four(&self, x: &State<M>) -> u32 {
        let [a, b, c, d, e] = self.rotations;
        if self.filter == 2 {
            let first = self.add(self.rotated(x[0], a), x[1]);
            let second = self.add(self.rotated(x[0], c), x[2]);
            let rest = self.add(self.rotated(x[0], e), x[3]);
            return self.add(
                self.add(self.rotated(first, b), self.rotated(second, d)),
                rest,
            );
        }
        let inner = self.add(self.rotated(x[0], a), x[1]);
        let rest = self.add(self.rotated(x[2], c), x[3]);
        self.add(self.rotated(inner, b), rest)
    }
}

// ---- By minterm masks.

/// The columns that hold c.
fn holding<const M: usize, const E: usize>(setup: &Setup<M, E>, x: &State<M>, c: u32) -> u32 {
    let mut t = setup.low;
    for (k, word) in x.iter().enumerate() {
        t &= word ^ (c >> k & 1).wrapping_sub(1);
    }
    t
}

/// Image d put in at the columns t.
fn put<const M: usize>(after: &mut State<M>, t: u32, d: u32) {
    for (k, word) in after.iter_mut().enumerate() {
        *word |= t & 0u32.wrapping_sub(d >> k & 1);
    }
}

/// Inlined although fill and margin both call it: out of line it takes half as long again.
#[inline(always)]
fn step_by_masks<const M: usize, const E: usize>(setup: &Setup<M, E>, x: &State<M>) -> State<M> {
    let a = setup.selector(x);
    let [even, odd] = &setup.powers;
    let (mut u, mut v) = ([0; M], [0; M]);
    for c in 0..E {
        let t = holding(setup, x, c as u32);
        put(&mut u, t, odd[c]);
        put(&mut v, t, even[c]);
    }
    from_fn(|k| (u[k] & a) | (v[k] & !a))
}

// ---- Column by column.

fn step_by_columns<const M: usize, const E: usize>(setup: &Setup<M, E>, x: &State<M>) -> State<M> {
    let a = setup.selector(x);
    let mut after = [0; M];
    for i in 0..setup.width {
        let column = (0..M).fold(0, |column, k| column | (x[k] >> i & 1) << k);
        let to = setup.powers[(a >> i & 1) as usize][column as usize];
        for (k, word) in after.iter_mut().enumerate() {
            *word |= (to >> k & 1) << i;
        }
    }
    after
}

/// Both powers' images joined by the selector's bit as a mask. What made it quicker: all 32 columns and not n, from the top
/// down, and out of line, where the loop has the registers to itself.
#[inline(never)]
fn step_by_joined_columns<const M: usize, const E: usize>(
    setup: &Setup<M, E>,
    x: &State<M>,
) -> State<M> {
    let a = setup.selector(x);
    let [even, odd] = &setup.powers;
    let mut after = [0; M];
    for i in (0..u32::BITS).rev() {
        let bits = x.iter().rev().map(|word| word >> i & 1);
        let column = bits.fold(0, |column, bit| column << 1 | bit as usize);
        let selected = 0u32.wrapping_sub(a >> i & 1);
        let to = (odd[column] & selected) | (even[column] & !selected);
        for (k, word) in after.iter_mut().enumerate() {
            *word = *word << 1 | (to >> k & 1);
        }
    }
    after.map(|word| word & setup.low)
}

// ---- A strip of words.

/// Fills a strip and carries the state on.
pub type Fill<const M: usize, const E: usize> = fn(&Setup<M, E>, &mut State<M>, &mut [u32]);

fn fill<const M: usize, const E: usize>(
    setup: &Setup<M, E>,
    state: &mut State<M>,
    strip: &mut [u32],
    step: impl Fn(&Setup<M, E>, &State<M>) -> State<M>,
) {
    let mut x = *state;
    for word in strip {
        x = step(setup, &x);
        *word = setup.word(&x);
    }
    *state = x;
}

pub fn fill_by_masks<const M: usize, const E: usize>(
    setup: &Setup<M, E>,
    state: &mut State<M>,
    strip: &mut [u32],
) {
    fill(setup, state, strip, step_by_masks)
}

pub fn fill_by_columns<const M: usize, const E: usize>(
    setup: &Setup<M, E>,
    state: &mut State<M>,
    strip: &mut [u32],
) {
    fill(setup, state, strip, step_by_columns)
}

pub fn fill_by_joined_columns<const M: usize, const E: usize>(
    setup: &Setup<M, E>,
    state: &mut State<M>,
    strip: &mut [u32],
) {
    fill(setup, state, strip, step_by_joined_columns)
}

// ---- How near a pick is: document 02, Four.

/// The words from a state on, each drawn once, when it is first asked for.
struct Words<'a, const M: usize, const E: usize> {
    setup: &'a Setup<M, E>,
    state: State<M>,
    drawn: Vec<u32>,
}

impl<const M: usize, const E: usize> Words<'_, M, E> {
    /// The word at a place up to the first that is not yet drawn.
    fn word(&mut self, place: usize) -> usize {
        if place == self.drawn.len() {
            self.state = step_by_masks(self.setup, &self.state);
            self.drawn.push(self.setup.word(&self.state));
        }
        self.drawn[place] as usize
    }

    /// The rank among equals and the words taken for it; none where it is refused.
    fn rank(&mut self, equals: usize) -> Option<(usize, usize)> {
        let words = 1 << self.setup.width;
        let limit = words - words % equals; // 0 where there are more equals than words
        if equals == 1 || limit == 0 {
            return (equals == 1).then_some((0, 0));
        }
        let last = MOST_TAKEN - 1;
        let serving = (0..last).find(|&place| self.word(place) < limit);
        let place = serving.unwrap_or(last);
        Some((self.word(place) % equals, place + 1))
    }

    /// Of shovels in ascending order; none where it is refused.
    fn pick(&mut self, list: &[Shovel]) -> Option<Choice> {
        let least = list.iter().map(|shovel| shovel.time).min()?;
        let equals = || list.iter().filter(|shovel| shovel.time == least);
        let ties = equals().count();
        let (rank, taken) = self.rank(ties)?;
        Some(Choice {
            shovel: equals().nth(rank)?.number,
            ties: ties as u8,
            taken: taken as u8,
        })
    }
}

/// The least time and the next, which is the same where several have it.
fn two_least(list: &[Shovel]) -> (u32, u32) {
    let times = list.iter().map(|shovel| shovel.time);
    times.fold((u32::MAX, u32::MAX), |(least, next), time| {
        (least.min(time), least.max(time).min(next))
    })
}

/// Of a sound list; none where the pick is firm or refused. A time is changed to less than the least of the others, to as
/// much and to more, each by as little as can be.
pub fn margin<const M: usize, const E: usize>(
    setup: &Setup<M, E>,
    state: &State<M>,
    mut list: Vec<Shovel>,
) -> Option<Margin> {
    list.sort_unstable_by_key(|shovel| shovel.number);
    let mut words = Words {
        setup,
        state: *state,
        drawn: Vec::with_capacity(MOST_TAKEN),
    };
    let unchanged = words.pick(&list)?.shovel;
    let (least, next) = two_least(&list);
    let mut nearest: Option<Margin> = None;
    for place in 0..list.len() {
        let Shovel { number, time } = list[place];
        let other = if time == least { next } else { least };
        for to in [other.saturating_sub(1), other, other.saturating_add(1)] {
            let seconds = time.abs_diff(to);
            if seconds == 0 || nearest.is_some_and(|margin| margin.seconds <= seconds) {
                continue;
            }
            list[place].time = to;
            let elsewhere = words.pick(&list).filter(|to| to.shovel != unchanged);
            let margin = |choice| Margin {
                changed: number,
                raised: to > time,
                seconds,
                choice,
            };
            nearest = elsewhere.map(margin).or(nearest);
        }
        list[place].time = time;
    }
    nearest
}
