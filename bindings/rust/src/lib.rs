//! Tie draws for mine dispatch, proved: a safe wrapper over `include/tiedraw.h`, on the standard library alone.
//!
//! [`Generator`] holds an accepted card and a state of its size, so that its draws, fills and steps can't be refused; a
//! list of [`Shovel`]s can't have more numbers than times. [`Generator::margin`] tells how near a pick would be, and
//! moves nothing. [`Generator::pick_recorded`] also gives the record of a tie, which [`read_record`] reads for the desk
//! and [`order_for`] for a cab. [`Generator::pick_by_map`] picks by places where times are missing, and
//! [`Place::shovels_within`] lists the shovels within a radius. [`Card::bit_counts`] gives words as bits for the tests of
//! NIST SP 800-22, with their counts. [`bad_places`] tells what to look at in a card whose table is no single cycle.
//! The functions of this module are the library's own, on slices, for callers who keep card and state themselves.
//!
//! Every call panics where the library has another major or minor version than this binding ([`check_version`]).
//!
//! ```
//! use tiedraw::{Card, Generator, Shovel};
//! let card = Card::new(&[0x27, 2, 2, 1, 2, 3, 0, 1, 0, 0, 0])?;
//! let mut server = Generator::new(card, &[0, 0])?;
//! let choice = server.pick(&[Shovel { number: 7, time: 300 }, Shovel { number: 4, time: 300 }])?;
//! assert_eq!((choice.shovel, choice.ties, choice.taken), (4, 2, 1));
//! assert_eq!(server.state(), [1, 2]);
//! # Ok::<(), tiedraw::Refusal>(())
//! ```

#![warn(missing_docs)]

mod bits;
pub mod ffi;
mod map;
mod record;
mod refusal;
mod version;

pub use bits::{bit_counts, BitCounts};
pub use map::{pick_by_map, within, Place, PlacedShovel};
pub use record::{order_for, pick_recorded, read_record, Record, RecordBytes};
pub use refusal::Refusal;
pub use version::{check_version, library_version, Version, VersionMismatch, VERSION};

/// No state has more words.
pub const MOST_WORDS: usize = 8;
/// No table has more entries.
pub const TABLE_SIZE: usize = 1 << MOST_WORDS;
/// No accepted card has more bytes.
pub const MOST_CARD_BYTES: usize = 267;
/// No pick is among more shovels.
pub const MOST_SHOVELS: usize = 64;
/// No pick takes more words.
pub const MOST_TAKEN: usize = 16;
/// No record has more bytes.
pub const MOST_RECORD_BYTES: usize = 8 + 4 * MOST_WORDS;
/// No strip whose bits are counted has more words.
pub const MOST_STRIP_WORDS: usize = 16384;
/// No table has more bad places.
pub const MOST_BAD_PLACES: usize = TABLE_SIZE / 2;
/// No coordinate is further from 0, in metres.
pub const MOST_COORDINATE: i32 = 1000000;
/// No radius is greater, in metres.
pub const MOST_RADIUS: i32 = 3000000;

/// The card of TSC-1: every field absent.
const TSC1: &[u8] = &[0];

/// What a pick answers.
#[derive(Clone, Copy, Debug, PartialEq, Eq)]
pub struct Choice {
    /// the number of the shovel that is chosen
    pub shovel: u16,
    /// how many were nearest: had the least time or, by the map, the least distance
    pub ties: u8,
    /// how many words were taken, 0 where one alone was nearest; as many steps back take the pick back
    pub taken: u8,
}

impl Choice {
    fn of(answer: ffi::Choice) -> Result<Choice, Refusal> {
        let choice = Choice {
            shovel: answer.shovel,
            ties: answer.ties,
            taken: answer.taken,
        };
        Refusal::result(answer.refusal).map(|()| choice)
    }
}

/// What a margin answers: the smallest change of one shovel's time that would send the truck elsewhere.
#[derive(Clone, Copy, Debug, PartialEq, Eq)]
pub struct Margin {
    /// the number of the shovel whose time is changed
    pub changed: u16,
    /// whether its time is raised; otherwise it is lowered
    pub raised: bool,
    /// by how much, 1 at least
    pub seconds: u32,
    /// what the pick would answer with the changed time
    pub choice: Choice,
}

/// The eight values of a card; by default TSC-1's.
#[derive(Clone, Debug, PartialEq, Eq)]
pub struct Values {
    /// the words of a state, 2 to [`MOST_WORDS`]
    pub words: u8,
    /// the bits of a word
    pub width: u8,
    /// 2^words entries; for [`write()`] up to [`TABLE_SIZE`], and what is missing counts as 0
    pub table: Vec<u8>,
    /// how often the table is applied where the selector bit is 1
    pub odd_power: u8,
    /// and where it is 0
    pub even_power: u8,
    /// the selector's constant
    pub constant: u32,
    /// 1 for TSC-1's filter, 2 for TSC-2's
    pub filter: u8,
    /// 1 where the sum of the words enters the selector
    pub sum_term: u8,
}

impl Values {
    fn of(card: ffi::Card) -> Values {
        Values {
            words: card.words,
            width: card.width,
            table: card.table[..1 << card.words].to_vec(),
            odd_power: card.odd_power,
            even_power: card.even_power,
            constant: card.constant,
            filter: card.filter,
            sum_term: card.sum_term,
        }
    }
}

impl Default for Values {
    fn default() -> Values {
        read(TSC1).expect("TSC-1's card")
    }
}

// ---- The library's calls, on slices.
//
// SAFETY, of each call below: a slice has as many entries as its length says and is aligned, stays
// valid during the call, and `&mut` is nobody else's. The header asks for no more.

/// Accepts a card, or refuses it by 1 to 9.
pub fn check(card: &[u8]) -> Result<(), Refusal> {
    version::ensure();
    Refusal::result(unsafe { ffi::tiedraw_check(card.as_ptr(), card.len()) })
}

/// The eight values of a card, or refusal 1 to 6. A card that is read may still be refused by 7 to 9.
pub fn read(card: &[u8]) -> Result<Values, Refusal> {
    version::ensure();
    let answer = unsafe { ffi::tiedraw_read(card.as_ptr(), card.len()) };
    Refusal::result(answer.refusal).map(|()| Values::of(answer.card))
}

/// The least to look at in a table that gets 7: the fewest places whose entries alone make every completion get 7, whatever
/// allowed entries stand elsewhere; of several such sets the one whose ascending places come first, compared number by
/// number. Places count from 0, and [`MOST_BAD_PLACES`] is the most of them.
///
/// A place that is its own entry is told alone; else it is the first two places that have the same entry or each other's
/// number; else the places of the shortest cycle. As long as all these entries stand, no change elsewhere mends the table.
///
/// Or refusal 1 to 6; or 26 where the table is a single cycle. 7 to 9 are not told here.
///
/// ```
/// use tiedraw::{bad_places, Refusal};
/// // places 1 and 3 have each other's number
/// assert_eq!(bad_places(&[0x05, 2, 2, 3, 1, 1])?, [1, 3]);
/// // entry 1 is changed, and 2 and 3 still have the same entry
/// assert_eq!(bad_places(&[0x05, 2, 2, 0, 1, 1])?, [2, 3]);
/// // entry 2 is changed
/// let mended = [0x05, 2, 2, 0, 3, 1];
/// assert_eq!(bad_places(&mended), Err(Refusal::SingleCycle));
/// assert_eq!(tiedraw::check(&mended), Ok(()));
/// # Ok::<(), tiedraw::Refusal>(())
/// ```
pub fn bad_places(card: &[u8]) -> Result<Vec<u8>, Refusal> {
    version::ensure();
    let answer = unsafe { ffi::tiedraw_bad_places(card.as_ptr(), card.len()) };
    let told = || answer.places[..answer.count.into()].to_vec();
    Refusal::result(answer.refusal).map(|()| told())
}

/// One step of the state.
pub fn step(card: &[u8], state: &mut [u32]) -> Result<(), Refusal> {
    version::ensure();
    Refusal::result(unsafe {
        ffi::tiedraw_step(card.as_ptr(), card.len(), state.as_mut_ptr(), state.len())
    })
}

/// One step back of the state.
pub fn step_back(card: &[u8], state: &mut [u32]) -> Result<(), Refusal> {
    version::ensure();
    Refusal::result(unsafe {
        ffi::tiedraw_step_back(card.as_ptr(), card.len(), state.as_mut_ptr(), state.len())
    })
}

/// One step of the state, and its word.
pub fn draw(card: &[u8], state: &mut [u32]) -> Result<u32, Refusal> {
    version::ensure();
    let answer =
        unsafe { ffi::tiedraw_draw(card.as_ptr(), card.len(), state.as_mut_ptr(), state.len()) };
    Refusal::result(answer.refusal).map(|()| answer.word)
}

/// Writes `count` words into the strip from `place` on, as so many draws would give them, and moves the state as they
/// would; or refusal 1 to 11 or 17, also where `count` is 0. The card is read and checked once.
///
/// ```
/// let program = [0x27, 2, 2, 1, 2, 3, 0, 1, 0, 0, 0];
/// let (mut state, mut strip) = ([2, 3], [7; 4]);
/// tiedraw::fill(&program, &mut state, &mut strip, 1, 2)?;
/// assert_eq!((strip, state), ([7, 3, 2, 7], [2, 0]));
/// let refusal = tiedraw::fill(&program, &mut state, &mut strip, 3, 2);
/// assert_eq!(refusal, Err(tiedraw::Refusal::SpanOutOfBounds));
/// # Ok::<(), tiedraw::Refusal>(())
/// ```
pub fn fill(
    card: &[u8],
    state: &mut [u32],
    strip: &mut [u32],
    place: usize,
    count: usize,
) -> Result<(), Refusal> {
    version::ensure();
    Refusal::result(unsafe {
        ffi::tiedraw_fill(
            card.as_ptr(),
            card.len(),
            state.as_mut_ptr(),
            state.len(),
            strip.as_mut_ptr(),
            strip.len(),
            place,
            count,
        )
    })
}

/// The shovel of least time, or refusal 1 to 15 or 18. Where several have it, words are drawn until one is below the
/// largest multiple of their count that is not above 2^width, [`MOST_TAKEN`] at most; the last one modulo the count is
/// the rank of the one chosen, rank 0 being the lowest number. So the order of the lists makes no difference.
pub fn pick(
    card: &[u8],
    state: &mut [u32],
    shovels: &[u16],
    times: &[u32],
) -> Result<Choice, Refusal> {
    version::ensure();
    let answer = unsafe {
        ffi::tiedraw_pick(
            card.as_ptr(),
            card.len(),
            state.as_mut_ptr(),
            state.len(),
            shovels.as_ptr(),
            shovels.len(),
            times.as_ptr(),
            times.len(),
        )
    };
    Choice::of(answer)
}

/// How near the pick was: the smallest change of one shovel's time that would send the truck elsewhere from this state,
/// which is not moved. Times stay within 0 to 4294967295. Of equally small changes the one of the lower shovel number is
/// told, then lowered before raised; a change that the pick would refuse does not count. Or what the pick refuses, 1 to
/// 15 or 18; or 19 where no change counts.
///
/// ```
/// let program = [0x27, 2, 2, 1, 2, 3, 0, 1, 0, 0, 0];
/// let near = tiedraw::margin(&program, &[2, 3], &[4, 7], &[300, 305])?;
/// assert_eq!((near.changed, near.raised, near.seconds), (4, true, 5));
/// let changed = tiedraw::pick(&program, &mut [2, 3], &[4, 7], &[305, 305])?;
/// assert_eq!(changed, near.choice);
/// assert_eq!((changed.shovel, changed.ties, changed.taken), (7, 2, 1));
/// let alone = tiedraw::margin(&program, &[2, 3], &[4], &[300]);
/// assert_eq!(alone, Err(tiedraw::Refusal::NoSuchChange));
/// # Ok::<(), tiedraw::Refusal>(())
/// ```
pub fn margin(
    card: &[u8],
    state: &[u32],
    shovels: &[u16],
    times: &[u32],
) -> Result<Margin, Refusal> {
    version::ensure();
    let answer = unsafe {
        ffi::tiedraw_margin(
            card.as_ptr(),
            card.len(),
            state.as_ptr(),
            state.len(),
            shovels.as_ptr(),
            shovels.len(),
            times.as_ptr(),
            times.len(),
        )
    };
    let margin = Margin {
        changed: answer.changed,
        raised: answer.raised == 1,
        seconds: answer.seconds,
        choice: Choice {
            shovel: answer.shovel,
            ties: answer.ties,
            taken: answer.taken,
        },
    };
    Refusal::result(answer.refusal).map(|()| margin)
}

/// Writes a card at the front of the page, and answers its length.
pub fn write(values: &Values, page: &mut [u8]) -> Result<usize, Refusal> {
    version::ensure();
    let answer = unsafe {
        ffi::tiedraw_write(
            values.words,
            values.width,
            values.table.as_ptr(),
            values.table.len(),
            values.odd_power,
            values.even_power,
            values.constant,
            values.filter,
            values.sum_term,
            page.as_mut_ptr(),
            page.len(),
        )
    };
    Refusal::result(answer.refusal).map(|()| answer.length)
}

// ---- Values that are known to be sound.

/// An accepted card, and its values, which are read once, when it is made; by default TSC-1's.
#[derive(Clone, Debug, PartialEq, Eq)]
pub struct Card {
    bytes: Vec<u8>,
    values: Values,
}

impl Card {
    /// Of these bytes, or refusal 1 to 9.
    pub fn new(bytes: &[u8]) -> Result<Card, Refusal> {
        check(bytes)?;
        Ok(Card {
            bytes: bytes.to_vec(),
            values: read(bytes)?,
        })
    }

    /// Of these values, or refusal 2 or 6 to 9.
    pub fn from_values(values: &Values) -> Result<Card, Refusal> {
        let mut page = [0; MOST_CARD_BYTES];
        let length = write(values, &mut page)?;
        Card::new(&page[..length])
    }

    /// The bytes that the calls on slices take.
    pub fn bytes(&self) -> &[u8] {
        &self.bytes
    }

    /// The eight values; [`Card::from_values`] of them is this card.
    pub fn values(&self) -> &Values {
        &self.values
    }

    /// How many words a state has.
    pub fn words(&self) -> usize {
        self.values.words.into()
    }

    /// How many bits a word has.
    pub fn width(&self) -> u32 {
        self.values.width.into()
    }
}

impl Default for Card {
    fn default() -> Card {
        Card::new(TSC1).expect("TSC-1's card")
    }
}

/// A shovel that a truck may be sent to, and the seconds of travel to it.
#[derive(Clone, Copy, Debug, PartialEq, Eq)]
pub struct Shovel {
    /// its number
    pub number: u16,
    /// the seconds
    pub time: u32,
}

/// Numbers and times, as the calls on slices take them.
fn lists(shovels: &[Shovel]) -> (Vec<u16>, Vec<u32>) {
    let pair = |shovel: &Shovel| (shovel.number, shovel.time);
    shovels.iter().map(pair).unzip()
}

/// An accepted card and a state of its size.
#[derive(Clone, Debug, PartialEq, Eq)]
pub struct Generator {
    card: Card,
    state: Vec<u32>,
}

impl Generator {
    /// At this state, or refusal 10 or 11.
    pub fn new(card: Card, state: &[u32]) -> Result<Generator, Refusal> {
        step(card.bytes(), &mut state.to_vec())?;
        Ok(Generator {
            card,
            state: state.to_vec(),
        })
    }

    /// The card.
    pub fn card(&self) -> &Card {
        &self.card
    }

    /// Where it stands.
    pub fn state(&self) -> &[u32] {
        &self.state
    }

    /// One step. It can't be refused.
    pub fn step(&mut self) {
        step(self.card.bytes(), &mut self.state).expect("a state of an accepted card");
    }

    /// One step back. It can't be refused.
    pub fn step_back(&mut self) {
        step_back(self.card.bytes(), &mut self.state).expect("a state of an accepted card");
    }

    /// One step, and its word. It can't be refused.
    pub fn draw(&mut self) -> u32 {
        draw(self.card.bytes(), &mut self.state).expect("a state of an accepted card")
    }

    /// A draw's word for each place of the slice, from the front on. It can't be refused.
    ///
    /// ```
    /// use tiedraw::{Card, Generator};
    /// let mut server = Generator::new(Card::default(), &[0; 4])?;
    /// let mut standby = server.clone();
    /// let mut strip = [0; 100];
    /// server.fill(&mut strip[..60]);
    /// server.fill(&mut strip[60..]);
    /// assert!(strip.iter().all(|&word| word == standby.draw()));
    /// assert_eq!(server, standby);
    /// # Ok::<(), tiedraw::Refusal>(())
    /// ```
    pub fn fill(&mut self, words: &mut [u32]) {
        let count = words.len();
        fill(self.card.bytes(), &mut self.state, words, 0, count)
            .expect("a state of an accepted card, and the slice's own span");
    }

    /// The shovel of least time, or refusal 13 to 15 or 18. Several at that time are ties, and the words drawn decide,
    /// as [`pick()`] says.
    ///
    /// ```
    /// use tiedraw::{Card, Generator, Shovel};
    /// let card = Card::new(&[0x27, 2, 2, 1, 2, 3, 0, 1, 0, 0, 0])?;
    /// let mut server = Generator::new(card, &[2, 3])?;
    /// let before = server.clone();
    /// // the words are 3, which is passed over for three ties, and 2
    /// let choice = server.pick(&[7, 4, 9].map(|number| Shovel { number, time: 300 }))?;
    /// assert_eq!((choice.shovel, choice.ties, choice.taken), (9, 3, 2));
    /// (0..choice.taken).for_each(|_| server.step_back());
    /// assert_eq!(server, before);
    /// # Ok::<(), tiedraw::Refusal>(())
    /// ```
    pub fn pick(&mut self, shovels: &[Shovel]) -> Result<Choice, Refusal> {
        let (numbers, times) = lists(shovels);
        pick(self.card.bytes(), &mut self.state, &numbers, &times)
    }

    /// A pick, as [`Generator::pick`] makes it, for a truck; and the record of a tie, with every field, the state as it was
    /// before the pick, or none where one shovel was nearest. Or refusal 13 to 15 or 18.
    ///
    /// ```
    /// use tiedraw::{Card, Generator, Shovel};
    /// let card = Card::new(&[0x27, 2, 2, 1, 2, 3, 0, 1, 0, 0, 0])?;
    /// let mut server = Generator::new(card.clone(), &[0, 0])?;
    /// let list = [7, 4].map(|number| Shovel { number, time: 300 });
    /// let (choice, record) = server.pick_recorded(258, &list)?;
    /// let record = record.expect("a tie");
    /// // truck 258 is sent to shovel 4, and its cab hears just that
    /// assert_eq!(tiedraw::order_for(258, &record)?, 4);
    /// // the desk makes the pick again, from the state that it was made from
    /// let state = tiedraw::read_record(&record)?.state.expect("our records have it");
    /// let mut desk = Generator::new(card, &state)?;
    /// assert_eq!(desk.pick(&list)?, choice);
    /// assert_eq!(desk, server);
    /// # Ok::<(), tiedraw::Refusal>(())
    /// ```
    pub fn pick_recorded(
        &mut self,
        truck: u16,
        shovels: &[Shovel],
    ) -> Result<(Choice, Option<RecordBytes>), Refusal> {
        let (numbers, times) = lists(shovels);
        let mut page = [0; MOST_RECORD_BYTES];
        let card = self.card.bytes();
        let (choice, record) =
            pick_recorded(card, &mut self.state, &numbers, &times, truck, &mut page)?;
        Ok((choice, record.map(RecordBytes::of)))
    }

    /// How near the pick of this list would be, as [`margin()`] says; or refusal 13 to 15, 18 or 19. The state is not
    /// moved: ask before the pick, since a tie moves it.
    ///
    /// ```
    /// use tiedraw::{Card, Generator, Shovel};
    /// let card = Card::new(&[0x27, 2, 2, 1, 2, 3, 0, 1, 0, 0, 0])?;
    /// let mut server = Generator::new(card, &[0, 0])?;
    /// let mut list = [Shovel { number: 7, time: 305 }, Shovel { number: 4, time: 300 }];
    /// let near = server.margin(&list)?;
    /// assert_eq!((near.changed, near.raised, near.seconds), (4, true, 6));
    /// assert_eq!(server.pick(&list)?.shovel, 4);
    /// list[1].time += near.seconds;
    /// assert_eq!(server.pick(&list)?, near.choice);
    /// assert_eq!(near.choice.shovel, 7);
    /// # Ok::<(), tiedraw::Refusal>(())
    /// ```
    pub fn margin(&self, shovels: &[Shovel]) -> Result<Margin, Refusal> {
        let (numbers, times) = lists(shovels);
        margin(self.card.bytes(), &self.state, &numbers, &times)
    }
}
