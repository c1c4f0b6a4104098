//! The refusals: number, trade word, and when each is told.

use crate::VERSION;

/// A refusal, its trade word, and when it is told.
type Row = (Refusal, &'static str, &'static str);

/// The enum and `ALL`, of a row for each refusal.
macro_rules! refusals {
    ($(($name:ident, $word:literal, $when:literal),)*) => {
        /// Why a call was refused. A refusal changes nothing that was lent.
        #[derive(Clone, Copy, Debug, PartialEq, Eq, Hash)]
        #[non_exhaustive]
        pub enum Refusal {
            $(#[doc = concat!($word, ": ", $when)] $name,)*
            /// a number that this binding has no name for
            Unknown(u8),
        }

        /// The rows, by their numbers from 1.
        const ALL: &[Row] = &[$((Refusal::$name, $word, $when)),*];
    };
}

refusals! {
    (Truncated, "short", "the bytes end before the map, or before the last byte of a field"),
    (OutOfRange, "range", "a field or table entry is outside the allowed values"),
    (Redundant, "idle", "a field is given that equals its absent value"),
    (TableMissing, "tableless", "the words are not 4, and no table is given"),
    (TrailingBytes, "long", "bytes are left after the last field"),
    (ConstantTooWide, "wide", "the constant is wider than a word"),
    (NotSingleCycle, "broken ring", "the table is not a single cycle"),
    (EvenConstant, "even constant", "the constant is even"),
    (PowerParity, "powers", "the odd power is even, or the even power is odd"),
    (WordCount, "word count", "the state has not as many words as the card says"),
    (WordTooWide, "high bits", "a state word is wider than the card says"),
    (LengthMismatch, "uneven", "shovels and times, or shovels and their places, differ in count"),
    (NoShovel, "no shovel", "the list is empty"),
    (TooManyShovels, "crowd", "more than 64 shovels"),
    (DuplicateShovel, "twice", "a shovel number stands twice"),
    (BufferTooSmall, "small page", "the page has fewer bytes than the card or the record needs"),
    (SpanOutOfBounds, "span", "the place is past the strip's end, or the count does not fit behind it"),
    (TooManyTies, "too many equals", "more shovels are nearest than there are words, 2^n"),
    (NoSuchChange, "firm", "no change of one shovel's time sends the truck elsewhere"),
    (MalformedRecord, "torn", "a record's map, state count or length is not of its form"),
    (TruckMismatch, "other truck", "the record is of another truck than the cab's"),
    (StripTooLong, "strip too long", "the strip has more than 16,384 words"),
    (StripWordTooWide, "strip bits", "a strip word is wider than the card says"),
    (BitPageTooSmall, "bit page", "the page has fewer bytes than the strip has bits"),
    (OffMap, "off map", "a coordinate is outside -1,000,000 to 1,000,000, or the radius outside 0 to 3,000,000"),
    (SingleCycle, "sound ring", "bad places are asked of a table that is a single cycle"),
}

impl Refusal {
    /// Of the number by which the library tells it; none for 0, which is no refusal.
    pub fn from_number(number: u8) -> Option<Refusal> {
        let place = usize::from(number).checked_sub(1)?;
        Some(ALL.get(place).map_or(Refusal::Unknown(number), |row| row.0))
    }

    /// The number by which the library tells it.
    pub fn number(self) -> u8 {
        match self {
            Refusal::Unknown(number) => number,
            _ => 1 + ALL.iter().take_while(|row| row.0 != self).count() as u8,
        }
    }

    /// The trade word for it.
    pub fn trade_word(self) -> &'static str {
        self.row().map_or("unknown", |row| row.1)
    }

    fn row(self) -> Option<&'static Row> {
        ALL.iter().find(|row| row.0 == self)
    }

    pub(crate) fn result(number: u8) -> Result<(), Refusal> {
        Refusal::from_number(number).map_or(Ok(()), Err)
    }
}

impl std::fmt::Display for Refusal {
    fn fmt(&self, f: &mut std::fmt::Formatter) -> std::fmt::Result {
        let number = self.number();
        match self.row() {
            Some((_, word, when)) => write!(f, "refusal {number} ({word}): {when}"),
            None => write!(
                f,
                "refusal {number}: unknown to this binding, version {VERSION}"
            ),
        }
    }
}

impl std::error::Error for Refusal {}
