//! The words of a strip as bits, and what the tests of NIST SP 800-22 count in them.
//!
//! SAFETY, of the call below: as of the calls in `lib.rs`.

use crate::{ffi, version, Card, Refusal, MOST_STRIP_WORDS};

/// What the tests of NIST SP 800-22 count in a row of bits; all four are 0 where there are none. The probabilities that
/// they lead to are left to the published suite.
#[derive(Clone, Copy, Debug, PartialEq, Eq, Hash)]
pub struct BitCounts {
    /// ones minus zeros: S_n of the frequency test
    pub balance: i32,
    /// the largest distance from zero of the running sum of +1 for a one and -1 for a zero: z of the cumulative sums test
    pub forward: u32,
    /// the same, read from the last bit back
    pub backward: u32,
    /// the number of runs: V_n of the runs test
    pub runs: u32,
}

impl BitCounts {
    fn of(answer: ffi::BitCounts) -> Result<BitCounts, Refusal> {
        let counts = BitCounts {
            balance: answer.balance,
            forward: answer.forward,
            backward: answer.backward,
            runs: answer.runs,
        };
        Refusal::result(answer.refusal).map(|()| counts)
    }
}

/// Writes each word as the ASCII `0` and `1` of its bits, the top bit first, from the front of the page on, and counts
/// them. A word has as many bits as the card says; bytes past the last bit are untouched.
///
/// Or refusal 1 to 9, 22 where there are more than [`MOST_STRIP_WORDS`] words, 23 where one is wider than the card says,
/// or 24 where the page has fewer bytes than the words have bits.
///
/// ```
/// let program = [0x27, 2, 2, 1, 2, 3, 0, 1, 0, 0, 0];
/// let mut page = *b"........";
/// let counts = tiedraw::bit_counts(&program, &[0, 2, 3], &mut page)?;
/// assert_eq!(&page, b"001011..");
/// assert_eq!((counts.balance, counts.forward, counts.backward, counts.runs), (0, 2, 2, 4));
/// let small = tiedraw::bit_counts(&program, &[0, 2, 3], &mut page[..5]);
/// assert_eq!(small, Err(tiedraw::Refusal::BitPageTooSmall));
/// # Ok::<(), tiedraw::Refusal>(())
/// ```
pub fn bit_counts(card: &[u8], words: &[u32], page: &mut [u8]) -> Result<BitCounts, Refusal> {
    version::ensure();
    BitCounts::of(unsafe {
        ffi::tiedraw_count_bits(
            card.as_ptr(),
            card.len(),
            words.as_ptr(),
            words.len(),
            page.as_mut_ptr(),
            page.len(),
        )
    })
}

impl Card {
    /// What [`bit_counts`] counts in these words, and the ASCII `0` and `1` of their bits; or refusal 22 or 23.
    ///
    /// ```
    /// use tiedraw::{Card, Generator};
    /// let mut server = Generator::new(Card::default(), &[0; 4])?;
    /// let mut words = [0; 1000];
    /// server.fill(&mut words);
    /// let (counts, bits) = server.card().bit_counts(&words)?;
    /// assert_eq!(bits.len(), 32_000);
    /// let ones = bits.iter().filter(|&&bit| bit == b'1').count() as i32;
    /// assert_eq!(counts.balance, ones - (32_000 - ones));
    /// # Ok::<(), tiedraw::Refusal>(())
    /// ```
    pub fn bit_counts(&self, words: &[u32]) -> Result<(BitCounts, Vec<u8>), Refusal> {
        // of more words none is written: they are refused
        let mut page = vec![0; words.len().min(MOST_STRIP_WORDS) * self.width() as usize];
        let counts = bit_counts(self.bytes(), words, &mut page)?;
        Ok((counts, page))
    }
}
