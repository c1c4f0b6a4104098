//! The bits of a strip written and counted in Rust by hand, in one pass (document 02, Eight): what the library's call is timed beside.

use tiedraw::MOST_STRIP_WORDS;

#[derive(Debug, PartialEq)]
pub struct Counts {
    pub balance: i32,
    pub forward: u32,
    pub backward: u32,
    pub runs: u32,
}

/// Whether the strip is short enough, its words are narrow enough, and the page has room for their bits.
fn fits(width: u32, strip: &[u32], page: &[u8]) -> bool {
    strip.len() <= MOST_STRIP_WORDS
        && strip.iter().all(|&word| u64::from(word) >> width == 0)
        && page.len() >= width as usize * strip.len()
}

/// None where it is refused. A sum read backward is the last sum less one read forward, so that the lowest and the highest sum tell
/// both distances.
pub fn count(width: u32, strip: &[u32], page: &mut [u8]) -> Option<Counts> {
    if !fits(width, strip, page) {
        return None;
    }
    let (mut sum, mut lowest, mut highest) = (0i32, 0, 0);
    let first = strip.first().map_or(0, |word| word >> (width - 1));
    let (mut changes, mut last) = (0, first);
    for (&word, bytes) in strip.iter().zip(page.chunks_exact_mut(width as usize)) {
        for (place, byte) in (0..width).rev().zip(bytes) {
            let bit = word >> place & 1;
            *byte = b'0' + bit as u8;
            sum += 2 * bit as i32 - 1;
            lowest = sum.min(lowest);
            highest = sum.max(highest);
            changes += bit ^ last;
            last = bit;
        }
    }
    Some(Counts {
        balance: sum,
        forward: highest.max(-lowest) as u32,
        backward: (sum - lowest).max(highest - sum) as u32,
        runs: u32::from(!strip.is_empty()) + changes,
    })
}
