//! The answer of counts for the NIST tests (document 02, Eight).

use super::refused;
use crate::bits::call_bit_counts;

/// Every byte of a page as it is lent, so that all of it is text.
const LENT: u8 = b'.';

/// A page as text, `-` where it has no bytes.
fn text(page: &[u8]) -> String {
    match page {
        [] => "-".to_string(),
        _ => page.iter().copied().map(char::from).collect(),
    }
}

/// The counts. The page is shown whole, also the bytes that are as lent.
pub(super) fn counts_answer(card: &[u8], strip: &[u32], page_length: usize) -> String {
    let mut page = vec![LENT; page_length];
    match call_bit_counts(card, strip, &mut page) {
        Ok(counts) => format!(
            "counts {} {} {} {} page {}",
            counts.balance,
            counts.forward,
            counts.backward,
            counts.runs,
            text(&page)
        ),
        Err(refusal) => refused(refusal, page.iter().all(|&byte| byte == LENT)),
    }
}

#[cfg(test)]
mod tests {
    use super::super::tests::assert_answers;

    /// The worked examples of SP 800-22, of 10 bits and of 5; P1 has 32.
    #[test]
    fn counts() {
        assert_answers(
            "\
nist 220a01000000 2d5 10 = counts 2 2 2 9 page 1011010101
nist 220a01000000 26B 11 = counts 2 2 3 7 page 1001101011.
nist 220a01000000 2d7 12 = counts 4 4 4 7 page 1011010111..
nist 220501000000 16,0017 10 = counts 4 4 4 7 page 1011010111
nist 220501000000 0,1 11 = counts -8 9 8 2 page 0000000001.
nist 00 ffffffff 32 = counts 32 32 32 1 page 11111111111111111111111111111111
nist 00 - 0 = counts 0 0 0 0 page -
nist 00 - 3 = counts 0 0 0 0 page ...",
        );
    }

    #[test]
    fn refusals() {
        assert_answers(
            "\
nist 220501000000 16,17 9 = refused 24
nist 220501000000 0 0 = refused 24
nist 220501000000 16,20 10 = refused 23
nist 220501000000 20,16 0 = refused 23
nist 220501000000 ffffffff 600 = refused 23
nist 0802 ffffffff 0 = refused 9
nist - - 0 = refused 1",
        );
    }
}
