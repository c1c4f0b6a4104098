//! The library compared with the second program, by running: random inputs, both sides' calls, and the comparison; and
//! timed beside Rust.

pub mod bit_subjects;
pub mod by_hand;
pub mod calls;
pub mod inputs;
pub mod jitter;
pub mod map_subjects;
pub mod random;
pub mod record_subjects;
pub mod subjects;
pub mod table_subjects;
pub mod ten_million;
pub mod timing;

/// Bytes in hex, one space apart.
pub fn hex(bytes: &[u8]) -> String {
    let digits: Vec<String> = bytes.iter().map(|byte| format!("{byte:02x}")).collect();
    digits.join(" ")
}
