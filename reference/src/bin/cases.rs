//! Prints the seeded cases for `replay`; see the module `cases`.

use std::io::{stdout, Write};

fn main() -> std::io::Result<()> {
    stdout().write_all(&reference::cases::cases())
}
