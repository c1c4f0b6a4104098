//! Answers the cases in standard input, a line each; see the module `replay`.

use reference::replay::{answers, MOST_INPUT};
use std::io::{stdin, stdout, Read, Write};

fn main() -> std::io::Result<()> {
    let mut input = Vec::new();
    stdin()
        .take(MOST_INPUT as u64 + 1)
        .read_to_end(&mut input)?;
    stdout().write_all(answers(&input).as_bytes())
}
