//! The program of document 01, for comparison: the verdict on the card in standard input and, for
//! an accepted card, four draws from the all-zero state.

use reference::{accept, call_draw, MOST_READ};
use std::io::Read;

fn main() -> std::io::Result<()> {
    let mut card = Vec::new();
    std::io::stdin()
        .take(MOST_READ as u64)
        .read_to_end(&mut card)?;
    let values = match accept(&card) {
        Ok(values) => values,
        Err(refusal) => {
            println!("verdict {refusal}");
            return Ok(());
        }
    };
    println!("verdict 0");
    let mut state = vec![0; usize::from(values.words)];
    for number in 1..=4 {
        let word = call_draw(&card, &mut state).expect("the card is accepted");
        print!("{number}");
        for x in &state {
            print!(" {x:08x}");
        }
        println!(" {word:08x}");
    }
    Ok(())
}
