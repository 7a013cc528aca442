//! Makes the table of a plan file, prints its sheet, moves a row in the text as a person might, reads the
//! text back, and prints what has become of it.
//!
//!     cargo run --release --package olbiothar --example sheet PLAN

use olbiothar::{Edition, FRAMES, Frame, LONGEST_SHEET, LONGEST_TABLE, make, sheet, sheet_table};
use std::error::Error;

fn main() -> Result<(), Box<dyn Error>> {
    let path = std::env::args().nth(1).ok_or("which plan?")?;
    let plan = std::fs::read(path)?;
    let mut table = [0; LONGEST_TABLE];
    let length = make(&plan, Edition::Basic, &mut [Frame::default(); FRAMES], &mut table)?;
    let mut text = vec![0; LONGEST_SHEET];
    let printed = sheet(&plan, &table[..length], &mut text);
    printed.checked?;
    let by_hand = first_data_row_at_0(std::str::from_utf8(&text[..printed.length])?);
    let length = sheet_table(by_hand.as_bytes(), &mut table)?;
    let printed = sheet(&plan, &table[..length], &mut text);
    print!("{}", std::str::from_utf8(&text[..printed.length])?);
    Ok(())
}

/// The row's start and stop; what stands behind them only tells, and may stay.
fn first_data_row_at_0(text: &str) -> String {
    let mut lines: Vec<String> = text.lines().map(str::to_string).collect();
    if let Some(line) = lines.iter_mut().find(|line| line.starts_with("data")) {
        let mut words: Vec<&str> = line.split_whitespace().collect();
        let ticks = words[8];
        (words[5], words[6]) = ("0", ticks);
        *line = words.join(" ");
    }
    lines.join("\n")
}
