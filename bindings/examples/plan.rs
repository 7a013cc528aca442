//! Reads a plan that is written as text, makes its table, and prints the table's sheet.
//!
//!     cargo run --release --package olbiothar --example plan TEXT

use olbiothar::{Edition, FRAMES, Frame, LONGEST_SHEET, LONGEST_TABLE, make, sheet, text_plan};
use std::error::Error;
use std::process::ExitCode;

fn main() -> ExitCode {
    match print_sheet() {
        Ok(()) => ExitCode::SUCCESS,
        Err(error) => {
            eprintln!("{error}");
            ExitCode::FAILURE
        }
    }
}

fn print_sheet() -> Result<(), Box<dyn Error>> {
    let path = std::env::args().nth(1).ok_or("which text?")?;
    let text = std::fs::read(path)?;
    // A plan is never longer than its text.
    let mut plan = vec![0; text.len()];
    let length = text_plan(&text, &mut plan)?;
    let plan = &plan[..length];
    let mut table = [0; LONGEST_TABLE];
    let length = make(plan, Edition::Basic, &mut [Frame::default(); FRAMES], &mut table)?;
    let mut printed = vec![0; LONGEST_SHEET];
    let sheet = sheet(plan, &table[..length], &mut printed);
    print!("{}", std::str::from_utf8(&printed[..sheet.length])?);
    Ok(sheet.checked?)
}
