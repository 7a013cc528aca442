//! Files that the repository keeps for its programs: example plans, texts and sheets, what a program reads, what
//! it must write. `cargo run --release --bin store` writes them; a test holds them against what stands there.

mod cases;
mod jobs;
mod limits;
mod plan_texts;
mod plans;
mod requests;
mod sheets;
mod tables;

use crate::generate::{PLENTY, job_a, job_a_read_twice};
use crate::{Edition, FrameRow, MOST_FRAMES, make};
use cases::Case;

#[derive(Debug)]
pub struct Stored {
    /// From the root of the repository.
    pub path: String,
    pub bytes: Vec<u8>,
}

fn stored(path: &str, bytes: Vec<u8>) -> Stored {
    Stored { path: path.to_string(), bytes }
}

pub fn all() -> Vec<Stored> {
    let plan = job_a().bytes();
    let table = table_of(&plan, Edition::Basic);
    let read_plan = job_a_read_twice().bytes();
    let read_table = table_of(&read_plan, Edition::Consumers);
    let read_sheet = sheets::sheet_of(&read_plan, &read_table);
    let mut files = vec![
        stored("docs/examples/job-a.plan", plan),
        stored("docs/examples/job-a-ten-bits.plan", job_a().with_byte_bits(Some(10)).bytes()),
        stored("tests/runs/job-a.table", table),
        stored("tests/runs/job-a-read-twice.plan", read_plan),
        stored("tests/runs/job-a-read-twice.table", read_table),
        stored("tests/runs/job-a-read-twice.sheet", read_sheet),
    ];
    files.extend(sheets::all());
    files.extend(plan_texts::all());
    files.extend(vectors());
    files
}

fn table_of(plan: &[u8], edition: Edition) -> Vec<u8> {
    let mut table = vec![0; PLENTY];
    let length = make(plan, edition, &mut [FrameRow::default(); MOST_FRAMES], &mut table);
    table.truncate(length.expect("a plan of an example is made"));
    table
}

/// What the program `vectors` reads, a file for each sort of case in the order of its arguments, and
/// what it must write.
fn vectors() -> Vec<Stored> {
    let sorts: [(&str, Vec<Case>); 7] = [
        ("jobs", jobs::all()),
        ("plans", plans::own()),
        ("make", plans::vectors()),
        ("check", tables::all()),
        ("requests", requests::all()),
        ("limits", limits::all()),
        ("editions", requests::editions()),
    ];
    let mut files = Vec::new();
    let (mut words, mut lines) = (String::new(), String::new());
    for (name, cases) in sorts {
        let bytes = cases.iter().flat_map(Case::bytes).collect();
        files.push(stored(&format!("crates/vectors/data/{name}"), bytes));
        words.push_str(&format!("{name}\n"));
        lines.extend(cases.iter().map(|case| format!("{}{}\n", case.text, case.line)));
    }
    files.push(stored("crates/vectors/args", words.into_bytes()));
    files.push(stored("crates/vectors/stdout", lines.into_bytes()));
    files
}
