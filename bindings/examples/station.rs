//! Reads a plan file, makes its table, judges it, and plays one cycle of it: each task gives its result at the last moment.
//!
//!     cargo run --release --package olbiothar --example station PLAN

use olbiothar::{
    Edition, FRAMES, Frame, LONGEST_TABLE, MODULES, Results, Station, TASKS, check, make,
};
use std::error::Error;

fn main() -> Result<(), Box<dyn Error>> {
    let path = std::env::args().nth(1).ok_or("which plan?")?;
    let plan = std::fs::read(path)?;
    let mut rows = [Frame::default(); FRAMES];
    let mut room = [0; LONGEST_TABLE];
    let length = make(&plan, Edition::Basic, &mut rows, &mut room)?;
    let table = &room[..length];
    println!("a table of {length} bytes");
    for frame in rows.iter().take_while(|frame| frame.deadline > 0) {
        println!(
            "task {} from {} to {}: starts at {}",
            frame.task, frame.release, frame.deadline, frame.start
        );
    }
    check(&plan, table, &mut rows)?;
    let mut station = Station::not_begun();
    station.begin(&plan, table, &first_modes(&plan))?;
    let period = station.time().ok_or("not begun")?.period;
    for time in 0..=period {
        let results = last_moment_results(&station, time);
        if let Some(row) = station.tick(&results, &[None; MODULES])? {
            println!("at time {time} starts {row:?}");
        }
    }
    println!("{station:?}");
    println!("node 1 shows {} of task 0", station.shown(1, 0));
    Ok(())
}

/// Of each task that may wait no longer, its number and the time, in one byte.
fn last_moment_results(station: &Station, time: u32) -> Results {
    let mut results = [None; TASKS];
    for (task, now) in station.tasks().enumerate() {
        if now.awaits && now.left == 0 {
            results[task] = Some((task as u64 + u64::from(time)) % 256);
        }
    }
    results
}

/// The first mode of each module, in a plan that is known to be good: modes are the records of kind 4.
fn first_modes(plan: &[u8]) -> [Option<u8>; MODULES] {
    // By kind; there is no kind 8.
    let lengths = [1, 17, 2, 2, 10, 7, 5, 3, 0, 18];
    let (mut modes, mut at, mut mode) = ([None; MODULES], 0, 0);
    while at < plan.len() {
        if plan[at] == 4 {
            modes[usize::from(plan[at + 1])].get_or_insert(mode);
            mode += 1;
        }
        at += lengths[usize::from(plan[at])];
    }
    modes
}
