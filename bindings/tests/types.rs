//! What a caller may do with the types.

use olbiothar::{
    Edition, Frame, Modes, ModuleNow, Reason, Refusal, Results, Row, Sheet, Station, TaskNow,
    TextRefusal, TimeNow, Word, Words,
};
use std::error::Error;
use std::fmt::{Debug, Display};
use std::hash::Hash;
use std::panic::{RefUnwindSafe, UnwindSafe};

/// May be kept, compared, printed, and given to another thread.
fn is_plain<T: Clone + Debug + Eq + Send + Sync + Unpin + UnwindSafe + RefUnwindSafe + 'static>() {}

fn is_small<T: Copy + Hash>() {}

fn is_error<T: Error + Display>() {}

#[test]
fn every_type_is_plain() {
    is_plain::<Edition>();
    is_plain::<Frame>();
    is_plain::<Sheet>();
    is_plain::<Refusal>();
    is_plain::<TextRefusal>();
    is_plain::<Reason>();
    is_plain::<Word>();
    is_plain::<Words>();
    is_plain::<Station>();
    is_plain::<Row>();
    is_plain::<TimeNow>();
    is_plain::<ModuleNow>();
    is_plain::<TaskNow>();
    is_plain::<Results>();
    is_plain::<Modes>();
}

#[test]
fn all_but_stations_and_words_are_small() {
    is_small::<Edition>();
    is_small::<Frame>();
    is_small::<Sheet>();
    is_small::<Refusal>();
    is_small::<TextRefusal>();
    is_small::<Reason>();
    is_small::<Word>();
    is_small::<Row>();
    is_small::<TimeNow>();
    is_small::<ModuleNow>();
    is_small::<TaskNow>();
}

#[test]
fn refusals_are_errors() {
    is_error::<Refusal>();
    is_error::<TextRefusal>();
}

/// As the header has them; `src/raw/layout.rs` asserts it of every struct and field.
#[test]
fn sizes_of_what_a_caller_keeps() {
    assert_eq!((size_of::<Frame>(), align_of::<Frame>()), (16, 4));
    assert_eq!((size_of::<Station>(), align_of::<Station>()), (27_016, 8));
}

#[test]
fn stations_play_in_threads_of_their_own() {
    let plan = include_bytes!("../../docs/examples/job-a.plan");
    let played = |_| {
        std::thread::spawn(|| {
            let mut table = [0; olbiothar::LONGEST_TABLE];
            let mut rows = [Frame::default(); olbiothar::FRAMES];
            let length = olbiothar::make(plan, Edition::Basic, &mut rows, &mut table).unwrap();
            let mut modes = [None; olbiothar::MODULES];
            (modes[0], modes[1]) = (Some(0), Some(2));
            let mut station = Station::begun(plan, &table[..length], &modes).unwrap();
            for _ in 0..1_000 {
                station.tick(&[None; olbiothar::TASKS], &[None; olbiothar::MODULES]).unwrap();
            }
            station
        })
    };
    let threads: Vec<_> = (0..4).map(played).collect();
    let stations: Vec<Station> = threads.into_iter().map(|one| one.join().unwrap()).collect();
    assert!(stations.iter().all(|station| *station == stations[0]));
}
