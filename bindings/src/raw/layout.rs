//! How the structs lie in memory: asserted here as in the header, which a test reads.

use super::*;
use core::mem::offset_of;

/// The size of what is found.
const fn size_of_field<T, U>(_find: fn(&T) -> &U) -> usize {
    size_of::<U>()
}

/// For each struct by its name in C: its size and alignment; for each field, its offset and size.
macro_rules! lies {
    ($($c:ident: $type:ty, $size:literal aligned to $alignment:literal {
        $($field:ident $(. $inner:ident)*: $offset:literal, $bytes:literal;)+
    })+) => {
        const _: () = {$(
            assert!(size_of::<$type>() == $size);
            assert!(align_of::<$type>() == $alignment);
            $(
                assert!(offset_of!($type, $field $(. $inner)*) == $offset);
                assert!(size_of_field(|whole: &$type| &whole.$field $(. $inner)*) == $bytes);
            )+
        )+};

        #[cfg(test)]
        const ASSERTED: &[(&str, &str, usize, usize)] = &[$(
            (stringify!($c), "", $size, $alignment),
            $((stringify!($c), concat!(stringify!($field) $(, ".", stringify!($inner))*), $offset, $bytes),)+
        )+];
    };
}

lies! {
    olbiothar_answer: Answer, 16 aligned to 8 {
        number: 0, 4;
        place: 8, 8;
    }
    olbiothar_frame: Frame, 16 aligned to 4 {
        task: 0, 4;
        release: 4, 4;
        deadline: 8, 4;
        start: 12, 4;
    }
    olbiothar_node: Node, 512 aligned to 8 {
        landed: 0, 256;
        shown: 256, 256;
    }
    olbiothar_station: Station, 27_016 aligned to 8 {
        fixed: 0, 608;
        fixed.modules: 0, 33;
        fixed.modules.count: 0, 1;
        fixed.modules.sites: 1, 16;
        fixed.modules.sending: 17, 16;
        fixed.modes: 36, 292;
        fixed.modes.count: 36, 1;
        fixed.modes.homes: 37, 32;
        fixed.modes.periods: 72, 128;
        fixed.modes.switches: 200, 128;
        fixed.tasks: 328, 196;
        fixed.tasks.count: 328, 1;
        fixed.tasks.homes: 329, 32;
        fixed.tasks.sizes: 361, 32;
        fixed.tasks.worsts: 396, 128;
        fixed.controls: 524, 76;
        fixed.controls.count: 524, 1;
        fixed.controls.nodes: 525, 8;
        fixed.controls.starts: 536, 32;
        fixed.controls.stops: 568, 32;
        fixed.period: 600, 4;
        fixed.pairs: 604, 2;
        runs: 608, 4096;
        pair_tasks: 4704, 1024;
        pair_deadlines: 5728, 4096;
        pair_starts: 9824, 4096;
        pair_stops: 13_920, 4096;
        pair_modes: 18_016, 4096;
        play: 22_112, 808;
        play.clock: 22_112, 4;
        play.running: 22_116, 16;
        play.ages: 22_132, 64;
        play.bytes: 22_196, 16;
        play.givens: 22_212, 32;
        play.out: 22_248, 256;
        play.held: 22_504, 128;
        play.full: 22_632, 32;
        play.loads: 22_664, 256;
        nodes: 22_920, 4096;
    }
    olbiothar_starting: Starting, 32 aligned to 1 {
        modes: 0, 16;
        given: 16, 16;
    }
    olbiothar_input: Input, 320 aligned to 8 {
        results: 0, 256;
        given: 256, 32;
        modes: 288, 16;
        changed: 304, 16;
    }
    olbiothar_row: Row, 16 aligned to 4 {
        kind: 0, 1;
        sender: 1, 1;
        deadline: 4, 4;
        start: 8, 4;
        stop: 12, 4;
    }
    olbiothar_tick_answer: TickAnswer, 32 aligned to 8 {
        answer: 0, 16;
        row: 16, 16;
    }
    olbiothar_sheet_answer: SheetAnswer, 24 aligned to 8 {
        checked: 0, 16;
        length: 16, 8;
    }
    olbiothar_time_now: TimeNow, 12 aligned to 4 {
        begun: 0, 1;
        clock: 4, 4;
        period: 8, 4;
    }
    olbiothar_module_now: ModuleNow, 8 aligned to 4 {
        there: 0, 1;
        node: 1, 1;
        mode: 2, 1;
        age: 4, 4;
    }
    olbiothar_task_now: TaskNow, 8 aligned to 4 {
        there: 0, 1;
        home: 1, 1;
        awaits: 2, 1;
        left: 4, 4;
    }
    olbiothar_plan_answer: PlanAnswer, 24 aligned to 8 {
        answer: 0, 16;
        reason: 16, 4;
    }
}

#[cfg(test)]
mod tests {
    use super::ASSERTED;
    use std::collections::BTreeSet;
    use std::format;
    use std::string::String;

    const HEADER: &str = include_str!("../../../include/olbiothar.h");

    /// What is asserted of structs and of fields, each by its name and its two numbers.
    fn header() -> BTreeSet<String> {
        let assertion = |line: &'static str| {
            let structs = line.strip_prefix("OLBIOTHAR_SIZE(");
            structs.or(line.strip_prefix("OLBIOTHAR_AT("))?.strip_suffix(");")
        };
        HEADER.lines().filter_map(assertion).map(|words| words.replace(", ", " ")).collect()
    }

    fn here() -> BTreeSet<String> {
        let line = |&(name, field, first, second): &(&str, &str, usize, usize)| {
            let space = if field.is_empty() { "" } else { " " };
            format!("{name}{space}{field} {first} {second}")
        };
        ASSERTED.iter().map(line).collect()
    }

    #[test]
    fn what_is_asserted_is_what_the_header_asserts() {
        let (here, header) = (here(), header());
        let different: BTreeSet<&String> = here.symmetric_difference(&header).collect();
        assert!(different.is_empty(), "not in both: {different:#?}");
    }
}
