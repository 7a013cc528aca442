//! Texts that are sheets, almost sheets, or hardly any.

use super::damage::break_table_rule;
use super::plans::Size;
use super::random::Rng;
use super::tables::{made_plan, move_rows};
use super::texts::{Sort, any_number};
use crate::{Edition, LONGEST_SHEET, MOST_FRAMES, MOST_NODES, sheet};

const SORT: Sort = Sort {
    words: &["refused", "at", "cycle", "control", "data", "message", "consumers", "Control"],
    lines: &[
        b"\n",
        b" \t \r\n",
        b"# a comment\n",
        b"refused 25 at 2\n",
        b"refused 0 at 18446744073709551615 # told\n",
        b"refused 25 at 18446744073709551616\n",
        b"refused 25 at -1\n",
        b"refused 25 at\n",
        b"refused 25 at 2 2\n",
        b"cycle 5\n",
        b"cycle\n",
        b"cycle 5 5\n",
        b"cycle 5 consumers\n",
        b"cycle 5 consumers 5\n",
        b"cycle consumers\n",
        b"control 1 - - - 2 3 0 0 - -\n",
        b"data 0 2 0 4 5 6 0 0 0 -0\n",
        b"message 0 2 0 4 - - - - 0 0\n",
    ],
};

/// What `tablesheet` may write, and texts that a person or an editor has made of it.
pub fn any_sheet(rng: &mut Rng, edition: Edition) -> Vec<u8> {
    let mut text = match rng.below(8) {
        0 => any_rows(rng, edition),
        1 => SORT.any_words(rng),
        _ => printed(rng, edition),
    };
    SORT.damage(rng, &mut text);
    text
}

/// The sheet of a table that passes or fails in one of 25 to 28.
pub fn printed(rng: &mut Rng, edition: Edition) -> Vec<u8> {
    let size = Size::any(rng);
    let mut made = made_plan(rng, edition, &size);
    if rng.one_in(2) {
        move_rows(rng, &mut made);
    }
    if rng.one_in(2) {
        let rule = rng.between(25, 28);
        break_table_rule(rng, &mut made, rule);
    }
    let mut text = vec![0; LONGEST_SHEET];
    let printed = sheet(&made.plan, &made.table.bytes(), &mut text);
    text.truncate(printed.length);
    text
}

/// As short as can be, with any numbers, and as many rows as a sheet may have or one more.
fn any_rows(rng: &mut Rng, edition: Edition) -> Vec<u8> {
    let said = match edition {
        Edition::Basic => "",
        Edition::Consumers => " consumers",
    };
    let mut text = format!("cycle {}{said}\n", any_number(rng, LARGEST));
    for _ in 0..rng.pick(&[0, 1, 1, 2, MOST_NODES, MOST_NODES, MOST_NODES + 1]) {
        let node = any_number(rng, u64::from(u8::MAX));
        let [start, stop] = std::array::from_fn(|_| any_number(rng, LARGEST));
        let [bits, ticks] = std::array::from_fn(|_| any_number(rng, u64::MAX));
        text += &format!("control {node} - - - {start} {stop} {bits} {ticks} - -\n");
    }
    for _ in 0..rng.pick(&[0, 1, 2, 2, 3, 5, 9, MOST_FRAMES, MOST_FRAMES + 1]) {
        let task = any_number(rng, u64::from(u8::MAX));
        let [deadline, start, stop] = std::array::from_fn(|_| any_number(rng, LARGEST));
        let [node, release, bits, ticks, early, late] =
            std::array::from_fn(|_| any_number(rng, u64::MAX));
        let sign = rng.pick(&["", "-"]);
        text += &format!(
            "data {node} {task} {release} {deadline} {start} {stop} {bits} {ticks} {early} {sign}{late}\n"
        );
    }
    text.into_bytes()
}

/// Of the times that are taken.
const LARGEST: u64 = u32::MAX as u64;
