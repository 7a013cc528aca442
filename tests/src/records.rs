//! Records: the kinds, the lengths of their bodies, and the order in which they may stand in a file.

/// Body length by kind; `None`: no such kind.
pub const BODY_LENGTHS: [Option<usize>; 21] = {
    let mut lengths = [None; 21];
    lengths[END as usize] = Some(0);
    lengths[BUS as usize] = Some(16);
    lengths[NODES as usize] = Some(1);
    lengths[MODULE as usize] = Some(1);
    lengths[MODE as usize] = Some(9);
    lengths[TASK as usize] = Some(6);
    lengths[INVOCATION as usize] = Some(4);
    lengths[CONNECTION as usize] = Some(2);
    lengths[BUS_WITH_BYTE_BITS as usize] = Some(17);
    lengths[TABLE as usize] = Some(7);
    lengths[CONTROL_ROW as usize] = Some(9);
    lengths[DATA_ROW as usize] = Some(13);
    lengths[CONSUMERS_TABLE as usize] = lengths[TABLE as usize];
    lengths
};

pub const END: u8 = 0;
pub const BUS: u8 = 1;
pub const NODES: u8 = 2;
pub const MODULE: u8 = 3;
pub const MODE: u8 = 4;
pub const TASK: u8 = 5;
pub const INVOCATION: u8 = 6;
pub const CONNECTION: u8 = 7;
pub const BUS_WITH_BYTE_BITS: u8 = 9;
pub const TABLE: u8 = 16;
pub const CONTROL_ROW: u8 = 17;
pub const DATA_ROW: u8 = 18;
pub const CONSUMERS_TABLE: u8 = 20;

/// Length of a record, the byte of its kind included.
pub const fn record_length(kind: u8) -> usize {
    match BODY_LENGTHS[kind as usize] {
        Some(body) => 1 + body,
        None => panic!("only known kinds have a length"),
    }
}

/// A sort of file: records that stand once, in this order, each of one of the kinds of its place; then
/// kinds that may repeat, never descending.
#[derive(Debug)]
pub struct Sort<const ONCE: usize, const REPEATED: usize> {
    once: [&'static [u8]; ONCE],
    repeated: [u8; REPEATED],
}

pub const PLAN_FILE: Sort<2, 5> = Sort {
    once: [&[BUS, BUS_WITH_BYTE_BITS], &[NODES]],
    repeated: [MODULE, MODE, TASK, INVOCATION, CONNECTION],
};

pub const TABLE_FILE: Sort<1, 2> =
    Sort { once: [&[TABLE, CONSUMERS_TABLE]], repeated: [CONTROL_ROW, DATA_ROW] };

/// A well-formed file cut into its records that stand once and its runs of records of one kind.
#[derive(Debug)]
pub struct Outline<'a, const ONCE: usize, const REPEATED: usize> {
    pub once: [&'a [u8]; ONCE],
    pub repeated: [&'a [u8]; REPEATED],
}

/// Cuts the file, or gives the place of refusals 1 and 20.
pub fn outline<'a, const ONCE: usize, const REPEATED: usize>(
    file: &'a [u8],
    sort: &Sort<ONCE, REPEATED>,
) -> Result<Outline<'a, ONCE, REPEATED>, usize> {
    let mut at = 0;
    let mut once = [file; ONCE];
    for (record, kinds) in once.iter_mut().zip(&sort.once) {
        *record = one_record(file, at, kinds)?;
        at += record.len();
    }
    let mut repeated = [file; REPEATED];
    for (run, &kind) in repeated.iter_mut().zip(&sort.repeated) {
        *run = run_of_records(file, at, kind)?;
        at += run.len();
    }
    ends_at(file, at)?;
    Ok(Outline { once, repeated })
}

/// A wrong kind goes before a cut body.
fn one_record<'a>(file: &'a [u8], at: usize, kinds: &[u8]) -> Result<&'a [u8], usize> {
    match file.get(at) {
        None => Err(file.len()),
        Some(kind) if !kinds.contains(kind) => Err(at),
        Some(&kind) => file.get(at..at + record_length(kind)).ok_or(file.len()),
    }
}

fn run_of_records(file: &[u8], at: usize, kind: u8) -> Result<&[u8], usize> {
    let mut end = at;
    while file.get(end) == Some(&kind) {
        end += record_length(kind);
    }
    file.get(at..end).ok_or(file.len())
}

fn ends_at(file: &[u8], at: usize) -> Result<(), usize> {
    match file.get(at..) {
        Some([END]) => Ok(()),
        Some([END, ..]) => Err(at + 1),
        Some([_, ..]) => Err(at),
        _ => Err(file.len()),
    }
}
