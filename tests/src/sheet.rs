//! The sheet: a table as text for the people who fit stations, and the table read back from it:
//! refusals 60 and 61.

use crate::bus::{self, Bus, ControlRow, Sending, control_payloads};
use crate::checker::{DataRow, judge_places, locate};
use crate::maker::{table_length, write_table};
use crate::plan::{self, Few, Plan, Task};
use crate::text::{LONGEST_NUMBER, LONGEST_TEXT, lines, number, put_digits, words};
use crate::{Edition, FrameRow, MOST_FRAMES, MOST_NODES, MOST_TASKS, Refusal};

pub const LONGEST_SHEET: usize = LONGEST_TEXT;

/// What a check gives for plan and table, and how many bytes of text stand at the front of the lent ones.
#[derive(Clone, Copy, Debug, PartialEq, Eq)]
pub struct Sheet {
    pub checked: Result<(), Refusal>,
    pub length: usize,
}

/// Takes `LONGEST_SHEET` bytes at least, else 13.
pub fn sheet(plan: &[u8], table: &[u8], text: &mut [u8]) -> Sheet {
    if text.len() < LONGEST_SHEET {
        return Sheet { checked: Err(Refusal::new(13, LONGEST_SHEET)), length: 0 };
    }
    let mut page = Page { text, length: 0 };
    let checked = page.print(plan, table);
    Sheet { checked, length: page.length }
}

/// The columns behind the kind, with their widths.
const COLUMNS: [(&str, usize); 10] = [
    ("node", 4),
    ("task", 4),
    ("release", 7),
    ("deadline", 8),
    ("start", 10),
    ("stop", 10),
    ("bits", 4),
    ("ticks", 7),
    ("from-release", 12),
    ("to-deadline", 11),
];

type Kind = [u8; 7];

/// Where each column ends; two spaces stand in front of each.
const ENDS: [usize; COLUMNS.len()] = {
    let mut ends = [0; COLUMNS.len()];
    let (mut column, mut end) = (0, size_of::<Kind>());
    while column < COLUMNS.len() {
        end += 2 + COLUMNS[column].1;
        ends[column] = end;
        column += 1;
    }
    ends
};

#[derive(Clone, Copy)]
enum Cell {
    Word(&'static str),
    Number(i64),
}

const NONE: Cell = Cell::Word("-");

/// Writes a cell at the right end of the bytes, and gives where it begins.
fn put_right(bytes: &mut [u8], cell: Cell) -> usize {
    match cell {
        Cell::Word(word) => {
            let first = bytes.len() - word.len();
            bytes[first..].copy_from_slice(word.as_bytes());
            first
        }
        Cell::Number(number) => put_number(bytes, number),
    }
}

fn put_number(bytes: &mut [u8], number: i64) -> usize {
    let mut first = put_digits(bytes, number.unsigned_abs());
    if number < 0 {
        first -= 1;
        bytes[first] = b'-';
    }
    first
}

/// A text that grows from the front of lent bytes.
struct Page<'a> {
    text: &'a mut [u8],
    length: usize,
}

impl Page<'_> {
    /// Rows that 1 to 24 let pass are printed, whatever 25 to 28 say of them.
    fn print(&mut self, plan: &[u8], table: &[u8]) -> Result<(), Refusal> {
        let (mut frames, mut named) = ([FrameRow::default(); MOST_FRAMES], [0; MOST_FRAMES]);
        let mut on_top = |refusal: &Refusal| self.put_refusal(refusal);
        let plan = plan::read(plan).inspect_err(&mut on_top)?;
        let edition = Edition::of_table(table);
        let bus = bus::derive(&plan, edition, &mut frames).inspect_err(&mut on_top)?;
        let frames = &frames[..bus.frames];
        let data = locate(&bus, table, frames, &mut named).inspect_err(&mut on_top)?;
        let checked = judge_places(&bus, data, &named, frames).inspect_err(&mut on_top);
        self.put_head(edition, bus.period);
        self.put_control_rows(&plan, &bus);
        let senders = senders(&plan);
        let records = (1 + bus.control.len() as i64..).map(Cell::Number);
        for ((row, number), record) in data.numbered(&named).zip(records) {
            let cells = data_cells(&senders[usize::from(row.task)], &row, frames[number].release);
            self.put_line(b"data   ", cells, record);
        }
        checked
    }

    fn put_head(&mut self, edition: Edition, period: u32) {
        self.put(b"cycle ");
        self.put_cell(Cell::Number(period.into()));
        self.put(match edition {
            Edition::Basic => b"",
            Edition::Consumers => b" consumers",
        });
        self.put(b"  # ticks of one microsecond\n");
        self.put_line(b"# kind ", COLUMNS.map(|(name, _)| Cell::Word(name)), Cell::Word("record"));
    }

    /// 22 has seen that the table's are the plan's.
    fn put_control_rows(&mut self, plan: &Plan, bus: &Bus) {
        let payloads = control_payloads(plan, bus.modules);
        for (row, record) in bus.control.iter().zip(1..) {
            let sending = plan.bits.sending(payloads[usize::from(row.node)]);
            self.put_line(b"control", control_cells(row, &sending), Cell::Number(record));
        }
    }

    fn put_refusal(&mut self, refusal: &Refusal) {
        self.put(b"refused ");
        self.put_cell(Cell::Number(refusal.number.into()));
        self.put(b" at ");
        self.put_cell(Cell::Number(refusal.place as i64));
        self.put(b"\n");
    }

    /// No cell is longer than its column.
    fn put_line(&mut self, kind: &Kind, cells: [Cell; COLUMNS.len()], record: Cell) {
        let mut line = [b' '; ENDS[COLUMNS.len() - 1]];
        line[..kind.len()].copy_from_slice(kind);
        for (cell, end) in cells.into_iter().zip(ENDS) {
            put_right(&mut line[..end], cell);
        }
        self.put(&line);
        self.put(b"  # ");
        self.put_cell(record);
        self.put(b"\n");
    }

    fn put_cell(&mut self, cell: Cell) {
        let mut bytes = [0; LONGEST_NUMBER];
        let first = put_right(&mut bytes, cell);
        self.put(&bytes[first..]);
    }

    fn put(&mut self, bytes: &[u8]) {
        self.text[self.length..][..bytes.len()].copy_from_slice(bytes);
        self.length += bytes.len();
    }
}

/// Of a task: its node, and what its message takes of the bus.
#[derive(Clone, Copy, Default)]
struct Sender {
    node: u8,
    sending: Sending,
}

fn senders(plan: &Plan) -> Few<Sender, MOST_TASKS> {
    let sender = |(number, task): (u8, &Task)| {
        let sending = plan.bits.sending(task.size.into());
        Sender { node: plan.node_of_task(number), sending }
    };
    (0..).zip(plan.tasks.iter()).map(sender).collect()
}

fn control_cells(row: &ControlRow, sending: &Sending) -> [Cell; COLUMNS.len()] {
    let ControlRow { node, start, stop } = *row;
    let Sending { bits, ticks } = *sending;
    let [start, stop, bits, ticks] =
        [start, stop, bits, ticks].map(|number| Cell::Number(number.into()));
    [Cell::Number(node.into()), NONE, NONE, NONE, start, stop, bits, ticks, NONE, NONE]
}

fn data_cells(sender: &Sender, row: &DataRow, release: u32) -> [Cell; COLUMNS.len()] {
    let Sender { node, sending } = sender;
    let [release, deadline, start, stop] =
        [release, row.deadline, row.start, row.stop].map(i64::from);
    [
        i64::from(*node),
        i64::from(row.task),
        release,
        deadline,
        start,
        stop,
        i64::from(sending.bits),
        i64::from(sending.ticks),
        start - release,
        deadline - stop,
    ]
    .map(Cell::Number)
}

/// Reads a sheet back: the table at the front of the lent bytes, and its length.
pub fn sheet_table(text: &[u8], table: &mut [u8]) -> Result<usize, Refusal> {
    if text.len() > LONGEST_SHEET {
        return Err(Refusal::new(61, LONGEST_SHEET));
    }
    let Rows { edition, period, control, data } =
        read(text).map_err(|line| Refusal::new(60, line))?;
    let needed = table_length(control.len(), data.len());
    let table = table.get_mut(..needed).ok_or(Refusal::new(13, needed))?;
    write_table(edition, period, &control, data.into_iter(), table);
    Ok(needed)
}

struct Rows {
    edition: Edition,
    period: u32,
    control: Vec<ControlRow>,
    data: Vec<DataRow>,
}

/// The rows, or the first line that is unreadable; where the cycle is missing, the one behind the last.
fn read(text: &[u8]) -> Result<Rows, usize> {
    let mut reader = Reader::default();
    let mut number = 0;
    for line in lines(text) {
        number += 1;
        // One word more says that there are too many.
        reader.take(&words::<{ ROW_WORDS + 1 }>(line)).ok_or(number)?;
    }
    reader.rows.ok_or(number + 1)
}

/// Of a row's line: its kind and a word for each column.
const ROW_WORDS: usize = 1 + COLUMNS.len();

/// What the lines have said so far.
#[derive(Default)]
struct Reader {
    refused: bool,
    rows: Option<Rows>,
}

impl Reader {
    /// `None` where a line with these words may not stand there.
    fn take(&mut self, words: &[&[u8]]) -> Option<()> {
        match (&mut self.rows, words) {
            (_, []) => {}
            (None, &[b"refused", number, b"at", place]) if !self.refused => {
                only_told([number, place])?;
                self.refused = true;
            }
            (None, [b"cycle", period]) => self.begin(Edition::Basic, period)?,
            (None, [b"cycle", period, b"consumers"]) => self.begin(Edition::Consumers, period)?,
            (Some(Rows { control, data, .. }), [b"control", cells @ ..])
                if data.is_empty() && control.len() < MOST_NODES =>
            {
                control.push(control_row(cells)?);
            }
            (Some(Rows { data, .. }), [b"data", cells @ ..]) if data.len() < MOST_FRAMES => {
                data.push(data_row(cells)?);
            }
            _ => return None,
        }
        Some(())
    }

    fn begin(&mut self, edition: Edition, period: &[u8]) -> Option<()> {
        let (control, data) = (Vec::with_capacity(MOST_NODES), Vec::new());
        self.rows = Some(Rows { edition, period: taken(period)?, control, data });
        Some(())
    }
}

fn control_row(cells: &[&[u8]]) -> Option<ControlRow> {
    let &[node, b"-", b"-", b"-", start, stop, bits, ticks, b"-", b"-"] = cells else {
        return None;
    };
    only_told([bits, ticks])?;
    Some(ControlRow { node: taken(node)?, start: taken(start)?, stop: taken(stop)? })
}

fn data_row(cells: &[&[u8]]) -> Option<DataRow> {
    let &[node, task, release, deadline, start, stop, bits, ticks, early, late] = cells else {
        return None;
    };
    only_told([node, release, bits, ticks, without_sign(early), without_sign(late)])?;
    Some(DataRow {
        task: taken(task)?,
        deadline: taken(deadline)?,
        start: taken(start)?,
        stop: taken(stop)?,
    })
}

/// Numbers whose values are not looked at.
fn only_told<const COUNT: usize>(words: [&[u8]; COUNT]) -> Option<()> {
    words.into_iter().try_for_each(|word| number(word).map(|_| ()))
}

fn without_sign(word: &[u8]) -> &[u8] {
    word.strip_prefix(b"-").unwrap_or(word)
}

/// A number that has a place in the table.
fn taken<T: TryFrom<u64>>(word: &[u8]) -> Option<T> {
    T::try_from(number(word)?).ok()
}
