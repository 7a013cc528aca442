//! The proved library, behind the program `driver/driver.c` that links it. It runs for itself, so that
//! it may be compiled for another processor than this program; `driver.c` says how the two speak.

use crate::program::{Now, Program, Ticked};
use crate::station::{Modes, ModuleNow, Results, TaskNow, TimeNow};
use crate::{FrameRow, MOST_NODES, MOST_TASKS, Reason, Refusal, Row, Sheet, TextRefusal};
use std::io::{BufReader, Read, Write};
use std::process::{Child, ChildStdin, ChildStdout, Command, Stdio};

/// Bytes of a frame row in a request and in an answer.
const ROW: usize = 16;

#[derive(Debug)]
pub struct Driver {
    child: Child,
    requests: ChildStdin,
    answers: BufReader<ChildStdout>,
}

/// What words are asked for.
#[derive(Clone, Copy, Debug)]
pub enum Words {
    OfNumber = 0,
    OfReason = 1,
}

impl Driver {
    /// Starts the driver: a program, and the words that it is given.
    pub fn start(command: &[String]) -> std::io::Result<Driver> {
        let missing = || std::io::Error::other("no command that starts the driver");
        let (program, words) = command.split_first().ok_or_else(missing)?;
        let mut child = Command::new(program)
            .args(words)
            .stdin(Stdio::piped())
            .stdout(Stdio::piped())
            .spawn()?;
        let requests = child.stdin.take().ok_or_else(missing)?;
        let answers = BufReader::with_capacity(1 << 16, child.stdout.take().ok_or_else(missing)?);
        Ok(Driver { child, requests, answers })
    }

    /// Tells the driver that nothing more comes, and whether it ended well.
    pub fn stop(self) -> bool {
        let Driver { mut child, requests, answers } = self;
        drop((requests, answers));
        child.wait().is_ok_and(|status| status.success())
    }

    /// The length of a number's words, which are put into the lent text.
    pub fn words(&mut self, sort: Words, number: u32, text: &mut [u8]) -> usize {
        let mut request = vec![b'W', sort as u8];
        [number, text.len() as u32].iter().for_each(|number| request.extend(number.to_le_bytes()));
        request.extend(text.iter());
        self.ask(&request);
        let length = self.long_number() as usize;
        self.bytes(text);
        length
    }

    /// The driver reads a request whole before it answers: neither waits for the other's pipe.
    fn ask(&mut self, request: &[u8]) {
        self.requests.write_all(request).expect("the driver takes a request");
    }

    fn bytes(&mut self, into: &mut [u8]) {
        self.answers.read_exact(into).expect("the driver answers, and stays within lent memory");
    }

    fn array<const LENGTH: usize>(&mut self) -> [u8; LENGTH] {
        let mut bytes = [0; LENGTH];
        self.bytes(&mut bytes);
        bytes
    }

    fn number(&mut self) -> u32 {
        u32::from_le_bytes(self.array())
    }

    fn long_number(&mut self) -> u64 {
        u64::from_le_bytes(self.array())
    }

    fn byte(&mut self) -> u8 {
        let [byte] = self.array();
        byte
    }

    fn flag(&mut self) -> bool {
        match self.byte() {
            0 => false,
            1 => true,
            other => panic!("a flag of {other}"),
        }
    }

    /// What a call gives that is not refused is its place.
    fn answer(&mut self) -> Result<usize, Refusal> {
        let (number, place) = (self.number(), self.long_number() as usize);
        if number == 0 { Ok(place) } else { Err(Refusal { number, place }) }
    }

    fn rows(&mut self, rows: &mut [FrameRow]) {
        let mut bytes = vec![0; rows.len() * ROW];
        self.bytes(&mut bytes);
        for (row, numbers) in rows.iter_mut().zip(bytes.as_chunks::<ROW>().0) {
            let numbers = numbers.as_chunks().0;
            let [task, release, deadline, start] =
                std::array::from_fn(|place| u32::from_le_bytes(numbers[place]));
            *row = FrameRow { task, release, deadline, start };
        }
    }

    fn row(&mut self) -> Option<Row> {
        let [kind, sender] = self.array();
        let [deadline, start, stop] = std::array::from_fn(|_| self.number());
        match kind {
            0 => None,
            17 => Some(Row::Control { node: sender, start, stop }),
            18 => Some(Row::Data { task: sender, deadline, start, stop }),
            _ => panic!("a row of kind {kind}"),
        }
    }

    fn module_now(&mut self) -> ModuleNow {
        ModuleNow { there: self.flag(), node: self.byte(), mode: self.byte(), age: self.number() }
    }

    fn task_now(&mut self) -> TaskNow {
        TaskNow { there: self.flag(), home: self.byte(), awaits: self.flag(), left: self.number() }
    }
}

fn request(kind: u8, lengths: &[usize]) -> Vec<u8> {
    let mut request = Vec::with_capacity(1 << 16);
    request.push(kind);
    lengths.iter().for_each(|&length| request.extend((length as u32).to_le_bytes()));
    request
}

fn put_rows(request: &mut Vec<u8>, rows: &[FrameRow]) {
    for row in rows {
        let numbers = [row.task, row.release, row.deadline, row.start];
        numbers.iter().for_each(|number| request.extend(number.to_le_bytes()));
    }
}

fn put_modes(request: &mut Vec<u8>, modes: &Modes) {
    request.extend(modes.iter().map(|mode| mode.unwrap_or(0)));
    request.extend(modes.iter().map(|mode| u8::from(mode.is_some())));
}

impl Program for Driver {
    fn make(
        &mut self,
        plan: &[u8],
        edition: u8,
        rows: &mut [FrameRow],
        buffer: &mut [u8],
    ) -> Result<usize, Refusal> {
        let mut request = request(b'M', &[plan.len(), rows.len(), buffer.len()]);
        request.push(edition);
        request.extend(plan);
        put_rows(&mut request, rows);
        request.extend(buffer.iter());
        self.ask(&request);
        let made = self.answer();
        self.rows(rows);
        self.bytes(buffer);
        made
    }

    fn check(&mut self, plan: &[u8], table: &[u8], rows: &mut [FrameRow]) -> Result<(), Refusal> {
        let mut request = request(b'C', &[plan.len(), table.len(), rows.len()]);
        request.extend(plan);
        request.extend(table);
        put_rows(&mut request, rows);
        self.ask(&request);
        let passed = self.answer();
        self.rows(rows);
        passed.map(nothing_more)
    }

    fn forget(&mut self) {
        self.ask(&request(b'F', &[]));
    }

    fn begin(&mut self, plan: &[u8], table: &[u8], modes: &Modes) -> Result<(), Refusal> {
        let mut request = request(b'B', &[plan.len(), table.len()]);
        request.extend(plan);
        request.extend(table);
        put_modes(&mut request, modes);
        self.ask(&request);
        self.answer().map(nothing_more)
    }

    fn tick(&mut self, results: &Results, modes: &Modes) -> Ticked {
        let mut request = request(b'T', &[]);
        results.iter().for_each(|result| request.extend(result.unwrap_or(0).to_le_bytes()));
        request.extend(results.iter().map(|result| u8::from(result.is_some())));
        put_modes(&mut request, modes);
        self.ask(&request);
        let answer = self.answer().map(nothing_more);
        let row = self.row();
        let mut shown = [[0; MOST_TASKS]; MOST_NODES];
        shown.iter_mut().flatten().for_each(|value| *value = self.long_number());
        Ticked { answer: answer.map(|()| row), shown }
    }

    fn now(&mut self) -> Now {
        self.ask(&request(b'N', &[]));
        Now {
            time: TimeNow { begun: self.flag(), clock: self.number(), period: self.number() },
            modules: std::array::from_fn(|_| self.module_now()),
            tasks: std::array::from_fn(|_| self.task_now()),
        }
    }

    fn sheet(&mut self, plan: &[u8], table: &[u8], text: &mut [u8]) -> Sheet {
        let old = the_only_byte(text);
        let mut request = request(b'S', &[plan.len(), table.len(), text.len()]);
        request.push(old);
        request.extend(plan);
        request.extend(table);
        self.ask(&request);
        let checked = self.answer().map(nothing_more);
        let length = self.long_number() as usize;
        self.bytes(&mut text[..length]);
        Sheet { checked, length }
    }

    fn sheet_table(&mut self, text: &[u8], table: &mut [u8]) -> Result<usize, Refusal> {
        let mut request = request(b'R', &[text.len(), table.len()]);
        request.extend(text);
        request.extend(table.iter());
        self.ask(&request);
        let read = self.answer();
        self.bytes(table);
        read
    }

    fn plan_text(&mut self, plan: &[u8], text: &mut [u8]) -> Result<usize, Refusal> {
        let mut request = request(b'P', &[plan.len(), text.len()]);
        request.push(the_only_byte(text));
        request.extend(plan);
        self.ask(&request);
        let printed = self.answer();
        self.bytes(&mut text[..printed.unwrap_or(0)]);
        printed
    }

    fn text_plan(&mut self, text: &[u8], plan: &mut [u8]) -> Result<usize, TextRefusal> {
        let mut request = request(b'Q', &[text.len(), plan.len()]);
        request.extend(text);
        request.extend(plan.iter());
        self.ask(&request);
        let (read, reason) = (self.answer(), self.number());
        self.bytes(plan);
        let reason = (reason > 0).then(|| Reason::numbered(reason).expect("a known reason"));
        match read {
            Ok(length) if reason.is_none() => Ok(length),
            Ok(_) => panic!("a reason without a refusal"),
            Err(refusal) => Err(TextRefusal { refusal, reason }),
        }
    }
}

/// What all bytes of a lent text are.
fn the_only_byte(text: &[u8]) -> u8 {
    let all_but_one = text.len().saturating_sub(1);
    assert!(text.ends_with(&text[..all_but_one]), "one byte says what is lent");
    text.first().copied().unwrap_or(0)
}

/// Where there is nothing to say the place is 0.
fn nothing_more(place: usize) {
    assert_eq!(place, 0);
}
