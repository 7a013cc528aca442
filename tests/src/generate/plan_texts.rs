//! Plans of any records, and texts that are plans, almost plans, or hardly any.

use super::damage::damage_bytes;
use super::plan_file;
use super::random::Rng;
use super::texts::{Sort, any_number};
use crate::records::{
    BUS, BUS_WITH_BYTE_BITS, CONNECTION, END, INVOCATION, MODE, MODULE, NODES, TASK, record_length,
};
use crate::{Edition, Refusal, plan_text};

/// Plans of `plan_file`, and records with any numbers, whole or damaged.
pub fn any_plan(rng: &mut Rng) -> Vec<u8> {
    if rng.one_in(3) {
        return plan_file(rng, Edition::Basic);
    }
    let mut plan = any_records(rng);
    if rng.one_in(4) {
        damage_bytes(rng, &mut plan);
    }
    plan
}

/// In the order of a plan, whatever their numbers and however many.
pub fn any_records(rng: &mut Rng) -> Vec<u8> {
    let mut file = Vec::new();
    let bus = rng.pick(&[BUS, BUS_WITH_BYTE_BITS]);
    put_record(rng, &mut file, bus);
    put_record(rng, &mut file, NODES);
    for kind in [MODULE, MODE, TASK, INVOCATION, CONNECTION] {
        for _ in 0..any_count(rng) {
            put_record(rng, &mut file, kind);
        }
    }
    file.push(END);
    file
}

/// Seldom so many that their text is about as long as it may be, or much longer.
fn any_count(rng: &mut Rng) -> usize {
    let about_too_many = 3_400 + rng.below(100);
    match rng.below(1_000) {
        0 => rng.pick(&[about_too_many, about_too_many, about_too_many, 20_000]),
        1..500 => rng.pick(&[0, 0, 1, 2]),
        500..950 => rng.below(12),
        _ => rng.pick(&[17, 33, 65, 100, 101, 300]),
    }
}

fn put_record(rng: &mut Rng, file: &mut Vec<u8>, kind: u8) {
    file.push(kind);
    for _ in 1..record_length(kind) {
        let byte = rng.number() as u8;
        file.push(rng.pick(&[0, 0, 1, 9, 10, 99, 100, 255, 255, byte, byte]));
    }
}

/// What `plantext` may write, and texts that a person or an editor has made of it.
pub fn any_plan_text(rng: &mut Rng) -> Vec<u8> {
    let mut text = match rng.below(8) {
        0..2 => any_lines(rng),
        2 => SORT.any_words(rng),
        3..6 => printed_plan(rng),
        _ => {
            let text = printed_plan(rng);
            rewritten(rng, &text)
        }
    };
    SORT.damage(rng, &mut text);
    text
}

/// The text of a plan that keeps the record rules.
pub fn printed_plan(rng: &mut Rng) -> Vec<u8> {
    let mut plan = any_plan(rng);
    loop {
        if let Some(text) = text_of(&plan) {
            return text;
        }
        plan = any_records(rng);
    }
}

/// `None` where the bytes break the record rules, or are too many.
pub fn text_of(plan: &[u8]) -> Option<Vec<u8>> {
    let Err(Refusal { number: 13, place }) = plan_text(plan, &mut []) else { return None };
    let mut text = vec![0; place];
    plan_text(plan, &mut text).ok()?;
    Some(text)
}

/// The same words as a person may set them: other spaces, zeros in front, comments, blank lines, line ends.
pub fn rewritten(rng: &mut Rng, text: &[u8]) -> Vec<u8> {
    let mut new = Vec::with_capacity(2 * text.len());
    for line in text.split(|&byte| byte == b'\n') {
        if rng.one_in(8) {
            new.extend(rng.pick::<&[u8]>(&[
                b"\n",
                b" \t \r\n",
                b"# nodes 3\n",
                b"\t#\n",
                b"##\r\n",
            ]));
        }
        let told = line.split(|&byte| byte == b'#').next().unwrap_or(line);
        for word in told.split(|&byte| byte == b' ').filter(|word| !word.is_empty()) {
            let number = word.iter().all(u8::is_ascii_digit);
            new.extend(rng.pick::<&[u8]>(&[b" ", b" ", b"  ", b"\t", b"\r", b" \t \r "]));
            new.resize(new.len() + if number { rng.pick(&[0, 0, 0, 1, 30]) } else { 0 }, b'0');
            new.extend(word);
        }
        new.extend(rng.pick::<&[u8]>(&[b"", b" ", b"\r", b"#", b"# 1", b"\t#\t# bus", b"#\xff\0"]));
        new.push(b'\n');
    }
    // Behind the last line feed stood nothing; now there is a line without one.
    new.pop();
    new
}

/// As short as can be, with any numbers.
fn any_lines(rng: &mut Rng) -> Vec<u8> {
    let mut text = bus_line(rng);
    text += &format!("nodes {}\n", small(rng));
    for _ in 0..rng.below(4) {
        text += &format!("module on node {}\n", small(rng));
    }
    for _ in 0..rng.below(4) {
        let (module, period, switch) = (small(rng), large(rng), large(rng));
        text += &format!("mode of module {module} period {period} switch {switch}\n");
    }
    for _ in 0..rng.below(4) {
        let (module, bytes, worst) = (small(rng), small(rng), large(rng));
        text += &format!("task of module {module} bytes {bytes} worst {worst}\n");
    }
    for _ in 0..rng.below(4) {
        let (mode, task, rate) = (small(rng), small(rng), medium(rng));
        text += &format!("run in mode {mode} task {task} rate {rate}\n");
    }
    for _ in 0..rng.below(4) {
        text += &format!("connect task {} to task {}\n", small(rng), small(rng));
    }
    text.into_bytes()
}

fn bus_line(rng: &mut Rng) -> String {
    let (kbits, resolution) = (large(rng), large(rng));
    let [overhead, least, most, gap] = std::array::from_fn(|_| medium(rng));
    let byte_bits = small(rng);
    let behind = rng.pick(&["", "", "", " bits-per-byte", " 8", " bits-per-byte 9 9"]);
    let behind = if rng.one_in(3) { format!(" bits-per-byte {byte_bits}") } else { behind.into() };
    let payloads = format!("least-payload {least} largest-payload {most}");
    let times = format!("gap-bits {gap} resolution {resolution}");
    format!("bus kbit/s {kbits} overhead-bytes {overhead} {payloads} {times}{behind}\n")
}

fn small(rng: &mut Rng) -> String {
    any_number(rng, u8::MAX.into())
}

fn medium(rng: &mut Rng) -> String {
    any_number(rng, u16::MAX.into())
}

fn large(rng: &mut Rng) -> String {
    any_number(rng, u32::MAX.into())
}

const SORT: Sort = Sort {
    words: &[
        "bus",
        "kbit/s",
        "overhead-bytes",
        "least-payload",
        "largest-payload",
        "gap-bits",
        "resolution",
        "bits-per-byte",
        "nodes",
        "module",
        "on",
        "node",
        "mode",
        "of",
        "period",
        "switch",
        "task",
        "bytes",
        "worst",
        "run",
        "in",
        "rate",
        "connect",
        "to",
        "Bus",
        "BUS",
        "modules",
        "nod",
        "invocation",
        "connection",
        "record",
    ],
    lines: &[
        b"\n",
        b" \t \r\n",
        b"# a comment\n",
        b"bus kbit/s 1 overhead-bytes 2 least-payload 3 largest-payload 4 gap-bits 5 resolution 6\n",
        b"bus kbit/s 1 overhead-bytes 2 least-payload 3 largest-payload 4 gap-bits 5 resolution 6 8\n",
        b"bus kbit/s 1 overhead-bytes 2 least-payload 3 largest-payload 4 gap-bits 5 resolution 6 bits-per-byte\n",
        b"bus kbit/s 1 overhead-bytes 2 least-payload 3 largest-payload 4 gap-bits 5 resolution 6 bits-per-byte 7\n",
        b"bus\n",
        b"nodes 2\n",
        b"nodes 256#\n",
        b"nodes\n",
        b"module on node 0#1\n",
        b"mode of module 0 period 60000 switch 60000#\n",
        b"mode of module 0 period 4294967296 switch 0\n",
        b"task of module 0 bytes 4 worst 1000\n",
        b"task of module 0 bytes 4 worst 1,000\n",
        b"run in mode 0 task 0 rate 65536\n",
        b"run in mode 0 task 0 rate 65535 rate\n",
        b"connect task 0 to task 1\n",
        b"connect task 0 to task 00256\n",
        b"connect 0 task to 1 task\n",
    ],
};
