//! Plans and tables as they are written, good or not.

use crate::Edition;
use crate::bus::ControlRow;
use crate::checker::{DataRow, read_control_row, read_data_row};
use crate::plan::{Bits, Connection, Invocation, Mode, Module, Task};
use crate::records::{
    BUS, BUS_WITH_BYTE_BITS, CONNECTION, CONTROL_ROW, DATA_ROW, END, INVOCATION, MODE, MODULE,
    NODES, TABLE_FILE, TASK, outline,
};

#[derive(Clone, Debug, Default)]
pub struct Draft {
    pub bits: Bits,
    pub nodes: u8,
    pub modules: Vec<Module>,
    pub modes: Vec<Mode>,
    pub tasks: Vec<Task>,
    pub invocations: Vec<Invocation>,
    pub connections: Vec<Connection>,
}

impl Draft {
    pub fn bytes(&self) -> Vec<u8> {
        let mut file = Vec::with_capacity(1_024);
        file.extend(bus_record(&self.bits));
        file.extend([NODES, self.nodes]);
        self.modules.iter().for_each(|module| file.extend([MODULE, module.node]));
        for mode in &self.modes {
            file.extend([MODE, mode.module]);
            file.extend(mode.period.to_le_bytes());
            file.extend(mode.switch_period.to_le_bytes());
        }
        for task in &self.tasks {
            file.extend([TASK, task.module, task.size]);
            file.extend(task.worst_time.to_le_bytes());
        }
        for run in &self.invocations {
            file.extend([INVOCATION, run.mode, run.task]);
            file.extend(run.rate.to_le_bytes());
        }
        for connection in &self.connections {
            file.extend([CONNECTION, connection.producer, connection.consumer]);
        }
        file.push(END);
        file
    }

    pub fn with_byte_bits(mut self, byte_bits: Option<u8>) -> Draft {
        self.bits.byte_bits = byte_bits;
        self
    }

    pub fn node_of_task(&self, task: usize) -> u8 {
        self.modules[usize::from(self.tasks[task].module)].node
    }
}

/// Of kind 9 where a byte's bits are said, else of kind 1.
pub fn bus_record(bits: &Bits) -> Vec<u8> {
    let mut record = vec![if bits.byte_bits.is_some() { BUS_WITH_BYTE_BITS } else { BUS }];
    record.extend(bits.kbits.to_le_bytes());
    record.extend(bits.overhead.to_le_bytes());
    record.extend(bits.least_payload.to_le_bytes());
    record.extend(bits.largest_payload.to_le_bytes());
    record.extend(bits.gap_bits.to_le_bytes());
    record.extend(bits.resolution.to_le_bytes());
    record.extend(bits.byte_bits);
    record
}

#[derive(Clone, Debug, Default, PartialEq, Eq)]
pub struct TableDraft {
    /// What the header says.
    pub edition: Edition,
    pub period: u32,
    pub control_count: u8,
    pub data_count: u16,
    pub control: Vec<ControlRow>,
    pub data: Vec<DataRow>,
}

impl TableDraft {
    pub fn bytes(&self) -> Vec<u8> {
        let mut file = vec![self.edition.kind()];
        file.extend(self.period.to_le_bytes());
        file.push(self.control_count);
        file.extend(self.data_count.to_le_bytes());
        for row in &self.control {
            file.extend([CONTROL_ROW, row.node]);
            file.extend(row.start.to_le_bytes());
            file.extend(row.stop.to_le_bytes());
        }
        for row in &self.data {
            file.extend([DATA_ROW, row.task]);
            file.extend(row.deadline.to_le_bytes());
            file.extend(row.start.to_le_bytes());
            file.extend(row.stop.to_le_bytes());
        }
        file.push(END);
        file
    }

    /// `None` where the bytes break the record rules.
    pub fn read(file: &[u8]) -> Option<TableDraft> {
        let cut = outline(file, &TABLE_FILE).ok()?;
        let &[_, p0, p1, p2, p3, control_count, d0, d1] = cut.once[0] else { return None };
        Some(TableDraft {
            edition: Edition::of_table(file),
            period: u32::from_le_bytes([p0, p1, p2, p3]),
            control_count,
            data_count: u16::from_le_bytes([d0, d1]),
            control: cut.repeated[0].as_chunks().0.iter().map(read_control_row).collect(),
            data: cut.repeated[1].as_chunks().0.iter().map(read_data_row).collect(),
        })
    }
}

/// Job A (docs/RULES.md, rule 10.A).
pub fn job_a() -> Draft {
    let mode = |module| Mode { module, period: 60_000, switch_period: 60_000 };
    let task = |module| Task { module, size: 4, worst_time: 1_000 };
    Draft {
        bits: Bits {
            kbits: 1_000,
            overhead: 8,
            least_payload: 0,
            largest_payload: 254,
            gap_bits: 10,
            resolution: 1,
            byte_bits: None,
        },
        nodes: 2,
        modules: vec![Module { node: 0 }, Module { node: 1 }],
        modes: vec![mode(0), mode(0), mode(1)],
        tasks: vec![task(0), task(1)],
        invocations: vec![
            Invocation { mode: 0, task: 0, rate: 2 },
            Invocation { mode: 1, task: 0, rate: 3 },
            Invocation { mode: 2, task: 1, rate: 1 },
        ],
        connections: vec![Connection { producer: 0, consumer: 1 }],
    }
}

/// Job A whose consumer reads in the middle of a cycle too.
pub fn job_a_read_twice() -> Draft {
    let mut draft = job_a();
    draft.invocations[2].rate = 2;
    draft
}

/// Job J (docs/RULES.md, rule 10.J): X, Y, Z, and the task that consumes them.
pub fn job_j() -> Draft {
    let task = |module, size, worst_time| Task { module, size, worst_time };
    let invocation = |task, rate| Invocation { mode: task, task, rate };
    Draft {
        bits: Bits {
            kbits: 8_000,
            overhead: 0,
            least_payload: 0,
            largest_payload: 254,
            gap_bits: 0,
            resolution: 1,
            byte_bits: None,
        },
        nodes: 4,
        modules: (0..4).map(|node| Module { node }).collect(),
        modes: (0..4).map(|module| Mode { module, period: 20, switch_period: 20 }).collect(),
        tasks: vec![task(0, 5, 1), task(1, 2, 8), task(2, 4, 11), task(3, 1, 1)],
        invocations: vec![invocation(0, 1), invocation(1, 2), invocation(2, 1), invocation(3, 1)],
        connections: (0..3).map(|producer| Connection { producer, consumer: 3 }).collect(),
    }
}
