//! Tables: rows, their bytes and their numbers.

use super::plan::{Plan, field};
use super::{Refusal, Side};

/// The bytes of one table field.
pub const TABLE_FIELD: usize = 20;

/// A task's core and marks: the windows are read [read, execute), execute [execute, write) and
/// write [write, end).
#[derive(Clone, Copy, Debug, Default, PartialEq, Eq)]
pub struct Row {
    pub core: u32,
    pub read: u32,
    pub execute: u32,
    pub write: u32,
    pub end: u32,
}

impl Row {
    pub fn of_numbers(numbers: &[u32; 5]) -> Row {
        let &[core, read, execute, write, end] = numbers;
        Row { core, read, execute, write, end }
    }

    pub fn numbers(&self) -> [u32; 5] {
        [self.core, self.read, self.execute, self.write, self.end]
    }

    fn of_body(body: &[u8]) -> Row {
        let mark = |i: usize| {
            let at = 1 + 4 * i;
            u32::from_be_bytes([body[at], body[at + 1], body[at + 2], body[at + 3]])
        };
        Row {
            core: u32::from(body[0]),
            read: mark(0),
            execute: mark(1),
            write: mark(2),
            end: mark(3),
        }
    }

    fn checked(self, plan: &Plan, place: usize) -> Result<Row, Refusal> {
        if self.core >= plan.bus.cores {
            return Err(Refusal::table(10, place));
        }
        if self.read > self.execute || self.execute > self.write || self.write > self.end {
            return Err(Refusal::table(11, place));
        }
        Ok(self)
    }
}

/// The greatest end, or 0 with no tasks.
pub fn makespan(rows: &[Row]) -> u32 {
    rows.iter().map(|row| row.end).max().unwrap_or(0)
}

/// A table's rows, up to the check for bytes left over.
pub fn read_rows(plan: &Plan, bytes: &[u8]) -> Result<Vec<Row>, Refusal> {
    let mut rows = Vec::with_capacity(plan.tasks());
    for task in 0..plan.tasks() {
        let offset = TABLE_FIELD * task;
        if offset == bytes.len() {
            return Err(Refusal::table(9, bytes.len()));
        }
        let (_, body) = field(bytes, offset, Side::Table, |tag| tag == 4)?;
        rows.push(Row::of_body(body).checked(plan, offset)?);
    }
    let whole = TABLE_FIELD * plan.tasks();
    if bytes.len() > whole {
        return Err(Refusal::table(9, whole));
    }
    Ok(rows)
}

pub fn write_rows(rows: &[Row], out: &mut [u8]) {
    for (row, field) in rows.iter().zip(out.chunks_exact_mut(TABLE_FIELD)) {
        field[..3].copy_from_slice(&[4, 0, 17]);
        field[3] = row.core as u8;
        for (mark, bytes) in row.numbers()[1..].iter().zip(field[4..].chunks_exact_mut(4)) {
            bytes.copy_from_slice(&mark.to_be_bytes());
        }
    }
}

pub fn rows_of_numbers(plan: &Plan, numbers: &[u32]) -> Result<Vec<Row>, Refusal> {
    if numbers.len() != 5 * plan.tasks() {
        return Err(Refusal::table(9, TABLE_FIELD * plan.tasks()));
    }
    let (chunks, _) = numbers.as_chunks::<5>();
    let rows = chunks.iter().map(Row::of_numbers).enumerate();
    rows.map(|(task, row)| row.checked(plan, TABLE_FIELD * task)).collect()
}

pub fn numbers_of_rows(rows: &[Row], out: &mut [u32]) {
    for (row, numbers) in rows.iter().zip(out.chunks_exact_mut(5)) {
        numbers.copy_from_slice(&row.numbers());
    }
}
