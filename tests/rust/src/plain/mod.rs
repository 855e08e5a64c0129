//! Document 01 in plain Rust, written from its text: the five entry points.

mod bus;
mod list;
mod plan;
mod rules;
mod table;

pub use list::settled_table;
pub use plan::{Bus, Edge, MAX_EDGES, MAX_TASKS, MAX_WORDS, Plan};
pub use rules::words_of;
pub use table::{Row, TABLE_FIELD};

use crate::{Answer, Library};

#[derive(Clone, Copy, Debug, PartialEq, Eq)]
pub enum Side {
    Neither = 0,
    Plan = 1,
    Table = 2,
}

#[derive(Clone, Copy, Debug, PartialEq, Eq)]
pub struct Refusal {
    pub number: u32,
    pub side: Side,
    pub place: usize,
}

impl Refusal {
    fn plan(number: u32, place: usize) -> Refusal {
        let side = Side::Plan;
        Refusal { number, side, place }
    }

    fn table(number: u32, place: usize) -> Refusal {
        let side = Side::Table;
        Refusal { number, side, place }
    }

    fn neither(number: u32, place: usize) -> Refusal {
        let side = Side::Neither;
        Refusal { number, side, place }
    }
}

pub fn parse(plan: &[u8]) -> Result<Plan, Refusal> {
    Plan::parse(plan)
}

pub fn verify(plan: &[u8], table: &[u8]) -> Result<u32, Refusal> {
    let plan = Plan::parse(plan)?;
    let rows = table::read_rows(&plan, table)?;
    rules::judge(&plan, &rows, &words_of(&plan, &rows))
}

pub fn make(plan: &[u8], out: &mut [u8]) -> Result<u32, Refusal> {
    let plan = Plan::parse(plan)?;
    let out = front(out, TABLE_FIELD * plan.tasks())?;
    let rows = list::make_rows(&plan);
    table::write_rows(&rows, out);
    Ok(table::makespan(&rows))
}

pub fn write(plan: &[u8], numbers: &[u32], out: &mut [u8]) -> Result<(), Refusal> {
    let plan = Plan::parse(plan)?;
    let rows = table::rows_of_numbers(&plan, numbers)?;
    let out = front(out, TABLE_FIELD * plan.tasks())?;
    table::write_rows(&rows, out);
    Ok(())
}

pub fn read(plan: &[u8], table: &[u8], out: &mut [u32]) -> Result<(), Refusal> {
    let plan = Plan::parse(plan)?;
    let rows = table::read_rows(&plan, table)?;
    let out = front(out, 5 * plan.tasks())?;
    table::numbers_of_rows(&rows, out);
    Ok(())
}

pub fn run(
    plan: &[u8],
    table: &[u8],
    last: u32,
    sent: &[u32],
    out: &mut [u32],
) -> Result<(), Refusal> {
    let plan = Plan::parse(plan)?;
    let rows = table::read_rows(&plan, table)?;
    let declared = words_of(&plan, &rows);
    rules::judge(&plan, &rows, &declared)?;
    if last >= plan.bus.cores {
        return Err(Refusal::neither(16, 0));
    }
    bus::check_sent(&declared, sent)?;
    let out = front(out, 4 * plan.tasks())?;
    bus::play(&plan.bus, &rows, last, sent, out);
    Ok(())
}

/// The part of a lent output that a success changes, or refusal 8.
fn front<T>(out: &mut [T], length: usize) -> Result<&mut [T], Refusal> {
    out.get_mut(..length).ok_or(Refusal::neither(8, 0))
}

/// The plain implementation as a library.
#[derive(Clone, Copy, Debug)]
pub struct Plain;

impl Library for Plain {
    fn verify(&self, plan: &[u8], table: &[u8]) -> Answer {
        answer(verify(plan, table))
    }

    fn make(&self, plan: &[u8], out: &mut [u8]) -> Answer {
        answer(make(plan, out))
    }

    fn write(&self, plan: &[u8], numbers: &[u32], out: &mut [u8]) -> Answer {
        answer(write(plan, numbers, out).map(|()| 0))
    }

    fn read(&self, plan: &[u8], table: &[u8], out: &mut [u32]) -> Answer {
        answer(read(plan, table, out).map(|()| 0))
    }

    fn run(&self, plan: &[u8], table: &[u8], last: u32, words: &[u32], out: &mut [u32]) -> Answer {
        answer(run(plan, table, last, words, out).map(|()| 0))
    }
}

fn answer(result: Result<u32, Refusal>) -> Answer {
    match result {
        Ok(value) => Answer { number: 0, side: 0, place: 0, value: u64::from(value) },
        Err(refusal) => Answer {
            number: refusal.number,
            side: refusal.side as u32,
            place: refusal.place as u64,
            value: 0,
        },
    }
}
