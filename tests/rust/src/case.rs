//! One call of an entry point, and what comes of it.

use crate::{Answer, Library};

#[derive(Clone, Copy, Debug, PartialEq, Eq)]
pub enum Entry {
    Verify,
    Make,
    Write,
    Read,
    Run,
}

impl Entry {
    pub const ALL: [Entry; 5] = [Entry::Verify, Entry::Make, Entry::Write, Entry::Read, Entry::Run];

    pub fn name(self) -> &'static str {
        match self {
            Entry::Verify => "verify",
            Entry::Make => "make",
            Entry::Write => "write",
            Entry::Read => "read",
            Entry::Run => "run",
        }
    }

    /// The elements that a success changes, per task.
    pub fn per_task(self) -> usize {
        match self {
            Entry::Verify => 0,
            Entry::Make | Entry::Write => 20,
            Entry::Read => 5,
            Entry::Run => 4,
        }
    }

    /// The refusals, number and side, that it can give.
    pub fn refusals(self) -> Vec<(u32, u32)> {
        let plan = (1..=7).map(|number| (number, 1));
        let rest: &[(u32, u32)] = match self {
            Entry::Make => &[(8, 0)],
            Entry::Write => &[(8, 0), (9, 2), (10, 2), (11, 2)],
            Entry::Read => &[(1, 2), (2, 2), (3, 2), (8, 0), (9, 2), (10, 2), (11, 2)],
            Entry::Verify => &[
                (1, 2),
                (2, 2),
                (3, 2),
                (9, 2),
                (10, 2),
                (11, 2),
                (12, 2),
                (13, 2),
                (14, 2),
                (15, 2),
            ],
            Entry::Run => &[
                (1, 2),
                (2, 2),
                (3, 2),
                (8, 0),
                (9, 2),
                (10, 2),
                (11, 2),
                (12, 2),
                (13, 2),
                (14, 2),
                (15, 2),
                (16, 0),
                (17, 0),
            ],
        };
        plan.chain(rest.iter().copied()).collect()
    }
}

/// An entry point's arguments; those that it doesn't take are empty or 0.
#[derive(Clone, Debug, PartialEq, Eq)]
pub struct Case {
    pub entry: Entry,
    pub plan: Vec<u8>,
    pub table: Vec<u8>,
    /// The run's core served last.
    pub last: u32,
    /// The writer's numbers or the run's words.
    pub numbers: Vec<u32>,
    /// The length of the lent output.
    pub room: usize,
}

/// Lent memory round the output: `GUARD` elements before it and behind it.
#[derive(Clone, Debug, PartialEq, Eq)]
pub enum Memory {
    Bytes(Vec<u8>),
    Numbers(Vec<u32>),
}

const GUARD: usize = 9;

#[derive(Clone, Debug, PartialEq, Eq)]
pub struct Outcome {
    pub answer: Answer,
    pub memory: Memory,
}

impl Case {
    pub fn perform(&self, library: &impl Library) -> Outcome {
        let mut memory = self.fresh_memory();
        let answer = self.call(library, &mut memory);
        Outcome { answer, memory }
    }

    /// Plan and table stand at odd addresses: bytes may stand anywhere.
    fn call(&self, library: &impl Library, memory: &mut Memory) -> Answer {
        let plan = [&[0; 3][..], &self.plan].concat();
        let table = [&[0; 5][..], &self.table].concat();
        let (plan, table) = (&plan[3..], &table[5..]);
        let lent = GUARD..GUARD + self.room;
        match (self.entry, memory) {
            (Entry::Make, Memory::Bytes(out)) => library.make(plan, &mut out[lent]),
            (Entry::Write, Memory::Bytes(out)) => {
                library.write(plan, &self.numbers, &mut out[lent])
            }
            (Entry::Read, Memory::Numbers(out)) => library.read(plan, table, &mut out[lent]),
            (Entry::Run, Memory::Numbers(out)) => {
                library.run(plan, table, self.last, &self.numbers, &mut out[lent])
            }
            _ => library.verify(plan, table),
        }
    }

    /// Lent memory as it is before the call: a pattern that differs from element to element.
    pub fn fresh_memory(&self) -> Memory {
        let pattern = (0..self.room + 2 * GUARD).map(|i| (i as u32 + 1).wrapping_mul(0x9E37_79B1));
        match self.entry {
            Entry::Make | Entry::Write => Memory::Bytes(pattern.map(|x| (x >> 24) as u8).collect()),
            _ => Memory::Numbers(pattern.collect()),
        }
    }
}

impl Outcome {
    /// The front of the output, as bytes.
    pub fn front_bytes(&self, length: usize) -> &[u8] {
        match &self.memory {
            Memory::Bytes(memory) => &memory[GUARD..GUARD + length],
            Memory::Numbers(_) => &[],
        }
    }

    /// The front of the output, as numbers.
    pub fn front_numbers(&self, length: usize) -> &[u32] {
        match &self.memory {
            Memory::Numbers(memory) => &memory[GUARD..GUARD + length],
            Memory::Bytes(_) => &[],
        }
    }
}

impl Memory {
    /// Is everything but the first `changed` elements of the output as it was?
    pub fn keeps_but(&self, before: &Memory, changed: usize) -> bool {
        match (self, before) {
            (Memory::Bytes(after), Memory::Bytes(before)) => same_but(after, before, changed),
            (Memory::Numbers(after), Memory::Numbers(before)) => same_but(after, before, changed),
            _ => false,
        }
    }
}

fn same_but<T: PartialEq>(after: &[T], before: &[T], changed: usize) -> bool {
    let behind = GUARD + changed;
    after[..GUARD] == before[..GUARD] && after[behind..] == before[behind..]
}
