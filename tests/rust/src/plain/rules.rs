//! The rules of a good table.

use super::Refusal;
use super::plan::{Bus, Plan};
use super::table::{Row, TABLE_FIELD, makespan};

/// A task's read words and write words.
pub type Words = [u32; 2];

/// Each task's words: those of its edges from and to other cores.
pub fn words_of(plan: &Plan, rows: &[Row]) -> Vec<Words> {
    let mut words = vec![[0, 0]; plan.tasks()];
    for edge in &plan.edges {
        if rows[edge.source()].core != rows[edge.target()].core {
            words[edge.target()][0] += edge.words();
            words[edge.source()][1] += edge.words();
        }
    }
    words
}

/// A read or write window that carries words.
#[derive(Clone, Copy, Debug)]
pub struct Phase {
    pub core: u32,
    pub start: u32,
    pub end: u32,
    pub words: u32,
    pub task: usize,
}

impl Phase {
    /// Both carry words; they overlap when each starts before the other ends.
    pub fn overlaps(&self, other: &Phase) -> bool {
        self.start < other.end && other.start < self.end
    }

    fn rivals(&self, bus: &Bus, phases: &[Phase]) -> u32 {
        let rival = |other: &&Phase| other.core != self.core && self.overlaps(other);
        let count = phases.iter().filter(rival).count() as u32;
        count.min(bus.cores - 1)
    }
}

/// Checks 12 to 15, then the makespan.
pub fn judge(plan: &Plan, rows: &[Row], words: &[Words]) -> Result<u32, Refusal> {
    check_execute_windows(plan, rows)?;
    check_edges(plan, rows)?;
    check_spans(rows)?;
    check_delays(plan, rows, words)?;
    Ok(makespan(rows))
}

fn refuse_at(number: u32, task: usize) -> Refusal {
    Refusal::table(number, TABLE_FIELD * task)
}

fn check_execute_windows(plan: &Plan, rows: &[Row]) -> Result<(), Refusal> {
    let short = |(row, &time): (&Row, &u32)| row.write - row.execute < time;
    match rows.iter().zip(&plan.times).position(short) {
        Some(task) => Err(refuse_at(12, task)),
        None => Ok(()),
    }
}

fn check_edges(plan: &Plan, rows: &[Row]) -> Result<(), Refusal> {
    for edge in &plan.edges {
        if rows[edge.target()].read < rows[edge.source()].end {
            return Err(refuse_at(13, edge.target()));
        }
    }
    Ok(())
}

fn check_spans(rows: &[Row]) -> Result<(), Refusal> {
    for (lower, a) in rows.iter().enumerate() {
        for (higher, b) in rows.iter().enumerate().skip(lower + 1) {
            if a.core == b.core && a.read < b.end && b.read < a.end {
                return Err(refuse_at(14, higher));
            }
        }
    }
    Ok(())
}

/// A window without words has delay 0, so only carrying ones can be short.
fn check_delays(plan: &Plan, rows: &[Row], words: &[Words]) -> Result<(), Refusal> {
    let phases = carrying_phases(rows, words);
    for phase in &phases {
        let delay = plan.bus.delay(phase.words, phase.rivals(&plan.bus, &phases));
        if phase.end - phase.start < delay {
            return Err(refuse_at(15, phase.task));
        }
    }
    Ok(())
}

/// By task, read before write.
fn carrying_phases(rows: &[Row], words: &[Words]) -> Vec<Phase> {
    let mut phases = Vec::with_capacity(2 * rows.len());
    for (task, (row, &[read, write])) in rows.iter().zip(words).enumerate() {
        let core = row.core;
        if read > 0 {
            phases.push(Phase { core, start: row.read, end: row.execute, words: read, task });
        }
        if write > 0 {
            phases.push(Phase { core, start: row.write, end: row.end, words: write, task });
        }
    }
    phases
}
