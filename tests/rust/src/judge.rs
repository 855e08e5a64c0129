//! Holds a library's outcome of a case against the plain one, and against what must hold anyhow.

use crate::case::{Case, Entry, Outcome};
use crate::plain::{self, Plain, Plan, Row};
use crate::{Answer, Library};

/// Both outcomes of a case and what is wrong with the first, if anything.
pub struct Judgement {
    pub outcome: Outcome,
    pub plain: Outcome,
    pub complaint: Option<String>,
}

pub fn judge(library: &impl Library, case: &Case) -> Judgement {
    let outcome = case.perform(library);
    let plain = case.perform(&Plain);
    let complaint = if outcome.answer != plain.answer {
        Some("the answers differ".to_string())
    } else if outcome.memory != plain.memory {
        Some("the lent memory differs".to_string())
    } else {
        broken_property(library, case, &outcome)
    };
    Judgement { outcome, plain, complaint }
}

/// A property that doesn't hold, whatever the plain implementation says.
fn broken_property(library: &impl Library, case: &Case, outcome: &Outcome) -> Option<String> {
    let changed = match outcome.answer.is_success() {
        true => case.entry.per_task() * plain::parse(&case.plan).ok()?.tasks(),
        false => 0,
    };
    let kept = outcome.memory.keeps_but(&case.fresh_memory(), changed);
    let rule = |holds: bool, rule: &str| (!holds).then(|| format!("broken: {rule}"));
    let memory_rule = rule(kept, "only the front of the output changes, and that only on success");
    if memory_rule.is_some() || !outcome.answer.is_success() {
        return memory_rule;
    }
    match case.entry {
        Entry::Verify => rule(
            outcome.answer == accepted(greatest_end(library, case)?),
            "the makespan is the greatest F",
        ),
        Entry::Make => made_table(library, case, outcome).err(),
        Entry::Write => rule(
            reads_back(library, case, outcome),
            "the reader gives back the numbers that were written",
        ),
        Entry::Read => rule(
            writes_back(library, case, outcome),
            "the writer gives back the bytes that were read",
        ),
        Entry::Run => run_within_windows(library, case, outcome).err(),
    }
}

fn accepted(value: u32) -> Answer {
    Answer { number: 0, side: 0, place: 0, value: u64::from(value) }
}

fn rows_of(library: &impl Library, plan: &Plan, plan_bytes: &[u8], table: &[u8]) -> Vec<Row> {
    let mut numbers = vec![0; 5 * plan.tasks()];
    library.read(plan_bytes, table, &mut numbers);
    let (rows, _) = numbers.as_chunks::<5>();
    rows.iter().map(Row::of_numbers).collect()
}

fn greatest_end(library: &impl Library, case: &Case) -> Option<u32> {
    let plan = plain::parse(&case.plan).ok()?;
    let rows = rows_of(library, &plan, &case.plan, &case.table);
    Some(rows.iter().map(|row| row.end).max().unwrap_or(0))
}

/// What the maker writes is accepted with its makespan, and reading and writing keep it.
fn made_table(library: &impl Library, case: &Case, outcome: &Outcome) -> Result<(), String> {
    let tasks = plain::parse(&case.plan).map_err(|_| "a bad plan was taken")?.tasks();
    let table = outcome.front_bytes(20 * tasks);
    if library.verify(&case.plan, table) != outcome.answer {
        return Err("broken: the verifier accepts what the maker writes".to_string());
    }
    let mut numbers = vec![0; 5 * tasks];
    let mut again = vec![0; 20 * tasks];
    library.read(&case.plan, table, &mut numbers);
    library.write(&case.plan, &numbers, &mut again);
    match again == table {
        true => Ok(()),
        false => Err("broken: a made table, read and written, stays the same".to_string()),
    }
}

fn reads_back(library: &impl Library, case: &Case, outcome: &Outcome) -> bool {
    let mut numbers = vec![0; case.numbers.len()];
    let table = outcome.front_bytes(4 * case.numbers.len());
    let answer = library.read(&case.plan, table, &mut numbers);
    answer.is_success() && numbers == case.numbers
}

fn writes_back(library: &impl Library, case: &Case, outcome: &Outcome) -> bool {
    let mut table = vec![0; case.table.len()];
    let numbers = outcome.front_numbers(case.table.len() / 4);
    let answer = library.write(&case.plan, numbers, &mut table);
    answer.is_success() && table == case.table
}

/// Each phase's end lies within its window and no sooner than its words take; without words it
/// ends at its start and never waits; its waits are at most its slots times its rivals.
fn run_within_windows(
    library: &impl Library,
    case: &Case,
    outcome: &Outcome,
) -> Result<(), String> {
    let plan = plain::parse(&case.plan).map_err(|_| "a bad plan was taken")?;
    let rows = rows_of(library, &plan, &case.plan, &case.table);
    let (played, _) = outcome.front_numbers(4 * plan.tasks()).as_chunks::<2>();
    let declared = plain::words_of(&plan, &rows);
    for (phase, (&[end, waits], &sent)) in played.iter().zip(&case.numbers).enumerate() {
        let (start, window_end) = window(&rows, phase);
        let least = u64::from(start) + u64::from(sent) * u64::from(plan.bus.word_time());
        let slots = sent.div_ceil(plan.bus.slot_words);
        let most_waits = slots * rivals(&plan, &rows, declared.as_flattened(), phase);
        if u64::from(end) < least || end > window_end {
            return Err(format!("broken: phase {phase} ends within its window"));
        }
        if waits > most_waits || sent == 0 && end != start {
            return Err(format!("broken: phase {phase} waits for its counted rivals only"));
        }
    }
    Ok(())
}

/// Phase 2i is task i's read window, phase 2i + 1 its write window.
fn window(rows: &[Row], phase: usize) -> (u32, u32) {
    let row = &rows[phase / 2];
    match phase % 2 {
        0 => (row.read, row.execute),
        _ => (row.write, row.end),
    }
}

fn rivals(plan: &Plan, rows: &[Row], declared: &[u32], phase: usize) -> u32 {
    let (start, end) = window(rows, phase);
    let overlaps = |other: &usize| {
        let (other_start, other_end) = window(rows, *other);
        let both_carry = declared[phase] > 0 && declared[*other] > 0;
        let on_other_core = rows[phase / 2].core != rows[other / 2].core;
        both_carry && on_other_core && start < other_end && other_start < end
    };
    let count = (0..declared.len()).filter(overlaps).count() as u32;
    count.min(plan.bus.cores - 1)
}
