//! Random and systematic cases, good and damaged.

pub mod corners;
mod damage;
mod plans;
mod tables;

pub use plans::random_plan;

use crate::case::{Case, Entry};
use crate::draft::table_bytes;
use crate::plain::{self, Plan};
use crate::random::Random;

/// The cases of one random plan: made and given tables, played and damaged, and the same for
/// damaged versions of the plan.
pub fn round(random: &mut Random) -> Vec<Case> {
    let draft = random_plan(random);
    let bytes = draft.bytes();
    let plan = plain::parse(&bytes).expect("the generator's plans are good");
    let mut cases = Vec::new();
    if plan.tasks() <= 24 || random.one_in(3) {
        cases.push(make_case(random, &plan, bytes.clone()));
    }
    for _ in 0..6 {
        let rows = tables::random_rows(random, &plan);
        cases.extend(table_cases(random, &plan, &bytes, &rows));
    }
    let rows = tables::random_rows(random, &plan);
    for _ in 0..4 {
        let damaged = damage::plan(random, &draft);
        cases.push(make_case(random, &plan, damaged.clone()));
        cases.extend(table_cases(random, &plan, &damaged, &rows));
    }
    cases
}

/// A case for every entry point but the maker. `plan` gives the right sizes; the bytes go out.
fn table_cases(random: &mut Random, plan: &Plan, bytes: &[u8], rows: &[[u32; 5]]) -> Vec<Case> {
    let table = maybe_damaged_table(random, rows);
    let words = maybe_damaged_words(random, plan, rows);
    let last = random_last(random, plan);
    let verify = Case {
        entry: Entry::Verify,
        plan: bytes.to_vec(),
        table,
        last: 0,
        numbers: Vec::new(),
        room: 0,
    };
    let read =
        Case { entry: Entry::Read, room: random_room(random, 5 * plan.tasks()), ..verify.clone() };
    let run = Case {
        entry: Entry::Run,
        last,
        numbers: words,
        room: random_room(random, 4 * plan.tasks()),
        ..verify.clone()
    };
    let write = Case {
        entry: Entry::Write,
        table: Vec::new(),
        numbers: maybe_damaged_numbers(random, plan, rows),
        room: random_room(random, 20 * plan.tasks()),
        ..verify.clone()
    };
    vec![verify, read, run, write]
}

fn make_case(random: &mut Random, plan: &Plan, bytes: Vec<u8>) -> Case {
    Case {
        entry: Entry::Make,
        plan: bytes,
        table: Vec::new(),
        last: 0,
        numbers: Vec::new(),
        room: random_room(random, 20 * plan.tasks()),
    }
}

fn maybe_damaged_table(random: &mut Random, rows: &[[u32; 5]]) -> Vec<u8> {
    let mut table = table_bytes(rows);
    if random.one_in(4) {
        damage::bytes(random, &mut table);
    }
    table
}

fn maybe_damaged_numbers(random: &mut Random, plan: &Plan, rows: &[[u32; 5]]) -> Vec<u32> {
    let mut numbers = rows.concat();
    if random.one_in(4) {
        damage::list(random, &mut numbers);
    } else if random.one_in(4) && !rows.is_empty() {
        // Cores whose low byte is good.
        let task = random.below(rows.len());
        numbers[5 * task] =
            random.below(plan.bus.cores as usize) as u32 + (1 << random.between(8, 31));
    }
    numbers
}

/// Actual words, mostly within the declared ones.
fn maybe_damaged_words(random: &mut Random, plan: &Plan, rows: &[[u32; 5]]) -> Vec<u32> {
    let rows: Vec<_> = rows.iter().map(plain::Row::of_numbers).collect();
    let mut words = plain::words_of(plan, &rows).concat();
    match random.below(8) {
        0..3 => {}
        3 => words.fill(0),
        4..6 => words.iter_mut().for_each(|count| *count = random.between(0, *count)),
        _ => words.iter_mut().for_each(|count| *count *= random.between(0, 1)),
    }
    if random.one_in(5) {
        damage::list(random, &mut words);
    }
    words
}

fn random_last(random: &mut Random, plan: &Plan) -> u32 {
    let good = random.below(plan.bus.cores as usize) as u32;
    match random.below(10) {
        0 => random.pick(&[plan.bus.cores, plan.bus.cores + 1, 8, 255, good + 256, u32::MAX]),
        _ => good,
    }
}

/// A lent output's length: mostly what is needed, else longer or shorter.
fn random_room(random: &mut Random, needed: usize) -> usize {
    match random.below(12) {
        0 => needed.saturating_sub(1),
        1 => random.below(needed + 1),
        2 => needed + 1,
        3 => needed + random.below(40),
        _ => needed,
    }
}
