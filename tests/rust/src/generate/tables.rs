//! Random tables as five numbers per task, good ones and nearly good ones.

use super::damage;
use crate::plain::{self, MAX_TASKS, Plan, Row};
use crate::random::Random;

pub fn random_rows(random: &mut Random, plan: &Plan) -> Vec<[u32; 5]> {
    let mut rows = match random.below(10) {
        0..6 => settled_rows(random, plan),
        6..9 => cramped_rows(random, plan),
        _ => noise_rows(random, plan),
    };
    match random.below(8) {
        0..2 => stretch(random, &mut rows),
        2 => push_to_the_end(&mut rows),
        _ => {}
    }
    if random.one_in(3) && !rows.is_empty() {
        for _ in 0..random.between(1, 3) {
            damage::rows(random, &mut rows, plan.bus.cores);
        }
    }
    rows
}

/// Good tables without slack: random cores and modes, windows settled as the list rule does it.
fn settled_rows(random: &mut Random, plan: &Plan) -> Vec<[u32; 5]> {
    let cores = random_cores(random, plan);
    let exclusive_in = random.between(1, 9) as usize;
    let exclusive: Vec<bool> = (0..MAX_TASKS).map(|_| random.one_in(exclusive_in)).collect();
    let rows = plain::settled_table(plan, |task| (cores[task], exclusive[task]));
    rows.iter().map(Row::numbers).collect()
}

fn random_cores(random: &mut Random, plan: &Plan) -> Vec<u32> {
    let used = random.between(1, plan.bus.cores);
    (0..plan.tasks()).map(|_| random.between(0, used - 1)).collect()
}

/// Spans, edges and execute windows are good; read and write windows are guessed, also empty.
fn cramped_rows(random: &mut Random, plan: &Plan) -> Vec<[u32; 5]> {
    let cores = random_cores(random, plan);
    let mut rows = vec![Row::default(); plan.tasks()];
    for (task, row) in rows.iter_mut().enumerate() {
        row.core = cores[task];
    }
    let words = plain::words_of(plan, &rows);
    let mut core_free = [0; 8];
    for &task in &plan.order {
        let sources = plan.edges.iter().filter(|edge| edge.target() == task);
        let sources_end = sources.map(|edge| rows[edge.source()].end).max().unwrap_or(0);
        let core = rows[task].core as usize;
        let read = sources_end.max(core_free[core]) + small_gap(random);
        let execute = read + guessed_length(random, plan, words[task][0]);
        let write = execute + plan.times[task] + small_gap(random);
        let end = write + guessed_length(random, plan, words[task][1]);
        rows[task] = Row { core: core as u32, read, execute, write, end };
        core_free[core] = end;
    }
    rows.iter().map(Row::numbers).collect()
}

fn small_gap(random: &mut Random) -> u32 {
    if random.one_in(3) { random.between(0, 4) } else { 0 }
}

fn guessed_length(random: &mut Random, plan: &Plan, words: u32) -> u32 {
    let rivals = random.between(0, plan.bus.cores - 1);
    let delay = plan.bus.delay(words, rivals);
    match random.below(16) {
        0 => 0,
        1 => delay.saturating_sub(1),
        2 => delay + random.between(0, 5),
        3..6 => plan.bus.delay(words, plan.bus.cores - 1),
        _ => delay,
    }
}

/// Sorted marks close to each other.
fn noise_rows(random: &mut Random, plan: &Plan) -> Vec<[u32; 5]> {
    let greatest = random.pick(&[3, 10, 40, 200, u32::MAX - 1]);
    let mut row = |_| {
        let mut marks = [0; 4].map(|_: u32| random.between(0, greatest));
        marks.sort();
        let [read, execute, write, end] = marks;
        [random.between(0, plan.bus.cores - 1), read, execute, write, end]
    };
    (0..plan.tasks()).map(&mut row).collect()
}

/// Puts gaps into the time, the same for all tasks, so that what overlaps stays the same and no
/// window gets shorter.
fn stretch(random: &mut Random, rows: &mut [[u32; 5]]) {
    for _ in 0..random.between(1, 4) {
        let from = random.pick_mark(rows);
        let gap = random.between(1, 50);
        for mark in rows.iter_mut().flat_map(|row| &mut row[1..]) {
            if *mark >= from {
                *mark = mark.saturating_add(gap);
            }
        }
    }
}

/// Lets the last mark be the greatest number that there is.
fn push_to_the_end(rows: &mut [[u32; 5]]) {
    let greatest = rows.iter().flat_map(|row| &row[1..]).max().copied().unwrap_or(0);
    for mark in rows.iter_mut().flat_map(|row| &mut row[1..]) {
        *mark += u32::MAX - greatest;
    }
}

impl Random {
    fn pick_mark(&mut self, rows: &[[u32; 5]]) -> u32 {
        match rows.is_empty() {
            true => 0,
            false => rows[self.below(rows.len())][self.between(1, 4) as usize],
        }
    }
}
