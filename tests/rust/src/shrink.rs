//! Makes a case smaller while something about it stays.

use std::cmp::Reverse;
use std::time::{Duration, Instant};

use crate::case::{Case, Entry};
use crate::draft::{Draft, split_fields, table_bytes, table_rows};
use crate::plain::{self, Row};

/// A way to make a case smaller, with its results, the boldest first.
type Step = fn(&Case) -> Vec<Case>;

const STEPS: [Step; 8] = [
    without_tasks,
    without_edges,
    without_fields,
    shorter,
    lower_plan_values,
    earlier_marks,
    lower_bytes,
    lower_numbers,
];

/// The smallest case found that still `fails`: tasks, edges, fields, bytes and numbers are dropped
/// or lowered as long as that helps and time is left.
pub fn shrink(case: &Case, time: Duration, fails: impl Fn(&Case) -> bool) -> Case {
    let deadline = Instant::now() + time;
    let mut smallest = case.clone();
    loop {
        let before = size(&smallest);
        for step in STEPS {
            smallest = shrink_by(step, smallest, |case| Instant::now() < deadline && fails(case));
        }
        if size(&smallest) == before {
            return smallest;
        }
    }
}

/// One step, as often as it helps. After a success it goes on where it was.
fn shrink_by(step: Step, mut smallest: Case, fails: impl Fn(&Case) -> bool) -> Case {
    let mut tried = 0;
    loop {
        let before = size(&smallest);
        let candidates = step(&smallest).into_iter().enumerate().skip(tried);
        let smaller = candidates
            .map(|(index, candidate)| (index, with_fewer_words(candidate)))
            .find(|(_, candidate)| size(candidate) < before && fails(candidate));
        match smaller {
            Some((index, candidate)) => (tried, smallest) = (index, candidate),
            None => return smallest,
        }
    }
}

/// Fewer elements first, then lower ones.
fn size(case: &Case) -> impl Ord + use<> {
    let lengths = case.plan.len() + case.table.len() + 4 * case.numbers.len() + case.room;
    (lengths, case.plan.clone(), case.table.clone(), case.numbers.clone(), case.last)
}

/// A run that was good but for words that are no longer declared sends what is declared.
fn with_fewer_words(mut case: Case) -> Case {
    let Ok(plan) = plain::parse(&case.plan) else {
        return case;
    };
    let Some(rows) = table_rows(&case.table) else {
        return case;
    };
    if case.entry == Entry::Run && rows.len() == plan.tasks() {
        let rows: Vec<Row> = rows.iter().map(Row::of_numbers).collect();
        let declared = plain::words_of(&plan, &rows).concat();
        for (sent, declared) in case.numbers.iter_mut().zip(declared) {
            // What is far off was meant so.
            if *sent < 1 << 20 {
                *sent = declared.min(*sent);
            }
        }
    }
    case
}

/// Parts of a list of so many items: all, halves, quarters, .. single ones, the last first.
fn parts(length: usize) -> Vec<(usize, usize)> {
    let sizes = std::iter::successors(Some(length), |size| Some(size / 2));
    let sizes = sizes.take_while(|&size| size > 0);
    let parts = |size| (0..=length - size).step_by(size).map(move |from| (from, from + size));
    let mut parts: Vec<_> = sizes.flat_map(parts).collect();
    parts.sort_by_key(|&(from, to)| (Reverse(to - from), Reverse(from)));
    parts
}

fn without<T: Clone>(items: &[T], from: usize, to: usize) -> Vec<T> {
    let (from, to) = (from.min(items.len()), to.min(items.len()));
    [&items[..from], &items[to..]].concat()
}

/// Tasks go, with their edges, their table fields and their numbers.
fn without_tasks(case: &Case) -> Vec<Case> {
    let Some(draft) = Draft::of_bytes(&case.plan) else {
        return Vec::new();
    };
    let numbers_per_task = match case.entry {
        Entry::Write => 5,
        Entry::Run => 2,
        _ => 0,
    };
    let without_part = |(from, to): (usize, usize)| Case {
        plan: draft_without_tasks(&draft, from, to).bytes(),
        table: without(&case.table, 20 * from, 20 * to),
        numbers: without(&case.numbers, numbers_per_task * from, numbers_per_task * to),
        room: case.room.saturating_sub(case.entry.per_task() * (to - from)),
        ..case.clone()
    };
    parts(draft.times.len()).into_iter().map(without_part).collect()
}

fn draft_without_tasks(draft: &Draft, from: usize, to: usize) -> Draft {
    let gone = |task: u8| (from..to).contains(&usize::from(task));
    let renumbered =
        |task: u8| if usize::from(task) < to { task } else { task - (to - from) as u8 };
    let mut draft = draft.clone();
    draft.times.drain(from..to);
    draft.edges.retain(|edge| !gone(edge.source) && !gone(edge.target));
    for edge in &mut draft.edges {
        edge.source = renumbered(edge.source);
        edge.target = renumbered(edge.target);
    }
    draft
}

fn without_edges(case: &Case) -> Vec<Case> {
    let Some(draft) = Draft::of_bytes(&case.plan) else {
        return Vec::new();
    };
    let without_part = |(from, to)| {
        let edges = without(&draft.edges, from, to);
        Case { plan: Draft { edges, ..draft.clone() }.bytes(), ..case.clone() }
    };
    parts(draft.edges.len()).into_iter().map(without_part).collect()
}

fn without_fields(case: &Case) -> Vec<Case> {
    let (plan, table) = (split_fields(&case.plan), split_fields(&case.table));
    let shorter_plans = parts(plan.len())
        .into_iter()
        .map(|(from, to)| Case { plan: without(&plan, from, to).concat(), ..case.clone() });
    let shorter_tables = parts(table.len())
        .into_iter()
        .map(|(from, to)| Case { table: without(&table, from, to).concat(), ..case.clone() });
    shorter_plans.chain(shorter_tables).collect()
}

/// Bytes of the plan or the table, numbers and room go.
fn shorter(case: &Case) -> Vec<Case> {
    let mut cases = Vec::new();
    for (from, to) in parts(case.plan.len()) {
        cases.push(Case { plan: without(&case.plan, from, to), ..case.clone() });
    }
    for (from, to) in parts(case.table.len()) {
        cases.push(Case { table: without(&case.table, from, to), ..case.clone() });
    }
    for (from, to) in parts(case.numbers.len()) {
        cases.push(Case { numbers: without(&case.numbers, from, to), ..case.clone() });
    }
    let rooms = [0, case.room / 2, case.room.saturating_sub(1)];
    cases.extend(rooms.map(|room| Case { room, ..case.clone() }));
    cases
}

fn lower_plan_values(case: &Case) -> Vec<Case> {
    let Some(draft) = Draft::of_bytes(&case.plan) else {
        return Vec::new();
    };
    let Draft { cores, slot_time, slot_words, .. } = draft;
    let mut drafts = vec![
        Draft { slot_time: 1, slot_words: 1, ..draft.clone() },
        Draft { slot_time: slot_time / slot_words.max(1), slot_words: 1, ..draft.clone() },
        Draft { slot_time: slot_words, ..draft.clone() },
        Draft { slot_time: slot_time / 2, slot_words: slot_words / 2, ..draft.clone() },
        Draft { cores: cores.saturating_sub(1), ..draft.clone() },
    ];
    for (task, &time) in draft.times.iter().enumerate() {
        for lower in [1, time / 2, time.saturating_sub(1)] {
            let mut changed = draft.clone();
            changed.times[task] = lower;
            drafts.push(changed);
        }
    }
    for (index, edge) in draft.edges.iter().enumerate() {
        for lower in [0, 1, edge.words / 2, edge.words.saturating_sub(1)] {
            let mut changed = draft.clone();
            changed.edges[index].words = lower;
            drafts.push(changed);
        }
    }
    drafts.into_iter().map(|draft| Case { plan: draft.bytes(), ..case.clone() }).collect()
}

/// A gap in the table's time gets shorter.
fn earlier_marks(case: &Case) -> Vec<Case> {
    let Some(rows) = table_rows(&case.table) else {
        return Vec::new();
    };
    let mut marks: Vec<u32> = rows.iter().flat_map(|row| row[1..].to_vec()).collect();
    marks.push(0);
    marks.sort();
    marks.dedup();
    let mut cases = Vec::new();
    for pair in marks.windows(2) {
        let gap = pair[1] - pair[0];
        for by in [gap, gap - 1, gap / 2, 1] {
            let mut rows = rows.clone();
            let later = rows.iter_mut().flat_map(|row| &mut row[1..]);
            later.filter(|mark| **mark >= pair[1]).for_each(|mark| *mark -= by);
            cases.push(Case { table: table_bytes(&rows), ..case.clone() });
        }
    }
    cases
}

fn lower_bytes(case: &Case) -> Vec<Case> {
    let lower = |bytes: &[u8], index: usize, value: u8| {
        let mut bytes = bytes.to_vec();
        bytes[index] = value;
        bytes
    };
    let mut cases = Vec::new();
    for (index, &byte) in case.plan.iter().enumerate() {
        for value in [0, byte / 2, byte.saturating_sub(1)] {
            cases.push(Case { plan: lower(&case.plan, index, value), ..case.clone() });
        }
    }
    for (index, &byte) in case.table.iter().enumerate() {
        for value in [0, byte / 2, byte.saturating_sub(1)] {
            cases.push(Case { table: lower(&case.table, index, value), ..case.clone() });
        }
    }
    cases
}

fn lower_numbers(case: &Case) -> Vec<Case> {
    let mut cases = Vec::new();
    for (index, &number) in case.numbers.iter().enumerate() {
        for value in [0, number / 2, number.saturating_sub(1)] {
            let mut lower = case.clone();
            lower.numbers[index] = value;
            cases.push(lower);
        }
    }
    cases.push(Case { last: case.last / 2, ..case.clone() });
    cases.push(Case { last: case.last.saturating_sub(1), ..case.clone() });
    cases
}
