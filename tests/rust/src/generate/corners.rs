//! Systematic cases: every small damage to small plans and tables, and the limits of plans.

use crate::case::{Case, Entry};
use crate::draft::{Draft, DraftEdge, table_bytes};

/// Passes the systematic cases to `visit` until it gives an error.
pub fn visit_all<E>(mut visit: impl FnMut(Case) -> Result<(), E>) -> Result<(), E> {
    let groups = [
        every_plan_damage,
        every_table_damage,
        every_size,
        at_the_limits,
        every_bus_setting,
        far_too_long,
    ];
    groups.into_iter().try_for_each(|group| group().into_iter().try_for_each(&mut visit))
}

/// Plan A of document 01, with three cores (plan B).
fn plan_b() -> Draft {
    let edge = |target| DraftEdge { source: 0, target, words: 4 };
    Draft {
        cores: 3,
        slot_time: 3,
        slot_words: 3,
        times: vec![5, 20, 10],
        edges: vec![edge(1), edge(2)],
    }
}

const ROWS_B: [[u32; 5]; 3] = [[0, 0, 0, 5, 13], [1, 13, 23, 43, 43], [2, 13, 23, 33, 33]];
const WORDS_B: [u32; 6] = [0, 8, 4, 0, 4, 0];

/// A case with plan B's inputs for the entry point, outputs just long enough.
fn case_b(entry: Entry) -> Case {
    let table = match entry {
        Entry::Make | Entry::Write => Vec::new(),
        _ => table_bytes(&ROWS_B),
    };
    let numbers = match entry {
        Entry::Write => ROWS_B.concat(),
        Entry::Run => WORDS_B.to_vec(),
        _ => Vec::new(),
    };
    let room = 3 * entry.per_task();
    Case { entry, plan: plan_b().bytes(), table, last: 0, numbers, room }
}

/// Every byte with every value, every cut, every byte put in, every byte lost.
fn every_damage(bytes: &[u8]) -> Vec<Vec<u8>> {
    let mut damaged = Vec::new();
    for index in 0..=bytes.len() {
        damaged.push(bytes[..index].to_vec());
        for value in 0..=255 {
            damaged.push([&bytes[..index], &[value], &bytes[index..]].concat());
            if index < bytes.len() {
                damaged.push([&bytes[..index], &[value], &bytes[index + 1..]].concat());
            }
        }
        if index < bytes.len() {
            damaged.push([&bytes[..index], &bytes[index + 1..]].concat());
        }
    }
    damaged
}

fn every_plan_damage() -> Vec<Case> {
    let mut cases = Vec::new();
    for plan in every_damage(&plan_b().bytes()) {
        cases.extend(Entry::ALL.map(|entry| Case { plan: plan.clone(), ..case_b(entry) }));
    }
    cases
}

fn every_table_damage() -> Vec<Case> {
    let mut cases = Vec::new();
    for table in every_damage(&table_bytes(&ROWS_B)) {
        let entries = [Entry::Verify, Entry::Read, Entry::Run];
        cases.extend(entries.map(|entry| Case { table: table.clone(), ..case_b(entry) }));
    }
    cases
}

/// Outputs, word lists and number lists of every length, every core served last, wrong counts.
fn every_size() -> Vec<Case> {
    let mut cases = Vec::new();
    for entry in Entry::ALL {
        cases.extend((0..3 * entry.per_task() + 3).map(|room| Case { room, ..case_b(entry) }));
    }
    for length in 0..20 {
        for entry in [Entry::Write, Entry::Run] {
            let mut case = case_b(entry);
            case.numbers = case.numbers.into_iter().cycle().take(length).collect();
            cases.push(case);
        }
    }
    let served = (0..300).chain([1 << 16, 1 << 31, u32::MAX]);
    cases.extend(served.map(|last| Case { last, ..case_b(Entry::Run) }));
    for index in 0..6 {
        for count in [0, 1, 3, 4, 5, 8, 9, u32::MAX] {
            let mut case = case_b(Entry::Run);
            case.numbers[index] = count;
            cases.push(case);
        }
    }
    cases
}

/// Fields that a full plan can't take, or only with another fault before it.
const ADDED: [&[u8]; 14] = [
    &[],
    &[2, 0, 2, 0, 1],
    &[2, 0, 2, 0, 0],
    &[2, 0, 2, 0],
    &[2, 0, 3, 0, 1],
    &[2, 0],
    &[3, 0, 4, 40, 41, 0, 1],
    &[3, 0, 4, 0, 0, 0, 1],
    &[3, 0, 4, 41, 40, 0x10, 0],
    &[3, 0, 4, 64, 0, 0, 0],
    &[3, 0, 4, 40, 41, 0],
    &[3, 0, 5, 40, 41, 0, 1],
    &[1, 0, 3, 1, 1, 1],
    &[4, 0, 17, 0],
];

/// Plans at and just over what a plan may have.
fn at_the_limits() -> Vec<Case> {
    let mut cases = Vec::new();
    for tasks in [0, 1, 63, 64] {
        for edges in [0, 1, 255, 256] {
            let plan = full_plan(tasks, edges).bytes();
            for added in ADDED {
                cases.extend(Entry::ALL.map(|entry| Case {
                    plan: [&plan, added].concat(),
                    room: (tasks + 1) * entry.per_task(),
                    ..case_b(entry)
                }));
            }
        }
    }
    cases
}

/// So many tasks of time 1 and as many of the edges asked for as there is place for.
fn full_plan(tasks: usize, edges: usize) -> Draft {
    let highest = tasks.min(24) as u8;
    let pairs = (0..highest).flat_map(|source| (source + 1..highest).map(move |t| (source, t)));
    let edge = |(source, target)| DraftEdge { source, target, words: 0 };
    Draft {
        cores: 1,
        slot_time: 1,
        slot_words: 1,
        times: vec![1; tasks],
        edges: pairs.map(edge).take(edges).collect(),
    }
}

/// Every T and D, and every number of cores, in a plan without tasks.
fn every_bus_setting() -> Vec<Case> {
    let case = |cores, slot_time, slot_words| {
        let plan = vec![1, 0, 3, cores, slot_time, slot_words];
        Case { plan, table: Vec::new(), ..case_b(Entry::Verify) }
    };
    let slots = (0..=255).flat_map(|time| (0..=255).map(move |words| (time, words)));
    let slots = slots.map(|(time, words)| case(1, time, words));
    slots.chain((0..=255).map(|cores| case(cores, 1, 1))).collect()
}

/// More than 2^16 elements of each input and of the output.
fn far_too_long() -> Vec<Case> {
    const MANY: usize = 70_000;
    let mut cases = Vec::new();
    for entry in Entry::ALL {
        let case = case_b(entry);
        let long_plan = |more: &[u8]| Case { plan: [&case.plan, more].concat(), ..case.clone() };
        cases.push(long_plan(&[0; MANY]));
        cases.push(long_plan(&[3, 0, 4, 1, 2, 0, 0].repeat(MANY / 7)));
        cases.push(Case {
            plan: [vec![1, 0, 3, 1, 1, 1], [2, 0, 2, 0, 1].repeat(MANY / 5)].concat(),
            ..case.clone()
        });
        cases.push(Case { table: [&case.table[..], &[4; MANY]].concat(), ..case.clone() });
        cases.push(Case { table: case.table.repeat(MANY / 60), ..case.clone() });
        cases.push(Case { numbers: vec![0; MANY], ..case.clone() });
        cases.push(Case { room: MANY, ..case });
    }
    cases
}
