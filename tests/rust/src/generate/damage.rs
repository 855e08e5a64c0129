//! Damage to plans, tables and lists.

use crate::draft::{Draft, DraftEdge, split_fields};
use crate::plain::{MAX_EDGES, MAX_TASKS};
use crate::random::Random;

/// A damaged plan: bad values, bad fields or bad bytes.
pub fn plan(random: &mut Random, draft: &Draft) -> Vec<u8> {
    let mut draft = draft.clone();
    match random.below(4) {
        0 => {
            let mut plan = draft.bytes();
            bytes(random, &mut plan);
            plan
        }
        1 => fields(random, &draft.bytes()),
        _ => {
            for _ in 0..random.pick(&[1, 1, 1, 2, 3]) {
                values(random, &mut draft);
            }
            let mut plan = draft.bytes();
            if random.one_in(8) {
                bytes(random, &mut plan);
            }
            plan
        }
    }
}

/// One value of the plan out of its range, or one field too many.
fn values(random: &mut Random, draft: &mut Draft) {
    match random.below(14) {
        0 => draft.cores = random.pick(&[0, 9, 10, 255]),
        1 => draft.slot_time = random.pick(&[0, 65, 128, 255]),
        2 => draft.slot_words = random.pick(&[0, 65, 128, 255]),
        3 => draft.slot_words = draft.slot_words % 64 + 1,
        4 => change_one(random, &mut draft.times, |_, time| *time = 0),
        5..8 => too_many(random, draft),
        8 => {
            let tasks = draft.times.len() as u8;
            change_one(random, &mut draft.edges, |random, edge| {
                let end = if random.one_in(2) { &mut edge.source } else { &mut edge.target };
                *end = random.pick(&[tasks, tasks + 1, 64, 255]);
            });
        }
        9 => change_one(random, &mut draft.edges, |random, edge| {
            edge.words = random.pick(&[4096, 4097, 8191, 65_535]);
        }),
        10 => {
            let count = draft.edges.len();
            if count > 1 {
                draft.edges.swap(random.below(count), random.below(count));
            }
        }
        11 => {
            if let Some(&edge) = draft.edges.last() {
                draft.edges.push(DraftEdge { words: random.between(0, 9) as u16, ..edge });
            }
        }
        _ => any_edge(random, draft),
    }
}

fn change_one<T>(random: &mut Random, items: &mut [T], change: impl Fn(&mut Random, &mut T)) {
    if !items.is_empty() {
        let index = random.below(items.len());
        change(random, &mut items[index]);
    }
}

/// More tasks or edges than a plan may have; the added ones may be bad too.
fn too_many(random: &mut Random, draft: &mut Draft) {
    let count = random.between(1, 3) as usize;
    if random.one_in(2) {
        let time = random.pick(&[0, 1, 1, 7]);
        draft.times.resize(draft.times.len().max(random.pick(&[0, MAX_TASKS])) + count, time);
    } else {
        draft.times.resize(draft.times.len().clamp(24, MAX_TASKS), 1);
        draft.edges =
            (0..24).flat_map(|s| (s + 1..24).map(move |t| (s, t))).map(no_words).collect();
        draft.edges.truncate(MAX_EDGES + count - 1);
        if random.one_in(4) {
            let last = draft.edges.len() - 1;
            draft.edges[last] = random.pick(&[(0, 0), (0, 1), (200, 0)].map(no_words));
        }
    }
}

fn no_words((source, target): (u8, u8)) -> DraftEdge {
    DraftEdge { source, target, words: 0 }
}

/// An edge between any two tasks, also of one with itself, in its place: a cycle, or none.
fn any_edge(random: &mut Random, draft: &mut Draft) {
    if draft.times.is_empty() {
        return;
    }
    let task = |random: &mut Random| random.below(draft.times.len()) as u8;
    let (source, target) = (task(random), task(random));
    draft.edges.push(DraftEdge { source, target, words: random.between(0, 9) as u16 });
    draft.edges.sort();
    draft.edges.dedup_by_key(|edge| (edge.source, edge.target));
}

/// Whole fields lost, doubled, exchanged or put in.
fn fields(random: &mut Random, plan: &[u8]) -> Vec<u8> {
    let mut fields = split_fields(plan);
    let index = random.below(fields.len());
    let other = random.below(fields.len());
    match random.below(6) {
        0 => drop(fields.remove(index)),
        1 => fields.insert(other, fields[index].clone()),
        2 => fields.push(fields[index].clone()),
        3 => fields.swap(index, other),
        4 => fields.insert(index, [vec![4, 0, 17], vec![0; 17]].concat()),
        _ => {
            let tag = random.between(0, 5) as u8;
            let length = random.between(0, 5) as u8;
            fields.insert(index, [vec![tag, 0, length], vec![1; random.below(6)]].concat());
        }
    }
    fields.concat()
}

/// Bytes changed, lost or put in.
pub fn bytes(random: &mut Random, bytes: &mut Vec<u8>) {
    let index = random.below(bytes.len() + 1);
    let tail = random.below(8) + 1;
    match random.below(10) {
        0..4 => change_byte(random, bytes),
        4 => bytes.truncate(index),
        5 => bytes.truncate(bytes.len().saturating_sub(tail)),
        6 => bytes.extend((0..tail).map(|_| random.pick(&[0, 1, 2, 3, 4, 17, 255]))),
        7 => bytes.insert(index, random.byte()),
        8 => {
            let copied = bytes[index..].iter().copied().take(20).collect::<Vec<u8>>();
            bytes.extend(copied);
        }
        _ => {
            bytes.drain(index..(index + tail).min(bytes.len()));
        }
    }
}

fn change_byte(random: &mut Random, bytes: &mut [u8]) {
    change_one(random, bytes, |random, byte| {
        *byte = match random.below(4) {
            0 => byte.wrapping_add(1),
            1 => byte.wrapping_sub(1),
            2 => *byte ^ 1 << random.below(8),
            _ => random.byte(),
        }
    });
}

/// Numbers off by one or enormous, a list too long or too short.
pub fn list(random: &mut Random, list: &mut Vec<u32>) {
    let index = random.below(list.len() + 1);
    match random.below(8) {
        0 => list.truncate(index),
        1 => drop(list.pop()),
        2 => list.push(random.between(0, 3)),
        3 => list.extend_from_within(..index),
        4 => change_one(random, list, |random, number| {
            *number = random.pick(&[u32::MAX, 1 << 31, 65_536, 256]);
        }),
        5 => change_one(random, list, |_, number| *number = number.wrapping_sub(1)),
        _ => change_one(random, list, |_, number| *number = number.wrapping_add(1)),
    }
}

/// A table's marks off by one, at the ends of what there is, or exchanged; cores changed.
pub fn rows(random: &mut Random, rows: &mut [[u32; 5]], cores: u32) {
    let task = random.below(rows.len());
    let other = random.below(rows.len());
    let mark = random.between(1, 4) as usize;
    match random.below(14) {
        0..3 => rows[task][mark] = rows[task][mark].wrapping_sub(1),
        3..5 => rows[task][mark] = rows[task][mark].wrapping_add(1),
        5 => rows[task][mark] = random.pick(&[0, 1, 1 << 31, u32::MAX - 1, u32::MAX]),
        6 => exchange_marks(rows, task, other),
        7 => exchange_cores(rows, task, other),
        8 => rows[task][0] = random.between(0, cores - 1),
        9 => rows[task][0] = random.pick(&[cores, cores + 1, 8, 255]),
        10 => shift(&mut rows[task], 1, 5, random.pick(&[-1, -1, 1, 7])),
        11 => shift(&mut rows[task], mark, 5, random.pick(&[-1, -1, 1])),
        12 => rows[task][mark] = rows[task][random.between(1, 4) as usize],
        _ => rows[task].swap(mark, random.between(1, 4) as usize),
    }
}

fn exchange_marks(rows: &mut [[u32; 5]], task: usize, other: usize) {
    rows.swap(task, other);
    exchange_cores(rows, task, other);
}

fn exchange_cores(rows: &mut [[u32; 5]], task: usize, other: usize) {
    (rows[task][0], rows[other][0]) = (rows[other][0], rows[task][0]);
}

fn shift(row: &mut [u32; 5], from: usize, to: usize, by: i32) {
    for mark in &mut row[from..to] {
        *mark = mark.saturating_add_signed(by);
    }
}
