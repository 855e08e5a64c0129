//! Random good plans.

use crate::draft::{Draft, DraftEdge};
use crate::plain::{MAX_EDGES, MAX_TASKS, MAX_WORDS};
use crate::random::Random;

pub fn random_plan(random: &mut Random) -> Draft {
    let tasks = random_size(random);
    let (slot_time, slot_words) = random_slot(random);
    Draft {
        cores: random.between(1, 8) as u8,
        slot_time,
        slot_words,
        times: random_times(random, tasks),
        edges: random_edges(random, tasks),
    }
}

/// Small plans most of the time, the limits often enough.
fn random_size(random: &mut Random) -> usize {
    match random.below(40) {
        0 => 0,
        1 => 1,
        2 => MAX_TASKS,
        3..6 => random.between(17, MAX_TASKS as u32) as usize,
        6..14 => random.between(7, 16) as usize,
        _ => random.between(2, 6) as usize,
    }
}

fn random_slot(random: &mut Random) -> (u8, u8) {
    if random.one_in(2) {
        return random.pick(&[(3, 3), (4, 2), (64, 1), (1, 1), (6, 2), (64, 64), (2, 1), (3, 1)]);
    }
    let words = random.between(1, 64);
    let time = words * random.between(1, 64 / words);
    (time as u8, words as u8)
}

fn random_times(random: &mut Random, tasks: usize) -> Vec<u16> {
    let greatest = random.pick(&[1, 1, 4, 20, 20, 300, 65_535]);
    (0..tasks).map(|_| random.between(1, greatest) as u16).collect()
}

/// Edges that follow a hidden order of the tasks, which may not be that of their numbers.
fn random_edges(random: &mut Random, tasks: usize) -> Vec<DraftEdge> {
    let mut hidden: Vec<u8> = (0..tasks as u8).collect();
    if random.one_in(2) {
        random.shuffle(&mut hidden);
    }
    let mut pairs = Vec::new();
    for (place, &target) in hidden.iter().enumerate() {
        pairs.extend(hidden[..place].iter().map(|&source| (source, target)));
    }
    random.shuffle(&mut pairs);
    pairs.truncate(random_edge_count(random, tasks, pairs.len()));
    pairs.sort();
    let greatest = random.pick(&[0, 1, 3, 8, 8, 30, 100, MAX_WORDS]);
    let mut edge = |(source, target)| {
        let words = random_words(random, greatest);
        DraftEdge { source, target, words }
    };
    pairs.into_iter().map(&mut edge).collect()
}

fn random_edge_count(random: &mut Random, tasks: usize, most: usize) -> usize {
    let count = match random.below(8) {
        0 => 0,
        1 => most,
        2..5 => random.below(tasks + 1),
        _ => random.below(3 * tasks + 1),
    };
    count.min(most).min(MAX_EDGES)
}

fn random_words(random: &mut Random, greatest: u32) -> u16 {
    let words = match random.below(8) {
        0 => 0,
        1 => greatest,
        _ => random.between(0, greatest),
    };
    words as u16
}
