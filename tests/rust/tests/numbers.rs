//! Document 01's "Numbers to try" on the plain implementation and on the library.

use nizumokage_tests::plain::{Bus, Plain};
use nizumokage_tests::{Answer, Library};

/// The header of plan A with the given number of cores, then A's tasks and edges.
fn plan_a(cores: u8) -> Vec<u8> {
    let mut plan = vec![1, 0, 3, cores, 3, 3];
    plan.extend([2, 0, 2, 0, 5, 2, 0, 2, 0, 20, 2, 0, 2, 0, 10]);
    plan.extend([3, 0, 4, 0, 1, 0, 4, 3, 0, 4, 0, 2, 0, 4]);
    plan
}

fn table(rows: &[[u32; 5]]) -> Vec<u8> {
    let field = |row: &[u32; 5]| {
        let marks = row[1..].iter().flat_map(|mark| mark.to_be_bytes());
        [4, 0, 17, row[0] as u8].into_iter().chain(marks).collect::<Vec<u8>>()
    };
    rows.iter().flat_map(field).collect()
}

/// Plan B's table with the given read windows of tasks 1 and 2.
fn table_b(first: [u32; 2], second: [u32; 2]) -> Vec<u8> {
    table(&[
        [0, 0, 0, 5, 13],
        [1, first[0], first[1], first[1] + 20, first[1] + 20],
        [2, second[0], second[1], second[1] + 10, second[1] + 10],
    ])
}

fn accepted(value: u64) -> Answer {
    Answer { number: 0, side: 0, place: 0, value }
}

fn refused(number: u32, side: u32, place: u64) -> Answer {
    Answer { number, side, place, value: 0 }
}

fn makes_plan_a(library: &impl Library) {
    let rows = [[0, 0, 0, 5, 9], [0, 9, 9, 29, 29], [1, 9, 13, 23, 23]];
    let mut out = [0xAA; 61];
    assert_eq!(library.make(&plan_a(2), &mut out), accepted(29));
    assert_eq!(out[..60], table(&rows));
    assert_eq!(out[60], 0xAA);
    assert_eq!(library.verify(&plan_a(2), &out[..60]), accepted(29));
}

fn judges_plan_b(library: &impl Library) {
    let verify = |first, second| library.verify(&plan_a(3), &table_b(first, second));
    assert_eq!(verify([13, 23], [13, 23]), accepted(43));
    assert_eq!(verify([13, 22], [13, 22]), refused(15, 2, 20));
    assert_eq!(verify([13, 17], [17, 21]), accepted(37));
    assert_eq!(verify([13, 17], [16, 20]), refused(15, 2, 20));
}

fn plays_plan_b(library: &impl Library) {
    let table = table_b([13, 23], [13, 23]);
    for last in 0..3 {
        let mut out = [7; 13];
        let answer = library.run(&plan_a(3), &table, last, &[0, 8, 4, 0, 4, 0], &mut out);
        assert_eq!(answer, accepted(0));
        assert_eq!(out, [0, 0, 13, 0, 20, 1, 43, 0, 21, 2, 33, 0, 7]);
    }
}

fn refuses_small_plans(library: &impl Library) {
    assert_eq!(library.verify(&[1, 0, 3, 2, 3, 3], &[]), accepted(0));
    assert_eq!(library.verify(&[], &[]), refused(1, 1, 0));
    assert_eq!(library.verify(&[1, 0, 3, 2, 3, 2], &[]), refused(4, 1, 0));
}

fn keeps_to_the_limits(library: &impl Library) {
    let mut plan = vec![1, 0, 3, 1, 1, 1];
    plan.extend([2, 0, 2, 0, 1].repeat(64));
    let out = &mut [0; 1280];
    assert_eq!(library.make(&plan, out), accepted(64));
    let words = |high, low| [&plan[..], &[3, 0, 4, 0, 1, high, low]].concat();
    assert_eq!(library.make(&words(0x0F, 0xFF), out), accepted(64));
    assert_eq!(library.make(&words(0x10, 0x00), out), refused(4, 1, 326));
    plan.extend([2, 0, 2, 0, 1]);
    assert_eq!(library.make(&plan, out), refused(6, 1, 326));
}

fn all(library: &impl Library) {
    makes_plan_a(library);
    judges_plan_b(library);
    plays_plan_b(library);
    refuses_small_plans(library);
    keeps_to_the_limits(library);
}

#[test]
fn delays() {
    let bus = Bus { cores: 8, slot_time: 3, slot_words: 3 };
    let delays = [(0, 0), (4, 0), (8, 0), (4, 1), (4, 2), (2, 1)].map(|(w, k)| bus.delay(w, k));
    assert_eq!(delays, [0, 4, 8, 10, 16, 5]);
    let bus = Bus { cores: 8, slot_time: 6, slot_words: 2 };
    assert_eq!([0, 1, 3].map(|rivals| bus.delay(5, rivals)), [15, 33, 69]);
}

#[test]
fn plain() {
    all(&Plain);
}

#[cfg(feature = "product")]
#[test]
fn product() {
    all(&nizumokage_tests::product::Product);
}
