//! The test's own means: the generator, the judge and the shrinker.

use std::time::Duration;

use nizumokage_tests::case::{Case, Entry};
use nizumokage_tests::draft::{Draft, DraftEdge};
use nizumokage_tests::judge::judge;
use nizumokage_tests::plain::Plain;
use nizumokage_tests::random::Random;
use nizumokage_tests::shrink::shrink;
use nizumokage_tests::tally::Tally;
use nizumokage_tests::{Answer, Library, generate};

/// Plain, but its maker has a fault where an edge has more than 5 words.
struct Faulty;

impl Library for Faulty {
    fn verify(&self, plan: &[u8], table: &[u8]) -> Answer {
        Plain.verify(plan, table)
    }

    fn make(&self, plan: &[u8], out: &mut [u8]) -> Answer {
        let answer = Plain.make(plan, out);
        let many_words = |draft: Draft| draft.edges.iter().any(|edge| edge.words > 5);
        if answer.is_success() && Draft::of_bytes(plan).is_some_and(many_words) {
            out[19] ^= 1;
        }
        answer
    }

    fn write(&self, plan: &[u8], numbers: &[u32], out: &mut [u8]) -> Answer {
        Plain.write(plan, numbers, out)
    }

    fn read(&self, plan: &[u8], table: &[u8], out: &mut [u32]) -> Answer {
        Plain.read(plan, table, out)
    }

    fn run(&self, plan: &[u8], table: &[u8], last: u32, words: &[u32], out: &mut [u32]) -> Answer {
        Plain.run(plan, table, last, words, out)
    }
}

#[test]
fn properties_hold_and_every_answer_is_met() {
    let mut tally = Tally::default();
    let mut random = Random::new(5);
    for _ in 0..400 {
        for case in generate::round(&mut random) {
            let judgement = judge(&Plain, &case);
            assert_eq!(judgement.complaint, None, "{case:?}");
            tally.count(case.entry, &judgement.outcome.answer);
        }
    }
    assert_eq!(tally.missing(), Vec::<String>::new());
}

#[test]
fn the_same_seed_gives_the_same_cases() {
    let cases = |seed| generate::round(&mut Random::new(seed));
    assert_eq!(cases(3), cases(3));
    assert_ne!(cases(3), cases(4));
}

#[test]
fn a_fault_is_found_and_made_small() {
    let fails = |case: &Case| judge(&Faulty, case).complaint.is_some();
    let mut random = Random::new(1);
    let found = std::iter::repeat_with(|| generate::round(&mut random)).flatten().find(fails);
    let smallest = shrink(&found.expect("one is found"), Duration::from_secs(60), fails);
    let edges = vec![DraftEdge { source: 0, target: 1, words: 6 }];
    let plan = Draft { cores: 1, slot_time: 1, slot_words: 1, times: vec![1, 1], edges };
    assert_eq!(smallest.entry, Entry::Make);
    assert_eq!(smallest.plan, plan.bytes());
    assert_eq!(smallest.room, 40);
}
