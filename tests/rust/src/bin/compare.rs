//! Holds the library against the plain implementation on many thousand cases.
//!
//!     cargo run --release --bin compare -- quick|long [seed]
//!
//! `quick` takes under a minute, `long` some twenty times as long; the same seed (1 if none is
//! given) gives the same cases. Printed is how often each entry point gave each answer. On a
//! difference the smallest input found that shows it is printed in hex, with both answers, and the
//! exit status is 1; so it is if an answer that an entry point can give was never met.

use std::env;
use std::process::ExitCode;
use std::time::{Duration, Instant};

use nizumokage_tests::case::{Case, Entry, Memory, Outcome};
use nizumokage_tests::generate;
use nizumokage_tests::judge::judge;
use nizumokage_tests::product::Product;
use nizumokage_tests::random::Random;
use nizumokage_tests::shrink::shrink;
use nizumokage_tests::tally::Tally;

const QUICK_ROUNDS: u64 = 60_000;
const LONG_ROUNDS: u64 = 20 * QUICK_ROUNDS;
const SHRINK_TIME: Duration = Duration::from_secs(60);

fn main() -> ExitCode {
    let arguments: Vec<String> = env::args().skip(1).collect();
    let Some((rounds, seed)) = rounds_and_seed(&arguments) else {
        eprintln!("usage: compare quick|long [seed]");
        return ExitCode::from(2);
    };
    let started = Instant::now();
    let mut tally = Tally::default();
    let found = compare(rounds, seed, &mut tally);
    println!("{tally}");
    println!("{} cases, seed {seed}, {:.1} s", tally.cases, started.elapsed().as_secs_f64());
    match found {
        Err(case) => {
            report_difference(&case);
            ExitCode::FAILURE
        }
        Ok(()) => report_missing(&tally),
    }
}

fn rounds_and_seed(arguments: &[String]) -> Option<(u64, u64)> {
    let (set, seed) = match arguments {
        [set] => (set, 1),
        [set, seed] => (set, seed.parse().ok()?),
        _ => return None,
    };
    match set.as_str() {
        "quick" => Some((QUICK_ROUNDS, seed)),
        "long" => Some((LONG_ROUNDS, seed)),
        _ => None,
    }
}

/// The systematic cases, then the random ones; the first case with a difference ends it.
fn compare(rounds: u64, seed: u64, tally: &mut Tally) -> Result<(), Box<Case>> {
    generate::corners::visit_all(|case| check(case, tally))?;
    let mut random = Random::new(seed);
    for round in 1..=rounds {
        for case in generate::round(&mut random) {
            check(case, tally)?;
        }
        if round % (rounds / 10) == 0 {
            eprintln!("{}%: {} cases, no difference", 100 * round / rounds, tally.cases);
        }
    }
    Ok(())
}

fn check(case: Case, tally: &mut Tally) -> Result<(), Box<Case>> {
    let judgement = judge(&Product, &case);
    tally.count(case.entry, &judgement.outcome.answer);
    match judgement.complaint {
        Some(_) => Err(Box::new(case)),
        None => Ok(()),
    }
}

fn report_missing(tally: &Tally) -> ExitCode {
    let missing = tally.missing();
    if missing.is_empty() {
        println!("no difference; every answer was met");
        return ExitCode::SUCCESS;
    }
    println!("no difference, but never met: {}", missing.join(", "));
    ExitCode::FAILURE
}

fn report_difference(case: &Case) {
    println!("DIFFERENCE, made smaller for at most {} s", SHRINK_TIME.as_secs());
    let case = shrink(case, SHRINK_TIME, |case| judge(&Product, case).complaint.is_some());
    let judgement = judge(&Product, &case);
    println!("{}: {}", case.entry.name(), judgement.complaint.unwrap_or_default());
    println!("plan    {}", hex(&case.plan));
    if matches!(case.entry, Entry::Verify | Entry::Read | Entry::Run) {
        println!("table   {}", hex(&case.table));
    }
    if case.entry == Entry::Run {
        println!("last    {}", case.last);
    }
    if matches!(case.entry, Entry::Write | Entry::Run) {
        println!("numbers {:?}", case.numbers);
    }
    println!("output  of {} elements", case.room);
    print_outcome("library", &judgement.outcome, &case);
    print_outcome("plain", &judgement.plain, &case);
}

fn print_outcome(who: &str, outcome: &Outcome, case: &Case) {
    println!("{who}: {:?}", outcome.answer);
    let before = case.fresh_memory();
    if !outcome.memory.keeps_but(&before, case.room) {
        println!("  memory outside the output changed");
    }
    match &outcome.memory {
        _ if outcome.memory == before => println!("  output unchanged"),
        Memory::Bytes(_) => println!("  output {}", hex(outcome.front_bytes(case.room))),
        Memory::Numbers(_) => println!("  output {:?}", outcome.front_numbers(case.room)),
    }
}

fn hex(bytes: &[u8]) -> String {
    bytes.iter().map(|byte| format!("{byte:02X}")).collect()
}
