//! Times the library against the plain implementation.
//!
//!     cargo run --release --bin bench
//!     cargo run --release --bin bench -- once verify|make|run library|plain TASKS CORES T D
//!
//! The first form prints Markdown tables: verify, make and run for 8 to 64 tasks, 2 to 8 cores and
//! three bus settings. Library and plain take turns in one process; given are medians of processor
//! time and of the ratio in two turns that follow each other.
//! `once` makes one call for each plan of a setting, for a profiler, as in
//! `valgrind --tool=callgrind --toggle-collect='*profiled*'`.

use std::env;
use std::hint::black_box;
use std::process::ExitCode;
use std::time::{Duration, Instant};

use nizumokage_tests::draft::{Draft, DraftEdge};
use nizumokage_tests::plain::{self, Plain, Row};
use nizumokage_tests::product::Product;
use nizumokage_tests::random::Random;
use nizumokage_tests::{Answer, Library};

const TASKS: [usize; 4] = [8, 16, 32, 64];
const CORES: [u8; 3] = [2, 4, 8];
/// T and D.
const SLOTS: [(u8, u8); 3] = [(3, 3), (4, 2), (64, 1)];
const SEED: u64 = 1;
const PLANS: usize = 5;

/// A turn repeats the calls until it lasts about so long.
const TURN: Duration = Duration::from_millis(2);
/// All turns of one setting last about so long, but there are at least `LEAST_TURNS`.
const ALL_TURNS: Duration = Duration::from_millis(400);
const LEAST_TURNS: usize = 9;

fn main() -> ExitCode {
    let arguments: Vec<String> = env::args().skip(1).collect();
    let arguments: Vec<&str> = arguments.iter().map(String::as_str).collect();
    let done = match arguments[..] {
        [] => {
            print_benchmark();
            Some(())
        }
        ["once", function, library, tasks, cores, time, words] => {
            call_once(function, library, [tasks, cores, time, words])
        }
        _ => None,
    };
    match done {
        Some(()) => ExitCode::SUCCESS,
        None => {
            eprintln!("usage: bench [once verify|make|run library|plain TASKS CORES T D]");
            ExitCode::from(2)
        }
    }
}

#[derive(Clone, Copy, Debug, PartialEq, Eq)]
enum Function {
    Verify,
    Make,
    Run,
}

const FUNCTIONS: [Function; 3] = [Function::Verify, Function::Make, Function::Run];

impl Function {
    fn name(self) -> &'static str {
        match self {
            Function::Verify => "verify",
            Function::Make => "make",
            Function::Run => "run",
        }
    }

    fn call(self, library: &impl Library, input: &Input, room: &mut Room) -> Answer {
        let Input { plan, table, words } = input;
        match self {
            Function::Verify => library.verify(plan, table),
            Function::Make => library.make(plan, &mut room.bytes),
            Function::Run => library.run(plan, table, 0, words, &mut room.numbers),
        }
    }
}

/// A plan, the table made for it and its declared words, which are all sent.
struct Input {
    plan: Vec<u8>,
    table: Vec<u8>,
    words: Vec<u32>,
}

/// Lent outputs, long enough for every plan.
struct Room {
    bytes: Vec<u8>,
    numbers: Vec<u32>,
}

impl Room {
    fn new() -> Room {
        Room { bytes: vec![0; 20 * plain::MAX_TASKS], numbers: vec![0; 4 * plain::MAX_TASKS] }
    }
}

#[derive(Clone, Copy, Debug, PartialEq, Eq)]
struct Setting {
    tasks: usize,
    cores: u8,
    slot: (u8, u8),
}

impl Setting {
    fn inputs(self) -> Vec<Input> {
        let mut random = Random::new(SEED);
        (0..PLANS).map(|_| self.input(&mut random)).collect()
    }

    fn input(self, random: &mut Random) -> Input {
        let plan = self.plan(random).bytes();
        let mut table = vec![0; 20 * self.tasks];
        plain::make(&plan, &mut table).expect("the plan is good");
        let mut numbers = vec![0; 5 * self.tasks];
        plain::read(&plan, &table, &mut numbers).expect("the table is good");
        let (rows, _) = numbers.as_chunks::<5>();
        let rows: Vec<Row> = rows.iter().map(Row::of_numbers).collect();
        let words = plain::words_of(&plain::parse(&plan).expect("the plan is good"), &rows);
        Input { plan, table, words: words.concat() }
    }

    /// Four edges per task, but at most half of the pairs, so that small plans aren't chains.
    fn plan(self, random: &mut Random) -> Draft {
        let tasks = self.tasks as u8;
        let mut pairs: Vec<(u8, u8)> =
            (0..tasks).flat_map(|s| (s + 1..tasks).map(move |t| (s, t))).collect();
        let times = (0..tasks).map(|_| random.between(50, 500) as u16).collect();
        random.shuffle(&mut pairs);
        pairs.truncate((4 * self.tasks).min(pairs.len() / 2));
        pairs.sort();
        let edge =
            |(source, target)| DraftEdge { source, target, words: random.between(1, 64) as u16 };
        let edges = pairs.into_iter().map(edge).collect();
        let (slot_time, slot_words) = self.slot;
        Draft { cores: self.cores, slot_time, slot_words, times, edges }
    }
}

/// Medians over the turns.
#[derive(Clone, Copy, Debug)]
struct Measured {
    setting: Setting,
    /// One call, in seconds.
    library: f64,
    plain: f64,
    /// Library to plain in turns that follow each other, so under like conditions.
    ratio: f64,
}

fn measure(function: Function, setting: Setting) -> Measured {
    let inputs = setting.inputs();
    check_same(function, &inputs);
    let repeats = repeats_for_a_turn(function, &inputs);
    let (mut library, mut plain) = (Vec::new(), Vec::new());
    let started = Instant::now();
    while library.len() < LEAST_TURNS || started.elapsed() < ALL_TURNS {
        library.push(turn(&Product, function, &inputs, repeats));
        plain.push(turn(&Plain, function, &inputs, repeats));
    }
    let mut ratios: Vec<f64> = library.iter().zip(&plain).map(|(l, p)| l / p).collect();
    Measured {
        setting,
        library: median(&mut library),
        plain: median(&mut plain),
        ratio: median(&mut ratios),
    }
}

/// What is timed gives the same answers and outputs.
fn check_same(function: Function, inputs: &[Input]) {
    for input in inputs {
        let (mut library, mut plain) = (Room::new(), Room::new());
        let answer = function.call(&Product, input, &mut library);
        assert_eq!(answer, function.call(&Plain, input, &mut plain));
        assert_eq!((library.bytes, library.numbers), (plain.bytes, plain.numbers));
        assert!(answer.is_success());
    }
}

fn repeats_for_a_turn(function: Function, inputs: &[Input]) -> usize {
    let calls_take = turn(&Plain, function, inputs, 1) * inputs.len() as f64;
    (TURN.as_secs_f64() / calls_take).ceil() as usize
}

/// The mean time of one call in this turn.
fn turn(library: &impl Library, function: Function, inputs: &[Input], repeats: usize) -> f64 {
    let mut room = Room::new();
    let started = processor_time();
    for _ in 0..repeats {
        for input in inputs {
            black_box(function.call(library, black_box(input), black_box(&mut room)));
        }
    }
    (processor_time() - started).as_secs_f64() / (repeats * inputs.len()) as f64
}

/// The time that this thread has had; other programs on the machine don't count.
fn processor_time() -> Duration {
    #[repr(C)]
    struct Timespec {
        seconds: i64,
        nanoseconds: i64,
    }
    unsafe extern "C" {
        fn clock_gettime(clock: i32, time: *mut Timespec) -> i32;
    }
    const LINUX_CLOCK_THREAD_CPUTIME_ID: i32 = 3;
    let mut time = Timespec { seconds: 0, nanoseconds: 0 };
    let status = unsafe { clock_gettime(LINUX_CLOCK_THREAD_CPUTIME_ID, &mut time) };
    assert_eq!(status, 0, "the clock can be read");
    Duration::new(time.seconds as u64, time.nanoseconds as u32)
}

fn median(values: &mut [f64]) -> f64 {
    values.sort_by(f64::total_cmp);
    values[values.len() / 2]
}

fn print_benchmark() {
    for function in FUNCTIONS {
        let settings = CORES.iter().flat_map(|&cores| SLOTS.map(|slot| (cores, slot)));
        let settings = settings
            .flat_map(|(cores, slot)| TASKS.map(|tasks| Setting { tasks, cores, slot }))
            .collect::<Vec<_>>();
        let measured: Vec<Measured> = settings.into_iter().map(|s| measure(function, s)).collect();
        print_summary(function, &measured);
        print_settings(function, &measured);
    }
}

fn print_summary(function: Function, measured: &[Measured]) {
    println!("### {}\n", function.name());
    println!(
        "| tasks | library/plain: median | least | greatest | library, n/2 to n | plain, n/2 to n |"
    );
    println!("|--:|--:|--:|--:|--:|--:|");
    for tasks in TASKS {
        let of_size: Vec<_> = measured.iter().filter(|m| m.setting.tasks == tasks).collect();
        let mut ratios: Vec<f64> = of_size.iter().map(|m| m.ratio).collect();
        let middle = median(&mut ratios);
        let growth = |time: fn(&Measured) -> f64| {
            let mut all: Vec<f64> =
                of_size.iter().filter_map(|m| growth(measured, m, time)).collect();
            if all.is_empty() { String::new() } else { format!("{:.2}", median(&mut all)) }
        };
        let (library, plain) = (growth(|m| m.library), growth(|m| m.plain));
        let (least, greatest) = (ratios[0], ratios[ratios.len() - 1]);
        println!("| {tasks} | {middle:.2} | {least:.2} | {greatest:.2} | {library} | {plain} |");
    }
    println!();
}

fn print_settings(function: Function, measured: &[Measured]) {
    println!(
        "| {}: cores, T/D | tasks | library, µs | plain, µs | library/plain | library, n/2 to n | plain, n/2 to n |",
        function.name()
    );
    println!("|:--|--:|--:|--:|--:|--:|--:|");
    for m in measured {
        let Setting { tasks, cores, slot: (time, words) } = m.setting;
        let growth = |time| match growth(measured, m, time) {
            Some(growth) => format!("{growth:.2}"),
            None => String::new(),
        };
        println!(
            "| {cores}, {time}/{words} | {tasks} | {:.2} | {:.2} | {:.2} | {} | {} |",
            1e6 * m.library,
            1e6 * m.plain,
            m.ratio,
            growth(|m| m.library),
            growth(|m| m.plain)
        );
    }
    println!();
}

/// How much longer it takes than with half as many tasks.
fn growth(measured: &[Measured], m: &Measured, time: fn(&Measured) -> f64) -> Option<f64> {
    let half = Setting { tasks: m.setting.tasks / 2, ..m.setting };
    let half = measured.iter().find(|other| other.setting == half)?;
    Some(time(m) / time(half))
}

fn call_once(function: &str, library: &str, numbers: [&str; 4]) -> Option<()> {
    let function = FUNCTIONS.into_iter().find(|f| f.name() == function)?;
    let [tasks, cores, time, words] = numbers.map(|number| number.parse::<u8>().ok());
    let setting = Setting { tasks: usize::from(tasks?), cores: cores?, slot: (time?, words?) };
    for input in setting.inputs() {
        let room = &mut Room::new();
        let answer = match library {
            "library" => profiled(&Product, function, &input, room),
            "plain" => profiled(&Plain, function, &input, room),
            _ => return None,
        };
        println!("{answer:?}");
    }
    Some(())
}

/// What `once` is about, as a function that a profiler can find by its name.
#[inline(never)]
fn profiled(library: &impl Library, function: Function, input: &Input, room: &mut Room) -> Answer {
    function.call(library, black_box(input), room)
}
