//! The maker's list rule.

use super::plan::Plan;
use super::rules::Words;
use super::table::Row;

/// A task's core and mode.
#[derive(Clone, Copy, Debug, Default)]
struct Choice {
    core: u32,
    exclusive: bool,
}

/// A read or write window that carries words.
#[derive(Clone, Copy, Debug)]
struct Carrier {
    core: u32,
    start: u32,
    end: u32,
    /// Its place in the list and whether it is the write window.
    place: usize,
    phase: usize,
}

/// The table that the list rule makes.
pub fn make_rows(plan: &Plan) -> Vec<Row> {
    let mut list = List::new(plan);
    let mut best = Vec::new();
    for place in 0..plan.tasks() {
        best = list.add_best(place);
    }
    list.by_task(&best)
}

/// The table in which every task has the core and the mode given for it, windows settled as for
/// one candidate of the list rule.
pub fn settled_table(plan: &Plan, choice_of: impl Fn(usize) -> (u32, bool)) -> Vec<Row> {
    let mut list = List::new(plan);
    for (place, &task) in plan.order.iter().enumerate() {
        let (core, exclusive) = choice_of(task);
        list.keep(place, Choice { core, exclusive });
    }
    if plan.tasks() > 0 {
        list.settle(plan.tasks());
    }
    list.by_task(&list.rows)
}

/// The tasks by place in list order, with room for one candidate.
struct List<'a> {
    plan: &'a Plan,
    /// By place: the places of the task's sources and the words from each.
    sources: Vec<Vec<(usize, u32)>>,
    choices: Vec<Choice>,
    words: Vec<Words>,
    lengths: Vec<[u32; 2]>,
    rows: Vec<Row>,
    carriers: Vec<Carrier>,
    rivals: Vec<u32>,
}

impl List<'_> {
    fn new(plan: &Plan) -> List<'_> {
        let tasks = plan.tasks();
        List {
            plan,
            sources: sources_by_place(plan),
            choices: vec![Choice::default(); tasks],
            words: vec![[0, 0]; tasks],
            lengths: vec![[0, 0]; tasks],
            rows: vec![Row::default(); tasks],
            carriers: Vec::with_capacity(2 * tasks),
            rivals: Vec::with_capacity(2 * tasks),
        }
    }

    /// Tries every core in both modes for the task at `place`, keeps the best and returns the rows
    /// up to this place.
    fn add_best(&mut self, place: usize) -> Vec<Row> {
        let mut best: Option<(u32, Choice)> = None;
        let mut rows = Vec::new();
        for core in 0..self.plan.bus.cores {
            for exclusive in [false, true] {
                let choice = Choice { core, exclusive };
                self.keep(place, choice);
                let makespan = self.settle(place + 1);
                if best.is_none_or(|(least, _)| makespan < least) {
                    best = Some((makespan, choice));
                    rows.clear();
                    rows.extend_from_slice(&self.rows[..=place]);
                }
                self.forget(place);
            }
        }
        let (_, choice) = best.expect("there is a core");
        self.keep(place, choice);
        rows
    }

    /// Gives the task its core and mode; its sources on other cores get words to write.
    fn keep(&mut self, place: usize, choice: Choice) {
        self.choices[place] = choice;
        for &(source, words) in &self.sources[place] {
            if self.choices[source].core != choice.core {
                self.words[place][0] += words;
                self.words[source][1] += words;
            }
        }
    }

    /// Undoes `keep` for the task added last.
    fn forget(&mut self, place: usize) {
        for &(source, words) in &self.sources[place] {
            if self.choices[source].core != self.choices[place].core {
                self.words[place][0] -= words;
                self.words[source][1] -= words;
            }
        }
    }

    /// Steps 1 to 3 for the first `count` tasks; returns the makespan.
    fn settle(&mut self, count: usize) -> u32 {
        let bus = &self.plan.bus;
        for (lengths, words) in self.lengths.iter_mut().zip(&self.words[..count]) {
            *lengths = words.map(|words| bus.delay(words, 0));
        }
        loop {
            let makespan = self.place_all(count);
            self.count_rivals();
            if !self.grow() {
                return makespan;
            }
        }
    }

    /// Step 2: each task in list order at its earliest start; returns the makespan.
    fn place_all(&mut self, count: usize) -> u32 {
        self.carriers.clear();
        let mut core_free = [0; 8];
        for place in 0..count {
            let Choice { core, exclusive } = self.choices[place];
            let source_end = |&(source, _): &(usize, u32)| self.rows[source].end;
            let sources_end = self.sources[place].iter().map(source_end).max().unwrap_or(0);
            let mut start = sources_end.max(core_free[core as usize]);
            if exclusive {
                start = self.exclusive_start(place, start);
            }
            core_free[core as usize] = self.set_row(place, start);
        }
        core_free.into_iter().max().unwrap_or(0)
    }

    /// E, W and F follow the start without gaps; returns F.
    fn set_row(&mut self, place: usize, read: u32) -> u32 {
        let core = self.choices[place].core;
        let [read_length, write_length] = self.lengths[place];
        let execute = read + read_length;
        let write = execute + self.time(place);
        let end = write + write_length;
        self.rows[place] = Row { core, read, execute, write, end };
        for (phase, start, end) in [(0, read, execute), (1, write, end)] {
            if self.words[place][phase] > 0 {
                self.carriers.push(Carrier { core, start, end, place, phase });
            }
        }
        end
    }

    fn time(&self, place: usize) -> u32 {
        self.plan.times[self.plan.order[place]]
    }

    /// The least start from `start` on at which neither phase overlaps one placed on another core.
    /// As long as a phase overlaps an obstacle, every start before the obstacle's end does so too.
    fn exclusive_start(&self, place: usize, mut start: u32) -> u32 {
        let core = self.choices[place].core;
        let [read_words, write_words] = self.words[place];
        let [read_length, write_length] = self.lengths[place];
        let to_write = read_length + self.time(place);
        loop {
            let before = start;
            for obstacle in self.carriers.iter().filter(|obstacle| obstacle.core != core) {
                if read_words > 0 && obstacle.meets(start, read_length) {
                    start = obstacle.end;
                }
                if write_words > 0 && obstacle.meets(start + to_write, write_length) {
                    start = obstacle.end - to_write;
                }
            }
            if start == before {
                return start;
            }
        }
    }

    /// Step 3, first half: each carrying window's rivals, not yet limited.
    fn count_rivals(&mut self) {
        self.rivals.clear();
        self.rivals.resize(self.carriers.len(), 0);
        for (index, a) in self.carriers.iter().enumerate() {
            let mut count = 0;
            for (other, b) in self.carriers[..index].iter().enumerate() {
                if a.core != b.core && a.start < b.end && b.start < a.end {
                    count += 1;
                    self.rivals[other] += 1;
                }
            }
            self.rivals[index] += count;
        }
    }

    /// Step 3, second half: a window shorter than its delay takes that delay. Did one grow?
    fn grow(&mut self) -> bool {
        let bus = &self.plan.bus;
        let mut grew = false;
        for (carrier, &rivals) in self.carriers.iter().zip(&self.rivals) {
            let words = self.words[carrier.place][carrier.phase];
            let delay = bus.delay(words, rivals.min(bus.cores - 1));
            let length = &mut self.lengths[carrier.place][carrier.phase];
            if *length < delay {
                *length = delay;
                grew = true;
            }
        }
        grew
    }

    fn by_task(&self, rows: &[Row]) -> Vec<Row> {
        let mut by_task = vec![Row::default(); rows.len()];
        for (row, &task) in rows.iter().zip(&self.plan.order) {
            by_task[task] = *row;
        }
        by_task
    }
}

impl Carrier {
    fn meets(&self, start: u32, length: u32) -> bool {
        start < self.end && self.start < start + length
    }
}

fn sources_by_place(plan: &Plan) -> Vec<Vec<(usize, u32)>> {
    let mut place_of = vec![0; plan.tasks()];
    for (place, &task) in plan.order.iter().enumerate() {
        place_of[task] = place;
    }
    let mut sources = vec![Vec::new(); plan.tasks()];
    for edge in &plan.edges {
        sources[place_of[edge.target()]].push((place_of[edge.source()], edge.words()));
    }
    sources
}
