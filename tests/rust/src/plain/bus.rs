//! The bus run: a table played grant by grant.

use super::Refusal;
use super::plan::Bus;
use super::rules::Words;
use super::table::Row;

/// Refusal 17: two counts per task, each at most the declared words.
pub fn check_sent(declared: &[Words], sent: &[u32]) -> Result<(), Refusal> {
    if sent.len() != 2 * declared.len() {
        return Err(Refusal::neither(17, sent.len()));
    }
    match sent.iter().zip(declared.as_flattened()).position(|(sent, declared)| sent > declared) {
        Some(index) => Err(Refusal::neither(17, index)),
        None => Ok(()),
    }
}

/// A phase with words to send, on its core's queue.
#[derive(Clone, Copy, Debug)]
struct Request {
    start: u64,
    words_left: u32,
    waits: u32,
    /// Where in the output its end and its waits belong.
    slot: usize,
}

/// A core's requests by start; the first that is not done is the one that asks.
#[derive(Debug, Default)]
struct Queue {
    requests: Vec<Request>,
    done: usize,
}

impl Queue {
    fn head(&mut self) -> Option<&mut Request> {
        self.requests.get_mut(self.done)
    }
}

/// Plays an accepted table. In one, a core's phases end within their windows, so that at most one
/// phase of each core asks at a time.
pub fn play(bus: &Bus, rows: &[Row], last: u32, sent: &[u32], out: &mut [u32]) {
    end_at_start(rows, out);
    let mut queues = queues(bus, rows, sent);
    let mut last = last as usize;
    let mut now = 0;
    while let Some(next) = earliest_start(&mut queues) {
        now = next.max(now);
        let core = first_asking(&mut queues, last, now).expect("a request has started");
        now = grant(bus, &mut queues, core, now, out);
        last = core;
    }
}

/// What holds for a phase without actual words.
fn end_at_start(rows: &[Row], out: &mut [u32]) {
    for (row, out) in rows.iter().zip(out.chunks_exact_mut(4)) {
        out.copy_from_slice(&[row.read, 0, row.write, 0]);
    }
}

fn queues(bus: &Bus, rows: &[Row], sent: &[u32]) -> Vec<Queue> {
    let mut queues: Vec<Queue> = (0..bus.cores).map(|_| Queue::default()).collect();
    for (task, row) in rows.iter().enumerate() {
        let requests = &mut queues[row.core as usize].requests;
        for (phase, start) in [row.read, row.write].into_iter().enumerate() {
            let words_left = sent[2 * task + phase];
            if words_left > 0 {
                let slot = 4 * task + 2 * phase;
                requests.push(Request { start: u64::from(start), words_left, waits: 0, slot });
            }
        }
    }
    for queue in &mut queues {
        queue.requests.sort_by_key(|request| request.start);
    }
    queues
}

fn earliest_start(queues: &mut [Queue]) -> Option<u64> {
    queues.iter_mut().filter_map(Queue::head).map(|head| head.start).min()
}

/// The first asking core after the last served, going round.
fn first_asking(queues: &mut [Queue], last: usize, now: u64) -> Option<usize> {
    let round = (last + 1..queues.len()).chain(0..=last);
    let mut asking = round.filter(|&core| queues[core].head().is_some_and(|h| h.start <= now));
    asking.next()
}

/// Gives a slot to the core and returns the time at which the bus is free again.
fn grant(bus: &Bus, queues: &mut [Queue], core: usize, now: u64, out: &mut [u32]) -> u64 {
    let head = queues[core].head().expect("the core asks");
    let words = head.words_left.min(bus.slot_words);
    let free = now + u64::from(words * bus.word_time());
    head.words_left -= words;
    if head.words_left == 0 {
        out[head.slot] = free as u32;
        out[head.slot + 1] = head.waits;
        queues[core].done += 1;
    }
    for (other, queue) in queues.iter_mut().enumerate() {
        if let Some(head) = queue.head()
            && other != core
            && head.start < free
        {
            head.waits += 1;
        }
    }
    free
}
