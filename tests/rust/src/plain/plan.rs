//! Plans: fields, parsing, list order.

use super::{Refusal, Side};

pub const MAX_TASKS: usize = 64;
pub const MAX_EDGES: usize = 256;
pub const MAX_WORDS: u32 = 4095;

const HEADER: usize = 3;

/// The cores and the bus between them: a slot's time T and its words D.
#[derive(Clone, Copy, Debug)]
pub struct Bus {
    pub cores: u32,
    pub slot_time: u32,
    pub slot_words: u32,
}

impl Bus {
    pub fn word_time(&self) -> u32 {
        self.slot_time / self.slot_words
    }

    /// The longest that a phase of `words` words takes beside `rivals` rivals.
    pub fn delay(&self, words: u32, rivals: u32) -> u32 {
        let slots = words.div_ceil(self.slot_words);
        let full = words / self.slot_words;
        let rest = words % self.slot_words;
        self.slot_time * slots * rivals + self.slot_time * full + rest * self.word_time()
    }
}

#[derive(Clone, Copy, Debug, PartialEq, Eq)]
pub struct Edge {
    pub source: u8,
    pub target: u8,
    pub words: u16,
}

impl Edge {
    pub fn source(&self) -> usize {
        usize::from(self.source)
    }

    pub fn target(&self) -> usize {
        usize::from(self.target)
    }

    pub fn words(&self) -> u32 {
        u32::from(self.words)
    }
}

#[derive(Clone, Debug)]
pub struct Plan {
    pub bus: Bus,
    /// Each task's execute time C.
    pub times: Vec<u32>,
    /// Strictly rising by (source, target).
    pub edges: Vec<Edge>,
    /// The tasks in list order.
    pub order: Vec<usize>,
}

impl Plan {
    pub fn tasks(&self) -> usize {
        self.times.len()
    }

    /// The first bad field decides; a cycle comes last.
    pub fn parse(bytes: &[u8]) -> Result<Plan, Refusal> {
        let (tag, body) = field(bytes, 0, Side::Plan, |tag| tag == 1)?;
        let bus = parse_bus(body).ok_or(Refusal::plan(4, 0))?;
        let mut times = Vec::with_capacity(MAX_TASKS);
        let mut edges = Vec::with_capacity(MAX_EDGES);
        let mut previous = tag;
        let mut offset = HEADER + body.len();
        while offset < bytes.len() {
            let in_order = |tag| tag == 3 || tag == 2 && previous != 3;
            let (tag, body) = field(bytes, offset, Side::Plan, in_order)?;
            let added = match tag {
                2 => add_task(&mut times, body),
                _ => add_edge(&mut edges, times.len(), body),
            };
            added.map_err(|number| Refusal::plan(number, offset))?;
            previous = tag;
            offset += HEADER + body.len();
        }
        let order = list_order(times.len(), &edges).ok_or(Refusal::plan(7, bytes.len()))?;
        Ok(Plan { bus, times, edges, order })
    }
}

/// The field at `offset`: tag and body. Checks header cut, tag, length and body cut, in that order.
pub fn field(
    bytes: &[u8],
    offset: usize,
    side: Side,
    tag_fits: impl Fn(u8) -> bool,
) -> Result<(u8, &[u8]), Refusal> {
    let refusal = |number| Refusal { number, side, place: offset };
    let Some((&[tag, high, low], rest)) = bytes[offset..].split_first_chunk::<HEADER>() else {
        return Err(refusal(1));
    };
    if !tag_fits(tag) {
        return Err(refusal(2));
    }
    let length = body_length(tag);
    if usize::from(u16::from_be_bytes([high, low])) != length {
        return Err(refusal(3));
    }
    let body = rest.get(..length).ok_or(refusal(1))?;
    Ok((tag, body))
}

fn body_length(tag: u8) -> usize {
    match tag {
        1 => 3,
        2 => 2,
        3 => 4,
        _ => 17,
    }
}

fn parse_bus(body: &[u8]) -> Option<Bus> {
    let [cores, slot_time, slot_words] = [body[0], body[1], body[2]];
    let good = (1..=8).contains(&cores)
        && (1..=64).contains(&slot_time)
        && (1..=64).contains(&slot_words)
        && slot_time % slot_words == 0;
    good.then_some(Bus {
        cores: u32::from(cores),
        slot_time: u32::from(slot_time),
        slot_words: u32::from(slot_words),
    })
}

fn add_task(times: &mut Vec<u32>, body: &[u8]) -> Result<(), u32> {
    if times.len() == MAX_TASKS {
        return Err(6);
    }
    let time = u16::from_be_bytes([body[0], body[1]]);
    if time == 0 {
        return Err(4);
    }
    times.push(u32::from(time));
    Ok(())
}

fn add_edge(edges: &mut Vec<Edge>, tasks: usize, body: &[u8]) -> Result<(), u32> {
    if edges.len() == MAX_EDGES {
        return Err(6);
    }
    let words = u16::from_be_bytes([body[2], body[3]]);
    let edge = Edge { source: body[0], target: body[1], words };
    if edge.source() >= tasks || edge.target() >= tasks || edge.words() > MAX_WORDS {
        return Err(4);
    }
    let rises = |last: &Edge| (last.source, last.target) < (edge.source, edge.target);
    if !edges.last().is_none_or(rises) {
        return Err(5);
    }
    edges.push(edge);
    Ok(())
}

/// Repeatedly the lowest-numbered task whose sources are all taken; none if a cycle stops it.
fn list_order(tasks: usize, edges: &[Edge]) -> Option<Vec<usize>> {
    let mut open_sources = [0u16; MAX_TASKS];
    for edge in edges {
        open_sources[edge.target()] += 1;
    }
    let mut ready = (0..tasks).filter(|&t| open_sources[t] == 0).fold(0u64, |set, t| set | 1 << t);
    let mut order = Vec::with_capacity(tasks);
    while ready != 0 {
        let task = ready.trailing_zeros() as usize;
        ready &= ready - 1;
        order.push(task);
        let first = edges.partition_point(|edge| edge.source() < task);
        for edge in edges[first..].iter().take_while(|edge| edge.source() == task) {
            open_sources[edge.target()] -= 1;
            if open_sources[edge.target()] == 0 {
                ready |= 1 << edge.target;
            }
        }
    }
    (order.len() == tasks).then_some(order)
}
