//! Counts of what each entry point answered.

use std::collections::BTreeMap;
use std::fmt::{self, Display, Formatter};

use crate::Answer;
use crate::case::Entry;

const SUCCESS: (u32, u32) = (0, 0);

#[derive(Debug, Default)]
pub struct Tally {
    /// By number, side and entry point's name.
    counts: BTreeMap<(u32, u32), BTreeMap<&'static str, u64>>,
    pub cases: u64,
}

impl Tally {
    pub fn count(&mut self, entry: Entry, answer: &Answer) {
        let by_entry = self.counts.entry((answer.number, answer.side)).or_default();
        *by_entry.entry(entry.name()).or_default() += 1;
        self.cases += 1;
    }

    fn met(&self, kind: (u32, u32), entry: Entry) -> u64 {
        let by_entry = self.counts.get(&kind);
        by_entry.and_then(|by_entry| by_entry.get(entry.name())).copied().unwrap_or(0)
    }

    /// The possible answers that were never met.
    pub fn missing(&self) -> Vec<String> {
        let mut missing = Vec::new();
        for entry in Entry::ALL {
            for kind in std::iter::once(SUCCESS).chain(entry.refusals()) {
                if self.met(kind, entry) == 0 {
                    missing.push(format!("{}: {}", entry.name(), kind_name(kind)));
                }
            }
        }
        missing
    }
}

fn kind_name((number, side): (u32, u32)) -> String {
    let side = ["", " plan", " table"].get(side as usize).unwrap_or(&" (unknown side)");
    match number {
        0 => format!("success{side}"),
        _ => format!("{number}{side}"),
    }
}

/// One line per answer, one column per entry point; `-` where the answer can't be given.
impl Display for Tally {
    fn fmt(&self, f: &mut Formatter<'_>) -> fmt::Result {
        write!(f, "{:10}", "answer")?;
        for entry in Entry::ALL {
            write!(f, "{:>10}", entry.name())?;
        }
        let mut kinds: Vec<_> = Entry::ALL.iter().flat_map(|entry| entry.refusals()).collect();
        kinds.push(SUCCESS);
        kinds.extend(self.counts.keys());
        kinds.sort();
        kinds.dedup();
        for kind in kinds {
            write!(f, "\n{:10}", kind_name(kind))?;
            for entry in Entry::ALL {
                let possible = kind == SUCCESS || entry.refusals().contains(&kind);
                match (possible, self.met(kind, entry)) {
                    (false, 0) => write!(f, "{:>10}", "-")?,
                    (_, count) => write!(f, "{count:>10}")?,
                }
            }
        }
        Ok(())
    }
}
