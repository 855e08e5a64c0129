//! Document 01 twice: the proved library behind its C interface (`product`) and an independent
//! plain Rust implementation (`plain`), with what holds one against the other.

pub mod case;
pub mod draft;
pub mod generate;
pub mod judge;
pub mod plain;
#[cfg(feature = "product")]
pub mod product;
pub mod random;
pub mod shrink;
pub mod tally;

/// What every entry point answers, laid out as the C interface's `struct nz_answer`.
#[repr(C)]
#[derive(Clone, Copy, Debug, PartialEq, Eq)]
pub struct Answer {
    /// 0 for success, else the refusal number.
    pub number: u32,
    /// 0 neither, 1 plan, 2 table.
    pub side: u32,
    pub place: u64,
    /// The makespan where `verify` and `make` succeed, else 0.
    pub value: u64,
}

impl Answer {
    pub fn is_success(&self) -> bool {
        self.number == 0
    }
}

/// The five entry points.
pub trait Library {
    /// Judges a table against a plan; the value is the makespan.
    fn verify(&self, plan: &[u8], table: &[u8]) -> Answer;
    /// Makes a table by the list rule; the value is the makespan.
    fn make(&self, plan: &[u8], out: &mut [u8]) -> Answer;
    /// Writes a table from five numbers per task: core, R, E, W, F.
    fn write(&self, plan: &[u8], numbers: &[u32], out: &mut [u8]) -> Answer;
    /// Reads a table's five numbers per task.
    fn read(&self, plan: &[u8], table: &[u8], out: &mut [u32]) -> Answer;
    /// Plays a table on the bus: read end, read waits, write end, write waits per task.
    fn run(&self, plan: &[u8], table: &[u8], last: u32, words: &[u32], out: &mut [u32]) -> Answer;
}
