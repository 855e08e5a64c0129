//! Plans and tables as values, good or bad, and their bytes.

pub const HEADER: usize = 3;

#[derive(Clone, Copy, Debug, PartialEq, Eq, PartialOrd, Ord)]
pub struct DraftEdge {
    pub source: u8,
    pub target: u8,
    pub words: u16,
}

/// A plan with its fields in order; nothing is said about its values.
#[derive(Clone, Debug, PartialEq, Eq)]
pub struct Draft {
    pub cores: u8,
    pub slot_time: u8,
    pub slot_words: u8,
    pub times: Vec<u16>,
    pub edges: Vec<DraftEdge>,
}

impl Draft {
    pub fn bytes(&self) -> Vec<u8> {
        let mut bytes = vec![1, 0, 3, self.cores, self.slot_time, self.slot_words];
        for time in &self.times {
            bytes.extend([2, 0, 2]);
            bytes.extend(time.to_be_bytes());
        }
        for edge in &self.edges {
            bytes.extend([3, 0, 4, edge.source, edge.target]);
            bytes.extend(edge.words.to_be_bytes());
        }
        bytes
    }

    /// None if the bytes aren't one tag 1, then tags 2, then tags 3, each whole.
    pub fn of_bytes(bytes: &[u8]) -> Option<Draft> {
        let (&[1, 0, 3, cores, slot_time, slot_words], mut rest) = bytes.split_first_chunk()?
        else {
            return None;
        };
        let mut times = Vec::new();
        while let Some((&[2, 0, 2, high, low], after)) = rest.split_first_chunk() {
            times.push(u16::from_be_bytes([high, low]));
            rest = after;
        }
        let mut edges = Vec::new();
        while let Some((&[3, 0, 4, source, target, high, low], after)) = rest.split_first_chunk() {
            edges.push(DraftEdge { source, target, words: u16::from_be_bytes([high, low]) });
            rest = after;
        }
        rest.is_empty().then_some(Draft { cores, slot_time, slot_words, times, edges })
    }
}

/// The parts of the bytes that their headers name as fields; what doesn't fit is the last part.
pub fn split_fields(bytes: &[u8]) -> Vec<Vec<u8>> {
    let mut fields = Vec::new();
    let mut rest = bytes;
    while let Some(&[_, high, low]) = rest.first_chunk::<HEADER>() {
        let length = HEADER + usize::from(u16::from_be_bytes([high, low]));
        let (field, after) = rest.split_at(length.min(rest.len()));
        fields.push(field.to_vec());
        rest = after;
    }
    if !rest.is_empty() {
        fields.push(rest.to_vec());
    }
    fields
}

/// A table's five numbers per task as bytes; of a core only the low byte fits.
pub fn table_bytes(rows: &[[u32; 5]]) -> Vec<u8> {
    let mut bytes = Vec::with_capacity(20 * rows.len());
    for row in rows {
        bytes.extend([4, 0, 17, row[0] as u8]);
        for mark in &row[1..] {
            bytes.extend(mark.to_be_bytes());
        }
    }
    bytes
}

/// The five numbers of each field; none if it isn't all whole tags 4.
pub fn table_rows(table: &[u8]) -> Option<Vec<[u32; 5]>> {
    let (fields, []) = table.as_chunks::<20>() else {
        return None;
    };
    let row = |field: &[u8; 20]| {
        let (marks, _) = field[4..].as_chunks::<4>();
        let marks = [0, 1, 2, 3].map(|mark| u32::from_be_bytes(marks[mark]));
        [u32::from(field[3]), marks[0], marks[1], marks[2], marks[3]]
    };
    fields.iter().all(|field| field[..3] == [4, 0, 17]).then(|| fields.iter().map(row).collect())
}
