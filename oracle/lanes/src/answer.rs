//! What a run answers, in document 01's numbers, and its record.

use crate::range::InputRange;

/// The input of a run.
#[derive(Clone, Debug, PartialEq, Eq)]
pub struct Case {
    pub entry: u32,
    pub event_count: u32,
    pub events: u32,
    pub image: Vec<u8>,
    /// The range for `lane_run_range`. Without one the run is `lane_run`'s, over the Rust's own.
    pub chosen: Option<InputRange>,
}

impl Case {
    /// An image whose first byte is its entry, with the events' symbols out of its way.
    pub fn plain(image: Vec<u8>) -> Self {
        Self { entry: 0x8000_0000, event_count: 0x8011_0000, events: 0x8011_0004, image, chosen: None }
    }

    pub fn range(&self) -> InputRange {
        self.chosen.unwrap_or(InputRange::INVALID_CHANNELS)
    }

    /// The bytes that the program `lane-run` reads.
    pub fn input(&self) -> Vec<u8> {
        let mut input = Vec::with_capacity(12 + self.image.len());
        for symbol in [self.entry, self.event_count, self.events] {
            input.extend(symbol.to_le_bytes());
        }
        input.extend(&self.image);
        input
    }
}

/// A control step: program counter, word, length, next.
pub type Step = [u32; 4];

#[derive(Clone, Debug, PartialEq, Eq)]
pub struct Accepted {
    pub first_input: u8,
    pub lane_count: u16,
    pub return_value: u32,
    pub lane_operations: u64,
    pub written: u32,
    /// Operation, offset, value, location.
    pub events: Vec<[u32; 4]>,
    pub trace: Vec<Step>,
}

#[derive(Clone, Debug, PartialEq, Eq)]
pub enum Answer {
    Accepted(Accepted),
    Refused { number: u8, role: u8, steps: u32 },
}

pub fn entry(step: &Step) -> [u8; 13] {
    let mut bytes = [0; 13];
    bytes[..4].copy_from_slice(&step[0].to_le_bytes());
    bytes[4..8].copy_from_slice(&step[1].to_le_bytes());
    bytes[8] = step[2] as u8;
    bytes[9..].copy_from_slice(&step[3].to_le_bytes());
    bytes
}

impl Accepted {
    fn record(&self) -> Vec<u8> {
        let mut bytes = vec![1, self.first_input];
        bytes.extend(self.lane_count.to_le_bytes());
        let steps = self.trace.len() as u32;
        let operations = u32::try_from(self.lane_operations).unwrap();
        for number in [self.return_value, steps, operations, self.written] {
            bytes.extend(number.to_le_bytes());
        }
        bytes.push(self.events.len() as u8);
        for event in &self.events {
            bytes.push(2);
            event.iter().for_each(|number| bytes.extend(number.to_le_bytes()));
        }
        for step in &self.trace {
            bytes.push(3);
            bytes.extend(entry(step));
        }
        bytes
    }
}

impl Answer {
    /// The record's bytes; it holds no number above 14.
    pub fn record(&self) -> Option<Vec<u8>> {
        match self {
            Self::Accepted(result) => Some(result.record()),
            Self::Refused { number: 15.., .. } => None,
            Self::Refused { number, role, steps } => Some([&[0x7f, *number, *role], &steps.to_le_bytes()[..]].concat()),
        }
    }

    /// What the library answers with so many bytes of output lent, and what it writes there.
    pub fn handed(&self, output: usize) -> (u32, Vec<u8>) {
        match (self, self.record()) {
            (Self::Refused { number, .. }, None) => ((*number).into(), Vec::new()),
            (_, Some(record)) if record.len() <= output => (0, record),
            _ => (16, Vec::new()),
        }
    }

    /// "accepted", or number and role.
    pub fn kind(&self) -> String {
        match self {
            Self::Accepted(_) => "accepted".into(),
            Self::Refused { number, role: 0, .. } => format!("{number}"),
            Self::Refused { number, role, .. } => format!("{number}/{role}"),
        }
    }
}
