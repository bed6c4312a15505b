//! Document 01's lane run with lent memory, for what the Rust doesn't say: the completed steps of a refusal, refusals 13, 14 and 17,
//! and the trace up to a refusal. The Rust stays the judge, and a model that differs from it is wrong, up to the first instruction outside
//! the Rust's domain; from there on the model follows the manual.

use crate::answer::{Accepted, Answer, Case, Step};
use crate::machine::*;
use riscv_decode::Words;

/// A value for each input of the range.
#[derive(Clone)]
struct Lanes {
    values: Vec<u32>,
    known: bool,
}

impl Lanes {
    fn uniform(&self, role: u8) -> Result<u32, (u8, u8)> {
        if !self.known {
            return Err((6, role));
        }
        if self.values.iter().any(|value| *value != self.values[0]) {
            return Err((7, role));
        }
        Ok(self.values[0])
    }

    fn map(&self, function: impl Fn(u32) -> u32) -> Self {
        Self { values: self.values.iter().map(|value| function(*value)).collect(), known: self.known }
    }

    fn zip(&self, right: &Self, function: Function) -> Self {
        let values = self.values.iter().zip(&right.values).map(|(left, right)| function(*left, *right)).collect();
        Self { values, known: self.known && right.known }
    }
}

/// The first fetched halfword or word that is outside the Rust's domain, and the words of the steps completed before it.
#[derive(Clone, Copy, Debug)]
pub struct Outside {
    pub kind: Kind,
    pub pc: u32,
    pub fetched: u32,
    pub before: Words,
}

/// Written bytes: which cell holds an address (0: none), and the cells.
pub struct Model {
    place: Vec<u32>,
    addresses: Vec<usize>,
    cells: Vec<(Vec<u8>, bool)>,
    lanes: usize,
    pub trace: Vec<Step>,
    /// Distinct bytes written when the run ended.
    pub written: usize,
    pub outside: Option<Outside>,
    locations: Vec<u32>,
}

impl Default for Model {
    fn default() -> Self {
        Self {
            place: vec![0; MEMORY as usize],
            addresses: Vec::new(),
            cells: Vec::new(),
            lanes: 0,
            trace: Vec::new(),
            written: 0,
            outside: None,
            locations: Vec::new(),
        }
    }
}

type Refusal = (u8, u8);

fn plain(number: u8) -> Refusal {
    (number, 0)
}

impl Model {
    pub fn run(&mut self, case: &Case, rows: usize, entries: usize) -> Answer {
        self.trace.clear();
        self.locations.clear();
        self.outside = None;
        let ended = self.answer(case, rows, entries);
        for at in self.addresses.drain(..) {
            self.place[at] = 0;
        }
        self.written = self.cells.len();
        self.cells.clear();
        match ended {
            Ok(result) => Answer::Accepted(result),
            Err((number, role)) => Answer::Refused { number, role, steps: self.trace.len() as u32 },
        }
    }

    fn constant(&self, value: u32) -> Lanes {
        Lanes { values: vec![value; self.lanes], known: true }
    }

    fn load(&self, image: &[u8], address: u32, width: u32) -> Result<Lanes, Refusal> {
        let at = in_range(address, width).map_err(plain)?;
        let mut word = self.constant(0);
        for byte in 0..width as usize {
            match self.place[at + byte] {
                0 => {
                    let value = u32::from(image.get(at + byte).copied().unwrap_or(0)) << (8 * byte);
                    word.values.iter_mut().for_each(|to| *to |= value);
                }
                cell => {
                    let (values, known) = &self.cells[cell as usize - 1];
                    word.values.iter_mut().zip(values).for_each(|(to, value)| *to |= u32::from(*value) << (8 * byte));
                    word.known &= known;
                }
            }
        }
        Ok(word)
    }

    fn new_bytes(&self, at: usize, width: u32) -> usize {
        (0..width as usize).filter(|byte| self.place[at + byte] == 0).count()
    }

    fn store(&mut self, at: usize, width: u32, word: &Lanes) {
        for byte in 0..width as usize {
            if self.place[at + byte] == 0 {
                self.cells.push((Vec::new(), true));
                self.addresses.push(at + byte);
                self.place[at + byte] = self.cells.len() as u32;
            }
            let cell = self.place[at + byte] as usize - 1;
            self.cells[cell] = (word.values.iter().map(|value| (value >> (8 * byte)) as u8).collect(), word.known);
        }
    }

    fn answer(&mut self, case: &Case, rows: usize, entries: usize) -> Result<Accepted, Refusal> {
        start_test(&case.image, [case.entry, case.event_count, case.events]).map_err(plain)?;
        if case.range().is_empty() {
            return Err((17, 0));
        }
        if rows < 4 {
            return Err((13, 0));
        }
        self.lanes = case.range().lanes();
        self.store((STOP - BASE) as usize, 4, &self.constant(STOP_WORD));
        let mut x = vec![Lanes { known: false, ..self.constant(0) }; 32];
        x[0] = self.constant(0);
        x[1] = self.constant(STOP);
        x[2] = self.constant(0x801f_fff0);
        x[10] = Lanes { values: case.range().inputs().collect(), known: true };
        let mut pc = case.entry;
        while pc != STOP {
            pc = self.step(case, pc, &mut x, rows, entries)?;
        }
        self.finish(case, &x[10])
    }

    /// The word and its length.
    fn fetch(&mut self, case: &Case, pc: u32) -> Result<(u32, u32), Refusal> {
        let low = self.load(&case.image, pc, 2)?.uniform(1)?;
        let bytes = length(low);
        let fetched = if bytes == 2 { low } else { self.load(&case.image, pc, 4)?.uniform(1)? };
        if let (None, Some(kind)) = (self.outside, outside(fetched)) {
            let before = self.trace.iter().fold(Words::default(), |words, step| words.and(step[1]));
            self.outside = Some(Outside { kind, pc, fetched, before });
        }
        let word = if bytes == 2 { expand(fetched).map_err(plain)? } else { fetched };
        Ok((word, bytes))
    }

    fn step(&mut self, case: &Case, pc: u32, x: &mut [Lanes], rows: usize, entries: usize) -> Result<u32, Refusal> {
        if self.trace.len() as u32 >= MAX_STEPS {
            return Err((3, 0));
        }
        let (word, bytes) = self.fetch(case, pc)?;
        let mut next = pc.wrapping_add(bytes);
        let mut set = (0, self.constant(0));
        let mut put = None;
        match action(word, pc).map_err(plain)? {
            Action::Nothing => {}
            Action::Set { rd, value } => set = (rd, self.constant(value)),
            Action::Jump { rd, target } => {
                set = (rd, self.constant(next));
                next = target;
            }
            Action::JumpTo { rd, rs1, offset } => {
                let target = x[rs1].map(|base| base.wrapping_add(offset) & !1).uniform(2)?;
                if target == 0 {
                    return Err((10, 0));
                }
                set = (rd, self.constant(next));
                next = target;
            }
            Action::Branch { test, rs1, rs2, target } => {
                if x[rs1].zip(&x[rs2], test).uniform(5)? != 0 {
                    next = target;
                }
            }
            Action::Load { rd, rs1, offset, width, signed } => {
                let address = x[rs1].map(|base| base.wrapping_add(offset)).uniform(3)?;
                let loaded = self.load(&case.image, address, width)?;
                set = (rd, loaded.map(|value| extended(value, width, signed)));
            }
            Action::Store { rs1, rs2, offset, width } => {
                let address = x[rs1].map(|base| base.wrapping_add(offset)).uniform(4)?;
                let at = in_range(address, width).map_err(plain)?;
                if at < case.image.len() {
                    return Err((11, 0));
                }
                if self.cells.len() + self.new_bytes(at, width) > rows {
                    return Err((13, 0));
                }
                put = Some((address, at, width, rs2));
            }
            Action::Immediate { function, rd, rs1, value } => set = (rd, x[rs1].map(|left| function(left, value))),
            Action::Registers { function, rd, rs1, rs2 } => set = (rd, x[rs1].zip(&x[rs2], function)),
        }
        if self.trace.len() >= entries {
            return Err((14, 0));
        }
        if let Some((address, at, width, rs2)) = put {
            self.store(at, width, &x[rs2]);
            if width == 4 && address == case.event_count {
                self.locations.push(pc);
            }
        }
        if set.0 != 0 {
            x[set.0] = set.1;
        }
        self.trace.push([pc, word, bytes, next]);
        Ok(next)
    }

    fn finish(&mut self, case: &Case, x10: &Lanes) -> Result<Accepted, Refusal> {
        let return_value = x10.uniform(6)?;
        let count = self.load(&case.image, case.event_count, 4)?.uniform(7)? as usize;
        if count > 32 || count != self.locations.len() {
            return Err((12, 0));
        }
        let mut events = Vec::new();
        for index in 0..count {
            let at = case.events + 12 * index as u32;
            let mut event = [0, 0, 0, self.locations[index]];
            for part in 0..3 {
                event[part] = self.load(&case.image, at + 4 * part as u32, 4)?.uniform(8 + part as u8)?;
            }
            events.push(event);
        }
        Ok(Accepted {
            first_input: case.range().first,
            lane_count: self.lanes as u16,
            return_value,
            lane_operations: self.lanes as u64 * self.trace.len() as u64,
            written: self.cells.len() as u32,
            events,
            trace: self.trace.clone(),
        })
    }
}
