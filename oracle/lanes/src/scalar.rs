//! Demand 3's scalar run, written from document 01: one input, nothing unknown, nothing from lanes.

use crate::answer::{Accepted, Case, Step};
use crate::machine::*;

/// Memory that is cleared after a run byte by byte, so that short runs cost little.
pub struct Scalar {
    memory: Vec<u8>,
    touched: Vec<usize>,
    pub trace: Vec<Step>,
    locations: Vec<u32>,
}

impl Default for Scalar {
    fn default() -> Self {
        Self { memory: vec![0; MEMORY as usize], touched: Vec::new(), trace: Vec::new(), locations: Vec::new() }
    }
}

/// What the run answers beside `trace`: x10, and events with their locations. A failed run answers nothing.
pub type Ended = Option<(u32, Vec<[u32; 4]>)>;

impl Scalar {
    /// `filling` has a value for each register; x0, x1, x2 and x10 are set here.
    pub fn run(&mut self, case: &Case, input: u32, filling: &[u32; 32]) -> Ended {
        self.trace.clear();
        self.locations.clear();
        start_test(&case.image, [case.entry, case.event_count, case.events]).ok()?;
        self.memory[..case.image.len()].copy_from_slice(&case.image);
        self.write((STOP - BASE) as usize, 4, STOP_WORD);
        let ended = self.steps(case, input, filling).ok();
        for at in self.touched.drain(..) {
            self.memory[at] = 0;
        }
        self.memory[..case.image.len()].fill(0);
        ended
    }

    fn read(&self, at: usize, width: u32) -> u32 {
        (0..width as usize).fold(0, |sum, byte| sum | u32::from(self.memory[at + byte]) << (8 * byte))
    }

    fn write(&mut self, at: usize, width: u32, value: u32) {
        for byte in 0..width as usize {
            self.memory[at + byte] = (value >> (8 * byte)) as u8;
            self.touched.push(at + byte);
        }
    }

    fn steps(&mut self, case: &Case, input: u32, filling: &[u32; 32]) -> Result<(u32, Vec<[u32; 4]>), u8> {
        let mut x = *filling;
        x[0] = 0;
        x[1] = STOP;
        x[2] = 0x801f_fff0;
        x[10] = input;
        let mut pc = case.entry;
        while pc != STOP {
            if self.trace.len() as u32 == MAX_STEPS {
                return Err(3);
            }
            let low = self.read(in_range(pc, 2)?, 2);
            let bytes = length(low);
            let word = if bytes == 2 { expand(low)? } else { self.read(in_range(pc, 4)?, 4) };
            let mut next = pc.wrapping_add(bytes);
            match action(word, pc)? {
                Action::Nothing => {}
                Action::Set { rd, value } => x[rd] = value,
                Action::Jump { rd, target } => {
                    x[rd] = next;
                    next = target;
                }
                Action::JumpTo { rd, rs1, offset } => {
                    let target = x[rs1].wrapping_add(offset) & !1;
                    if target == 0 {
                        return Err(10);
                    }
                    x[rd] = next;
                    next = target;
                }
                Action::Branch { test, rs1, rs2, target } => {
                    if test(x[rs1], x[rs2]) != 0 {
                        next = target;
                    }
                }
                Action::Load { rd, rs1, offset, width, signed } => {
                    let at = in_range(x[rs1].wrapping_add(offset), width)?;
                    x[rd] = extended(self.read(at, width), width, signed);
                }
                Action::Store { rs1, rs2, offset, width } => {
                    let address = x[rs1].wrapping_add(offset);
                    let at = in_range(address, width)?;
                    if at < case.image.len() {
                        return Err(11);
                    }
                    self.write(at, width, x[rs2]);
                    if width == 4 && address == case.event_count {
                        self.locations.push(pc);
                    }
                }
                Action::Immediate { function, rd, rs1, value } => x[rd] = function(x[rs1], value),
                Action::Registers { function, rd, rs1, rs2 } => x[rd] = function(x[rs1], x[rs2]),
            }
            x[0] = 0;
            self.trace.push([pc, word, bytes, next]);
            pc = next;
        }
        let count = self.read(in_range(case.event_count, 4)?, 4) as usize;
        if count > 32 || count != self.locations.len() {
            return Err(12);
        }
        let mut events = Vec::new();
        for index in 0..count {
            let mut event = [0, 0, 0, self.locations[index]];
            for (part, number) in event.iter_mut().take(3).enumerate() {
                *number = self.read(in_range(case.events + 12 * index as u32 + 4 * part as u32, 4)?, 4);
            }
            events.push(event);
        }
        Ok((x[10], events))
    }

    /// Whether the run of an input answers what the lane run does.
    pub fn agrees(&mut self, case: &Case, input: u32, filling: &[u32; 32], lanes: &Accepted) -> bool {
        let ended = self.run(case, input, filling);
        ended.is_some_and(|(return_value, events)| return_value == lanes.return_value && events == lanes.events)
            && self.trace == lanes.trace
    }
}
