//! The ported library, by its C interface, on lent memory with a margin that must stay as it is.

use crate::answer::{Answer, Case, Step, entry};
use crate::range::InputRange;

unsafe extern "C" {
    /// The record of a run. 0, or 16 where the output is too short; `written` is the record's length.
    fn lane_run(
        input: *const u8,
        input_len: usize,
        rows: *mut u8,
        rows_len: usize,
        trace: *mut u8,
        trace_len: usize,
        output: *mut u8,
        output_len: usize,
        written: *mut u64,
    ) -> u32;

    /// The same of an image, its symbols and a range of inputs; 17 where first is above last, which has no record.
    #[cfg(feature = "ranges")]
    fn lane_run_range(
        image: *const u8,
        image_len: usize,
        entry: u32,
        event_count: u32,
        events: u32,
        first_input: u8,
        last_input: u8,
        rows: *mut u8,
        rows_len: usize,
        trace: *mut u8,
        trace_len: usize,
        output: *mut u8,
        output_len: usize,
        written: *mut u64,
    ) -> u32;
}

/// Whether the library is taken to have `lane_run_range`.
pub const HAS_RANGES: bool = cfg!(feature = "ranges");

/// What is run: the bytes for `lane_run`, or a case for `lane_run_range`.
#[derive(Clone, Copy)]
pub enum Call<'a> {
    Input(&'a [u8]),
    Range(&'a Case, InputRange),
}

pub const ROW: usize = 264;
pub const ENTRY: usize = 13;
const MARGIN: usize = 64;
const UNTOUCHED: u8 = 0xa5;

pub struct Port {
    rows: Vec<u8>,
    trace: Vec<u8>,
    output: Vec<u8>,
    zeros: Vec<u8>,
}

/// The lent lengths, in bytes.
#[derive(Clone, Copy, Debug)]
pub struct Lent {
    pub rows: usize,
    pub trace: usize,
    pub output: usize,
}

impl Port {
    pub fn new() -> Self {
        Self { rows: Vec::new(), trace: Vec::new(), output: Vec::new(), zeros: Vec::new() }
    }

    fn lend(lent: &mut Vec<u8>, length: usize, value: u8) {
        if lent.len() < length + MARGIN {
            lent.resize(length + MARGIN, value);
        }
    }

    /// The call alone, for time: what the lent memory holds is not looked at.
    pub fn call(&mut self, call: Call, lent: Lent) -> (u32, u64) {
        Self::lend(&mut self.rows, lent.rows, 0);
        Self::lend(&mut self.trace, lent.trace, UNTOUCHED);
        Self::lend(&mut self.output, lent.output, UNTOUCHED);
        let (rows, trace, output) = (self.rows.as_mut_ptr(), self.trace.as_mut_ptr(), self.output.as_mut_ptr());
        let mut written = u64::MAX;
        let status = match call {
            Call::Input(input) => unsafe {
                lane_run(input.as_ptr(), input.len(), rows, lent.rows, trace, lent.trace, output, lent.output, &mut written)
            },
            #[cfg(not(feature = "ranges"))]
            Call::Range(..) => panic!("built for a library without lane_run_range"),
            #[cfg(feature = "ranges")]
            Call::Range(Case { entry, event_count, events, image, .. }, InputRange { first, last }) => unsafe {
                let (image, length) = (image.as_ptr(), image.len());
                lane_run_range(
                    image,
                    length,
                    *entry,
                    *event_count,
                    *events,
                    first,
                    last,
                    rows,
                    lent.rows,
                    trace,
                    lent.trace,
                    output,
                    lent.output,
                    &mut written,
                )
            },
        };
        (status, written)
    }

    /// Fills the rows that are lent next, and what lies behind them.
    pub fn soil(&mut self, length: usize, value: u8) {
        Self::lend(&mut self.rows, length, 0);
        self.rows[..length].fill(value);
    }

    /// What is wrong with the rows after a run, which are made zero for the next.
    fn rows_faults(&mut self, length: usize, soiled: u8) -> Vec<String> {
        let mut faults = Vec::new();
        let whole = length / ROW * ROW;
        self.zeros.resize(self.rows.len(), 0);
        if self.rows[..whole] != self.zeros[..whole] {
            faults.push("rows are not zero after the run".into());
        }
        if self.rows[whole..length].iter().any(|byte| *byte != soiled) {
            faults.push("the rows' remainder is touched".into());
        }
        if self.rows[length..][..MARGIN] != self.zeros[..MARGIN] {
            faults.push("bytes past the rows are touched".into());
        }
        self.rows[..length].fill(0);
        faults
    }

    /// Runs, and says what is wrong with what is handed back or with the lent memory: `trace` has the entries that completed steps leave;
    /// `soiled` is what the rows held before.
    pub fn check(&mut self, call: Call, lent: Lent, answer: &Answer, trace: &[Step], soiled: u8) -> Result<(), String> {
        let (status, written) = self.call(call, lent);
        let (expected, record) = answer.handed(lent.output);
        let mut faults = Vec::new();
        if status != expected {
            faults.push(format!("status {status}"));
        }
        if written != record.len() as u64 {
            faults.push(format!("{written} bytes written"));
        }
        let length = record.len();
        if self.output[..length] != record {
            let shown = &self.output[..lent.output.min(48).min(written as usize)];
            faults.push(format!("record {shown:02x?}"));
        }
        let kept = (lent.output + MARGIN).min(length.max(if status == 0 { written as usize } else { 0 }).saturating_add(4096));
        if self.output[length..kept].iter().any(|byte| *byte != UNTOUCHED) {
            faults.push("output past the record is touched".into());
        }
        self.output[..kept].fill(UNTOUCHED);
        let used = trace.len() * ENTRY;
        if trace.iter().enumerate().any(|(at, step)| self.trace[at * ENTRY..][..ENTRY] != entry(step)) {
            faults.push("trace".into());
        }
        let kept = (lent.trace + MARGIN).min(used + 4096);
        if self.trace[used..kept].iter().any(|byte| *byte != UNTOUCHED) {
            faults.push("a later trace entry is touched".into());
        }
        self.trace[..kept].fill(UNTOUCHED);
        faults.extend(self.rows_faults(lent.rows, soiled));
        if faults.is_empty() { Ok(()) } else { Err(faults.join(", ")) }
    }
}

impl Default for Port {
    fn default() -> Self {
        Self::new()
    }
}
