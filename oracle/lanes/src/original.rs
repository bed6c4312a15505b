//! The Rust's answer, its texts mapped to document 01's numbers and roles.

use crate::answer::{Accepted, Case};
use crate::machine::length;
use crate::model::Outside;
use crate::range::{self, InputRange};
use crate::riscv32imc::{Rv32SymbolLayout, decompress};
use riscv_decode::Words;

/// The result, or number and role; a refusal's own text; and the words that were decoded.
#[derive(PartialEq, Eq)]
pub struct Original {
    pub result: Result<Accepted, (u8, u8)>,
    pub text: String,
    pub decoded: Words,
}

impl Original {
    /// Whether the run was refused at this halfword or word and no earlier: it decoded the words of the steps before, and of a word
    /// that too. The text has a word's address and its fields; of a halfword it is what `decompress` says of that one.
    pub fn refused_at(&self, outside: &Outside) -> bool {
        let Outside { pc, fetched, before, .. } = *outside;
        if length(fetched) == 2 {
            return decompress(fetched as u16).is_err_and(|error| self.text == error.0) && self.decoded == before;
        }
        let instruction = riscv_decode::decode(fetched).expect("the manual has the word");
        let text = format!("{OWN}unsupported instruction at 0x{pc:08x}: {instruction:?}");
        self.text == text && self.decoded == before.and(fetched)
    }

    /// Number and role with the text, or the steps.
    pub fn told(&self) -> String {
        let steps = self.result.as_ref().map(|result| result.trace.len());
        format!("{steps:?} ({}) after {} words", self.text, self.decoded.count)
    }
}

const OWN: &str = "finite-domain predicate transducer: ";

/// Texts by the number they stand for. Those of role 5 come first, since they end as others do.
const TEXTS: [(&str, u8, u8); 12] = [
    ("branch operand contains an unknown lane", 6, 5),
    ("branch direction diverges across predicate", 7, 5),
    ("image size is outside policy", 1, 0),
    ("symbol is outside memory policy", 2, 0),
    ("symbolic transition bound exceeded", 3, 0),
    ("address below image: 0x", 4, 0),
    ("memory access outside policy: 0x", 5, 0),
    ("decode at 0x", 9, 0),
    ("unsupported instruction at 0x", 9, 0),
    ("zero indirect target", 10, 0),
    ("self-modifying symbolic code is unsupported", 11, 0),
    ("event count is outside policy or inconsistent", 12, 0),
];

/// What is tested, by role: each followed by one of the two endings.
const ROLES: [(&str, u8); 9] = [
    ("instruction fetch", 1),
    ("indirect target", 2),
    ("load address", 3),
    ("store address", 4),
    ("return value", 6),
    ("event count", 7),
    ("event operation", 8),
    ("event offset", 9),
    ("event value", 10),
];

/// What `decompress` says; these have no prefix of the run's own.
const HALFWORD: [&str; 5] = [
    "reserved ",
    "RV64 compressed shift in RV32 image",
    "unsupported compressed arithmetic instruction",
    "reserved compressed jump or move",
    "unsupported compressed instruction 0x",
];

pub fn number_of(text: &str) -> (u8, u8) {
    let Some(own) = text.strip_prefix(OWN) else {
        assert!(HALFWORD.iter().any(|start| text.starts_with(start)), "no number for the Rust's text {text:?}");
        return (8, 0);
    };
    if let Some((_, number, role)) = TEXTS.iter().find(|(start, ..)| own.starts_with(start)) {
        return (*number, *role);
    }
    let role = ROLES.iter().find_map(|(start, role)| Some((own.strip_prefix(start)?, *role)));
    match role {
        Some((" contains an unknown lane", role)) => (6, role),
        Some((" is not uniform across predicate", role)) => (7, role),
        _ => panic!("no number for the Rust's text {text:?}"),
    }
}

/// Which of the Rust's texts runs a case.
#[derive(Clone, Copy, PartialEq, Eq)]
pub enum Text {
    Unchanged,
    /// With its two constants changed, for ranges that end at 255.
    Constants,
    /// With the end of `input_domain` changed too, for other ranges.
    End,
}

impl Text {
    /// Where there is no input, the Rust is asked for what it tests first.
    pub fn of(case: &Case) -> Self {
        match case.chosen {
            None => Self::Unchanged,
            Some(range) if range.is_empty() => Self::Unchanged,
            Some(InputRange { last: u8::MAX, .. }) => Self::Constants,
            Some(_) => Self::End,
        }
    }
}

/// What one of the texts answers; each has types of its own.
macro_rules! answer_of {
    ($text:ident, $case:expr) => {{
        let Case { entry, event_count, events, ref image, .. } = *$case;
        crate::$text::execute_invalid_channel_predicate(image, Rv32SymbolLayout { entry, event_count, events }).map(|found| {
            assert!(found.symbolic_transitions == found.control_trace.len() as u64);
            assert!(found.events.len() == found.event_program_locations.len());
            let events = found.events.iter().zip(&found.event_program_locations);
            let steps = found.control_trace.iter();
            Accepted {
                first_input: found.first_input,
                lane_count: found.lane_count,
                return_value: found.return_value,
                lane_operations: found.lane_value_operations,
                written: found.sparse_memory_bytes,
                events: events.map(|(event, location)| [event.operation, event.offset, event.value, *location]).collect(),
                trace: steps
                    .map(|step| [step.program_counter, step.instruction_word, step.instruction_bytes.into(), step.next_program_counter])
                    .collect(),
            }
        })
    }};
}

pub fn run(text: Text, case: &Case) -> Original {
    range::choose(case.range());
    riscv_decode::given();
    let result = match text {
        Text::Unchanged => answer_of!(riscv32imc_predicate, case),
        Text::Constants => answer_of!(changed_constants, case),
        Text::End => answer_of!(changed_end, case),
    };
    let decoded = riscv_decode::given();
    let text = result.as_ref().err().map_or(String::new(), |error| error.0.clone());
    Original { result: result.map_err(|error| number_of(&error.0)), text, decoded }
}
