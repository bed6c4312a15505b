//! Cases whose outcomes were worked out by hand.

use crate::answer::Case;
use crate::asm::Code;
use crate::boundaries::AMPLE;
use crate::compare::Judge;
use crate::port::Lent;
use crate::range::InputRange;

/// The return value, or number and role.
pub type Outcome = Result<u32, (u8, u8)>;

pub struct Known {
    pub name: String,
    pub case: Case,
    pub lent: Lent,
    pub judge: Judge,
    pub outcome: Outcome,
    /// The words of all completed steps, where they were worked out too.
    pub words: Option<Vec<u32>>,
    /// The record's first bytes, where they were.
    pub record: Option<Vec<u8>>,
}

impl Known {
    pub fn new(name: String, case: Case, judge: Judge, outcome: Outcome) -> Self {
        Self { name, case, lent: AMPLE, judge, outcome, words: None, record: None }
    }

    /// The same over a range, for an outcome that no input changes; without an input it is 17.
    pub fn over(mut self, chosen: Option<InputRange>) -> Self {
        self.case.chosen = chosen;
        if self.case.range().is_empty() {
            (self.judge, self.outcome) = (Judge::Model, Err((17, 0)));
        }
        self
    }
}

#[derive(Default)]
pub struct List(pub Vec<Known>);

impl List {
    pub fn add(&mut self, name: String, judge: Judge, outcome: Outcome, build: impl FnOnce(&mut Code)) -> &mut Known {
        let mut code = Code::default();
        build(&mut code);
        self.0.push(Known::new(name, Case::plain(code.0), judge, outcome));
        self.0.last_mut().expect("just pushed")
    }
}
