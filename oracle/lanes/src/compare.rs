//! One case on all sides, and the count of how each class ended.

use crate::answer::{Accepted, Answer, Case};
use crate::boundaries::AMPLE;
use crate::known::Known;
use crate::machine::Kind;
use crate::model::Model;
use crate::original::{self, Original, Text};
use crate::port::{Call, ENTRY, HAS_RANGES, Lent, Port, ROW};
use crate::random::Random;
use crate::range::InputRange;
use crate::scalar::Scalar;
use std::collections::BTreeMap;

/// More than the entries that are lent to short runs.
pub const PATIENCE: usize = 5_000;

/// How many differences are told in words.
const TOLD: usize = 10;

/// Who vouches for an answer.
#[derive(Clone, Copy, Debug, PartialEq, Eq)]
pub enum Judge {
    Rust,
    /// The model, of a run longer than the Rust is asked for, and of 17, which the Rust has not.
    Model,
    /// The manual, of a run that fetches what is outside the Rust's domain; the kind of the first.
    Manual(Kind),
}

impl Judge {
    fn suffix(self) -> &'static str {
        match self {
            Self::Rust => "",
            Self::Model => ", by the model alone",
            Self::Manual(_) => ", by the manual alone",
        }
    }
}

/// Cases over a chosen range, by which of the Rust's texts runs it.
#[derive(Clone, Copy, Default)]
pub struct Ranges {
    pub to_255: u64,
    /// Of those, how many the unchanged Rust ran too: over 6 to 255.
    pub unchanged_too: u64,
    pub below_255: u64,
    pub empty: u64,
}

impl Ranges {
    fn count(&mut self, case: &Case, judge: Judge) {
        match Text::of(case) {
            Text::Constants => self.to_255 += 1,
            Text::End => self.below_255 += 1,
            Text::Unchanged => self.empty += u64::from(case.chosen.is_some()),
        }
        self.unchanged_too += u64::from(case.chosen == Some(InputRange::INVALID_CHANNELS) && judge != Judge::Model);
    }

    fn add(mut self, other: &Self) -> Self {
        self.to_255 += other.to_255;
        self.unchanged_too += other.unchanged_too;
        self.below_255 += other.below_255;
        self.empty += other.empty;
        self
    }

    fn cases(&self) -> u64 {
        self.to_255 + self.below_255 + self.empty
    }

    fn text(&self) -> String {
        let Self { to_255, unchanged_too, below_255, empty } = self;
        format!(
            "{to_255} of them end at 255 ({unchanged_too} by the unchanged Rust too), {below_255} end below, {empty} have first above last"
        )
    }
}

#[derive(Default)]
pub struct Tally {
    pub cases: u64,
    pub ranges: Ranges,
    /// Cases held to the manual alone, by what they fetch first of what is outside the Rust's domain.
    pub manual: BTreeMap<Kind, u64>,
    pub kinds: BTreeMap<String, u64>,
    pub scalar_runs: u64,
    pub scalar_steps: u64,
    pub differences: u64,
}

impl Tally {
    /// All but how the cases ended.
    fn add(mut self, other: &Self) -> Self {
        self.cases += other.cases;
        self.ranges = self.ranges.add(&other.ranges);
        for (kind, count) in &other.manual {
            *self.manual.entry(*kind).or_default() += count;
        }
        self.scalar_runs += other.scalar_runs;
        self.scalar_steps += other.scalar_steps;
        self.differences += other.differences;
        self
    }

    fn text(&self) -> String {
        let Self { cases, differences, scalar_runs, scalar_steps, .. } = self;
        let over = if self.ranges.cases() == 0 { String::new() } else { format!(" over ranges, {}", self.ranges.text()) };
        let manual = held_to_manual(&self.manual);
        format!("{cases} cases{over}, {differences} differences, {manual}, {scalar_runs} scalar runs ({scalar_steps} steps)")
    }
}

pub struct Comparer {
    port: Port,
    model: Model,
    scalar: Scalar,
    random: Random,
    limit: usize,
    /// Steps above which the Rust isn't asked.
    pub patience: usize,
    /// Scalar steps to spend on one accepted image.
    pub budget: u64,
    pub classes: BTreeMap<String, Tally>,
    /// Whether the last case was lent enough rows and entries.
    pub enough: bool,
    /// What the last case is answered on the memory that it was lent.
    lent_answer: Answer,
    /// Who judged the last case.
    pub judge: Judge,
    /// The first differences, in words.
    pub told: Vec<String>,
}

/// The program `lane-run` refuses larger images; the library it is built on may.
const PROGRAM_LIMIT: usize = 32_768;

const TOO_LARGE: Answer = Answer::Refused { number: 1, role: 0, steps: 0 };

/// Whether the Rust says what the model does, and decoded as many words as the model's steps need.
fn agreed(original: &Original, model: &Answer) -> bool {
    match (&original.result, model) {
        (Ok(result), Answer::Accepted(found)) => result == found && original.decoded.count as usize == result.trace.len(),
        (Err((number, role)), Answer::Refused { number: n, role: r, steps }) => {
            let begun = original.decoded.count.wrapping_sub(*steps);
            let last = match (number, role) {
                (1 | 2 | 3 | 8 | 12, _) | (_, 1 | 6..) => begun == 0,
                (4 | 5, _) => begun <= 1,
                _ => begun == 1,
            };
            (number, role) == (n, r) && last
        }
        _ => false,
    }
}

/// How many cases the Rust doesn't judge, and by what they fetch first.
fn held_to_manual(manual: &BTreeMap<Kind, u64>) -> String {
    let count = |kind| manual.get(&kind).copied().unwrap_or(0);
    let (product, hint, lui) = (count(Kind::Product), count(Kind::Hint), count(Kind::LuiX1));
    let all = product + hint + lui;
    format!("{all} held to the manual alone (MULH, MULHSU or MULHU {product}, hints {hint}, C.LUI into x1 {lui})")
}

/// Inputs for a long run: both ends, their neighbours, and 128, as far as the range has them.
fn some_inputs(range: InputRange) -> Vec<u32> {
    let (first, last) = (u32::from(range.first), u32::from(range.last));
    let mut some = vec![first, first + 1, 128, last.saturating_sub(1), last];
    some.retain(|input| (first..=last).contains(input));
    some.sort();
    some.dedup();
    some
}

/// A case in words, to run it again.
fn shown(case: &Case, lent: Lent) -> String {
    let Case { entry, event_count, events, image, .. } = case;
    let InputRange { first, last } = case.range();
    let (by, bytes) = (if case.chosen.is_some() { "lane_run_range" } else { "lane_run" }, image.len());
    let (symbols, image) = ([entry, event_count, events], &image[..bytes.min(400)]);
    format!("{by} {first}-{last}; {lent:?}; symbols {symbols:08x?}; image of {bytes} bytes {image:02x?}")
}

/// Whether the library has the program's limit.
fn limited(port: &mut Port) -> bool {
    let mut image = vec![0x05, 0x45, 0x82, 0x80];
    image.resize(PROGRAM_LIMIT + 1, 0);
    port.check(Call::Input(&Case::plain(image).input()), AMPLE, &TOO_LARGE, &[], 0).is_ok()
}

impl Comparer {
    pub fn new(seed: u64, budget: u64) -> Self {
        let mut port = Port::new();
        let limit = if limited(&mut port) { PROGRAM_LIMIT } else { usize::MAX };
        Self {
            port,
            limit,
            model: Model::default(),
            scalar: Scalar::default(),
            random: Random::new(seed ^ 0x5ca1_a400),
            patience: PATIENCE,
            budget,
            classes: BTreeMap::new(),
            enough: true,
            lent_answer: TOO_LARGE,
            judge: Judge::Rust,
            told: Vec::new(),
        }
    }

    /// How many differences there were.
    pub fn differences(&self) -> u64 {
        self.classes.values().map(|tally| tally.differences).sum()
    }

    /// The Rust's answer with the steps of a refusal, which the model tells and the count of decoded words confirms.
    /// A run above `patience` steps is 14 here: the model alone tells it, since most such runs go in circles.
    /// Where the model fetched what is outside the Rust's domain the answer is the model's, and the Rust must be refused there.
    /// Over 6 to 255, chosen, the changed Rust must answer as the unchanged one.
    fn judged(&mut self, case: &Case) -> Result<Answer, String> {
        let model = self.model.run(case, usize::MAX, self.patience);
        self.judge = match (self.model.outside, &model) {
            (Some(outside), _) => Judge::Manual(outside.kind),
            (None, Answer::Refused { number: 14 | 17, .. }) => Judge::Model,
            _ => Judge::Rust,
        };
        if self.judge == Judge::Model {
            return Ok(model);
        }
        let original = original::run(Text::of(case), case);
        if case.chosen == Some(InputRange::INVALID_CHANNELS) && original != original::run(Text::Unchanged, case) {
            return Err(format!("the changed Rust, {}, is unlike the unchanged one", original.told()));
        }
        if self.model.outside.map_or_else(|| agreed(&original, &model), |outside| original.refused_at(&outside)) {
            return Ok(model);
        }
        Err(format!("the Rust says {}, the model {}", original.told(), model.kind()))
    }

    /// Feeds a case to the Rust, the model and the port, and an accepted one to the scalar run; gives the judge's answer.
    pub fn compare(&mut self, class: &str, name: &str, case: &Case, lent: Lent) -> Option<Answer> {
        let judged = self.judged(case);
        let answer = judged.as_ref().ok().cloned();
        let found = judged.and_then(|answer| self.held(case, lent, answer));
        let scalars = match &answer {
            Some(Answer::Accepted(result)) => self.scalars(case, result),
            _ => Ok((0, 0)),
        };
        let tally = self.classes.entry(class.into()).or_default();
        tally.cases += 1;
        tally.ranges.count(case, self.judge);
        if let Judge::Manual(kind) = self.judge {
            *tally.manual.entry(kind).or_default() += 1;
        }
        match found.and_then(|kind| Ok((kind, scalars?))) {
            Ok((kind, (runs, steps))) => {
                *tally.kinds.entry(kind).or_default() += 1;
                tally.scalar_runs += runs;
                tally.scalar_steps += steps;
            }
            Err(fault) => {
                tally.differences += 1;
                if self.told.len() < TOLD {
                    let told = self.tell(case, lent, &fault);
                    self.told.push(format!("{class} {name}: {told}"));
                }
            }
        }
        answer
    }

    /// Compares a case that was worked out by hand, and holds judge, outcome, words and record against that.
    pub fn expect(&mut self, class: &str, known: &Known) {
        let before = self.differences();
        if self.compare(class, &known.name, &known.case, known.lent).is_none() {
            return;
        }
        let outcome = match &self.lent_answer {
            Answer::Accepted(result) => Ok(result.return_value),
            Answer::Refused { number, role, .. } => Err((*number, *role)),
        };
        let words = known.words.as_ref().map(|_| self.model.trace.iter().map(|step| step[1]).collect());
        let all = self.lent_answer.record().unwrap_or_default();
        let record = known.record.as_ref().map(|first| all.into_iter().take(first.len()).collect());
        let found = (self.judge, outcome, words, record);
        let expected = (known.judge, known.outcome, known.words.clone(), known.record.clone());
        if self.differences() == before && found != expected {
            self.classes.entry(class.into()).or_default().differences += 1;
            if self.told.len() < TOLD {
                let shown = shown(&known.case, known.lent);
                self.told.push(format!("{class} {}: {found:x?}, not {expected:x?}\n  {shown}", known.name));
            }
        }
    }

    /// What differs between the Rust, the model and the port, if anything does.
    fn fault(&mut self, case: &Case, lent: Lent) -> Option<String> {
        self.judged(case).and_then(|answer| self.held(case, lent, answer)).err()
    }

    /// A difference in words, with the smallest image found for it: parts are left out, then bytes made zero, while anything differs.
    fn tell(&mut self, case: &Case, lent: Lent, fault: &str) -> String {
        let mut case = case.clone();
        let mut fault = fault.to_string();
        let mut part = case.image.len().min(4096) / 2;
        while part > 0 {
            let mut at = 0;
            while at + part <= case.image.len() {
                let mut less = case.clone();
                less.image.drain(at..at + part);
                match self.fault(&less, lent) {
                    Some(other) => (case, fault) = (less, other),
                    None => at += part,
                }
            }
            part /= 2;
        }
        for at in 0..case.image.len().min(1000) {
            let mut less = case.clone();
            less.image[at] = 0;
            if case.image[at] != 0 && self.fault(&less, lent).is_some() {
                case = less;
            }
        }
        let kind = self.judged(&case).map(|answer| answer.kind());
        format!("{fault}\n  {:?}: {kind:?}; {}", self.judge, shown(&case, lent))
    }

    /// The port against the judged answer, on lent memory that may be too short; how the run ended.
    fn held(&mut self, case: &Case, lent: Lent, answer: Answer) -> Result<String, String> {
        if case.chosen.is_none() && case.image.len() > self.limit {
            self.lent_answer = TOO_LARGE;
            self.port.check(Call::Input(&case.input()), lent, &TOO_LARGE, &[], 0)?;
            return Ok("1 by the program's limit".into());
        }
        let (rows, entries) = (lent.rows / ROW, lent.trace / ENTRY);
        let enough = self.model.written <= rows && rows >= 4 && self.model.trace.len() <= entries;
        self.enough = enough;
        self.lent_answer = if enough { answer } else { self.model.run(case, rows, entries) };
        self.ported(case, lent)?;
        if enough && matches!(self.lent_answer, Answer::Refused { number: 14, .. }) {
            return Err("lent more than patience".into());
        }
        let short = if self.lent_answer.handed(lent.output).0 == 16 { ", 16" } else { "" };
        Ok(format!("{}{short}{}", self.lent_answer.kind(), self.judge.suffix()))
    }

    /// The port against what the lent memory lets it answer, on rows that are soiled now and then.
    fn ported(&mut self, case: &Case, lent: Lent) -> Result<(), String> {
        let soiled = if self.random.chance(10) { self.random.word() as u8 } else { 0 };
        if case.chosen.is_some() && !HAS_RANGES {
            return Ok(());
        }
        if soiled != 0 {
            self.port.soil(lent.rows, soiled);
        }
        let input = case.input();
        let call = case.chosen.map_or(Call::Input(&input), |range| Call::Range(case, range));
        self.port.check(call, lent, &self.lent_answer, &self.model.trace, soiled)
    }

    /// Scalar runs of an accepted image: all inputs, each with one of several fillings, as often as the budget allows; else some,
    /// or all once where the Rust doesn't judge.
    fn scalars(&mut self, case: &Case, result: &Accepted) -> Result<(u64, u64), String> {
        let (range, steps) = (case.range(), result.trace.len() as u64);
        let mut fillings = [[0; 32], [u32::MAX; 32], [0x8010_0000; 32], [0; 32], [0; 32]];
        fillings[3..].iter_mut().flatten().for_each(|value| *value = self.random.word());
        let rounds = (self.budget / (range.lanes() as u64 * steps.max(1))).min(fillings.len() as u64) as usize;
        let mut runs = 0;
        let mut run = |scalar: &mut Scalar, input: u32, filling: &[u32; 32]| {
            runs += 1;
            scalar.agrees(case, input, filling, result).then_some(()).ok_or(format!("scalar run of input {input} with {filling:08x?}"))
        };
        for filling in fillings.iter().take(rounds) {
            range.inputs().try_for_each(|input| run(&mut self.scalar, input, filling))?;
        }
        if rounds == 0 {
            let inputs = if matches!(self.judge, Judge::Manual(_)) { range.inputs().collect() } else { some_inputs(range) };
            for (index, input) in inputs.into_iter().enumerate() {
                run(&mut self.scalar, input, &fillings[index % fillings.len()])?;
            }
        }
        Ok((runs, runs * steps))
    }

    /// Inputs too short for an image: 1, and the rows are zero.
    pub fn short_inputs(&mut self) {
        for (length, soiled) in (0..13).flat_map(|length| [(length, 0), (length, 0x55)]) {
            self.port.soil(AMPLE.rows, soiled);
            let checked = self.port.check(Call::Input(&vec![0x80; length]), AMPLE, &TOO_LARGE, &[], soiled);
            let tally = self.classes.entry("short inputs".into()).or_default();
            tally.cases += 1;
            match checked {
                Ok(()) => *tally.kinds.entry("1".into()).or_default() += 1,
                Err(fault) => {
                    tally.differences += 1;
                    self.told.push(format!("an input of {length} bytes, rows of {soiled:02x}: {fault}"));
                }
            }
        }
    }

    pub fn report(&self) {
        for (class, tally) in &self.classes {
            let kinds: Vec<String> = tally.kinds.iter().map(|(kind, count)| format!("{kind}: {count}")).collect();
            println!("{class}: {}", tally.text());
            println!("    {}", kinds.join(", "));
        }
        let total = self.classes.values().fold(Tally::default(), Tally::add);
        println!("{}", total.text());
        if total.ranges.cases() > 0 && !HAS_RANGES {
            println!("the port was not asked: built for a library without lane_run_range");
        }
        self.told.iter().for_each(|told| println!("DIFFERENCE {told}"));
    }
}
