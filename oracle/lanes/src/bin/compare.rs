//! compare [SEED [CASES [BUDGET [CLASSES [PARTS]]]]]: the boundaries, runs of a million steps, every halfword, flips around every row, then
//! CASES from the seed, mostly streams and damaged copies of them; first over 6 to 255, then each over a range of its own. BUDGET: scalar
//! steps for one accepted image. CLASSES: some of boundaries,steps,halfwords,flips,seeded. PARTS: some of 6-255,ranges.
//! Ends with status 1 where anything differs.

use lanes::answer::Case;
use lanes::asm::ROWS;
use lanes::boundaries::{self, AMPLE};
use lanes::cases::{self, Domain};
use lanes::compare::{Comparer, PATIENCE};
use lanes::hints;
use lanes::known::Known;
use lanes::port::{ENTRY, Lent, ROW};
use lanes::quotients;
use lanes::random::Random;
use lanes::range::InputRange;
use lanes::range_cases;
use lanes::upper_halves;

/// The comparison over 6 to 255 by `lane_run`, or over chosen ranges.
struct Part {
    comparer: Comparer,
    random: Random,
    ranges: bool,
}

impl Part {
    fn range(&mut self) -> Option<InputRange> {
        self.ranges.then(|| range_cases::any(&mut self.random))
    }

    fn compare(&mut self, class: &str, name: &str, case: Case, lent: Lent) {
        let chosen = self.range();
        self.comparer.compare(class, name, &Case { chosen, ..case }, lent);
    }

    /// The outcomes were worked out for 6 to 255; over another range it is a case like others.
    fn expect_all(&mut self, class: &str, all: Vec<Known>) {
        for known in all {
            if self.ranges {
                self.compare(class, &known.name, known.case, known.lent);
            } else {
                self.comparer.expect(class, &known);
            }
        }
    }

    fn edges(&mut self) {
        if !self.ranges {
            self.comparer.short_inputs();
        }
        for bound in boundaries::short() {
            self.compare("boundaries", &bound.name, bound.case, bound.lent);
        }
        self.expect_all("upper halves", upper_halves::known());
        self.expect_all("hints", hints::known());
        self.expect_all("quotients", quotients::known());
        if self.ranges {
            range_cases::known().iter().for_each(|known| self.comparer.expect("worked out for a range", known));
            range_cases::each().for_each(|known| self.comparer.expect("every range", &known));
        }
    }

    fn steps(&mut self) {
        self.comparer.patience = usize::MAX;
        let chosen = if self.ranges { range_cases::EXTREMES.map(Some).to_vec() } else { vec![None] };
        for (bound, chosen) in boundaries::steps().iter().flat_map(|bound| chosen.iter().map(move |chosen| (bound, *chosen))) {
            self.comparer.compare("a million steps", &bound.name, &Case { chosen, ..bound.case.clone() }, bound.lent);
        }
        self.comparer.patience = PATIENCE;
    }

    fn halfwords(&mut self) {
        for halfword in 0..0x1_0000 {
            for variant in 0..3 {
                let case = cases::halfword(halfword, variant, &mut self.random);
                self.compare("halfwords", &format!("{halfword:04x} variant {variant}"), case, AMPLE);
            }
        }
    }

    fn flips(&mut self) {
        for row in 0..ROWS.len() {
            for flip in 0..33 {
                for _ in 0..20 {
                    let case = cases::flipped(row, flip, &mut self.random);
                    self.compare("flips", &format!("row {row} bit {flip}"), case, AMPLE);
                }
            }
        }
    }

    fn seeded(&mut self, index: u64) {
        let chosen = self.range();
        let random = &mut self.random;
        let lent = lent(random);
        // most streams stay in the Rust's domain
        let domain = if random.chance(50) { Domain::Manual } else { Domain::Rust };
        let (class, case) = match random.below(20) {
            0..=9 => ("streams", cases::stream(domain, chosen, random)),
            10..=16 => ("damaged", cases::damaged(cases::stream(domain, chosen, random), random)),
            17 => return self.comparer.expect("checked products", &upper_halves::checked(random).over(chosen)),
            _ => ("any", cases::any(random)),
        };
        self.comparer.compare(class, &index.to_string(), &Case { chosen, ..case }, lent);
    }
}

/// Now and then short of rows, entries or output.
fn lent(random: &mut Random) -> Lent {
    let mut lent = AMPLE;
    if random.chance(5) {
        lent.rows = random.below(40) as usize * ROW + random.below(264) as usize;
    }
    if random.chance(5) {
        lent.trace = random.below(100) as usize * ENTRY + random.below(13) as usize;
    }
    if random.chance(3) {
        lent.output = random.below(2000) as usize;
    }
    lent
}

type Class = (&'static str, fn(&mut Part));

/// Classes that are the same for every seed, but for numbers.
const FIXED: [Class; 4] = [("boundaries", Part::edges), ("steps", Part::steps), ("halfwords", Part::halfwords), ("flips", Part::flips)];

fn main() {
    let words: Vec<String> = std::env::args().skip(1).collect();
    let number = |at: usize, otherwise: u64| words.get(at).map_or(otherwise, |word| word.parse().expect("a number"));
    let asked = |at: usize, name: &str| words.get(at).is_none_or(|names| names.split(',').any(|one| one == name));
    let mut differences = 0;
    for (name, ranges) in [("6-255", false), ("ranges", true)] {
        if !asked(4, name) {
            continue;
        }
        let seed = number(0, 1);
        let part = &mut Part { comparer: Comparer::new(seed, number(2, 30_000)), random: Random::new(seed), ranges };
        FIXED.into_iter().filter(|(class, _)| asked(3, class)).for_each(|(_, run)| run(part));
        if asked(3, "seeded") {
            (0..number(1, 20_000)).for_each(|index| part.seeded(index));
        }
        println!("{name}:");
        part.comparer.report();
        differences += part.comparer.differences();
    }
    std::process::exit((differences != 0) as i32);
}
