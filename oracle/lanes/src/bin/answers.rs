//! answers: some hundred of the Rust's answers, to standard output, for a program to replay with 200 rows and 2,048 entries.
//! All numbers are little-endian u32. First the number of cases; then for each the length of its input and the input (entry, event
//! count, events, image: what `lane-run` reads), the length of its record and the record. No answer needs more memory than that, so
//! none is 13 or 14; nor 3, which takes 1,000,000 entries; nor does any run fetch what is outside the Rust's domain. How many there are of
//! each kind goes to standard error.

use lanes::answer::{Answer, Case};
use lanes::boundaries;
use lanes::cases::{self, Domain};
use lanes::compare::{Comparer, Judge};
use lanes::machine::Kind;
use lanes::port::{ENTRY, Lent, ROW};
use lanes::random::Random;
use std::collections::BTreeMap;
use std::io::Write;

const LENT: Lent = Lent { rows: 200 * ROW, trace: 2048 * ENTRY, output: 80_000 };
/// Enough of a kind, of each source.
const OF_A_KIND: usize = 8;
const ACCEPTED: usize = 40;

struct List {
    comparer: Comparer,
    kinds: BTreeMap<String, usize>,
    cases: Vec<(Vec<u8>, Vec<u8>)>,
    /// How many were left out since the Rust doesn't judge them.
    outside: usize,
}

impl List {
    /// Takes a new case whose answer is short, until there are enough of its kind.
    fn offer(&mut self, source: &str, case: &Case) {
        if case.image.len() > 600 || self.cases.iter().any(|(input, _)| *input == case.input()) {
            return;
        }
        let Some(answer) = self.comparer.compare(source, "", case, LENT) else { return };
        let brief = match &answer {
            Answer::Refused { number, .. } => *number < 13,
            Answer::Accepted(result) => result.trace.len() <= 100,
        };
        // outside its domain the Rust says 8 or 9: counted as that, so that none is taken in its place and the list's others stay
        let (outside, kind) = match self.comparer.judge {
            Judge::Manual(Kind::Product) => (true, "9".into()),
            Judge::Manual(Kind::Hint | Kind::LuiX1) => (true, "8".into()),
            _ => (false, answer.kind()),
        };
        let taken = self.kinds.entry(format!("{source} {kind}")).or_default();
        if (outside || brief && self.comparer.enough) && *taken < if kind == "accepted" { ACCEPTED } else { OF_A_KIND } {
            *taken += 1;
            if outside {
                self.outside += 1;
            } else {
                self.cases.push((case.input(), answer.record().expect("number 14 at most")));
            }
        }
    }
}

fn main() -> std::io::Result<()> {
    let mut list = List { comparer: Comparer::new(1, 10_000), kinds: BTreeMap::new(), cases: Vec::new(), outside: 0 };
    let random = &mut Random::new(1);
    // every seventh first, so that a kind's few come from all over
    let bounds = boundaries::short();
    for start in 0..7 {
        bounds.iter().skip(start).step_by(7).for_each(|bound| list.offer("edge", &bound.case));
    }
    for _ in 0..2_000 {
        let case = cases::stream(Domain::Rust, None, random);
        list.offer("stream", &case);
        list.offer("damaged", &cases::damaged(case, random));
    }
    let mut bytes = (list.cases.len() as u32).to_le_bytes().to_vec();
    for (input, record) in &list.cases {
        for part in [input, record] {
            bytes.extend((part.len() as u32).to_le_bytes());
            bytes.extend(part);
        }
    }
    std::io::stdout().write_all(&bytes)?;
    let kinds: Vec<String> = list.kinds.iter().filter(|(_, count)| **count > 0).map(|(kind, count)| format!("{kind}: {count}")).collect();
    eprintln!("{} cases, {} bytes, {} left out; with those {}", list.cases.len(), bytes.len(), list.outside, kinds.join(", "));
    assert!(list.comparer.differences() == 0, "the port or the model differs from the Rust: {:?}", list.comparer.told);
    Ok(())
}
