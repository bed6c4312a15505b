//! Cases over chosen ranges: any range, runs whose outcomes were worked out by hand, and each of all ranges by its ends.

use crate::answer::Case;
use crate::asm::*;
use crate::boundaries::AMPLE;
use crate::compare::Judge;
use crate::known::{Known, List, Outcome};
use crate::machine::{MAX_IMAGE, STOP};
use crate::port::{Lent, ROW};
use crate::random::Random;
use crate::range::InputRange;

const EDGES: [(u8, u8); 14] = [
    (0, 255),
    (0, 0),
    (255, 255),
    (7, 7),
    (12, 255),
    (6, 255),
    (5, 4),
    (255, 0),
    (0, 11),
    (0, 254),
    (1, 255),
    (254, 255),
    (0, 1),
    (127, 128),
];

/// All lanes and one, for runs too long to be many.
pub const EXTREMES: [InputRange; 2] = [InputRange { first: 0, last: 255 }, InputRange { first: 7, last: 7 }];

/// Any range: about half end at 255, a tenth are 6 to 255, and one or two lanes, 256 and none come up often.
pub fn any(random: &mut Random) -> InputRange {
    let (one, other) = (random.word() as u8, random.word() as u8);
    let (first, last) = match random.below(20) {
        0..=5 => (one, 255),
        6 | 7 => (6, 255),
        8..=11 => *random.pick(&EDGES),
        12 | 13 => (one, one),
        14 | 15 => (one, one.saturating_add(1)),
        16 => (one, other),
        _ => (one.min(other), one.max(other)),
    };
    InputRange { first, last }
}

/// 17 is the model's to judge, all else the Rust's.
fn judge(outcome: Outcome) -> Judge {
    if outcome == Err((17, 0)) { Judge::Model } else { Judge::Rust }
}

fn over<'a>(list: &'a mut List, name: &str, (first, last): (u8, u8), outcome: Outcome, code: &[u32]) -> &'a mut Known {
    let known = list.add(format!("{name} over {first}-{last}"), judge(outcome), outcome, |made| {
        made.all(code);
    });
    known.case.chosen = Some(InputRange { first, last });
    known
}

/// The bytes of a text in hexadecimal; blanks are for the eye.
fn bytes(hexadecimal: &str) -> Vec<u8> {
    let digits: Vec<u32> = hexadecimal.chars().filter_map(|digit| digit.to_digit(16)).collect();
    digits.chunks(2).map(|pair| (pair[0] << 4 | pair[1]) as u8).collect()
}

const UNEVEN: Outcome = Err((7, 6));
const FIRST_ABOVE_LAST: Outcome = Err((17, 0));
/// C.LI x10, 1 and the return.
const END: [u32; 2] = [0x4505, RET];
const SLTIU_12: [u32; 2] = [0x00c5_3513, RET];

/// Runs that have ended before their first step.
fn at_stop(list: &mut List) {
    for (range, outcome, record) in [
        ((7, 7), Ok(7), "01 07 0100 07000000 00000000 00000000 04000000 00"),
        ((0, 0), Ok(0), "01 00 0100 00000000 00000000 00000000 04000000 00"),
        ((255, 255), Ok(255), "01 ff 0100 ff000000 00000000 00000000 04000000 00"),
        ((7, 8), UNEVEN, "7f 07 06 00000000"),
        ((6, 255), UNEVEN, "7f 07 06 00000000"),
        ((0, 255), UNEVEN, "7f 07 06 00000000"),
        ((5, 4), FIRST_ABOVE_LAST, ""),
    ] {
        let known = over(list, "entry at stop", range, outcome, &END);
        known.case.entry = STOP;
        (known.words, known.record) = (Some(Vec::new()), Some(bytes(record)));
    }
    // rows, entries and output to the byte
    for (lent, outcome) in [
        (Lent { rows: 4 * ROW, trace: 0, output: 21 }, Ok(7)),
        (Lent { rows: 4 * ROW, trace: 12, output: 20 }, Ok(7)),
        (Lent { rows: 4 * ROW - 1, ..AMPLE }, Err((13, 0))),
    ] {
        let known = over(list, &format!("entry at stop, {lent:?},"), (7, 7), outcome, &END);
        known.case.entry = STOP;
        known.lent = lent;
    }
    // the event count's word, in the image and at stop
    let count = |image: &[u8], event_count| Case { entry: STOP, event_count, ..Case::plain(image.to_vec()) };
    for (name, case, outcome) in [
        ("0 told by the image", count(&[0, 0, 0, 0, 1], 0x8000_0000), Ok(7)),
        ("1 told by the image", count(&[1, 0, 0, 0], 0x8000_0000), Err((12, 0))),
        ("1 told by the image's one byte", count(&[1], 0x8000_0000), Err((12, 0))),
        ("256 told by the image", count(&[0, 1], 0x8000_0000), Err((12, 0))),
        ("stop's word as the count", count(&[0], STOP), Err((12, 0))),
        ("a count past the end", count(&[0], STOP + 1), Err((5, 0))),
    ] {
        let known = over(list, &format!("entry at stop, {name},"), (7, 7), outcome, &[]);
        known.case = Case { chosen: known.case.chosen, ..case };
        known.words = Some(Vec::new());
    }
}

/// First above last: after 1 and 2, before all else, whatever is lent.
fn above_last(list: &mut List) {
    let ranges = [(5, 4), (1, 0), (255, 0), (255, 254), (6, 5), (12, 6)];
    let few = [AMPLE, Lent { rows: 3 * ROW, ..AMPLE }, Lent { rows: 100, trace: 5, output: 6 }, Lent { rows: 0, trace: 0, output: 0 }];
    for (range, lent) in ranges.into_iter().flat_map(|range| few.map(|lent| (range, lent))) {
        let known = over(list, &format!("the example, {lent:?},"), range, FIRST_ABOVE_LAST, &END);
        known.lent = lent;
        for (place, outside) in (0..3).flat_map(|place| [0, 0x7fff_ffff, 0x8020_0000].map(|outside| (place, outside))) {
            let known = over(list, &format!("symbol {place} at {outside:x}, {lent:?},"), range, Err((2, 0)), &END);
            known.lent = lent;
            let Case { entry, event_count, events, .. } = &mut known.case;
            *[entry, event_count, events][place] = outside;
        }
        for (size, outcome) in [(0, Err((1, 0))), (MAX_IMAGE, FIRST_ABOVE_LAST), (MAX_IMAGE + 1, Err((1, 0)))] {
            let known = over(list, &format!("image of {size} bytes, {lent:?},"), range, outcome, &END);
            known.lent = lent;
            known.case.image.resize(size, 0);
        }
    }
    let both = over(list, "no image and a symbol outside", (5, 4), Err((1, 0)), &[]);
    both.case.events = 0;
}

/// Records of runs that reach their end over few lanes, many and all.
fn ended(list: &mut List) {
    let example = "0300000080 13051000 02 02000080 0302000080 67800000 02 fcff1f80";
    for (range, first_item) in [
        ((0, 255), "01 00 0001 01000000 02000000 00020000 04000000 00"),
        ((6, 255), "01 06 fa00 01000000 02000000 f4010000 04000000 00"),
        ((12, 255), "01 0c f400 01000000 02000000 e8010000 04000000 00"),
        ((0, 0), "01 00 0100 01000000 02000000 02000000 04000000 00"),
        ((255, 255), "01 ff 0100 01000000 02000000 02000000 04000000 00"),
        ((254, 255), "01 fe 0200 01000000 02000000 04000000 04000000 00"),
    ] {
        over(list, "the example", range, Ok(1), &END).record = Some(bytes(&(first_item.to_string() + example)));
    }
    for (range, outcome, record) in [
        ((12, 255), Ok(0), "01 0c f400 00000000 02000000 e8010000 04000000 00"),
        ((11, 255), UNEVEN, "7f 07 06 02000000"),
        ((0, 11), Ok(1), "01 00 0c00 01000000 02000000 18000000 04000000 00"),
        ((0, 12), UNEVEN, "7f 07 06 02000000"),
        ((11, 11), Ok(1), "01 0b 0100 01000000 02000000 02000000 04000000 00"),
        ((12, 12), Ok(0), "01 0c 0100 00000000 02000000 02000000 04000000 00"),
        ((12, 11), FIRST_ABOVE_LAST, ""),
    ] {
        over(list, "SLTIU 12", range, outcome, &SLTIU_12).record = Some(bytes(record));
    }
    for (range, outcome) in [((0, 0), Ok(0)), ((255, 255), Ok(255)), ((7, 7), Ok(7)), ((0, 1), UNEVEN), ((254, 255), UNEVEN)] {
        over(list, "the input returned", range, outcome, &[RET]);
    }
}

/// What more than one lane is refused for, and one lane is not, since it agrees with itself.
fn alone(list: &mut List) {
    let base = [lui(5, 0x8010_0000), c_add(5, 10)];
    // BEQ with 7 leads past two C.EBREAKs
    let branch = [addi(5, 0, 7), b(0, 10, 5, 8), 0x9002, 0x9002, 0x4505, RET];
    for (range, outcome) in [((7, 7), Ok(1)), ((8, 8), Err((9, 0))), ((7, 8), Err((7, 5)))] {
        over(list, "a branch on the input", range, outcome, &branch);
    }
    // bytes 6 and 7 of the image are the first two of LBU x10, 0(x5)
    let load_at = [lui(5, 0x8000_0000), c_add(5, 10), load(4, 10, 5, 0), RET];
    for (range, outcome) in [((6, 6), Ok(0x03)), ((7, 7), Ok(0xc5)), ((6, 7), Err((7, 3)))] {
        over(list, "a load at the input", range, outcome, &load_at);
    }
    let store_at = [base[0], base[1], s(0, 5, 10, 0), load(4, 10, 5, 0), RET];
    over(list, "a store at the input", (7, 7), Ok(7), &store_at).record = Some(bytes("01 07 0100 07000000 05000000 05000000 05000000 00"));
    over(list, "a store at the input", (7, 8), Err((7, 4)), &store_at);
    // past the JALR at 6 lie C.LI at 10 and the return at 12; bit 0 of the target is cleared
    let jump = [0x17 | 5 << 7, c_add(5, 10), jalr(0, 5, 4), 0x4505, RET];
    for (range, outcome) in [((6, 6), Ok(1)), ((6, 7), Ok(1)), ((8, 9), UNEVEN), ((9, 9), Ok(9)), ((7, 8), Err((7, 2)))] {
        over(list, "a jump by the input", range, outcome, &jump);
    }
    // ADDI x10, x0 with the input as its immediate, written past the image
    let mut fetch = Code::default();
    fetch.put(lui(5, 0x8010_0000)).constant(6, addi(10, 0, 0)).all(&[i(0x13, 1, 7, 10, 20), c_add(6, 7), s(2, 5, 6, 0)]);
    fetch.constant(6, RET).all(&[s(2, 5, 6, 4), jalr(0, 5, 0)]);
    for (range, outcome) in [((7, 7), Ok(7)), ((255, 255), Ok(255)), ((7, 8), Err((7, 1)))] {
        over(list, "the input in written code", range, outcome, &[]).case.image = fetch.0.clone();
    }
    // knowing one lane makes no register known
    for range in [(7, 7), (7, 8)] {
        over(list, "an unknown register returned", range, Err((6, 6)), &[c_mv(10, 11), RET]);
        over(list, "an unknown register XOR itself", range, Err((6, 6)), &[r(0, 4, 10, 11, 11), RET]);
        over(list, "a branch on an unknown register", range, Err((6, 5)), &[b(0, 11, 11, 4), 0x4505, RET]);
    }
}

/// An event whose numbers are the input, and the input as the count.
fn events(list: &mut List) {
    for (part, role) in [(0, 8), (1, 9), (2, 10)] {
        let store = s(2, 5, 10, 4 + 4 * part);
        let code = [lui(5, 0x8011_0000), store, addi(6, 0, 1), s(2, 5, 6, 0), 0x4505, RET];
        let known = over(list, &format!("the input as an event's number {part}"), (7, 7), Ok(1), &code);
        let mut event = [0; 3];
        event[part as usize] = 7;
        let [operation, offset, value] = event;
        let event = format!("02 {operation:02x}000000 {offset:02x}000000 {value:02x}000000 0c000080");
        known.record = Some(bytes(&("01 07 0100 01000000 06000000 06000000 0c000000 01".to_string() + &event)));
        over(list, &format!("the input as an event's number {part}"), (7, 8), Err((7, role)), &code);
    }
    let code = [lui(5, 0x8011_0000), s(2, 5, 10, 0), 0x4505, RET];
    for (range, outcome) in [((1, 1), Ok(1)), ((0, 0), Err((12, 0))), ((2, 2), Err((12, 0))), ((1, 2), Err((7, 7)))] {
        over(list, "the input as the event count", range, outcome, &code);
    }
}

pub fn known() -> Vec<Known> {
    let mut list = List::default();
    at_stop(&mut list);
    above_last(&mut list);
    ended(&mut list);
    alone(&mut list);
    events(&mut list);
    list.0
}

/// All 65,536 pairs of a first and a last input: SLTIU by each end and by the number after it, where one lane too few or too many tells.
pub fn each() -> impl Iterator<Item = Known> {
    let ranges = (0..=255).flat_map(|first| (0..=255).map(move |last| InputRange { first, last }));
    ranges.flat_map(|range| {
        let (first, last) = (u32::from(range.first), u32::from(range.last));
        let mut bounds = if range.is_empty() { vec![first] } else { vec![first, first + 1, last, last + 1] };
        bounds.sort();
        bounds.dedup();
        bounds.into_iter().map(move |bound| {
            let outcome = match bound {
                _ if range.is_empty() => FIRST_ABOVE_LAST,
                _ if bound <= first => Ok(0),
                _ if bound > last => Ok(1),
                _ => UNEVEN,
            };
            let case = Case { chosen: Some(range), ..Case::plain(code(&[i(0x13, 3, 10, 10, bound as i32), RET])) };
            Known::new(format!("SLTIU {bound}"), case, judge(outcome), outcome)
        })
    })
}
