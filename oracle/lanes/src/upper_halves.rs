//! MULH, MULHSU and MULHU, which the Rust refuses: whole runs whose outcomes were worked out by hand, and runs that check themselves.

use crate::answer::Case;
use crate::asm::*;
use crate::compare::Judge;
use crate::known::{Known, List, Outcome};
use crate::machine::Kind;
use crate::random::Random;

const MANUAL: Judge = Judge::Manual(Kind::Product);

/// Two operands and their MULH, MULHSU, MULHU. The first five are those of the published tests that tell the signings apart.
pub const PAIRS: [(u32, u32, [u32; 3]); 14] = [
    (0x8000_0000, 0xffff_8000, [0x0000_4000, 0x8000_4000, 0x7fff_c000]),
    (0xaaaa_aaab, 0x0002_fe7d, [0xffff_0081, 0xffff_0081, 0x0001_fefe]),
    (0x0002_fe7d, 0xaaaa_aaab, [0xffff_0081, 0x0001_fefe, 0x0001_fefe]),
    (0xff00_0000, 0xff00_0000, [0x0001_0000, 0xff01_0000, 0xfe01_0000]),
    (0xffff_ffff, 0xffff_ffff, [0x0000_0000, 0xffff_ffff, 0xffff_fffe]),
    (0x0000_0000, 0x0000_0000, [0, 0, 0]),
    (0x0000_0003, 0x0000_0007, [0, 0, 0]),
    (0x0000_0000, 0xffff_8000, [0, 0, 0]),
    (0x8000_0000, 0x0000_0000, [0, 0, 0]),
    (0xffff_ffff, 0x0000_0001, [0xffff_ffff, 0xffff_ffff, 0]),
    (0x0000_0001, 0xffff_ffff, [0xffff_ffff, 0, 0]),
    (0x8000_0000, 0x8000_0000, [0x4000_0000, 0xc000_0000, 0x4000_0000]),
    (0x7fff_ffff, 0x7fff_ffff, [0x3fff_ffff, 0x3fff_ffff, 0x3fff_ffff]),
    (0x7fff_ffff, 0x8000_0000, [0xc000_0000, 0x3fff_ffff, 0x3fff_ffff]),
];

const NAMES: [&str; 3] = ["MULH", "MULHSU", "MULHU"];

/// MULH, MULHSU, MULHU for 0, 1, 2.
fn upper(which: usize, rd: u32, rs1: u32, rs2: u32) -> u32 {
    r(1, 1 + which as u32, rd, rs1, rs2)
}

/// x10's upper half by x5 and x5's by x10, returned; `made` is what x10 becomes first.
fn both_orders(list: &mut List, name: &str, made: &[u32], factor: u32, outcomes: [[Outcome; 2]; 3]) {
    for (which, both) in outcomes.into_iter().enumerate() {
        for (order, outcome) in both.into_iter().enumerate() {
            let (rs1, rs2) = if order == 0 { (10, 5) } else { (5, 10) };
            list.add(format!("{} x{rs1}, x{rs2}: {name} and {factor:x}", NAMES[which]), MANUAL, outcome, |code| {
                code.all(made).constant(5, factor).put(upper(which, 10, rs1, rs2)).put(RET);
            });
        }
    }
}

/// Each pair into a third register and into each operand's own.
fn pairs(list: &mut List) {
    for (left, right, results) in PAIRS {
        for (which, result) in results.into_iter().enumerate() {
            for rd in [10, 5, 6] {
                list.add(format!("{} of {left:08x} and {right:08x} into x{rd}", NAMES[which]), MANUAL, Ok(result), |code| {
                    code.constant(5, left).constant(6, right).put(upper(which, rd, 5, 6)).put(addi(10, rd, 0)).put(RET);
                });
            }
        }
    }
}

const UNEVEN: Outcome = Err((7, 6));

/// Lanes that differ, whose upper halves do or don't.
fn lanes(list: &mut List) {
    let (zero, ones) = (Ok(0), Ok(0xffff_ffff));
    both_orders(list, "the input", &[], 3, [[zero; 2]; 3]);
    // 255 times 01010101 is the largest product below 2^32; with one more the last lane alone is past it
    both_orders(list, "the input", &[], 0x0101_0101, [[zero; 2]; 3]);
    both_orders(list, "the input", &[], 0x0101_0102, [[UNEVEN; 2]; 3]);
    // -1 as a signed factor leaves the sign alone, as an unsigned one the input less 1
    both_orders(list, "the input", &[], 0xffff_ffff, [[ones; 2], [UNEVEN, ones], [UNEVEN; 2]]);
    // from input 128 on the sign is set
    let shifted = [c_slli(10, 24)];
    both_orders(list, "the input's byte on top", &shifted, 1, [[UNEVEN; 2], [UNEVEN, zero], [zero; 2]]);
    both_orders(list, "the input's byte on top", &shifted, 0, [[zero; 2]; 3]);
    for (which, name) in NAMES.into_iter().enumerate() {
        list.add(format!("{name} of the input and itself"), MANUAL, zero, |code| {
            code.all(&[upper(which, 10, 10, 10), RET]);
        });
        list.add(format!("{name} of the input's byte on top and itself"), MANUAL, UNEVEN, |code| {
            code.all(&[c_slli(10, 24), upper(which, 10, 10, 10), RET]);
        });
        // an even upper half of differing lanes, as an address, a jump's target and a branch's operand
        list.add(format!("{name} in addresses and control"), MANUAL, Ok(1), |code| {
            code.constant(5, 0x8010_0000).all(&[upper(which, 6, 10, 10), c_add(5, 6), s(2, 5, 10, 0), load(2, 7, 5, 0)]);
            code.all(&[b(1, 6, 0, 8), c_add(6, 1), 0x4505, jalr(0, 6, 0)]);
        });
        list.add(format!("{name} of differing lanes as an address"), MANUAL, Err((7, 3)), |code| {
            code.all(&[c_slli(10, 24), upper(which, 6, 10, 10), load(2, 7, 6, 0)]);
        });
    }
}

/// Unknown operands, and x0 as the destination.
fn unknown(list: &mut List) {
    for (which, name) in NAMES.into_iter().enumerate() {
        for (left, right) in [(11, 10), (10, 11), (11, 0), (0, 11), (11, 11)] {
            list.add(format!("{name} of x{left} and x{right}, returned"), MANUAL, Err((6, 6)), |code| {
                code.all(&[upper(which, 10, left, right), RET]);
            });
            list.add(format!("{name} of x{left} and x{right} into x0"), MANUAL, Ok(0), |code| {
                code.all(&[upper(which, 0, left, right), addi(10, 0, 0), RET]);
            });
        }
        list.add(format!("{name} of -1 and -1 into x0"), MANUAL, Ok(0), |code| {
            code.all(&[addi(5, 0, -1), upper(which, 0, 5, 5), addi(10, 0, 0), RET]);
        });
    }
}

/// The word written past the image and run; and in the image, but never run, where the Rust judges.
fn places(list: &mut List) {
    for (which, name) in NAMES.into_iter().enumerate() {
        let word = upper(which, 10, 6, 6);
        list.add(format!("{name} of written code"), MANUAL, Ok([0, 0xffff_ffff, 0xffff_fffe][which]), |code| {
            code.constant(5, 0x8010_0000).constant(6, word).put(s(2, 5, 6, 0)).constant(6, RET).put(s(2, 5, 6, 4));
            code.all(&[addi(6, 0, -1), jalr(0, 5, 0)]);
        });
        list.add(format!("{name} jumped over"), Judge::Rust, Ok(1), |code| {
            code.all(&[j(0, 8), word, 0x4505, RET]);
        });
        list.add(format!("{name} behind the end"), Judge::Rust, Ok(1), |code| {
            code.all(&[0x4505, RET, word]);
        });
        list.add(format!("{name} as data"), Judge::Rust, Ok(word), |code| {
            code.all(&[0x17 | 5 << 7, load(2, 10, 5, 10), RET, word]);
        });
        list.add(format!("{name} behind an unknown branch"), Judge::Rust, Err((6, 5)), |code| {
            code.all(&[b(0, 11, 0, 4), word, 0x4505, RET]);
        });
    }
}

/// A number, or lanes: the input times a number, plus a number.
fn operand(code: &mut Code, rd: u32, random: &mut Random) {
    code.constant(rd, random.number());
    if random.chance(60) {
        code.put(r(1, 0, rd, rd, 10)).put(addi(rd, rd, random.within(-2048, 2047)));
    }
}

/// x11 becomes the upper half of x5 times x6, from products of their 16-bit halves, by operations that the Rust has too. That is MULHU;
/// a negative factor read as unsigned is 2^32 too large, so for a signed one the other factor is taken off.
fn by_halves(which: usize) -> Vec<u32> {
    let (srli, srai) = (|rd, rs1, by| i(0x13, 5, rd, rs1, by), |rd, rs1, by| i(0x13, 5, rd, rs1, 0x400 | by));
    let (add, sub, mul) = (|rd, a, b| r(0, 0, rd, a, b), |rd, a, b| r(0x20, 0, rd, a, b), |rd, a, b| r(1, 0, rd, a, b));
    let low = |rd, rs1| [addi(rd, rs1, 0), c_slli(rd, 16), srli(rd, rd, 16)];
    let negative = |rs1, other| [srai(12, rs1, 31), r(0, 7, 12, 12, other), sub(11, 11, 12)];
    let mut words = [low(7, 5), low(28, 6)].concat();
    words.extend([srli(29, 5, 16), srli(30, 6, 16)]);
    words.extend([mul(11, 7, 28), srli(11, 11, 16), mul(12, 29, 28), add(11, 11, 12)]);
    words.extend(low(12, 11));
    words.extend([mul(13, 7, 30), add(12, 12, 13), srli(12, 12, 16), srli(11, 11, 16), add(11, 11, 12), mul(12, 29, 30), add(11, 11, 12)]);
    if which < 2 {
        words.extend(negative(5, 6));
    }
    if which < 1 {
        words.extend(negative(6, 5));
    }
    words
}

/// Any operands, mostly lanes that differ: the word's result less what the halves give is 0 in every lane.
pub fn checked(random: &mut Random) -> Known {
    let which = random.below(3) as usize;
    let mut code = Code::default();
    operand(&mut code, 5, random);
    operand(&mut code, 6, random);
    code.all(&by_halves(which)).all(&[upper(which, 10, 5, 6), r(0x20, 0, 10, 10, 11), RET]);
    Known::new(format!("{} and halves", NAMES[which]), Case::plain(code.0), MANUAL, Ok(0))
}

pub fn known() -> Vec<Known> {
    let mut list = List::default();
    pairs(&mut list);
    lanes(&mut list);
    unknown(&mut list);
    places(&mut list);
    list.0
}
