//! Hints and C.LUI into x1, which the Rust refuses: whole runs whose outcomes were worked out by hand, each of the 284 halfwords in one,
//! and the halfwords beside them that stay as they were.

use crate::asm::*;
use crate::compare::Judge;
use crate::known::{Known, List};
use crate::machine::Kind;
use crate::random::Random;

const HINT: Judge = Judge::Manual(Kind::Hint);
const LUI_X1: Judge = Judge::Manual(Kind::LuiX1);

/// C.LI x10, 1 and the return, and the words they expand to.
const END: [u32; 2] = [0x4505, RET];
const END_WORDS: [u32; 2] = [0x0010_0513, 0x0000_8067];

/// A halfword with its name and its expansion.
type Named = (String, u32, u32);

fn nonzero_immediates() -> impl Iterator<Item = i32> {
    (-32..32).filter(|imm| *imm != 0)
}

/// All 221, from their operands.
fn hints() -> Vec<Named> {
    let li = (-32..32).map(|imm| (format!("C.LI x0, {imm}"), c_li(0, imm), addi(0, 0, imm)));
    let lui = nonzero_immediates().map(|imm| (format!("C.LUI x0, {imm}"), c_lui(0, imm), lui(0, (imm << 12) as u32)));
    let slli = (0..32).map(|by| (format!("C.SLLI x0, {by}"), c_slli(0, by), i(0x13, 1, 0, 0, by as i32)));
    let mv = (1..32).map(|rs2| (format!("C.MV x0, x{rs2}"), c_mv(0, rs2), r(0, 0, 0, 0, rs2)));
    let add = (1..32).map(|rs2| (format!("C.ADD x0, x{rs2}"), c_add(0, rs2), r(0, 0, 0, 0, rs2)));
    li.chain(lui).chain(slli).chain(mv).chain(add).collect()
}

/// One of each, with x1, the input and an unknown register as what is moved or added.
fn some() -> Vec<(String, u32)> {
    let mut some = vec![
        ("C.LI x0, -1".into(), c_li(0, -1)),
        ("C.LUI x0, -1".into(), c_lui(0, -1)),
        ("C.SLLI x0, 0".into(), c_slli(0, 0)),
        ("C.SLLI x0, 31".into(), c_slli(0, 31)),
    ];
    for rs2 in [1, 10, 11] {
        some.push((format!("C.MV x0, x{rs2}"), c_mv(0, rs2)));
        some.push((format!("C.ADD x0, x{rs2}"), c_add(0, rs2)));
    }
    some
}

/// Each halfword once: a hint leaves nothing but its step, C.LUI into x1 its number there.
fn each(list: &mut List) {
    for (name, hint, word) in hints() {
        let known = list.add(name, HINT, Ok(1), |code| {
            code.put(hint).all(&END);
        });
        known.words = Some([&[word][..], &END_WORDS].concat());
    }
    for imm in nonzero_immediates() {
        let number = (imm << 12) as u32;
        let known = list.add(format!("C.LUI x1, {imm}"), LUI_X1, Ok(number), |code| {
            code.all(&[c_mv(5, 1), c_lui(1, imm), c_mv(10, 1), c_jr(5)]);
        });
        known.words = Some(vec![r(0, 0, 5, 0, 1), lui(1, number), r(0, 0, 10, 0, 1), jalr(0, 5, 0)]);
    }
}

/// What a hint leaves alone, and what follows one.
fn effects(list: &mut List) {
    for (name, hint) in some() {
        list.add(format!("x0 after {name}"), HINT, Ok(0), |code| {
            code.all(&[hint, addi(10, 0, 0), RET]);
        });
        list.add(format!("the input after {name}"), HINT, Err((7, 6)), |code| {
            code.all(&[hint, RET]);
        });
        list.add(format!("zeros after {name}"), HINT, Err((8, 0)), |code| {
            code.all(&[hint, 0]);
        });
    }
    // x1 leads to 00001000 and to fffe0000
    for (imm, number) in [(1, 4), (-32, 5)] {
        let known = list.add(format!("the return by C.LUI x1, {imm}"), LUI_X1, Err((number, 0)), |code| {
            code.put(c_lui(1, imm)).all(&END);
        });
        known.words = Some([&[lui(1, (imm << 12) as u32)][..], &END_WORDS].concat());
    }
}

/// Written past the image and run, or reached in the upper half of a word; and in the image, but never run, where the Rust judges.
fn places(list: &mut List) {
    let mut all: Vec<_> = some().into_iter().map(|(name, hint)| (name, hint, HINT)).collect();
    all.push(("C.LUI x1, -1".into(), c_lui(1, -1), LUI_X1));
    for (name, halfword, judge) in all {
        list.add(format!("{name} of written code"), judge, Ok(1), |code| {
            code.constant(5, 0x8010_0000).constant(6, c_jr(9) << 16 | halfword).all(&[s(2, 5, 6, 0), c_mv(9, 1), 0x4505, jalr(0, 5, 0)]);
        });
        list.add(format!("{name} with lanes in its upper byte"), Judge::Rust, Err((7, 1)), |code| {
            code.constant(5, 0x8010_0000).constant(6, halfword).all(&[s(2, 5, 6, 0), s(0, 5, 10, 1), jalr(0, 5, 0)]);
        });
        // LUI x10 with the halfword above it: run from the middle, and whole
        let word = halfword << 16 | 10 << 7 | 0x37;
        list.add(format!("{name} in a word's upper half"), judge, Ok(1), |code| {
            code.all(&[c_mv(9, 1), j(0, 6), word, 0x4505, c_jr(9)]);
        });
        list.add(format!("{name} as a word's upper half"), Judge::Rust, Ok(halfword << 16), |code| {
            code.all(&[word, RET]);
        });
        list.add(format!("{name} jumped over"), Judge::Rust, Ok(1), |code| {
            code.put(j(0, 6)).put(halfword).all(&END);
        });
        list.add(format!("{name} behind the end"), Judge::Rust, Ok(1), |code| {
            code.all(&END).put(halfword);
        });
        list.add(format!("{name} as data"), Judge::Rust, Ok(halfword), |code| {
            code.all(&[0x17 | 5 << 7, load(5, 10, 5, 10), RET, halfword]);
        });
        list.add(format!("{name} behind an unknown branch"), Judge::Rust, Err((6, 5)), |code| {
            code.put(b(0, 11, 0, 4)).put(halfword).all(&END);
        });
    }
}

/// Halfwords beside them that are refused, by the Rust and after a hint alike.
fn refused_neighbours(list: &mut List) {
    let refused = [
        ("zeros", 0),
        ("C.LUI x0, 0", c_lui(0, 0)),
        ("C.LUI x1, 0", c_lui(1, 0)),
        ("C.LUI x3, 0", c_lui(3, 0)),
        ("C.ADDI16SP 0", 0x6101),
        ("C.JR x0", c_jr(0)),
        ("C.LWSP x0, 0", c_lwsp(0, 0)),
        ("C.LWSP x0, 252", c_lwsp(0, 252)),
        ("C.SLLI x0, 32", 0x1000 | c_slli(0, 0)),
        ("C.SLLI x0, 63", 0x1000 | c_slli(0, 31)),
        ("C.SLLI x1, 32", 0x1000 | c_slli(1, 0)),
    ];
    for (name, halfword) in refused {
        let known = list.add(name.into(), Judge::Rust, Err((8, 0)), |code| {
            code.put(halfword).all(&END);
        });
        known.words = Some(Vec::new());
        let known = list.add(format!("{name} after a hint"), HINT, Err((8, 0)), |code| {
            code.all(&[c_li(0, 0), halfword]).all(&END);
        });
        known.words = Some(vec![addi(0, 0, 0)]);
    }
}

/// C.EBREAK where C.ADD x0, x0 would be, and the hints that the Rust takes too.
fn other_neighbours(list: &mut List) {
    list.add("C.EBREAK".into(), Judge::Rust, Err((9, 0)), |code| {
        code.put(c_jalr(0)).all(&END);
    });
    for (name, halfword) in [
        ("C.NOP with 5", c_addi(0, 5)),
        ("C.ADDI x5, 0", c_addi(5, 0)),
        ("C.SLLI x5, 0", c_slli(5, 0)),
        ("C.SRLI x8, 0", c_shift(0, 8, 0)),
        ("C.SRAI x8, 0", c_shift(1, 8, 0)),
    ] {
        list.add(name.into(), Judge::Rust, Ok(1), |code| {
            code.put(halfword).all(&END);
        });
    }
}

/// Any of the 221.
pub fn any(random: &mut Random) -> u32 {
    match random.below(5) {
        0 => c_li(0, random.within(-32, 31)),
        1 => c_lui(0, immediate(random)),
        2 => c_slli(0, random.below(32)),
        3 => c_mv(0, 1 + random.below(31)),
        _ => c_add(0, 1 + random.below(31)),
    }
}

/// Any immediate that C.LUI takes: all but 0.
pub fn immediate(random: &mut Random) -> i32 {
    match random.within(-32, 30) {
        imm @ 0.. => imm + 1,
        imm => imm,
    }
}

pub fn known() -> Vec<Known> {
    let mut list = List::default();
    each(&mut list);
    effects(&mut list);
    places(&mut list);
    refused_neighbours(&mut list);
    other_neighbours(&mut list);
    list.0
}
