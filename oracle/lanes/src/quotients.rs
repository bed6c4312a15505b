//! DIVU by 0, each power of two and the numbers beside it, in all lanes or all but one: whole runs whose outcomes were worked out.

use crate::asm::*;
use crate::compare::Judge;
use crate::known::{Known, List};

fn divu(rd: u32, rs1: u32, rs2: u32) -> u32 {
    r(1, 5, rd, rs1, rs2)
}

/// Returns what is 0 in every lane: x5 less its quotient by x6 times x6 and less its remainder, and whether the quotient is above x5 shifted by `places`,
/// as it would be with wrong upper bits, which the product loses.
fn checked(code: &mut Code, places: Option<u32>) {
    code.all(&[divu(11, 5, 6), r(1, 7, 12, 5, 6), r(1, 0, 13, 11, 6), r(0x20, 0, 14, 5, 13), r(0x20, 0, 14, 14, 12)]);
    if let Some(places) = places {
        code.all(&[i(0x13, 5, 15, 5, places as i32), r(0, 3, 15, 15, 11), r(0, 6, 14, 14, 15)]);
    }
    code.put(c_mv(10, 14)).put(RET);
}

/// Words that are the same in every lane, returned.
fn words(list: &mut List, divisor: u32) {
    for dividend in [0, 1, divisor.wrapping_sub(1), divisor, divisor.wrapping_add(1), 0x7fff_ffff, 0x8000_0000, u32::MAX] {
        let quotient = dividend.checked_div(divisor).unwrap_or(u32::MAX);
        list.add(format!("{dividend:08x} by {divisor:08x}"), Judge::Rust, Ok(quotient), |code| {
            code.constant(5, dividend).constant(6, divisor).put(divu(10, 5, 6)).put(RET);
        });
    }
}

/// Lanes that differ, by the divisor in every lane, or by one more for one input.
fn lanes(list: &mut List, divisor: u32) {
    for factor in [1, 0x0101_0101, 0x9e37_79b1, u32::MAX] {
        for unlike in [None, Some(6), Some(7), Some(255)] {
            let name = format!("{factor:08x} times the input by {divisor:08x}, by one more for {unlike:?}");
            list.add(name, Judge::Rust, Ok(0), |code| {
                code.constant(5, factor).put(r(1, 0, 5, 5, 10)).constant(6, divisor);
                if let Some(input) = unlike {
                    // x7 is 1 for that input
                    code.all(&[i(0x13, 4, 7, 10, input), i(0x13, 3, 7, 7, 1), r(0, 0, 6, 6, 7)]);
                }
                checked(code, divisor.checked_ilog2());
            });
        }
    }
}

/// By the input, and by a power for each.
fn by_inputs(list: &mut List) {
    for dividend in [0x9e37_79b1, u32::MAX] {
        for (name, divisors) in [("the input", vec![addi(6, 10, 0)]), ("a power for each input", vec![addi(6, 0, 1), r(0, 1, 6, 6, 10)])] {
            list.add(format!("{dividend:08x} by {name}"), Judge::Rust, Ok(0), |code| {
                code.constant(5, dividend).all(&divisors);
                checked(code, Some(0));
            });
        }
    }
}

pub fn known() -> Vec<Known> {
    let mut list = List::default();
    for divisor in (0..32).flat_map(|k| [(1u32 << k) - 1, 1 << k, (1 << k) + 1]) {
        words(&mut list, divisor);
        lanes(&mut list, divisor);
    }
    by_inputs(&mut list);
    list.0
}
