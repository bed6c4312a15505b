//! What the model and the scalar run share: the limits of memory and what an instruction asks for, by the manual.

use crate::asm::{addi, i, lui, r};
use crate::riscv32imc::decompress;
use riscv_decode::{Instruction, decode};

pub const BASE: u32 = 0x8000_0000;
pub const MEMORY: u32 = 0x20_0000;
pub const STOP: u32 = 0x801f_fffc;
pub const STOP_WORD: u32 = 0x0010_0073;
pub const MAX_STEPS: u32 = 1_000_000;
pub const MAX_IMAGE: usize = 0x10_0000;

pub type Function = fn(u32, u32) -> u32;

#[derive(Clone, Copy)]
pub enum Action {
    Nothing,
    Set { rd: usize, value: u32 },
    Jump { rd: usize, target: u32 },
    JumpTo { rd: usize, rs1: usize, offset: u32 },
    Branch { test: Function, rs1: usize, rs2: usize, target: u32 },
    Load { rd: usize, rs1: usize, offset: u32, width: u32, signed: bool },
    Store { rs1: usize, rs2: usize, offset: u32, width: u32 },
    Immediate { function: Function, rd: usize, rs1: usize, value: u32 },
    Registers { function: Function, rd: usize, rs1: usize, rs2: usize },
}

/// 4 where the low two bits are 11, else 2.
pub fn length(halfword: u32) -> u32 {
    if halfword & 3 == 3 { 4 } else { 2 }
}

/// The manual's word for a halfword that it has and the Rust refuses: a hint, or C.LUI into x1.
fn refused_expansion(halfword: u32) -> Option<u32> {
    let (rd, rs2, bit_12) = (halfword >> 7 & 31, halfword >> 2 & 31, halfword >> 12 & 1);
    let immediate = signed(bit_12 << 5 | rs2, 6);
    match (halfword & 3, halfword >> 13, rd) {
        (1, 2, 0) => Some(addi(rd, 0, immediate as i32)),
        (1, 3, 0 | 1) if immediate != 0 => Some(lui(rd, immediate << 12)),
        (2, 0, 0) if bit_12 == 0 => Some(i(0x13, 1, rd, rd, rs2 as i32)),
        (2, 4, 0) if rs2 != 0 => Some(r(0, 0, rd, if bit_12 == 0 { 0 } else { rd }, rs2)),
        _ => None,
    }
}

/// A halfword's word, or refusal 8.
pub fn expand(halfword: u32) -> Result<u32, u8> {
    refused_expansion(halfword).map_or_else(|| decompress(halfword as u16).map_err(|_| 8), Ok)
}

/// Refusal 4 or 5, or the address from the start of memory.
pub fn in_range(address: u32, width: u32) -> Result<usize, u8> {
    if address < BASE {
        return Err(4);
    }
    if address - BASE > MEMORY - width {
        return Err(5);
    }
    Ok((address - BASE) as usize)
}

/// Refusal 1 or 2.
pub fn start_test(image: &[u8], symbols: [u32; 3]) -> Result<(), u8> {
    if image.is_empty() || image.len() > MAX_IMAGE {
        return Err(1);
    }
    if symbols.iter().any(|symbol| !(BASE..BASE + MEMORY).contains(symbol)) {
        return Err(2);
    }
    Ok(())
}

fn signed(value: u32, bits: u32) -> u32 {
    ((value as i32) << (32 - bits) >> (32 - bits)) as u32
}

fn div(a: u32, b: u32) -> u32 {
    if b == 0 { u32::MAX } else { (a as i32).wrapping_div(b as i32) as u32 }
}

fn rem(a: u32, b: u32) -> u32 {
    if b == 0 { a } else { (a as i32).wrapping_rem(b as i32) as u32 }
}

/// What a word asks for at a program counter, or refusal 9.
pub fn action(word: u32, pc: u32) -> Result<Action, u8> {
    use Action::*;
    use Instruction as I;
    let instruction = decode(word).map_err(|_| 9)?;
    let branch = |v: riscv_decode::types::BType, test: Function| Branch {
        test,
        rs1: v.rs1() as usize,
        rs2: v.rs2() as usize,
        target: pc.wrapping_add(signed(v.imm(), 13)),
    };
    let load = |v: riscv_decode::types::IType, width, extended| Load {
        rd: v.rd() as usize,
        rs1: v.rs1() as usize,
        offset: signed(v.imm(), 12),
        width,
        signed: extended,
    };
    let store =
        |v: riscv_decode::types::SType, width| Store { rs1: v.rs1() as usize, rs2: v.rs2() as usize, offset: signed(v.imm(), 12), width };
    let immediate = |v: riscv_decode::types::IType, function: Function| Immediate {
        function,
        rd: v.rd() as usize,
        rs1: v.rs1() as usize,
        value: signed(v.imm(), 12),
    };
    let shift = |v: riscv_decode::types::ShiftType, function: Function| Immediate {
        function,
        rd: v.rd() as usize,
        rs1: v.rs1() as usize,
        value: v.shamt(),
    };
    let registers = |v: riscv_decode::types::RType, function: Function| Registers {
        function,
        rd: v.rd() as usize,
        rs1: v.rs1() as usize,
        rs2: v.rs2() as usize,
    };
    let add: Function = |a, b| a.wrapping_add(b);
    let slt: Function = |a, b| ((a as i32) < b as i32) as u32;
    let sltu: Function = |a, b| (a < b) as u32;
    let sll: Function = |a, b| a << (b & 31);
    let srl: Function = |a, b| a >> (b & 31);
    let sra: Function = |a, b| (a as i32 >> (b & 31)) as u32;
    Ok(match instruction {
        I::Lui(v) => Set { rd: v.rd() as usize, value: v.imm() },
        I::Auipc(v) => Set { rd: v.rd() as usize, value: pc.wrapping_add(v.imm()) },
        I::Jal(v) => Jump { rd: v.rd() as usize, target: pc.wrapping_add(signed(v.imm(), 21)) },
        I::Jalr(v) => JumpTo { rd: v.rd() as usize, rs1: v.rs1() as usize, offset: signed(v.imm(), 12) },
        I::Beq(v) => branch(v, |a, b| (a == b) as u32),
        I::Bne(v) => branch(v, |a, b| (a != b) as u32),
        I::Blt(v) => branch(v, slt),
        I::Bge(v) => branch(v, |a, b| (a as i32 >= b as i32) as u32),
        I::Bltu(v) => branch(v, sltu),
        I::Bgeu(v) => branch(v, |a, b| (a >= b) as u32),
        I::Lb(v) => load(v, 1, true),
        I::Lh(v) => load(v, 2, true),
        I::Lw(v) => load(v, 4, false),
        I::Lbu(v) => load(v, 1, false),
        I::Lhu(v) => load(v, 2, false),
        I::Sb(v) => store(v, 1),
        I::Sh(v) => store(v, 2),
        I::Sw(v) => store(v, 4),
        I::Addi(v) => immediate(v, add),
        I::Slti(v) => immediate(v, slt),
        I::Sltiu(v) => immediate(v, sltu),
        I::Xori(v) => immediate(v, |a, b| a ^ b),
        I::Ori(v) => immediate(v, |a, b| a | b),
        I::Andi(v) => immediate(v, |a, b| a & b),
        I::Slli(v) => shift(v, sll),
        I::Srli(v) => shift(v, srl),
        I::Srai(v) => shift(v, sra),
        I::Add(v) => registers(v, add),
        I::Sub(v) => registers(v, |a, b| a.wrapping_sub(b)),
        I::Sll(v) => registers(v, sll),
        I::Slt(v) => registers(v, slt),
        I::Sltu(v) => registers(v, sltu),
        I::Xor(v) => registers(v, |a, b| a ^ b),
        I::Srl(v) => registers(v, srl),
        I::Sra(v) => registers(v, sra),
        I::Or(v) => registers(v, |a, b| a | b),
        I::And(v) => registers(v, |a, b| a & b),
        I::Mul(v) => registers(v, |a, b| a.wrapping_mul(b)),
        I::Div(v) => registers(v, div),
        I::Divu(v) => registers(v, |a, b| a.checked_div(b).unwrap_or(u32::MAX)),
        I::Rem(v) => registers(v, rem),
        I::Remu(v) => registers(v, |a, b| a.checked_rem(b).unwrap_or(a)),
        I::Mulh(v) => registers(v, |a, b| (i64::from(a as i32) * i64::from(b as i32) >> 32) as u32),
        I::Mulhsu(v) => registers(v, |a, b| (i64::from(a as i32) * i64::from(b) >> 32) as u32),
        I::Mulhu(v) => registers(v, |a, b| (u64::from(a) * u64::from(b) >> 32) as u32),
        I::Fence(_) | I::FenceI => Nothing,
        I::Ecall | I::Ebreak => return Err(9),
    })
}

/// What the manual has and the Rust refuses. A run that fetches one is outside the Rust's domain.
#[derive(Clone, Copy, Debug, PartialEq, Eq, PartialOrd, Ord)]
pub enum Kind {
    /// MULH, MULHSU, MULHU.
    Product,
    /// C.LI, C.LUI, C.SLLI, C.MV, C.ADD with rd 0.
    Hint,
    /// C.LUI into x1.
    LuiX1,
}

/// The kind of a fetched halfword or word that is outside the Rust's domain.
pub fn outside(fetched: u32) -> Option<Kind> {
    if length(fetched) == 2 {
        let into_x0 = fetched >> 7 & 31 == 0;
        return refused_expansion(fetched).map(|_| if into_x0 { Kind::Hint } else { Kind::LuiX1 });
    }
    let product = matches!(decode(fetched), Ok(Instruction::Mulh(_) | Instruction::Mulhsu(_) | Instruction::Mulhu(_)));
    product.then_some(Kind::Product)
}

/// A loaded value, filled by its sign or by zeros.
pub fn extended(value: u32, width: u32, by_sign: bool) -> u32 {
    if by_sign { signed(value, width * 8) } else { value }
}
