//! A STAND-IN for the crate `riscv_decode`, which the Rust's files import and which cannot be had here.
//! It is written from the RISC-V Unprivileged ISA manual (RV32I, M, Zifencei) and says nothing of that crate's own answers.
//! It keeps account of the words it is given, since the Rust's refusals don't say which steps were completed.

use std::cell::Cell;

pub mod types {
    macro_rules! formats {
        ($($format:ident { $($field:ident = $value:expr;)* })*) => {$(
            #[derive(Clone, Copy, Debug)]
            pub struct $format(pub u32);

            impl $format {
                $(pub fn $field(&self) -> u32 {
                    let read: fn(u32) -> u32 = $value;
                    read(self.0)
                })*
            }
        )*};
    }

    /// Bits `low` and up, `count` of them, moved to bit `to`.
    const fn part(word: u32, low: u32, count: u32, to: u32) -> u32 {
        (word >> low & ((1 << count) - 1)) << to
    }

    formats! {
        RType { rd = |w| part(w, 7, 5, 0); rs1 = |w| part(w, 15, 5, 0); rs2 = |w| part(w, 20, 5, 0); }
        IType { rd = |w| part(w, 7, 5, 0); rs1 = |w| part(w, 15, 5, 0); imm = |w| part(w, 20, 12, 0); }
        ShiftType { rd = |w| part(w, 7, 5, 0); rs1 = |w| part(w, 15, 5, 0); shamt = |w| part(w, 20, 5, 0); }
        SType { rs1 = |w| part(w, 15, 5, 0); rs2 = |w| part(w, 20, 5, 0); imm = |w| part(w, 25, 7, 5) | part(w, 7, 5, 0); }
        BType { rs1 = |w| part(w, 15, 5, 0); rs2 = |w| part(w, 20, 5, 0);
            imm = |w| part(w, 31, 1, 12) | part(w, 7, 1, 11) | part(w, 25, 6, 5) | part(w, 8, 4, 1); }
        UType { rd = |w| part(w, 7, 5, 0); imm = |w| w & 0xffff_f000; }
        JType { rd = |w| part(w, 7, 5, 0);
            imm = |w| part(w, 31, 1, 20) | part(w, 12, 8, 12) | part(w, 20, 1, 11) | part(w, 21, 10, 1); }
    }
}

use types::*;

#[derive(Clone, Copy, Debug)]
pub enum Instruction {
    Lui(UType),
    Auipc(UType),
    Jal(JType),
    Jalr(IType),
    Beq(BType),
    Bne(BType),
    Blt(BType),
    Bge(BType),
    Bltu(BType),
    Bgeu(BType),
    Lb(IType),
    Lh(IType),
    Lw(IType),
    Lbu(IType),
    Lhu(IType),
    Sb(SType),
    Sh(SType),
    Sw(SType),
    Addi(IType),
    Slti(IType),
    Sltiu(IType),
    Xori(IType),
    Ori(IType),
    Andi(IType),
    Slli(ShiftType),
    Srli(ShiftType),
    Srai(ShiftType),
    Add(RType),
    Sub(RType),
    Sll(RType),
    Slt(RType),
    Sltu(RType),
    Xor(RType),
    Srl(RType),
    Sra(RType),
    Or(RType),
    And(RType),
    Mul(RType),
    Mulh(RType),
    Mulhsu(RType),
    Mulhu(RType),
    Div(RType),
    Divu(RType),
    Rem(RType),
    Remu(RType),
    Fence(IType),
    FenceI,
    Ecall,
    Ebreak,
}

#[derive(Clone, Copy, Debug)]
pub struct NoInstruction;

thread_local! {
    static GIVEN: Cell<Words> = const { Cell::new(Words { count: 0, digest: 0 }) };
}

/// Some words in order: how many, and a digest of them (FNV-1a, a word at a time).
#[derive(Clone, Copy, Debug, Default, PartialEq, Eq)]
pub struct Words {
    pub count: u32,
    digest: u64,
}

impl Words {
    pub fn and(self, word: u32) -> Self {
        Self { count: self.count + 1, digest: (self.digest ^ u64::from(word)).wrapping_mul(0x100_0000_01b3) }
    }
}

/// What `decode` was given on this thread since the last time this was asked.
pub fn given() -> Words {
    GIVEN.take()
}

pub fn decode(word: u32) -> Result<Instruction, NoInstruction> {
    GIVEN.set(GIVEN.get().and(word));
    of(word).ok_or(NoInstruction)
}

fn of(word: u32) -> Option<Instruction> {
    use Instruction::*;
    let funct3 = word >> 12 & 7;
    let funct7 = word >> 25;
    Some(match (word & 0x7f, funct3, funct7) {
        (0x37, ..) => Lui(UType(word)),
        (0x17, ..) => Auipc(UType(word)),
        (0x6f, ..) => Jal(JType(word)),
        (0x67, 0, _) => Jalr(IType(word)),
        (0x63, 0, _) => Beq(BType(word)),
        (0x63, 1, _) => Bne(BType(word)),
        (0x63, 4, _) => Blt(BType(word)),
        (0x63, 5, _) => Bge(BType(word)),
        (0x63, 6, _) => Bltu(BType(word)),
        (0x63, 7, _) => Bgeu(BType(word)),
        (0x03, 0, _) => Lb(IType(word)),
        (0x03, 1, _) => Lh(IType(word)),
        (0x03, 2, _) => Lw(IType(word)),
        (0x03, 4, _) => Lbu(IType(word)),
        (0x03, 5, _) => Lhu(IType(word)),
        (0x23, 0, _) => Sb(SType(word)),
        (0x23, 1, _) => Sh(SType(word)),
        (0x23, 2, _) => Sw(SType(word)),
        (0x13, 0, _) => Addi(IType(word)),
        (0x13, 1, 0) => Slli(ShiftType(word)),
        (0x13, 2, _) => Slti(IType(word)),
        (0x13, 3, _) => Sltiu(IType(word)),
        (0x13, 4, _) => Xori(IType(word)),
        (0x13, 5, 0) => Srli(ShiftType(word)),
        (0x13, 5, 0x20) => Srai(ShiftType(word)),
        (0x13, 6, _) => Ori(IType(word)),
        (0x13, 7, _) => Andi(IType(word)),
        (0x33, 0, 0) => Add(RType(word)),
        (0x33, 0, 0x20) => Sub(RType(word)),
        (0x33, 1, 0) => Sll(RType(word)),
        (0x33, 2, 0) => Slt(RType(word)),
        (0x33, 3, 0) => Sltu(RType(word)),
        (0x33, 4, 0) => Xor(RType(word)),
        (0x33, 5, 0) => Srl(RType(word)),
        (0x33, 5, 0x20) => Sra(RType(word)),
        (0x33, 6, 0) => Or(RType(word)),
        (0x33, 7, 0) => And(RType(word)),
        (0x33, 0, 1) => Mul(RType(word)),
        (0x33, 1, 1) => Mulh(RType(word)),
        (0x33, 2, 1) => Mulhsu(RType(word)),
        (0x33, 3, 1) => Mulhu(RType(word)),
        (0x33, 4, 1) => Div(RType(word)),
        (0x33, 5, 1) => Divu(RType(word)),
        (0x33, 6, 1) => Rem(RType(word)),
        (0x33, 7, 1) => Remu(RType(word)),
        (0x0f, 0, _) => Fence(IType(word)),
        (0x0f, 1, _) => FenceI,
        (0x73, ..) if word == 0x0000_0073 => Ecall,
        (0x73, ..) if word == 0x0010_0073 => Ebreak,
        _ => return None,
    })
}
