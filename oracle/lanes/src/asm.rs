//! Words and halfwords from their operands, by the manual's formats.

#[derive(Clone, Copy, Debug, PartialEq, Eq)]
pub enum Format {
    U,
    J,
    I,
    B,
    S,
    Shift,
    R,
    Fence,
}

/// Opcode, funct3, funct7, and the format.
pub type Row = (u32, u32, u32, Format);

/// The 47 rows.
pub const ROWS: [Row; 47] = [
    (0x37, 0, 0, Format::U),
    (0x17, 0, 0, Format::U),
    (0x6f, 0, 0, Format::J),
    (0x67, 0, 0, Format::I),
    (0x63, 0, 0, Format::B),
    (0x63, 1, 0, Format::B),
    (0x63, 4, 0, Format::B),
    (0x63, 5, 0, Format::B),
    (0x63, 6, 0, Format::B),
    (0x63, 7, 0, Format::B),
    (0x03, 0, 0, Format::I),
    (0x03, 1, 0, Format::I),
    (0x03, 2, 0, Format::I),
    (0x03, 4, 0, Format::I),
    (0x03, 5, 0, Format::I),
    (0x23, 0, 0, Format::S),
    (0x23, 1, 0, Format::S),
    (0x23, 2, 0, Format::S),
    (0x13, 0, 0, Format::I),
    (0x13, 2, 0, Format::I),
    (0x13, 3, 0, Format::I),
    (0x13, 4, 0, Format::I),
    (0x13, 6, 0, Format::I),
    (0x13, 7, 0, Format::I),
    (0x13, 1, 0x00, Format::Shift),
    (0x13, 5, 0x00, Format::Shift),
    (0x13, 5, 0x20, Format::Shift),
    (0x33, 0, 0x00, Format::R),
    (0x33, 0, 0x20, Format::R),
    (0x33, 1, 0x00, Format::R),
    (0x33, 2, 0x00, Format::R),
    (0x33, 3, 0x00, Format::R),
    (0x33, 4, 0x00, Format::R),
    (0x33, 5, 0x00, Format::R),
    (0x33, 5, 0x20, Format::R),
    (0x33, 6, 0x00, Format::R),
    (0x33, 7, 0x00, Format::R),
    (0x33, 0, 0x01, Format::R),
    (0x33, 4, 0x01, Format::R),
    (0x33, 5, 0x01, Format::R),
    (0x33, 6, 0x01, Format::R),
    (0x33, 7, 0x01, Format::R),
    (0x0f, 0, 0, Format::Fence),
    (0x0f, 1, 0, Format::Fence),
    (0x33, 1, 0x01, Format::R),
    (0x33, 2, 0x01, Format::R),
    (0x33, 3, 0x01, Format::R),
];

/// The rows that the Rust executes too: all but MULH, MULHSU and MULHU.
pub const SHARED_ROWS: &[Row] = ROWS.split_at(44).0;

pub fn r(funct7: u32, funct3: u32, rd: u32, rs1: u32, rs2: u32) -> u32 {
    funct7 << 25 | rs2 << 20 | rs1 << 15 | funct3 << 12 | rd << 7 | 0x33
}

pub fn i(opcode: u32, funct3: u32, rd: u32, rs1: u32, imm: i32) -> u32 {
    (imm as u32 & 0xfff) << 20 | rs1 << 15 | funct3 << 12 | rd << 7 | opcode
}

pub fn s(funct3: u32, rs1: u32, rs2: u32, imm: i32) -> u32 {
    let imm = imm as u32;
    (imm >> 5 & 0x7f) << 25 | rs2 << 20 | rs1 << 15 | funct3 << 12 | (imm & 0x1f) << 7 | 0x23
}

pub fn b(funct3: u32, rs1: u32, rs2: u32, imm: i32) -> u32 {
    let imm = imm as u32;
    (imm >> 12 & 1) << 31
        | (imm >> 5 & 0x3f) << 25
        | rs2 << 20
        | rs1 << 15
        | funct3 << 12
        | (imm >> 1 & 0xf) << 8
        | (imm >> 11 & 1) << 7
        | 0x63
}

pub fn j(rd: u32, imm: i32) -> u32 {
    let imm = imm as u32;
    (imm >> 20 & 1) << 31 | (imm >> 1 & 0x3ff) << 21 | (imm >> 11 & 1) << 20 | (imm >> 12 & 0xff) << 12 | rd << 7 | 0x6f
}

pub fn lui(rd: u32, high: u32) -> u32 {
    high & 0xffff_f000 | rd << 7 | 0x37
}

pub fn addi(rd: u32, rs1: u32, imm: i32) -> u32 {
    i(0x13, 0, rd, rs1, imm)
}

pub fn jalr(rd: u32, rs1: u32, imm: i32) -> u32 {
    i(0x67, 0, rd, rs1, imm)
}

pub fn load(funct3: u32, rd: u32, rs1: u32, imm: i32) -> u32 {
    i(0x03, funct3, rd, rs1, imm)
}

pub const RET: u32 = 0x8082;
pub const FENCE_I: u32 = 0x0000_100f;

pub fn c_li(rd: u32, imm: i32) -> u32 {
    0x4001 | (imm as u32 >> 5 & 1) << 12 | rd << 7 | (imm as u32 & 31) << 2
}

pub fn c_lui(rd: u32, imm: i32) -> u32 {
    0x6001 | (imm as u32 >> 5 & 1) << 12 | rd << 7 | (imm as u32 & 31) << 2
}

pub fn c_addi(rd: u32, imm: i32) -> u32 {
    0x0001 | (imm as u32 >> 5 & 1) << 12 | rd << 7 | (imm as u32 & 31) << 2
}

pub fn c_mv(rd: u32, rs2: u32) -> u32 {
    0x8002 | rd << 7 | rs2 << 2
}

pub fn c_add(rd: u32, rs2: u32) -> u32 {
    0x9002 | rd << 7 | rs2 << 2
}

pub fn c_jr(rs1: u32) -> u32 {
    0x8002 | rs1 << 7
}

pub fn c_jalr(rs1: u32) -> u32 {
    0x9002 | rs1 << 7
}

/// C.SWSP and C.LWSP: an offset of 0 to 252, a multiple of 4.
pub fn c_swsp(rs2: u32, at: u32) -> u32 {
    0xc002 | (at >> 2 & 15) << 9 | (at >> 6 & 3) << 7 | rs2 << 2
}

pub fn c_lwsp(rd: u32, at: u32) -> u32 {
    0x4002 | (at >> 5 & 1) << 12 | rd << 7 | (at >> 2 & 7) << 4 | (at >> 6 & 3) << 2
}

/// C.SUB, C.XOR, C.OR, C.AND on x8 to x15.
pub fn c_arith(kind: u32, rd: u32, rs2: u32) -> u32 {
    0x8c01 | (rd & 7) << 7 | kind << 5 | (rs2 & 7) << 2
}

/// C.SRLI, C.SRAI, C.ANDI on x8 to x15; a shift is under 32.
pub fn c_shift(kind: u32, rd: u32, by: u32) -> u32 {
    0x8001 | kind << 10 | (rd & 7) << 7 | (by & 31) << 2 | if kind == 2 { (by >> 5 & 1) << 12 } else { 0 }
}

pub fn c_slli(rd: u32, by: u32) -> u32 {
    0x0002 | rd << 7 | (by & 31) << 2
}

/// C.BEQZ and C.BNEZ on x8 to x15.
pub fn c_branch(not: u32, rs1: u32, imm: i32) -> u32 {
    let imm = imm as u32;
    0xc001
        | not << 13
        | (imm >> 8 & 1) << 12
        | (imm >> 3 & 3) << 10
        | (rs1 & 7) << 7
        | (imm >> 6 & 3) << 5
        | (imm >> 1 & 3) << 3
        | (imm >> 5 & 1) << 2
}

/// Code as it grows. A value with low bits 11 takes 4 bytes, another 2.
#[derive(Clone, Default)]
pub struct Code(pub Vec<u8>);

impl Code {
    pub fn put(&mut self, instruction: u32) -> &mut Self {
        let bytes = instruction.to_le_bytes();
        self.0.extend(if instruction & 3 == 3 { &bytes[..] } else { &bytes[..2] });
        self
    }

    pub fn all(&mut self, instructions: &[u32]) -> &mut Self {
        instructions.iter().for_each(|one| {
            self.put(*one);
        });
        self
    }

    /// LUI and ADDI.
    pub fn constant(&mut self, rd: u32, value: u32) -> &mut Self {
        let low = (value as i32) << 20 >> 20;
        self.put(lui(rd, value.wrapping_sub(low as u32))).put(addi(rd, rd, low))
    }

    pub fn len(&self) -> i32 {
        self.0.len() as i32
    }

    pub fn is_empty(&self) -> bool {
        self.0.is_empty()
    }
}

/// The code of some instructions.
pub fn code(instructions: &[u32]) -> Vec<u8> {
    Code::default().all(instructions).0.clone()
}
