//! Cases from a seed: any halfword first, flips around every row, streams weighted to be accepted, damaged copies, any bytes.

use crate::answer::Case;
use crate::asm::*;
use crate::hints;
use crate::random::Random;
use crate::range::InputRange;

/// Sets x3 to x31, but not x10, to addresses past the image or numbers, so that what follows finds known words.
fn known_registers(random: &mut Random) -> Code {
    let mut code = Code::default();
    for rd in (3..32).filter(|rd| *rd != 10) {
        match random.below(4) {
            0 => {
                code.put(addi(rd, 0, random.within(-2048, 2047)));
            }
            1 => {
                code.put(addi(rd, 10, random.within(-2048, 2047)));
            }
            _ => {
                let value = 0x8010_0000 + random.below(0x1000);
                code.constant(rd, value);
            }
        }
    }
    code
}

const END: [u32; 2] = [0x4505, RET]; // C.LI x10, 1

/// A halfword as the first instruction: alone before the end; after known registers; as the low half of a word.
pub fn halfword(halfword: u32, variant: u32, random: &mut Random) -> Case {
    let mut code = if variant == 1 { known_registers(random) } else { Code::default() };
    code.0.extend((halfword as u16).to_le_bytes());
    if halfword & 3 == 3 {
        let high = if variant == 0 { 0 } else { random.word() as u16 };
        code.0.extend(high.to_le_bytes());
    }
    code.all(&END);
    // an offset may lead here
    if variant == 2 {
        (0..40).for_each(|_| {
            code.all(&END);
        });
    }
    Case::plain(code.0)
}

pub fn operation(row: &(u32, u32, u32, Format), random: &mut Random) -> u32 {
    let (opcode, funct3, funct7, format) = *row;
    let (rd, rs1, rs2) = (random.below(32), random.below(32), random.below(32));
    let imm = if random.chance(60) { random.within(-32, 32) } else { random.within(-2048, 2047) };
    match format {
        Format::U => random.word() & 0xffff_f000 | rd << 7 | opcode,
        Format::J => j(rd, imm * 2),
        Format::I => i(opcode, funct3, rd, rs1, imm),
        Format::B => b(funct3, rs1, rs2, imm),
        Format::S => s(funct3, rs1, rs2, imm),
        Format::Shift => funct7 << 25 | i(opcode, funct3, rd, rs1, random.below(32) as i32),
        Format::R => r(funct7, funct3, rd, rs1, rs2),
        Format::Fence => {
            i(opcode, funct3, if random.chance(50) { 0 } else { rd }, if random.chance(50) { 0 } else { rs1 }, random.within(-2048, 2047))
        }
    }
}

/// A word of a row, itself or with one or two bits flipped (`flip` under 33: none or that bit), among known registers or unknown ones.
pub fn flipped(row: usize, flip: u32, random: &mut Random) -> Case {
    let mut word = operation(&ROWS[row], random);
    if flip > 0 {
        word ^= 1 << (flip - 1);
    }
    if random.chance(20) {
        word ^= 1 << random.below(32);
    }
    let mut code = if random.chance(85) { known_registers(random) } else { Code::default() };
    code.0.extend(word.to_le_bytes());
    (0..20).for_each(|_| {
        code.all(&END);
    });
    Case::plain(code.0)
}

/// Any bytes, or any words of the rows.
pub fn any(random: &mut Random) -> Case {
    let mut code = if random.chance(50) { known_registers(random) } else { Code::default() };
    let length = 1 + random.below(60);
    if random.chance(40) {
        (0..length).for_each(|_| code.0.push(random.word() as u8));
    } else {
        (0..length).for_each(|_| {
            let row = random.pick(&ROWS);
            let word = operation(row, random);
            code.put(word);
        });
        code.all(&END);
    }
    let mut case = Case::plain(code.0);
    if random.chance(10) {
        case.entry += random.below(case.image.len() as u32);
    }
    case
}

/// What a word holds, as far as the stream's maker can tell.
#[derive(Clone, Copy, PartialEq, Eq, PartialOrd, Ord)]
enum Tag {
    Even,
    Uneven,
    Unknown,
}

/// Whose instructions a stream has: those that the Rust executes too, or all of the manual's.
#[derive(Clone, Copy, PartialEq, Eq)]
pub enum Domain {
    Rust,
    Manual,
}

const FRAME: usize = 64;
const TEMPORARIES: [u32; 14] = [5, 6, 7, 11, 12, 13, 14, 15, 16, 17, 28, 29, 30, 31];

struct Stream<'a> {
    random: &'a mut Random,
    domain: Domain,
    code: Code,
    tags: [Tag; 32],
    frame: [Tag; FRAME],
    case: Case,
    recorded: u32,
    careless: u32,
    /// The image's end, to which it is filled up.
    end: u32,
    past_end: Tag,
}

impl Stream<'_> {
    /// Whether to do what may be refused.
    fn slips(&mut self) -> bool {
        self.random.below(1000) < self.careless
    }

    fn temporary(&mut self) -> u32 {
        *self.random.pick(&TEMPORARIES)
    }

    /// A register that holds the same number in all lanes, else x0.
    fn even(&mut self) -> u32 {
        if self.slips() {
            return self.random.below(32);
        }
        let even: Vec<u32> = TEMPORARIES.iter().copied().filter(|x| self.tags[*x as usize] == Tag::Even).collect();
        if even.is_empty() { 0 } else { *self.random.pick(&even) }
    }

    fn source(&mut self) -> u32 {
        if self.random.chance(15) { 10 } else { self.temporary() }
    }

    fn put(&mut self, instruction: u32) {
        self.code.put(instruction);
    }

    /// One of two instructions.
    fn either(&mut self, one: u32, other: u32) {
        let chosen = if self.random.chance(50) { one } else { other };
        self.put(chosen);
    }

    fn constant(&mut self) {
        let rd = self.temporary();
        self.tags[rd as usize] = Tag::Even;
        match self.random.below(4) {
            0 => {
                let value = self.random.within(-32, 31);
                self.put(c_li(rd, value));
            }
            1 => {
                let value = self.random.within(-2048, 2047);
                self.put(addi(rd, 0, value));
            }
            2 => {
                let value = self.random.number();
                self.code.constant(rd, value);
            }
            _ => {
                let value = self.random.word() & 0xffff_f000 | rd << 7 | 0x17;
                self.put(value);
            }
        }
    }

    /// A hint, or C.LUI into x1 and a use of it.
    fn refused_by_rust(&mut self) {
        if self.random.chance(70) {
            let hint = hints::any(self.random);
            return self.put(hint);
        }
        let (imm, rd) = (hints::immediate(self.random), self.temporary());
        self.put(c_lui(1, imm));
        self.put(c_mv(rd, 1));
        self.tags[rd as usize] = Tag::Even;
    }

    fn arithmetic(&mut self) {
        if self.domain == Domain::Manual && self.random.chance(10) {
            return self.refused_by_rust();
        }
        let rd = self.temporary();
        let left = self.source();
        let right = self.source();
        let (mut a, mut b) = (self.tags[left as usize], self.tags[right as usize]);
        match self.random.below(8) {
            0..=2 => {
                let rows = if self.domain == Domain::Rust { SHARED_ROWS } else { &ROWS };
                let rows: Vec<_> = rows.iter().filter(|row| row.0 == 0x33).collect();
                let (_, funct3, funct7, _) = **self.random.pick(&rows);
                self.put(r(funct7, funct3, rd, left, right));
            }
            3 | 4 => {
                let imm = self.random.within(-2048, 2047);
                let funct3 = *self.random.pick(&[0, 2, 3, 4, 6, 7]);
                b = Tag::Even;
                self.put(i(0x13, funct3, rd, left, imm));
            }
            5 => {
                let (funct3, funct7) = *self.random.pick(&[(1, 0), (5, 0), (5, 0x20)]);
                let by = self.random.below(32) as i32;
                b = Tag::Even;
                self.put(funct7 << 25 | i(0x13, funct3, rd, left, by));
            }
            6 => {
                let rd = 11 + self.random.below(5);
                let rs2 = 10 + self.random.below(6);
                a = self.tags[rd as usize];
                b = self.tags[rs2 as usize];
                match self.random.below(3) {
                    0 => {
                        let kind = self.random.below(4);
                        self.put(c_arith(kind, rd, rs2));
                    }
                    1 => {
                        let (kind, by) = (self.random.below(3), self.random.below(32));
                        b = Tag::Even;
                        self.put(c_shift(kind, rd, by));
                    }
                    _ => {
                        let by = self.random.below(32);
                        b = Tag::Even;
                        self.put(c_slli(rd, by));
                    }
                }
                self.tags[rd as usize] = a.max(b);
                return;
            }
            _ => {
                let move_only = self.random.chance(50);
                a = if move_only { Tag::Even } else { self.tags[rd as usize] };
                self.put(if move_only { c_mv(rd, right) } else { c_add(rd, right) });
            }
        }
        self.tags[rd as usize] = a.max(b);
    }

    /// A store to the frame, or a load from it, at any offset and width.
    fn stack(&mut self) {
        let (funct3, width) = *self.random.pick(&[(0, 1), (1, 2), (2, 4)]);
        let at = self.random.below((FRAME - width + 1) as u32) as usize;
        let register = self.source();
        if self.random.chance(50) {
            if funct3 == 2 && at % 4 == 0 && self.random.chance(50) {
                self.put(c_swsp(register, at as u32));
            } else {
                self.put(s(funct3, 2, register, at as i32));
            }
            let tag = self.tags[register as usize];
            self.frame[at..at + width].fill(tag);
        } else if register != 10 {
            let unsigned = if funct3 < 2 && self.random.chance(50) { 4 } else { 0 };
            if funct3 == 2 && at % 4 == 0 && self.random.chance(50) {
                self.put(c_lwsp(register, at as u32));
            } else {
                self.put(load(funct3 | unsigned, register, 2, at as i32));
            }
            self.tags[register as usize] = *self.frame[at..at + width].iter().max().unwrap();
        }
    }

    /// A body that runs a few times; x8 counts.
    fn repeat(&mut self) {
        let times = 1 + self.random.below(6) as i32;
        self.either(c_li(8, times), addi(8, 0, times));
        let start = self.code.len();
        for _ in 0..1 + self.random.below(3) {
            if self.random.chance(50) { self.arithmetic() } else { self.stack() }
        }
        self.either(c_addi(8, -1), addi(8, 8, -1));
        let back = start - self.code.len();
        self.either(c_branch(1, 8, back), b(1, 8, 0, back));
    }

    /// A branch over some instructions, on even words.
    fn branch(&mut self) {
        let (left, right) = (self.even(), self.even());
        let funct3 = *self.random.pick(&[0, 1, 4, 5, 6, 7]);
        let mut skipped = Code::default();
        for _ in 0..self.random.below(3) {
            // what may be skipped changes no tag
            skipped.put(addi(9, 0, 5));
        }
        let over = 4 + skipped.len();
        self.put(b(funct3, left, right, over));
        self.code.0.extend(skipped.0);
    }

    /// A subroutine, jumped over and then called; x9 has the way back.
    fn call(&mut self) {
        let mut inner = Code::default();
        std::mem::swap(&mut inner, &mut self.code);
        for _ in 0..1 + self.random.below(3) {
            self.arithmetic();
        }
        self.either(c_jr(9), jalr(0, 9, 0));
        std::mem::swap(&mut inner, &mut self.code);
        self.put(j(0, 4 + inner.len()));
        let start = self.code.len();
        self.code.0.extend(inner.0);
        if self.random.chance(50) {
            let back = start - self.code.len();
            self.put(j(9, back));
        } else {
            let here = self.code.len();
            self.put(0x17 | 7 << 7); // AUIPC x7, 0
            self.tags[7] = Tag::Even;
            let odd = self.random.below(2) as i32; // JALR clears it
            self.put(jalr(9, 7, start - here + odd));
        }
    }

    /// An event: three numbers and the count, whose SW is recorded.
    fn event(&mut self) {
        let at = self.case.events + 12 * self.recorded;
        for part in 0..3 {
            let value = self.even();
            self.code.constant(9, at + 4 * part);
            self.put(s(2, 9, value, 0));
        }
        self.code.constant(9, self.case.event_count);
        if self.random.chance(70) {
            self.put(load(2, 7, 9, 0));
            self.put(c_addi(7, 1));
        } else {
            self.put(addi(7, 0, self.recorded as i32 + 1));
        }
        self.tags[7] = Tag::Even;
        if self.slips() {
            let register = self.temporary();
            self.put(s(2, 9, register, 0));
        } else if self.slips() {
            self.put(s(1, 9, 7, 0)); // SH: stored, not recorded
        } else {
            self.put(s(2, 9, 7, 0));
        }
        self.recorded += 1;
    }

    /// Code written past the image and run; x9 has the way back. Sometimes without FENCE.I, which changes nothing.
    fn written_code(&mut self) {
        let at = 0x8018_0000 + 2 * self.random.below(0x800);
        let mut written = Code::default();
        for _ in 0..self.random.below(3) {
            let value = self.random.within(-32, 31);
            written.put(if self.random.chance(50) { c_li(6, value) } else { addi(6, 0, value) });
            if self.domain == Domain::Manual && self.random.chance(20) {
                written.put(hints::any(self.random));
            }
        }
        written.put(c_jr(9));
        while written.0.len() % 4 != 0 {
            written.0.push(0);
        }
        self.code.constant(7, at);
        for (index, word) in written.0.chunks(4).enumerate() {
            let word = u32::from_le_bytes(word.try_into().unwrap());
            self.code.constant(6, word);
            let offset = 4 * index as i32;
            match self.random.below(3) {
                0 => {
                    self.put(s(1, 7, 6, offset));
                    self.put(i(0x13, 5, 6, 6, 16)); // SRLI
                    self.put(s(1, 7, 6, offset + 2));
                }
                _ => self.put(s(2, 7, 6, offset)),
            }
        }
        if self.slips() {
            let register = self.source();
            self.put(s(0, 7, register, 0));
        }
        if self.random.chance(80) {
            self.put(FENCE_I);
        }
        self.put(jalr(9, 7, 0));
        self.tags[6] = Tag::Even;
        self.tags[7] = Tag::Even;
    }

    /// A store at the image's end, a load across it, or a word run across it, whose first half is the image's last.
    fn across_end(&mut self) {
        self.code.constant(7, self.end);
        self.tags[7] = Tag::Even;
        let (funct3, register) = (self.random.below(3), self.source());
        match self.random.below(3) {
            0 => {
                let at = self.random.below(4) as i32;
                self.put(s(funct3, 7, register, at));
                self.past_end = self.past_end.max(self.tags[register as usize]);
            }
            1 if register != 10 => {
                let at = self.random.within(-4, 3);
                self.put(load(funct3, register, 7, at));
                self.tags[register as usize] = self.past_end;
            }
            _ => {
                let imm = self.random.below(0x1000);
                self.code.constant(6, c_jr(9) << 16 | imm << 4);
                self.put(s(2, 7, 6, 0));
                self.put(jalr(9, 7, -2));
                self.tags[6] = Tag::Even;
                self.past_end = Tag::Even;
            }
        }
    }

    /// A store or a load at an address that hangs on the input, which one lane may have.
    fn indexed(&mut self) {
        let funct3 = self.random.below(3);
        self.code.constant(9, 0x8016_0000);
        self.put(c_add(9, 10));
        if self.random.chance(50) {
            let value = self.even();
            self.put(s(funct3, 9, value, 0));
        } else {
            let rd = self.temporary();
            self.put(load(funct3, rd, 9, 0));
            self.tags[rd as usize] = Tag::Even;
        }
    }

    fn chunk(&mut self) {
        let kinds = if self.tags[10] == Tag::Even { 22 } else { 21 };
        match self.random.below(kinds) {
            0 | 1 => self.constant(),
            2..=7 => self.arithmetic(),
            8..=11 => self.stack(),
            12 | 13 => self.repeat(),
            14 | 15 => self.branch(),
            16 | 17 => self.call(),
            18 => self.event(),
            19 => self.across_end(),
            20 => self.written_code(),
            _ => self.indexed(),
        }
    }

    /// What SLTIU compares the input with: even for the Rust's own range, and at or next to the ends of a chosen one.
    fn bound(&mut self) -> i32 {
        self.case.chosen.map_or(6, |range| {
            let (first, last) = (i32::from(range.first), i32::from(range.last));
            *self.random.pick(&[first, first, first + 1, last, last + 1, last + 1])
        })
    }

    /// x10 made even, or sometimes left as it is.
    fn end(&mut self) {
        let even = self.even();
        match self.random.below(4) {
            _ if self.slips() => {}
            0 => {
                let bound = self.bound();
                self.put(i(0x13, 3, 10, 10, bound));
            }
            1 => self.put(addi(10, even, 0)),
            2 => self.put(i(0x13, 7, 10, 10, 0)),
            _ => self.put(0x4505),
        }
    }
}

/// A firmware that is mostly accepted: it saves x1, works on lanes, the stack and memory, records events, and returns.
pub fn stream(domain: Domain, chosen: Option<InputRange>, random: &mut Random) -> Case {
    let event_count = 0x8015_0000 + 4 * random.below(0x100);
    let case = Case { event_count, events: event_count + 4 + random.below(64), chosen, ..Case::plain(Vec::new()) };
    let careless = *random.pick(&[0, 0, 10, 40]);
    let mut tags = [Tag::Unknown; 32];
    tags[0] = Tag::Even;
    tags[10] = if case.range().lanes() == 1 { Tag::Even } else { Tag::Uneven };
    let size = 400 + random.below(400) as usize;
    let (end, past_end) = (0x8000_0000 + size as u32, Tag::Even);
    let (code, frame, recorded) = (Code::default(), [Tag::Even; FRAME], 0);
    let mut stream = Stream { random, domain, code, tags, frame, case, recorded, careless, end, past_end };
    stream.put(addi(2, 2, -(FRAME as i32) - 16));
    stream.put(s(2, 2, 1, FRAME as i32 + 12));
    for rd in TEMPORARIES {
        if stream.random.chance(70) {
            let value = stream.random.within(-32, 31);
            stream.put(c_li(rd, value));
            stream.tags[rd as usize] = Tag::Even;
        } else if stream.random.chance(70) {
            stream.put(c_mv(rd, 10));
            stream.tags[rd as usize] = stream.tags[10];
        }
    }
    for _ in 0..2 + stream.random.below(12) {
        stream.chunk();
    }
    stream.end();
    stream.put(load(2, 1, 2, FRAME as i32 + 12));
    stream.put(addi(2, 2, FRAME as i32 + 16));
    stream.put(RET);
    let mut case = stream.case;
    case.image = stream.code.0;
    let filled = case.image.len() + 2;
    if filled <= size {
        case.image.extend((filled..size).map(|_| random.word() as u8));
        case.image.extend(addi(6, 0, 0).to_le_bytes().into_iter().take(2));
    }
    case
}

/// A copy with a few bits, bytes or symbols changed.
pub fn damaged(mut case: Case, random: &mut Random) -> Case {
    for _ in 0..1 + random.below(3) {
        let length = case.image.len() as u32;
        let at = random.below(length) as usize;
        match random.below(10) {
            0..=4 => case.image[at] ^= 1 << random.below(8),
            5 => case.image[at] = random.word() as u8,
            6 => case.image.truncate(1 + at),
            7 => case.image.extend((0..random.below(64)).map(|_| 0)),
            8 => {
                let symbol = random.below(3);
                let value = match random.below(3) {
                    0 => 0x8000_0000 + random.below(length + 8),
                    1 => 0x801f_ffe0 + random.below(64),
                    _ => 0x7fff_fff0 + random.below(32),
                };
                *[&mut case.entry, &mut case.event_count, &mut case.events].into_iter().nth(symbol as usize).unwrap() = value;
            }
            _ => {
                case.image.remove(at);
                if case.image.is_empty() {
                    case.image.push(0);
                }
            }
        }
    }
    case
}
