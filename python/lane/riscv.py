"""RV32IMC instructions as objdump writes them: ABI names, pseudo-instructions."""

ABI = 'zero ra sp gp tp t0 t1 t2 s0 s1 a0 a1 a2 a3 a4 a5 a6 a7 s2 s3 s4 s5 s6 s7 s8 s9 s10 s11 t3 t4 t5 t6'.split()
BRANCHES = {0: 'beq', 1: 'bne', 4: 'blt', 5: 'bge', 6: 'bltu', 7: 'bgeu'}
LOADS = {0: 'lb', 1: 'lh', 2: 'lw', 4: 'lbu', 5: 'lhu'}
STORES = {0: 'sb', 1: 'sh', 2: 'sw'}
IMMEDIATES = {0: 'addi', 2: 'slti', 3: 'sltiu', 4: 'xori', 6: 'ori', 7: 'andi'}
SHIFTS = {(1, 0): 'slli', (5, 0): 'srli', (5, 0x20): 'srai'}
REGISTERS = {0: 'add sll slt sltu xor srl or and'.split(), 1: 'mul mulh mulhsu mulhu div divu rem remu'.split(),
             0x20: ['sub', None, None, None, None, 'sra', None, None]}
CSR_OPERATIONS = {1: 'csrw', 2: 'csrs', 3: 'csrc'}
CSRS = {0x300: 'mstatus', 0x301: 'misa', 0x304: 'mie', 0x305: 'mtvec', 0x340: 'mscratch', 0x341: 'mepc', 0x342: 'mcause',
        0x343: 'mtval', 0x344: 'mip', 0xB00: 'mcycle', 0xB02: 'minstret', 0xB80: 'mcycleh', 0xB82: 'minstreth', 0xC00: 'cycle',
        0xC01: 'time', 0xC02: 'instret', 0xC80: 'cycleh', 0xC81: 'timeh', 0xC82: 'instreth', 0xF11: 'mvendorid',
        0xF12: 'marchid', 0xF13: 'mimpid', 0xF14: 'mhartid'}
COUNTERS = {0xC00, 0xC01, 0xC02, 0xC80, 0xC81, 0xC82}
FIXED = {0x00000073: 'ecall', 0x00100073: 'ebreak', 0xC0001073: 'unimp', 0x30200073: 'mret', 0x10500073: 'wfi'}
ATOMICS = {0: 'amoadd', 1: 'amoswap', 2: 'lr', 3: 'sc', 4: 'amoxor', 8: 'amoor', 12: 'amoand', 16: 'amomin', 20: 'amomax',
           24: 'amominu', 28: 'amomaxu'}


def bits(word, high, low):
    return word >> low & (1 << high - low + 1) - 1


def signed(value, width):
    return value - (1 << width) if value >> width - 1 & 1 else value


def opcode(word):
    return bits(word, 6, 0)


def rd(word):
    return bits(word, 11, 7)


def rs1(word):
    return bits(word, 19, 15)


def rs2(word):
    return bits(word, 24, 20)


def funct3(word):
    return bits(word, 14, 12)


def immediate_i(word):
    return signed(bits(word, 31, 20), 12)


def immediate_s(word):
    return signed(bits(word, 31, 25) << 5 | bits(word, 11, 7), 12)


def immediate_b(word):
    return signed(bits(word, 31, 31) << 12 | bits(word, 7, 7) << 11 | bits(word, 30, 25) << 5 | bits(word, 11, 8) << 1, 13)


def immediate_j(word):
    return signed(bits(word, 31, 31) << 20 | bits(word, 19, 12) << 12 | bits(word, 20, 20) << 11 | bits(word, 30, 21) << 1, 21)


def place(address):
    return f'{address % (1 << 32):08x}'


def written_register(word):
    """The register that the word's instruction sets, or None."""
    if opcode(word) in (0x37, 0x17, 0x6F, 0x67, 0x03, 0x13, 0x33):
        return rd(word) or None
    return None


# ---- words


def disassemble(word, pc, length=4):
    """The instruction of a word at pc. A word that is spelled in 2 bytes is the one that a halfword stands for."""
    if length == 2:
        text = short_form(word)
        if text:
            return text
    writer = WRITERS.get(opcode(word))
    return writer and writer(word, pc) or f'.4byte 0x{word:x}'


def step(entry, name=''):
    """A step of a trace: address and name, instruction, and where it leads if that is not the next instruction."""
    text = f'{place(entry.program_counter)}{name}  {disassemble(entry.word, entry.program_counter, entry.length)}'
    straight = entry.next_program_counter == (entry.program_counter + entry.length) % (1 << 32)
    return text if straight else f'{text}  -> {place(entry.next_program_counter)}'


def short_form(word):
    """How objdump writes a halfword, where it isn't as the word that it stands for. A hint of C.LI has the word of a C.NOP and reads as
    that; hints of C.MV and C.ADD have the same words and read as these."""
    d, s1, s2 = ABI[rd(word)], ABI[rs1(word)], ABI[rs2(word)]
    if opcode(word) == 0x33 and rd(word) and word == add_word(rd(word), 0, rs2(word)):
        return f'mv {d},{s2}'
    if opcode(word) == 0x37 and rd(word) == 0:
        return f'c.{upper("lui")(word, 0)}'
    if opcode(word) != 0x13:
        return None
    kind, value = funct3(word), immediate_i(word)
    shift = SHIFTS.get((kind, bits(word, 31, 25)))
    if kind == 0 and rd(word) == 0 and value:
        return f'c.nop {value}'
    if shift and rs2(word) == 0:
        return f'c.{shift}64 {d}'
    if shift == 'slli' and rd(word) == rs1(word) == 0:
        return f'c.slli {d},0x{rs2(word):x}'
    return f'addi {d},{s1},0' if kind == value == 0 and rs1(word) else None


def upper(name):
    return lambda word, pc: f'{name} {ABI[rd(word)]},0x{bits(word, 31, 12):x}'


def jump(word, pc):
    target = place(pc + immediate_j(word))
    return {0: f'j {target}', 1: f'jal {target}'}.get(rd(word), f'jal {ABI[rd(word)]},{target}')


def jump_register(word, pc):
    if funct3(word):
        return None
    base, offset = ABI[rs1(word)], immediate_i(word)
    where = f'{offset}({base})' if offset else base
    if rd(word) == 0:
        return 'ret' if where == 'ra' else f'jr {where}'
    return f'jalr {where}' if rd(word) == 1 else f'jalr {ABI[rd(word)]},{where}'


def branch(word, pc):
    name, one, two, target = BRANCHES.get(funct3(word)), rs1(word), rs2(word), place(pc + immediate_b(word))
    if name is None:
        return None
    if one == 0 and (name == 'bge' or name == 'blt' and two):
        return f'{dict(blt="bgtz", bge="blez")[name]} {ABI[two]},{target}'
    if two == 0 and name in ('beq', 'bne', 'blt', 'bge'):
        return f'{name}z {ABI[one]},{target}'
    return f'{name} {ABI[one]},{ABI[two]},{target}'


def load(word, pc):
    name = LOADS.get(funct3(word))
    return name and f'{name} {ABI[rd(word)]},{immediate_i(word)}({ABI[rs1(word)]})'


def store(word, pc):
    name = STORES.get(funct3(word))
    return name and f'{name} {ABI[rs2(word)]},{immediate_s(word)}({ABI[rs1(word)]})'


def immediate(word, pc):
    kind, d, s, value = funct3(word), ABI[rd(word)], ABI[rs1(word)], immediate_i(word)
    if kind in (1, 5):
        name = SHIFTS.get((kind, bits(word, 31, 25)))
        return name and f'{name} {d},{s},0x{rs2(word):x}'
    if kind == 0 and word == 0x13:
        return 'nop'
    if kind == 0 and rs1(word) == 0:
        return f'li {d},{value}'
    alias = {(0, 0): 'mv', (3, 1): 'seqz', (4, -1): 'not', (7, 255): 'zext.b'}.get((kind, value))
    return f'{alias} {d},{s}' if alias else f'{IMMEDIATES[kind]} {d},{s},{value}'


def register(word, pc):
    names = REGISTERS.get(bits(word, 31, 25))
    name = names and names[funct3(word)]
    if not name:
        return None
    d, one, two = ABI[rd(word)], ABI[rs1(word)], ABI[rs2(word)]
    if rs1(word) == 0 and name in ('sub', 'sltu', 'slt'):
        return f'{dict(sub="neg", sltu="snez", slt="sgtz")[name]} {d},{two}'
    if rs2(word) == 0 and name == 'slt':
        return f'sltz {d},{one}'
    return f'{name} {d},{one},{two}'


def fence(word, pc):
    if funct3(word) == 1:
        return 'fence.i'
    if funct3(word):
        return None
    if word == 0x8330000F:
        return 'fence.tso'
    before, after = (''.join(letter for k, letter in enumerate('iorw') if mask >> 3 - k & 1)
                     for mask in (bits(word, 27, 24), bits(word, 23, 20)))
    return f'fence {before},{after}' if before and after and (before, after) != ('iorw', 'iorw') else 'fence'


def system(word, pc):
    if word in FIXED:
        return FIXED[word]
    name = CSR_OPERATIONS.get(funct3(word) & 3)
    if name is None:
        return None
    number, literal = bits(word, 31, 20), funct3(word) >= 4
    csr = CSRS.get(number, f'0x{number:x}')
    if name == 'csrs' and rs1(word) == 0 and not literal:
        return f'rd{csr} {ABI[rd(word)]}' if number in COUNTERS else f'csrr {ABI[rd(word)]},{csr}'
    source = str(rs1(word)) if literal else ABI[rs1(word)]
    tail = 'i' if literal else ''
    if rd(word) == 0:
        return f'{name}{tail} {csr},{source}'
    return f'csrr{name[-1]}{tail} {ABI[rd(word)]},{csr},{source}'


def atomic(word, pc):
    name = ATOMICS.get(bits(word, 31, 27))
    if funct3(word) != 2 or name is None or name == 'lr' and rs2(word):
        return None
    order = ('', '.rl', '.aq', '.aqrl')[bits(word, 26, 25)]
    source = '' if name == 'lr' else f'{ABI[rs2(word)]},'
    return f'{name}.w{order} {ABI[rd(word)]},{source}({ABI[rs1(word)]})'


WRITERS = {0x37: upper('lui'), 0x17: upper('auipc'), 0x6F: jump, 0x67: jump_register, 0x63: branch, 0x03: load, 0x23: store,
           0x13: immediate, 0x33: register, 0x0F: fence, 0x73: system, 0x2F: atomic}


# ---- halfwords


def i_word(code, kind, d, s, value):
    return (value & 0xFFF) << 20 | s << 15 | kind << 12 | d << 7 | code


def s_word(kind, s, base, offset):
    return bits(offset, 11, 5) << 25 | s << 20 | base << 15 | kind << 12 | bits(offset, 4, 0) << 7 | 0x23


def b_word(kind, s, offset):
    return (bits(offset, 12, 12) << 31 | bits(offset, 10, 5) << 25 | s << 15 | kind << 12 | bits(offset, 4, 1) << 8
            | bits(offset, 11, 11) << 7 | 0x63)


def j_word(d, offset):
    return (bits(offset, 20, 20) << 31 | bits(offset, 10, 1) << 21 | bits(offset, 11, 11) << 20 | bits(offset, 19, 12) << 12
            | d << 7 | 0x6F)


def add_word(d, one, two):
    return two << 20 | one << 15 | d << 7 | 0x33


def gather(half, *pieces):
    """A number whose bits are those of a halfword: pieces (from, to) for single bits."""
    return sum((half >> source & 1) << target for source, target in pieces)


def expand(half):
    """The word that a halfword stands for, or None where the run refuses it (8)."""
    return QUADRANTS[half & 3](half, half >> 13)


def quadrant_0(half, kind):
    low, base = 8 + bits(half, 4, 2), 8 + bits(half, 9, 7)
    offset = gather(half, (5, 6), (6, 2)) + (bits(half, 12, 10) << 3)
    if kind == 0:
        value = gather(half, (5, 3), (6, 2)) + (bits(half, 10, 7) << 6) + (bits(half, 12, 11) << 4)
        return i_word(0x13, 0, low, 2, value) if value else None
    if kind == 2:
        return i_word(0x03, 2, low, base, offset)
    return s_word(2, low, base, offset) if kind == 6 else None


def jump_offset(half):
    return signed(gather(half, (12, 11), (11, 4), (10, 9), (9, 8), (8, 10), (7, 6), (6, 7), (5, 3), (4, 2), (3, 1), (2, 5)), 12)


def branch_offset(half):
    return signed(gather(half, (12, 8), (11, 4), (10, 3), (6, 7), (5, 6), (4, 2), (3, 1), (2, 5)), 9)


def quadrant_1(half, kind):
    d, small = bits(half, 11, 7), 8 + bits(half, 9, 7)
    value = signed(gather(half, (12, 5)) + bits(half, 6, 2), 6)
    if kind == 0:
        return i_word(0x13, 0, d, d, value)
    if kind == 2:
        return i_word(0x13, 0, d, 0, value)
    if kind == 3:
        return upper_or_stack(half, d, value)
    if kind == 4:
        return small_arithmetic(half, small, value)
    if kind in (1, 5):
        return j_word(1 if kind == 1 else 0, jump_offset(half))
    return b_word(kind - 6, small, branch_offset(half))


def upper_or_stack(half, d, value):
    if d == 2:
        value = signed(gather(half, (12, 9), (6, 4), (5, 6), (4, 8), (3, 7), (2, 5)), 10)
        return i_word(0x13, 0, 2, 2, value) if value else None
    return (value & 0xFFFFF) << 12 | d << 7 | 0x37 if value else None


def small_arithmetic(half, d, value):
    kind, other = bits(half, 11, 10), 8 + bits(half, 4, 2)
    if kind < 2:
        return None if value < 0 else i_word(0x13, 5, d, d, value | kind << 10)
    if kind == 2:
        return i_word(0x13, 7, d, d, value)
    if half >> 12 & 1:
        return None
    code, top = ((0, 0x20), (4, 0), (6, 0), (7, 0))[bits(half, 6, 5)]
    return top << 25 | code << 12 | add_word(d, d, other)


def quadrant_2(half, kind):
    d, s = bits(half, 11, 7), bits(half, 6, 2)
    if kind == 0:
        return None if half >> 12 & 1 else i_word(0x13, 1, d, d, s)
    if kind == 2:
        return i_word(0x03, 2, d, 2, gather(half, (12, 5), (3, 7), (2, 6)) + (bits(half, 6, 4) << 2)) if d else None
    if kind == 6:
        return s_word(2, s, 2, (bits(half, 8, 7) << 6) + (bits(half, 12, 9) << 2))
    return jump_or_add(half >> 12 & 1, d, s) if kind == 4 else None


def jump_or_add(link, d, s):
    if s:
        return add_word(d, d if link else 0, s)
    if d:
        return i_word(0x67, 0, link, d, 0)
    return FIXED_EBREAK if link else None


FIXED_EBREAK = 0x00100073
QUADRANTS = {0: quadrant_0, 1: quadrant_1, 2: quadrant_2}


def disassemble_halfword(half, pc):
    """The instruction of a halfword that begins no word."""
    word = expand(half)
    if word is None:
        return f'.2byte 0x{half:x}' if half else 'unimp'
    return shared_hint(half, word) or disassemble(word, pc, 2)


def shared_hint(half, word):
    """How objdump writes a hint of C.LI, C.MV or C.ADD, whose word is another halfword's too, or None."""
    if half & 0xEF83 == 0x4001:
        return f'c.li zero,{immediate_i(word)}'
    if half & 0xEF83 == 0x8002 and opcode(word) == 0x33:
        return f'{"c.add" if half >> 12 & 1 else "c.mv"} zero,{ABI[rs2(word)]}'
    return None
