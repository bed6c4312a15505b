"""The instructions that a run refuses: their names, and the extensions that have them."""
import re

from .riscv import bits, funct3, opcode, rd, rs2

SINGLE = {0: ('s', 'F'), 1: ('d', 'D'), 2: ('h', 'Zfh'), 3: ('q', 'Q')}  # the formats of floating-point words
FUSED = {0x43: 'fmadd', 0x47: 'fmsub', 0x4B: 'fnmsub', 0x4F: 'fnmadd'}
FLOATS = {0: 'fadd', 1: 'fsub', 2: 'fmul', 3: 'fdiv', 0xB: 'fsqrt'}
SIGNS, EXTREMES, COMPARES = ('fsgnj', 'fsgnjn', 'fsgnjx'), ('fmin', 'fmax'), ('fle', 'flt', 'feq')
INTEGERS = ('w', 'wu', 'l', 'lu')
WIDTHS = {1: ('h', 'Zfh'), 2: ('w', 'F'), 3: ('d', 'D'), 4: ('q', 'Q')}
VECTOR_WIDTHS = (0, 5, 6, 7)
ATOMICS = {0: 'amoadd', 1: 'amoswap', 2: 'lr', 3: 'sc', 4: 'amoxor', 8: 'amoor', 12: 'amoand', 16: 'amomin', 20: 'amomax', 24: 'amominu',
           28: 'amomaxu', 5: 'amocas'}
FIXED = {0x00000073: ('ecall', 'a call of an operating system'), 0x00100073: ('ebreak', 'a stop for a debugger'),
         0x30200073: ('mret', 'the privileged architecture'), 0x10200073: ('sret', 'the privileged architecture'),
         0x10500073: ('wfi', 'the privileged architecture'), 0x00D00073: ('wrs.nto', 'Zawrs'), 0x01D00073: ('wrs.sto', 'Zawrs')}
CSR = {1: 'csrrw', 2: 'csrrs', 3: 'csrrc', 5: 'csrrwi', 6: 'csrrsi', 7: 'csrrci'}
# by bits 31 to 25 and funct3
REGISTERS = {
    (0x10, 2): ('sh1add', 'Zba'), (0x10, 4): ('sh2add', 'Zba'), (0x10, 6): ('sh3add', 'Zba'),
    (0x20, 7): ('andn', 'Zbb'), (0x20, 6): ('orn', 'Zbb'), (0x20, 4): ('xnor', 'Zbb'), (0x30, 1): ('rol', 'Zbb'), (0x30, 5): ('ror', 'Zbb'),
    (0x05, 4): ('min', 'Zbb'), (0x05, 5): ('minu', 'Zbb'), (0x05, 6): ('max', 'Zbb'), (0x05, 7): ('maxu', 'Zbb'),
    (0x05, 1): ('clmul', 'Zbc'), (0x05, 2): ('clmulr', 'Zbc'), (0x05, 3): ('clmulh', 'Zbc'),
    (0x14, 1): ('bset', 'Zbs'), (0x24, 1): ('bclr', 'Zbs'), (0x34, 1): ('binv', 'Zbs'), (0x24, 5): ('bext', 'Zbs'),
    (0x04, 4): ('pack', 'Zbkb'), (0x04, 7): ('packh', 'Zbkb'), (0x14, 2): ('xperm4', 'Zbkx'), (0x14, 4): ('xperm8', 'Zbkx'),
    (0x07, 5): ('czero.eqz', 'Zicond'), (0x07, 7): ('czero.nez', 'Zicond')}
IMMEDIATES = {(0x14, 1): ('bseti', 'Zbs'), (0x24, 1): ('bclri', 'Zbs'), (0x34, 1): ('binvi', 'Zbs'), (0x24, 5): ('bexti', 'Zbs'),
              (0x30, 5): ('rori', 'Zbb')}
COUNTS = {0: 'clz', 1: 'ctz', 2: 'cpop', 4: 'sext.b', 5: 'sext.h'}
BYTES = {0x287: ('orc.b', 'Zbb'), 0x698: ('rev8', 'Zbb'), 0x687: ('brev8', 'Zbkb'), 0x08F: ('unzip', 'Zbkb')}
CACHE = {0: ('cbo.inval', 'Zicbom'), 1: ('cbo.clean', 'Zicbom'), 2: ('cbo.flush', 'Zicbom'), 4: ('cbo.zero', 'Zicboz')}
SIXTY_FOUR = {(0x03, 3): 'ld', (0x03, 6): 'lwu', (0x23, 3): 'sd'}
CUSTOM = {0x0B: 'custom-0', 0x2B: 'custom-1', 0x5B: 'custom-2', 0x7B: 'custom-3'}


def refused_word(word):
    """The name of a word that no row accepts, and what has it; None where it is not known here."""
    if word in FIXED:
        return FIXED[word]
    if word & 0x1F == 0x1F:
        return None, 'an encoding longer than 32 bits'
    if opcode(word) in CUSTOM:
        return None, f'the space {CUSTOM[opcode(word)]} of a maker\'s own instructions'
    reader = READERS.get(opcode(word))
    return reader(word) if reader else None


def of_system(word):
    if funct3(word) in CSR:
        return CSR[funct3(word)], 'extension Zicsr'
    return (None, 'the hypervisor extension H') if funct3(word) == 4 else (None, 'the privileged architecture')


def of_atomic(word):
    width, name = {0: 'b', 1: 'h', 2: 'w', 3: 'd'}.get(funct3(word)), ATOMICS.get(bits(word, 31, 27))
    if width is None or name is None:
        return None
    where = 'RV64' if width == 'd' else 'extension Zacas' if name == 'amocas' else 'extension A' if width == 'w' else 'extension Zabha'
    return f'{name}.{width}', where


def of_float_memory(word):
    stores = opcode(word) == 0x27
    if funct3(word) in VECTOR_WIDTHS:
        return f'a vector {"store" if stores else "load"}', 'extension V'
    letter, where = WIDTHS.get(funct3(word), (None, None))
    return letter and (f'f{"s" if stores else "l"}{letter}', f'extension {where}')


def of_fused(word):
    letter, where = SINGLE[bits(word, 26, 25)]
    return f'{FUSED[opcode(word)]}.{letter}', f'extension {where}'


def of_float(word):
    letter, where = SINGLE[bits(word, 26, 25)]
    name = float_name(bits(word, 31, 27), letter, word)
    if bits(word, 31, 27) == 8 and letter == 's' and rs2(word) in SINGLE:
        where = SINGLE[rs2(word)][1]  # a conversion is the other format's
    return name, f'extension {where}'


def float_name(kind, letter, word):
    """The name of a floating-point operation, or None."""
    way = funct3(word)
    if kind in FLOATS:
        return f'{FLOATS[kind]}.{letter}'
    for number, names in (4, SIGNS), (5, EXTREMES), (0x14, COMPARES):
        if kind == number and way < len(names):
            return f'{names[way]}.{letter}'
    if kind == 8 and rs2(word) < 4:
        return f'fcvt.{letter}.{SINGLE[rs2(word)][0]}'
    if kind in (0x18, 0x1A) and rs2(word) < 4:
        integer = INTEGERS[rs2(word)]
        return f'fcvt.{integer}.{letter}' if kind == 0x18 else f'fcvt.{letter}.{integer}'
    bits_of = {'s': 'w', 'h': 'h', 'd': 'd'}.get(letter)
    if kind == 0x1C and way == 1:
        return f'fclass.{letter}'
    return bits_of and {(0x1C, 0): f'fmv.x.{bits_of}', (0x1E, 0): f'fmv.{bits_of}.x'}.get((kind, way))


def of_vector(word):
    return ('vsetvli or its like' if funct3(word) == 7 else None), 'extension V'


def of_register(word):
    if bits(word, 31, 20) == 0x080 and funct3(word) == 4:
        return 'zext.h', 'extension Zbb'
    found = REGISTERS.get((bits(word, 31, 25), funct3(word)))
    return found and (found[0], f'extension {found[1]}')


def of_immediate(word):
    found = IMMEDIATES.get((bits(word, 31, 25), funct3(word)))
    if bits(word, 31, 25) == 0x30 and funct3(word) == 1 and rs2(word) in COUNTS:
        found = COUNTS[rs2(word)], 'Zbb'
    if funct3(word) == 5:
        found = BYTES.get(bits(word, 31, 20), found)
    elif funct3(word) == 1 and bits(word, 31, 20) == 0x08F:
        found = 'zip', 'Zbkb'
    if found is None and funct3(word) in (1, 5) and bits(word, 31, 26) in (0, 0x10) and bits(word, 25, 25):
        return 'a shift by more than 31', 'RV64'
    return found and (found[0], f'extension {found[1]}')


def of_memory(word):
    name = SIXTY_FOUR.get((opcode(word), funct3(word)))
    return name and (name, 'RV64')


def of_fence(word):
    found = CACHE.get(bits(word, 31, 20)) if funct3(word) == 2 and rd(word) == 0 else None
    return found and (found[0], f'extension {found[1]}')


def of_sixty_four(word):
    return None, 'RV64'


READERS = {0x73: of_system, 0x2F: of_atomic, 0x07: of_float_memory, 0x27: of_float_memory, 0x53: of_float, 0x57: of_vector,
           0x33: of_register, 0x13: of_immediate, 0x03: of_memory, 0x23: of_memory, 0x0F: of_fence, 0x1B: of_sixty_four,
           0x3B: of_sixty_four, **dict.fromkeys(FUSED, of_fused)}

OWN = {'i', 'm', 'c', 'zmmul', 'zca', 'zicsr', 'zifencei'}  # what the run takes, and what is named in passing


def beyond(arch):
    """The extensions beyond the run's own that an architecture as rv32i2p1_m2p0_zbb1p0 names."""
    parts = [re.sub(r'\d+p\d+$', '', part) for part in re.sub('^rv32', '', arch).split('_') if part]
    return [part for part in parts if part not in OWN]


# ---- halfwords

# by quadrant and bits 15 to 13
COMPRESSED = {(0, 1): ('c.fld', 'C with D'), (0, 3): ('c.flw', 'C with F'), (0, 5): ('c.fsd', 'C with D'), (0, 7): ('c.fsw', 'C with F'),
              (2, 1): ('c.fldsp', 'C with D'), (2, 3): ('c.flwsp', 'C with F'), (2, 5): ('c.fsdsp', 'C with D'), (2, 7): ('c.fswsp', 'C with F')}
PUSHES = {0x18: 'cm.push', 0x1A: 'cm.pop', 0x1C: 'cm.popretz', 0x1E: 'cm.popret'}  # Zcmp, by bits 12 to 8
UNARY = {0: 'c.zext.b', 1: 'c.sext.b', 2: 'c.zext.h', 3: 'c.sext.h', 4: 'c.zext.w', 5: 'c.not'}


def of_zcb_memory(half):
    kind = bits(half, 12, 10)
    return {0: 'c.lbu', 1: 'c.lh' if half >> 6 & 1 else 'c.lhu', 2: 'c.sb', 3: None if half >> 6 & 1 else 'c.sh'}.get(kind)


def of_table_jump(half, arch):
    """What C.FSDSP's space is where the firmware was compiled for Zcmp or Zcmt instead."""
    if '_zcmp' in arch and bits(half, 12, 8) in PUSHES:
        return PUSHES[bits(half, 12, 8)], 'extension Zcmp'
    if '_zcmp' in arch and bits(half, 12, 10) == 3 and bits(half, 6, 5) in (1, 3):
        return 'cm.mva01s' if bits(half, 6, 5) == 3 else 'cm.mvsa01', 'extension Zcmp'
    if '_zcmt' in arch and bits(half, 12, 10) == 0:
        return 'cm.jt' if bits(half, 9, 2) < 32 else 'cm.jalt', 'extension Zcmt'
    return None


def refused_halfword(half, arch=''):
    """The same of a halfword; arch is what .riscv.attributes says of the firmware, or ''."""
    quadrant, kind = half & 3, half >> 13
    if (quadrant, kind) == (2, 5) and of_table_jump(half, arch):
        return of_table_jump(half, arch)
    if (quadrant, kind) in COMPRESSED:
        name, where = COMPRESSED[quadrant, kind]
        return name, f'extensions {where.replace(" with ", " and ")}'
    if (quadrant, kind) == (0, 4) and of_zcb_memory(half):
        return of_zcb_memory(half), 'extension Zcb'
    if (quadrant, kind) == (1, 4) and bits(half, 12, 10) == 7:
        low = bits(half, 6, 5)
        if low < 2:
            return ('c.subw', 'c.addw')[low], 'RV64'
        name = 'c.mul' if low == 2 else UNARY.get(bits(half, 4, 2))
        return name and (name, 'RV64' if name == 'c.zext.w' else 'extension Zcb')
    return None
