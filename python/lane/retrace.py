"""The completed steps of a run done once more, for chosen inputs: what a trace leaves out, that is registers, addresses, memory, and where an
unknown value came from. It judges nothing, and gives up where it parts from the trace."""
import collections
import itertools

from . import riscv
from .library import MAX_EVENTS, MEMORY_END, MEMORY_START, STOP

MASK = 0xFFFFFFFF
STACK = 0x801FFFF0
STOP_WORD = 0x00100073
KNOWN_AT_ENTRY = (0, 1, 2, 10)

# Where an unknown value came from: the step that set it (None at entry), a register or the address of a byte, and the origin before it.
Origin = collections.namedtuple('Origin', 'step what before')
# A value that a run tests: of one event or of none (event is None).
Tested = collections.namedtuple('Tested', 'value origin event')
CountStore = collections.namedtuple('CountStore', 'step program_counter counts')


class Parted(Exception):
    """The retrace and the trace say different things: nothing can be told."""


# ---- words: a number, or a tuple of numbers, one an input, where they differ


def same(values):
    return values[0] if all(value == values[0] for value in values) else tuple(values)


def each(operation, *words):
    if all(type(word) is int for word in words):
        return operation(*words)
    return same(tuple(map(operation, *(word if type(word) is tuple else itertools.repeat(word) for word in words))))


def signed(value):
    return value - (1 << 32) if value >> 31 else value


def quotient(one, two):
    if not two:
        return MASK
    one, two = signed(one), signed(two)
    return (abs(one) // abs(two) * (1 if (one < 0) == (two < 0) else -1)) & MASK


def remainder(one, two):
    if not two:
        return one
    one, two = signed(one), signed(two)
    return (abs(one) % abs(two) * (-1 if one < 0 else 1)) & MASK


OPERATIONS = {
    'add': lambda a, b: a + b & MASK, 'sub': lambda a, b: a - b & MASK, 'xor': lambda a, b: a ^ b, 'or': lambda a, b: a | b,
    'and': lambda a, b: a & b, 'sll': lambda a, b: a << (b & 31) & MASK, 'srl': lambda a, b: a >> (b & 31),
    'sra': lambda a, b: signed(a) >> (b & 31) & MASK, 'slt': lambda a, b: int(signed(a) < signed(b)), 'sltu': lambda a, b: int(a < b),
    'mul': lambda a, b: a * b & MASK, 'mulh': lambda a, b: signed(a) * signed(b) >> 32 & MASK,
    'mulhsu': lambda a, b: signed(a) * b >> 32 & MASK, 'mulhu': lambda a, b: a * b >> 32,
    'div': quotient, 'divu': lambda a, b: a // b if b else MASK, 'rem': remainder, 'remu': lambda a, b: a % b if b else a}
IMMEDIATES = {0: 'add', 2: 'slt', 3: 'sltu', 4: 'xor', 6: 'or', 7: 'and'}
DIRECTIONS = {0: lambda a, b: int(a == b), 1: lambda a, b: int(a != b), 4: OPERATIONS['slt'], 5: lambda a, b: int(signed(a) >= signed(b)),
              6: OPERATIONS['sltu'], 7: lambda a, b: int(a >= b)}
SIZES = {0: 1, 1: 2, 2: 4}


def is_sw(word):
    return riscv.opcode(word) == 0x23 and riscv.funct3(word) == 2


class Retrace:
    """The state after some steps of a trace."""

    def __init__(self, firmware, inputs):
        self.firmware, self.completed, self.counter = firmware, 0, firmware.entry
        self.values, self.origins = [0] * 32, [Origin(None, riscv.ABI[k], None) for k in range(32)]
        for known in KNOWN_AT_ENTRY:
            self.origins[known] = None
        self.values[1], self.values[2], self.values[10] = STOP, STACK, same(tuple(inputs))
        self.written = {STOP + k: STOP_WORD >> 8 * k & 255 for k in range(4)}
        self.byte_origins, self.count_stores = {}, []

    def follow(self, trace, end=None):
        """Does the steps of the trace up to the end."""
        for k in range(self.completed, len(trace) if end is None else end):
            entry = trace[k]
            if entry.program_counter != self.counter:
                raise Parted
            self.counter = self.step(entry)
            if self.counter != entry.next_program_counter:
                raise Parted
            self.completed += 1
        return self

    # ---- registers and memory

    def set(self, number, value, before):
        if number:
            self.values[number], self.origins[number] = value, before and Origin(self.completed, riscv.ABI[number], before)

    def byte(self, address):
        at = address - MEMORY_START
        known = self.written.get(address)
        return known if known is not None else self.firmware.image[at] if 0 <= at < len(self.firmware.image) else 0

    def load(self, address, size):
        """Bytes as a word, and the origin of the first that is unknown."""
        if not MEMORY_START <= address <= MEMORY_END - size:
            raise Parted
        places = range(address, address + size)
        origin = next(filter(None, map(self.byte_origins.get, places)), None)
        return each(lambda *bytes: sum(byte << 8 * k for k, byte in enumerate(bytes)), *map(self.byte, places)), origin

    def store(self, address, size, value, before):
        for k in range(size):
            self.written[address + k] = each(lambda word: word >> 8 * k & 255, value)
            self.byte_origins.pop(address + k, None)
            if before:
                self.byte_origins[address + k] = Origin(self.completed, address + k, before)

    def address(self, word, immediate):
        return each(lambda base: base + immediate & MASK, self.values[riscv.rs1(word)])

    def operands(self, word):
        """Two registers and the origin of the first that is unknown."""
        one, two = riscv.rs1(word), riscv.rs2(word)
        return self.values[one], self.values[two], self.origins[one] or self.origins[two]

    # ---- steps

    def step(self, entry):
        """Does one step; gives the next program counter."""
        action = ACTIONS.get(riscv.opcode(entry.word))
        if action is None:
            raise Parted
        leads = action(self, entry.word, entry.program_counter, entry.length)
        following = entry.program_counter + entry.length & MASK
        return following if leads is None else leads

    def upper(self, word, counter, length):
        base = counter if riscv.opcode(word) == 0x17 else 0
        self.set(riscv.rd(word), base + (word & 0xFFFFF000) & MASK, None)

    def jump(self, word, counter, length):
        self.set(riscv.rd(word), counter + length & MASK, None)
        return counter + riscv.immediate_j(word) & MASK

    def target(self, word):
        return each(lambda address: address & ~1, self.address(word, riscv.immediate_i(word)))

    def jump_register(self, word, counter, length):
        target = self.target(word)
        self.set(riscv.rd(word), counter + length & MASK, None)
        return target

    def direction(self, word):
        one, two, _ = self.operands(word)
        return each(DIRECTIONS[riscv.funct3(word)], one, two)

    def branch(self, word, counter, length):
        return counter + riscv.immediate_b(word) & MASK if self.direction(word) == 1 else None

    def load_register(self, word, counter, length):
        kind, address = riscv.funct3(word), self.address(word, riscv.immediate_i(word))
        if type(address) is not int or kind & 3 not in SIZES:
            raise Parted
        value, origin = self.load(address, SIZES[kind & 3])
        if kind < 2:
            value = each(lambda word: riscv.signed(word, 8 << kind) & MASK, value)
        self.set(riscv.rd(word), value, origin)

    def store_register(self, word, counter, length):
        address, size = self.address(word, riscv.immediate_s(word)), SIZES.get(riscv.funct3(word))
        if type(address) is not int or size is None:
            raise Parted
        self.store(address, size, self.values[riscv.rs2(word)], self.origins[riscv.rs2(word)])
        if self.firmware.event_count - size < address < self.firmware.event_count + 4:
            counts = size == 4 and address == self.firmware.event_count
            self.count_stores.append(CountStore(self.completed, counter, counts))

    def immediate(self, word, counter, length):
        kind, value = riscv.funct3(word), riscv.immediate_i(word) & MASK
        name = {1: 'sll', 5: 'sra' if word >> 30 & 1 else 'srl'}.get(kind) or IMMEDIATES[kind]
        one = riscv.rs1(word)
        self.set(riscv.rd(word), each(OPERATIONS[name], self.values[one], value), self.origins[one])

    def register(self, word, counter, length):
        names = riscv.REGISTERS.get(riscv.bits(word, 31, 25))
        name = names and names[riscv.funct3(word)]
        if not name:
            raise Parted
        one, two, origin = self.operands(word)
        self.set(riscv.rd(word), each(OPERATIONS[name], one, two), origin)

    def nothing(self, word, counter, length):
        pass

    # ---- what the run tests next

    def coming(self):
        """The word of the instruction at the program counter and its length, or None where that is none."""
        half, _ = self.load(self.counter, 2)
        if type(half) is not int:
            return None
        if half & 3 != 3:
            word = riscv.expand(half)
            return None if word is None else (word, 2)
        word, _ = self.load(self.counter, 4)
        return (word, 4) if type(word) is int else None

    def tested(self, role):
        """The values of a role that are tested after the completed steps, in the run's order."""
        if role == 1:
            return [Tested(*self.load(self.counter, size), None) for size in (2, 4) if self.counter + size <= MEMORY_END]
        if role == 6:
            return [Tested(self.values[10], self.origins[10], None)]
        if role == 7:
            return [Tested(*self.load(self.firmware.event_count, 4), None)]
        return self.tested_fields(role) if role >= 8 else [self.tested_operand(role)]

    def tested_operand(self, role):
        found = self.coming()
        if found is None:
            raise Parted
        word, base = found[0], self.origins[riscv.rs1(found[0])]
        if role == 5:
            return Tested(self.direction(word), self.operands(word)[2], None)
        value = {2: lambda: self.target(word), 3: lambda: self.address(word, riscv.immediate_i(word)),
                 4: lambda: self.address(word, riscv.immediate_s(word))}[role]()
        return Tested(value, base, None)

    def tested_fields(self, role):
        count, _ = self.load(self.firmware.event_count, 4)
        if type(count) is not int or count > MAX_EVENTS:
            raise Parted
        starts = [self.firmware.events + 12 * k + 4 * (role - 8) for k in range(count)]
        return [Tested(*self.load(start, 4), k) for k, start in enumerate(starts, 1) if start <= MEMORY_END - 4]

    def state(self):
        """All that later steps depend on."""
        return self.counter, list(zip(self.values, map(bool, self.origins))), dict(self.written), set(self.byte_origins)

    def locations(self):
        return [store.program_counter for store in self.count_stores if store.counts]


ACTIONS = {0x37: Retrace.upper, 0x17: Retrace.upper, 0x6F: Retrace.jump, 0x67: Retrace.jump_register, 0x63: Retrace.branch,
           0x03: Retrace.load_register, 0x23: Retrace.store_register, 0x13: Retrace.immediate, 0x33: Retrace.register, 0x0F: Retrace.nothing}
