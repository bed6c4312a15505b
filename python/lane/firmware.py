"""What is run: a packed input, or a linked RV32 program, with the names of its places."""
import collections
import dataclasses
import hashlib
import struct

from . import elf, library, record, riscv
from .command import read, shown
from .errors import Failure, Undecided
from .library import MEMORY_START, SYMBOL_BYTES

ROWS, STEPS = 4096, 250000  # lent where nothing else is said
FEW_ROWS = 512  # lent first
MOST = 1 << 28  # bytes of a file, debugging information included
Run = collections.namedtuple('Run', 'record outcome trace')  # the trace has the completed steps of a refused run too


@dataclasses.dataclass(frozen=True)
class Firmware:
    name: str
    image: bytes
    entry: int
    event_count: int
    events: int
    functions: list  # (address, size, name), in order
    warnings: list
    elf: bytes  # empty where the file is a packed input
    copied: list  # (address, bytes) that start-up code has to bring there
    file_sha256: str

    @classmethod
    def read(cls, path, entry=None, event_count=None, events=None, startup=False):
        """A file as firmware, - for standard input; the others are symbols or addresses such as 0x80001000, and whether the entry is start-up
        code that copies initialised data."""
        contents = read(path, MOST + 1)
        if len(contents) > MOST:
            raise Failure(f'{shown(path)}: above {MOST:,} bytes')
        words = [entry, event_count, events]
        try:
            parts = from_elf(contents, words, startup) if contents[:4] == elf.MAGIC else from_input(contents, words)
        except elf.Unfit as why:
            raise Failure(f'{shown(path)}: {why}') from None
        return cls(path, *parts, hashlib.sha256(contents).hexdigest())

    @property
    def symbols(self):
        return self.entry, self.event_count, self.events

    def attempt(self, *, inputs=record.INVALID_CHANNELS, rows=ROWS, steps=STEPS, proved=None):
        """The run, whatever it is refused with. One that is refused for its range of inputs has no record."""
        proved, chosen = proved or library.proved(), {'inputs': inputs, 'steps': steps}
        if self.copied:
            self.check_copies(rows=rows, proved=proved, **chosen)
        few = min(rows, FEW_ROWS)  # a run sets all rows to zero first; more change nothing but 13 (MoreRows, predicate_semantics/specs/Lent.antt)
        ran = self.lent(proved, rows=few, **chosen)
        return self.lent(proved, rows=rows, **chosen) if few < rows and getattr(ran.outcome, 'number', 0) == record.TOO_FEW_ROWS else ran

    def lent(self, proved, **chosen):
        """The one run of the library with what is chosen and lent."""
        try:
            whole = proved.run(self.image, self.symbols, **chosen)
        except Failure as why:
            if why.number != record.FIRST_ABOVE_LAST:
                raise
            return Run(b'', record.Refused(why.number, 0, 0), record.Trace(b''))
        outcome = record.read_record(whole, proved)
        accepted = isinstance(outcome, record.Accepted)
        return Run(whole, outcome, outcome.trace if accepted else record.Trace(proved.trace(outcome.completed_steps)))

    def check_copies(self, **chosen):
        """The entry is start-up code: of each piece that it has to copy, the first and the last word that are not zero are stored. A run with
        its event count there tells: only where nothing is stored can it be accepted without an event."""
        for address, contents in self.copied:
            words = [address + k for k in range(0, len(contents), 4) if any(contents[k:k + 4])]
            for word in words[:1] + words[1:][-1:]:
                outcome = dataclasses.replace(self, event_count=word, copied=[]).attempt(**chosen).outcome
                if isinstance(outcome, record.Accepted) and not outcome.events:
                    raise Failure(f'{shown(self.name)}: the entry, {self.entry:08x}, is no start-up code that copies initialised data (--startup): '
                                  f'the run stores nothing at {word:08x}')

    def run(self, *, inputs=record.INVALID_CHANNELS, rows=ROWS, steps=STEPS, proved=None):
        """The run, where it is accepted or the firmware causes the refusal. Inputs are the first and the last, each from 0 to 255; rows and
        steps are how many written bytes and steps are lent for."""
        ran = self.attempt(inputs=inputs, rows=rows, steps=steps, proved=proved)
        message = f'{shown(self.name)}: {record.verdict(ran.outcome)}'
        if record.status(ran.outcome) == Failure.status:
            raise Failure(message, ran.outcome.number)
        if record.status(ran.outcome) == Undecided.status:
            raise Undecided(message, ran)
        return ran


def from_elf(contents, words, startup):
    entry, event_count, events = words
    program = elf.load(contents, entry, event_count or 'event_count', events or 'events', startup)
    return program.image, *program.addresses, program.functions, program.warnings, contents, program.copied


def from_input(contents, words):
    """A packed input: three addresses, then the image. One that is cut short has an empty image, which every run refuses."""
    if any(word and not word[0].isdigit() for word in words):
        raise elf.Unfit('not an ELF, so it has no names: give addresses, as --entry 0x80000000')
    if record.broken_rule(contents) is None:
        raise elf.Unfit('this is the record of a run, not an input; ./record-text shows it')
    stated = struct.unpack('<3I', contents[:SYMBOL_BYTES].ljust(SYMBOL_BYTES, b'\0'))
    addresses = [int(word, 16) if word else address for word, address in zip(words, stated)]
    if max(addresses) >> 32:
        raise elf.Unfit('an address has more than 32 bits')
    return contents[SYMBOL_BYTES:], *addresses, [], [], b'', []


def packed(firmware):
    """lane-run's input of the same run."""
    return struct.pack('<3I', *firmware.symbols) + firmware.image


def instruction_at(firmware, address):
    """The instruction that the image holds at an address, or None where it holds none."""
    unit = firmware.image[address - MEMORY_START:address - MEMORY_START + 4] if address >= MEMORY_START else b''
    if len(unit) >= 2 and unit[0] & 3 != 3:
        return riscv.disassemble_halfword(struct.unpack('<H', unit[:2])[0], address)
    return riscv.disassemble(struct.unpack('<I', unit)[0], address) if len(unit) == 4 else None
