"""lane show, record-text: a record for people."""
import json

from . import elf, library, record, riscv
from .command import Parser, command, file_name, read, say, shown, write_pieces
from .errors import Failure
from .library import MAX_STEPS, MEMORY_END, MEMORY_START, SYMBOL_BYTES, record_bytes

MOST = record_bytes(MAX_STEPS) + 1  # one byte more than a record may have
DESCRIPTION = '''\
Writes a record as text: the verdict, the events, and the steps with their
instructions as objdump writes them. Without FILE, or with -, it reads standard
input. Whether the bytes are a record is told by the proved reader.
'''
EPILOG = '''\
Exit status: 0 a record, of an accepted or a refused run; 2 no record (15, with
the rule that is broken), or an error (bad usage, a file that can't be read, a
failed write).
'''


def options(prog, words):
    parser = Parser(prog, DESCRIPTION, EPILOG)
    parser.add_argument('file', metavar='FILE', nargs='?', default='-', type=file_name)
    kind = parser.add_mutually_exclusive_group()
    kind.add_argument('--bytes', action='store_true', help="each item's bytes before its text")
    kind.add_argument('--json', action='store_true', help='one JSON object')
    kind.add_argument('--csv', action='store_true', help='the steps as comma-separated values')
    return parser.parse_args(words)


def looks_like(contents):
    """What bytes that are no record may be instead."""
    addresses = [int.from_bytes(contents[at:at + 4], 'little') for at in (0, 4, 8)]
    if contents[:4] == elf.MAGIC:
        return '; this is an ELF: ./lane-check runs it'
    if len(contents) > SYMBOL_BYTES and all(MEMORY_START <= address < MEMORY_END for address in addresses):
        return '; this is an input of lane-run, not a record: ./lane-run runs it'
    return ''


# ---- text


def lines(outcome):
    """The text of each item."""
    if isinstance(outcome, record.Refused):
        more = '; ./lane-check lends more' if outcome.number in (record.TOO_FEW_ROWS, record.TOO_FEW_STEPS) else ''
        yield f'{record.verdict(outcome)} (caused by the {record.cause(outcome.number)}{more})'
        return
    inputs = record.inputs_text(record.inputs_of(outcome))
    yield f'{record.verdict(outcome)}, for {inputs}; {record.count(outcome.written_bytes, "written byte")}'
    for k, event in enumerate(outcome.events, 1):
        yield record.event_text(k, event)
    for k, step in enumerate(outcome.trace, 1):
        yield f'{k:6,}  {riscv.step(step)}'


def text(contents, outcome, with_bytes):
    for item, line in zip(record.items(contents), lines(outcome)):
        yield f'{item.hex(" ").upper()}  {line}\n' if with_bytes else f'{line}\n'


def step_fields(step):
    return {**step._asdict(), 'instruction': riscv.disassemble(step.word, step.program_counter, step.length)}


def as_json(outcome):
    """An object, whose trace is put together step by step."""
    if isinstance(outcome, record.Refused):
        yield json.dumps({'verdict': 'refused', **record.refusal_fields(outcome)}) + '\n'
        return
    before = {'verdict': 'accepted', **outcome._asdict(), 'events': [event._asdict() for event in outcome.events]}
    del before['trace']
    yield json.dumps(before)[:-1] + ', "trace": ['
    for k, step in enumerate(outcome.trace):
        yield (', ' if k else '') + json.dumps(step_fields(step))
    yield ']}\n'


def as_csv(outcome):
    """The steps, a line each; a refused run's record has none."""
    yield ','.join(['step', *record.Step._fields, 'instruction']) + '\n'
    for k, step in enumerate(getattr(outcome, 'trace', []), 1):
        instruction = step_fields(step)['instruction']
        yield (f'{k},0x{step.program_counter:08x},0x{step.word:08x},{step.length},0x{step.next_program_counter:08x},'
               + (f'"{instruction}"\n' if ',' in instruction else f'{instruction}\n'))


def body(prog, words):
    given = options(prog, words)
    contents = read(given.file, MOST)  # before a build: a program before this one in a pipe may be building too
    proved = library.proved(lambda line: say(prog, line))
    try:
        outcome = record.read_record(contents, proved)
    except Failure as why:
        raise Failure(f'{shown(given.file)}: {why.number}: {why}{looks_like(contents)}') from None
    write_pieces(as_json(outcome) if given.json else as_csv(outcome) if given.csv else text(contents, outcome, given.bytes))
    return 0


def main(prog='record-text', words=None):
    return command(prog, lambda: body(prog, words))
