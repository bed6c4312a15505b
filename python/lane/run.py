"""lane run: the record of a run with check's limits and range. lane-run: document 01's program."""
import subprocess
import sys

from . import build, doubts, library, record, setting
from .command import Parser, command, file_name, read, say, shown, write
from .errors import Failure
from .firmware import Firmware
from .library import MAX_INPUT_IMAGE_BYTES, SYMBOL_BYTES

MOST = SYMBOL_BYTES + MAX_INPUT_IMAGE_BYTES + 1  # one byte more than an input may have, so that a longer one is refused and not cut
DESCRIPTION = '''\
Runs FILE once with all inputs from FIRST to LAST, or else 6 to 255, and writes
the record of the run (docs/RECORD.md). FILE is a linked RV32 program, an ELF, or
an input of lane-run; - is standard input.
'''
EPILOG = '''\
SYMBOL is a name from the ELF or an address such as 0x80001000.
Exit status: 0 the run is accepted, and its record written; 1 refused, and the
firmware is the cause (3 to 12); 2 an error, and the caller is (1, 2, 17, bad
usage, a file that can't be read or is no firmware, a failed write); 3 undecided,
since too little was lent (13, 14). A refused run has a record too, but for 17.
'''
PROGRAM_DESCRIPTION = '''\
Runs an image once with all invalid channels, 6 to 255, and writes the record of
the run (docs/RECORD.md). FILE has the addresses of entry, event count and events
(4 bytes each, little-endian), then the image; tools/pack-firmware makes it.
Without FILE, or with -, it is standard input.

It lends 200 rows (written bytes) and 2,048 trace entries (steps), and takes an
image of up to 32,768 bytes; ./lane-check lends more.
'''
PROGRAM_EPILOG = '''\
Exit status: 0 the record is written, of an accepted or a refused run; 2 an error
(bad usage, a file that can't be read, a failed write). ./lane-check tells
accepted from refused by its status.
'''


def parse(parser, words):
    """The options with FILE and -o."""
    parser.add_argument('file', metavar='FILE', nargs='?', default='-', type=file_name)
    parser.add_argument('-o', metavar='RECORD', dest='output', type=file_name, help='where to write; standard output if not given')
    given = parser.parse_args(words)
    if given.output is None and sys.stdout is not None and sys.stdout.isatty():
        parser.error('a record is binary: name a file with -o, or pipe it to lane show')
    return given


def program_body(prog, words):
    given = parse(Parser(prog, PROGRAM_DESCRIPTION, PROGRAM_EPILOG), words)
    contents = read(given.file, MOST)  # before a build: a program before this one in a pipe may be building too
    path = build.program('lane_run', lambda line: say(prog, line))
    try:
        ran = subprocess.run([path], input=contents, stdout=subprocess.PIPE)
    except OSError as why:
        raise Failure(f'cannot run {path}: {why.strerror}') from None
    if ran.returncode or not ran.stdout:
        raise Failure(f'{path} wrote no record: it failed, or could not read its input (status {ran.returncode})')
    write(ran.stdout, given.output)
    return 0


def body(prog, words):
    parser = Parser(prog, DESCRIPTION, EPILOG)
    setting.add_options(parser)
    given = parse(parser, words)
    loaded = Firmware.read(given.file, given.entry, given.event_count, given.events, given.startup)
    ran = loaded.attempt(**setting.chosen(given), proved=library.proved(lambda line: say(prog, line)))
    for warning in [*loaded.warnings, *doubts.of_run(loaded, ran)]:
        say(prog, f'{shown(given.file)}: warning: {warning}')
    if ran.record:
        write(ran.record, given.output)
    if isinstance(ran.outcome, record.Refused):
        say(prog, f'{shown(given.file)}: {record.verdict(ran.outcome)}')
    return record.status(ran.outcome)


def program_main(prog='lane-run', words=None):
    return command(prog, lambda: program_body(prog, words))


def main(prog='lane run', words=None):
    return command(prog, lambda: body(prog, words))
