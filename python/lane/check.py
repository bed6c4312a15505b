"""lane-check: a verdict for each firmware, and where and why it is refused."""
import collections
import dataclasses

from . import document, formats, library, page, record, setting
from .command import Parser, command, file_name, say, shown, unexpected, worst, write, write_text
from .errors import Failure
from .explain import explain
from .firmware import Firmware
from .library import MIN_ROWS

FORMATS = ('text', 'json', 'sarif', 'junit', 'github', 'html')
DESCRIPTION = '''\
Runs each FILE once with all inputs from FIRST to LAST, or else with the invalid
channels of a six-channel controller, 6 to 255, and prints a verdict a line:
accepted, with return value, events and steps; or refused, with number, reason
and place. FILE is an input of lane-run (tools/pack-firmware makes it) or a
linked RV32 program, an ELF; - is standard input. The run is the proved one.
'''
EPILOG = '''\
SYMBOL is a name from the ELF or an address such as 0x80001000.
Exit status: 0 accepted; 1 refused, and the firmware is the cause (3 to 12); 2 an
error, and the caller is (1, 2, 17, bad usage, a file that can't be read or is no
firmware, a failed write); 3 undecided, since too little was lent (13, 14). Of
several files the status is 2 if any has it, else 1, else 3.
'''

Checked = collections.namedtuple('Checked', 'firmware run document')


def options(prog, words):
    parser = Parser(prog, DESCRIPTION, EPILOG)
    parser.add_argument('files', metavar='FILE', nargs='+', type=file_name)
    setting.add_options(parser)
    much = parser.add_mutually_exclusive_group()
    much.add_argument('-v', '--verbose', action='store_true', help=f'also events, the last {document.LAST_STEPS} steps, and advice')
    much.add_argument('-q', '--quiet', action='store_true', help='only what is not accepted, and no summary')
    kind = parser.add_mutually_exclusive_group()
    kind.add_argument('--format', choices=FORMATS, default='text',
                      help='text; an object a file (json); one document of all files (sarif, junit); annotations (github); a page of one FILE (html)')
    kind.add_argument('--json', action='store_const', const='json', dest='format', help='--format json')
    parser.add_argument('-o', metavar='RECORD', dest='output', type=file_name, help='also write the record of the run, of one FILE')
    given = parser.parse_args(words)
    if given.files.count('-') > 1:
        parser.error('- is standard input, and can be read once')
    if given.output is not None and len(given.files) > 1:
        parser.error('-o writes the record of one FILE: run each by itself')
    if given.format == 'html' and len(given.files) > 1:
        parser.error('--format html makes the page of one FILE: run it for each')
    return given


def starts(outcome, rows):
    """Whether a refused run came to its first step."""
    return outcome.number not in record.CALLERS and not (outcome.number == 13 and rows < MIN_ROWS)


def other_ranges(loaded, given, proved=None):
    """A function that gives the outcome of another range of inputs that is lent so many entries."""
    plain, chosen = dataclasses.replace(loaded, copied=[]), setting.chosen(given)  # what start-up code copies was looked at
    return lambda inputs, entries: plain.attempt(**{**chosen, 'inputs': inputs, 'steps': entries}, proved=proved).outcome


def check(proved, name, given):
    """Runs one file."""
    loaded = Firmware.read(name, given.entry, given.event_count, given.events, given.startup)
    run = loaded.attempt(**setting.chosen(given), proved=proved)
    refused = isinstance(run.outcome, record.Refused) and starts(run.outcome, given.rows)
    explanation = explain(loaded, run, given, other_ranges(loaded, given, proved)) if refused else None
    return Checked(loaded, run, document.of_run(loaded, run, given, explanation))


def answer(prog, proved, name, given):
    """What is printed of a file at once, and its document."""
    try:
        checked = check(proved, name, given)
    except Exception as why:  # the other files have their verdicts
        message = str(why) if isinstance(why, Failure) else f'{shown(name)}: {unexpected(why)}'
        say(prog, message)
        told = document.of_failure(name, message, given)
        return page.of_failure(told) if given.format == 'html' else formats.at_once(told, given), told
    for warning in checked.document['warnings']:
        say(prog, f'{shown(name)}: warning: {warning}')
    if given.output is not None and checked.run.record:
        write(checked.run.record, given.output)
    if given.format == 'html':
        return page.page(checked.firmware, checked.run, checked.document), checked.document
    return formats.at_once(checked.document, given), checked.document


def body(prog, words):
    given, documents = options(prog, words), []
    proved = library.proved(lambda line: say(prog, line))
    for name in given.files:
        printed, told = answer(prog, proved, name, given)
        write_text(printed)
        documents.append(told)
    write_text(formats.at_end(documents, given))
    if given.format == 'text' and len(documents) > 1 and not given.quiet:
        say(prog, formats.summary(documents))  # standard output has a line a file
    return worst([told['status'] for told in documents])


def main(prog='lane-check', words=None):
    return command(prog, lambda: body(prog, words))
