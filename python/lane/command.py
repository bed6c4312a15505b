"""What the commands have in common: options, reading, writing, errors."""
import argparse
import contextlib
import errno
import itertools
import os
import subprocess
import sys
import traceback

from .errors import Failure, Undecided

ROOT = os.path.dirname(os.path.dirname(os.path.dirname(os.path.realpath(__file__))))
CHUNK = 1 << 20
ESCAPES = {'\a': 'a', '\b': 'b', '\t': 't', '\n': 'n', '\v': 'v', '\f': 'f', '\r': 'r', '"': '"', '\\': '\\'}


class ShowVersion(argparse.Action):
    def __call__(self, parser, *_):
        write_text(version(parser.prog) + '\n')
        parser.exit()


class Parser(argparse.ArgumentParser):
    """Usage errors are one line, with status 2; --version names the commit and the kit."""

    def __init__(self, prog, description, epilog):
        super().__init__(prog=prog, description=description, epilog=epilog, allow_abbrev=False,
                         formatter_class=argparse.RawDescriptionHelpFormatter)
        self.add_argument('--version', action=ShowVersion, nargs=0, help='print the commit and the Rattle kit, and end')

    def print_help(self, file=None):
        write_text(self.format_help())

    def error(self, message):
        raise Failure(f'{printable(message)} (see --help)')


def in_utf8():
    """The environment for a program whose output is read here: rt is Python too, and would print in what this variable asks for."""
    return {**os.environ, 'PYTHONIOENCODING': 'utf-8'}


def first_line(*words):
    """What a program prints first, or None where it can't be had."""
    try:
        run = subprocess.run(words, stdin=subprocess.DEVNULL, stdout=subprocess.PIPE, stderr=subprocess.DEVNULL, env=in_utf8())
    except OSError:
        return None
    lines = run.stdout.decode(errors='replace').splitlines()
    return lines[0] if run.returncode == 0 and lines else None


def version(name):
    from . import build  # which imports this module
    told = build.manifest(ROOT)
    if told:
        return f'{name}, commit {told["commit"]}, built by {told["kit"]}; no kit is needed here'
    commit = first_line('git', '-C', ROOT, 'describe', '--always', '--dirty', '--abbrev=12') or 'unknown'
    return f'{name}, commit {commit}, {first_line("rt", "version") or "no Rattle kit: rt is not on PATH"}'


def file_name(word):
    """A name of the command line, which is not empty."""
    if not word:
        raise argparse.ArgumentTypeError('the name of a file is empty')
    return word


def symbol_word(word):
    """A name, or an address that begins with 0x."""
    if word[:1].isdigit():
        if word[:2] not in ('0x', '0X'):
            raise argparse.ArgumentTypeError(f'{word}: write an address as 0x80001000')
        try:
            int(word, 16)
        except ValueError:
            raise argparse.ArgumentTypeError(f'{word}: not an address') from None
    return word


def encoded(name):
    """The bytes of a name: as the command line had them, or in UTF-8 where it can't have come from there."""
    try:
        return os.fsencode(name)
    except UnicodeEncodeError:
        return name.encode('utf-8', 'backslashreplace')


def decoded(name):
    """A name or its bytes as text, whatever the locale; bytes that are no UTF-8 are lone surrogates."""
    return encoded(name).decode('utf-8', 'surrogateescape')


def quoted(name):
    """A name of a file or symbol as git quotes it: as it is, or in double quotes where a character could be taken for another."""
    text = decoded(name)
    if text.isprintable() and not set(text) & set('"\\'):
        return text
    return '"' + ''.join(map(escaped, text)) + '"'


def escaped(character):
    if character in ESCAPES:
        return '\\' + ESCAPES[character]
    return character if character.isprintable() else ''.join(f'\\{byte:03o}' for byte in character.encode('utf-8', 'surrogateescape'))


def printable(text):
    """Text in one line: its characters that are none to print are escaped."""
    return ''.join(character if character.isprintable() else escaped(character) for character in decoded(text))


def shown(name):
    """A file's name as it can be printed."""
    return 'standard input' if name == '-' else quoted(name)


def read(name, most):
    """The bytes of a file, or of standard input for -, and at most so many: a device may have no end. A read that fails is no end."""
    try:
        if name != '-':
            with open(name, 'rb', buffering=0) as file:
                return read_all(file.fileno(), most)
        if sys.stdin is None:
            raise Failure('standard input is closed')
        if sys.stdin.isatty():
            raise Failure('name a FILE: standard input is a terminal (see --help)')
        return read_all(sys.stdin.fileno(), most)
    except OSError as why:
        raise Failure(f'cannot read {shown(name)}: {why.strerror}') from None


def read_all(descriptor, most):
    """By the system's read: Python's own takes EAGAIN, of a descriptor that does not block, for the end."""
    parts, left = [], most
    while left:
        part = os.read(descriptor, min(left, CHUNK))
        if not part:
            break
        parts.append(part)
        left -= len(part)
    return b''.join(parts)


def write(contents, name=None):
    """All of it to the file, or to standard output."""
    try:
        if name is not None:
            with open(name, 'wb') as file:
                file.write(contents)
        elif sys.stdout is None:
            raise Failure('standard output is closed')
        else:
            sys.stdout.buffer.write(contents)
            sys.stdout.buffer.flush()
    except OSError as why:
        if name is None:
            forget_output()
        if why.errno == errno.EPIPE:
            raise
        raise Failure(f'cannot write {"standard output" if name is None else shown(name)}: {why.strerror}') from None


def write_text(text):
    write(text.encode(errors='replace'))


def write_pieces(pieces):
    """Text that may be long, some of it at a time."""
    pieces = iter(pieces)
    for part in iter(lambda: ''.join(itertools.islice(pieces, 4096)), ''):
        write_text(part)


def forget_output():
    """Nothing more can be written: keep Python from trying it again at its end."""
    os.dup2(os.open(os.devnull, os.O_WRONLY), sys.stdout.fileno())


def say(prog, text):
    """A line on standard error, in UTF-8 as standard output; nothing is lost with it where that is closed."""
    if sys.stderr is not None:
        with contextlib.suppress(OSError):
            sys.stderr.buffer.write(f'{prog.split()[0]}: {text}\n'.encode(errors='backslashreplace'))
            sys.stderr.buffer.flush()


def worst(statuses):
    """The status of several files: the caller's first, then the firmware's, then the lender's."""
    return max(statuses, key=(0, 3, 1, 2).index)


def unexpected(why):
    """An error that no one foresaw, in a line with its place."""
    place = traceback.extract_tb(why.__traceback__)[-1]
    return f'unexpected {type(why).__name__}: {printable(str(why))} ({os.path.basename(place.filename)}:{place.lineno})'


def command(prog, body):
    """The status of a command. A reader that goes away (head) is told by the status alone."""
    try:
        return body()
    except (Failure, Undecided) as why:
        say(prog, why)
        return why.status
    except BrokenPipeError:
        pass
    except MemoryError:
        say(prog, 'not enough memory')
    except KeyboardInterrupt:
        say(prog, 'interrupted')
        return 130
    except Exception as why:
        say(prog, unexpected(why))
    return 2
