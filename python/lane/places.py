"""Places of a firmware: addresses with their functions and, where an addr2line is there, source lines and what was inlined there."""
import collections
import os
import shutil
import subprocess
import urllib.parse

from . import riscv
from .command import encoded, quoted

ADDR2LINE = ('riscv64-unknown-elf-addr2line', 'riscv32-unknown-elf-addr2line', 'riscv-none-elf-addr2line',
             'riscv64-linux-gnu-addr2line', 'llvm-addr2line', 'addr2line')
SECONDS = 20  # that an addr2line may take
Frame = collections.namedtuple('Frame', 'function file line')


def function_at(loaded, address):
    """The function that holds an address, quoted, and the offset in it, or None twice."""
    for start, size, name in loaded.functions:
        if start <= address < start + size:
            return name, address - start
    return None, None


def function_text(loaded, address):
    name, offset = function_at(loaded, address)
    return '' if name is None else name + (f'+0x{offset:x}' if offset else '')


def named_step(loaded, step):
    """A step, with its function in objdump's brackets."""
    function = function_text(loaded, step.program_counter)
    return riscv.step(step, f' <{function}>' if function else '')


# ---- sources


def frames(loaded, addresses):
    """The frames of each address, the innermost first; none where nothing tells them."""
    tool = next(filter(None, map(shutil.which, ADDR2LINE)), None)
    if not loaded.elf or not tool or loaded.name == '-' or not addresses:
        return {}
    try:
        told = subprocess.run([tool, '-a', '-i', '-f', '-e', os.path.abspath(loaded.name)], stdout=subprocess.PIPE, stderr=subprocess.DEVNULL,
                              input=''.join(f'{address:x}\n' for address in addresses).encode(), timeout=SECONDS)
    except (OSError, subprocess.TimeoutExpired):
        return {}
    return told_frames(os.fsdecode(told.stdout).split('\n'), addresses) if told.returncode == 0 else {}


def told_frames(lines, addresses):
    """addr2line's answer: a line with each address, then two lines a frame, function and place. A name that looks like an address spoils
    what is told of one place alone, since answers are looked for in the order of the questions."""
    found, at = {}, 0
    for address, after in zip(addresses, [*addresses[1:], None]):
        start = at + 1
        end = next((k for k in range(start, len(lines)) if after is not None and is_address(lines[k], after)), len(lines))
        found[address] = [frame for k in range(start, end - 1, 2) if (frame := frame_of(lines[k], lines[k + 1]))]
        at = end
    return found


def is_address(line, address):
    try:
        return line.startswith('0x') and int(line, 16) == address
    except ValueError:
        return False


def frame_of(function, place):
    path, _, line = place.split(' (discriminator')[0].rpartition(':')
    if not path or path.startswith('?') or not line.isdigit() or line == '0':
        return None
    return Frame(None if function.startswith('?') else function, path, int(line))


def source_text(found):
    """File and line, with what they were inlined into, or ''."""
    return ', inlined into '.join(f'{quoted(os.path.basename(frame.file))}:{frame.line}' for frame in found)


def source_path(loaded, path):
    """Where a source file lies: a relative path may begin at the current folder or at the firmware's."""
    beside = os.path.join(os.path.dirname(loaded.name), path)
    return path if os.path.isabs(path) or os.path.exists(path) or not os.path.exists(beside) else os.path.normpath(beside)


# ---- for programs


def within(path):
    """A path relative to the current folder where it lies in it."""
    try:
        below = os.path.relpath(path)
    except OSError:  # the current folder is gone
        return path
    return path if below.split(os.sep)[0] == os.pardir else below


def uri(path):
    """A file's URI, relative to the current folder where it lies in it."""
    path = within(path)
    return ('file://' if os.path.isabs(path) else '') + urllib.parse.quote(encoded(path))


def place(loaded, address, told=()):
    """A place as JSON has it; told are its frames."""
    name, offset = function_at(loaded, address)
    source = frame_fields(loaded, told[0]) if told else {'file': None, 'uri': None, 'line': None}
    inlined = [{'function': frame.function and quoted(frame.function), **frame_fields(loaded, frame)} for frame in told[1:]]
    return {'address': address, 'function': name, 'offset': offset, **source, 'inlined': inlined}


def frame_fields(loaded, frame):
    path = source_path(loaded, frame.file)
    return {'file': quoted(within(path)), 'uri': uri(path), 'line': frame.line}


def step_place(loaded, step, told=()):
    """A step of a trace as JSON has it."""
    return {**place(loaded, step.program_counter, told), 'instruction': riscv.disassemble(step.word, step.program_counter, step.length),
            'next': step.next_program_counter}
