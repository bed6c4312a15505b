"""The proved library by ctypes: the functions of include/lane.h, and its sizes and limits."""
import ctypes
import os
import threading

from . import build
from .errors import Failure

HEADING_BYTES, EVENT_BYTES, STEP_BYTES, REFUSED_BYTES = 21, 17, 14, 7  # the items of a record
ROW_BYTES, ENTRY_BYTES, MIN_ROWS = 264, 13, 4  # what is lent: a row for a written byte, an entry for a step
SYMBOL_BYTES = 12  # before the image in an input
FIRST_INPUT, LAST_INPUT = 6, 255  # where no others are chosen
MAX_LANES, MAX_STEPS, MAX_EVENTS = 256, 1000000, 32
MEMORY_START, MEMORY_END, STOP = 0x80000000, 0x80200000, 0x801FFFFC  # MEMORY_END is the first address past memory
MAX_ROWS = MEMORY_END - MEMORY_START
MAX_IMAGE_BYTES, MAX_INPUT_IMAGE_BYTES = 1048576, 32768  # of any run; of lane-run's input
PROGRAM_ROWS, PROGRAM_STEPS = 200, 2048  # what the program lane-run lends
ACCEPTED, REFUSED = 0x01, 0x7F
EVENT_WORDS = 'operation', 'offset', 'value', 'location'
# The words for refusals and roles, from 1 on, as the header, crates/predicate_answer and crates/lane_record have them.
REASONS = dict(enumerate([
    'the image is empty or too large', 'a symbol lies outside memory', 'not at stop after 1,000,000 steps', 'address below memory',
    "access past memory's end", 'unknown', 'not the same in all lanes', 'halfword not accepted', 'word not accepted', 'jump target 0',
    "store below the image's end", 'event count above 32 or unlike the number of recorded SWs', 'more distinct written bytes than rows lent',
    'more steps than trace entries lent', "the record's rules are broken", 'output too short for the record', 'first input above last'], 1))
ROLES = dict(enumerate(['fetch', 'jump target', 'load address', 'store address', 'branch', 'return value', 'event count', 'operation',
                        'offset', 'value'], 1))

LOADED = []


class Event(ctypes.Structure):
    """struct lane_event"""
    _fields_ = [(name, ctypes.c_uint32) for name in EVENT_WORDS]


class Outcome(ctypes.Structure):
    """struct lane_outcome"""
    _fields_ = [(name, ctypes.c_uint32) for name in (
        'kind', 'number', 'role', 'completed_steps', 'first_input', 'lanes', 'return_value', 'steps', 'lane_operations', 'written_bytes',
        'event_count')] + [('events', Event * MAX_EVENTS)]


def record_bytes(entries):
    """Of the longest record with so many entries."""
    return HEADING_BYTES + EVENT_BYTES * MAX_EVENTS + STEP_BYTES * entries


def load(path):
    """The shared object, with the types of lane.h. Lent bytes are arrays of chars."""
    try:
        functions = ctypes.CDLL(path)
        lent, word, byte = [ctypes.c_char_p, ctypes.c_size_t], ctypes.c_uint32, ctypes.c_uint8
        written, outcome = ctypes.POINTER(ctypes.c_uint64), ctypes.POINTER(Outcome)
        firmware, inputs, room = lent + [word] * 3, [byte] * 2, lent * 3 + [written]
        for name, types in {'lane_run_with_plain': firmware + inputs + room, 'lane_run_image': firmware + room,
                            'lane_run_range': firmware + inputs + room, 'lane_run': lent + room,
                            'lane_read_record': lent * 2 + [outcome], 'lane_write_record': [outcome] + lent * 2 + [written]}.items():
            getattr(functions, name).argtypes = types
            getattr(functions, name).restype = word
    except (OSError, AttributeError) as why:
        raise Failure(f'cannot load {path}: {why}') from None
    return functions


class Library:
    """The functions of the shared object at a path. An answer that is not 0 is a Failure with its number."""

    def __init__(self, path):
        self.functions, self.lent = load(path), threading.local()

    def lend(self, what, size):
        """Memory of this size and its size. It is lent again to the next call, so what a caller keeps is copied out of it."""
        memory = getattr(self.lent, what, None)
        if memory is None or len(memory) < size:
            memory = ctypes.create_string_buffer(max(size, 1))
            setattr(self.lent, what, memory)
        return memory, size

    def call(self, name, *words):
        answer = getattr(self.functions, name)(*words)
        if answer:
            raise Failure(f'{name} answers {answer}: {REASONS[answer]}', answer)

    def write(self, name, *words, output):
        """The bytes that a function writes to an output of this size."""
        room, written = self.lend('output', output), ctypes.c_uint64()
        self.call(name, *words, *room, ctypes.byref(written))
        return ctypes.string_at(room[0], written.value)

    def write_run(self, name, *words, rows, steps):
        """The record of a run that is lent so much."""
        return self.write(name, *words, *self.lend('rows', ROW_BYTES * rows), *self.lend('trace', ENTRY_BYTES * steps),
                          output=record_bytes(steps))

    def trace(self, entries):
        """The first entries of the last run's trace."""
        return ctypes.string_at(self.lent.trace, ENTRY_BYTES * entries)

    def run(self, image, symbols, *, inputs=(FIRST_INPUT, LAST_INPUT), rows=PROGRAM_ROWS, steps=PROGRAM_STEPS):
        """The record of an image; symbols are the addresses of entry, event count and events, inputs the first and the last, each from 0 to 255,
        rows and steps what is lent for."""
        first, last = bytes(inputs)  # ctypes would cut 256
        return self.write_run('lane_run_with_plain', image, len(image), *symbols, first, last, rows=rows, steps=steps)

    def run_input(self, data, *, rows=PROGRAM_ROWS, steps=PROGRAM_STEPS):
        """The record of an input: three addresses and the image, as lane-run reads it."""
        return self.write_run('lane_run', data, len(data), rows=rows, steps=steps)

    def read_record(self, record, entries=None):
        """What a record says, as an Outcome and the entries of its steps; by default so many are lent as its bytes could hold."""
        outcome, lent = Outcome(), self.lend('trace', ENTRY_BYTES * (len(record) // STEP_BYTES if entries is None else entries))
        self.call('lane_read_record', record, len(record), *lent, ctypes.byref(outcome))
        return outcome, self.trace(outcome.steps)

    def write_record(self, outcome, trace):
        """The record of an outcome and its steps' entries."""
        return self.write('lane_write_record', ctypes.byref(outcome), trace, len(trace), output=record_bytes(len(trace) // ENTRY_BYTES))


def shared_object(tell):
    """The path of the shared object: LANE_LIBRARY, or what rt builds here."""
    return os.environ.get('LANE_LIBRARY') or build.shared_object(tell)


def proved(tell=lambda line: None):
    """The library, looked for once and built where it has to be; tell gets a line at each step of the building."""
    if not LOADED:
        LOADED.append(Library(shared_object(tell)))
    return LOADED[0]
