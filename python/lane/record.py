"""The record: what it says, its rules, and the words for its refusals (docs/RECORD.md, docs/REFUSALS.md)."""
import collections
import collections.abc
import ctypes
import struct

from . import library
from .errors import Failure
from .library import (ENTRY_BYTES, EVENT_BYTES, FIRST_INPUT, HEADING_BYTES, LAST_INPUT, MAX_EVENTS, MAX_LANES, MAX_ROWS, MAX_STEPS, MIN_ROWS, REASONS,
                      REFUSED_BYTES, ROLES, STEP_BYTES, STOP)

LAST_REFUSAL = 14  # the last number that a record holds
TOO_FEW_ROWS, TOO_FEW_STEPS, NO_RECORD, FIRST_ABOVE_LAST = 13, 14, 15, 17
CALLERS = (1, 2, FIRST_ABOVE_LAST)  # the refusals of what a caller chose, before any step
HEADING, EVENT, STEP, REFUSAL = library.ACCEPTED, 0x02, 0x03, library.REFUSED
SIZES = {HEADING: HEADING_BYTES, EVENT: EVENT_BYTES, STEP: STEP_BYTES, REFUSAL: REFUSED_BYTES}
NAMES = {HEADING: 'heading', EVENT: 'event', STEP: 'step', REFUSAL: 'refusal'}

Step = collections.namedtuple('Step', 'program_counter word length next_program_counter')
Event = collections.namedtuple('Event', library.EVENT_WORDS)
Accepted = collections.namedtuple('Accepted', 'first_input lanes return_value steps lane_operations written_bytes events trace')
Refused = collections.namedtuple('Refused', 'number role completed_steps')
InputRange = collections.namedtuple('InputRange', 'first last')
INVALID_CHANNELS = InputRange(FIRST_INPUT, LAST_INPUT)  # of a six-channel controller: what lane-run runs
ENTRY = struct.Struct('<IIBI')
OUTCOME_WORDS = ctypes.sizeof(library.Outcome) // 4
OUTCOME = struct.Struct(f'={OUTCOME_WORDS}I')


class Trace(collections.abc.Sequence):
    """The steps of a trace's entries, each read where it is asked for."""

    def __init__(self, entries):
        self.entries = memoryview(entries)

    def __len__(self):
        return len(self.entries) // ENTRY_BYTES

    def __getitem__(self, place):
        if isinstance(place, slice):
            start, stop, stride = place.indices(len(self))
            if stride != 1:
                return [self[k] for k in range(start, stop, stride)]
            return Trace(self.entries[ENTRY_BYTES * start:ENTRY_BYTES * max(start, stop)])
        if not -len(self) <= place < len(self):
            raise IndexError(place)
        return Step(*ENTRY.unpack_from(self.entries, ENTRY_BYTES * (place % len(self))))

    def __iter__(self):
        return map(Step._make, ENTRY.iter_unpack(self.entries))

    def __eq__(self, other):
        return isinstance(other, Trace) and self.entries == other.entries or isinstance(other, list) and list(self) == other


def read_record(record, proved=None):
    """What a record says, by the proved reader: Accepted or Refused. A Failure of bytes that are no record has the number 15."""
    try:
        outcome, entries = (proved or library.proved()).read_record(record)
    except Failure as why:
        if why.number != NO_RECORD:
            raise
        at, rule = broken_rule(record) or (0, REASONS[NO_RECORD])
        raise Failure(f'no record (at byte {at}: {rule})', NO_RECORD) from None
    return outcome_of(outcome, entries)


def outcome_of(outcome, entries):
    """An Outcome of the library with its steps' entries."""
    if outcome.kind == REFUSAL:
        return Refused(outcome.number, outcome.role, outcome.completed_steps)
    events = [Event(*(getattr(event, name) for name in Event._fields)) for event in outcome.events[:outcome.event_count]]
    return Accepted(*(getattr(outcome, name) for name in Accepted._fields[:-2]), events, Trace(entries))


def write_record(outcome, proved=None):
    """The record of an Accepted or a Refused, by the proved writer, which takes none that breaks a rule (15)."""
    try:
        words, entries = (refused_words if isinstance(outcome, Refused) else accepted_words)(outcome)
    except struct.error:
        raise Failure('no record: a number has more than 32 bits, or an entry is none', NO_RECORD) from None
    return (proved or library.proved()).write_record(library.Outcome.from_buffer_copy(words), entries)


def refused_words(outcome):
    return OUTCOME.pack(REFUSAL, *outcome, *bytes(OUTCOME_WORDS - 4)), b''


def accepted_words(outcome):
    events = [word for event in outcome.events[:MAX_EVENTS] for word in event]
    whole = [HEADING, 0, 0, 0, *outcome[:-2], len(outcome.events), *events]
    return OUTCOME.pack(*whole, *bytes(OUTCOME_WORDS - len(whole))), b''.join(ENTRY.pack(*step) for step in outcome.trace)


def cause(number):
    return 'caller' if number in CALLERS else 'firmware' if number <= 12 else 'lender'


def status(outcome):
    """By who causes it: 0 accepted, 1 the firmware, 2 the caller, 3 the lender."""
    return 0 if isinstance(outcome, Accepted) else {'firmware': 1, 'caller': 2, 'lender': 3}[cause(outcome.number)]


def reason(number, role):
    """A refusal in words."""
    if not role:
        return REASONS[number]
    whose = "an event's " if role >= 8 else ''
    return f'{whose}{ROLES[role]} {REASONS[number]} (role {role})'


def count(number, noun):
    return f'{number:,} {noun}{"" if number == 1 else "s"}'


def value(number):
    """A word as a number, with its hexadecimal where that says more."""
    return str(number) if number < 10 else f'{number} (0x{number:x})'


def verdict(outcome):
    """An outcome in a line."""
    if isinstance(outcome, Accepted):
        return (f'accepted: return value {value(outcome.return_value)}, {count(len(outcome.events), "event")}, '
                f'{count(outcome.steps, "step")}')
    after = f', after {count(outcome.completed_steps, "step")}' if outcome.number <= LAST_REFUSAL else ''
    return f'refused {outcome.number}: {reason(*outcome[:2])}{after}'


def inputs_of(accepted):
    """The inputs that an accepted run speaks of."""
    return InputRange(accepted.first_input, accepted.first_input + accepted.lanes - 1)


def inputs_text(inputs):
    return f'input {inputs.first}' if inputs.first == inputs.last else f'every input from {inputs.first} to {inputs.last}'


def event_text(place, event):
    return (f'event {place}: operation {value(event.operation)}, offset 0x{event.offset:x}, value {value(event.value)}, '
            f'counted at {event.location:08x}')


def refusal_fields(refused):
    """A refusal for JSON."""
    return {'number': refused.number, 'reason': reason(refused.number, refused.role), 'role': refused.role,
            'role_name': ROLES.get(refused.role), 'cause': cause(refused.number), 'completed_steps': refused.completed_steps}


def items(record):
    """Each item with its kind, of bytes that the reader takes."""
    at = 0
    while at < len(record):
        yield record[at:at + SIZES[record[at]]]
        at += SIZES[record[at]]


# ---- the rule that bytes break, for bytes that the reader refuses (15)


def broken_rule(record):
    """The byte where the first broken rule of docs/RECORD.md shows, and the rule; None where all hold."""
    if not record:
        return 0, 'there are no bytes'
    if record[0] not in (HEADING, REFUSAL):
        return 0, f'a record begins with 01 or 7F, and this with {record[0]:02X}'
    if len(record) < SIZES[record[0]]:
        return len(record), f'the {NAMES[record[0]]} is cut short: it has {len(record)} of {SIZES[record[0]]} bytes'
    return broken_refusal(record) if record[0] == REFUSAL else broken_heading(record) or broken_body(record)


def broken_refusal(record):
    number, role, done = struct.unpack('<BBI', record[1:REFUSED_BYTES])
    if not 1 <= number <= LAST_REFUSAL:
        return 1, f'the number of a refusal is from 1 to {LAST_REFUSAL}, not {number}'
    if number in (6, 7) and not 1 <= role <= 10:
        return 2, f'the role of a refusal {number} is from 1 to 10, not {role}'
    if number not in (6, 7) and role:
        return 2, f'the role of a refusal {number} is 0, not {role}'
    if done > MAX_STEPS:
        return 3, f'completed steps are at most {MAX_STEPS:,}, not {done:,}'
    return after_the_end(record, REFUSED_BYTES)


def broken_heading(record):
    first, lanes, _, done, operations, written, events = struct.unpack('<BHIIIIB', record[1:HEADING_BYTES])
    least = 0 if lanes == 1 else 1
    rules = [
        (2, lanes >= 1, 'the lanes are at least 1, not 0'),
        (2, first + lanes <= MAX_LANES, f'the first input and the lanes are at most {MAX_LANES} together, not {first} + {lanes}'),
        (8, least <= done <= MAX_STEPS, f'the steps of {count(lanes, "lane")} are from {least} to {MAX_STEPS:,}, not {done:,}'),
        (12, operations == lanes * done, f'the lane operations are {lanes} for each step, {lanes * done:,}, not {operations:,}'),
        (16, MIN_ROWS <= written < MAX_ROWS, f'the written bytes are from {MIN_ROWS} to {MAX_ROWS - 1:,}, not {written:,}'),
        (20, events <= MAX_EVENTS, f'the events are at most {MAX_EVENTS}, not {events}')]
    return next(((at, text) for at, holds, text in rules if not holds), None)


def broken_body(record):
    """The events and the steps after a heading that keeps its rules."""
    done, events, at = struct.unpack_from('<I', record, 8)[0], record[20], HEADING_BYTES
    expected = None
    for k in range(events + done):
        kind = EVENT if k < events else STEP
        what = f'event {k + 1} of {events}' if k < events else f'step {k - events + 1:,} of {done:,}'
        if len(record) < at + SIZES[kind]:
            return len(record), f'cut short in {what}' if len(record) > at else f'cut short before {what}'
        if record[at] != kind:
            return at, f'{what} begins with {kind:02X}, not {record[at]:02X}'
        if kind == STEP:
            wrong = broken_step(record, at, what, expected)
            if wrong:
                return wrong
            expected, = struct.unpack_from('<I', record, at + 10)
        at += SIZES[kind]
    if expected not in (None, STOP):  # none without a step
        return at - 4, f'the last step leads to stop, {STOP:08x}, not to {expected:08x}'
    return after_the_end(record, at)


def after_the_end(record, end):
    return (end, f'{count(len(record) - end, "byte")} after the end of the record') if len(record) > end else None


def broken_step(record, at, what, expected):
    step = Step(*struct.unpack_from('<IIBI', record, at + 1))
    if expected not in (None, step.program_counter):
        return at + 1, f'{what} is at {step.program_counter:08x}, and the step before it leads to {expected:08x}'
    if step.length not in (2, 4):
        return at + 9, f'the length of {what} is 2 or 4, not {step.length}'
    return None
