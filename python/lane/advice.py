"""What to do about a refusal, in a sentence (docs/REFUSALS.md has the same at more length): what holds whatever the trace says. explain.py
says more where it knows more."""
from . import record
from .library import MAX_ROWS, MAX_STEPS, MIN_ROWS

SYSTEM = {
    'ebreak': 'EBREAK stops for a debugger: GCC makes it of __builtin_trap and of a division by the constant 0. Record a fault and '
              'return instead',
    'ecall': 'ECALL calls an operating system, and there is none: record an event instead'}
TRAP = ('two bytes of zeros are no instruction (unimp): clang makes them of __builtin_trap and __builtin_unreachable; else they are data, or '
        'padding after code that does not return')
UNEVEN = {
    1: 'code was written that is not the same for all channels',
    2: 'the jump target depends on the channel, as in a switch by jump table or a table of functions: test the bound first',
    3: 'the address depends on the channel, as in a table with an entry for each: test the bound before the table is read',
    4: 'the address depends on the channel, as in a table with an entry for each: test the bound before the table is written',
    5: 'the branch goes one way for some {some} and another way for others. {bound}',
    6: 'the return value depends on the channel: return the same for every {every}',
    7: 'the event count depends on the channel: raise the same number of events for every {every}',
    8: "an event's operation depends on the channel: record the same for every {every}",
    9: "an event's offset depends on the channel: record the same for every {every}",
    10: "an event's value depends on the channel: record the same for every {every}"}
SIX_CHANNELS = {
    'some': 'invalid channels', 'every': 'invalid channel',
    'bound': 'Compare the channel with the bound alone, ch < 6 or ch >= 6; ch <= 6 is true of the invalid channel 6 and false of 7, and '
             'GCC makes it of ch < 6 ? ch : 6'}
OTHER_RANGE = {
    'some': 'inputs', 'every': 'input of the range',
    'bound': 'Compare the channel with the bounds of the range alone, or give with --inputs the range that the firmware treats alike; '
             'ch <= n is true of n and false of n + 1, and GCC makes it of ch < n ? ch : n'}
PLAIN = {
    1: 'an image has from 1 to 1,048,576 bytes, after 12 bytes of addresses: is the file a packed input or an ELF?',
    2: 'entry, event count and events lie in 80000000 to 801fffff: is the file a packed input (tools/pack-firmware)?',
    3: 'it loops, or is too long: the last steps show where',
    4: 'only memory, 80000000 to 801fffff, can be reached',
    5: 'only memory, 80000000 to 801fffff, can be reached',
    6: 'at entry only zero, ra, sp and a0 are known: set every register before it is read',
    8: 'compile with -march=rv32imc',
    9: 'the run takes rv32imc alone: compile with -march=rv32imc',
    10: 'it calls or jumps through a pointer that is null',
    11: 'the image cannot be written: place written data past its end, beginning as zero, as in examples/firmware/firmware.ld',
    12: 'count each event by one SW of the new count at the event count: make it volatile, a whole word, stored nowhere else, '
        'and record at most 32 events'}


def advice(number, role, given):
    """One sentence; given has the options."""
    if number == 13:
        return f'lend more rows, as --rows {min(4 * max(given.rows, MIN_ROWS), MAX_ROWS)}: one for each byte that is written, and four for stop'
    if number == 14:
        return f'lend more entries, as --steps {min(4 * max(given.steps, 1), MAX_STEPS)}, or see in the last steps whether it loops'
    if number == record.FIRST_ABOVE_LAST:
        return f'give the smaller input first, as --inputs {given.inputs.last}-{given.inputs.first}'
    if number == 7:
        return UNEVEN[role].format(**(SIX_CHANNELS if given.inputs == record.INVALID_CHANNELS else OTHER_RANGE))
    return PLAIN[number]
