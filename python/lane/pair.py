"""The two inputs behind a refusal 7, and what each has."""
import collections

from . import record, retrace, riscv

LONG = 50000  # steps that are not retraced for every input of a range
# What each input has is the tested value: a word, a jump's target, an address, a branch's direction (1 taken), a return value, a field. event
# (from 1) and location are those of roles 8 to 10.
Pair = collections.namedtuple('Pair', 'first other first_value other_value event location')


def first_unlike(outcome_over, inputs, outcome):
    """The first input that does not agree with the range's first, by bisection. outcome_over gives the outcome of a range that is lent
    so many entries. A shorter range agrees up to the same step; where it is refused alike, it holds such an input."""
    low, high, entries = inputs.first, inputs.last, outcome.completed_steps + 1
    while high - low > 1:
        middle = (low + high) // 2
        if outcome_over(record.InputRange(inputs.first, middle), entries) == outcome:
            high = middle
        else:
            low = middle
    return high


def uneven(firmware, trace, inputs, role):
    """The first tested value that is not the same for the inputs, with the retrace. Raises Parted where all are."""
    done = retrace.Retrace(firmware, inputs).follow(trace)
    for tested in done.tested(role):
        if type(tested.value) is tuple:
            return tested, done
    raise retrace.Parted


def all_uneven(firmware, trace, inputs, role):
    """The same for a whole range, with the first input unlike the range's first."""
    tested, done = uneven(firmware, trace, range(inputs.first, inputs.last + 1), role)
    other = next(k for k, value in enumerate(tested.value) if value != tested.value[0])
    return inputs.first + other, tested._replace(value=(tested.value[0], tested.value[other])), done


def find_pair(outcome_over, firmware, inputs, outcome, trace):
    """The pair of a run over the inputs that is refused with 7, or None where its values can't be told. The run of the pair's first input up
    to the one before the other meets no such disagreement. With several events a shorter range may disagree in a later one alone, so that
    the whole range is retraced."""
    try:
        other = first_unlike(outcome_over, inputs, outcome)
        tested, done = uneven(firmware, trace, (inputs.first, other), outcome.role)
        if (tested.event or 1) > 1 and len(trace) <= LONG:
            other, tested, done = all_uneven(firmware, trace, inputs, outcome.role)
    except retrace.Parted:
        return None
    location = done.locations()[tested.event - 1] if tested.event else None
    return Pair(inputs.first, other, *tested.value, tested.event, location)


# ---- words


def branch_text(pair, counter, word, length):
    taken, straight = (f'{address & retrace.MASK:08x}' for address in (counter + riscv.immediate_b(word), counter + length))
    if taken == straight:
        return f'input {pair.first} {"takes" if pair.first_value else "does not take"} it, input {pair.other} ' \
               f'{"does" if pair.other_value else "does not"}'
    goes = {1: taken, 0: straight}
    return f'input {pair.first} goes to {goes[pair.first_value]}, input {pair.other} to {goes[pair.other_value]}'


def field_text(pair, role):
    name = record.ROLES[role]
    return (f'event {pair.event}, counted at {pair.location:08x}: its {name} is {record.value(pair.first_value)} for input {pair.first}, '
            f'{record.value(pair.other_value)} for input {pair.other}')


def unit_text(value, counter):
    if value >> 16 or value & 3 == 3:
        return f'{value:08x} ({riscv.disassemble(value, counter)})'
    return f'{value:04x} ({riscv.disassemble_halfword(value, counter)})'


def pair_text(pair, role, counter, word, length):
    """The pair in words; the word is the instruction at the counter where the role is an instruction's."""
    if role == 5:
        return branch_text(pair, counter, word, length)
    if role >= 8:
        return field_text(pair, role)
    if role == 1:
        one, two = unit_text(pair.first_value, counter), unit_text(pair.other_value, counter)
        return f'input {pair.first} fetches {one}, input {pair.other} {two}'
    if role in (2, 3, 4):
        verb, at = {2: ('goes to', 'to'), 3: ('loads from', 'from'), 4: ('stores to', 'to')}[role]
        return f'input {pair.first} {verb} {pair.first_value:08x}, input {pair.other} {at} {pair.other_value:08x}'
    verb = {6: 'returns', 7: 'has an event count of'}[role]
    return f'input {pair.first} {verb} {record.value(pair.first_value)}, input {pair.other} {verb} {record.value(pair.other_value)}'
