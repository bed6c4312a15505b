"""Why a run was refused, beyond its number: from the trace, a retrace of it, and more runs of the proved library. What can't be told is left
out."""
import collections

from . import extensions, firmware, layout, pair, record, retrace, riscv
from .advice import SYSTEM, TRAP, advice
from .library import MAX_EVENTS, MEMORY_END, MEMORY_START, STOP
from .places import named_step, step_place

LINKS = 6  # of an unknown value's way, the last ones
STORES = 5  # at the event count, of a wrong count
LONGEST_PERIOD, TURNS, RETRACED = 5000, 3, 20000  # of a loop: its steps, how often it is seen, how far it is retraced
NULL_PAGE = 4096  # addresses that a null pointer's fields have

# note stands in brackets after the instruction and because after it; lines are -v's; facts are for programs
Explanation = collections.namedtuple('Explanation', 'note because lines advice facts', defaults=('', '', (), None, {}))


class Case:
    """A refused run that is to be explained. outcome_over(inputs, entries) gives the outcome of another range."""

    def __init__(self, firmware, run, given, outcome_over):
        self.firmware, self.outcome, self.trace, self.given, self.outcome_over = firmware, run.outcome, run.trace, given, outcome_over
        self.layout, self.done = layout.layout(firmware), None
        self.counter = self.trace[len(self.trace) - 1].next_program_counter if self.trace else firmware.entry

    def retrace(self):
        """The state where the run was refused, for the first input of the range. Raises Parted."""
        if self.done is None:
            self.done = retrace.Retrace(self.firmware, [self.given.inputs.first]).follow(self.trace)
        return self.done

    def coming(self):
        """The refused word and its length. Raises Parted where there is none."""
        found = self.retrace().coming()
        if found is None:
            raise retrace.Parted
        return found

    def step_text(self, k):
        return f'step {k + 1:,}: {named_step(self.firmware, self.trace[k])}'

    def step_fields(self, k):
        return {'step': k + 1, **step_place(self.firmware, self.trace[k])}


def explain(firmware, run, given, outcome_over):
    """The explanation of a refused run that came to its first step."""
    case = Case(firmware, run, given, outcome_over)
    told = Explanation()
    for explainer in EXPLAINERS.get(case.outcome.number, ()):
        try:
            told = explainer(case) or told
        except retrace.Parted:
            pass
        if told.because or told.note:
            break
    return told if told.advice else told._replace(advice=general_advice(case))


def general_advice(case):
    return advice(case.outcome.number, case.outcome.role, case.given)


# ---- 7: the pair


def disagreement(case):
    inputs, outcome = case.given.inputs, case.outcome
    found = pair.find_pair(case.outcome_over, case.firmware, inputs, outcome, case.trace)
    if found is None:
        return None
    word, length = case.coming() if outcome.role == 5 else (None, None)
    because = pair.pair_text(found, outcome.role, case.counter, word, length)
    facts = {name: value for name, value in found._asdict().items() if value is not None}
    return Explanation(because=because, advice=pair_advice(case, found), facts={'pair': facts})


def pair_advice(case, found):
    """The advice on a branch says only what holds of this one."""
    if case.outcome.role != 5:
        return general_advice(case)
    if found.other == found.first + 1 and first_alone(case):
        return advice(7, 5, case.given)
    agree = f'input {found.first} goes' if found.other == found.first + 1 else f'inputs {found.first} to {found.other - 1} go'
    return (f'{agree} one way and input {found.other} another: compare the channel with the bounds of the range alone, so that all inputs '
            'go one way, or give with --inputs a range that the firmware treats alike')


def first_alone(case):
    """Whether all inputs of the range but the first agree at the refused step."""
    rest = case.given.inputs._replace(first=case.given.inputs.first + 1)
    return rest.first == rest.last or case.outcome_over(rest, case.outcome.completed_steps + 1) != case.outcome


# ---- 6: where the unknown value came from


def unknown(case):
    tested = next((one for one in case.retrace().tested(case.outcome.role) if one.origin), None)
    if tested is None:
        return None
    way = links(tested.origin)
    first, source = way[0], way[-1]
    what = register_text(source.what)
    because = f'{what} was never set' if first is source else f'{subject(case, tested)} comes from {what.rstrip(",")}, which was never set'
    shown = way[:-1][:LINKS]
    lines = [f'{link_text(link)} at {case.step_text(link.step)}' for link in shown]
    if len(way) - 1 > LINKS:
        lines.append(f'and so on, through {len(way) - 1 - LINKS:,} more steps')
    facts = {'register': source.what, 'way': [{**case.step_fields(link.step), 'set': link_name(link)} for link in shown]}
    if tested.event:
        facts['event'] = tested.event
    return Explanation(because=because, lines=lines, advice=unknown_advice(source.what, case.outcome.role), facts={'unknown': facts})


def links(origin):
    """An unknown value's way, backwards, to the register that nothing set."""
    way = []
    while origin:
        way.append(origin)
        origin = origin.before
    return way


def link_name(link):
    return link.what if isinstance(link.what, str) else f'{link.what:08x}'


def link_text(link):
    return f'{link.what} was set' if isinstance(link.what, str) else f'the byte {link.what:08x} was stored'


def subject(case, tested):
    """What the run tested, in words."""
    if tested.event:
        return f"event {tested.event}'s {record.ROLES[case.outcome.role]}"
    return {1: 'the code here', 6: 'a0', 7: 'the event count'}.get(case.outcome.role) or tested.origin.what


def register_text(name):
    kind = {'gp': 'the global pointer', 'tp': 'the thread pointer'}.get(name) or ('an argument register' if name[0] == 'a' else '')
    return f'{name}, {kind},' if kind else name


def unknown_advice(name, role):
    if name == 'gp':
        return 'gp is set by start-up code, which did not run: leave __global_pointer$ undefined when linking, or give -Wl,--no-relax'
    if name == 'tp':
        return 'tp is set by start-up code, which did not run: use no thread-local variables (__thread, or a libc\'s errno)'
    path = ', and return a value on every path' if role == 6 else ''
    if name[0] == 'a':
        return (f'the run passes the channel in a0 and nothing in {name}: let the handler take one argument, and set every variable before it is '
                f'read{path}')
    return f'at entry only zero, ra, sp and a0 are known: set every variable before it is read{path}'


# ---- 12: which count


def counts(case):
    done = case.retrace()
    count, _ = done.load(case.firmware.event_count, 4)
    if type(count) is not int:
        return None
    counted = sum(store.counts for store in done.count_stores)
    others = [store for store in done.count_stores if not store.counts]
    facts = {'event_count': count, 'recorded_stores': counted, 'other_stores': len(others)}
    lines = [f'not counted, since it is no SW at the event count: {case.step_text(store.step)}' for store in others[:STORES]]
    lines += [f'counted: {case.step_text(store.step)}' for store in done.count_stores if store.counts and count <= MAX_EVENTS][:STORES]
    stored = 'no SW' if not counted else record.count(counted, 'SW')
    unlike = f', and {stored} stored it' if count != counted else ''
    above = f', above {MAX_EVENTS}' if count > MAX_EVENTS else ''
    return Explanation(because=f'the event count is {count:,}{above}{unlike}', lines=lines, advice=COUNTING if unlike else FEWER,
                       facts={'count': facts})


FEWER = f'at most {MAX_EVENTS} events are read: record no more'
COUNTING = 'count each event by one SW of the new count at the event count: make it volatile, a whole word, stored nowhere else'


# ---- 3 and 14: loops


def loop(case):
    """A loop in which the run ended."""
    period, steps = repeated(case.trace)
    if not period:
        return None
    start = len(case.trace) - steps
    body = [case.trace[k].program_counter for k in range(start, start + period)]
    for_ever = unchanging(case, start, period)
    instructions = record.count(len(set(body)), 'instruction')
    span = f'the {instructions} from {min(body):08x} to {max(body):08x}' if len(set(body)) > 1 else f'the instruction at {body[0]:08x}'
    because = (f'it loops for ever: after step {start:,} {span} repeat{"" if len(set(body)) > 1 else "s"} and nothing changes' if for_ever
               else f'the last {steps:,} steps repeat {span}')
    told = 'a loop that waits for a device, an interrupt or another core has no end in this run: let the handler return' if for_ever else None
    facts = {'loop': {'after_step': start, 'period': period, 'first': min(body), 'last': max(body), 'for_ever': for_ever}}
    return Explanation(because=because, lines=[], advice=told, facts=facts)


def repeated(trace):
    """The steps of the shortest loop at the trace's end, and for how many steps it lasts; zeros where there is none."""
    for period in range(1, min(LONGEST_PERIOD, len(trace) // TURNS) + 1):
        if trace[len(trace) - 1] == trace[len(trace) - 1 - period] and repeats(trace, period, (TURNS - 1) * period):
            few, many = (TURNS - 1) * period, len(trace) - period
            while few < many:  # the most steps, each like the one a period before it
                middle = (few + many + 1) // 2
                few, many = (middle, many) if repeats(trace, period, middle) else (few, middle - 1)
            return period, few + period
    return 0, 0


def repeats(trace, period, steps):
    """Whether each of the last steps is like the one a period before it."""
    end = len(trace)
    return trace[end - steps:] == trace[end - steps - period:end - period]


def unchanging(case, start, period):
    """Whether a turn of the loop leaves registers and memory as they were, so that all later turns do. The first turn may still change
    something that the second does not."""
    if start + 2 * period > min(RETRACED, len(case.trace)):
        return False
    inputs = case.given.inputs
    done = retrace.Retrace(case.firmware, range(inputs.first, inputs.last + 1)).follow(case.trace, start + period)
    before = done.state()
    return done.follow(case.trace, start + 2 * period).state() == before


# ---- 4, 5, 11: where an access went


def access(case):
    """The address of a load or a store that was refused."""
    if case.counter == STOP:
        return end_access(case)
    word, _ = case.coming()
    immediate = {0x03: riscv.immediate_i, 0x23: riscv.immediate_s}.get(riscv.opcode(word))
    address = immediate and case.retrace().address(word, immediate(word))
    if type(address) is not int:
        return None
    name = layout.holder(case.layout.objects, address)
    inside = f', in {name}' if name else ''
    past = f'; the image ends at {case.layout.image_end:08x}' if case.outcome.number == 11 else ''
    return Explanation(because=f'the address is {address:08x}{inside}{past}', advice=access_advice(case.outcome.number, address),
                       facts={'access': {'address': address, 'object': name}})


def end_access(case):
    """What is read when the run has ended: the event count, then the events."""
    firmware = case.firmware
    if firmware.event_count > MEMORY_END - 4:
        return Explanation(because=f'the event count at {firmware.event_count:08x} does not end in memory')
    return Explanation(because=f'not all events from {firmware.events:08x} on lie in memory')


def access_advice(number, address):
    if number == 11:
        return None
    if address < NULL_PAGE:
        return 'this looks like a null pointer, or a field of what it points to: nothing lies there'
    return f'only memory, {MEMORY_START:08x} to {MEMORY_END - 1:08x}, can be reached: a device register is not there, so record an event instead'


# ---- 8 and 9, and whatever happens outside the code


def left_code(case):
    """The step by which the run left the code for data, zeros, or what is no memory."""
    written = case.retrace().written
    where = layout.data_at(case.firmware, case.layout, case.counter, written)
    if where is None:
        return None
    k = len(case.trace) - 1
    while k >= 0 and layout.data_at(case.firmware, case.layout, case.trace[k].program_counter, written):
        k -= 1
    facts = {'what': where, **(case.step_fields(k) if k >= 0 else {'step': 0})}
    if k < 0:
        return Explanation(because=f'the entry lies in {where}', advice='name the handler as entry, with --entry', facts={'left_code': facts})
    last = case.trace[k]
    because = f'the run leaves the code at step {k + 1:,}, {named_step(case.firmware, last)}, for {where}'
    return Explanation(because=because, advice=LEAVING, facts={'left_code': facts})


LEAVING = ('code goes on past its end, or jumps by a wrong address: let every path return (a function that is said not to return does '
           'not), and look at the step that leaves it')


def halfword(case):
    half, _ = case.retrace().load(case.counter, 2)
    if half == 0:
        return Explanation(note='zeros', advice=TRAP)
    found = type(half) is int and extensions.refused_halfword(half, case.layout.arch)
    return named(case, found) if found else Explanation(note='reserved', advice=RESERVED)


RESERVED = 'no extension known here has it: is it data, or did the run come into the middle of an instruction?'


def word(case):
    found = extensions.refused_word(case.coming()[0])
    more = extensions.beyond(case.layout.arch)
    if found is None and more:
        found = None, f'the firmware is compiled for {", ".join(more)} too'
    return named(case, found) if found else Explanation(advice=RESERVED)


def named(case, found):
    """An instruction by its name and what has it."""
    name, where = found
    text = firmware.instruction_at(case.firmware, case.counter) or ''
    note = f'{name}, {where}' if name and text[:1] in ('', '.') else where
    facts = {'refused_instruction': {'name': name, 'of': where, 'compiled_for': case.layout.arch or None}}
    return Explanation(note=note, advice=word_advice(name, where, case), facts=facts)


def word_advice(name, where, case):
    if name in SYSTEM:
        return SYSTEM[name]
    made = f', and not for {case.layout.arch}' if case.layout.arch else ''
    return f'the run takes rv32imc alone: compile for it, -march=rv32imc{made}, with libraries too, and write no such instruction by hand'


EXPLAINERS = {3: [loop], 14: [loop], 4: [left_code, access], 5: [left_code, access], 6: [unknown], 7: [disagreement], 8: [left_code, halfword],
              9: [left_code, word], 11: [access], 12: [counts]}
