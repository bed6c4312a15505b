"""What looks wrong in an accepted run, though every word of its verdict is true."""
from . import record
from .elf import EVENT_BYTES
from .layout import layout
from .retrace import Parted, Retrace, STACK

FOLLOWED = 20000  # steps, of a run that counts no event


class Stores(Retrace):
    """A retrace that keeps the addresses of stores outside the stack."""

    def __init__(self, *words):
        super().__init__(*words)
        self.outside = []

    def store(self, address, size, value, before):
        super().store(address, size, value, before)
        if not self.values[2] <= address < STACK:
            self.outside.append(address)


def of_run(loaded, run):
    """Texts, each of one doubt."""
    if not isinstance(run.outcome, record.Accepted):
        return []
    objects = layout(loaded).objects
    return few_events(loaded, run.outcome, objects) if run.outcome.events else untouched_count(loaded, run, objects)


def object_at(objects, address):
    return next((one for one in objects if one[0] <= address < one[1]), None)


def few_events(loaded, outcome, objects):
    """More events than the array has room for: the last ones lie in what follows it."""
    found = object_at(objects, loaded.events)
    room = (found[1] - loaded.events) // EVENT_BYTES if found else len(outcome.events)
    if len(outcome.events) <= room:
        return []
    return [f'{record.count(len(outcome.events), "event")}, and {found[2]} at {loaded.events:08X} has room for {room:,}: the others lie in what '
            'follows it']


def untouched_count(loaded, run, objects):
    """No event is counted, though the run stores elsewhere than on its stack."""
    followed = Stores(loaded, run.outcome[:1])
    try:
        followed.follow(run.trace[:FOLLOWED])
    except (Parted, TypeError):
        pass  # what it stored until then was stored
    if not followed.outside:
        return []
    found = sorted({object_at(objects, address) or (address, address, f'{address:08X}') for address in followed.outside})
    names = ', '.join(name for _, _, name in found[:3]) + (f' and {len(found) - 3:,} more' if found[3:] else '')
    return [f'no event: no SW of the run stores the event count, {loaded.event_count:08X}, but it stores in {names}; is one of these the '
            'count (--event-count)?']
