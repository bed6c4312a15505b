"""What a command says of a checked file, as one JSON-like document that every format is made of."""
import hashlib

from . import doubts, firmware, places, record, riscv
from .advice import advice
from .command import shown
from .explain import Explanation
from .library import MEMORY_END, MEMORY_START, STOP

SCHEMA, VERSION = 'lane-check', 1  # docs/lane-check.schema.json
LAST_STEPS = 10  # of a refused run
A0 = 10


def heading(name, verdict, status, given, warnings=()):
    """What every document begins with."""
    setting = {'first_input': given.inputs.first, 'last_input': given.inputs.last, 'entry': given.entry, 'event_count': given.event_count,
               'events': given.events, 'startup': given.startup, 'rows': given.rows, 'steps': given.steps}
    return {'schema': SCHEMA, 'schema_version': VERSION, 'verb': 'check', 'setting': setting, 'warnings': list(warnings), 'file': shown(name),
            'uri': places.uri(name), 'verdict': verdict, 'status': status, 'first_input': given.inputs.first, 'last_input': given.inputs.last}


def of_failure(name, message, given):
    """The document of a file that can't be run."""
    return {**heading(name, 'error', 2, given), 'message': message, 'text': message}


def of_run(loaded, run, given, explanation):
    """The document of a run. A refusal before the first step has no explanation."""
    accepted = isinstance(run.outcome, record.Accepted)
    warnings = [*loaded.warnings, *doubts.of_run(loaded, run)]
    whole = {**heading(loaded.name, 'accepted' if accepted else 'refused', record.status(run.outcome), given, warnings),
             'entry': loaded.entry, 'event_count_address': loaded.event_count, 'events_address': loaded.events,
             'input_sha256': hashlib.sha256(firmware.packed(loaded)).hexdigest(), 'file_sha256': loaded.file_sha256}
    return {**whole, **(accepted_fields(run.outcome) if accepted else refused_fields(loaded, run, given, explanation))}


# ---- accepted


def accepted_fields(outcome):
    inputs = record.inputs_of(outcome)
    others = '' if inputs == record.INVALID_CHANNELS else f', for {record.inputs_text(inputs)}'  # those of lane-run go without saying
    return {'return_value': outcome.return_value, 'steps': outcome.steps, 'written_bytes': outcome.written_bytes,
            'events': [event._asdict() for event in outcome.events], 'text': f'{record.verdict(outcome)}{others}'}


# ---- refused


def refused_fields(loaded, run, given, explanation):
    outcome, trace = run.outcome, run.trace
    told = explanation or Explanation(advice=advice(outcome.number, outcome.role, given))
    counter = (trace[len(trace) - 1].next_program_counter if trace else loaded.entry) if explanation else None
    last = range(max(len(trace) - LAST_STEPS, 0), len(trace))
    frames = places.frames(loaded, sorted({trace[k].program_counter for k in last} | {counter} - {None, STOP}))
    place = None if counter in (None, STOP) else refused_place(loaded, counter, frames.get(counter, ()))
    whole = {**record.refusal_fields(outcome), 'place': place, 'at_end': counter == STOP, 'note': told.note or None,
             'because': told.because or None, **told.facts, 'last_steps': [step_fields(loaded, k, trace[k], frames) for k in last],
             'more': [*return_value_set(loaded, run), *told.lines], 'advice': told.advice}
    text = record.verdict(outcome) + place_text(whole, trace) + (f'; {told.because}' if told.because else '')
    return {**whole, 'text': text}


def refused_place(loaded, counter, frames):
    return {**places.place(loaded, counter, frames), 'instruction': firmware.instruction_at(loaded, counter),
            'source': places.source_text(frames) or None}


def step_fields(loaded, k, step, frames):
    return {'step': k + 1, **places.step_place(loaded, step, frames.get(step.program_counter, ())), 'text': places.named_step(loaded, step)}


def place_text(whole, trace):
    """The place in words, with what precedes it in the line."""
    place, note = whole['place'], f' ({whole["note"]})' if whole['note'] else ''
    if place is None:
        return ', at the end of the run' if whole['at_end'] else ''
    offset = f'+0x{place["offset"]:x}' if place['offset'] else ''
    inside, source = (f' in {place["function"]}{offset}' if place['function'] else ''), (f' ({place["source"]})' if place['source'] else '')
    instruction = place['instruction'] or missing(place['address'], () if 'left_code' in whole else trace)
    return f', at {place["address"]:08x}{inside}{source}: {instruction}{note}'


def missing(address, trace):
    """Why there is no instruction in the image at the place."""
    why = 'not in the image' if MEMORY_START <= address < MEMORY_END else 'outside memory'
    return f'{why}, reached from {trace[len(trace) - 1].program_counter:08x}' if trace else why


def return_value_set(loaded, run):
    """Of a return value that is not the same for all inputs, the last step that set a0, in a line."""
    if (run.outcome.number, run.outcome.role) != (7, 6):
        return []
    for k in range(len(run.trace) - 1, -1, -1):
        if riscv.written_register(run.trace[k].word) == A0:
            return [f'a0 was last set at step {k + 1:,}: {places.named_step(loaded, run.trace[k])}']
    return ['a0 still holds the channel']
