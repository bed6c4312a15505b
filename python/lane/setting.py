"""The setting of a run, given the same way to every verb."""
import argparse

from . import record
from .command import symbol_word
from .firmware import ROWS, STEPS
from .library import MAX_ROWS, MAX_STEPS


def is_number(word, most):
    return word.isascii() and word.isdigit() and int(word) <= most


def number(most):
    def parse(word):
        if not is_number(word, most):
            raise argparse.ArgumentTypeError(f'{word!r} is no number from 0 to {most:,}')
        return int(word)
    return parse


def input_range(word):
    """FIRST-LAST; whether the first is above the last is for the proved run to say."""
    ends = word.split('-')
    if len(ends) != 2 or not all(is_number(end, 255) for end in ends):
        raise argparse.ArgumentTypeError(f'{word!r} is not two numbers from 0 to 255, as 12-255')
    return record.InputRange(*map(int, ends))


def chosen(given):
    """The keywords of a run that has these options."""
    return {'inputs': given.inputs, 'rows': given.rows, 'steps': given.steps}


def add_options(parser):
    parser.add_argument('--entry', metavar='SYMBOL', type=symbol_word, help="the handler (else the ELF's entry)")
    parser.add_argument('--event-count', metavar='SYMBOL', type=symbol_word, help='the word that counts events (else event_count)')
    parser.add_argument('--events', metavar='SYMBOL', type=symbol_word, help='the events, 12 bytes each (else events)')
    parser.add_argument('--startup', action='store_true',
                        help='the entry is start-up code, which copies initialised data to where the handler uses it')
    parser.add_argument('--inputs', metavar='FIRST-LAST', type=input_range, default=record.INVALID_CHANNELS,
                        help='the inputs to run with, from 0 to 255 (6-255); 12-255 for a head of twelve channels')
    parser.add_argument('--rows', metavar='N', type=number(MAX_ROWS), default=ROWS, help=f'written bytes to lend for ({ROWS:,})')
    parser.add_argument('--steps', metavar='N', type=number(MAX_STEPS), default=STEPS, help=f'steps to lend for ({STEPS:,})')
