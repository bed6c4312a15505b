#!/usr/bin/env python3
"""A verdict for each firmware, by the package `lane`.

    examples/python/verdicts.py FILE...

ends with 0: all accepted, 1: some refused, 2: an error, 3: too little lent. From a clone the package stands in python/; LANE_LIBRARY may name
the shared object that `tools/install PREFIX` makes.
"""
import os
import sys

sys.path.insert(0, os.path.join(os.path.dirname(os.path.realpath(__file__)), '..', '..', 'python'))
import lane


def verdict(path):
    """A line of a file, and its status."""
    try:
        ran = lane.Firmware.read(path).run(rows=1000, steps=5000)
    except (lane.Failure, lane.Undecided) as why:
        return str(why), why.status
    outcome = lane.read_record(ran.record)  # what a loader gets
    if isinstance(outcome, lane.Refused):
        return f'{path}: refused {outcome.number}, role {outcome.role}, after {outcome.completed_steps} steps', 1
    last = outcome.first_input + outcome.lanes - 1
    return f'{path}: accepted for inputs {outcome.first_input} to {last}: return value {outcome.return_value}, {len(outcome.events)} events', 0


def main(paths):
    if not paths:
        print('usage: verdicts.py FILE...', file=sys.stderr)
        return 2
    lines, statuses = zip(*map(verdict, paths))
    print('\n'.join(lines))
    return max(statuses, key=[0, 3, 1, 2].index)


if __name__ == '__main__':
    sys.exit(main(sys.argv[1:]))
