"""lane: its verbs."""
import sys

from . import check, run, show
from .command import command, say, write_text

VERBS = {'check': check, 'run': run, 'show': show}
USAGE = '''\
usage: lane check [SETTING] [-v | -q] [--format text|json|sarif|junit|github|html]
                  [-o RECORD] FILE...                a verdict for each firmware
       lane run [SETTING] [-o RECORD] FILE          the record of a run
       lane show [--bytes | --json | --csv] RECORD  a record for people

lane VERB --help says more. Exit status: 0 yes; 1 no, and the firmware is the
cause; 2 an error, and the caller is; 3 undecided, and more has to be lent.
'''


def body(words):
    if words[:1] in (['--help'], ['-h']):
        write_text(USAGE)
        return 0
    if words[:1] == ['--version']:
        return check.main('lane', words[:1])
    if not words or words[0] not in VERBS:
        say('lane', f'{f"no verb {words[0]!r}" if words else "no verb"}: one of {", ".join(VERBS)} (see --help)')
        return 2
    return VERBS[words[0]].main(f'lane {words[0]}', words[1:])


def main():
    return command('lane', lambda: body(sys.argv[1:]))


if __name__ == '__main__':
    sys.exit(main())
