"""What ends a call or a command without an answer, by who has to mend it."""


class Failure(Exception):
    """The caller: bad usage, a file that can't be read or is no firmware, a refusal 1, 2, 15, 16 or 17. Commands end with status 2."""

    status = 2

    def __init__(self, message, number=None):
        super().__init__(message)
        self.number = number  # of a refusal


class Undecided(Exception):
    """The lender: a run that is refused with 13 or 14. More rows or steps decide it. Commands end with status 3."""

    status = 3

    def __init__(self, message, run):
        super().__init__(message)
        self.number, self.run = run.outcome.number, run
