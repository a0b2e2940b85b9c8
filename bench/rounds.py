"""The cost of the rounds of a job, ours and those of others.

A job has a text and a command that starts a program with it: the program reads the text, works the
given number of rounds, and writes its results. So the cost of the rounds is that of a run less that
of a run without a round.
"""

import sys
from collections.abc import Callable, Sequence
from typing import Protocol

import meters
from tables import Numbers

ROUNDS = 100  # of a run that is timed, unless fewer are given
TRIES = 5  # of which the fastest counts
Meter = Callable[[Sequence[str], str], float]  # what a run of a command on a text costs


class Job(Protocol):
    """A text, and the command that starts a program with it."""

    @property
    def text(self) -> str:
        """The text."""

    def command(self, program: str, rounds: int) -> list[str]:
        """The command that starts a program with this number of rounds."""


def check(programs: Sequence[str], job: Job) -> str:
    """Ends the program unless all do the same."""
    ours, *others = [meters.run(job.command(program, 1), job.text) for program in programs]
    if ours[0] != 0 or any(other != ours for other in others):
        words = ' '.join(job.command('', 1))[:80]
        sys.exit(f'{meters.NAME}:{words}: ours {ours}, others {others}')
    return ours[1]


def beyond_setup(meter: Meter, programs: Sequence[str], job: Job, rounds: int = 1) -> Numbers:
    """The meter's reading for these rounds, less that for none."""
    readings = [[meter(job.command(program, count), job.text) for count in (rounds, 0)]
            for program in programs]
    return Numbers(*(some - none for some, none in readings))


def instructions(programs: Sequence[str], job: Job) -> Numbers:
    """The instructions of a round, after a comparison of the results."""
    check(programs, job)
    return beyond_setup(meters.instructions, programs, job)


def peak(programs: Sequence[str], job: Job) -> Numbers:
    """The peak memory of a round, besides the text and what was built before."""
    return beyond_setup(meters.peak, programs, job)


def requests(programs: Sequence[str], job: Job) -> Numbers:
    """How often a round asks for memory."""
    return beyond_setup(meters.requests, programs, job)


def microseconds(programs: Sequence[str], job: Job, rounds: int = ROUNDS) -> Numbers:
    """The time of a round."""
    def least(command: Sequence[str], text: str) -> float:
        return 1e6 / rounds * meters.seconds(command, text, TRIES)

    return beyond_setup(least, programs, job, rounds)
