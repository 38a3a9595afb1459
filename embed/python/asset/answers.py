"""What a facility answers, and the names of its numbers."""

from enum import IntEnum
from typing import NamedTuple, Optional, Tuple


class StepKind(IntEnum):
    """What a step asks for."""

    INITIATE = 1
    BEGIN = 2
    READ = 3
    WRITE = 4
    COMPLETE = 5
    PERMIT = 6
    DELEGATE = 7
    DEPEND = 8
    COMMIT = 9
    ABORT = 10
    WAIT_FOR = 11
    ADD = 12
    PERMIT_ANY = 13


class Operations(IntEnum):
    """What a permit lets its taker do, or anybody, and what a waiter asked to do."""

    READ = 1
    WRITE = 2
    READ_AND_WRITE = 3
    ADD = 4
    READ_AND_ADD = 5
    WRITE_AND_ADD = 6
    ALL = 7


class Tie(IntEnum):
    """How the end of one transaction depends on that of another."""

    COMMIT_DEPENDENCY = 1
    ABORT_DEPENDENCY = 2
    GROUP_COMMIT = 3


class Status(IntEnum):
    """The status of a transaction."""

    UNKNOWN = 0
    INITIATED = 1
    RUNNING = 2
    COMPLETED = 3
    COMMITTED = 4
    ABORTED = 5


class AnswerKind(IntEnum):
    """What an answer says. Those from UNKNOWN on are refusals, which are recorded and change nothing else."""

    DONE = 1
    VALUE = 2
    COMMITTED = 3
    ABORTED = 4
    WAIT = 5
    UNKNOWN = 16
    ENDED = 17
    NOT_RUNNING = 18
    TAKEN = 19
    BEGUN = 20
    NO_OBJECT = 21
    SAME = 22
    CYCLE = 23
    TOO_LATE = 24


class Answer(NamedTuple):
    """The answer to a step: the transaction or object that a refusal is about is `name`, and what was read is `value`."""

    kind: AnswerKind
    name: int = 0
    value: int = 0

    @property
    def is_wait(self) -> bool:
        """Whether the answer is to ask again later. It is not recorded."""
        return self.kind == AnswerKind.WAIT

    @property
    def is_refusal(self) -> bool:
        """Whether the step was refused."""
        return self.kind >= AnswerKind.UNKNOWN


class Entry(NamedTuple):
    """An entry of the history: a step and its answer. `objects` is None for all objects, and empty for a step without a set."""

    kind: StepKind
    detail: int
    first: int
    second: int
    value: int
    objects: Optional[Tuple[int, ...]]
    answer: Answer


class Waiter(NamedTuple):
    """A transaction that waits for an object, and what it asked to do."""

    transaction: int
    operation: Operations
