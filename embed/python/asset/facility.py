"""A facility, which a program owns."""

from ctypes import byref, c_int64, c_size_t, c_uint32, c_uint64
from typing import Dict, Iterable, List, Mapping, NoReturn, Optional, Tuple, Union

from .answers import Answer, AnswerKind, Entry, Operations, Status, StepKind, Tie, Waiter
from .errors import (
    AssetError,
    BadArgumentError,
    BadCapacityError,
    ClosedError,
    DoubleObjectError,
    FullError,
    NoMemoryError,
)
from .library import Handle, PlainAnswer, PlainObject, PlainStep, PlainWaiter, library

SLOTS = 16
ALL_COUNT = 2**64 - 1

#: In place of a list of objects: every object.
ALL = None

Objects = Optional[Iterable[int]]

_ABSENT = 8
_DOUBLE_OBJECT = 6
_HALF = 2**63
_FAULTS = {
    1: FullError("the history has no room"),
    2: NoMemoryError("no memory"),
    3: ClosedError("the facility is closed"),
    5: BadCapacityError("the capacity is not from 1 to 1,000,000"),
    7: BadArgumentError("no such step"),
}
_KINDS: Dict[int, AnswerKind] = {int(kind): kind for kind in AnswerKind}
_PLAIN_ANSWERS: Dict[int, Answer] = {number: Answer(_KINDS[number]) for number in (1, 3, 4, 5, 22, 23)}


def _raise(code: int) -> NoReturn:
    """Raises the error of a code."""
    fault = _FAULTS.get(code)
    raise type(fault)(*fault.args) if fault else AssetError(f"code {code}")


def _check_number(number: int) -> None:
    """Raises an error unless the number names something."""
    if number >> 64:
        raise BadArgumentError(f"{number} is not from 0 to 2**64 - 1")


def _check_value(value: int) -> None:
    """Raises an error unless the value is one of an object."""
    if (value + _HALF) >> 64:
        raise BadArgumentError(f"{value} is not from -2**63 to 2**63 - 1")


def _answer(plain: PlainAnswer) -> Answer:
    """Returns the answer that the library wrote."""
    kind = plain.kind
    return _PLAIN_ANSWERS.get(kind) or Answer(_KINDS[kind], plain.name, plain.value)


class Asset:
    """A facility over objects with their values. It is closed at the end of its `with`, by `close`, or when it is collected.

    Every call raises `ClosedError` once it is closed. A facility is used on the thread that made it.
    """

    def __init__(self, objects: Union[Mapping[int, int], Iterable[Tuple[int, int]]], capacity: int = 10_000) -> None:
        """Opens a facility with room for `capacity` entries. Raises `BadCapacityError`, `DoubleObjectError`, `NoMemoryError`, and
        `BadArgumentError` for a number that is out of its range."""
        self._handle = Handle()
        self._step = PlainStep()
        self._answer = PlainAnswer()
        self._at = byref(self._handle)
        self._step_at = byref(self._step)
        self._answer_at = byref(self._answer)
        if objects is None:
            raise BadArgumentError("no objects are given")
        given: List[Tuple[int, int]] = list(objects.items() if isinstance(objects, Mapping) else objects)
        for name, value in given:
            _check_number(name)
            _check_value(value)
        if capacity >> 64:
            raise BadCapacityError(*_FAULTS[5].args)
        plain = (PlainObject * max(len(given), 1))(*given)
        twice = c_uint64()
        code = library.asset_open(self._at, plain, len(given), capacity, byref(twice))
        if code == _DOUBLE_OBJECT:
            raise DoubleObjectError(twice.value)
        if code:
            _raise(code)

    def __enter__(self) -> "Asset":
        return self

    def __exit__(self, *_: object) -> None:
        self.close()

    def __del__(self) -> None:
        if getattr(self, "_at", None):
            library.asset_close(self._at)

    def close(self) -> None:
        """Closes the facility and frees what it holds. Does nothing if it is closed."""
        library.asset_close(self._at)

    @property
    def is_open(self) -> bool:
        """Whether the facility is open."""
        return self._handle.is_open

    def ask(self, kind: int, first: int, second: int = 0, value: int = 0, detail: int = 0) -> Answer:
        """Asks for a step, and returns its answer. The members are those of `struct asset_step` without its objects: kinds 6, 7 and
        13 use those that the last `permit`, `permit_any` or `delegate` listed. Raises `FullError`, `NoMemoryError`, and
        `BadArgumentError` for an unknown kind or detail, a number that is out of its range, or objects that the step cannot have."""
        if (kind | detail) >> 32 or (first | second) >> 64 or (value + _HALF) >> 64:
            raise BadArgumentError("a number is out of its range")
        step = self._step
        step.kind = kind
        step.detail = detail
        step.first = first
        step.second = second
        step.value = value
        code = library.asset_step(self._at, self._step_at, self._answer_at)
        if code:
            _raise(code)
        plain = self._answer
        kind = plain.kind
        return _PLAIN_ANSWERS.get(kind) or Answer(_KINDS[kind], plain.name, plain.value)

    def _list(self, objects: Objects) -> None:
        """Puts a set of objects into the step. Raises `BadArgumentError` for a list that is empty or too long."""
        step = self._step
        if objects is ALL:
            step.count = ALL_COUNT
            return
        names = list(objects)
        if not 0 < len(names) <= SLOTS:
            raise BadArgumentError(f"a list has 1 to {SLOTS} objects, and not {len(names)}")
        for name in names:
            _check_number(name)
        step.count = len(names)
        step.objects[: len(names)] = names

    def initiate(self, transaction: int, parent: Optional[int] = None) -> Answer:
        """Registers a transaction, perhaps with a parent."""
        if parent is None:
            return self.ask(StepKind.INITIATE, transaction)
        return self.ask(StepKind.INITIATE, transaction, parent, detail=1)

    def begin(self, transaction: int) -> Answer:
        """Starts a transaction."""
        return self.ask(2, transaction)

    def read(self, transaction: int, name: int) -> Answer:
        """Reads an object."""
        return self.ask(3, transaction, name)

    def write(self, transaction: int, name: int, value: int) -> Answer:
        """Writes a value to an object."""
        return self.ask(4, transaction, name, value)

    def add(self, transaction: int, name: int, amount: int) -> Answer:
        """Adds to an object. The sum wraps to 64 bits."""
        return self.ask(12, transaction, name, amount)

    def complete(self, transaction: int) -> Answer:
        """Says that a transaction has done its work."""
        return self.ask(5, transaction)

    def permit(self, giver: int, taker: int, operations: Operations, objects: Objects = ALL) -> Answer:
        """Lets the taker do operations on 1 to 16 objects, or on all, although they conflict with the giver's own."""
        self._list(objects)
        return self.ask(6, giver, taker, detail=operations)

    def permit_any(self, giver: int, operations: Operations, objects: Iterable[int]) -> Answer:
        """Lets anybody do operations on 1 to 16 objects, as long as the giver is live, although they conflict with its own."""
        self._list(objects)
        return self.ask(13, giver, detail=operations)

    def delegate(self, giver: int, taker: int, objects: Objects = ALL) -> Answer:
        """Hands over to the taker what the giver did on 1 to 16 objects, or on all."""
        self._list(objects)
        return self.ask(7, giver, taker)

    def depend(self, tie: Tie, source: int, dependent: int) -> Answer:
        """Makes the dependent depend on its source."""
        return self.ask(8, source, dependent, detail=tie)

    def commit(self, transaction: int) -> Answer:
        """Commits a transaction, with its class."""
        return self.ask(9, transaction)

    def abort(self, transaction: int) -> Answer:
        """Aborts a transaction, with its class and all that depend on it by abort dependencies."""
        return self.ask(10, transaction)

    def wait_for(self, transaction: int) -> Answer:
        """Asks whether a transaction has completed or ended."""
        return self.ask(11, transaction)

    def status(self, transaction: int) -> Status:
        """Returns the status of a transaction."""
        _check_number(transaction)
        status = c_uint32()
        code = library.asset_status(self._at, transaction, byref(status))
        if code:
            _raise(code)
        return Status(status.value)

    def value(self, name: int) -> Optional[int]:
        """Returns the value of an object, and None if there is no such object."""
        _check_number(name)
        value = c_int64()
        code = library.asset_value(self._at, name, byref(value))
        if code == _ABSENT:
            return None
        if code:
            _raise(code)
        return value.value

    def waiter(self, name: int, index: int) -> Optional[Waiter]:
        """Returns the waiter of an object at the index, in order of initiation, and None past the end."""
        _check_number(name)
        _check_number(index)
        waiter = PlainWaiter()
        code = library.asset_waiter(self._at, name, index, byref(waiter))
        if code == _ABSENT:
            return None
        if code:
            _raise(code)
        return Waiter(waiter.name, Operations(waiter.op))

    def __len__(self) -> int:
        """Returns the number of entries."""
        size = c_size_t()
        code = library.asset_len(self._at, byref(size))
        if code:
            _raise(code)
        return size.value

    def entry(self, index: int) -> Optional[Entry]:
        """Returns the entry at the index, oldest first, with objects in rising order, and None past the end."""
        _check_number(index)
        step, answer = PlainStep(), PlainAnswer()
        code = library.asset_entry(self._at, index, byref(step), byref(answer))
        if code == _ABSENT:
            return None
        if code:
            _raise(code)
        objects = None if step.count == ALL_COUNT else tuple(step.objects[: step.count])
        return Entry(StepKind(step.kind), step.detail, step.first, step.second, step.value, objects, _answer(answer))

    def group_of(self, transaction: int) -> Optional[int]:
        """Returns the number of the group of a transaction, and None if no step acts on it. Raises `NoMemoryError`."""
        _check_number(transaction)
        group = c_size_t()
        code = library.asset_group_of(self._at, transaction, byref(group))
        if code == _ABSENT:
            return None
        if code:
            _raise(code)
        return group.value
