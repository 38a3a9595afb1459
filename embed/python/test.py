"""All worked rows, from the file that is the argument; wrong arguments; and a thousand handles."""

import ctypes
import sys
import unittest
from typing import List, Optional, Tuple

from asset import (
    ALL,
    Answer,
    AnswerKind,
    Asset,
    BadArgumentError,
    BadCapacityError,
    ClosedError,
    DoubleObjectError,
    FullError,
    Operations,
    Status,
    StepKind,
    Tie,
    Waiter,
)
from asset.library import Handle, PlainAnswer, PlainStep, library

ROWS = ""
OPERATIONS = {
    "r": Operations.READ,
    "w": Operations.WRITE,
    "rw": Operations.READ_AND_WRITE,
    "a": Operations.ADD,
    "ra": Operations.READ_AND_ADD,
    "wa": Operations.WRITE_AND_ADD,
    "rwa": Operations.ALL,
}
TIES = {"cd": Tie.COMMIT_DEPENDENCY, "ad": Tie.ABORT_DEPENDENCY, "gc": Tie.GROUP_COMMIT}
WORDS = {1: "ok", 3: "committed", 4: "aborted", 5: "wait", 22: "refused same", 23: "refused cycle"}


def names_of(word: str) -> Optional[List[int]]:
    """Reads a set of objects: `all`, or numbers with commas between them."""
    return ALL if word == "all" else [int(part) for part in word.split(",")]


def ask(asset: Asset, line: str) -> Answer:
    """Asks for the step of a line."""
    word, *words = line.split(" ")
    if word == "permit" and words[1] == "any":
        return asset.permit_any(int(words[0]), OPERATIONS[words[2]], names_of(words[3]) or [])
    if word == "permit":
        return asset.permit(int(words[0]), int(words[1]), OPERATIONS[words[2]], names_of(words[3]))
    if word == "delegate":
        return asset.delegate(int(words[0]), int(words[1]), names_of(words[2]))
    if word == "depend":
        return asset.depend(TIES[words[0]], int(words[1]), int(words[2]))
    call = asset.wait_for if word == "wait" else getattr(asset, word)
    return call(*map(int, words))


def text_of(answer: Answer) -> str:
    """Returns what a script would print."""
    if answer.kind == AnswerKind.VALUE:
        return str(answer.value)
    return WORDS.get(answer.kind) or f"refused {answer.kind.name.lower().replace('_', ' ')} {answer.name}"


def line_of(asset: Asset, index: int) -> Tuple[str, str]:
    """Returns the line of an entry with its reply, as a script has them."""
    entry = asset.entry(index)
    assert entry is not None
    objects = "all" if entry.objects is None else ",".join(map(str, entry.objects))
    operations = {number: word for word, number in OPERATIONS.items()}
    words = ["wait" if entry.kind == StepKind.WAIT_FOR else entry.kind.name.lower(), str(entry.first)]
    if entry.kind in (StepKind.READ, StepKind.WRITE, StepKind.ADD, StepKind.PERMIT, StepKind.DELEGATE) or entry.kind == 1 and entry.detail:
        words.append(str(entry.second))
    if entry.kind in (StepKind.WRITE, StepKind.ADD):
        words.append(str(entry.value))
    if entry.kind == StepKind.PERMIT_ANY:
        words = ["permit", str(entry.first), "any", operations[entry.detail], objects]
    if entry.kind == StepKind.PERMIT:
        words += [operations[entry.detail], objects]
    if entry.kind == StepKind.DELEGATE:
        words.append(objects)
    if entry.kind == StepKind.DEPEND:
        words = ["depend", {number: word for word, number in TIES.items()}[entry.detail], str(entry.first), str(entry.second)]
    return " ".join(words), text_of(entry.answer)


def in_order(line: str) -> str:
    """Returns the line with its objects in rising order."""
    *words, last = line.split(" ")
    return " ".join([*words, ",".join(sorted(last.split(","), key=int)) if "," in last else last])


class Rows(unittest.TestCase):
    def run_row(self, head: str, lines: List[str]) -> None:
        objects = [line.split(" ") for line in lines if line.startswith("object ")]
        steps = lines[len(objects) :]
        recorded = []
        with Asset([(int(name), int(value)) for _, name, value in objects], int(head.split(" ")[2])) as asset:
            for line, reply in zip(steps[::2], steps[1::2]):
                try:
                    text = text_of(ask(asset, line))
                except FullError:
                    text = "full"
                self.assertEqual("= " + text, reply, f"{head}: {line}")
                if text not in ("wait", "full"):
                    recorded.append((in_order(line), text))
            self.assertEqual([line_of(asset, index) for index in range(len(asset))], recorded)
            self.assertIsNone(asset.entry(len(asset)))

    def test_all_rows(self) -> None:
        with open(ROWS) as file:
            rows = [row.splitlines() for row in file.read().split("end\n") if row]
        for head, *lines in rows:
            self.run_row(head, lines)
        self.assertGreaterEqual(len(rows), 51)


class Calls(unittest.TestCase):
    def test_wrong_openings(self) -> None:
        for capacity in (0, 1_000_001, -1, 2**64):
            with self.assertRaises(BadCapacityError):
                Asset({1: 1}, capacity)
        with self.assertRaises(DoubleObjectError) as raised:
            Asset([(5, 1), (3, 2), (5, 3), (3, 4)], 10)
        self.assertEqual(raised.exception.name, 3)
        for objects in (None, {-1: 0}, {2**64: 0}, {1: 2**63}):
            with self.assertRaises(BadArgumentError):
                Asset(objects, 10)  # type: ignore[arg-type]

    def test_wrong_steps(self) -> None:
        with Asset({1: 100}, 100) as asset:
            for kind in (0, 14, 99, 2**32 - 1, 2**32 + 2, -1):
                with self.assertRaises(BadArgumentError):
                    asset.ask(kind, 7)
            for objects in ([], [1] * 17, list(range(17)), [1, 1], [-1], [2**64]):
                with self.assertRaises(BadArgumentError):
                    asset.delegate(7, 8, objects)
            with self.assertRaises(BadArgumentError):
                asset.permit_any(7, Operations.READ, ALL)
            for first, second, value in ((-1, 0, 0), (2**64, 0, 0), (0, -1, 0), (0, 2**64, 0), (0, 0, 2**63), (0, 0, -(2**63) - 1)):
                with self.assertRaises(BadArgumentError):
                    asset.ask(StepKind.WRITE, first, second, value)
            for detail in (0, 4):
                with self.assertRaises(BadArgumentError):
                    asset.ask(StepKind.DEPEND, 7, 8, detail=detail)
            self.assertEqual(len(asset), 0)

    def test_closed(self) -> None:
        asset = Asset({1: 100}, 100)
        asset.close()
        asset.close()
        self.assertFalse(asset.is_open)
        calls = [lambda: asset.begin(7), lambda: asset.status(7), lambda: asset.value(1), lambda: asset.waiter(1, 0)]
        calls += [lambda: len(asset), lambda: asset.entry(0), lambda: asset.group_of(7)]
        for call in calls:
            with self.assertRaises(ClosedError):
                call()

    def test_codes_of_the_header(self) -> None:
        handle, step, answer = Handle(), PlainStep(kind=7, first=7, second=8), PlainAnswer(77, 77, 77)
        self.assertEqual(library.asset_step(handle, step, answer), 3)
        self.assertEqual(library.asset_close(handle), 3)
        with Asset({}, 10) as asset:
            for count in (0, 17, 2**64 - 2):
                step.count = count
                self.assertEqual(library.asset_step(asset._handle, step, answer), 7)
            self.assertEqual(library.asset_open(asset._handle, None, 0, 10, ctypes.c_uint64()), 4)
        self.assertEqual((answer.kind, answer.name, answer.value), (77, 77, 77))

    def test_questions(self) -> None:
        with Asset({1: 100}, 100) as asset:
            for transaction in (7, 8, 9):
                asset.initiate(transaction)
                asset.begin(transaction)
            asset.write(7, 1, -5)
            self.assertTrue(asset.write(8, 1, 6).is_wait)
            self.assertTrue(asset.begin(7).is_refusal)
            self.assertEqual(asset.waiter(1, 0), Waiter(8, Operations.WRITE))
            self.assertIsNone(asset.waiter(1, 1))
            self.assertEqual((asset.value(1), asset.value(2)), (-5, None))
            self.assertEqual((asset.status(7), asset.status(6)), (Status.RUNNING, Status.UNKNOWN))
            asset.permit(9, 8, Operations.READ)
            self.assertEqual([asset.group_of(name) for name in (7, 8, 9, 6)], [0, 1, 1, None])

    def use_handles(self) -> None:
        assets = [Asset({1: value, 2: 0}, 10) for value in range(1000)]
        for value, asset in enumerate(assets):
            asset.initiate(7)
            asset.begin(7)
            asset.write(7, 2, value)
            self.assertEqual((asset.value(1), asset.value(2)), (value, value))
            asset.close()

    def test_thousand_handles(self) -> None:
        class Mallinfo(ctypes.Structure):
            _fields_ = [(f"field_{number}", ctypes.c_size_t) for number in range(10)]

        libc = ctypes.CDLL(None)
        libc.mallinfo2.restype = Mallinfo
        self.use_handles()
        before = libc.mallinfo2().field_7
        for _ in range(3):
            self.use_handles()
        # Each facility takes some thousand bytes: one in three thousand that is left would be seen.
        self.assertLess(libc.mallinfo2().field_7 - before, 1000)


if __name__ == "__main__":
    ROWS = sys.argv.pop(1)
    unittest.main()
