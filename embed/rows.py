#!/usr/bin/env python3
"""Writes the worked rows of the repository as one text, for the tests of the languages.

A row is a script with the replies that it has to get. Rows are taken from `examples/` and from the tests of
`crates/asset_script_tests`; left out are those that stop at a bad line, since a caller has no lines, and those whose script is
neither written out as `let script` nor in a table of pairs. The text has for each row

    row NAME CAPACITY
    the lines of the script, and after each step a line `= REPLY`
    end
"""

import ast
import pathlib
import re
import sys

TOP = pathlib.Path(__file__).resolve().parent.parent
TESTS = TOP / "crates" / "asset_script_tests" / "src"
CAPACITY = 10_000

# The text of a Rust string, whose lines may end in a backslash.
STRING = r'b?"((?:[^"\\]|\\.)*)"'
ROW = re.compile(
    r"fn (\w+)\(rt: HostRuntime\)[^{]*\{\s*let script\s*=\s*" + STRING + r"(?:\[\.\.\])?;\s*"
    r"(?:let text\s*=\s*" + STRING + r";\s*)?"
    r"(expect|expect_with_room)\(\s*&rt,\s*script,\s*(?:(\d[\d_]*),\s*)?(?:text|" + STRING + r"),\s*RunEnd::(\w+)",
    re.DOTALL,
)

# A row of a table of scripts with their replies.
PAIR = re.compile(r"\(\s*&" + STRING + r"\[\.\.\],\s*" + STRING + r",\s*\)", re.DOTALL)


def text_of(string):
    """Returns what a Rust string says."""
    joined = re.sub(r"\\\n\s*", "", string)
    return ast.literal_eval('"' + joined.replace("\n", "\\n") + '"')


def lines_of(name, capacity, script, replies):
    """Returns the lines of a row."""
    replies = replies.splitlines()
    lines = [f"row {name} {capacity}"]
    for line in script.splitlines():
        if not line or line.startswith("#"):
            continue
        lines.append(line)
        if not line.startswith("object "):
            lines.append("= " + replies.pop(0))
    assert not replies, name
    lines.append("end")
    return lines


def example_rows():
    """Returns the rows of the examples. That of mistakes is for `asset check`: its lines are bad."""
    for path in sorted((TOP / "examples").glob("*.asset")):
        if path.stem == "mistakes":
            continue
        yield path.stem, CAPACITY, path.read_text(), path.with_suffix(".out").read_text()


def test_rows():
    """Returns the rows of the tests."""
    for path in sorted(TESTS.glob("*.rt")):
        source = path.read_text()
        for name, script, text, _, room, other, end in ROW.findall(source):
            if end == "Finished":
                capacity = int(room.replace("_", "")) if room else CAPACITY
                yield name, capacity, text_of(script), text_of(text or other)
        for number, (script, text) in enumerate(PAIR.findall(source)):
            yield f"{path.stem}_pair_{number}", CAPACITY, text_of(script), text_of(text)


def main():
    rows = [lines_of(*row) for row in [*example_rows(), *test_rows()]]
    pathlib.Path(sys.argv[1]).write_text("".join(line + "\n" for row in rows for line in row))
    print(f"{len(rows)} rows with {sum(line[0] == '=' for row in rows for line in row)} replies")


main()
