#!/usr/bin/env python3
"""Runs the built program on the loads, and prints steps a second, peak memory and how the time grows."""

import argparse
import math
import os
import subprocess
import sys
import tempfile
import time

from workloads import LOADS, described

HERE = os.path.dirname(os.path.abspath(__file__))
PROGRAM = os.path.normpath(os.path.join(HERE, "..", "crates", "asset", "out", "asset"))
SIZES = [1000, 10_000, 100_000, 1_000_000]
WORDS = ["run", "prune", "groups", "sources", "serial"]

AFTER_HELP = f"""loads:
{described()}

The best of the repeats counts. The exponent is that of the growth of time between the two largest sizes: 1 means that
ten times the steps take ten times the time. Machines are noisy, so compare figures of one run alone. A peak below
that of this interpreter (some 15 MB) shows as the interpreter's. bench/RESULTS.md has past runs.
"""


def fail(text):
    sys.exit(f"run.py: {text}")


def options():
    parser = argparse.ArgumentParser(
        description=__doc__, epilog=AFTER_HELP, formatter_class=argparse.RawDescriptionHelpFormatter
    )
    parser.error = fail
    parser.add_argument("loads", nargs="*", metavar="LOAD", help="the loads to run (all of them)")
    parser.add_argument("--program", default=PROGRAM, help="the program to run (crates/asset/out/asset)")
    parser.add_argument("--sizes", help="steps, as 1000,10000 (1000 to 1000000)")
    parser.add_argument("--word", default="run", help="what each script is run for: " + ", ".join(WORDS) + " (run)")
    parser.add_argument("--repeats", type=int, default=3, help="runs of each script (3)")
    given = parser.parse_args()
    check(given)
    return given


def check(given):
    for name in given.loads:
        if name not in LOADS:
            fail(f"there is no load {name}; --help lists them")
    if given.word not in WORDS:
        fail(f"there is no word {given.word}; --help lists them")
    if given.repeats < 1:
        fail("--repeats wants a number from 1")
    if given.sizes and not all(size.isdecimal() and 40 <= int(size) <= 1_000_000 for size in given.sizes.split(",")):
        fail("--sizes wants numbers from 40 to 1000000 with commas between them")
    if not os.access(given.program, os.X_OK):
        fail(f"there is no program {given.program}; ./asset builds it")


def sizes_of(given):
    """The sizes at which each load runs."""
    if given.sizes:
        return sorted({int(size) for size in given.sizes.split(",")})
    return SIZES


def make_script(path, name, steps):
    """Writes the script of a load; a process of its own makes it, so that this one stays small."""
    maker = [sys.executable, os.path.join(HERE, "workloads.py"), name, str(steps)]
    with open(path, "w") as file:
        if subprocess.run(maker, stdout=file).returncode != 0:
            fail(f"the script of {name} at {steps} steps was not made")


def run(given, script, capacity):
    """One run: its exit status, seconds of wall time, and peak memory in bytes."""
    with open(script, "rb") as source, open(os.devnull, "wb") as sink:
        started = time.perf_counter()
        child = subprocess.Popen([given.program, given.word, "--cap", str(capacity)], stdin=source, stdout=sink)
        _, status, usage = os.wait4(child.pid, 0)
        seconds = time.perf_counter() - started
    child.returncode = os.waitstatus_to_exitcode(status)
    return child.returncode, seconds, usage.ru_maxrss * 1024


def measure(given, folder, name, steps):
    """The least time and the greatest peak of the repeats."""
    script = os.path.join(folder, "script")
    make_script(script, name, steps)
    runs = [run(given, script, steps) for _ in range(given.repeats)]
    # With status 1, `serial` has found that something was shared.
    allowed = (0, 1) if given.word == "serial" else (0,)
    for status, _, _ in runs:
        if status not in allowed:
            fail(f"{given.program} ended with status {status} on {name} at {steps} steps")
    return min(seconds for _, seconds, _ in runs), max(memory for _, _, memory in runs)


def exponent(points):
    """How the time grows between the last two points, each of steps and seconds."""
    if len(points) < 2:
        return ""
    (fewer, less), (more, longer) = points[-2:]
    return f"{math.log(longer / less) / math.log(more / fewer):.2f}"


def run_load(given, folder, name):
    points = []
    sizes = sizes_of(given)
    for steps in sizes:
        seconds, memory = measure(given, folder, name, steps)
        points.append((steps, seconds))
        growth = exponent(points) if steps == sizes[-1] else ""
        row = f"{name:18} {steps:9} {seconds:9.3f} {steps / seconds:10.0f} {memory / 1e6:7.1f} {growth:>8}"
        print(row, flush=True)


def main():
    given = options()
    print(f"{'load':18} {'steps':>9} {'seconds':>9} {'steps/s':>10} {'MB':>7} {'exponent':>8}")
    with tempfile.TemporaryDirectory() as folder:
        for name in given.loads or LOADS:
            run_load(given, folder, name)


if __name__ == "__main__":
    try:
        main()
    except KeyboardInterrupt:
        sys.exit(130)
    except OSError as error:
        fail(str(error))
