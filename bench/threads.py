#!/usr/bin/env python3
"""Runs the program `asset_load`, and prints what a manager costs beside a plain facility.

    bench/threads.py [--runs 5]        builds nothing: `cd crates/asset_load && rt run` first
"""
import argparse
import pathlib
import subprocess

TOP = pathlib.Path(__file__).resolve().parent.parent
PROGRAM = TOP / "crates" / "asset_load" / "out" / "asset_load"


def took(runs, *arguments):
    """Returns the least microseconds of several runs, and the number that the last one left."""
    best, left = None, None
    for _ in range(runs):
        words = [str(PROGRAM), *map(str, arguments)]
        said = subprocess.run(words, capture_output=True, text=True, check=True).stdout.split()
        micros, left = int(said[0]), int(said[1])
        best = micros if best is None else min(best, micros)
    return best, left


def main():
    parser = argparse.ArgumentParser(description=__doc__)
    parser.add_argument("--runs", type=int, default=5)
    runs = parser.parse_args().runs
    count = 100_000
    core, _ = took(runs, "core", count)
    print(f"one caller, Core::step: {core * 1000 / (6 * count):.0f} ns a step")
    calls, _ = took(runs, "calls", count)
    print(f"one session: {calls * 1000 / (6 * count):.0f} ns a call, {calls / core:.2f} times a step")
    for load in ("apart", "together"):
        for threads in (1, 2, 4):
            each = count // threads
            micros, _ = took(runs, load, each, threads)
            print(f"{load}, {threads} threads: {6 * each * threads / micros:.2f} million calls a second")
    reads, _ = took(runs, "watch", 10_000_000)
    loads, _ = took(runs, "loads", 10_000_000)
    print(f"a read of the watch: {reads / 10_000:.2f} ns, {reads / loads:.2f} times a plain load")
    for entries in (100_000, 1_000_000):
        for sessions in (1, 4, 1_000):
            micros, agrees = took(runs, "audit", entries, sessions)
            print(f"audit of {entries} entries, {sessions} sessions: {micros / 1000:.1f} ms, agrees: {agrees}")


if __name__ == "__main__":
    main()
