#!/usr/bin/env python3
"""Runs job scripts by `asset jobs` and by `bench/plain_jobs.rs`, and prints jobs a second for 1, 2, 4 and 8 workers.

    bench/jobs.py [--jobs 50000] [--runs 5]     builds nothing of the product: `./asset --version` first; rustc builds the yardstick

Each job has four acts, so with its initiate, begin, complete and commit it has eight entries. Apart each job has
an object of its own. On shared objects each job writes and reads two of four objects, in rising
order, so that no two wait for each other. All jobs commit, or the run is refused. The time is that of the whole process; the
processor time, which a busy machine changes less, is that of all its threads and of the system for it.
"""
import argparse
import os
import pathlib
import subprocess
import sys
import tempfile
import time

TOP = pathlib.Path(__file__).resolve().parent.parent
PROGRAM = TOP / "crates" / "asset" / "out" / "asset"
YARDSTICK = TOP / "bench" / "plain_jobs.rs"
TURNS = 1_000_000
PAIRS = [(1, 2), (3, 4), (2, 3), (1, 4), (2, 4), (1, 3)]


def apart(jobs):
    """Yields the lines of jobs on objects of their own."""
    for x in range(1, jobs + 1):
        yield f"object {x} 0"
    for t in range(jobs):
        x = t + 1
        yield f"job {t}\nread {x}\nwrite {x} {t}\nread {x}\nwrite {x} {t + 1}"


def shared(jobs):
    """Yields the lines of jobs on four objects."""
    for x in range(1, 5):
        yield f"object {x} 0"
    for t in range(jobs):
        one, two = PAIRS[t % len(PAIRS)]
        yield f"job {t}\nwrite {one} {t}\nread {one}\nwrite {two} {t}\nread {two}"


def took(command, script, jobs):
    """Returns the seconds and the processor seconds of one run, in which all jobs are to commit."""
    with open(script) as text:
        start = time.perf_counter()
        run = subprocess.Popen(command, stdin=text, stdout=subprocess.PIPE, text=True)
        said = run.stdout.read()
        _, status, used = os.wait4(run.pid, 0)
        seconds = time.perf_counter() - start
    run.returncode = os.WEXITSTATUS(status) if os.WIFEXITED(status) else -1
    last = said.splitlines()[-1] if said else ""
    if run.returncode != 0 or last != f"audit ok entries {8 * jobs} committed {jobs} aborted 0":
        sys.exit(f"jobs.py: {command[0]} ended with {run.returncode}: {last}")
    return seconds, used.ru_utime + used.ru_stime


def main():
    parser = argparse.ArgumentParser(description=__doc__, formatter_class=argparse.RawDescriptionHelpFormatter)
    parser.add_argument("--jobs", type=int, default=50_000)
    parser.add_argument("--runs", type=int, default=5)
    given = parser.parse_args()
    with tempfile.TemporaryDirectory() as folder:
        plain = f"{folder}/plain_jobs"
        subprocess.run(["rustc", "--edition", "2021", "-O", str(YARDSTICK), "-o", plain], check=True)
        for name, lines in (("apart", apart), ("shared", shared)):
            script = pathlib.Path(folder) / name
            script.write_text("\n".join(lines(given.jobs)) + "\n")
            for workers in (1, 2, 4, 8):
                ours = [str(PROGRAM), "jobs", "--cap", str(8 * given.jobs), "--workers", str(workers), "--turns", str(TURNS)]
                theirs = [plain, str(workers), str(TURNS)]
                # Runs alternate, so that what else the machine does counts for both.
                runs = [(took(ours, script, given.jobs), took(theirs, script, given.jobs)) for _ in range(given.runs)]
                best, other = (min(run[which][0] for run in runs) for which in (0, 1))
                used, theirs_used = (min(run[which][1] for run in runs) for which in (0, 1))
                print(
                    f"{name}, {workers} workers: {given.jobs / best:,.0f} jobs a second, the yardstick "
                    f"{given.jobs / other:,.0f}: {best / other:.2f} times its time, "
                    f"{used / theirs_used:.2f} times its processor time",
                    flush=True,
                )


if __name__ == "__main__":
    main()
