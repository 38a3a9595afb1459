#!/usr/bin/env python3
"""Runs the tests of a crate with each request for memory refused in turn, up to a run that meets no refusal."""

import argparse
import os
import subprocess
import sys
import tempfile

HERE = os.path.dirname(os.path.abspath(__file__))
CRATES = os.path.normpath(os.path.join(HERE, "..", "crates"))

AFTER_HELP = """
`rt test` in the folder of the crate builds its tests first. A test is run in a process of its own, in which one request is
refused: the first, then the second, and so on. It needs a C compiler (cc, or what CC names) and Linux.
"""


def fail(text):
    sys.exit(f"{os.path.basename(sys.argv[0])}: {text}")


class Refuser:
    """Runs programs of which one request for memory is refused."""

    def __init__(self, folder):
        self.library = os.path.join(folder, "refuse.so")
        self.said = os.path.join(folder, "said")
        words = [os.environ.get("CC", "cc"), "-O2", "-shared", "-fPIC", "-o", self.library]
        subprocess.run(words + [os.path.join(HERE, "refuse.c"), "-ldl"], check=True)

    def run(self, number, words, given=b"", seconds=60):
        """One run in which the request of this number is refused. Returns what it ended with, and whether it made so many
        requests."""
        environment = dict(os.environ, LD_PRELOAD=self.library, REFUSE_REQUEST=str(number), REFUSE_SAID=self.said)
        if os.path.exists(self.said):
            os.remove(self.said)
        ran = subprocess.run(
            words, input=given, env=environment, timeout=seconds, stdout=subprocess.PIPE, stderr=subprocess.PIPE
        )
        return ran, os.path.exists(self.said)


def options():
    parser = argparse.ArgumentParser(
        description=__doc__, epilog=AFTER_HELP, formatter_class=argparse.RawDescriptionHelpFormatter
    )
    parser.error = fail
    parser.add_argument("crate", help="a crate of tests, as asset_fault_tests")
    parser.add_argument("words", nargs="*", metavar="WORD", help="runs the tests whose name has one of these words (all)")
    parser.add_argument("--most", type=int, default=2_000, help="refuses at most so many requests of a test (2000)")
    return parser.parse_args()


def names_of(program, words):
    """The names of the tests that have one of the words."""
    ran = subprocess.run([program, "--list"], stdout=subprocess.PIPE, check=True)
    lines = ran.stdout.decode().split("\n")
    names = [line[: -len(": test")] for line in lines if line.endswith(": test")]
    return [name for name in names if not words or any(word in name for word in words)]


def sweep(refuser, program, name, most):
    """Runs a test with each request refused, up to `most`. Returns how many were refused, whether these are all, and the runs
    that failed, with what they said."""
    failed = []
    for number in range(1, most + 1):
        ran, is_refused = refuser.run(number, [program, name])
        if ran.returncode != 0:
            said = ran.stderr.decode(errors="replace").strip().split("\n")
            failed.append((number, ran.returncode, said[0]))
        if not is_refused:
            return number - 1, True, failed
    return most, False, failed


def main():
    given = options()
    program = os.path.join(CRATES, given.crate, "out", f"{given.crate}_tests")
    if not os.access(program, os.X_OK):
        fail(f"there is no program {program}; `rt test` in its crate builds it")
    names = names_of(program, given.words)
    if not names:
        fail("no test has such a name")
    total = wrong = 0
    with tempfile.TemporaryDirectory() as folder:
        refuser = Refuser(folder)
        for name in names:
            requests, is_all, failed = sweep(refuser, program, name, given.most)
            shown = f"{'all' if is_all else 'the first'} {requests} requests"
            print(f"{name}: {shown} refused in turn, {len(failed)} runs failed", flush=True)
            for number, status, said in failed[:5]:
                print(f"    request {number} refused: status {status}, {said}", flush=True)
            total += requests
            wrong += bool(failed)
    print(f"{len(names)} tests, {total} requests refused in turn, {wrong} tests failed")
    return 1 if wrong else 0


if __name__ == "__main__":
    try:
        sys.exit(main())
    except KeyboardInterrupt:
        sys.exit(130)
    except (OSError, subprocess.SubprocessError) as error:
        fail(str(error))
