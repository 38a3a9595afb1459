#!/usr/bin/env python3
"""Runs the built program from outside: with little memory, and with standard streams that fail, are full or are missing. It also
compares the picture that README shows."""

import argparse
import os
import subprocess
import sys
import tempfile
import time

from refused import Refuser, fail

TOP = os.path.dirname(os.path.dirname(os.path.abspath(__file__)))
PROGRAM = os.path.join(TOP, "crates", "asset", "out", "asset")

# A run that fails is to end within these seconds, also with many objects.
AT_ONCE = 2.0

AFTER_HELP = """
Each run is to end by itself, with its status and its one line of text, within two seconds, and never by a signal. The limits
of memory rise from the least at which the program starts to the first at which the script is run whole. If there is a C
compiler (cc, or what CC names), each request for memory is refused in turn too.
"""


def stored(*names):
    """The bytes of a file of the repository."""
    with open(os.path.join(TOP, *names), "rb") as file:
        return file.read()


# Three transactions that share nothing: one aborts, one is left, one commits.
SCRIPT = b"""object 1 100
object 2 200
object 3 300
initiate 7
begin 7
initiate 8
begin 8
initiate 9
begin 9
write 7 1 11
write 8 2 22
read 9 3
write 9 3 33
abort 7
read 9 1
complete 9
commit 9
"""

LEFT = b"""object 1 100
object 2 200
object 3 300
initiate 9
begin 9
read 9 3
write 9 3 33
read 9 1
complete 9
commit 9
"""

JOBS = b"""object 1 100
object 2 200
job 7
write 1 150
job 8
write 2 250
"""

# The script of the picture that README shows.
DESIGN = stored("examples", "design.asset")

TEXTS = {
    "run": b"ok\nok\nok\nok\nok\nok\nok\nok\n300\nok\naborted\n100\nok\ncommitted\n",
    "prune": LEFT,
    "groups": b"0 dead 7\n1 dead 8\n2 committed 9\n",
    "sources": b"8 read 9 3 300 opening\n11 read 9 1 100 opening\n",
    "serial": LEFT,
    "steps": b"""4       0       initiate 7                      ok
5       1       begin 7                         ok
6       2       initiate 8                      ok
7       3       begin 8                         ok
8       4       initiate 9                      ok
9       5       begin 9                         ok
10      6       write 7 1 11                    ok
11      7       write 8 2 22                    ok
12      8       read 9 3                        300
13      9       write 9 3 33                    ok
14      10      abort 7                         aborted
15      11      read 9 1                        100
16      12      complete 9                      ok
17      13      commit 9                        committed
""",
    "waits": b"8 running\n",
    "picture": stored("docs", "design.svg"),
    "check": b"line 2: begin wants t\n",
    "jobs": b"job 7 committed\njob 8 committed\naudit ok entries 10 committed 2 aborted 0\n",
}

# The words that write once the input has ended, and the statuses of those that do not end with 0 here.
WORDS = list(TEXTS)
STATUSES = {"check": 2}

# A conversation writes before its input has ended, so what it wrote at a fault is a prefix, and an endless line never ends it.
TEXTS["shell"] = TEXTS["run"]
ALL_WORDS = WORDS + ["shell"]

READ_FAULT = b"asset: read fault\n"
WRITE_FAULT = b"asset: write fault\n"
NO_MEMORY = b"asset: no memory\n"


def small(word):
    """The small script of a word."""
    return {"jobs": JOBS, "check": b"object 1 100\nbegin\n", "picture": DESIGN}.get(word, SCRIPT)


def whole(word, text):
    """What a whole run of a word comes to that writes this text."""
    return STATUSES.get(word, 0), text, b""


def large(word, objects):
    """A script with many objects, and its text."""
    lines = [b"object %d %d\n" % (x, x) for x in range(1, objects + 1)]
    if word == "picture":
        return b"".join(lines[3:]) + DESIGN, TEXTS[word]
    opening = b"".join(lines)
    if word == "jobs":
        text = b"job 7 committed\naudit ok entries 6 committed 1 aborted 0\n"
        return opening + b"job 7\nread 1\nwrite 2 5\n", text
    if word == "waits":
        return opening + b"initiate 7\nbegin 7\n", b"7 running\n"
    if word == "check":
        return opening + b"begin\n", b"line %d: begin wants t\n" % (objects + 1)
    steps = b"initiate 7\nbegin 7\nread 7 1\nwrite 7 2 5\ncomplete 7\ncommit 7\n"
    texts = {
        "run": b"ok\nok\n1\nok\nok\ncommitted\n",
        "prune": opening + steps,
        "groups": b"0 committed 7\n",
        "sources": b"2 read 7 1 1 opening\n",
        "serial": opening + steps,
        "steps": b"".join(
            b"%-7d %-7d %-31s %s\n" % (objects + 1 + entry, entry, step, reply)
            for entry, (step, reply) in enumerate(zip(steps.splitlines(), b"ok ok 1 ok ok committed".split()))
        ),
    }
    return opening + steps, texts["run" if word == "shell" else word]


class Ran:
    """What a run came to."""

    def __init__(self, status, output, errors, seconds):
        self.status, self.output, self.errors, self.seconds = status, output, errors, seconds

    def __str__(self):
        output = self.output if self.output is None or len(self.output) < 80 else self.output[:80] + b".."
        return f"status {self.status}, output {output}, errors {self.errors}, {self.seconds:.2f} seconds"


class Outside:
    def __init__(self, program, folder):
        self.program = program
        self.folder = folder
        self.runs = 0
        self.wrong = 0

    def run(self, words, given=b"", limit=None, redirected=""):
        """Runs the program by a shell, which limits its memory (in kB) and redirects its streams. A stream that is not
        redirected is a file, and what it got is returned."""
        source, output, errors = (os.path.join(self.folder, name) for name in ("input", "output", "errors"))
        with open(source, "wb") as file:
            file.write(given)
        limited = f"ulimit -v {limit}; " if limit else ""
        line = f'ulimit -c 0; {limited}exec "$@" {redirected}'
        with open(source, "rb") as stdin, open(output, "wb") as stdout, open(errors, "wb") as stderr:
            started = time.perf_counter()
            status = subprocess.call(
                ["sh", "-c", line, "sh", self.program, *words], stdin=stdin, stdout=stdout, stderr=stderr, timeout=60
            )
            seconds = time.perf_counter() - started
        self.runs += 1
        with open(output, "rb") as stdout, open(errors, "rb") as stderr:
            return Ran(status, stdout.read(), stderr.read(), seconds)

    def run_into_a_closed_pipe(self, words, given):
        """Runs the program with an output whose reader has gone."""
        source = os.path.join(self.folder, "input")
        with open(source, "wb") as file:
            file.write(given)
        reader, writer = os.pipe()
        os.close(reader)
        with open(source, "rb") as stdin, open(writer, "wb") as stdout:
            started = time.perf_counter()
            ran = subprocess.run(
                [self.program, *words], stdin=stdin, stdout=stdout, stderr=subprocess.PIPE, timeout=60
            )
        self.runs += 1
        return Ran(ran.returncode, b"", ran.stderr, time.perf_counter() - started)

    def see(self, name, ran, *allowed):
        """Sees that a run ended at once, by one of these triples of status, output and errors."""
        if (ran.status, ran.output, ran.errors) in allowed and ran.seconds < AT_ONCE:
            return True
        self.wrong += 1
        print(f"wrong: {name}: {ran}")
        return False

    def say(self, name, before):
        runs, wrong = self.runs - before[0], self.wrong - before[1]
        print(f"{name}: {runs} runs, {wrong} wrong", flush=True)

    def so_far(self):
        return self.runs, self.wrong


def whole_runs(outside, objects):
    """Each word on its small script, on a large one, and on nothing, of which a picture has no stored text."""
    before = outside.so_far()
    for word in ALL_WORDS:
        outside.see(word, outside.run([word], small(word)), whole(word, TEXTS[word]))
        given, text = large(word, objects)
        outside.see(f"{word} over {objects} objects", outside.run([word], given), whole(word, text))
        if word == "picture":
            continue
        nothing = b"audit ok entries 0 committed 0 aborted 0\n" if word == "jobs" else b""
        outside.see(f"{word} of nothing", outside.run([word], redirected="< /dev/null"), (0, nothing, b""))
    outside.see("no word", outside.run([], SCRIPT), (0, TEXTS["run"], b""))
    outside.say("whole runs", before)


def outputs_that_fail(outside, objects):
    """A full output, a missing one, and one whose reader has gone. Help that nobody can take is no fault."""
    before = outside.so_far()
    stopped = (1, b"", WRITE_FAULT)
    for word in ALL_WORDS:
        for name, given in ((word, small(word)), (f"{word} over {objects} objects", large(word, objects)[0])):
            outside.see(f"{name} > /dev/full", outside.run([word], given, redirected="> /dev/full"), stopped)
            outside.see(f"{name} >&-", outside.run([word], given, redirected=">&-"), stopped)
            outside.see(f"{name} into a closed pipe", outside.run_into_a_closed_pipe([word], given), stopped)
        ran = outside.run([word], b"begin", redirected="> /dev/full")
        outside.see(f"{word} of a bad line > /dev/full", ran, stopped)
    for words in (["--help"], ["--version"], ["run", "--help"]):
        outside.see(f"{words} > /dev/full", outside.run(words, redirected="> /dev/full"), (0, b"", b""))
        outside.see(f"{words} >&-", outside.run(words, redirected=">&-"), (0, b"", b""))
        outside.see(f"{words} into a closed pipe", outside.run_into_a_closed_pipe(words, b""), (0, b"", b""))
    outside.say("outputs that fail", before)


def inputs_that_fail(outside):
    """A missing input, a folder, and inputs that never end."""
    before = outside.so_far()
    for word in ALL_WORDS:
        for redirected in ("<&-", "< /") if word == "shell" else ("<&-", "< /", "< /dev/zero"):
            outside.see(f"{word} {redirected}", outside.run([word], redirected=redirected), (1, b"", READ_FAULT))
    outside.say("inputs that fail", before)


def errors_that_fail(outside):
    """Errors that cannot be said: the status says what happened."""
    before = outside.so_far()
    for redirected in ("2> /dev/full", "2>&-"):
        for word in ALL_WORDS:
            ran = outside.run([word], redirected=f"<&- {redirected}")
            outside.see(f"{word} <&- {redirected}", ran, (1, b"", b""))
            ran = outside.run([word], small(word), redirected=f"> /dev/full {redirected}")
            outside.see(f"{word} > /dev/full {redirected}", ran, (1, b"", b""))
        ran = outside.run(["other"], redirected=redirected)
        outside.see(f"a refused word {redirected}", ran, (2, b"", b""))
    everything = "<&- >&- 2>&-"
    outside.see(everything, outside.run(["run"], redirected=everything), (1, b"", b""))
    outside.say("errors that fail", before)


def least_limit(outside):
    """The least limit of memory, in kB, at which the program starts."""
    below, enough = 0, 1 << 20
    while enough - below > 4:
        middle = (below + enough) // 2
        if outside.run(["--version"], limit=middle).status == 0:
            enough = middle
        else:
            below = middle
    return enough


def memory_that_rises(outside, name, least, step, words, given, text):
    """Rises from the least limit to the first at which the script is run whole: before it, memory runs out."""
    before = outside.so_far()
    limit, ran_out = least, 0
    while True:
        ran = outside.run(words, given, limit=limit)
        if not outside.see(f"{name} with {limit} kB", ran, whole(words[0], text), (1, b"", NO_MEMORY)):
            if outside.wrong - before[1] > 5:
                break
        if ran.status == STATUSES.get(words[0], 0):
            break
        ran_out += 1
        limit += step
    runs, wrong = outside.runs - before[0], outside.wrong - before[1]
    print(f"{name} from {least} to {limit} kB: {runs} runs, {ran_out} ran out of memory, {wrong} wrong", flush=True)


def little_memory(outside, objects):
    least = least_limit(outside)
    print(f"the program starts with {least} kB", flush=True)
    for word in WORDS:
        memory_that_rises(outside, word, least, 16, [word], small(word), TEXTS[word])
    for word in WORDS:
        given, text = large(word, objects)
        memory_that_rises(outside, f"{word} over {objects} objects", least, 2048, [word], given, text)


def refused_requests(outside, folder):
    """Refuses each request for memory of the program in turn. A job whose own request is refused may abort."""
    try:
        refuser = Refuser(folder)
    except (OSError, subprocess.SubprocessError):
        print("each request refused: left out, since there is no C compiler")
        return
    for word in WORDS:
        before = outside.so_far()
        number, is_refused = 0, True
        while is_refused:
            number += 1
            started = time.perf_counter()
            ran, is_refused = refuser.run(number, [outside.program, word], small(word))
            outside.runs += 1
            ran = Ran(ran.returncode, ran.stdout, ran.stderr, time.perf_counter() - started)
            is_whole = word == "jobs" and ran.status == 0 and are_job_ends(ran.output)
            text = ran.output if is_whole else TEXTS[word]
            outside.see(f"{word}, request {number} refused", ran, whole(word, text), (1, b"", NO_MEMORY))
        outside.say(f"{word}, {number - 1} requests refused in turn", before)


def are_job_ends(output):
    """Whether an output says how the two jobs ended, and an audit that agrees."""
    lines = output.split(b"\n")
    ends = [b"committed", b"aborted", b"unsettled", b"not begun"]
    return (
        len(lines) == 4
        and all(lines[at] in [b"job %d %s" % (7 + at, end) for end in ends] for at in (0, 1))
        and lines[2].startswith(b"audit ok entries ")
    )


def options():
    parser = argparse.ArgumentParser(
        description=__doc__, epilog=AFTER_HELP, formatter_class=argparse.RawDescriptionHelpFormatter
    )
    parser.error = fail
    parser.add_argument("--program", default=PROGRAM, help="the program to run (crates/asset/out/asset)")
    parser.add_argument("--objects", type=int, default=200_000, help="how many objects large scripts have (200000)")
    given = parser.parse_args()
    if not os.access(given.program, os.X_OK):
        fail(f"there is no program {given.program}; ./asset builds it")
    return given


def main():
    given = options()
    with tempfile.TemporaryDirectory() as folder:
        outside = Outside(os.path.abspath(given.program), folder)
        whole_runs(outside, given.objects)
        outputs_that_fail(outside, given.objects)
        inputs_that_fail(outside)
        errors_that_fail(outside)
        little_memory(outside, given.objects)
        refused_requests(outside, folder)
        print(f"{outside.runs} runs, {outside.wrong} wrong")
        return 1 if outside.wrong else 0


if __name__ == "__main__":
    try:
        sys.exit(main())
    except KeyboardInterrupt:
        sys.exit(130)
    except (OSError, subprocess.SubprocessError) as error:
        fail(str(error))
