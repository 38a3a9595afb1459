#!/usr/bin/env python3
"""Holds a conversation with `asset shell` over two pipes, line by line.

    examples/conversation.py PROGRAM            talks, and checks each reply
    examples/conversation.py PROGRAM --time N   sends N lines (100,000 if nothing is said), and compares the time with
                                                that of `asset run`

PROGRAM is the path of the built program; `PROGRAM shell` and `PROGRAM run` are called. Each line is sent, and its reply is
read, before the next line is sent. A step line has one line of reply, and so has a bad line; an object line, a comment and
an empty line have none.
"""
import subprocess
import sys
import time

# Lines, each with its reply, or with None if it has none.
TALK = [
    ("object 1 100", None),
    ("object 2 200", None),
    ("# a comment has no reply", None),
    ("initiate 7", "ok"),
    ("begin 7", "ok"),
    ("read 7 1", "100"),
    ("raed 7 1", "line 7: bad command"),
    ("object 3 300", "line 8: bad command"),
    ("write 7 1 50", "ok"),
    ("read 7 1", "50"),
    ("read 8 1", "refused unknown 8"),
    ("complete 7", "ok"),
    ("commit 7", "committed"),
]

# What is said on standard error of the bad lines among them.
REASONS = "line 7: unknown word raed\nline 8: object after a step\n"


def talk(program):
    """Sends each line, and waits for its reply before the next one. Returns whether each was as it should be."""
    shell = subprocess.Popen(
        [program, "shell"], stdin=subprocess.PIPE, stdout=subprocess.PIPE, stderr=subprocess.PIPE, text=True, bufsize=1
    )
    same = True
    for line, wanted in TALK:
        shell.stdin.write(line + "\n")
        shell.stdin.flush()
        if wanted is not None:
            reply = shell.stdout.readline().rstrip("\n")
            print(f"{line:24} {reply}")
            same = same and reply == wanted
    rest, reasons = shell.communicate()
    print(reasons, end="")
    return same and rest == "" and reasons == REASONS


def script(count):
    """Returns a script with `count` lines after its objects."""
    lines = ["object 1 100", "initiate 7", "begin 7"]
    lines += ["read 7 1" if i % 2 else f"write 7 1 {i}" for i in range(count - 2)]
    return ("\n".join(lines) + "\n").encode()


def timed(program, word, text):
    """Returns how long the program takes over a text that comes over a pipe, and what it writes."""
    start = time.monotonic()
    done = subprocess.run([program, word, "--cap", "1000000"], input=text, stdout=subprocess.PIPE, check=False)
    return time.monotonic() - start, done.stdout


def main():
    if len(sys.argv) < 2:
        sys.exit(__doc__)
    program = sys.argv[1]
    if "--time" not in sys.argv:
        sys.exit(0 if talk(program) else "conversation.py: a reply is not as it should be")
    after = sys.argv[sys.argv.index("--time") + 1 :]
    text = script(int(after[0]) if after else 100_000)
    ran, run_out = timed(program, "run", text)
    shelled, shell_out = timed(program, "shell", text)
    print(f"run {ran:.3f} s, shell {shelled:.3f} s, {shelled / ran:.2f} times; {'the same' if run_out == shell_out else 'NOT the same'} output")
    sys.exit(0 if run_out == shell_out else 1)


if __name__ == "__main__":
    main()
