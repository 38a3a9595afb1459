#!/usr/bin/env python3
"""Writes the programs of README for C, Rust and Python, as they stand there, into a folder: readme.c, readme.rs, readme.py.

    embed/readme.py FOLDER
"""
import pathlib
import sys

README = pathlib.Path(__file__).resolve().parent.parent / "README.md"


def program(language, marks):
    """Returns the one block of code in this language that has this text."""
    blocks = README.read_text().split(f"```{language}\n")[1:]
    [found] = [code for code in (block.split("```\n")[0] for block in blocks) if marks in code]
    return found


def main():
    folder = pathlib.Path(sys.argv[1])
    for name, language, marks in (("c", "c", "asset.h"), ("rs", "rust", "use asset::"), ("py", "python", "from asset")):
        (folder / f"readme.{name}").write_text(program(language, marks))


if __name__ == "__main__":
    main()
