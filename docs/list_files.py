#!/usr/bin/env python3
"""Writes the list of files at the end of ARCHITECTURE.md: each crate's files with their first lines.

    docs/list_files.py            writes the list
    docs/list_files.py --check    exits with 1 if the list is not what it would write, if the example of README is not
                                  a part of the one that a test compiles, or if the table of definitions in THEOREMS.md
                                  leaves out one that its files use
"""
import pathlib
import re
import sys

TOP = pathlib.Path(__file__).resolve().parent.parent
PAGE = TOP / "docs" / "ARCHITECTURE.md"
MARK = "<!-- The rest is written by docs/list_files.py. -->\n"
TEST = TOP / "crates" / "asset_program_tests" / "src" / "readme.rt"


def crates():
    """Yields the names of crates.txt in order, and its comments as headings."""
    for line in (TOP / "crates.txt").read_text().splitlines():
        if line.startswith("# "):
            yield None, line[2:]
        elif ":" in line:
            yield line.split(":")[0].split()[0], None


def first_sentence(path):
    """Returns what the comment at the head of a file says, up to its first stop."""
    said = []
    for line in path.read_text().splitlines():
        if line.startswith("//! "):
            said.append(line[4:])
        elif line.startswith("-- "):
            said.append(line[3:])
        else:
            break
    text = " ".join(said)
    return text.split(". ")[0].rstrip(".") or "?"


def files(crate, folder):
    """Returns the files of a crate's folder that have a sentence of their own."""
    root = TOP / "crates" / crate / folder
    names = {"src": "*.rt", "specs": "*.antt", "proofs": "*.antt"}[folder]
    found = root.rglob(names) if folder == "src" else root.glob(names)
    return sorted(path for path in found if path.name != "Lib.antt")


def listed():
    """Returns the list."""
    lines = [MARK, "\n## Files\n"]
    layer = None
    for crate, heading in crates():
        if crate is None:
            layer = heading
            continue
        if layer:
            lines.append(f"\n### {layer[0].upper()}{layer[1:]}\n")
            layer = None
        lines.append(f"\n**{crate}**\n\n")
        for folder in ("src", "specs", "proofs"):
            for path in files(crate, folder):
                name = path.relative_to(TOP / "crates" / crate).as_posix()
                lines.append(f"- `{name}`: {first_sentence(path)}\n")
    return "".join(lines)


def is_example_tested():
    """Returns whether the lines of README's first example in Rattle stand in the tested one, in this order."""
    tested = TEST.read_text().split("// The example begins here.\n")[1].split("// The example ends here.\n")[0]
    left = iter(tested.splitlines())
    example = (TOP / "README.md").read_text().split("```rust\n")[1].split("```\n")[0]
    return all(line in left for line in example.splitlines())


def believed():
    """Returns the files of definitions that THEOREMS.md names, as the crate and the name of the file."""
    table = (TOP / "docs" / "THEOREMS.md").read_text().split("| Claims | Files |")[1].split("\n\n")[0]
    found = set()
    crate = None
    for word in re.findall(r"`([^`]+)`", table):
        parts = re.fullmatch(r"(?:crates/)?(asset_\w+)/specs/?(\w*)", word)
        crate, name = parts.groups() if parts else (crate, word)
        folder = TOP / "crates" / crate / "specs"
        if parts and not name and not word.endswith("/"):
            found.update((crate, path.stem) for path in folder.glob("*.antt"))
        elif name[:1].isupper():
            found.add((crate, name))
    return found


def left_out():
    """Returns the definitions that the files of the table use, and that it does not name."""
    named = believed()
    used = set()
    for crate, name in named:
        text = (TOP / "crates" / crate / "specs" / f"{name}.antt").read_text()
        used.update(re.findall(r"use Rattle\.(asset_\w+)\.specs\.([A-Z]\w*)", text))
    return sorted("/".join(it) for it in used - named if it[1] != "Lib")


def main():
    page = PAGE.read_text()
    written = page.split(MARK)[0] + listed()
    if "--check" in sys.argv[1:]:
        if page != written:
            sys.exit("docs/ARCHITECTURE.md: the list of files is old; run docs/list_files.py")
        if not is_example_tested():
            sys.exit(f"README.md: the example is no part of that of {TEST.relative_to(TOP)}")
        if left_out():
            sys.exit(f"docs/THEOREMS.md: the table of definitions leaves out {', '.join(left_out())}")
    else:
        PAGE.write_text(written)


if __name__ == "__main__":
    main()
