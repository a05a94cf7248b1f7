#!/usr/bin/env python3
"""Writes the section of docs/DEFINITIONS.md for each crate that is named, from the comments of its specs.

Usage: scripts/definitions.py CRATE.. ; with --write the sections take the place of those in docs/DEFINITIONS.md, new ones at its end.
"""
import pathlib
import re
import sys

TOP = pathlib.Path(__file__).resolve().parent.parent
DEFINED = re.compile(r"^(?:abbrev |unfoldable )?pub (?:record |data )?(\S+?)(?: |$)")


def modules(crate):
    specs = TOP / "crates" / crate / "specs"
    named = [line.split()[-1] for line in (specs / "Lib.antt").read_text().splitlines() if line.startswith("pub mod")]
    return sorted(named, key=lambda module: len((specs / f"{module}.antt").read_text()))


def rows(crate):
    found = []
    for module in modules(crate):
        comment = None
        fresh = True
        lines = (TOP / "crates" / crate / "specs" / f"{module}.antt").read_text().splitlines()
        for number, line in enumerate(lines):
            if line.startswith("-- ----") or not line.strip():
                if line.startswith("-- ----"):
                    comment = None
                    fresh = True
                continue
            if line.startswith("-- ") and number > 0:
                comment = line[3:]
                continue
            match = DEFINED.match(line)
            if not match or line.startswith("pub use") or line.startswith("use "):
                continue
            name = match.group(1)
            if comment is None and not fresh and found and found[-1][1] == module:
                found[-1][0].append(name)
            else:
                found.append([[name], module, comment or ""])
            comment = None
            fresh = False
    return found


def section(crate):
    out = [f"## {crate}", "", "| definition | file | what it says |", "|---|---|---|"]
    for names, module, comment in rows(crate):
        shown = ", ".join(f"`{name}`" for name in names)
        out.append(f"| {shown} | {module} | {comment} |")
    return "\n".join(out) + "\n"


def write(crates):
    path = TOP / "docs" / "DEFINITIONS.md"
    text = path.read_text()
    for crate in crates:
        new = section(crate)
        old = re.search(rf"^## {crate}\n.*?(?=^## |\Z)", text, re.S | re.M)
        if old:
            tail = "\n" if old.end() < len(text) else ""
            text = text[: old.start()] + new + tail + text[old.end() :]
        else:
            text = text.rstrip("\n") + "\n\n" + new
    path.write_text(text)


if __name__ == "__main__":
    names = [name for name in sys.argv[1:] if name != "--write"]
    if "--write" in sys.argv:
        write(names)
    else:
        for name in names:
            print(section(name))
