#!/usr/bin/env python3
"""Compares what docs/READING.md, or a copy of it, quotes and counts with the definitions.

A block of lines behind four blanks is a quotation of the file that the last link above it names, unless it is a command
behind `$ `. Its lines stand in the file in their order and one behind the other; a line `..` is for lines that are left
out. A line that ends with ` \\` goes on in the next, behind one blank.

The page's numbered list has each file that tools/trusted finds, once, with its lines.

The page is at most 250 lines long, and no line but a table's passes 120 columns.

What differs is told, a line for each, and then the status is 1."""

import argparse
import pathlib
import re
import subprocess
import sys

ROOT = pathlib.Path(__file__).resolve().parent.parent
LEFT_OUT = ".."
LINK = re.compile(r"\]\((?:\.\./)+(crates/[^)#]*)\)")
CRATE = re.compile(r"`([a-z]\w*)`:((?:\s+`[A-Z]\w*` \d+,?)*)")
FILE = re.compile(r"`([A-Z]\w*)` (\d+)")
TRUSTED = re.compile(r"^ *(\d+) crates/(\w+)/specs/(\w+)\.antt$", re.M)
MOST_LINES, MOST_COLUMNS, LEAST_QUOTATIONS = 250, 120, 20


def blocks(lines):
    """The blocks of a page: the number of the first line, the file that is named above, and the lines."""
    number, named = 0, None
    while number < len(lines):
        if lines[number].startswith("    "):
            first = number
            while number < len(lines) and lines[number].startswith("    "):
                number += 1
            # the indented lines behind an entry of a list are its own
            if first == 0 or not lines[first - 1]:
                yield first + 1, named, [line[4:] for line in lines[first:number]]
                named = None
        else:
            found = LINK.findall(lines[number])
            named = found[-1] if found else named
            number += 1


def joined(block):
    """The lines of a block, each with its place in it; what goes on in the next line is one line."""
    place = 0
    while place < len(block):
        first, line = place, block[place]
        while line.endswith(" \\") and place + 1 < len(block):
            place += 1
            line = line[:-1] + block[place].strip()
        yield first, line
        place += 1


def parted(number, file, block):
    """Where a quotation parts from its file, as a line; or nothing."""
    if not file:
        return f"{number}: no file of crates/ is named above the block"
    if not (ROOT / file).is_file():
        return f"{number}: there is no file {file}"
    text = (ROOT / file).read_text(encoding="utf8").split("\n")
    # the places behind the lines so far, of which there may be several; at first any
    places, free = set(range(len(text))), False
    for place, line in joined(block):
        if line == LEFT_OUT:
            free = True
            continue
        if free:
            places = set(range(min(places), len(text)))
        free = False
        places = {at + 1 for at in places if at < len(text) and text[at] == line}
        if not places:
            return f"{number + place}: {file} hasn't this line there: {line}"
    return None


def trusted_files():
    """The lines of each file of trusted definitions, by crate and name."""
    found = subprocess.run([ROOT / "tools" / "trusted"], capture_output=True, text=True, check=False)
    files = {(crate, file): int(count) for count, crate, file in TRUSTED.findall(found.stdout)}
    if not files:
        sys.exit(f"tools/trusted found no definitions: {found.stderr}")
    return files


def differing(page, trusted):
    """What of a page isn't so, over these files."""
    lines = page.split("\n")
    if page.count("\n") > MOST_LINES:
        yield f"{page.count(chr(10))} lines, more than {MOST_LINES}"
    for number, line in enumerate(lines, 1):
        if len(line) > MOST_COLUMNS and not line.startswith("|"):
            yield f"{number}: {len(line)} columns, more than {MOST_COLUMNS}"
    quotations = [block for block in blocks(lines) if not block[2][0].startswith("$ ")]
    if len(quotations) < LEAST_QUOTATIONS:
        yield f"{len(quotations)} quotations, fewer than {LEAST_QUOTATIONS}"
    yield from filter(None, (parted(*quotation) for quotation in quotations))
    told = [((crate, file), int(count)) for crate, files in CRATE.findall(page) for file, count in FILE.findall(files)]
    for name, count in told:
        if name not in trusted:
            yield f"{'/'.join(name)} isn't trusted, or isn't there"
        elif count != trusted[name]:
            yield f"{'/'.join(name)} has {trusted[name]} lines, not {count}"
    names = [name for name, _ in told]
    twice = {name for name in names if names.count(name) > 1}
    yield from (f"{'/'.join(name)} is listed twice" for name in sorted(twice))
    yield from (f"{'/'.join(name)} isn't listed" for name in sorted(trusted.keys() - set(names)))


def main():
    parser = argparse.ArgumentParser(description=__doc__, formatter_class=argparse.RawDescriptionHelpFormatter)
    parser.add_argument("pages", nargs="*", default=[ROOT / "docs" / "READING.md"], help="docs/READING.md, or copies")
    trusted, differs = None, False
    for page in parser.parse_args().pages:
        try:
            text = pathlib.Path(page).read_text(encoding="utf8")
        except (OSError, UnicodeDecodeError) as error:
            parser.error(f"{page} can't be read: {error}")
        trusted = trusted or trusted_files()
        for line in differing(text, trusted):
            print(f"{page}: {line}")
            differs = True
    return differs


sys.exit(main())
