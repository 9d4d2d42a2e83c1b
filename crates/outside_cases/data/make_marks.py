#!/usr/bin/env python3
"""Makes commands over pages about marks and what they answer, and puts them in the place of those at the end of stdin
and stdout of `command_cases`, from the line `mark 0` on.

A page is an entry of a dictionary, a mark another dictionary, and a block is a list that both may hold: it is copied
where it is written while more than one holds it.
"""

import os
import random
import sys

sys.path.insert(0, os.path.dirname(os.path.abspath(__file__)))
from make_pages import END, Pages, parts, put, rights_text, weighted  # noqa: E402

LIMIT = 8

BY_HAND = """mark 0
marked 8
restore 0
mark 16
drop 16
restore 16
drop 0
map 10 3 6
write 10 0 3 7
mark 0
mark 0
write 10 1 2 100
find 10
map 20 2 7
unmap 11 1
protect 12 1 5
write 20 4095 1 9
restore 0
find 10
find 11
find 12
find 20
mapped
write 10 0 1 1
restore 0
find 10
mark 1
store 11 0 8 200
mark 2
restore 1
drop 0
restore 1
find 11
restore 2
find 11
drop 2
restore 2
restore 1
unmap 10 3
map 1 8 6
write 1 0 4096 1
write 2 0 4096 2
write 3 0 4096 3
write 4 0 4096 4
write 5 0 4096 5
write 6 0 4096 6
write 7 0 4096 7
write 8 0 4096 8
mark 3
write 1 0 1 0
mark 4
drop 1
mark 4
write 2 0 1 0
write 3 0 1 0
write 8 0 1 0
mark 5
restore 3
find 1
find 8
restore 4
find 1
find 2"""


class Page:
    def __init__(self, rights, block=None):
        self.rights = rights
        self.block = block

    def data(self):
        return self.block if self.block is not None else bytes(4096)


class Marked(Pages):
    limit = LIMIT

    def __init__(self):
        super().__init__()
        self.marks = [None] * 16

    def holders(self):
        return [self.pages] + [mark for mark in self.marks if mark is not None]

    def blocks(self):
        return {id(page.block) for held in self.holders() for page in held.values() if page.block is not None}

    def spare(self):
        return 3 * LIMIT - len(self.blocks())

    def copied(self, held):
        return {number: Page(page.rights, page.block) for number, page in held.items()}

    def new_page(self, rights):
        return Page(rights)

    def unmap(self, first, count):
        self.pages = {page: held for page, held in self.pages.items() if not first <= page < first + count}
        return "Done"

    def protect(self, first, count, rights):
        for page in range(first, first + count):
            if page not in self.pages:
                return f"Unmapped({page})"
        for page in range(first, first + count):
            self.pages[page].rights = rights
        return "Done"

    def put(self, number, at, count, byte):
        page = self.pages.get(number)
        if page is None:
            return "Done"
        sharing = sum(other.block is page.block for held in self.holders() for other in held.values())
        if page.block is None or sharing > 1:
            page.block = bytearray(page.data())
            assert self.spare() >= 0
        for place in range(count):
            page.block[at + place] = (byte + place) % 256
        return "Done"

    def write(self, *numbers):
        return self.put(*numbers)

    def store(self, number, at, count, byte):
        page = self.pages.get(number)
        if page is None or not page.rights & 2:
            return "Denied"
        return self.put(number, at, count, byte)

    def find(self, number):
        if number not in self.pages:
            return "Missing"
        page = self.pages[number]
        return f"Page({rights_text(page.rights)}, {weighted(page.data())})"

    def mapped(self):
        return f"Mapped({len(self.pages)})"

    def mark(self, k):
        if k >= 16 or self.marks[k] is not None:
            return "OutOfRange"
        if LIMIT + len(self.pages) > self.spare():
            return "Full"
        self.marks[k] = self.copied(self.pages)
        return "Done"

    def drop(self, k):
        if k >= 16:
            return "OutOfRange"
        self.marks[k] = None
        return "Done"

    def restore(self, k):
        if k >= 16:
            return "OutOfRange"
        if self.marks[k] is None:
            return "Missing"
        if sum(mark is not None for mark in self.marks) > 2:
            return "Full"
        self.pages = self.copied(self.marks[k])
        return "Done"


def some_commands(source):
    """400 commands, most of which meet pages that are mapped and marks that are set."""

    def page():
        return 10 + source.randrange(12)

    names = ["map", "unmap", "protect", "write", "store", "find", "mapped", "mark", "drop", "restore"]
    for _ in range(400):
        name = source.choices(names, [8, 3, 4, 12, 12, 16, 1, 8, 7, 9])[0]
        if name == "map":
            yield f"map {page()} {source.choice([1, 1, 2, 3])} {source.choice([2, 4, 6, 7])}"
        elif name == "unmap":
            yield f"unmap {page()} {source.choice([1, 2, 4])}"
        elif name == "protect":
            yield f"protect {page()} {source.choice([1, 1, 2])} {source.choice([2, 4, 6])}"
        elif name in ("write", "store"):
            at = source.choice([0, 1, 4088, source.randrange(4000)])
            yield f"{name} {page()} {at} {source.choice([1, 2, 8])} {source.randrange(256)}"
        elif name == "find":
            yield f"find {page()}"
        elif name == "mapped":
            yield "mapped"
        else:
            yield f"{name} {source.randrange(3)}"


def kept(name):
    """The lines of the section of pages of a file before those that this script makes."""
    _, lines, _ = parts(name)
    first = BY_HAND.split("\n")[0]
    ours = [place for place, line in enumerate(lines) if line.startswith(first)]
    return lines[: ours[0]] if ours else lines


def main():
    commands = BY_HAND.split("\n") + list(some_commands(random.Random(20261129)))
    marked = None
    answers = []
    obeyed = 0
    for line in commands:
        name, *numbers = line.split(" ")
        if name == "marked":
            marked = Marked()
            answers.append(f"{line}: Done")
            continue
        obeyed += 1
        # before the first `marked` the pages have no marks
        answers.append(f"{line}: {getattr(marked, name)(*map(int, numbers)) if marked else 'OutOfRange'}")
    inputs = kept("stdin")
    outputs = [line for line in kept("stdout") if not line.endswith(" differ")]
    before = sum(not line.endswith(": no command") and not line.startswith("new ") for line in outputs)
    outputs += answers + [f"{before + obeyed} commands, 0 differ"]
    put("stdin", inputs + commands)
    put("stdout", outputs)


if __name__ == "__main__":
    main()
