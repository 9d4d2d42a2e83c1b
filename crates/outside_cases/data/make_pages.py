#!/usr/bin/env python3
"""Makes the commands over pages and what they answer: the last sections of stdin and stdout of `command_cases`, behind
the line `= pages`.

It shares nothing with the two programs of pages: a page is an entry of a dictionary, by its number.
"""

import os
import random

LIMIT = 40
END = 2**35
FOLDER = os.path.join(os.path.dirname(os.path.abspath(__file__)), "..", "..", "command_cases")
SECTION = "\n= pages\n"

BY_HAND = """mapped
find 1
map 0 1 7
map 1 0 7
map 34359738367 1 6
map 34359738367 2 6
map 34359738368 0 6
map 5 41 6
map 5 39 6
mapped
map 44 1 4
free 1 44
free 4 10
free 5 10
free 1 34359738367
free 2 34359738368
unmap 0 34359738368
mapped
free 9 10
free 10 10
free 0 10
free 0 0
protect 3 0 7
protect 3 1 7
write 3 0 1 9
store 3 0 1 9
write 4503599627370496 0 1 1
write 3 4096 0 1
write 3 4096 1 1
write 3 4097 0 1
jump 3"""


def rights_text(rights):
    names = ("true" if rights & bit else "false" for bit in (4, 2, 1))
    return "Rights { r: %s, w: %s, x: %s }" % tuple(names)


def weighted(data):
    return sum((place + 1) * byte for place, byte in enumerate(data)) % 2**32


class Pages:
    limit = LIMIT

    def __init__(self):
        self.pages = {}

    def new_page(self, rights):
        return [rights, bytearray(4096)]

    def map(self, first, count, rights):
        if first < 1 or first + count > END:
            return "OutOfRange"
        for page in sorted(self.pages):
            if first <= page < first + count:
                return f"Taken({page})"
        if len(self.pages) + count > self.limit:
            return "Full"
        for page in range(first, first + count):
            self.pages[page] = self.new_page(rights)
        return "Done"

    def unmap(self, first, count):
        if first + count > END:
            return "OutOfRange"
        self.pages = {page: held for page, held in self.pages.items() if not first <= page < first + count}
        return "Done"

    def protect(self, first, count, rights):
        if first + count > END:
            return "OutOfRange"
        for page in range(first, first + count):
            if page not in self.pages:
                return f"Unmapped({page})"
        for page in range(first, first + count):
            self.pages[page][0] = rights
        return "Done"

    def put(self, page, at, count, byte, tested):
        if page >= 2**52 or at + count > 4096:
            return "OutOfRange"
        held = self.pages.get(page)
        if tested and not (held and held[0] & 2):
            return "Denied"
        if held:
            for place in range(count):
                held[1][at + place] = (byte + place) % 256
        return "Done"

    def write(self, *numbers):
        return self.put(*numbers, tested=False)

    def store(self, *numbers):
        return self.put(*numbers, tested=True)

    def find(self, page):
        if page not in self.pages:
            return "Missing"
        rights, data = self.pages[page]
        return f"Page({rights_text(rights)}, {weighted(data)})"

    seek = find

    def free(self, count, below):
        for first in range(below - count, 0, -1):
            if not any(first <= page < first + count for page in self.pages):
                return f"Free(Some({first}))"
        return "Free(None)"

    def mapped(self):
        return f"Mapped({len(self.pages)})"


def some_commands(source):
    """1,500 commands, most of which meet pages that are mapped."""

    def page():
        return source.choice([1, 12, 12, 1000]) + source.randrange(14)

    names = ["map", "unmap", "protect", "write", "store", "find", "seek", "free", "mapped"]
    for _ in range(1500):
        name = source.choices(names, [10, 6, 6, 8, 12, 10, 14, 4, 1])[0]
        if name == "map":
            yield f"map {page()} {source.choice([1, 1, 2, 3, 5, 8, 20])} {source.randrange(8)}"
        elif name == "unmap":
            yield f"unmap {page()} {source.choice([1, 1, 2, 4, 30])}"
        elif name == "protect":
            yield f"protect {page()} {source.choice([1, 1, 2, 3])} {source.randrange(8)}"
        elif name in ("write", "store"):
            at = source.choice([0, 1, 4088, 4095, source.randrange(4096)])
            count = source.choice([0, 1, 2, 8, source.randrange(4097)])
            count = min(count, 4096 - at + source.choice([0, 0, 0, 0, 1]))
            yield f"{name} {page()} {at} {count} {source.randrange(256)}"
        elif name in ("find", "seek"):
            yield f"{name} {page()}"
        elif name == "free":
            yield f"free {source.choice([0, 1, 2, 5, 13])} {source.choice([20, 40, 60, 1010, 1100])}"
        else:
            yield "mapped"


def parts(name):
    """What stands before the section of pages in a file, the lines of that section, and those behind it."""
    with open(os.path.join(FOLDER, name), encoding="utf-8") as file:
        before, _, section = file.read().partition(SECTION)
    lines = section.split("\n")[:-1]
    ends = [place + 1 for place, line in enumerate(lines) if line.endswith(" commands, 0 differ")]
    end = ends[0] if ends else len(lines)
    return before, lines[:end], lines[end:]


def put(name, lines):
    """Puts lines in the place of those of the section of pages."""
    before, _, behind = parts(name)
    with open(os.path.join(FOLDER, name), "w", encoding="utf-8") as file:
        file.write(before + SECTION + "\n".join(lines + behind) + "\n")


def main():
    pages = Pages()
    commands = BY_HAND.split("\n") + list(some_commands(random.Random(20261128)))
    answers = []
    obeyed = 0
    for line in commands:
        name, *numbers = line.split(" ")
        if not hasattr(Pages, name):
            answers.append(f"{line}: no command")
            continue
        obeyed += 1
        answers.append(f"{line}: {getattr(pages, name)(*map(int, numbers))}")
    answers.append(f"{obeyed} commands, 0 differ")
    put("stdin", commands)
    put("stdout", answers)


if __name__ == "__main__":
    main()
