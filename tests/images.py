"""Works out the table of lying executables in the section `= images` of crates/command_cases/stdin, by the rules of
docs/MANUAL.md ("Images") alone: it shares nothing with the program. Two files are cut after each of their bytes;
each field of their headers is set to 0, to one and to a page more and less than it says, to half of its greatest
value and to that value, an address also to the page of another segment, a size also to the most that the pages allow
and to one more; of two lying fields the first fault counts. `tests/images.py` writes the table; `tests/images.py
--check` compares it with the one that stands there."""

import os
import struct
import sys

TOP = os.path.dirname(os.path.dirname(os.path.abspath(__file__)))
STDIN = os.path.join(TOP, "crates", "command_cases", "stdin")
MARK = "# ---- worked out by tests/images.py"
BEHIND = "\n= words\n"

# A field: its offset and its size in bytes.
FILE_FIELDS = [(k, 1) for k in range(16)] + [
    (16, 2), (18, 2), (20, 4), (24, 8), (32, 8), (40, 8), (48, 4), (52, 2), (54, 2), (56, 2), (58, 2), (60, 2), (62, 2),
]
HEADER_FIELDS = [(0, 4), (4, 4), (8, 8), (16, 8), (24, 8), (32, 8), (40, 8), (48, 8)]

PAGE = 4096
LOWEST, TOP_ADDRESS = 4096, 0x7F0000000000
STACK_PAGES = 256
PAGES = 16384

# The first file of the program of cases, of 4,108 bytes with one segment; and the one that a linker makes, with three
# segments, the program headers in the first, a note and the header of the stack.
FIRST = ""
LINKED = (
    "length=2064 put=56,2,5 header=0,1,4,0,0x400000,0x500,0x500 header=1,1,5,0x500,0x410500,0x300,0x300 "
    "header=2,1,6,0x800,0x420800,0x10,0x2000 header=3,4,4,0x158,0x400158,0x20,0x20 header=4,0x6474e551,6,0,0,0,0"
)


def put(file, offset, size, value):
    """Sets a field; what is behind the file is left out."""
    for k, byte in enumerate(value.to_bytes(size, "little")):
        if offset + k < len(file):
            file[offset + k] = byte


def first_file():
    file = bytearray(4108)
    fields = (2, 1, 1, 2, 183, 1, 0x400000, 64, 0, 0, 64, 56, 1, 0, 0, 0)
    file[:64] = struct.pack("<4sBBB9xHHIQQQIHHHHHH", b"\x7fELF", *fields)
    file[64:120] = struct.pack("<IIQQQQQQ", 1, 5, 4096, 0x400000, 0x400000, 12, 12, 4096)
    return file


def file_of(items):
    """The first file with the changes of items."""
    file = first_file()
    for item in items.split():
        name, _, text = item.partition("=")
        values = [int(part, 0) for part in text.split(",")]
        if name == "length":
            file = file[: values[0]] + bytes(max(0, values[0] - len(file)))
        elif name == "put":
            put(file, *values)
        else:
            at = 64 + 56 * values[0]
            places = ((0, 4), (4, 4), (8, 8), (16, 8), (32, 8), (40, 8))
            for (offset, size), value in zip(places, values[1:]):
                put(file, at + offset, size, value)
    return file


def header_fault(file):
    """The first fault of the file header, or none."""
    if len(file) < 64:
        return "TooShort"
    kind, machine, version = struct.unpack_from("<HHI", file, 16)
    headers = struct.unpack_from("<Q", file, 32)[0]
    size, count = struct.unpack_from("<HH", file, 54)
    tests = [
        ("BadMagic", file[:4] != b"\x7fELF"),
        ("BadClass", file[4] != 2),
        ("BadData", file[5] != 1),
        ("BadVersion", file[6] != 1 or version != 1),
        ("BadType", kind != 2),
        ("BadMachine", machine != 183),
        ("BadHeaderSize", size != 56),
        ("TooManySegments", count > 64),
        ("HeadersOutside", headers + 56 * count > len(file)),
    ]
    return next((name for name, holds in tests if holds), None)


def pages_of(address, size):
    return range(address // PAGE, -(-(address + size) // PAGE))


def segment_fault(file, header, taken):
    """The first fault of a program header, where the pages of the segments before it are `taken`, or none."""
    kind, _, offset, address, _, in_file, in_memory, _ = header
    if kind == 3:
        return "Interpreter"
    if kind != 1:
        return None
    if offset + in_file > len(file):
        return "SegmentOutside"
    if in_file > in_memory:
        return "FileOverMemory"
    if in_memory == 0:
        return None
    if address < LOWEST or address + in_memory > TOP_ADDRESS:
        return "AddressOutside"
    if in_file and offset % PAGE != address % PAGE:
        return "NotCongruent"
    own = pages_of(address, in_memory)
    if any(own.start < other.stop and other.start < own.stop for other in taken):
        return "Overlap"
    return None


def answer(file):
    """The items of a case that say what is read of a file."""
    fault = header_fault(file)
    if fault:
        return f"refused={fault}"
    entry, at = struct.unpack_from("<QQ", file, 24)
    count = struct.unpack_from("<H", file, 56)[0]
    segments, taken = [], []
    for index in range(count):
        header = struct.unpack_from("<IIQQQQQQ", file, at + 56 * index)
        fault = segment_fault(file, header, taken)
        if fault:
            return f"refused={fault}({index})"
        if header[0] == 1 and header[6]:
            taken.append(pages_of(header[3], header[6]))
            segments.append((index, header))
    if not segments:
        return "refused=NoSegments"
    if sum(len(own) for own in taken) + STACK_PAGES > PAGES:
        return "refused=TooManyPages"
    return accepted(entry, at, count, segments)


def accepted(entry, at, count, segments):
    """The items of an image."""
    address = 0
    for _, header in segments:
        if header[2] <= at < header[2] + header[5]:
            address = header[3] + at - header[2]
            break
    items = [f"image={entry:#x},{address:#x},{count},{len(segments)}"]
    for place, (index, header) in enumerate(segments):
        _, flags, offset, start, _, in_file, in_memory, _ = header
        items.append(f"segment={place},{index},{start:#x},{offset:#x},{in_file:#x},{in_memory:#x},{flags % 8}")
    return " ".join(items)


def cuts(file):
    """A case of all files that are cut, as ranges with one answer each, and of the whole one."""
    items, start = [], 0
    answers = [answer(file[:n]) for n in range(len(file))]
    for n in range(1, len(file) + 1):
        if n == len(file) or answers[n] != answers[start]:
            items.append(f"cuts={start},{n},{answers[start].partition('=')[2]}")
            start = n
    return " ".join([*items, answer(file)])


def value_at(file, offset, size):
    return int.from_bytes(file[offset : offset + size], "little")


def special(file, offset):
    """What an address, a size in memory or the number of headers may say besides."""
    headers = [struct.unpack_from("<IIQQQQQQ", file, 64 + 56 * k) for k in range(value_at(file, 56, 2))]
    if offset == 56:
        return [64, 65]
    index, place = divmod(offset - 64, 56)
    others = [header for k, header in enumerate(headers) if k != index and header[0] == 1]
    if offset >= 64 and place == 16:
        return [header[3] // PAGE * PAGE + headers[index][3] % PAGE for header in others]
    if offset >= 64 and place == 40:
        left = PAGES - STACK_PAGES - sum(len(pages_of(header[3], header[6])) for header in others)
        most = left * PAGE - headers[index][3] % PAGE
        return [most, most + 1, 2**40]
    return []


def lies(file, offset, size):
    """What a field may say instead, each once."""
    told, end = value_at(file, offset, size), 2 ** (8 * size)
    near = (told - 1, told + 1) if size == 1 else (told - 1, told + 1, told - PAGE, told + PAGE)
    found = []
    for value in (0, *near, end // 2, end - 1, *special(file, offset)):
        if value % end != told and value % end not in found:
            found.append(value % end)
    return found


def changed(file, *changes):
    """The line of a file with some fields that lie."""
    other = bytearray(file)
    for offset, size, value in changes:
        put(other, offset, size, value)
    return " ".join([f"put={offset},{size},{value:#x}" for offset, size, value in changes] + [answer(other)])


def fields_of(file):
    count = value_at(file, 56, 2)
    return FILE_FIELDS + [(64 + 56 * k + offset, size) for k in range(count) for offset, size in HEADER_FIELDS]


def single(file):
    fields = fields_of(file)
    return [changed(file, (offset, size, value)) for offset, size in fields for value in lies(file, offset, size)]


def pairs(file):
    """Two lies of one file, one for each name of a fault: which of the two is answered."""
    by_name = {}
    for offset, size in fields_of(file):
        for value in lies(file, offset, size):
            found = changed(file, (offset, size, value)).split(" ")[1]
            if found.startswith("refused="):
                by_name.setdefault(found.partition("(")[0], (offset, size, value))
    chosen = list(by_name.values())
    both = [(one, other) for k, one in enumerate(chosen) for other in chosen[k + 1 :]]
    return [changed(file, one, other) for one, other in both if one[:2] != other[:2]]


def table():
    lines = [MARK + ", which says what is read of each"]
    for items in (FIRST, LINKED):
        file = file_of(items)
        lines += ["", f"from {items}".rstrip(), "# cut after each of its bytes", cuts(file)]
        lines += ["# a field lies", *single(file)]
    return [*lines, "# two fields lie", *pairs(file)]


def main(words):
    made = "\n".join(table()) + "\n"
    if words != ["--check"]:
        sys.stdout.write(made)
        return 0
    with open(STDIN, encoding="utf-8") as file:
        before, mark, behind = file.read().partition(MARK)
    behind = behind.partition(BEHIND)[0] + "\n"
    if "\n= images\n" in before and mark + behind == made:
        cases = [line for line in made.splitlines() if line.startswith(("cuts=", "put="))]
        print(f"{len(cases)} cases are as they were worked out")
        return 0
    print("the section of images in crates/command_cases/stdin doesn't end in what tests/images.py works out")
    return 1


if __name__ == "__main__":
    sys.exit(main(sys.argv[1:]))
