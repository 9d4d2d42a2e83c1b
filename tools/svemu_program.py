"""What an executable's file says: its symbols, its segments, the lines of its source, and what its code reads of x0."""

import bisect
import re
import shutil
import struct
import subprocess

from svemu_pages import Failure, code_of_nm

PAGE = 4096

STORES = re.compile(r"st|swp|cas|ld(add|clr|eor|set|smax|smin|umax|umin)")


def bytes_of(file):
    try:
        with open(file, "rb") as opened:
            return opened.read()
    except OSError as error:
        raise Failure(f"{file} couldn't be read: {error.strerror}") from None


class Image:
    """What an executable's file says: its functions, objects and other labels by symbols, and its writable segments."""

    def __init__(self, file, content=None):
        self.file, self.bytes = file, bytes_of(file) if content is None else content
        try:
            self.read()
        except (struct.error, IndexError, ValueError):
            raise Failure(f"{file} isn't an ELF file of 64 bits whose tables are whole") from None
        self.starts, self.object_starts = sorted(self.labels), sorted(self.objects)

    def read(self):
        if self.bytes[:6] != b"\x7fELF\x02\x01":
            raise struct.error
        headers, sections = struct.unpack_from("<QQ", self.bytes, 32)
        _, header, count, section, many = struct.unpack_from("<5H", self.bytes, 52)
        self.segments, self.functions, self.objects, self.labels, top = [], {}, {}, {}, 0
        for k in range(count):
            kind, flags, _, at, _, _, size = struct.unpack_from("<IIQQQQQ", self.bytes, headers + k * header)
            if kind == 1 and size:
                top = max(top, at + size)
                if flags & 2:
                    self.segments.append((at, size))
        self.first_break = -(-top // PAGE) * PAGE
        tables = [struct.unpack_from("<IIQQQQII", self.bytes, sections + k * section) for k in range(many)]
        for _, kind, _, _, offset, size, link, _ in tables:
            for at in range(offset, offset + size, 24) if kind == 2 else ():
                name, info, _, where, value, length = struct.unpack_from("<IBBHQQ", self.bytes, at)
                begin = tables[link][4] + name
                if where and info & 15 in (0, 1, 2):
                    name = self.bytes[begin:self.bytes.index(b"\0", begin)].decode(errors="replace")
                    if name[:1] not in ("", "$", "."):
                        (self.labels, self.objects, self.functions)[info & 15].setdefault(value, (name, length))
        self.labels.update(self.functions)

    def object(self, name):
        """The address of the object of this name; None where there is none."""
        return next((address for address, (known, _) in self.objects.items() if known == name), None)

    def named(self, names):
        """The functions of these names: all where none is given."""
        found = {address for address, (name, _) in self.functions.items() if not names or name in names}
        for name in names:
            if name not in {known for known, _ in self.functions.values()}:
                raise Failure(f"no function is named {name}" + self.with_it(name))
        return found

    def with_it(self, name):
        """Tells functions that have a name in theirs, as those of C++ have."""
        near = sorted({known for known, _ in self.functions.values() if name in known})
        return f"; there is {', '.join(near[:3])}{' and more' if len(near) > 3 else ''}" if near else ""

    def label(self, address):
        """A place of the code by the function at or below it."""
        return self.beside(self.starts, self.labels, address) or f"{address:#x}"

    @staticmethod
    def beside(starts, names, address, within=False):
        at = bisect.bisect_right(starts, address) - 1
        if at < 0 or within and address >= starts[at] + names[starts[at]][1]:
            return ""
        name, off = names[starts[at]][0], address - starts[at]
        return f"{name}+{off:#x}" if off else name

    def line(self, address):
        """The file and line of an instruction, with a blank before, where addr2line knows them; else nothing."""
        for tool in ("llvm-addr2line", "aarch64-linux-gnu-addr2line", "addr2line"):
            if shutil.which(tool):
                done = subprocess.run([tool, "-s", "-e", self.file, f"{address:#x}"], capture_output=True, check=False)
                found = re.match(r"([^?\n:][^\n:]*:[1-9]\d*)", done.stdout.decode(errors="replace"))
                if done.returncode == 0:
                    return f" ({found[1]})" if found else ""
        return ""


class Program(Image):
    """An executable with symbols of functions, its own or those of a file with the output of nm, and its instructions."""

    def __init__(self, run, symbols=None):
        content = bytes_of(run.file)
        # svemu refuses what is no image that can be run.
        lines = run.call("dis", run.file).splitlines()
        super().__init__(run.file, content)
        if symbols is not None:
            self.functions = {address: (name, size) for address, name, size in reversed(code_of_nm(symbols))}
            self.labels = dict(self.functions)
            self.starts = sorted(self.labels)
        if not self.functions:
            raise Failure(f"{run.file} has no symbols of functions: build it without -s, and don't strip it")
        self.texts = {int(line[:16], 16): line[26:].decode(errors="replace") for line in lines}

    def reads_first(self, pc, backs, budget=200):
        """How many bits of x0 the code from pc on reads before it writes them: 0, 32 or 64. Behind a `ret` it goes on at
        the last of backs."""
        todo, seen, widest = [(pc, tuple(backs))], set(), 0
        while todo and len(seen) < budget:
            at, left = todo.pop()
            while (at, left) not in seen and at in self.texts and len(seen) < budget:
                seen.add((at, left))
                name, _, operands = self.texts[at].partition(" ")
                reads, writes = uses_of_x0(name, operands)
                if name == "svc":
                    reads = 64
                widest = max(widest, reads)
                if reads or writes:
                    break
                target = re.search(r"(?:^|[ ,])(0x[0-9a-f]+)$", operands)
                if name in ("b", "bl") and target:
                    left = left + (at + 4,) if name == "bl" else left
                    at = int(target[1], 16)
                elif name == "ret":
                    if not left:
                        break
                    at, left = left[-1], left[:-1]
                elif name in ("br", "blr"):
                    widest = max(widest, 64 if name == "blr" else 0)
                    break
                else:
                    if (name.startswith("b.") or name in ("cbz", "cbnz", "tbz", "tbnz")) and target:
                        todo.append((int(target[1], 16), left))
                    at += 4
        return widest


def uses_of_x0(name, operands):
    """How many bits of x0 an instruction reads, and whether it writes them."""
    parts = re.split(r",\s*(?![^\[{]*[\]}])", operands)
    into = 1
    if STORES.match(name) or name in ("cmp", "cmn", "tst", "ccmp", "ccmn", "cbz", "cbnz", "tbz", "tbnz", "br", "blr", "msr"):
        into = 0
    elif name.startswith(("ldp", "ldxp", "ldaxp", "ldnp")):
        into = 2
    elif re.match(r"(inc|dec|sqinc|sqdec|uqinc|uqdec|movk|bfm|bfi|bfxil)", name):
        parts = parts[:1] + parts
    words = [re.findall(r"\b([wx])0\b", part) for part in parts]
    reads = [letter for part in words[into:] for letter in part]
    return (64 if "x" in reads else 32 if reads else 0), any(words[:into])
