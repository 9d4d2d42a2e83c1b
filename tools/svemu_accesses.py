"""Which bytes a step loads and stores, by the text of its instruction and the registers before and behind it."""

import re
from typing import NamedTuple, Optional

BYTES = {"b": 1, "h": 2, "w": 4, "s": 4, "x": 8, "d": 8, "q": 16}
PLACE = re.compile(r"\[([xz]\d+|sp)(?:\.[sd])?(?:, ([^\]]*))?\]")
# A load or store by lanes: its kind, its registers, how it is replicated, the sign, what an element and a lane have.
LANED = re.compile(r"(ld|st)(nt|ff|nf)?([1-4])(rq|r)?s?([bhwd]) \{z(\d+)\.([bhsd])[^}]*\}, p(\d+)")
ATOMIC = re.compile(r"(cas|swp|ld(?:add|clr|eor|set|smax|smin|umax|umin))a?l?[bh]?$")


class Access(NamedTuple):
    """Bytes that are loaded, stored, or both in one step: the first one's address, their number, and as numbers what is
    loaded and what is stored, None where the registers don't say it."""
    address: int
    size: int
    loads: bool
    stores: bool
    loaded: Optional[int] = None
    stored: Optional[int] = None


class State:
    """The registers of a thread, as they are printed at the end of a run."""

    def __init__(self, text):
        self.text = b"\n" + text

    def number(self, name):
        """The number in a register, by the name that an instruction has for it: x3, w3, wzr, sp, z3, d3, p3."""
        if name in ("xzr", "wzr"):
            return 0
        letter, rest = name[0], name[1:]
        if rest.isdigit() and letter in "wbhsdq":
            whole = self.hexadecimal(f"x{rest}" if letter == "w" else f"z{rest}")
            return whole & (1 << 8 * BYTES[letter]) - 1
        return self.hexadecimal(name)

    def hexadecimal(self, name):
        begin = self.text.index(b"\n%s " % name.encode()) + len(name) + 2
        return int(self.text[begin:self.text.index(b"\n", begin)], 16)

    @property
    def vector_bytes(self):
        return int(re.search(rb"\nvl (\d+)", self.text)[1]) // 8


def accesses(text, before, after):
    """The accesses of a step, but for those of a system call."""
    name, _, operands = text.partition(" ")
    if name.startswith("prf"):
        return []
    place = PLACE.search(operands)
    laned = LANED.match(text)
    if laned:
        return by_lanes(laned, place, before, after)
    named = operands[:place.start()].rstrip(", ").split(", ") if place else operands.split(", ")
    if not place:
        return literal(name, named, after)
    if named[0][0] in "zp" and name in ("ldr", "str"):
        return whole_register(name, named[0], place, before, after)
    address = before.number(place[1]) + offset(place[2], before)
    return scalar(name, named, address % 2**64, before, after)


def literal(name, named, after):
    """A load of a literal, or nothing."""
    if name not in ("ldr", "ldrsw") or not named[-1].startswith("0x"):
        return []
    return [loaded(int(named[-1], 16), size_of(name, named[0]), named[0], after)]


def offset(text, before):
    """What stands behind the base of a scalar access: nothing, a number, or a register."""
    if not text:
        return 0
    if text.startswith("#"):
        return int(text[1:], 0)
    name, _, extend = text.partition(", ")
    number = before.number(name)
    if extend.startswith("sxt"):
        top = 1 << (31 if name[0] == "w" else 63)
        number = (number ^ top) - top
    shift = re.search(r"#(\d+)", extend)
    return number << int(shift[1] if shift else 0)


def size_of(name, register):
    return {"b": 1, "h": 2}.get(name[-1]) or (4 if name.endswith("sw") else BYTES[register[0]])


def loaded(address, size, register, after):
    # The load into a zero register leaves nothing to see.
    value = None if register.endswith("zr") else after.number(register) & (1 << 8 * size) - 1
    return Access(address, size, True, False, loaded=value)


def stored(address, size, register, before):
    return Access(address, size, False, True, stored=before.number(register) & (1 << 8 * size) - 1)


def scalar(name, named, address, before, after):
    if name.startswith(("stxr", "stlxr")):
        done = after.number(named[0]) & 0xFFFFFFFF == 0
        return [stored(address, size_of(name, named[1]), named[1], before)] if done else []
    if ATOMIC.match(name):
        return [atomic(name, named, address, before, after)]
    two = name in ("ldp", "stp", "ldnp", "stnp", "ldpsw")
    size = size_of(name, named[0])
    some = [(address + k * size, register) for k, register in enumerate(named[:2] if two else named[:1])]
    if name.startswith("st"):
        return [stored(at, size, register, before) for at, register in some]
    return [loaded(at, size, register, after) for at, register in some]


def atomic(name, named, address, before, after):
    """A load and a store in one step. Where the old number isn't kept, it isn't known."""
    size = size_of(name, named[0])
    most = (1 << 8 * size) - 1
    kind = ATOMIC.match(name)[1]
    given, other = before.number(named[0]) & most, before.number(named[1]) & most
    if kind == "cas":
        old = after.number(named[0]) & most if not named[0].endswith("zr") else None
        done = old == given
        return Access(address, size, True, done, old, other if done else None)
    old = None if named[1].endswith("zr") else after.number(named[1]) & most
    if kind == "swp":
        return Access(address, size, True, True, old, given)
    return Access(address, size, True, True, old, None if old is None else changed_by(kind, old, given, size) & most)


def changed_by(kind, old, given, size):
    top = 1 << 8 * size - 1

    def signed(number):
        return (number ^ top) - top

    return {"ldadd": lambda: old + given, "ldclr": lambda: old & ~given, "ldeor": lambda: old ^ given,
            "ldset": lambda: old | given, "ldumax": lambda: max(old, given), "ldumin": lambda: min(old, given),
            "ldsmax": lambda: max(old, given, key=signed), "ldsmin": lambda: min(old, given, key=signed)}[kind]()


def whole_register(name, register, place, before, after):
    size = before.vector_bytes if register[0] == "z" else before.vector_bytes // 8
    number = re.match(r"#(-?\d+)", place[2] or "#0")
    address = (before.number(place[1]) + int(number[1]) * size) % 2**64
    if name == "ldr":
        return [Access(address, size, True, False, loaded=after.number(register))]
    return [Access(address, size, False, True, stored=before.number(register))]


def by_lanes(laned, place, before, after):
    """The elements of the active lanes, each by itself; of a first-faulting load those that FFR has."""
    kind, faulting, count, replicated, element, first, lane, predicate = laned.groups()
    size, lane_bytes, count = BYTES[element], BYTES[lane], int(count)
    active = before.number(f"p{predicate}")
    if faulting in ("ff", "nf"):
        active &= after.number("ffr")
    lanes = [k for k in range(before.vector_bytes // lane_bytes) if active >> k * lane_bytes & 1]
    if replicated == "rq":
        lanes = [k for k in lanes if k * lane_bytes < 16]
    if replicated == "r":
        lanes = lanes[:1]
    state = after if kind == "ld" else before
    found = []
    for k in lanes:
        for j in range(count):
            number = state.number(f"z{(int(first) + j) % 32}") >> 8 * lane_bytes * k & (1 << 8 * size) - 1
            at = element_address(place, before, k, 0 if replicated == "r" else k * count + j, size, lane_bytes)
            found.append(Access(at, size, True, False, loaded=number) if kind == "ld" else
                         Access(at, size, False, True, stored=number))
    return found


def element_address(place, before, lane, number, size, lane_bytes):
    """The address of the element of a lane: of a contiguous access its number among the elements counts."""
    base, rest = place[1], place[2] or ""
    vector = base if base[0] == "z" else (re.match(r"(z\d+)", rest) or [None, None])[1]
    if vector is None:
        if rest.endswith("mul vl"):
            begin = int(re.match(r"#(-?\d+)", rest)[1]) * before.vector_bytes // lane_bytes * size
        else:
            begin = offset(rest, before)
        return (before.number(base) + begin + number * size) % 2**64
    value = before.number(vector) >> 8 * lane_bytes * lane & (1 << 8 * lane_bytes) - 1
    if vector == base:
        return (value + offset(rest, before)) % 2**64
    if "xtw" in rest:
        value &= 2**32 - 1
        value = (value ^ 2**31) - 2**31 if "sxtw" in rest else value
    shift = re.search(r"(?:lsl|xtw) #(\d+)", rest)
    return (before.number(base) + (value << int(shift[1] if shift else 0))) % 2**64


def merged(some):
    """The same accesses, with neighbours that are alike taken together."""
    found = []
    for access in sorted(some, key=lambda access: access.address):
        last = found[-1] if found else None
        alike = last and (last.loads, last.stores) == (access.loads, access.stores)
        if alike and last.address + last.size == access.address:
            found[-1] = last._replace(size=last.size + access.size, loaded=joined(last, last.loaded, access.loaded),
                                      stored=joined(last, last.stored, access.stored))
        else:
            found.append(access)
    return found


def joined(first, low, high):
    return None if low is None or high is None else low | high << 8 * first.size
