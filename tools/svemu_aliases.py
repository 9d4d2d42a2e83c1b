"""Instructions as a person writes them: the alias that the Arm manual prefers for the text of `svemu dis`."""

import re

ELEMENTS = {"b": 8, "h": 16, "s": 32, "d": 64}
CONDITIONS = ("eq", "ne", "cs", "cc", "mi", "pl", "vs", "vc", "hi", "ls", "ge", "lt", "gt", "le", "al", "nv")
HINTS = {0: "nop", 16: "esb", 1: "yield", 2: "wfe", 3: "wfi", 4: "sev", 5: "sevl", 32: "bti", 34: "bti c", 36: "bti j", 38: "bti jc",
         25: "paciasp", 27: "pacibsp", 29: "autiasp", 31: "autibsp"}
BARRIERS = {15: "sy", 14: "st", 13: "ld", 11: "ish", 10: "ishst", 9: "ishld", 7: "nsh", 6: "nshst", 5: "nshld", 3: "osh", 2: "oshst", 1: "oshld"}
ZERO = ("xzr", "wzr")


def alias(text):
    """The instruction as a person writes it; the text itself where there is no other way."""
    name, _, rest = text.partition(" ")
    some = split(rest)
    for rule in (plain, compared, moved, shifted, fields, chosen, multiplied, predicates, vectors):
        found = rule(name, some)
        if found:
            name, some = found
            break
    name, some = short(name, some)
    return f"{name} {', '.join(some)}" if some else name


def split(text):
    """The operands: what commas part outside of brackets, with a shift or a pattern as one of its own."""
    return re.split(r", (?![^\[{]*[\]}])", text) if text else []


def number(text):
    return int(text[1:], 0) if text[:1] == "#" else None


def bits(register):
    return 64 if register[0] == "x" or register == "sp" else 32


def zero(some, k):
    return some[k] in ZERO


def short(name, some):
    """Leaves out what an operand says without words: a shift by 0, an offset of 0, a pattern of all, a multiple of 1."""
    some = list(some)
    if some[-1:] == ["lsl #0"]:
        some.pop()
    if some[-1:] == ["mul #1"]:
        some.pop()
    if some[-1:] == ["all"]:
        some.pop()
    if some:
        some[-1] = re.sub(r"^([su]xt[bhwx]) #0$", r"\1", some[-1])
    extended = {"sp": "uxtx", "wsp": "uxtw"}
    if any(some[-1:] and extended.get(one) == some[-1][:4] for one in some[:2]):
        some[-1:] = ["lsl" + some[-1][4:]] if some[-1][4:] else []
    some = [re.sub(r", #0(, mul vl)?\]$", "]", one) for one in some]
    some = [re.sub(r"\{z(\d+)\.[bhsd], .*, z(\d+)\.([bhsd])\}", listed, one) for one in some]
    return name, some


def listed(found):
    """A list of at least three registers, by its first and its last."""
    first, last, letter = found.groups()
    return f"{{z{first}.{letter}-z{last}.{letter}}}" if int(first) < int(last) else found[0]


def plain(name, some):
    """Instructions whose operands are left out, and other names of the same."""
    if name == "hint" and number(some[0]) in HINTS:
        return HINTS[number(some[0])], []
    if name == "ret" and some == ["x30"]:
        return name, []
    if name in ("lslv", "lsrv", "asrv", "rorv"):
        return name[:-1], some
    if name == "extr" and some[1] == some[2]:
        return "ror", [some[0], some[1], some[3]]
    if name in ("isb", "clrex") and some in (["sy"], ["#15"]):
        return name, []
    if name in ("dmb", "dsb") and number(some[0]) in BARRIERS:
        return name, [BARRIERS[number(some[0])]]
    if name in ("prfm", "prfum") and number(some[0]) is not None:
        place = number(some[0])
        kind, level, kept = place >> 3, place >> 1 & 3, place & 1
        return (name, [f"{('pld', 'pli', 'pst')[kind]}l{level + 1}{('keep', 'strm')[kept]}", *some[1:]]) if kind < 3 and level < 3 else None
    if re.fullmatch(r"(ld|st)(add|clr|eor|set|smax|smin|umax|umin)l?[bh]?", name) and name[:2] == "ld" and zero(some, 1):
        return "st" + name[2:], [some[0], some[2]]
    return None


def moved(name, some):
    """Moves between registers, and of numbers."""
    if name == "orr" and len(some) >= 3 and zero(some, 1):
        if some[2][0] == "#" or some[3:] in ([], ["lsl #0"]):
            if some[2][0] != "#" or some[0][-2:] == "sp" or not wide(number(some[2]), bits(some[0])):
                return "mov", [some[0], some[2]]
        return None
    if name == "add" and "sp" in (some[0][-2:], some[1][-2:]) and some[2:] in (["#0"], ["#0", "lsl #0"]):
        return "mov", some[:2]
    if name in ("movz", "movn"):
        value, shift = number(some[1]), int(some[2][5:]) if len(some) > 2 else 0
        if value == 0 and shift or name == "movn" and bits(some[0]) == 32 and value == 0xFFFF:
            return None
        if not shift:
            return "mov", [some[0], f"#{value if name == 'movz' else ~value}"]
        value <<= shift
        return "mov", [some[0], f"#{value if name == 'movz' else ~value & 2 ** bits(some[0]) - 1:#x}"]
    if name in ("orn", "sub", "subs", "sbc", "sbcs") and len(some) >= 3 and zero(some, 1) and some[2][0] != "#":
        return {"orn": "mvn", "sub": "neg", "subs": "negs", "sbc": "ngc", "sbcs": "ngcs"}[name], [some[0], *some[2:]]
    return None


def wide(value, size):
    """Whether one movz or movn makes a number."""
    value %= 2**size
    parts = [value >> k & 0xFFFF for k in range(0, size, 16)]
    return sum(part != 0 for part in parts) <= 1 or sum(part != 0xFFFF for part in parts) <= 1


def compared(name, some):
    """Comparisons and tests: what sets the flags alone."""
    if name in ("subs", "adds", "ands") and len(some) >= 3 and zero(some, 0):
        return {"subs": "cmp", "adds": "cmn", "ands": "tst"}[name], some[1:]
    return None


def shifted(name, some):
    """Shifts by a number, and extensions."""
    if name not in ("ubfm", "sbfm") or len(some) != 4:
        return None
    low, high, size = number(some[2]), number(some[3]), bits(some[0])
    if name == "ubfm" and high + 1 == low and high != size - 1:
        return "lsl", [some[0], some[1], f"#{size - 1 - high}"]
    if high == size - 1:
        return ("lsr" if name == "ubfm" else "asr"), [some[0], some[1], f"#{low}"]
    kind = {7: "b", 15: "h", 31: "w"}.get(high)
    if low == 0 and kind and (name == "sbfm" and (size == 64 or kind != "w") or size == 32 and kind != "w"):
        return ("uxt" if name == "ubfm" else "sxt") + kind, [some[0], "w" + some[1][1:]]
    return None


def fields(name, some):
    """Fields of bits."""
    if name not in ("ubfm", "sbfm", "bfm") or len(some) != 4:
        return None
    low, high, size, kind = number(some[2]), number(some[3]), bits(some[0]), name[0] if name != "bfm" else ""
    if high < low:
        into = f"{kind}bfiz" if kind else "bfi"
        if not kind and zero(some, 1):
            return "bfc", [some[0], f"#{size - low}", f"#{high + 1}"]
        return into, [some[0], some[1], f"#{size - low}", f"#{high + 1}"]
    return (f"{kind}bfx" if kind else "bfxil"), [some[0], some[1], f"#{low}", f"#{high - low + 1}"]


def chosen(name, some):
    """Choices by a condition, which the alias says the other way round."""
    if name not in ("csinc", "csinv", "csneg") or some[3] in ("al", "nv"):
        return None
    other = CONDITIONS[CONDITIONS.index(some[3]) ^ 1]
    if name != "csneg" and zero(some, 1) and zero(some, 2):
        return ("cset" if name == "csinc" else "csetm"), [some[0], other]
    if some[1] == some[2] and not zero(some, 1) or name == "csneg" and some[1] == some[2]:
        return {"csinc": "cinc", "csinv": "cinv", "csneg": "cneg"}[name], [some[0], some[1], other]
    return None


def multiplied(name, some):
    """Products to which 0 is added."""
    names = {"madd": "mul", "msub": "mneg", "smaddl": "smull", "umaddl": "umull", "smsubl": "smnegl", "umsubl": "umnegl"}
    if name in names and len(some) == 4 and zero(some, 3):
        return names[name], some[:3]
    return None


def predicates(name, some):
    """Moves and negations of predicates."""
    if not some or not re.fullmatch(r"p\d+\.b", some[0]) or len(some) != 4:
        return None
    into, governing, one, other = some
    by, zeroing = governing[:-2], governing.endswith("/z")
    if name in ("and", "ands") and zeroing and one == other:
        return ("mov" if name == "and" else "movs"), [into, governing, one]
    if name in ("orr", "orrs") and zeroing and one == other and one == f"{by}.b":
        return ("mov" if name == "orr" else "movs"), [into, one]
    if name in ("eor", "eors") and zeroing and other == f"{by}.b":
        return ("not" if name == "eor" else "nots"), [into, governing, one]
    if name == "sel" and other == into:
        return "mov", [into, f"{governing}/m", one]
    return None


def vectors(name, some):
    """Moves of vectors, and of numbers into them."""
    if name == "orr" and len(some) == 3 and re.fullmatch(r"z\d+\.d", some[0]) and some[1] == some[2]:
        return "mov", some[:2]
    if name == "sel" and len(some) == 4 and some[0][0] == "z" and some[3] == some[0]:
        return "mov", [some[0], f"{some[1]}/m", some[2]]
    if name in ("and", "orr", "eor", "dupm") and re.fullmatch(r"z\d+\.d", some[0]) and some[-1][0] == "#":
        register, letter, value = some[0][:-2], *narrowed(number(some[-1]))
        parts = [f"{register}.{letter}"] * (len(some) - 1) + [f"#{value:#x}" if value > 9 else f"#{value}"]
        return ("dupm" if signed(value, letter) else "mov") if name == "dupm" else name, parts
    if some and some[0][0] == "z" and some[-1] == "lsl #8":
        value = number(some[-2]) << 8
        return {"dup": "mov", "cpy": "mov"}.get(name, name), [*some[:-2], *([f"#{value}"] if value else some[-2:])]
    if name == "dup" and some[0][0] == "z":
        lane = re.fullmatch(r"z(\d+)\.([bhsdq])\[0\]", some[1])
        return "mov", [some[0], f"{lane[2]}{lane[1]}" if lane else some[1], *some[2:]]
    if name == "cpy" and some[0][0] == "z":
        return "mov", some
    if name in ("fcpy", "fdup"):
        return "fmov", some
    return None


def narrowed(value):
    """The smallest element that a number of 64 bits repeats, and the number in it."""
    for letter, size in ELEMENTS.items():
        part = value & 2**size - 1
        if all(value >> k & 2**size - 1 == part for k in range(0, 64, size)):
            return letter, part
    return "d", value


def signed(value, letter):
    """Whether a move of a number of eight bits, shifted or not, makes a number."""
    size = ELEMENTS[letter]
    value -= 2**size if value >> size - 1 else 0
    return -128 <= value <= 127 or size > 8 and value % 256 == 0 and -128 <= value >> 8 <= 127
