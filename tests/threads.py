#!/usr/bin/env python3
"""Programs of several contexts, and what they come to under schedules, by an interpreter of its own.

usage: threads.py --write FOLDER    writes the last part of the command lines of FOLDER/stdin and of FOLDER/stdout, from
                                    the line on that says it is worked out here
       threads.py --check FOLDER    compares these with what it would write
       threads.py --show NAME       prints the words of a program

It shares nothing with svemu: words are made and read here by the Arm manual, and contexts, calls and schedules are as
crates/emu_run/specs defines them. FOLDER is crates/command_cases, whose main.rt says what the lines are. A file
`w.elf` has the words of a program at 0x400000, a page at 0x402000 that may be read and written, and a page at 0x403000
that may be read. Behind it stand its schedules, each with a line of what the program comes to under it: the ending and
the status, that nothing is written to the output, and the length and the FNV-1a digest of all that is written to the
errors, with its first line. That text has every register of every context.
"""
import random
import sys

CODE, DATA, READ_ONLY, PAGE = 0x400000, 0x402000, 0x403000, 4096
STACK_END = 0x7FFFFFFFF000
MASK = 2**64 - 1
FLAGS = 0x10F00
BITS = 128


# ---- words

def movz(rd, imm, shift=0): return 0xD2800000 | shift // 16 << 21 | imm << 5 | rd
def movk(rd, imm, shift=0): return 0xF2800000 | shift // 16 << 21 | imm << 5 | rd
def mov(rd, rm): return 0xAA0003E0 | rm << 16 | rd
def add(rd, rn, imm): return 0x91000000 | imm << 10 | rn << 5 | rd
def sub(rd, rn, imm, shifted=0): return 0xD1000000 | shifted << 22 | imm << 10 | rn << 5 | rd
def add_reg(rd, rn, rm): return 0x8B000000 | rm << 16 | rn << 5 | rd
def cmp_imm(rn, imm): return 0xF100001F | imm << 10 | rn << 5
def sized(word, size, rt, rn, offset): return word | (size == 8) << 30 | offset // size << 10 | rn << 5 | rt
def ldr(rt, rn, offset=0, size=4): return sized(0xB9400000, size, rt, rn, offset)
def store(rt, rn, offset=0, size=4): return sized(0xB9000000, size, rt, rn, offset)
def ldaxr(rt, rn): return 0x885FFC00 | rn << 5 | rt
def stlxr(rs, rt, rn): return 0x8800FC00 | rs << 16 | rn << 5 | rt
def atomic(name, rs, rt, rn): return 0xB8200000 | ATOMICS.index(name) << 12 | rs << 16 | rn << 5 | rt
def swpal(rs, rt, rn): return 0xB8E08000 | rs << 16 | rn << 5 | rt
def casal(rs, rt, rn): return 0x88E0FC00 | rs << 16 | rn << 5 | rt
def read_tpidr(rt): return 0xD53BD040 | rt
SVC, NOP = 0xD4000001, 0xD503201F
ATOMICS = ["ldadd", "ldclr", "ldeor", "ldset", "ldsmax", "ldsmin", "ldumax", "ldumin"]
SP, ZERO = 31, 31
EQ, NE = 0, 1


class Listing:
    """Words, with labels for branches."""

    def __init__(self):
        self.words, self.labels, self.fixes = [], {}, []

    def put(self, *words):
        self.words += words

    def at(self, label):
        self.labels[label] = len(self.words)

    def branch(self, kind, label, r=0):
        self.fixes.append((len(self.words), kind, label, r))
        self.words.append(0)

    def made(self):
        for place, kind, label, r in self.fixes:
            by = self.labels[label] - place
            near = (by & 0x7FFFF) << 5
            self.words[place] = {
                "b": 0x14000000 | by & 0x3FFFFFF,
                "cbz": 0xB4000000 | near | r,
                "cbnz": 0xB5000000 | near | r,
                "cbzw": 0x34000000 | near | r,
                "cbnzw": 0x35000000 | near | r,
                "if": 0x54000000 | near | r,
            }[kind]
        return self.words

    def call(self, number):
        self.put(movz(8, number), SVC)

    def address(self, rd, a):
        self.put(movz(rd, a & 0xFFFF), movk(rd, a >> 16, 16))

    def clone(self, flags, stack_below, parent=None, tls=0, clear=0):
        """x0 is 0 in the new context; sp lies `stack_below` bytes below the caller's, or where it is for 0."""
        self.put(movz(0, flags & 0xFFFF), movk(0, flags >> 16, 16))
        self.put(sub(1, SP, stack_below) if stack_below else movz(1, 0))
        if parent is None:
            self.put(movz(2, 0))
        else:
            self.address(2, parent)
        self.put(movz(3, tls))
        if clear:
            self.address(4, clear)
        else:
            self.put(movz(4, 0))
        self.call(220)


# ---- programs

def counting(body, contexts, times):
    """Each of some contexts adds 1 to a cell `times` times; the first waits for the others and leaves with it."""
    p = Listing()
    for k in range(contexts - 1):
        p.clone(FLAGS, 1024 * (k + 1))
        p.branch("cbz", "work", 0)
    p.put(movz(20, 1))
    p.at("work")
    p.address(9, DATA)
    p.put(movz(10, 1), movz(13, times))
    p.at("again")
    body(p)
    p.put(sub(13, 13, 1))
    p.branch("cbnz", "again", 13)
    p.put(add(14, 9, 64))
    p.put(atomic("ldadd", 10, 12, 14))
    p.branch("cbnz", "last", 20)
    p.put(movz(0, 3))
    p.call(93)
    p.at("last")
    p.put(ldr(12, 14), cmp_imm(12, contexts))
    p.branch("if", "last", NE)
    p.put(ldr(0, 9))
    p.call(94)
    return p.made()


def plainly(p):
    p.put(ldr(11, 9), add(11, 11, 1), store(11, 9))


def atomically(p):
    p.put(atomic("ldadd", 10, 11, 9))


def exclusively(p):
    p.at("retry")
    p.put(ldaxr(11, 9), add(11, 11, 1), stlxr(12, 11, 9))
    p.branch("cbnzw", "retry", 12)


def by_compare(p):
    p.at("retry")
    p.put(ldr(11, 9), mov(15, 11), add(16, 11, 1), casal(15, 16, 9), sub(15, 15, 0))
    p.put(0xCB0B01EF)  # sub x15, x15, x11
    p.branch("cbnz", "retry", 15)


def locked(p):
    """A lock of one word: taken by swp, and waited for by futex."""
    p.put(add(17, 9, 128))
    p.at("take")
    p.put(movz(10, 1), swpal(10, 11, 17))
    p.branch("cbzw", "taken", 11)
    p.put(mov(0, 17), movz(1, 128), movz(2, 1), movz(3, 0))
    p.call(98)
    p.branch("b", "take")
    p.at("taken")
    plainly(p)
    p.put(store(ZERO, 17), mov(0, 17), movz(1, 129), movz(2, 1))
    p.call(98)
    p.put(movz(10, 1))


def waiting(contexts, woken):
    """All but the first wait at a word; the first wakes some, and leaves with their count."""
    p = Listing()
    for k in range(contexts - 1):
        p.clone(FLAGS, 1024 * (k + 1), tls=k + 1)
        p.branch("cbz", "wait", 0)
    p.address(9, DATA)
    p.put(movz(10, 1))
    p.at("look")
    p.put(ldr(11, 9, 4), cmp_imm(11, contexts - 1))
    p.branch("if", "look", NE)
    for k in range(40):
        p.put(NOP)
    p.put(mov(0, 9), movz(1, 1), movz(2, woken))
    p.call(98)
    p.put(mov(21, 0))
    p.call(93)
    p.at("wait")
    p.address(9, DATA)
    p.put(movz(10, 1), add(14, 9, 4), atomic("ldadd", 10, 12, 14))
    p.put(mov(0, 9), movz(1, 0), movz(2, 0), movz(3, 0))
    p.call(98)
    p.put(mov(22, 0), read_tpidr(0))
    p.call(93)
    return p.made()


def joined(contexts):
    """The others clear a word when they leave, at which the first waits."""
    p = Listing()
    for k in range(contexts - 1):
        cell = DATA + 256 + 4 * k
        p.address(9, cell)
        p.put(movz(10, 7), store(10, 9))
        flags = FLAGS | 0x200000 | 0x100000 | 0x80000
        p.clone(flags, 1024 * (k + 1), parent=DATA + 512 + 4 * k, tls=k + 40, clear=cell)
        p.branch("cbz", "child", 0)
    for k in range(contexts - 1):
        p.address(9, DATA + 256 + 4 * k)
        p.at(f"join{k}")
        p.put(ldr(11, 9))
        p.branch("cbzw", f"done{k}", 11)
        p.put(mov(0, 9), movz(1, 0), movz(2, 7), movz(3, 0))
        p.call(98)
        p.branch("b", f"join{k}")
        p.at(f"done{k}")
    p.address(9, DATA)
    p.put(ldr(0, 9))
    p.call(94)
    p.at("child")
    p.put(read_tpidr(10))
    p.address(9, DATA)
    p.put(atomic("ldadd", 10, 11, 9))
    p.call(178)
    p.put(mov(23, 0))
    p.call(93)
    return p.made()


def refused_calls():
    """Calls that are refused, one after the other."""
    p = Listing()
    for n, (number, args) in enumerate([
        (220, (0x0F00, 0, 0, 0, 0)),
        (220, (FLAGS | 0x1000000, 0, 0, 0, 0)),
        (220, (FLAGS | 0x100000, 0, READ_ONLY, 0, 0)),
        (98, (DATA, 2, 0, 0, 0)),
        (98, (DATA + 2, 0, 0, 0, 0)),
        (98, (0x500000, 0, 0, 0, 0)),
        (98, (DATA, 0, 0, 5, 0)),
        (98, (DATA, 0, 1, 0, 0)),
        (98, (DATA, 129, 0, 0, 0)),
        (98, (0x500000, 1, 3, 0, 0)),
        (96, (DATA, 0, 0, 0, 0)),
        (178, (0, 0, 0, 0, 0)),
    ]):
        for r, v in enumerate(args):
            p.put(movz(r, v & 0xFFFF), movk(r, v >> 16 & 0xFFFF, 16))
        p.call(number)
        p.put(mov(10 + n, 0) if n < 18 else NOP)
    p.put(movz(0, 9))
    p.call(93)
    return p.made()


def full():
    """As many contexts as there may be, and one more is refused."""
    p = Listing()
    p.at("more")
    p.clone(FLAGS, 0)
    p.branch("cbz", "child", 0)
    p.put(mov(20, 0))
    p.put(0xF100001F | 0 << 10 | 20 << 5)
    p.branch("if", "out", 4)  # b.mi
    p.branch("b", "more")
    p.at("out")
    p.put(movz(0, 1))
    p.call(94)
    p.at("child")
    p.call(93)
    return p.made()


def stuck():
    p = Listing()
    p.address(0, DATA)
    p.put(movz(1, 0), movz(2, 0), movz(3, 0))
    p.call(98)
    return p.made()


def started():
    """Two contexts add 1 to a cell, and the first waits for both in a loop."""
    p = Listing()
    p.put(movz(0, 3840), movk(0, 1, 16), sub(1, SP, 1024), movz(8, 220), SVC)
    p.put(0x10000009 | (DATA - CODE - 20) // 4 << 5)  # adr x9, DATA
    p.put(movz(10, 1), atomic("ldadd", 10, 11, 9))
    p.branch("cbz", "child", 0)
    p.at("wait")
    p.put(ldr(11, 9), 0x7100001F | 2 << 10 | 11 << 5)  # cmp w11, #2
    p.branch("if", "wait", NE)
    p.put(movz(0, 5), movz(8, 94), SVC)
    p.at("child")
    p.put(movz(8, 93), SVC)
    return p.made()


def trapping(contexts):
    """The last context stores to a page that may only be read."""
    p = Listing()
    for k in range(contexts - 1):
        p.clone(FLAGS, 0, tls=k)
        p.branch("cbz", "child", 0)
    p.at("turn")
    p.branch("b", "turn")
    p.at("child")
    p.address(9, READ_ONLY)
    p.put(movz(10, 5), store(10, 9, 16))
    return p.made()


def leaving(contexts):
    """Each leaves with a code of its own; that of the last one is the run's."""
    p = Listing()
    for k in range(contexts - 1):
        p.clone(FLAGS | 0x80000, 0, tls=k + 1)
        p.branch("cbz", "child", 0)
    p.put(movz(0, 100))
    p.call(93)
    p.at("child")
    p.put(read_tpidr(0), add(0, 0, 200), NOP)
    p.call(93)
    return p.made()


def broken_monitor(same):
    """A context has a monitor while another one stores beside it or in it."""
    p = Listing()
    p.clone(FLAGS, 0)
    p.branch("cbz", "child", 0)
    p.address(9, DATA)
    p.put(movz(13, 6))
    p.at("again")
    p.put(ldaxr(11, 9), NOP, NOP, stlxr(12, 13, 9), add_reg(20, 20, 12))
    p.put(sub(13, 13, 1))
    p.branch("cbnz", "again", 13)
    p.put(mov(0, 20))
    p.call(94)
    p.at("child")
    p.address(9, DATA + (0 if same else 4))
    p.at("turn")
    p.put(movz(10, 1), store(10, 9))
    p.branch("b", "turn")
    return p.made()


# Each with what it shows.
PROGRAMS = {
    "lost_2": (counting(plainly, 2, 4), "2 contexts add 1 to a cell 4 times each by a load and a store; some are lost"),
    "lost_4": (counting(plainly, 4, 3), "the same of 4 contexts, 3 times each"),
    "lost_8": (counting(plainly, 8, 2), "the same of 8 contexts, twice each"),
    "atomic_2": (counting(atomically, 2, 5), "2 contexts add 1 to a cell 5 times each, by ldadd: none is lost"),
    "atomic_8": (counting(atomically, 8, 3), "the same of 8 contexts, 3 times each"),
    "exclusive_3": (counting(exclusively, 3, 4), "3 contexts add 1 to a cell 4 times each, by ldaxr and stlxr"),
    "compared_3": (counting(by_compare, 3, 4), "3 contexts add 1 to a cell 4 times each, by casal"),
    "locked_2": (counting(locked, 2, 3), "2 contexts add 1 to a cell 3 times each, under a lock of swpal and futex"),
    "locked_4": (counting(locked, 4, 2), "the same of 4 contexts, twice each"),
    "waiting_4_1": (waiting(4, 1), "3 contexts wait at a word, and the first wakes 1: where 2 are left, none is ready"),
    "waiting_4_2": (waiting(4, 2), "3 contexts wait at a word, and the first wakes 2"),
    "waiting_5_9": (waiting(5, 9), "4 contexts wait at a word, and the first wakes up to 9"),
    "waiting_3_0": (waiting(3, 0), "2 contexts wait at a word, and the first wakes none"),
    "joined_2": (joined(2), "a context clears a word when it leaves, at which the first waits"),
    "joined_6": (joined(6), "5 contexts clear a word each when they leave, at which the first waits"),
    "refused": (refused_calls(), "calls that are refused, one after the other"),
    "full": (full(), "64 contexts, and one more is refused"),
    "stuck": (stuck(), "the one context waits"),
    "started": (started(), "2 contexts add 1 to a cell, and the first waits for both in a loop"),
    "trapping_3": (trapping(3), "the last context stores to a page that may only be read"),
    "leaving_5": (leaving(5), "each of 5 contexts leaves with a code of its own, and the last one's is the run's"),
    "monitor_same": (broken_monitor(True), "a context stores to the word of another one's monitor"),
    "monitor_beside": (broken_monitor(False), "a context stores beside the word of another one's monitor"),
}

# Those of two and of eight contexts, which run under 100 schedules; the others run under 40.
MANY = {
    "lost_2", "lost_8", "atomic_2", "atomic_8", "locked_2", "joined_2", "started", "monitor_same", "monitor_beside",
}


# ---- what they come to

class Trap(Exception):
    def __init__(self, kind, address):
        self.kind, self.address = kind, address


class Memory:
    def __init__(self, words):
        self.pages = {}
        for base, rights in ((CODE, "rx"), (DATA, "rw"), (READ_ONLY, "r")):
            self.pages[base // PAGE] = (rights, bytearray(PAGE))
        for page in range(STACK_END // PAGE - 256, STACK_END // PAGE):
            self.pages[page] = ("rw", bytearray(PAGE))
        for k, word in enumerate(words):
            self.pages[CODE // PAGE][1][4 * k:4 * k + 4] = word.to_bytes(4, "little")

    def refused(self, a, n, right):
        for k in range(n):
            at = a + k & MASK
            page = self.pages.get(at // PAGE)
            if page is None or right not in page[0]:
                return at
        return None

    def load(self, a, n):
        return int.from_bytes(bytes(self.pages[(a + k) // PAGE][1][(a + k) % PAGE] for k in range(n)), "little")

    def save(self, a, n, v):
        for k, byte in enumerate((v % 2 ** (8 * n)).to_bytes(n, "little")):
            self.pages[(a + k) // PAGE][1][(a + k) % PAGE] = byte


class Context:
    def __init__(self, sp):
        self.x, self.sp, self.pc = [0] * 31, sp, CODE
        self.n = self.z = self.c = self.v = False
        self.tpidr, self.monitor, self.clear = 0, None, 0
        self.state = "ready"  # or ("waits", address), or "gone"

    def get(self, r): return 0 if r == 31 else self.x[r]
    def get_sp(self, r): return self.sp if r == 31 else self.x[r]

    def set(self, r, v, bits=64):
        if r != 31:
            self.x[r] = v % 2 ** bits

    def set_sp(self, r, v):
        if r == 31:
            self.sp = v & MASK
        else:
            self.x[r] = v & MASK


class World:
    def __init__(self, words, sp):
        self.memory, self.contexts, self.steps = Memory(words), [Context(sp)], 0

    def ready(self):
        return [k for k, c in enumerate(self.contexts) if c.state == "ready"]

    def wake(self, a, most):
        woken = [c for c in self.contexts if c.state == ("waits", a)][:most]
        for c in woken:
            c.state = "ready"
        return len(woken)

    def run(self, schedule, budget):
        place = 0
        while True:
            turn, count = schedule[place % len(schedule)]
            place += 1
            ready = self.ready()
            if not ready:
                return ("Stuck",)
            k = ready[turn % len(ready)]
            for _ in range(count):
                if self.steps >= budget:
                    return ("Spent",)
                end = self.step(k)
                if end is not None:
                    return end
                if self.contexts[k].state != "ready":
                    break
            if not self.ready():
                return ("Stuck",)

    def step(self, k):
        c = self.contexts[k]
        self.written = None
        try:
            if c.pc % 4:
                raise Trap("PcAlign", c.pc)
            at = self.memory.refused(c.pc, 4, "x")
            if at is not None:
                raise Trap("Fetch", at)
            word = self.memory.load(c.pc, 4)
            if word & 0xFFE0001F == SVC:
                end = self.call(k)
                for other in self.contexts:
                    other.monitor = None
                self.steps += 1
                return end
            self.do(c, word)
        except Trap as t:
            return ("Trap", t.kind, t.address, c.pc)
        self.steps += 1
        if self.written is not None:
            a, n = self.written
            for j, other in enumerate(self.contexts):
                m = other.monitor
                if j != k and m is not None and a < m[0] + m[1] and m[0] < a + n:
                    other.monitor = None
        return None

    def call(self, k):
        c, m = self.contexts[k], self.memory
        x = list(c.x)
        number = x[8] % 2**32

        def back(v):
            c.x[0] = v & MASK
            c.pc += 4

        def fail(e):
            back(-e)

        if number == 94:
            return ("Exit", x[0] % 256)
        if number == 93:
            c.state = "gone"
            if c.clear and m.refused(c.clear, 4, "w") is None:
                m.save(c.clear, 4, 0)
                self.wake(c.clear, 1)
            if all(other.state == "gone" for other in self.contexts):
                return ("Exit", x[0] % 256)
            return None
        if number == 96:
            c.clear = x[0]
            back(k + 1)
        elif number == 178:
            back(k + 1)
        elif number == 98:
            op = x[1] % 2**32 & ~128
            if op not in (0, 1):
                fail(38)
            elif x[0] % 4:
                fail(22)
            elif op == 1:
                back(self.wake(x[0], x[2] % 2**32))
            elif m.refused(x[0], 4, "r") is not None:
                fail(14)
            elif x[3]:
                fail(38)
            elif m.load(x[0], 4) != x[2] % 2**32:
                fail(11)
            else:
                back(0)
                c.state = ("waits", x[0])
        elif number == 220:
            flags = x[0]
            if flags & FLAGS != FLAGS or flags & ~0x7D0F00:
                fail(22)
            elif len(self.contexts) >= 64:
                fail(11)
            elif flags & 0x100000 and m.refused(x[2], 4, "w") is not None:
                fail(14)
            else:
                name = len(self.contexts) + 1
                if flags & 0x100000:
                    m.save(x[2], 4, name)
                back(name)
                new = Context(x[1] if x[1] else c.sp)
                new.x = [0] + c.x[1:]
                new.pc, new.n, new.z, new.c, new.v = c.pc, c.n, c.z, c.c, c.v
                new.tpidr = x[3] if flags & 0x80000 else c.tpidr
                new.clear = x[4] if flags & 0x200000 else 0
                self.contexts.append(new)
        else:
            raise SystemExit(f"no call {number}")
        return None

    def access(self, a, n, right):
        if a % n:
            raise Trap("AccessAlign", a)
        at = self.memory.refused(a, n, right)
        if at is not None:
            raise Trap({"r": "Read", "w": "Write"}[right], at)

    def save(self, a, n, v):
        self.memory.save(a, n, v)
        self.written = (a, n)

    def do(self, c, w):
        rd, rn, rm = w & 31, w >> 5 & 31, w >> 16 & 31
        imm12, imm16, shift = w >> 10 & 0xFFF, w >> 5 & 0xFFFF, 16 * (w >> 21 & 3)
        near = ((w >> 5 & 0x7FFFF) ^ 0x40000) - 0x40000
        m, next_pc = self.memory, c.pc + 4
        if w & 0xFF800000 == 0xD2800000:
            c.set(rd, imm16 << shift)
        elif w & 0xFF800000 == 0xF2800000:
            c.set(rd, c.get(rd) & ~(0xFFFF << shift) | imm16 << shift)
        elif w & 0xFFE0FFE0 == 0xAA0003E0:
            c.set(rd, c.get(rm))
        elif w & 0xFF800000 == 0x91000000:
            c.set_sp(rd, c.get_sp(rn) + (imm12 << 12 * (w >> 22 & 1)))
        elif w & 0xFF800000 == 0xD1000000:
            c.set_sp(rd, c.get_sp(rn) - (imm12 << 12 * (w >> 22 & 1)))
        elif w & 0x9F000000 == 0x10000000:
            c.set(rd, c.pc + (near << 2) + (w >> 29 & 3))
        elif w & 0xFFC0001F == 0x7100001F:
            a = c.get_sp(rn) % 2**32
            r = (a - imm12) % 2**32
            c.n, c.z, c.c = r >> 31 == 1, r == 0, a >= imm12
            c.v = (a >> 31) != 0 and (r >> 31) == 0
        elif w & 0xFFE0FC00 == 0x8B000000:
            c.set(rd, c.get(rn) + c.get(rm))
        elif w & 0xFFE0FC00 == 0xCB000000:
            c.set(rd, c.get(rn) - c.get(rm))
        elif w & 0xFFC0001F == 0xF100001F:
            a = c.get_sp(rn)
            r = a - imm12 & MASK
            c.n, c.z, c.c = r >> 63 == 1, r == 0, a >= imm12
            c.v = (a >> 63) != 0 and (r >> 63) == 0
        elif w & 0xBFC00000 in (0xB9400000, 0xB9000000):
            n = 8 if w >> 30 & 1 else 4
            a = c.get_sp(rn) + imm12 * n & MASK
            if w >> 22 & 1:
                at = m.refused(a, n, "r")
                if at is not None:
                    raise Trap("Read", at)
                c.set(rd, m.load(a, n))
            else:
                at = m.refused(a, n, "w")
                if at is not None:
                    raise Trap("Write", at)
                self.save(a, n, c.get(rd))
        elif w & 0xFFFFFC00 == 0x885FFC00:
            a = c.get_sp(rn)
            self.access(a, 4, "r")
            c.set(rd, m.load(a, 4))
            c.monitor = (a, 4)
        elif w & 0xFFE0FC00 == 0x8800FC00:
            a = c.get_sp(rn)
            if c.monitor == (a, 4):
                self.access(a, 4, "w")
                self.save(a, 4, c.get(rd))
                c.set(rm, 0)
            else:
                c.set(rm, 1)
            c.monitor = None
        elif w & 0xFF208C00 == 0xB8200000 or w & 0xFF20FC00 == 0xB8208000:
            a = c.get_sp(rn)
            self.access(a, 4, "r")
            self.access(a, 4, "w")
            old, by = m.load(a, 4), c.get(rm) % 2**32
            signed = lambda v: v - 2**32 if v >> 31 else v
            name = "swp" if w >> 15 & 1 else ATOMICS[w >> 12 & 7]
            new = {
                "swp": by, "ldadd": old + by, "ldclr": old & ~by, "ldeor": old ^ by, "ldset": old | by,
                "ldsmax": max(old, by, key=signed), "ldsmin": min(old, by, key=signed),
                "ldumax": max(old, by), "ldumin": min(old, by),
            }[name]
            self.save(a, 4, new)
            c.set(rd, old)
        elif w & 0xFFA07C00 == 0x88A07C00:
            a = c.get_sp(rn)
            self.access(a, 4, "r")
            self.access(a, 4, "w")
            old = m.load(a, 4)
            if old == c.get(rm) % 2**32:
                self.save(a, 4, c.get(rd))
            c.set(rm, old)
        elif w & 0xFFFFFFE0 == 0xD53BD040:
            c.set(rd, c.tpidr)
        elif w & 0xFC000000 == 0x14000000:
            next_pc = c.pc + 4 * (((w & 0x3FFFFFF) ^ 0x2000000) - 0x2000000)
        elif w & 0x7E000000 == 0x34000000:
            v = c.get(rd) % (2**64 if w >> 31 else 2**32)
            if (v == 0) != (w >> 24 & 1 == 1):
                next_pc = c.pc + 4 * near
        elif w & 0xFF000010 == 0x54000000:
            holds = {0: c.z, 1: not c.z, 4: c.n, 5: not c.n}[w & 15]
            if holds:
                next_pc = c.pc + 4 * near
        elif w != NOP:
            raise Trap("Undefined", c.pc)
        c.pc = next_pc & MASK


# The traps that there may be here: what they are called in a line, and their signals.
TRAPS = {
    "Undefined": ("undefined", 4), "PcAlign": ("pc-align", 7), "AccessAlign": ("access-align", 7),
    "Fetch": ("fetch", 11), "Read": ("read", 11), "Write": ("write", 11),
}


def registers(c):
    """The lines of a context's registers. No program here has an instruction of vectors, and all of these are 0."""
    lines = [f"x{k} {v:016x}" for k, v in enumerate(c.x)]
    lines += [f"sp {c.sp:016x}", f"pc {c.pc:016x}", f"nzcv {c.n:d}{c.z:d}{c.c:d}{c.v:d}", f"tpidr {c.tpidr:016x}"]
    lines.append(f"vl {BITS}")
    lines += [f"z{k} {0:0{BITS // 4}x}" for k in range(32)]
    lines += [f"p{k} {0:0{BITS // 32}x}" for k in range(16)]
    return [*lines, f"ffr {0:0{BITS // 32}x}"]


def told(world, end):
    """The ending as it is named, its status, and the lines of the errors."""
    if end[0] == "Exit":
        name, status, line = f"Exit({end[1]})", end[1], f"exit {end[1]}"
    elif end[0] == "Trap":
        _, kind, address, pc = end
        name = f"Trap(Trap {{ kind: {kind}, address: {address} }}, {pc})"
        called, signal = TRAPS[kind]
        status, line = 128 + signal, f"trap {called} 0x{address:016x} at 0x{pc:016x}"
    else:
        name, status, line = end[0], {"Stuck": 119, "Spent": 123}[end[0]], end[0].lower()
    lines = [f"{line} after {world.steps} steps"]
    for k, c in enumerate(world.contexts):
        lines += [f"thread {k}", *registers(c)]
    return name, status, lines


def digest(data):
    """The number of 64 bits that FNV-1a makes of bytes."""
    made = 0xCBF29CE484222325
    for byte in data:
        made = (made ^ byte) * 0x100000001B3 & MASK
    return made


def shown(name, status, lines):
    """What is written of a command that puts nothing on the output, and these lines on the errors."""
    errors = "".join(line + "\n" for line in lines).encode()
    return (f"{name}, status {status}; output 0 {digest(b''):016x}; "
            f"errors {len(errors)} {digest(errors):016x}: {lines[0]}")


# ---- cases

def schedules(rng, count):
    """Simple ones first, and then by chance."""
    yield [(0, 1)]
    yield [(0, 1), (1, 1)]
    yield [(1, 1), (0, 1)]
    yield [(k, 1) for k in range(8)]
    yield [(0, 1000)]
    yield [(7, 3), (2, 5), (0, 1)]
    for _ in range(count - 6):
        yield [(rng.randrange(12), rng.choice((1, 1, 1, 2, 3, 5, 8, 40))) for _ in range(rng.randrange(1, 9))]


# Schedules that are refused, with the first line that is at fault.
REFUSED = [
    ("", "NoTurn", 0),
    ("# nothing;;", "NoTurn", 0),
    ("# nothing; ;", "MissingWord", 2),
    ("0 1;1", "MissingWord", 2),
    ("x", "MissingWord", 1),
    ("0 x", "BadNumber", 1),
    ("0 0", "OutOfRange", 1),
    ("0 1;;1 1 1", "ExtraWord", 3),
    ("0 18446744073709551616", "BadNumber", 1),
]

# The file that each program is a copy of: 4 pages, of which the first has the headers.
BASE = [
    "fill base.elf 16384 00",
    "put base.elf 0 4 464c457f",
    "put base.elf 4 3 10102",
    "put base.elf 16 2 2 b7",
    "put base.elf 20 4 1",
    f"put base.elf 24 8 {CODE:x} 40",
    "put base.elf 52 2 40 38 3",
]
for number, (rights, base) in enumerate(((5, CODE), (6, DATA), (4, READ_ONLY))):
    BASE += [
        f"put base.elf {64 + 56 * number} 4 1 {rights:x}",
        f"put base.elf {72 + 56 * number} 8 {PAGE * (number + 1):x} {base:x} {base:x} 1000 1000 1000",
    ]


def sp_at_start(arguments):
    """SP lies 16-aligned below the bytes of the arguments, 16 bytes, and words of 8 bytes: the number of the arguments,
    their addresses, two ends and 13 pairs."""
    below = STACK_END - sum(len(argument) + 1 for argument in arguments) - 16 & ~15
    return below - 8 * (1 + len(arguments) + 2 + 2 * 13) & ~15


def program_lines(name):
    return ["copy w.elf base.elf", "put w.elf 4096 4 " + " ".join(f"{w:08x}" for w in PROGRAMS[name][0])]


def case_lines(schedule, budget):
    return [f"lines turns {schedule}".rstrip(" "), f"brief threads w.elf turns --vl {BITS} --budget {budget}"]


def runs():
    """The name of each program, and its schedules with a budget each."""
    rng = random.Random(42)
    for name in PROGRAMS:
        made = []
        for n, schedule in enumerate(schedules(rng, 100 if name in MANY else 40)):
            budget = rng.choice((100, 200, 400)) if n % 7 == 3 or name == "started" else 2000
            made.append((schedule, budget))
        yield name, made


def cases():
    """The lines of stdin, those of stdout, and how many cases there are."""
    sp = sp_at_start(["w.elf"])
    lines, count = list(BASE), len(REFUSED)
    answers = list(lines)

    def put(new):
        lines.extend(new)
        answers.extend(new)

    for name, made in runs():
        words, shows = PROGRAMS[name]
        put(["", f"# {shows}", *program_lines(name)])
        count += len(made)
        for schedule, budget in made:
            world = World(words, sp)
            end = world.run(schedule, budget)
            put(case_lines(";".join(f"{t} {s}" for t, s in schedule), budget))
            answers.append(shown(*told(world, end)))
    put(["", "# schedules that are refused", *program_lines("stuck")])
    for schedule, why, line in REFUSED:
        put(case_lines(schedule, 100))
        name = f"ScheduleRefused(ScheduleFault {{ line: {line}, why: {why} }})"
        answers.append(shown(name, 122, [f"refused schedule {why} at line {line}"]))
    return lines, answers, count


def main(words):
    if words[:1] == ["--show"]:
        print(" ".join(f"{w:08X}" for w in PROGRAMS[words[1]][0]))
        return 0
    if words[:1] not in (["--write"], ["--check"]) or len(words) != 2:
        raise SystemExit(__doc__)
    lines, answers, count = cases()
    for name, text in (("stdin", lines), ("stdout", answers)):
        file, made = f"{words[1]}/{name}", ("\n".join(text) + "\n").encode()
        with open(file, "rb") as stands:
            before, section, found = stands.read().partition(SECTION)
        found, mark, behind = found.partition(BEHIND)
        if not section:
            print(f"{file} has no line {SECTION.decode().strip()!r}")
            return 1
        if words[0] == "--write":
            with open(file, "wb") as stands:
                stands.write(before + section + made[:-1] + mark + behind)
        elif found != made[:-1]:
            print(f"{file} isn't what tests/threads.py works out")
            return 1
    print(f"{count} cases, {len(REFUSED)} schedules refused")
    return 0


SECTION = b"\n# ---- contexts, worked out by tests/threads.py\n"
BEHIND = b"\n= calls\n"

if __name__ == "__main__":
    sys.exit(main(sys.argv[1:]))
