"""A run's calls of functions and of the system, in order, and the steps that wrote: what sessions of the debugger show."""

import collections
import re
import signal
import sys
import time

import svemu_pages as pages
from svemu_pages import ENDING, STOP, Failure
from svemu_program import PAGE, STORES

# The debugger has so many breaks; and so many stops are listed, with two lines of a script each.
BREAKS, STOPS_LISTED = 64, 200000
STOPS_A_SESSION = (pages.SCRIPT_LINES - BREAKS - 1) // 2

STACK = range(0x7FFFFFFFF000 - 256 * 4096, 0x7FFFFFFFF000)
READ, WRITE, READV, WRITEV, BRK, MUNMAP, MMAP, CLONE, CLONE3 = 63, 64, 65, 66, 214, 215, 222, 220, 435
SYSTEM_CALLS = {READ: "read", WRITE: "write", READV: "readv", WRITEV: "writev", 93: "exit", 94: "exit_group", BRK: "brk",
                MUNMAP: "munmap", MMAP: "mmap", 226: "mprotect", 167: "prctl", 29: "ioctl"}

REGISTERS = b"".join(b"x%d ([0-9a-f]{16})\n" % k for k in range(31)) + rb"sp ([0-9a-f]{16})\n" + \
    rb"pc [0-9a-f]{16}\nnzcv [01]{4}\ntpidr [0-9a-f]{16}\nvl (\d+)[^\n]*\n"
SHOWN = re.compile(REGISTERS)
# Where a `go` stopped, and the registers behind it.
STOPPED = re.compile(rb"(?:break after (\d+) steps at 0x([0-9a-f]{16})|(" + ENDING + rb") after (\d+) steps)\n" + REGISTERS)

# Where a run stood before a step: the count of steps, the program counter, x0 to x30 and SP.
Stop = collections.namedtuple("Stop", "step pc x sp")
# A call that hasn't returned: the function's address, the number of the call, where it returns to, and SP at its entry.
Frame = collections.namedtuple("Frame", "function number back sp")
# An entry, a return or a system call: its name, the place that calls, the frame in which it comes, the frame that it
# is of (none of a system call), what x0 is, the frames of its callers, and the memory that there is.
Event = collections.namedtuple("Event", "kind step name place running frame x callers memory")
# The break, and the parts of mappings that are there: the number of the mapping, its first address, and its part.
Memory = collections.namedtuple("Memory", "end mappings")
Mapping = collections.namedtuple("Mapping", "number base first last")


class Progress:
    """A line on a terminal that says what the tool is at, from the first second on."""

    def __init__(self):
        self.tool, self.began, self.text, self.shown = "", time.monotonic(), "reading", False

    def start(self, tool):
        self.tool = tool
        if sys.stderr.isatty():
            signal.signal(signal.SIGALRM, self.show)
            signal.setitimer(signal.ITIMER_REAL, 1, 1)

    def show(self, *_):
        sys.stderr.write(f"\r\x1b[K{self.tool}: {self.text}, {time.monotonic() - self.began:.0f} seconds")
        sys.stderr.flush()
        self.shown = True

    def tell(self, text):
        self.text = text

    def clear(self):
        signal.setitimer(signal.ITIMER_REAL, 0)
        if self.shown:
            sys.stderr.write("\r\x1b[K")
            sys.stderr.flush()
            self.shown = False


PROGRESS = Progress()


def stops_at(run, addresses):
    """Each time that a run stands at one of the addresses, by the count of steps; and how it ends."""
    found, ending, addresses = {}, None, sorted(addresses)
    for group in [addresses[k:k + BREAKS] for k in range(0, len(addresses), BREAKS)] or [[]]:
        at, size, ending = 0, 64, None
        while ending is None:
            PROGRESS.tell(f"the calls at {run.vl} bits: {len(found)} stops")
            script = [f"step {at}"] * (at > 0) + [f"break {address:#x}" for address in group] + ["go", "regs"] * size
            for stopped in STOPPED.finditer(run.session(script)):
                values = [int(value, 16) for value in stopped.groups()[4:36]]
                if stopped[3]:
                    ending = Stop(int(stopped[4]), 0, values[:31], values[31]), stopped[3].decode()
                    break
                at = int(stopped[1])
                found[at] = Stop(at, int(stopped[2], 16), values[:31], values[31])
            if len(found) > STOPS_LISTED:
                raise Failure(f"there are more than {STOPS_LISTED} entries, returns and system calls: --in chooses functions")
            size = min(4 * size, STOPS_A_SESSION)
    if ending[1] == "spent":
        raise Failure(f"at {run.vl} bits the program doesn't end within {run.budget} steps")
    return found, ending


class Calls:
    """The entries, returns and system calls of a run, in order."""

    def __init__(self, run, program, functions, narrowed):
        self.run, self.program, self.functions, self.narrowed = run, program, functions, narrowed
        services = {at for at, text in program.texts.items() if text.startswith("svc")}
        behind = {at + 4 for at in services}
        found, self.ending = stops_at(run, functions | services | behind)
        backs = {stop.x[30] for stop in found.values() if stop.pc in functions and self.called(stop.x[30])}
        if backs - functions - services - behind:
            found.update(stops_at(run, backs - functions - services - behind)[0])
        self.memory, self.frames, self.counts, self.maps = Memory(program.first_break, ()), [], collections.Counter(), 0
        self.events, self.writes, self.written, self.service = [], [], 0, None
        for step in sorted(found):
            stop = found[step]
            if self.service and stop.pc == self.service.pc + 4:
                self.serviced(stop)
            self.left(stop)
            if stop.pc in functions:
                self.entered(stop)
            if stop.pc in services:
                self.service = stop
                if stop.x[8] & 0xFFFFFFFF in (CLONE, CLONE3):
                    raise Failure("the program starts threads, and a session of the debugger has one")
        if self.service and not narrowed:
            # exit, or a call by which the run ends
            self.service_event(self.service, self.service.step)

    def called(self, back):
        return self.program.texts.get(back - 4, "").startswith(("bl ", "blr "))

    def add(self, kind, stop, name, place, frame):
        running = self.frames[-1] if self.frames else None
        self.events.append(Event(kind, stop.step, name, place, running, frame, stop.x[0],
                                 tuple(frame.back for frame in self.frames[:-1]), self.memory))

    def left(self, stop):
        """Takes off the frames that return here, and those that a jump over several of them left."""
        while self.frames and self.frames[-1].sp < stop.sp:
            self.frames.pop()
        while self.frames and (self.frames[-1].back, self.frames[-1].sp) == (stop.pc, stop.sp):
            frame = self.frames[-1]
            self.add("return", stop, self.program.functions[frame.function][0], frame.back - 4, frame)
            self.frames.pop()

    def entered(self, stop):
        frame = Frame(stop.pc, self.counts[stop.pc] + 1, stop.x[30], stop.sp)
        # A loop back to the first instruction is no call.
        again = self.frames and self.frames[-1]._replace(number=0) == frame._replace(number=0)
        if self.called(stop.x[30]) and not again:
            self.counts[stop.pc] += 1
            self.add("entry", stop, self.program.functions[stop.pc][0], stop.x[30] - 4, frame)
            self.frames.append(frame)

    def service_event(self, service, step):
        number = service.x[8] & 0xFFFFFFFF
        name = SYSTEM_CALLS.get(number, f"number {number}")
        running = self.frames[-1] if self.frames else None
        self.events.append(Event("service", step, name, service.pc, running, None, 0, (), self.memory))

    def serviced(self, stop):
        """Follows what a system call did to memory and to the output."""
        service, self.service = self.service, None
        number, first, answer = service.x[8] & 0xFFFFFFFF, service.x[0], stop.x[0]
        size = -(-service.x[1] // PAGE) * PAGE
        if number in (WRITE, WRITEV) and first & 0xFFFFFFFF == 1 and answer < 2**63:
            self.writes.append((self.written, self.written + answer, service, self.frames[-1] if self.frames else None))
            self.written += answer
        elif number == BRK:
            self.memory = self.memory._replace(end=answer)
        elif number == MMAP and answer < 2**63:
            self.maps += 1
            self.memory = self.memory._replace(
                mappings=(*self.memory.mappings, Mapping(self.maps, answer, answer, answer + size)))
        elif number == MUNMAP and answer == 0:
            self.memory = self.memory._replace(mappings=tuple(
                part for mapping in self.memory.mappings for part in without(mapping, first, first + size)))
        if not self.narrowed:
            self.service_event(service, stop.step)

    def address(self, value):
        """Whether a number may be an address of the program's memory."""
        return value in STACK or value >= 0x1000 and (
            value < self.memory.end or any(mapping.base <= value <= mapping.last for mapping in self.memory.mappings)) \
            and value >= min(self.program.starts)


def without(mapping, first, last):
    """What of a mapping is left without the addresses from first to last."""
    parts = (mapping._replace(last=min(mapping.last, first)), mapping._replace(first=max(mapping.first, last)))
    return [part for part in parts if part.first < part.last]


def bytes_at(run, step, ranges):
    """The bytes of ranges of memory behind so many steps, one range after the other."""
    taken, todo = [], [(at, min(PAGE, first + size - at)) for first, size in ranges for at in range(first, first + size, PAGE)]
    for begin in range(0, len(todo), PAGE):
        some = todo[begin:begin + PAGE]
        # The program writes before the commands alone: what they show stands at the end.
        shown = sum(20 * -(-size // 16) + 3 * size for _, size in some)
        output = run.session([f"step {step}"] * (step > 0) + [f"mem {at:#x} {size}" for at, size in some])
        digits = b" ".join(line[20:] for line in output[len(output) - shown:].splitlines())
        taken.append(bytes.fromhex(digits.replace(b"--", b"00").decode()))
    return b"".join(taken)


def registers_at(run, step, more=()):
    """x0 to x30, SP and the vector length behind so many steps, and what other commands show there."""
    output = run.session([f"step {step}"] * (step > 0) + ["regs", *more])
    shown = list(SHOWN.finditer(output))[-1]
    values = [int(value, 16) for value in shown.groups()[:32]]
    return values, int(shown[33]), output[shown.end():].decode().splitlines()


def last_writer(run, first, last, address, count=1):
    """The last of the steps behind the first up to the last that stored to one of so many bytes: its number, and the
    instruction's address. None where there is none."""
    at, size, writer, ended = first, 64, None, False
    while not ended:
        PROGRESS.tell(f"looking for who wrote {address:#x}")
        script = [f"step {at}"] * (at > 0) + [f"watch {address:#x} {count}"] + ["go"] * size
        for stop in STOP.finditer(run.session(script, last)):
            if stop[4]:
                ended = True
                break
            if stop[1].startswith(b"watch") and int(stop[2]) > at:
                at = int(stop[2])
                pc = int(stop[3], 16) - 4
                if STORES.match(run.program.texts.get(pc, "")):
                    writer = at, pc
        size = min(8 * size, pages.SCRIPT_LINES - 2)
    return writer


def last_change(run, first, last, register="x0"):
    """The last of the steps behind the first up to the last that changed a register: its number, and the instruction's
    address. None where there is none among the last 2,048."""
    kind, number = register[0], int(register[1:])
    also = [] if kind == "x" else [f"{kind}reg {number}"]
    for most in (64, 2048):
        begin = max(first, last - most)
        output = run.session([f"step {begin}"] * (begin > 0) + ["regs", *also] + ["step 1", "regs", *also] * (last - begin))
        states = []
        for shown in SHOWN.finditer(output):
            value = output[shown.end():output.index(b"\n", shown.end())] if also else shown[1 + number]
            states.append((value, int(re.search(rb"\npc ([0-9a-f]+)", shown[0])[1], 16)))
        for k in range(len(states) - 1, 0, -1):
            if states[k][0] != states[k - 1][0]:
                return begin + k, states[k - 1][1]
    return None


def last_branch(run, first, last):
    """The last conditional branch among the steps behind the first up to the last: its number, and its address. None where
    there is none among the last 2,048."""
    begin = max(first, last - 2048)
    output = run.session([f"step {begin}"] * (begin > 0) + ["regs"] + ["step 1", "regs"] * (last - begin))
    places = [int(re.search(rb"\npc ([0-9a-f]+)", shown[0])[1], 16) for shown in SHOWN.finditer(output)]
    branches = [k for k, pc in enumerate(places[:-1])
                if run.program.texts.get(pc, "").startswith(("b.", "cbz", "cbnz", "tbz", "tbnz"))]
    return (begin + branches[-1] + 1, places[branches[-1]]) if branches else None


def lane_of(run, step, text, address):
    """Of a store by lanes: the lane that stored a byte, how many there are, the size of what a lane stores, and the byte's
    place in it. None of another store."""
    form = re.match(r"st(?:nt)?([1-4])([bhwd]) \{z\d+\.([bhsd])[^}]*\}, (p\d+), \[([xz])(\d+|sp)?[^,\]]*(?:, ([^\]]*))?\]",
                    text.replace("[sp", "[xsp"))
    if not form:
        return None
    size, lane_bytes, count = {"b": 1, "h": 2, "w": 4, "d": 8}[form[2]], {"b": 1, "h": 2, "s": 4, "d": 8}[form[3]], int(form[1])
    rest = form[7] or ""
    vector = form[6] if form[5] == "z" else (re.match(r"z(\d+)", rest) or [0, ""])[1]
    more = [f"zreg {vector}", f"preg {form[4][1:]}"] if vector else []
    values, vl, shown = registers_at(run, step - 1, more)
    lanes = vl // 8 // lane_bytes

    def register(name):
        return values[31] if name == "sp" else values[int(name)]

    if not vector:
        base = register(form[6])
        if re.match(r"x\d+", rest):
            shift = re.search(r"lsl #(\d+)", rest)
            base += register(re.match(r"x(\d+)", rest)[1]) << int(shift[1] if shift else 0)
        elif rest:
            base += int(re.match(r"#(-?\w+)", rest)[1], 0) * lanes * size
        off = (address - base) % 2**64
        return (off // (count * size), lanes, size, off % size) if off < lanes * count * size else None
    digits, active = (line.split()[1] for line in shown[:2])
    for k in reversed(range(lanes)):
        number = int(digits[len(digits) - 2 * (k + 1) * lane_bytes:len(digits) - 2 * k * lane_bytes], 16)
        if "xtw" in rest:
            number &= 2**32 - 1
            number -= (number >> 31) * 2**32 if "sxtw" in rest else 0
        shift = re.search(r"(?:lsl|xtw) #(\d+)", rest)
        scaled = number << int(shift[1] if shift else 0)
        given = re.match(r"#(\w+)", rest)
        base = register(form[6]) + scaled if form[5] == "x" else number + int(given[1] if given else "0", 0)
        off = (address - base) % 2**64
        if off < size and int(active, 16) >> k * lane_bytes & 1:
            return k, lanes, size, off
    return None


def size_of_store(text):
    """The bytes that a store by a general register writes."""
    name, _, operands = text.partition(" ")
    if name.endswith("b"):
        return 1
    if name.endswith("h"):
        return 2
    return {"w": 4, "x": 8, "s": 4, "d": 8, "b": 1, "h": 2}.get(operands[:1], 1)


def times(count, word):
    return f"{count} {word}{'' if count == 1 else 's'}"
