"""A run of several threads under a schedule as an interleaving: what each step read and wrote of what threads share."""

import bisect
import concurrent.futures
from typing import NamedTuple

from svemu_accesses import Access, State, accesses, merged
from svemu_program import Image
from svemu_turns import Follower, Progress, amount, changed, ended, register

# So many steps of a run are looked at, each by a run of svemu that ends there; so many of these at once.
MOST_STEPS, AT_ONCE, A_WINDOW = 20000, 4, 64

# So many places where another thread came between are marked.
MOST_MARKS = 9

READ, WRITE, EXIT, EXIT_GROUP, SET_TID, FUTEX, CLONE = 63, 64, 93, 94, 96, 98, 220
PARENT_SETTID, CHILD_CLEARTID = 0x100000, 0x200000


class Step(NamedTuple):
    """A step: its number from 1 on, its thread, its instruction's address and text, what it loads and stores, what is
    said of a system call, and whether the thread could go on behind it."""
    number: int
    thread: int
    address: int
    text: str
    accesses: tuple
    note: str
    goes_on: bool


class Between(NamedTuple):
    """Two accesses of a thread, and the last write of another one between them: as places in the list of steps."""
    first: int
    second: int
    write: int


class Trace:
    """The steps of a run from the first start of a thread on."""

    def __init__(self, run, turns, end):
        self.run, self.turns, self.end = run, turns, end
        self.image, self.follower, self.progress = Image(run.file), Follower(run), Progress()
        self.debugged = b".debug_line" in self.image.bytes
        self.clears, self.lines_of, self.widths = {}, {}, []
        self.begun = self.follower.first_start(turns, end)
        self.last = min(end.steps, self.begun + MOST_STEPS)
        self.steps = self.taken()
        self.shared = shared_bytes(self.steps)
        self.marks = marked(self.steps, self.shared)

    def states(self):
        """The registers of all threads behind each number of steps, from the first start on."""
        with concurrent.futures.ThreadPoolExecutor(AT_ONCE) as pool:
            for first in range(self.begun, self.last + 1, A_WINDOW):
                self.progress.show(f"tracing step {first:,} of {self.last:,}")
                window = range(first, min(first + A_WINDOW, self.last + 1))
                yield from pool.map(lambda number: ended(self.run, self.turns, number).threads, window)
        self.progress.clear()

    def taken(self):
        steps, before = [], None
        for number, after in enumerate(self.states(), self.begun):
            if before is not None:
                steps.append(self.step(number, before, after, steps[-1].thread if steps else 0))
            before = after
        return steps

    def step(self, number, before, after, last):
        moved = [k for k, text in enumerate(before) if register(text, b"pc") != register(after[k], b"pc")]
        # A branch to itself changes no register.
        thread = (moved or changed(before, after) or [last])[0]
        address = register(before[thread], b"pc")
        text = self.follower.texts.get(address, "")
        states = State(before[thread]), State(after[thread])
        if self.follower.calls(address):
            some, note, goes_on = self.service(thread, *states)
        else:
            some, note, goes_on = accesses(text, *states), "", True
        return Step(number, thread, address, text, tuple(merged(some)), note, goes_on)

    def service(self, thread, before, after):
        """What a system call loads and stores, what it does in words, and whether the thread goes on."""
        number, answer = before.number("w8"), after.number("x0")
        first, second, third = (before.number(f"x{k}") for k in range(3))
        if number == CLONE and 0 < answer < 2**63:
            self.clears[answer - 1] = before.number("x4") if first & CHILD_CLEARTID else 0
            told = [Access(third, 4, False, True, None, answer)] if first & PARENT_SETTID else []
            return told, f"starts thread {answer - 1}", True
        if number == FUTEX and second & 0x7F == 0:
            waits = answer == 0
            value = third & 0xFFFFFFFF if waits else None
            does = "waits" if waits else "goes on"
            return [Access(first, 4, True, False, value)], f"{does} at {self.place(first)}", not waits
        if number == FUTEX:
            return [], f"wakes {answer} at {self.place(first)}", True
        if number in (EXIT, EXIT_GROUP):
            clear = self.clears.get(thread, 0) if number == EXIT else 0
            return [Access(clear, 4, False, True, None, 0)] if clear else [], "leaves", False
        if number == SET_TID:
            self.clears[thread] = first
        if number in (READ, WRITE) and answer < 2**63:
            some = [Access(second, answer, number == WRITE, number == READ)] if answer else []
            return some, f"{'reads' if number == READ else 'writes'} {amount(answer, 'byte', 'bytes')}", True
        return [], f"system call {number}", True

    def place(self, address):
        """A place of data by its symbol, where there is one."""
        return self.image.beside(self.image.object_starts, self.image.objects, address, True) or f"{address:#x}"

    def code(self, address):
        """A place of code by its symbol and its line, where there are any."""
        if address not in self.lines_of:
            self.lines_of[address] = self.image.label(address) + (self.image.line(address) if self.debugged else "")
        return self.lines_of[address]

    def met(self, step):
        """The accesses of a step to what threads share."""
        return [access for access in step.accesses if self.shared & touched(access)]

    def lines(self):
        """What is printed: the steps at what threads share and the system calls, how many others there are between, how
        the run ends, and what the marks say."""
        shown = {step.number for step in self.steps if step.note or self.met(step)}
        self.widths = [max([len(text(step)) for step in self.steps if step.number in shown] + [0])
                       for text in (lambda step: self.code(step.address), lambda step: step.text)]
        self.widths.append(max(2 * len(self.end.threads), 6))
        yield (f"its run from the first start of a thread on, behind {self.begun} steps, by the steps at what threads "
               "share:")
        yield self.row("", "step", "thread", "place", "instruction", "shared memory")
        left_out = []
        for at, step in enumerate(self.steps):
            if left_out and (step.number in shown or left_out[-1].thread != step.thread):
                yield self.rest(left_out)
                left_out = []
            if step.number in shown:
                yield self.shown(at, step)
            else:
                left_out.append(step)
        if left_out:
            yield self.rest(left_out)
        yield self.ending()
        yield from (self.explained(number, mark) for number, mark in enumerate(self.marks, 1))

    def row(self, signs, step, thread, place, text, does):
        places, texts, threads = self.widths
        return f"{signs:8}{step:>7}  {thread:{threads}}  {place:{places}}  {text:{texts}}  {does}".rstrip()

    def shown(self, at, step):
        does = "; ".join([step.note] * bool(step.note) + [self.told(access) for access in self.met(step)])
        return self.row(self.signs(at), step.number, column(step.thread), self.code(step.address), step.text, does)

    def rest(self, some):
        """Of steps of one thread that touch nothing that is shared."""
        return self.row("", "", column(some[0].thread), f".. {amount(len(some), 'step', 'steps')}", "", "")

    def ending(self):
        if self.last < self.end.steps:
            return f"the other {self.end.steps - self.last:,} steps aren't shown; the run ends by {self.end.how}"
        return f"the run ends by {self.end.how} after {self.end.steps} steps"

    def signs(self, at):
        """The marks of a step: (1 of the first access, !1 of another thread's write, 1) of the second access."""
        signs = []
        for number, mark in enumerate(self.marks, 1):
            signs += [f"{number})"] * (at == mark.second) + [f"!{number}"] * (at == mark.write)
            signs += [f"({number}"] * (at == mark.first)
        return " ".join(signs)

    def told(self, access):
        place = self.place(access.address)
        if access.size > 8:
            place += f" and behind it, {access.size} bytes"
        loaded, stored = (f" {number:#x}" if number is not None and access.size <= 16 else ""
                          for number in (access.loaded, access.stored))
        if access.loads and access.stores:
            return f"reads{loaded} and writes{stored}, {place}"
        return f"reads{loaded} from {place}" if access.loads else f"writes{stored} to {place}"

    def explained(self, number, mark):
        first, second, write = (self.steps[at] for at in (mark.first, mark.second, mark.write))
        written = set().union(*(written_bytes(step) for step in self.steps[mark.first + 1:mark.second]
                                if step.thread != first.thread))

        def places(step):
            some = [self.place(access.address) for access in self.met(step) if written & touched(access)]
            return list(dict.fromkeys(some)) or [self.place(min(written_bytes(write)))]

        one, other = places(first), places(second)
        both = list(dict.fromkeys(one + other))
        then, written = (" and ".join(other), " and ".join(both)) if both != one else ("it", "it")
        return (f"({number} and {number}): thread {first.thread} {does(first)} {' and '.join(one)} in step {first.number} "
                f"and {does(second)} {then} in step {second.number}; between them thread {write.thread} writes {written}, "
                f"last in step {write.number}")


def column(thread):
    """A thread's number, further to the right for each thread."""
    return f"{'':{2 * thread}}{thread}" if thread < 32 else str(thread)


def does(step):
    loads, stores = (any(getattr(access, name) for access in step.accesses) for name in ("loads", "stores"))
    return "reads and writes" if loads and stores else "writes" if stores else "reads"


def touched(access):
    return set(range(access.address, access.address + access.size))


def touched_bytes(step):
    return {at for access in step.accesses for at in touched(access)}


def written_bytes(step):
    return {at for access in step.accesses if access.stores for at in touched(access)}


def shared_bytes(steps):
    """The bytes that more than one thread touches, and at least one of them writes."""
    threads, written = {}, set()
    for step in steps:
        for at in touched_bytes(step):
            threads.setdefault(at, set()).add(step.thread)
        written |= written_bytes(step)
    return {at for at, some in threads.items() if len(some) > 1 and at in written}


def marked(steps, shared):
    """Where another thread wrote between two accesses of a thread that could have gone on: first of a read and a write,
    if there are none of two reads, and at last of any; and if there are none, of a thread that had to wait."""
    for left in (True, False):
        some = [mark for mark in absences(steps, shared) if steps[mark.first_left].goes_on == left]
        for kinds in (("loads", "stores"), ("loads", "loads"), ("stores", "loads"), ("stores", "stores")):
            found = [Between(*mark[:3]) for mark in some
                     if is_kind(steps[mark.first], kinds[0]) and is_kind(steps[mark.second], kinds[1])]
            if found:
                return list(dict.fromkeys(found))[:MOST_MARKS]
    return []


def is_kind(step, kind):
    return any(getattr(access, kind) for access in step.accesses)


class Absence(NamedTuple):
    """Between, and the thread's last step before others had theirs."""
    first: int
    second: int
    write: int
    first_left: int


def absences(steps, shared):
    """Each time that others had steps between two of a thread and wrote what it touches before and behind these: its
    last access before, its first behind, and the last write between them to what either touches."""
    mine, touches = {}, {}
    for at, step in enumerate(steps):
        mine.setdefault(step.thread, []).append(at)
        for byte in touched_bytes(step) & shared:
            touches.setdefault((step.thread, byte), []).append(at)
    for thread, places in mine.items():
        for left, back in zip(places, places[1:]):
            writes = [(at, written_bytes(steps[at]) & shared) for at in range(left + 1, back)]
            written = set().union(*(some for _, some in writes))
            met = [touches[thread, byte] for byte in written if (thread, byte) in touches]
            before = [some[bisect.bisect_right(some, left) - 1] for some in met if some[0] <= left]
            behind = [some[bisect.bisect_left(some, back)] for some in met if some[-1] >= back]
            if before and behind:
                first, second = max(before), min(behind)
                either = touched_bytes(steps[first]) | touched_bytes(steps[second])
                yield Absence(first, second, max(at for at, some in writes if some & either), left)
