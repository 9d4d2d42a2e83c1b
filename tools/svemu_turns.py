"""Runs of a program of several threads under turns: how they end, who took each step, and what makes them shorter."""

import math
import re
import sys
import tempfile
import time
from typing import NamedTuple

from svemu_pages import ENDING, Failure

# The end of a run in its errors, behind what the program wrote there, with the registers of its first thread below it.
REPORT = re.compile(rb"(" + ENDING + rb"|stuck) after (\d+) steps\nthread 0\nx0 [0-9a-f]{16}\n")

# A turn that nobody cuts short has so many steps; behind it the next thread has its turn, so that one who waits in a
# loop doesn't wait for ever.
TURN = 1000

# A schedule that is followed step by step has at most so many steps.
MOST_STEPS = 65536

# The instructions behind which another may come than the next, or than the one that the text names.
OPEN = ("br", "blr", "ret", "cbz", "cbnz", "tbz", "tbnz", "svc", "brk")

# The number of `exit`, by which a thread leaves.
EXIT = 93


class Ended(NamedTuple):
    """How a run ended, its steps, its output and the registers of each thread as they are printed."""
    how: str
    steps: int
    output: bytes
    threads: list

    def parts(self, first):
        """Whether this run does otherwise than the first."""
        return (self.how, self.output) != (first.how, first.output)

    def is_alone(self):
        """Whether the report has all registers of one thread, and of no other: none was started."""
        return len(self.threads) == 1 and b"\npc " in self.threads[0]

    def told(self, first):
        """The words of a line on this run: its ending, and the first byte at which its output parts."""
        at = parting(first.output, self.output)
        where = "same" if at is None else f"parts at {at}"
        return f"{self.how} after {self.steps} steps out {len(self.output)} {where}"


class Step(NamedTuple):
    """Who took a step, at which address, who could have taken it, and whether it is one that other threads may meet."""
    thread: int
    address: int
    ready: tuple
    meets: bool


class Progress:
    """A line on a terminal that says how far the runs are, from the second second on."""

    def __init__(self):
        self.terminal = sys.stderr is not None and sys.stderr.isatty()
        self.due = time.monotonic() + 1
        self.shown = False

    def show(self, text):
        if self.terminal and time.monotonic() >= self.due:
            sys.stderr.write(f"\r\x1b[K{text}")
            sys.stderr.flush()
            self.due = time.monotonic() + 0.2
            self.shown = True

    def clear(self):
        if self.shown:
            sys.stderr.write("\r\x1b[K")
            sys.stderr.flush()
            self.shown = False


def parting(first, other):
    """Where two outputs part. None where they are the same."""
    common = min(len(first), len(other))
    at = next((at for at in range(common) if first[at] != other[at]), common)
    return None if first == other else at


def text_of(turns):
    return "".join(f"{place} {steps}\n" for place, steps in turns)


def ended(run, turns, budget=None):
    """A run under a schedule."""
    with tempfile.NamedTemporaryFile("w", prefix="svemu-schedules.") as file:
        file.write(text_of(turns))
        file.flush()
        words = [*run.limits(budget), "--vl", str(run.vl), *run.arguments]
        done = run.ended("threads", run.file, file.name, *words, given=run.input)
    reports = list(REPORT.finditer(done.stderr))
    if not reports:
        raise run.failure(done, run.file)
    last = reports[-1]
    threads = re.split(rb"^thread \d+\n", done.stderr[last.start():], flags=re.M)[1:]
    return Ended(last[1].decode(), int(last[2]), done.stdout, threads)


def shortest(turns, parts):
    """The turns without those that aren't needed: none of them can be left out, and no two neighbours can be joined, so
    that parts(turns) still holds. It holds of the turns that are given."""
    while True:
        turns = fewer(turns, parts)
        shorter = next((shorter for shorter in joined(turns) if parts(shorter)), None)
        if shorter is None:
            return turns
        turns = shorter


def fewer(turns, parts):
    """By leaving out: halves first, then smaller pieces, at last each turn alone (Zeller's ddmin)."""
    pieces = 2
    while len(turns) > 1:
        size = -(-len(turns) // pieces)
        rests = (turns[:at] + turns[at + size:] for at in range(0, len(turns), size))
        rest = next((rest for rest in rests if rest and parts(rest)), None)
        if rest is not None:
            turns, pieces = rest, max(pieces - 1, 2)
        elif size == 1:
            break
        else:
            pieces = min(len(turns), 2 * pieces)
    return turns


def joined(turns):
    """The lists in which two neighbours are one turn, of the one or of the other place."""
    for at in range(len(turns) - 1):
        (place, steps), (other, more) = turns[at], turns[at + 1]
        for taken in dict.fromkeys((place, other)):
            yield turns[:at] + [(taken, steps + more)] + turns[at + 2:]


def as_read(run, turns, end):
    """The turns with places as they are read, below the number of threads where that makes the same run. A place counts
    modulo the number of those that are ready, so what is left of it by all numbers that there may be does at any rate."""
    threads = len(end.threads)
    for count in (threads, math.lcm(*range(1, threads + 1))):
        shorter = [(place % count, steps) for place, steps in turns]
        if shorter == turns or ended(run, shorter) == end:
            return shorter
    return turns


class Follower:
    """Follows runs step by step, a run of svemu for each, as `svemu threads` shows registers at the end alone."""

    def __init__(self, run):
        self.run = run
        lines = run.call("dis", run.file).decode().splitlines()
        self.texts = {int(line[:16], 16): line[26:] for line in lines}

    def meets(self, address):
        """Whether the instruction at an address may be seen by other threads, or see them: all but those that are known
        to change registers alone."""
        text = self.texts.get(address, ".word")
        return "[" in text or text.startswith((".", "ld", "st", "cas", "swp", "svc", "brk", "dc", "prf", "udf"))

    def calls(self, address):
        return self.texts.get(address, "svc").startswith("svc")

    def first_start(self, turns, end):
        """The number of steps before the first that starts a thread."""
        low, high = 0, end.steps
        while low < high:
            middle = (low + high) // 2
            if len(self.threads(turns, middle + 1)) > 1:
                high = middle
            else:
                low = middle + 1
        return low

    def threads(self, turns, steps):
        return ended(self.run, turns, steps).threads

    def ready(self, steps, now):
        """Who could take the next step behind these: each place is tried."""
        turns, found = as_turns(steps), set()
        for place in range(len(now)):
            found.update(changed(now, self.threads([*turns, (place, 1)], len(steps) + 1)))
        return tuple(sorted(found))

    def follow(self, schedule, turns, end, show):
        """The steps of a run under a schedule, until one thread is left and starts no more, or until the end."""
        steps, ready = list(schedule.steps), schedule.ready
        now = self.threads(turns, len(steps))
        while len(steps) < end.steps and not self.alone(now, ready, end):
            show(f"step {len(steps)} of {end.steps}")
            # The thread that took the last step goes on, as a rule.
            on = len(steps) > len(schedule.steps) and steps[-1].thread in ready
            then = self.gone_on(turns, now, steps, ready, end.steps) if on else None
            if then is None:
                then = self.threads(turns, len(steps) + 1)
                # A branch to itself changes no register.
                moved = (changed(now, then) or [steps[-1].thread if steps else 0])[0]
                address = register(now[moved], b"pc")
                steps.append(Step(moved, address, ready, self.meets(address)))
            now = then
            if self.calls(steps[-1].address):
                ready = self.ready(steps, now)
        return steps

    def gone_on(self, turns, now, steps, ready, most):
        """The threads behind the steps that the listing says the last thread takes next, which are added; or None where
        it doesn't take them all."""
        thread = steps[-1].thread
        addresses = self.straight(register(now[thread], b"pc"), min(most - len(steps), TURN - 1))
        then = self.threads(turns, len(steps) + len(addresses))
        if changed(now, then) != [thread]:
            return None
        steps += [Step(thread, address, ready, self.meets(address)) for address in addresses]
        return then

    def straight(self, address, most):
        """The addresses from this one to the first instruction behind which the listing doesn't say what comes."""
        addresses = [address]
        while len(addresses) < most:
            name, _, rest = self.texts.get(addresses[-1], ".word").partition(" ")
            if name in OPEN or name.startswith(("b.", ".")):
                break
            addresses.append(int(rest, 16) if name in ("b", "bl") else addresses[-1] + 4)
        return addresses

    def alone(self, now, ready, end):
        """Whether all threads of a run have been started, and all but one have left: the program counter of one that
        has stands behind the call by which it did."""
        gone = [text for thread, text in enumerate(now) if thread not in ready and register(text, b"x8") == EXIT
                and self.calls(register(text, b"pc") - 4)]
        return len(now) == len(end.threads) and len(gone) + 1 >= len(now)


def register(text, name):
    return int(re.search(rb"^" + name + rb" ([0-9a-f]{16})$", text, flags=re.M)[1], 16)


def changed(before, after):
    return [thread for thread, text in enumerate(before) if after[thread] != text]


def as_turns(steps):
    """The turns that these steps are."""
    turns, last = [], None
    for step in steps:
        if step.thread != last:
            turns.append((step.ready.index(step.thread), 0))
        turns[-1] = (turns[-1][0], turns[-1][1] + 1)
        last = step.thread
    return turns


class Schedule(NamedTuple):
    """The steps that are chosen, who is ready behind them, the turns that these and the next one are, and the switches
    among them, as numbers of steps. Behind them all threads have their turns."""
    steps: list
    ready: tuple
    turns: list
    switches: tuple

    def whole(self, count):
        first = self.turns[-1][0] + 1 if self.turns else 0
        return self.turns + [((first + k) % 64, TURN) for k in range(count)]


def ends(run, schedule, usual):
    """A run under a schedule that doesn't begin again: a turn has at least one step."""
    for count in (usual, run.budget):
        turns = schedule.whole(min(count, run.budget))
        end = ended(run, turns)
        if end.steps <= len(turns):
            break
    return turns, end


def branches(schedule, steps):
    """The schedules that leave this one behind the step that was chosen last: where a thread could go on and its next
    step is one that others may meet, by a switch; where one waits or has left, by another that is ready, without."""
    for at in range(len(schedule.steps) + 1, len(steps)):
        before, step = steps[at - 1].thread, steps[at]
        switch = before in step.ready
        if len(step.ready) < 2 or switch and (step.thread != before or not step.meets):
            continue
        for other in step.ready:
            if other != step.thread:
                turns = as_turns(steps[:at]) + [(step.ready.index(other), TURN)]
                yield Schedule(steps[:at], step.ready, turns, schedule.switches + ((at,) if switch else ()))


class Bound:
    """All schedules with at most so many switches, those with fewer first."""

    def __init__(self, run, bound):
        self.run, self.bound = run, bound
        self.follower = Follower(run)
        self.progress = Progress()
        self.count = 0

    def search(self, say):
        """The run without a switch; and the first schedule that parts with its turns and how it ended, or None."""
        turns, first = ends(self.run, Schedule([], (0,), [], ()), 2 * TURN)
        if first.how == "spent":
            more = "; it starts no thread up to there" if first.is_alone() else ""
            raise Failure(f"without a switch the program doesn't end within {self.run.budget} steps (--budget takes more){more}")
        say(f"0 switches: 1 schedule, {first.how} after {first.steps} steps out {len(first.output)}")
        if first.is_alone():
            self.count = 1
            return first, None
        start = self.follower.first_start(turns, first)
        level = [Schedule([Step(0, 0, (0,), False)] * start, (0,), [], ())]
        for switches in range(self.bound + 1):
            if switches > 0:
                many = "" if len(first.threads) < 3 else " and more where one of several goes on"
                say(f"{amount(switches, 'switch', 'switches')}: {amount(len(level), 'schedule', 'schedules')}{many}")
            found, level = self.try_all(level, switches, first)
            if found is not None:
                return first, found
        return first, None

    def try_all(self, level, switches, first):
        """Runs the schedules with so many switches: the first that parts, or those with one more. All are run before
        one is followed, which takes a run for each of its steps."""
        further = []
        while level:
            runs = []
            for schedule in level:
                told = f"{len(runs) + 1:,} of {amount(len(level), 'schedule', 'schedules')}"
                self.progress.show(f"{told} with {amount(switches, 'switch', 'switches')}")
                runs.append((schedule, *ends(self.run, schedule, 2 * first.steps + 64)))
                self.count += 1
                if runs[-1][-1].parts(first):
                    self.progress.clear()
                    return runs[-1], further
            level = []
            for number, (schedule, turns, end) in enumerate(runs, 1):
                if len(end.threads) > 1 and (switches < self.bound or len(end.threads) > 2):
                    told = f"following {number:,} of {len(runs):,}, "
                    steps = self.follower.follow(schedule, turns, end, lambda step: self.progress.show(told + step))
                    for other in branches(schedule, steps):
                        (further if len(other.switches) > switches else level).append(other)
        self.progress.clear()
        return None, further

    def explained(self, schedule, turns, end):
        """The turns of a run from its beginning to its end, and the lines on its switches."""
        steps = self.follower.follow(schedule, turns, end, self.progress.show)
        self.progress.clear()
        taken = as_turns(steps)
        if len(steps) < end.steps:
            # One thread is left. Its last turn goes on, or it begins one.
            ready = self.follower.ready(steps, self.follower.threads(turns, len(steps)))
            goes_on = steps[-1].thread in ready
            place, begun = taken.pop() if goes_on else (0, 0)
            taken.append((place, begun + end.steps - len(steps)))
        return taken, [self.line(steps, at, turns) for at in schedule.switches]

    def line(self, steps, at, turns):
        before, after = steps[at - 1].thread, steps[at].thread
        address = register(self.follower.threads(turns, at)[before], b"pc")
        text = self.follower.texts.get(address, "")
        return f"switch after {at} steps: thread {before} at 0x{address:016x} {text}, thread {after} goes on"


def amount(count, one, more):
    return f"{count:,} {one if count == 1 else more}"
