"""The answers of a debugger's session over a run, worked out line by line: see debugged_run.py."""
import re

from debugged_run import BITS, MASK, SIZES, TRANSFER, UNITS, is_call, is_return

STORES = {'watch': (True,), 'rwatch': (False,), 'awatch': (True, False)}
COMPARES = {'==': int.__eq__, '!=': int.__ne__, '<': int.__lt__, '<=': int.__le__, '>': int.__gt__, '>=': int.__ge__}
MOST_SHOWN, MOST_TEXT, MOST_FRAMES, MOST_INSTRUCTIONS = 16, 4096, 63, 400
SCALARS = [f'x{k}' for k in range(31)] + ['sp', 'pc', 'nzcv']
NAMES = {'fp': 'x29', 'lr': 'x30'}
# Where a move ended, beside at a break or watch, or behind a write to so many bytes.
AIM, SLICE, END = 'aim', 'slice', 'end'


class Point:
    """A break or a watch."""

    def __init__(self, number, kind, address, condition=(), count=0):
        self.number, self.kind, self.address, self.condition, self.count = number, kind, address, condition, count
        self.enabled, self.ignored, self.hits = True, 0, 0

    def text(self, run):
        place = f'{self.number}: {self.kind} {run.place(self.address)}'
        if self.count:
            return f'{place} {self.count}'
        return f'{place} if {" ".join(map(operand_text, self.condition))}' if self.condition else place

    def listed(self, run):
        passes = f', passes {self.ignored}' if self.ignored else ''
        return f'{self.text(run)}, met {self.hits}{passes}{"" if self.enabled else ", disabled"}'


def operand_text(word):
    """A word of a condition as it is told: numbers are decimal."""
    return str(number_of(word)) if word[0].isdigit() else NAMES.get(word, word)


def shown(number, notation, bits):
    """A number of so many bits in a notation."""
    if notation == 'd':
        return str(number - (1 << bits) if number >> bits - 1 else number)
    if notation == 'u':
        return str(number)
    if notation == 't':
        return f'{number:0{bits}b}'
    if notation == 'c':
        return f"'{character(number % 256)}' {number}"
    return f'{number:#x}'


def noted(number, notation, bits):
    return shown(number, notation, bits) if notation else f'{number:#x} {number}'


def character(byte):
    return chr(byte) if 32 <= byte < 127 else '.'


def number_of(word):
    return int(word, 16 if word.startswith('0x') else 10)


def format_of(letters):
    """A count, a notation and how many bytes a value has."""
    figures = re.match(r'\d*', letters)[0]
    units = [UNITS[letter] for letter in letters if letter in UNITS]
    notations = [letter for letter in letters if letter in 'xdutcsi']
    return int(figures or 0), (notations or [None])[-1], (units or [None])[-1]


class Session:
    """A session from the run's start."""

    def __init__(self, run, slice_steps=100_000_000):
        self.run, self.at, self.slice = run, 0, slice_steps
        self.points, self.next, self.listing = [], 1, None
        self.out = self.where()

    # ---- what the present machine has

    @property
    def pc(self):
        return self.run.registers[self.at]['pc']

    def sp(self, k):
        return self.run.registers[k]['sp']

    def counted(self):
        return self.run.counted(self.at)

    def address(self, word):
        """The address of a place."""
        word = word.removeprefix('*')
        if ':' in word:
            file, line = word.split(':')
            return next(at for at, place in self.run.rows
                        if place and place[1] == int(line) and f'/{place[0]}'.endswith(f'/{file}'))
        name, sign, offset = re.match(r'^([^+-]*)([+-]?)(.*)$', word).groups()
        plus = number_of(offset) * (-1 if sign == '-' else 1) if sign else 0
        return (self.base(name) + plus) & MASK

    def base(self, name):
        if re.match(r'^\$?([xw]\d+|sp|pc|fp|lr|[xw]zr|nzcv|tpidr|vl)$', name):
            return self.run.scalar(self.at, name.removeprefix('$'))[0]
        for address, _, text in self.run.symbols:
            if text == name:
                return address
        return number_of(name)

    def operand(self, k, word):
        """The value at machine k of what a condition compares."""
        lane = re.match(r'^(z\d+)\.([bhsd])\[(\d+)\]$', word)
        if lane:
            return self.run.lane(k, lane[1], SIZES[lane[2]], int(lane[3]))
        return number_of(word) if word[0].isdigit() else self.run.scalar(k, word)[0]

    def function(self):
        """The addresses of the present function."""
        symbol = self.run.symbol(self.pc)
        return (symbol[0], symbol[0] + symbol[1]) if symbol and symbol[1] else (self.pc, self.pc + 4)

    # ---- which machines a move stops at

    def touched(self, k, kinds, address, count):
        """Whether the step to machine k made an access of some kinds to so many bytes."""
        return any(write in kinds and at < address + count and address < at + size
                   for write, at, size in self.run.accesses[k])

    def meets(self, k, point):
        if not point.enabled:
            return False
        if point.count:
            return self.touched(k, STORES[point.kind], point.address, point.count)
        left, compare, right = point.condition or ('0', '==', '0')
        holds = COMPARES[compare](self.operand(k, left), self.operand(k, right))
        return self.run.registers[k]['pc'] == point.address and holds

    def is_goal(self, k, aim):
        """Whether a break or watch is met at machine k, or an aim: a test of the machine and the one before it."""
        return not self.run.ended(k) and (any(self.meets(k, point) for point in self.points) or aim(k))

    def forward(self, aim, until):
        while not self.run.ended(self.at) and self.counted() < until and self.at < self.run.last:
            self.at += 1
            if self.is_goal(self.at, aim):
                return True
        return False

    def backward(self, aim, least):
        for k in range(self.at - 1, least - 1, -1):
            if self.is_goal(k, aim):
                self.at = k
                return True
        self.at = least
        return False

    def go(self, target):
        """Goes to where so many steps are counted."""
        target = min(target, self.run.budget)
        if target <= self.counted():
            # behind a trap stands the machine that has counted as many steps
            self.at = target
        else:
            self.at = min(target, self.run.last)

    def limit(self):
        return min(self.counted() + self.slice, self.run.budget)

    def unmet(self):
        spent = self.counted() >= self.run.budget
        return END if self.run.ended(self.at) or spent or self.at == 0 else SLICE

    def stop(self):
        """The break or watch that the present machine meets; None where it passes."""
        for point in self.points:
            if self.meets(self.at, point):
                point.hits += 1
                if point.ignored:
                    point.ignored -= 1
                    return None
                if point.kind == 'tbreak':
                    self.points.remove(point)
                return point
        return AIM

    def seek(self, aim=None):
        limit = self.limit()
        if aim is None and not self.points:
            if limit > self.counted():
                self.at = min(limit, self.run.last)
            return self.unmet()
        while self.forward(aim or (lambda k: False), limit):
            reached = self.stop()
            if reached:
                return reached
        return self.unmet()

    def seek_back(self, aim=None):
        least = max(0, self.counted() - self.slice)
        while self.at > least:
            if not self.backward(aim or (lambda k: False), min(least, self.counted())):
                break
            reached = self.stop()
            if reached:
                return reached
        return self.unmet()

    # ---- aims

    def is_above(self, address, sp):
        return lambda k: self.run.registers[k]['pc'] == address and sp <= self.sp(k)

    def is_outside(self, k, sp, start, behind):
        inside = start <= self.run.registers[k]['pc'] < behind
        return sp <= self.sp(k) and (sp < self.sp(k) or not inside)

    def word_behind(self, k):
        """The word of the step that led to machine k."""
        return self.run.word(k, self.run.registers[max(0, k - 1)]['pc'])

    def word_at(self, k):
        return self.run.word(k, self.run.registers[k]['pc'])

    # ---- moves

    def once(self, way):
        if way == 'continue':
            return self.seek()
        if way == 'reverse-continue':
            return self.seek_back()
        if way in ('step', 'next'):
            return self.step_line(way == 'step')
        sp, pc = self.sp(self.at), self.pc
        if way == 'nexti':
            if is_call(self.word_at(self.at)):
                return self.seek(self.is_above(pc + 4, sp))
            self.go(self.counted() + 1)
            return AIM
        self.go(max(0, self.at - 1))
        return self.seek_back(self.is_above(pc - 4, sp)) if is_return(self.word_at(self.at)) else AIM

    def moved(self, way, count):
        """Goes on or back so often."""
        if way == 'stepi':
            self.go(self.counted() + count)
            return AIM
        if way == 'reverse-stepi':
            self.go(max(0, self.at - count))
            return AIM
        reached = AIM
        for _ in range(count):
            reached = self.once(way)
            stopped = isinstance(reached, Point) and way.endswith('continue')
            if reached != AIM and not stopped:
                break
        return reached

    def step_line(self, into):
        """Goes on to another line."""
        start, limit = self.run.line(self.pc), self.limit()
        for _ in range(self.slice):
            if self.run.ended(self.at) or self.counted() >= limit:
                break
            pc = self.pc
            call = is_call(self.word_at(self.at))
            reached = self.pass_row(into, call)
            entered = into and call and self.pc != pc + 4
            line = self.run.line(self.pc)
            if reached != AIM or entered or line not in (None, start):
                return reached
        return self.unmet()

    def pass_row(self, into, call):
        pc, sp = self.pc, self.sp(self.at)
        if call and into:
            reached = self.seek(lambda k: self.run.registers[k]['pc'] != pc)
            if self.pc == pc + 4 or self.run.line(self.pc) or reached != AIM:
                return reached
        if call:
            return self.seek(self.is_above(pc + 4, sp))
        start, behind = self.run.row(pc) if self.run.line(pc) else self.function()
        return self.seek(lambda k: not start <= self.run.registers[k]['pc'] < behind or is_call(self.word_at(k)))

    # ---- what is shown

    def where(self):
        run, pc = self.run, self.pc
        ending = [run.ending] if run.ended(self.at) else []
        return [*ending, f'step {self.counted()}  {run.place(pc)}  {run.text(self.at, pc)}', *run.source(pc)]

    def put_stop(self, reached):
        """Where a move ended, and what the last step changed."""
        asked = None
        if isinstance(reached, Point):
            self.out.append(reached.text(self.run))
            asked = (reached.address, reached.count) if reached.count else None
        elif isinstance(reached, tuple):
            asked = reached
        elif reached == SLICE:
            self.out.append('stopped by itself: an empty line goes on')
        elif reached == END and not self.run.ended(self.at):
            self.out.append('the start' if self.at == 0 else 'the budget is spent')
        self.out += self.where()
        if self.at and not self.run.ended(self.at):
            self.out += self.changes(asked)

    def changes(self, asked):
        old, new = (self.run.registers[k] for k in (self.at - 1, self.at))
        for name in [f'x{k}' for k in range(31)] + ['sp']:
            if old[name] != new[name]:
                yield f'  {name} = {new[name]:#x} (was {old[name]:#x})'
        if old['nzcv'] != new['nzcv']:
            flags = [letter for k, letter in enumerate('NZCV') if new['nzcv'] >> 3 - k & 1]
            yield ' '.join(['  nzcv =', *flags])
        for name in [f'z{k}' for k in range(32)] + [f'p{k}' for k in range(16)]:
            if old[name] != new[name]:
                count = BITS // 64 if name[0] == 'z' else (BITS + 511) // 512
                words = [f'{new[name] >> 64 * k & MASK:#x}' for k in reversed(range(count))]
                yield ' '.join([f'  {name} =', *words])
        if old['ffr'] != new['ffr']:
            yield '  ffr changed'
        yield from self.transfers(asked)

    def transfers(self, asked):
        """What the last step loaded and stored."""
        run, made = self.run, self.run.accesses[self.at]
        if not made:
            return
        pc = run.registers[self.at - 1]['pc']
        text = run.text(self.at, pc)
        yield f'  by {run.place(pc)}  {text}'
        transfer, told = TRANSFER.match(text), 0
        for k, (write, address, count) in enumerate(made):
            outside = asked and not (address < asked[0] + asked[1] and asked[0] < address + count)
            if outside or told == MOST_SHOWN:
                continue
            told += 1
            which = ''
            if transfer:
                which = f'  {self.active(transfer, k)}'
            elif len(made) > 1:
                which = f'  element {k} of {len(made)}'
            value, was = (run.number(at, address, min(count, 8)) for at in (self.at, self.at - 1))
            kind, behind = ('stored', f', was {was:#x}') if write else ('loaded', '')
            yield f'{which}  {kind} {address:#x} {count}: {value:#x}{behind}'
        if not asked and len(made) > told:
            yield f'  and {len(made) - told} elements more'

    def active(self, transfer, k):
        """The k-th active lane of a transfer."""
        size, at = SIZES[transfer[2]], self.at - 1
        lanes = [i for i in range(BITS // 8 // size) if self.run.flag(at, f'p{transfer[3]}', size, i)]
        return f'z{transfer[1]}.{transfer[2]}[{lanes[k]}]' if k < len(lanes) else 'a lane'

    def thing(self, word, notation):
        """A register or lane by its name."""
        word = word.removeprefix('$')
        lane = re.match(r'^(z\d+)\.([bhsd])\[(\d+)\]$', word)
        if lane:
            size = SIZES[lane[2]]
            return f'{word} = {noted(self.run.lane(self.at, lane[1], size, int(lane[3])), notation, 8 * size)}'
        vector = re.match(r'^(z\d+|p\d+|ffr)(?:\.([bhsd]))?$', word)
        if vector:
            size, name = SIZES[vector[2] or 'b'], vector[1]
            lanes = range(BITS // 8 // size)
            if name[0] == 'z':
                values = [shown(self.run.lane(self.at, name, size, i), notation or 'u', 8 * size) for i in lanes]
            else:
                values = [str(self.run.flag(self.at, name, size, i)) for i in lanes]
            return ' '.join([f'{name}.{vector[2] or "b"} =', *values])
        value, bits = self.run.scalar(self.at, word)
        return f'{NAMES.get(word, word)} = {noted(value, notation, bits)}'

    def examine(self, letters, address):
        """Memory from an address on."""
        count, notation, unit = format_of(letters)
        count, notation = max(1, count), notation or 'x'
        if notation == 's':
            return self.texts(count, address)
        if notation == 'i':
            return [self.instruction(address + 4 * k) for k in range(count)]
        unit = unit or (1 if notation == 'c' else 4)
        a_line, lines = min(16 // unit, 8), []
        for k in range(count):
            at = (address + k * unit) & MASK
            if k % a_line == 0:
                lines.append(f'{self.run.place(at)}:')
            value = shown(self.run.number(self.at, at, unit), notation, 8 * unit)
            lines[-1] += f' {value if self.run.is_mapped(at) else "--"}'
        return lines

    def texts(self, count, address):
        lines = []
        for _ in range(count):
            text, at = '', address
            while len(text) < MOST_TEXT and self.run.byte(self.at, at):
                text += character(self.run.byte(self.at, at))
                at += 1
            lines.append(f'{self.run.place(address)}: "{text}"')
            address = at + 1
        return lines

    def instruction(self, address):
        mark = '=> ' if address == self.pc else '   '
        return f'{mark}{self.run.place(address)}  {self.run.text(self.at, address)}'

    def disassembly(self, address):
        symbol = self.run.symbol(address)
        if symbol is None or symbol[1] < 4:
            return [self.instruction(address + 4 * k) for k in range(10)]
        return [self.instruction(symbol[0] + 4 * k) for k in range(min(symbol[1] // 4, MOST_INSTRUCTIONS))]

    def backtrace(self):
        run = self.run
        frame, link = run.registers[self.at]['x29'], run.registers[self.at]['x30']
        lines = [f'#0  {run.place(self.pc)}']
        if link and link != run.number(self.at, (frame + 8) & MASK, 8):
            lines.append(f'x30 {run.place(link)}')
        before = 0
        while frame and frame % 8 == 0 and run.is_mapped(frame) and run.is_mapped(frame + 15) and before < frame:
            lines.append(f'#{len([line for line in lines if line[0] == "#"])}  '
                         + run.place(run.number(self.at, frame + 8, 8)))
            before, frame = frame, run.number(self.at, frame, 8)
        if frame % 8:
            lines.append(f'the chain breaks: no frame record stands at {frame:#x}')
        elif frame and not (run.is_mapped(frame) and run.is_mapped(frame + 15)):
            lines.append(f'the chain breaks: nothing is mapped at {frame:#x}')
        elif frame:
            lines.append(f'the chain breaks: it goes down to {frame:#x}')
        return lines

    def lanes(self, names):
        """Lanes beside each other."""
        size = names.pop()[1:] if names[-1].startswith('.') else None
        for name in names:
            size = size or (name.split('.')[1] if '.' in name else None)
        letter = size or 'b'
        size = SIZES[letter]
        names = [name.split('.')[0] for name in names]
        before = self.at if self.at == 0 or self.run.ended(self.at) else self.at - 1
        lines = ['  '.join(['lane', *(f'{name}.{letter}' for name in names)])]
        for i in range(BITS // 8 // size):
            flags = [self.run.flag(self.at, name, size, i) for name in names if name[0] != 'z']
            line = f'{">" if all(flags) else " "}{i:3}'
            for name in names:
                old, new = ((self.run.lane if name[0] == 'z' else self.run.flag)(k, name, size, i)
                            for k in (before, self.at))
                line += f'  {f"{new:0{2 * size}x}" if name[0] == "z" else new}{" " if old == new else "*"}'
            lines.append(line)
        return lines

    def found(self, letters, words):
        """Where values stand."""
        most, _, unit = format_of(letters)
        start = self.address(words[0])
        length = number_of(words[1][1:]) if words[1][0] == '+' else self.address(words[1]) - start + 1
        if not 0 <= length <= 67_108_864:
            return ['the end stands before the start, or more than 67,108,864 bytes behind it']
        sought = b''
        for word in words[2:]:
            sought += word.strip('"').encode() if word[0] == '"' else \
                (self.address(word) & (1 << 8 * (unit or 4)) - 1).to_bytes(unit or 4, 'little')
        lines = []
        for at in range(start, start + length + 1 - len(sought)):
            stands = all(self.run.is_mapped(at + i) and self.run.byte(self.at, at + i) == byte
                         for i, byte in enumerate(sought))
            if stands and len(lines) < (most or 100):
                lines.append(self.run.place(at))
        if not lines:
            return ['pattern not found']
        return [*lines, f'{len(lines)} pattern{"" if len(lines) == 1 else "s"} found']

    def list_lines(self, words):
        """Ten lines of the source."""
        run = self.run
        if words or self.listing is None:
            place = run.line(self.address(words[0]) if words else self.pc)
            if place is None:
                return ['no line of the source is known there']
            first = (place[0], max(1, place[1] - 5))
        else:
            first = self.listing
        here, lines = run.line(self.pc), run.sources[first[0]]
        numbers = range(first[1], min(first[1] + 10, len(lines) + 1))
        if not numbers:
            return [f'nothing is there from {first[0]}:{first[1]} on']
        self.listing = (first[0], first[1] + 10)
        return [('=> ' if here == (first[0], k) else '   ') + f'{k}' + (f'  {lines[k - 1]}' if lines[k - 1] else '')
                for k in numbers]

    def info(self, name, words):
        run = self.run
        if name == 'breakpoints':
            return [point.listed(run) for point in self.points] or ['no breaks and no watches']
        if name == 'registers' and words:
            return [self.thing(word, None) for word in words]
        if name == 'registers':
            return [self.printed(register) for register in SCALARS + ['tpidr', 'vl']]
        address = self.address(words[0]) if words else self.pc
        if name == 'symbol':
            return [run.place(address)]
        place = run.line(address)
        if place is None:
            return [f'{run.place(address)} is of no line that is known']
        return [f'{run.place(address)} is of {place[0]}:{place[1]}, whose code goes on up to '
                + run.place(run.row(address)[1])]

    def printed(self, register):
        """A register as `svemu run` prints it."""
        value = self.run.registers[self.at][register]
        if register == 'nzcv':
            return f'nzcv {value:04b}'
        return f'vl {value}' if register == 'vl' else f'{register} {value:016x}'

    # ---- commands

    def obey(self, line):
        """Obeys a line whose first word is the whole name of a command."""
        words = line.replace(',', '').split()
        verb, _, letters = words[0].partition('/')
        getattr(self, 'do_' + verb.replace('-', '_'))(words[1:], letters)

    def add(self, point):
        self.points.append(point)
        self.next += 1
        self.out.append(f'number {point.number} at {self.run.place(point.address)}')

    def do_break(self, words, _, kind='break'):
        condition = re.split('([<>=!]+)', ''.join(words[2:])) if words[2:] else ()
        self.add(Point(self.next, kind, self.address(words[0]), condition))

    def do_tbreak(self, words, _):
        self.do_break(words, _, 'tbreak')

    def do_watch(self, words, _, kind='watch'):
        self.add(Point(self.next, kind, self.address(words[0]), (), number_of(words[1])))

    def do_rwatch(self, words, _):
        self.do_watch(words, _, 'rwatch')

    def do_awatch(self, words, _):
        self.do_watch(words, _, 'awatch')

    def chosen(self, words):
        """The breaks and watches that a command is for."""
        some = [point for point in self.points if not words or point.number == number_of(words[0])]
        if words and not some:
            self.out.append('no break or watch has that number')
        return some

    def do_delete(self, words, _):
        for point in self.chosen(words):
            self.points.remove(point)

    def do_disable(self, words, _):
        for point in self.chosen(words):
            point.enabled = False

    def do_enable(self, words, _):
        for point in self.chosen(words):
            point.enabled = True

    def do_ignore(self, words, _):
        for point in self.chosen(words[:1]):
            point.ignored = number_of(words[1])

    def do_set(self, words, _):
        self.slice = number_of(words[1])

    def move(self, reached):
        self.listing = None
        self.put_stop(reached)

    def by_count(self, way, words):
        if way in ('step', 'next') and not self.run.rows:
            self.out.append('no lines of the source are known: svemu-debug gives them, or --lines FILE')
        else:
            self.move(self.moved(way, number_of(words[0]) if words else 1))

    def do_run(self, _, __):
        self.go(0)
        self.move(self.seek())

    def do_start(self, _, __):
        self.go(0)
        self.move(AIM)

    def do_goto(self, words, _):
        self.go(number_of(words[0]))
        self.move(AIM)

    def do_finish(self, _, __):
        sp, function = self.sp(self.at), self.function()
        self.move(self.seek(lambda k: is_return(self.word_behind(k)) and self.is_outside(k, sp, *function)))

    def do_reverse_finish(self, _, __):
        sp, function = self.sp(self.at), self.function()
        self.move(self.seek_back(lambda k: is_call(self.word_at(k)) and self.is_outside(k, sp, *function)))

    def do_until(self, words, _):
        address = self.address(words[0])
        self.move(self.seek(lambda k: self.run.registers[k]['pc'] == address))

    do_advance = do_until

    def do_last_write(self, words, _):
        address, count, here, points = self.address(words[0]), number_of(words[1]), self.at, self.points
        self.points = []
        found = self.backward(lambda k: self.touched(k, (True,), address, count), 0)
        self.points = points
        self.listing = None
        if found:
            self.put_stop((address, count))
        else:
            self.at = here
            self.out.append(f'no step before this one wrote to {address:#x}')

    def do_print(self, words, letters):
        notation, word = format_of(letters)[1], words[0]
        if re.match(r'^\$?([xwzp]\d+|sp|pc|fp|lr|[xw]zr|nzcv|tpidr|vl|ffr)(\.[bhsd](\[\d+\])?)?$', word):
            self.out.append(self.thing(word, notation))
        else:
            address = self.address(word)
            self.out.append(shown(address, notation, 64) if notation else self.run.place(address))

    def do_x(self, words, letters):
        self.out += self.examine(letters, self.address(words[0]))

    def do_find(self, words, letters):
        self.out += self.found(letters, words)

    def do_disassemble(self, words, _):
        self.out += self.disassembly(self.address(words[0]) if words else self.pc)

    def do_backtrace(self, _, __):
        self.out += self.backtrace()

    def do_where(self, _, __):
        self.out += self.where()

    def do_when(self, _, __):
        self.out.append(f'step {self.counted()}')

    def do_lanes(self, words, _):
        self.listing = None
        self.out += self.lanes(words)

    def do_list(self, words, _):
        self.out += self.list_lines(words)

    def do_info(self, words, _):
        self.out += self.info(words[0], words[1:])


def counted(way):
    """The command of a move that goes so often."""
    return lambda session, words, _: session.by_count(way, words)


for move in ('continue', 'stepi', 'nexti', 'step', 'next', 'reverse-stepi', 'reverse-nexti', 'reverse-continue'):
    setattr(Session, 'do_' + move.replace('-', '_'), counted(move))
