"""A run of a program, and the answers of a debugger over it, worked out from `svemu-tool trace`, `svemu dis` and the
registers that `svemu run` prints: none of this comes from `svemu-tool debug`.

A machine of the run has a number: that of the steps before it, and one more where a trap ended it, which counts no
step.
"""
import bisect
import os
import re
import struct
import subprocess

BITS = 256
MASK = (1 << 64) - 1
PAGE = 4096
SIZES = {'b': 1, 'h': 2, 's': 4, 'd': 8}
UNITS = {'b': 1, 'h': 2, 'w': 4, 'g': 8}
ENDING = re.compile(r'^(exit|trap|spent)\b.* after (\d+) steps$')
TRANSFER = re.compile(r'^(?:st1|stnt1|ld1(?!r)|ldff1|ldnf1|ldnt1)\w* \{z(\d+)\.([bhsd])\}, p(\d+)[,/]')


def lines_of(*words):
    """The lines that a command writes."""
    answer = subprocess.run(words, stdin=subprocess.DEVNULL, capture_output=True, check=True, timeout=120)
    return answer.stdout.decode().splitlines()


def is_call(word):
    return word >> 26 == 0b100101 or word & 0xFFFFFC1F == 0xD63F0000


def is_return(word):
    return word & 0xFFFFFC1F == 0xD65F0000


def symbols_of(file):
    """The symbols of an ELF file's first symbol table that a debugger names: of functions, objects and labels, in the
    order of their addresses and sizes."""
    offset, = struct.unpack_from('<Q', file, 40)
    count, = struct.unpack_from('<H', file, 60)
    sections = [struct.unpack_from('<IIQQQQIIQQ', file, offset + 64 * k) for k in range(count)]
    table = next(section for section in sections if section[1] == 2)
    names = sections[table[6]]
    found = []
    for at in range(table[4], table[4] + table[5], 24):
        name, info, _, section, address, size = struct.unpack_from('<IBBHQQ', file, at)
        start = names[4] + name
        text = file[start:file.index(b'\0', start)].decode()
        mapping = info % 16 == 0 and re.match(r'^\$[xd](\.|$)', text)
        if info % 16 in (0, 1, 2) and 0 < section < 0xFF00 and text and not mapping:
            found.append((address, size, text))
    return sorted(found, key=lambda symbol: symbol[:2])


def memory_of(file):
    """The bytes of an ELF file's segments by their addresses, and the pages that they are in."""
    start, = struct.unpack_from('<Q', file, 32)
    count, = struct.unpack_from('<H', file, 56)
    memory, pages = {}, set()
    for k in range(count):
        kind, _, offset, address, _, size, whole, _ = struct.unpack_from('<IIQQQQQQ', file, start + 56 * k)
        if kind == 1 and whole:
            memory.update(enumerate(file[offset:offset + size], address))
            pages.update(range(address // PAGE, (address + whole - 1) // PAGE + 1))
    return memory, pages


def table_of(path):
    """The rows of a table of lines: addresses, and files with numbers of lines."""
    with open(path, encoding='utf-8') as file:
        words = [line.split() for line in file]
    return [(int(row[0], 16), None if row[1] == '-' else (row[1], int(row[2]))) for row in words]


class Run:
    """The machines of a run of at most so many steps."""

    def __init__(self, svemu, tool, program, budget):
        self.program, self.budget = program, budget
        with open(program, 'rb') as file:
            image = file.read()
        self.symbols, (self.memory, self.pages) = symbols_of(image), memory_of(image)
        self.texts = {}
        for line in lines_of(svemu, 'dis', program):
            address, _, text = line.split(' ', 2)
            self.texts[int(address, 16)] = text
        table = program.replace('.elf', '.lines')
        self.rows = table_of(table) if os.path.exists(table) else []
        self.sources = {}
        for name in {place[0] for _, place in self.rows if place}:
            with open(os.path.join(os.path.dirname(program), '../..', name), encoding='utf-8') as file:
                self.sources[name] = file.read().splitlines()
        options = ['--vl', str(BITS), '--budget']
        self.registers = [self.printed(svemu, *options, '0')]
        *steps, self.ending = lines_of(tool, 'trace', program, *options, str(budget))
        self.accesses, self.stored = [[]], {}
        for line in steps:
            self.take(line)
        kind, count = ENDING.match(self.ending).groups()
        self.steps, self.ends = int(count), kind != 'spent'
        assert self.steps == len(steps)
        self.set_places(steps, self.printed(svemu, *options, str(budget)))
        if kind == 'trap':
            self.registers.append(self.registers[-1])
            self.accesses.append([])
        self.last = len(self.registers) - 1

    def printed(self, svemu, *options):
        """The registers that a run prints behind its ending."""
        answer = subprocess.run([svemu, 'run', self.program, *options], stdin=subprocess.DEVNULL, capture_output=True,
                                timeout=120)
        found = {}
        for line in answer.stderr.decode().splitlines():
            name, _, value = line.partition(' ')
            if re.match(r'^([xzp]\d+|sp|pc|nzcv|tpidr|vl|ffr)$', name):
                found[name] = self.value(name, value)
        return found

    @staticmethod
    def value(name, text):
        """A register's number by its digits."""
        return int(text, {'nzcv': 2, 'vl': 10}.get(name, 16))

    def take(self, line):
        """Takes a step."""
        _, *items = line.split(' | ')
        registers, made = dict(self.registers[-1]), []
        for item in items:
            name, *words = item.split(' ')
            if name in ('load', 'store'):
                address, count = int(words[0], 16), int(words[1])
                made.append((name == 'store', address, count))
                if name == 'store':
                    for place, byte in enumerate(bytes.fromhex(words[2])[::-1], address):
                        self.stored.setdefault(place, []).append((len(self.registers), byte))
            else:
                registers[name] = self.value(name, words[0])
        self.registers.append(registers)
        self.accesses.append(made)

    def set_places(self, steps, final):
        """Sets where each machine stands."""
        for k, line in enumerate(steps):
            self.registers[k]['pc'] = int(line.split(' ')[1], 16)
        self.registers[self.steps]['pc'] = final['pc']

    def counted(self, k):
        """How many steps are counted at machine k."""
        return min(k, self.steps)

    def ended(self, k):
        """Whether the program has ended at machine k."""
        return self.ends and k == self.last

    def is_mapped(self, address):
        """Whether an address is mapped: of the stack it is known of what stands below its start."""
        return address // PAGE in self.pages or self.is_stack(address)

    def is_stack(self, address):
        return self.registers[0]['sp'] - 2 * PAGE <= address < self.registers[0]['sp']

    def byte(self, k, address):
        """The byte at an address at machine k, 0 where none is mapped."""
        history = self.stored.get(address, [])
        place = bisect.bisect_right(history, (k, 256))
        return history[place - 1][1] if place else self.memory.get(address, 0)

    def number(self, k, address, count):
        """The number of so many bytes from an address on."""
        return sum(self.byte(k, (address + i) & MASK) << 8 * i for i in range(count))

    def word(self, k, address):
        return self.number(k, address, 4)

    def text(self, k, address):
        """The text of the instruction at an address."""
        return self.texts.get(address) or f'.word 0x{self.word(k, address):08x}'

    def scalar(self, k, name):
        """The value of a scalar register, and how many bits it has."""
        registers = self.registers[k]
        if name in ('xzr', 'wzr'):
            return 0, 64 if name[0] == 'x' else 32
        if name[0] == 'w':
            return registers['x' + name[1:]] & 0xFFFFFFFF, 32
        name = {'fp': 'x29', 'lr': 'x30'}.get(name, name)
        return registers[name], 4 if name == 'nzcv' else 64

    def lane(self, k, register, size, index):
        """Lane `index` of a Z register, of `size` bytes; 0 behind the last."""
        bits = 8 * size
        return self.registers[k][register] >> bits * index & (1 << bits) - 1 if index < BITS // bits else 0

    def flag(self, k, register, size, index):
        """Whether a lane of a predicate is active."""
        return self.registers[k][register] >> size * index & 1

    # ---- places and lines

    def symbol(self, address):
        """The last symbol that reaches an address."""
        found = None
        for symbol in self.symbols:
            if symbol[0] <= address and (symbol[1] == 0 or address < symbol[0] + symbol[1]):
                found = symbol
        return found

    def place(self, address):
        """An address, and its place by the symbol that reaches it: one without a size up to 64 KiB."""
        symbol = self.symbol(address)
        if symbol is None or symbol[1] == 0 and address - symbol[0] >= 65_536:
            return f'{address:#x}'
        behind = address - symbol[0]
        return f'{address:#x} <{symbol[2]}{f"+{behind}" if behind else ""}>'

    def line(self, address):
        """The line of the source of an address."""
        found = None
        for at, place in self.rows:
            if at <= address:
                found = place
        return found

    def row(self, address):
        """The addresses of the row of one."""
        at = [row[0] for row in self.rows if row[0] <= address]
        behind = [row[0] for row in self.rows if address < row[0]]
        return (at[-1] if at else address), (behind[0] if behind else MASK)

    def source(self, address):
        """The line of the source as text behind a stop."""
        place = self.line(address)
        if place is None:
            return []
        text = self.sources[place[0]][place[1] - 1] if place[1] <= len(self.sources[place[0]]) else ''
        return [f'  {place[0]}:{place[1]}' + (f'  {text}' if text else '')]
