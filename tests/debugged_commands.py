"""Random commands of a debugger, chosen by what the present machine of a session has."""
from debugged_run import BITS, SIZES

# How a command may be written instead of by its whole name.
SHORT = {
    'break': ['b', 'br'], 'tbreak': ['tb'], 'watch': ['wa', 'wat'], 'rwatch': ['rw'], 'awatch': ['aw'],
    'delete': ['d', 'del'], 'disable': ['dis', 'disa'], 'enable': ['en'], 'ignore': ['ign'], 'run': ['r'],
    'start': ['sta'], 'continue': ['c', 'cont'], 'stepi': ['si'], 'nexti': ['ni'], 'step': ['s'], 'next': ['n'],
    'finish': ['fin'], 'until': ['u'], 'advance': ['adv'], 'reverse-stepi': ['rsi'], 'reverse-nexti': ['rni'],
    'reverse-continue': ['rc'], 'reverse-finish': ['rf'], 'goto': ['g'], 'last-write': ['lw', 'last'],
    'print': ['p'], 'disassemble': ['disas'], 'backtrace': ['bt'], 'lanes': ['la'], 'list': ['l'],
}
FORMATS = ['', '', '/x', '/d', '/u', '/t', '/c']
MOVES = [
    'stepi', 'stepi', 'nexti', 'continue', 'continue', 'finish', 'until', 'advance', 'reverse-stepi', 'reverse-nexti',
    'reverse-continue', 'reverse-continue', 'reverse-finish', 'goto', 'goto', 'last-write', 'last-write', 'run',
    'start', 'step', 'next',
]
POINTS = ['break', 'break', 'tbreak', 'watch', 'rwatch', 'awatch', 'delete', 'disable', 'enable', 'ignore']
SHOWN = [
    'print', 'print', 'print', 'x', 'x', 'info', 'info', 'lanes', 'lanes', 'backtrace', 'when', 'where', 'find',
    'disassemble', 'list', 'set',
]


class Chance:
    """What a session may ask next."""

    def __init__(self, chance, session):
        self.chance, self.session, self.run = chance, session, session.run

    def command(self):
        """A command by its whole name, and as it is written."""
        verb = self.chance.choice(self.chance.choices([MOVES, POINTS, SHOWN], [5, 3, 4])[0])
        words = getattr(self, 'of_' + verb.replace('-', '_'), lambda: [])()
        name, _, letters = verb.partition('/')
        if words and words[0].startswith('/'):
            letters = words.pop(0)
        told = self.chance.choice([name, *SHORT.get(name, [])])
        return ' '.join([name + letters, *words]), ' '.join([told + letters, *words])

    # ---- words

    def state(self):
        """A machine of the run."""
        return self.chance.randint(0, self.run.last)

    def known(self):
        """An address of the program: of an instruction that is executed, of an element, or of a symbol."""
        chance, run = self.chance, self.run
        kind = chance.randint(0, 2)
        made = run.accesses[self.state()]
        if kind == 0 and made:
            return chance.choice(made)[1]
        return run.registers[self.state()]['pc'] if kind == 1 else chance.choice(run.symbols)[0] + chance.randint(0, 20)

    def code(self):
        return self.run.registers[self.state()]['pc']

    def data(self):
        """The address of an element that the run loads or stores somewhere near a machine."""
        for k in sorted(range(1, self.run.last + 1), key=lambda k: self.chance.random()):
            if self.run.accesses[k]:
                return self.chance.choice(self.run.accesses[k])[1]
        return self.known()

    def below_start(self, address, count):
        """An address from which so many bytes don't reach what stands on the stack at the start: the model has no
        values of that."""
        start = self.run.registers[0]['sp']
        return min(address, start - count) if self.run.is_stack(address) else address

    def place(self, address):
        """An address as a person may write it."""
        chance, symbol = self.chance, self.run.symbol(address)
        names = [name for _, _, name in self.run.symbols]
        ways = [f'{address:#x}', f'*{address:#x}', str(address)]
        if symbol and names.count(symbol[2]) == 1:
            behind = address - symbol[0]
            ways += [f'{symbol[2]}+{behind}'] * 3 if behind else [symbol[2]] * 3
        for register in ('sp', 'pc', 'x1'):
            off = address - self.run.scalar(self.session.at, register)[0]
            if abs(off) < 4096:
                ways.append(f'{register}{off:+d}' if off else register)
        return chance.choice(ways)

    def scalar(self):
        general = f'x{self.chance.randint(0, 8)}'
        return self.chance.choice([general, 'x29', 'x30', 'sp', 'pc', 'nzcv', 'w3', 'vl', 'fp', 'lr', 'tpidr'])

    def lane(self):
        letter = self.chance.choice('bhsd')
        return f'z{self.chance.randint(0, 3)}.{letter}[{self.chance.randint(0, BITS // 8 // SIZES[letter])}]'

    def vector(self):
        name = self.chance.choice(['z0', 'z1', 'z2', 'p0', 'p1', 'ffr'])
        return name + self.chance.choice(['', '.b', '.h', '.s', '.d'])

    def condition(self):
        """Words of a condition that some machine meets."""
        left = self.chance.choice([self.scalar, self.scalar, self.lane])()
        near = self.session.operand(self.state(), left)
        compare = self.chance.choice(['==', '!=', '<', '<=', '>', '>='])
        right = self.chance.choice([str(near), f'{near:#x}', self.scalar()])
        words = [left, compare, right] if self.chance.random() < 0.8 else [right, compare, left]
        spaced = self.chance.choice(['{} {} {}', '{} {} {}', '{}{}{}', '{}{}{}', '{} {}{}', '{}{} {}'])
        return ['if', *spaced.format(*words).split()]

    def count(self):
        return [] if self.chance.random() < 0.5 else [str(self.chance.randint(1, 40))]

    def few(self):
        return [] if self.chance.random() < 0.6 else [str(self.chance.randint(1, 4))]

    def number(self):
        return str(self.chance.randint(1, self.session.next))

    # ---- the words of each command

    of_stepi = of_reverse_stepi = count
    of_nexti = of_reverse_nexti = of_continue = of_reverse_continue = of_step = of_next = few

    def of_until(self):
        return [self.place(self.code())]

    of_advance = of_until

    def of_goto(self):
        return [str(self.chance.randint(0, self.run.steps + 3))]

    def of_last_write(self):
        return [self.place(self.data()), self.chance.choice(['1', '4', '8', '40'])]

    def of_break(self):
        return [self.place(self.code()), *(self.condition() if self.chance.random() < 0.4 else [])]

    of_tbreak = of_break
    of_watch = of_rwatch = of_awatch = of_last_write

    def of_delete(self):
        return [] if self.chance.random() < 0.2 else [self.number()]

    of_disable = of_enable = of_delete

    def of_ignore(self):
        return [self.number(), str(self.chance.randint(0, 5))]

    def of_print(self):
        word = self.chance.choice([self.scalar, self.lane, self.vector, lambda: self.place(self.known())])()
        return [self.chance.choice(FORMATS), word]

    def of_x(self):
        count = self.chance.choice(['', '3', '10', '17'])
        notation = self.chance.choice(['', 'x', 'd', 'u', 't', 'c', 's', 'i'])
        unit = '' if notation in ('s', 'i') else self.chance.choice(['', 'b', 'h', 'w', 'g'])
        letters = count + notation + unit
        address = self.code() if notation == 'i' else self.chance.choice([self.data, self.known])()
        address = self.below_start(address, 8 * int(count or 1))
        if self.chance.random() < 0.1:
            address = max(self.run.pages) * 4096 + 4090
        return ['/' + letters if letters else '', self.place(address)]

    def of_info(self):
        kind = self.chance.choice(['breakpoints', 'breakpoints', 'registers', 'registers', 'symbol', 'line'])
        if kind == 'registers':
            return [kind, *(self.scalar() for _ in range(self.chance.choice([0, 0, 1, 1, 2, 5])))]
        if kind == 'breakpoints' or kind == 'line' and self.chance.random() < 0.4:
            return [kind]
        return [kind, self.place(self.known())]

    def of_lanes(self):
        names = [self.vector() for _ in range(self.chance.randint(1, 4))]
        return names + (['.' + self.chance.choice('bhsd')] if self.chance.random() < 0.5 else [])

    def of_find(self):
        start = self.below_start(self.data(), 400)
        unit = self.chance.choice(['', 'b', 'h', 'w', 'g'])
        size = {'': 4, 'b': 1, 'h': 2, 'w': 4, 'g': 8}[unit]
        values = [str(self.run.number(self.session.at, start + self.chance.randint(0, 40) // size * size, size))]
        if self.chance.random() < 0.3:
            values.append(str(self.chance.randint(0, 3)))
        length = self.chance.randint(1, 300)
        extent = f'+{length}' if self.chance.random() < 0.5 else self.place(start + length)
        if extent[0] != '+' and self.chance.random() < 0.1:
            extent = '0'
        letters = self.chance.choice(['', '', '2']) + unit
        return ['/' + letters if letters else '', self.place(start) + ',', extent + ',', *values]

    def of_disassemble(self):
        return [] if self.chance.random() < 0.4 else [self.place(self.code())]

    def of_list(self):
        return [] if self.chance.random() < 0.6 else [self.place(self.code())]

    def of_set(self):
        return ['slice', self.chance.choice(['1', '7', '50', '100', '100000000'])]
