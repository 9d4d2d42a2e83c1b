"""Compares the lines of `svemu-tool trace` with the counts of `svemu-tool count`, the registers of `svemu run`, and QEMU.

usage: traces.py SVEMU TOOL PROGRAM ..

Of each program, at 256 bits: each line is of the grammar in docs/MANUAL.md, and the numbers count from 0 up to the steps
of the ending; each address has as many lines as `count` counts; a word and its text are those of `svemu dis`; the changes
of the registers, made one after another, come to the registers that `run` prints; an element that was loaded has the
bytes that were last stored there, as far as lines tell of them. Options choose the lines that they say, by the symbols
of the program where it has some, and those that say nothing are refused. Where `qemu-aarch64` is installed, the addresses
of its steps have to be the same in their order. Without it that part is skipped, and so it is where QEMU itself doesn't
end as svemu does.
"""
import collections
import os
import re
import shutil
import subprocess
import sys

sys.dont_write_bytecode = True
sys.path.insert(0, os.path.join(os.path.dirname(os.path.dirname(os.path.abspath(__file__))), 'tools'))
from qemu_steps import in_qemu  # noqa: E402
from svemu_program import Image  # noqa: E402

BUDGET = '1000000000'
BITS = 256
HEAD = re.compile(r'^(\d+) ([0-9a-f]{16}) ([0-9a-f]{8}) ([^|]+)$')
REGISTER = re.compile(r'^(x\d+|sp|tpidr|nzcv|vl|z\d+|p\d+|ffr) ([0-9a-f]+)$')
ACCESS = re.compile(r'^(load|store) ([0-9a-f]{16}) (\d+) ((?:[0-9a-f]{2}|--)+)$')
ENDING = re.compile(r'^(exit (\d+)|trap .*|spent) after (\d+) steps$')
LEFT = re.compile(r'^step after (\d+) steps at 0x([0-9a-f]{16})$')

NUMBER = 'is no number of at most 2^64 - 1; --call and --steps count from 1'
REFUSALS = [
    (['--from', 'nowhere'], 'nowhere', 'is no symbol of the program, and no address as 0x400100'),
    (['--until', '400100'], '400100', 'is no symbol of the program, and no address as 0x400100'),
    (['--in', '0x400100'], '0x400100', 'is no symbol of the program'),
    (['--show', 'x,y'], 'x,y', 'has a name that is none of x, sp, nzcv, tpidr, vl, z, p, ffr, memory'),
    (['--show', ''], '', 'has a name that is none of x, sp, nzcv, tpidr, vl, z, p, ffr, memory'),
    (['--call', '2'], '2', 'counts arrivals at no place: --call needs --from'),
    (['--from', '0x0', '--call', '0'], '0', NUMBER),
    (['--steps', '0'], '0', NUMBER),
    (['--after', '18446744073709551616'], '18446744073709551616', NUMBER),
    (['--after', '1', '--after', '2'], '--after', 'is given twice'),
    (['--until'], '--until', 'is an option without a value'),
    (['--registers', 'x'], '--registers', 'is no option of trace: see svemu-tool --help'),
]

Step = collections.namedtuple('Step', 'number address word text registers accesses')


def output(*words):
    """The lines of a command's output."""
    answer = subprocess.run(words, stdin=subprocess.DEVNULL, capture_output=True, check=True)
    return answer.stdout.decode('ascii').splitlines()


def step(line):
    """The parts of a step's line."""
    head, *items = line.split(' | ')
    number, address, word, text = HEAD.match(head).groups()
    registers, accesses = {}, []
    for item in items:
        register = REGISTER.match(item)
        if register:
            assert not accesses and register[1] not in registers, line
            registers[register[1]] = register[2]
        else:
            kind, at, count, value = ACCESS.match(item).groups()
            assert len(value) == 2 * int(count), line
            accesses.append((kind, int(at, 16), bytes.fromhex(value)[::-1]))
    return Step(int(number), int(address, 16), word, text, registers, accesses)


def traced(tool, program, *options, budget=BUDGET):
    """The steps, and the last line."""
    lines = output(tool, 'trace', program, '--vl', str(BITS), '--budget', budget, *options)
    return [step(line) for line in lines[:-1]], lines[-1]


def final_registers(svemu, program):
    """The registers that `run` prints, without pc."""
    answer = subprocess.run([svemu, 'run', program, '--vl', str(BITS), '--budget', BUDGET], stdin=subprocess.DEVNULL,
                            capture_output=True)
    lines = answer.stderr.split(b'\nx0 ')[-1]
    registers = dict(line.split(' ') for line in ('x0 ' + lines.decode('ascii')).splitlines())
    return {name: value for name, value in registers.items() if name != 'pc'}


def replayed(steps, last):
    """The registers behind the steps, from zeros, by the changes; and how many elements were loaded with other bytes than
    those that were stored before."""
    registers = {name: '0' * len(value) for name, value in last.items()}
    registers['vl'] = str(BITS)
    memory, wrong = {}, 0
    for line in steps:
        registers.update(line.registers)
        if line.text.startswith('svc'):
            memory.clear()
        for kind, at, value in line.accesses:
            for place, byte in enumerate(value, at):
                if kind == 'load':
                    wrong += memory.get(place, byte) != byte
                else:
                    memory[place] = byte
    return registers, wrong


def refusals(tool, program):
    """The lines of options that are wrongly accepted, or refused with another status or line."""
    wrong = []
    for options, word, said in REFUSALS:
        answer = subprocess.run([tool, 'trace', program, '--vl', str(BITS), '--budget', BUDGET, *options],
                                stdin=subprocess.DEVNULL, capture_output=True)
        if (answer.returncode, answer.stdout, answer.stderr) != (121, b'', f'svemu: {word} {said}\n'.encode('ascii')):
            wrong.append(' '.join(options))
    return wrong


def by_symbols(tool, program, steps):
    """What is wrong with the steps in functions, and with those from the last call of each."""
    wrong = []
    for start, (name, size) in sorted(Image(program).functions.items()):
        within = [line for line in steps if start <= line.address < start + size]
        arrivals = [line.number for line in steps if line.address == start]
        if not arrivals:
            continue
        if traced(tool, program, '--in', name)[0] != within:
            wrong.append(f'--in {name}')
        chosen, _ = traced(tool, program, '--from', name, '--call', str(len(arrivals)), '--until', f'0x{start:x}')
        if chosen != steps[arrivals[-1]:]:
            wrong.append(f'--from {name}')
    return wrong


def alone(svemu, tool, program):
    """What is wrong with the lines of a program, and its addresses and status."""
    steps, closing = traced(tool, program)
    ending = ENDING.match(closing)
    counts = {int(line[:16], 16): int(line[17:]) for line in
              output(tool, 'count', program, '--vl', str(BITS), '--budget', BUDGET)[:-1]}
    words = {tuple(line.split(' ', 2)) for line in output(svemu, 'dis', program)}
    last = final_registers(svemu, program)
    registers, unstored = replayed(steps, last)
    # sp is set before the first step
    if 'sp' not in {name for line in steps for name in line.registers}:
        registers['sp'] = last['sp']
    tests = [
        ('the numbers', [line.number for line in steps] == list(range(int(ending[3])))),
        ('the counts', collections.Counter(line.address for line in steps) == counts),
        ('the texts', all((f'{line.address:016x}', line.word, line.text) in words for line in steps)),
        ('the registers', registers == last),
        ('the loads', unstored == 0),
    ]
    middle = len(steps) // 2
    at = steps[middle].address
    arrivals = [line.number for line in steps if line.address == at]
    chosen, closed = traced(tool, program, '--after', str(middle), '--steps', '3')
    tests.append(('--after and --steps', chosen == steps[middle:middle + 3]
                  and (middle + 3 >= len(steps) or LEFT.match(closed)[1] == str(middle + 3))))
    chosen, _ = traced(tool, program, '--from', f'0x{at:x}', '--call', str(len(arrivals)), '--steps', '2')
    tests.append(('--from and --call', chosen == steps[arrivals[-1]:arrivals[-1] + 2]))
    chosen, _ = traced(tool, program, '--until', f'0x{at:x}')
    first = next((number for number in arrivals if number > 0), len(steps))
    tests.append(('--until', chosen == steps[:first]))
    chosen, _ = traced(tool, program, '--show', 'x,memory', '--steps', '100')
    tests.append(('--show', chosen == [line._replace(registers={name: value for name, value in line.registers.items()
                                                               if name[0] == 'x'}) for line in steps[:100]]))
    chosen, closed = traced(tool, program, budget=str(middle))
    tests.append(('--budget', chosen == steps[:middle] and closed == f'spent after {middle} steps'))
    wrong = [name for name, holds in tests if not holds] + by_symbols(tool, program, steps)
    return wrong, [line.address for line in steps], None if ending[2] is None else int(ending[2])


def main():
    svemu, tool, *programs = sys.argv[1:]
    wrong, beside, total = 0, 0, 0
    qemu = shutil.which('qemu-aarch64')
    for options in refusals(tool, programs[0]):
        print(f'wrong: {options}: another refusal')
        wrong += 1
    for program in programs:
        name = os.path.basename(program)
        parts, ours, ended = alone(svemu, tool, program)
        total += len(ours)
        wrong += bool(parts)
        for part in parts:
            print(f'wrong: {name}: {part}')
        if not qemu:
            continue
        theirs, status = in_qemu(program, BITS)
        if status != ended:
            print(f'skipped: {name}: QEMU ends by {status}, and svemu by {ended}')
            continue
        beside += 1
        if ours != theirs:
            place = next((k for k, (a, b) in enumerate(zip(ours, theirs)) if a != b), min(len(ours), len(theirs)))
            print(f'wrong: {name}: step {place} stands elsewhere in QEMU, of {len(ours)} and {len(theirs)} steps')
            wrong += 1
    if not qemu:
        print('skipped: traces beside QEMU: qemu-aarch64 is not there')
    print(f'{len(programs)} programs, {total} steps, {beside} of them beside QEMU, {wrong} wrong')
    return 1 if wrong else 0


if __name__ == '__main__':
    sys.exit(main())
