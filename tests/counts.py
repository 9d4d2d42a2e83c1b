"""Compares the counts of `svemu-tool count` with the steps of a run, and with QEMU's.

usage: counts.py TOOL PROGRAM ..

Of each program, at 256 bits: the counts add up to the steps that the ending's line tells; at all lengths each column
adds up to those of its line. Where `qemu-aarch64` is installed, the counts of the addresses of its steps have to be the
same. Without it that part is skipped, and so it is where QEMU itself doesn't end as svemu does.
"""
import collections
import os
import re
import shutil
import subprocess
import sys

sys.dont_write_bytecode = True
from qemu_steps import in_qemu  # noqa: E402

BUDGET = '1000000000'
BITS = 256
ENDING = re.compile(r'^(?:vl (\d+) )?(exit (\d+)|trap .*|spent) after (\d+) steps$')


def counted(tool, program, length):
    """The counts by address, a list each, and the endings as (status or None, steps)."""
    answer = subprocess.run([tool, 'count', program, '--vl', length, '--budget', BUDGET], stdin=subprocess.DEVNULL,
                            capture_output=True, text=True, check=True)
    counts, endings = {}, []
    for line in answer.stdout.splitlines():
        ending = ENDING.match(line)
        if ending:
            endings.append((None if ending[3] is None else int(ending[3]), int(ending[4])))
        else:
            address, *numbers = line.split(' ')
            assert not endings and len(address) == 16, line
            counts[int(address, 16)] = [int(number) for number in numbers]
    assert list(counts) == sorted(counts), 'the addresses are in order'
    return counts, endings


def main():
    tool, *programs = sys.argv[1:]
    wrong, beside = 0, 0
    qemu = shutil.which('qemu-aarch64')
    for program in programs:
        name = os.path.basename(program)
        counts, endings = counted(tool, program, str(BITS))
        if len(endings) != 1 or sum(row[0] for row in counts.values()) != endings[0][1]:
            print(f'wrong: {name}: the counts at {BITS} bits add up to other steps than {endings}')
            wrong += 1
        every, ends = counted(tool, program, 'all')
        sums = [sum(column) for column in zip(*every.values())]
        if sums != [steps for _, steps in ends] or len(ends) != 16:
            print(f'wrong: {name}: the counts of the lengths add up to {sums}, and not to {ends}')
            wrong += 1
        column = {address: row[BITS // 128 - 1] for address, row in every.items() if row[BITS // 128 - 1]}
        if column != {address: row[0] for address, row in counts.items()}:
            print(f'wrong: {name}: the column of {BITS} bits differs from the counts at this length')
            wrong += 1
        if not qemu:
            continue
        steps, status = in_qemu(program, BITS)
        theirs = collections.Counter(steps)
        if status != endings[0][0]:
            print(f'skipped: {name}: QEMU ends by {status}, and svemu by {endings[0][0]}')
            continue
        beside += 1
        ours = {address: row[0] for address, row in counts.items()}
        parted = sorted(at for at in ours.keys() | theirs.keys() if ours.get(at, 0) != theirs.get(at, 0))
        for at in parted[:5]:
            print(f'wrong: {name}: {at:#x} {ours.get(at, 0)} times, and in QEMU {theirs.get(at, 0)}')
        wrong += bool(parted)
    if not qemu:
        print('skipped: counts beside QEMU: qemu-aarch64 is not there')
    print(f'{len(programs)} programs, {beside} of them beside QEMU, {wrong} wrong')
    return 1 if wrong else 0


if __name__ == '__main__':
    sys.exit(main())
