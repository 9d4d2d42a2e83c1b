#!/usr/bin/env python3
"""Ten million steps beside QEMU: the programs of docs/measured by `svemu run` and by qemu-aarch64 at the same vector
lengths, in turn, and the least seconds of processor time of each.

It prints a table and fails nothing: seconds rest on the machine and on what else runs there. A line begins with `*`
where svemu took more than it is meant to: of QEMU's whole blocks at 512 and 2048 bits, of `-singlestep` at 128."""
import argparse
import os
import resource
import shutil
import subprocess
import sys
import tempfile

HERE = os.path.dirname(os.path.abspath(__file__))
VECTORS = ['bytes', 'words', 'doublewords', 'vectors', 'memcpy', 'strlen']
SCALARS = ['integers', 'crc', 'heap_sort']
# the part of QEMU's time that svemu is meant to take at most, where there is one
MOST = {
    ('bytes', 512): 0.5, ('words', 512): 0.8, ('vectors', 512): 0.8,
    ('bytes', 2048): 0.15, ('words', 2048): 0.4, ('doublewords', 2048): 0.8, ('vectors', 2048): 0.8,
}


def built(name, folder):
    """Builds one program, and gives its file."""
    source = os.path.join(HERE, '..', 'docs', 'measured', name + '.S')
    target = os.path.join(folder, name)
    subprocess.run(['aarch64-linux-gnu-as', '-march=armv8.2-a+sve', '-o', target + '.o', source], check=True)
    subprocess.run(['aarch64-linux-gnu-ld', '-static', '-o', target + '.elf', target + '.o'], check=True)
    return target + '.elf'


def seconds(words):
    """Runs a command, and gives its processor time, system and user, of itself and what it started."""
    before = resource.getrusage(resource.RUSAGE_CHILDREN)
    subprocess.run(words, stdin=subprocess.DEVNULL, stdout=subprocess.DEVNULL, stderr=subprocess.DEVNULL)
    after = resource.getrusage(resource.RUSAGE_CHILDREN)
    return after.ru_utime + after.ru_stime - before.ru_utime - before.ru_stime


def qemu(bits, single, elf):
    """The command line of QEMU at that vector length: without the second property it begins at 512 bits at most."""
    cpu = f'max,sve{bits}=on,sve-default-vector-length={bits // 8}'
    return ['qemu-aarch64', *(['-singlestep'] if single else []), '-cpu', cpu, elf]


def least(kinds, runs):
    """Runs several commands in turn, that many times, and gives the least seconds of each."""
    found = [min(times) for times in zip(*[[seconds(words) for words in kinds] for _ in range(runs)])]
    return found


def line_of(name, bits, times):
    """A line of the table, marked where svemu took more than it is meant to."""
    svemu, single, chained = times
    most = MOST.get((name, bits))
    over = svemu > most * chained if most else bits == 128 and name in VECTORS and svemu > single
    parts = [f'{name}.S', str(bits), *[f'{it:.2f}' for it in times], f'{svemu / single:.2f}', f'{svemu / chained:.2f}']
    return ('* ' if over else '  ') + '| ' + ' | '.join(parts) + ' |'


def main():
    asked = argparse.ArgumentParser(description=__doc__, formatter_class=argparse.RawDescriptionHelpFormatter)
    asked.add_argument('svemu', help='the program to measure')
    asked.add_argument('--runs', type=int, default=7, help='runs of each, in turn, of which the least counts')
    asked.add_argument('--bits', type=int, nargs='+', default=[128, 512, 2048], help='vector lengths')
    asked.add_argument('--only', nargs='+', help='programs of docs/measured, by name')
    given = asked.parse_args()
    for word in ['qemu-aarch64', 'aarch64-linux-gnu-as', 'aarch64-linux-gnu-ld']:
        if not shutil.which(word):
            sys.exit(f'beside.py: {word} is not here: install qemu-user and binutils-aarch64-linux-gnu')
    print('  | | bits | svemu | -singlestep | QEMU | of -singlestep | of QEMU |')
    sums = [0.0, 0.0, 0.0]
    with tempfile.TemporaryDirectory() as folder:
        for name in given.only or VECTORS + SCALARS:
            elf = built(name, folder)
            for bits in [128] if name in SCALARS else given.bits:
                ours = [given.svemu, 'run', elf, '--vl', str(bits), '--budget', '1000000000']
                times = least([ours, qemu(bits, True, elf), qemu(bits, False, elf)], given.runs)
                print(line_of(name, bits, times), flush=True)
                if bits == 128 and name in VECTORS[:4]:
                    sums = [a + b for a, b in zip(sums, times)]
    print(f'  at 128 bits in all, {", ".join(VECTORS[:4])}: {sums[0]:.2f} for {sums[1]:.2f} of -singlestep')


if __name__ == '__main__':
    main()
