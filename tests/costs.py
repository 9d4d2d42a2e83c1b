#!/usr/bin/env python3
"""Host instructions a guest instruction, by callgrind: of the program that is given, or of two of them beside each
other. A guest of one instruction, 64 times in a loop with one branch, is run with budgets of 1,000 and of 11,000, so
that the start and the report fall out of the difference.

It prints the tables of docs/PERFORMANCE.md. With a second program each number has that of the second behind it, a line
begins with `*` where the second takes over 2 percent more, and the status is then 1."""
import argparse
import os
import re
import shutil
import subprocess
import sys
import tempfile
from concurrent.futures import ThreadPoolExecutor

SCALARS = """
nop
add x1, x2, #5
add x1, x2, x3
add x1, x2, x3, lsl #2
subs x1, x2, x3
orr x1, xzr, x3
and x1, x2, #15
cmp x1, #5
mov x1, #7
ubfx x1, x2, #3, #5
lsl x1, x2, x3
madd x1, x2, x3, x4
csel x1, x2, x3, eq
ldr x1, [x0, #8]
str x1, [x0, #8]
ldp x1, x2, [x0, #16]
stp x1, x2, [x0, #16]
ldrb w1, [x0, #1]
ldr w7, [x9, x8, lsl #2]
str w7, [x9, x8, lsl #2]
ldrb w7, [x0], #0
b.ne .+8
b.eq .+4
cbz x8, .+4
bl .+4
"""
VECTORS = """
add z0.b, z1.b, z2.b
add z0.b, p0/m, z0.b, z2.b
add z0.d, z1.d, z2.d
mla z0.s, p0/m, z1.s, z2.s
mul z0.s, p0/m, z0.s, z2.s
sdiv z0.s, p0/m, z0.s, z2.s
sel z0.b, p0, z1.b, z2.b
lsl z0.b, z1.b, #3
asr z0.b, z1.b, #3
lsr z0.b, p0/m, z0.b, z2.b
abs z0.b, p0/m, z1.b
sabd z0.b, p0/m, z0.b, z2.b
uaddv d0, p0, z1.b
smaxv b0, p0, z1.b
zip1 z0.b, z1.b, z2.b
uzp1 z0.b, z1.b, z2.b
trn1 z0.b, z1.b, z2.b
rev z0.b, z1.b
tbl z0.b, {z1.b}, z2.b
ext z0.b, z0.b, z1.b, #5
compact z0.s, p0, z1.s
splice z0.b, p0, z0.b, z1.b
cmphi p1.b, p0/z, z1.b, z2.b
cmplo p1.b, p0/z, z1.b, #7
whilelo p1.b, x1, x2
and p1.b, p0/z, p2.b, p3.b
sel p1.b, p0, p2.b, p3.b
brkb p1.b, p0/z, p2.b
pnext p1.b, p0, p1.b
cntp x5, p0, p2.b
ptest p0, p2.b
ptrue p1.b
incd x1
zip1 p1.b, p2.b, p3.b
uzp1 p1.b, p2.b, p3.b
trn1 p1.b, p2.b, p3.b
rev p1.b, p2.b
punpklo p1.h, p2.b
incw z0.s
incp z0.s, p2.s
ld1b {z0.b}, p0/z, [x0]
ld1b {z0.b}, p0/z, [x0] under `whilelo`
ld1b {z0.b}, p0/z, [x0] over a page border
ld1w {z0.s}, p0/z, [x0]
ld1d {z0.d}, p0/z, [x0]
ld1b {z0.s}, p0/z, [x0]
ld1b {z0.d}, p0/z, [x0]
ld4w {z0.s - z3.s}, p0/z, [x0]
ld4w {z0.s - z3.s}, p0/z, [x0] over a page border
ld1rw {z0.s}, p0/z, [x0]
ld1rqb {z0.b}, p0/z, [x0]
ldr z0, [x0]
ldr p3, [x0]
ld1d {z0.d}, p0/z, [x0, z3.d]
ld1w {z0.s}, p0/z, [x0, z3.s, uxtw]
ldff1b {z0.b}, p0/z, [x0]
st1b {z0.b}, p0, [x0]
st1b {z0.b}, p0, [x0] under `whilelo`
st1w {z0.s}, p0, [x0]
st1b {z0.s}, p0, [x0]
st4w {z0.s - z3.s}, p0, [x0]
str z0, [x0]
str p0, [x0]
st1d {z0.d}, p0, [x0, z3.d]
"""
# x0 is the place of loads and stores, z3 has offsets of lanes, p0 is all lanes; NZCV has Z
GUEST = """.text
.globl _start
_start:
 adr x0, place
 mov x9, x0
 mov x8, #0
 mov x3, #3
 rdvl x12, #1
 ptrue p0.b
{before}
 index z3.d, #0, #8
{offsets}
 subs xzr, xzr, xzr
1:
{body}
 b 1b
.section .data
.balign 4096
place: .space 65536
"""
WHILELO = ' sub x12, x12, #3\n whilelo p0.b, xzr, x12'
BORDER = ' add x0, x0, #4096\n sub x0, x0, x12, lsr #1'


def source_of(row):
    """The guest of a row, and its instruction."""
    text, _, how = row.partition(' under ') if ' under ' in row else row.partition(' over ')
    before = '' if not how else WHILELO if 'whilelo' in how else BORDER
    offsets = ' index z3.s, #0, #4' if 'z3.s' in text.split('[')[-1] else ''
    return GUEST.format(before=before, offsets=offsets, body=(' ' + text + '\n') * 64)


def built(row, folder):
    """Builds the guest of a row, and gives its file."""
    name = os.path.join(folder, re.sub(r'[^a-z0-9]+', '_', row))
    with open(name + '.S', 'w') as file:
        file.write(source_of(row))
    subprocess.run(['aarch64-linux-gnu-as', '-march=armv8.2-a+sve', '-o', name + '.o', name + '.S'], check=True)
    subprocess.run(['aarch64-linux-gnu-ld', '-static', '-o', name + '.elf', name + '.o'], check=True)
    return name + '.elf'


def collected(words):
    """The host instructions of a command."""
    said = subprocess.run(['valgrind', '--tool=callgrind', '--callgrind-out-file=/dev/null', *words],
                          stdin=subprocess.DEVNULL, capture_output=True).stderr
    found = re.search(rb'Collected : (\d+)', said)
    if not found:
        sys.exit('costs.py: callgrind counted nothing of ' + ' '.join(words))
    return int(found.group(1))


def cost(svemu, elf, bits):
    """The host instructions of one guest instruction."""
    few, many = [collected([svemu, 'run', elf, '--vl', str(bits), '--budget', str(n)]) for n in (1000, 11000)]
    return (many - few) / 10000


def shown(row):
    """A row's name as the tables have it."""
    text, word, how = row.partition(' under ') if ' under ' in row else row.partition(' over ')
    return f'`{text}`{word}{how}'


def table(rows, lengths, given, folder):
    """Prints a table, and gives how many of its lines are marked."""
    elves = {row: built(row, folder) for row in rows}
    programs = [it for it in (given.svemu, given.other) if it]
    asked = [(svemu, row, bits) for row in rows for bits in lengths for svemu in programs]
    with ThreadPoolExecutor(given.jobs) as pool:
        costs = dict(zip(asked, pool.map(lambda it: cost(it[0], elves[it[1]], it[2]), asked)))
    print('| Instruction | ' + ' | '.join(f'{bits} bits' for bits in lengths) + ' |')
    print('|---|' + '---|' * len(lengths))
    marked = 0
    for row in rows:
        found = [[costs[svemu, row, bits] for svemu in programs] for bits in lengths]
        over = any(it[-1] > 1.02 * it[0] for it in found)
        marked += over
        cells = [' '.join(f'{number:,.0f}' for number in it) for it in found]
        print(('* ' if over else '') + f'| {shown(row)} | ' + ' | '.join(cells) + ' |', flush=True)
    return marked


def main():
    asked = argparse.ArgumentParser(description=__doc__, formatter_class=argparse.RawDescriptionHelpFormatter)
    asked.add_argument('svemu', help='the program to measure')
    asked.add_argument('other', nargs='?', help='a second program, beside the first')
    asked.add_argument('--bits', type=int, nargs='+', default=[128, 512, 2048], help='vector lengths')
    asked.add_argument('--only', default='', help='rows that have this text')
    asked.add_argument('--jobs', type=int, default=2, help='runs beside each other')
    given = asked.parse_args()
    for word in ['valgrind', 'aarch64-linux-gnu-as', 'aarch64-linux-gnu-ld']:
        if not shutil.which(word):
            sys.exit(f'costs.py: {word} is not here: install valgrind and binutils-aarch64-linux-gnu')
    for program in filter(None, (given.svemu, given.other)):
        if not os.access(program, os.X_OK):
            sys.exit(f'costs.py: {program} is no program')
        with open(program, 'rb') as file:
            if file.read(4) != b'\x7fELF':
                sys.exit(f'costs.py: {program} is a script, not the program itself: ./svemu --program names it')
    if given.only not in SCALARS + VECTORS:
        sys.exit(f"costs.py: no row has '{given.only}'")
    marked = 0
    with tempfile.TemporaryDirectory() as folder:
        for rows, lengths in ((SCALARS, [128]), (VECTORS, given.bits)):
            rows = [row for row in rows.split('\n') if row and given.only in row]
            if rows:
                marked += table(rows, lengths, given, folder)
                print()
    return 1 if marked else 0


if __name__ == '__main__':
    sys.exit(main())
