"""Sessions of `svemu-tool debug`: tasks of people, refused lines, and random sessions against a second debugger.

usage: debugger.py SVEMU TOOL [SESSIONS]

The programs are those of tests/debugged, assembled by `aarch64-linux-gnu-gcc -march=armv8-a+sve -nostdlib -static
-no-pie -Wl,--build-id=none -Wl,-z,max-page-size=4096`; steps.c also with `-g -O0 -fdebug-prefix-map=$PWD=.`, and
steps.lines is what `tools/svemu-debug --table` writes of it. What a task has to find is known from the program's text.
Each answer of a random session is worked out a second time from what `trace`, `dis` and `run` tell: see
debugged_session.py. The last line is 'N sessions, M failed'.
"""
import os
import random
import re
import shutil
import struct
import subprocess
import sys
import tempfile

sys.dont_write_bytecode = True
from debugged_commands import Chance  # noqa: E402
from debugged_run import Run  # noqa: E402
from debugged_session import Session  # noqa: E402

HERE = os.path.dirname(os.path.abspath(__file__))

# A task: the program, the commands, and patterns of lines that have to come in this order.
TASKS = [
    ('wrong_lane', [
        'break done', 'continue', 'x/64dw total', 'watch total+248 4', 'reverse-continue', 'lanes z0 z1 z2 p0 .s',
        'last-write left+248 4', 'backtrace',
    ], [
        r'^1: break 0x[0-9a-f]+ <done>$', r'120 122 1062 126$', r'^2: watch 0x[0-9a-f]+ <total\+248> 4$',
        r'^  by 0x[0-9a-f]+ <add_up>  st1w ', r'^  z2\.s\[6\]  stored 0x[0-9a-f]+ 4: 0x426, was 0x0$',
        r'^>  6  000003e8   0000003e   00000426   1', r'<spoil\+12>  ret', r'^  by 0x[0-9a-f]+ <spoil\+8>  str w2, ',
        r'^  stored 0x[0-9a-f]+ 4: 0x3e8, was 0x3e$', r'^#0  0x[0-9a-f]+ <spoil\+12>$',
        r'^x30 0x[0-9a-f]+ <_start\+16>$',
    ]),
    ('null_origin', ['continue', 'reverse-stepi 3', 'last-write second+8 8'], [
        r'^trap read 0x0000000000000000 at ', r'<walk\+12>  ldr x3', r'<walk\+24>',
        r'^  by 0x[0-9a-f]+ <walk\+20>  ldr x1', r'^  by 0x[0-9a-f]+ <unlink\+4>  str ',
        r'^  stored 0x[0-9a-f]+ 8: 0x0, was 0x[1-9a-f]',
    ]),
    ('past_end', ['watch limit 4', 'c', 'print x3', 'print x4', 'rc', 'c', 'c', 'rc'], [
        r'^1: watch 0x[0-9a-f]+ <limit> 4$', r'^  z0\.s\[0\]  stored 0x[0-9a-f]+ 4: 0x0, was 0x2a$', r'^x3 = 0x10 16$',
        r'^x4 = 0x11 17$', r'^the start$', r'^step 0 ', r'was 0x2a$', r'^exit 0 after \d+ steps$', r'was 0x2a$',
    ]),
    ('at_mark', ['watch word 8', 'goto 4100', 'reverse-continue', 'info breakpoints'], [
        r'^1: watch 0x[0-9a-f]+ <word> 8$', r'^step 4096 ', r'^  stored 0x[0-9a-f]+ 8: 0x3ff, was 0x3fe$', r'met 1$',
    ]),
    ('no_end', [
        'set slice 100000', 'c', '', 'break *0x4000b8 if x0 == 1', 'rc', 'c', 'stepi 2', 'print/d x0', 'when',
    ], [
        r'^stopped by itself', r'^step 100000 ', r'^stopped by itself', r'^step 200000 ', r'^stopped by itself',
        r'^step 100000 ', r'^stopped by itself',
    ]),
    ('no_end', ['break *0x4000b8 if x0 == 1', 'c', 'stepi 3', 'print/d x0', 'when', 'goto 5', 'reverse-stepi'], [
        r'^1: break 0x4000b8 <_start\+8> if x0 == 1$', r'^step 11 ', r'^step 14 ', r'^x0 = -1$', r'^step 14$',
        r'^step 5 ', r'^step 4 ',
    ]),
    ('steps', [
        's 2', 's', 's', 'where', 'finish', 'n', 'break steps.c:6 if x0 == 3', 'c', 'n', 'backtrace', 'delete', 'list',
        'list', 'list steps.c:25', 'list', 'list', 'tbreak steps.c:15', 'c', 'find squares, +32, 9',
        'find/b squares +32 0', 'find squares squares+31 16, 25', 'find squares +32 7', 's', 's', 's 9',
    ], [
        r'steps\.c:20 ', r'steps\.c:21 ', r'^step \d+  0x[0-9a-f]+ <square>  sub sp', r'steps\.c:5  \{$',
        r'steps\.c:5  \{$', r'^step \d+  0x[0-9a-f]+ <begin\+24>  ', r'steps\.c:21 ', r'steps\.c:20 ',
        r'^number 1 at 0x[0-9a-f]+ <square\+8>$', r'^1: break 0x[0-9a-f]+ <square\+8> if x0 == 3$',
        r'steps\.c:6      int wide = n \* n;$', r'steps\.c:7      return wide;$', r'^#0  0x[0-9a-f]+ <square\+20>$',
        r'^   2  static int squares\[8\] = ', r'^=> 7      return wide;$', r'^   12      int all = 0;$',
        r'^   20      for ', r'^   29  ', r'^   30  ', r'^nothing is there from tests/debugged/steps\.c:40 on$',
        r'steps\.c:15      return all;$', r'^0x[0-9a-f]+ <squares\+12>$', r'^1 pattern found$',
        r'^0x[0-9a-f]+ <squares>$', r'^2\d patterns found$', r'^0x[0-9a-f]+ <squares\+16>$', r'^1 pattern found$',
        r'^pattern not found$', r'steps\.c:16  \}$', r'^step \d+  0x[0-9a-f]+ <begin\+84>  ', r'steps\.c:22 ',
        r'^exit 140 after \d+ steps$',
    ]),
    ('steps', [
        'break steps.c:99', 'break nowhere.c:6', 'list nowhere', 'info line 5 5', 'find squares', 'find squares +0 1',
        'find squares +4', 'find squares +4 nothing', 'find/q squares +4 1', 'find squares 4 1', 'source',
        'source nothing', 'info line _start', 'when',
    ], [
        r"^'steps.c:99' is no symbol", r"^'nowhere.c:6' is no symbol", r"^'nowhere' is no symbol",
        r"^'5' is a word too many", r'^a word is missing: find', r"^'\+0' is out of range: find",
        r'^a word is missing: find', r"^'nothing' is no symbol", r"^'find/q' has no format",
        r'^the end stands before the start', r'^a word is missing: source FILE$', r"^the file isn't there",
        r'<_start> is of no line that is known$', r'^step 0$',
    ]),
    ('past_end', [
        'print xzr', 'print/x wzr', 'break _start if xzr == 0', 'info symbol _end+65535', 'info symbol _end+65536',
        'info symbol clear+4\r', '\r', 'stepi\r', '\r', 'when',
    ], [
        r'^xzr = 0x0 0$', r'^wzr = 0x0$', r'^number 1 ', r'^0x411\w+ <_end\+65535>$', r'^0x411\w+$',
        r'^0x[0-9a-f]+ <clear\+4>$', r'^0x[0-9a-f]+ <clear\+4>$', r'^step 1 ', r'^step 2 ', r'^step 2$',
    ]),
    ('past_end', ['step', 'list', 'info line', 'source tests/debugged/past_end.commands', 'when'], [
        r'^no lines of the source are known', r'^no line of the source is known there$',
        r'is of no line that is known$', r'^1: watch 0x[0-9a-f]+ <limit> 4$', r'^x3 = 0x10 16$', r'^step 17$',
    ]),
    ('no_end', [
        'foo', 'break nowhere', 'print x99', 'x/q sp', 'break', 'break _start 3', 'break _start if x0', 'set var x=1',
        'delete 9', 'watch 0x1 9999', 'goto -1', 'lanes', 'lanes q0', 'continue 99999999999999999999', 'quit 1',
        'whatch', 'breik _start', 'reverse-contimue', 'lasst-write', 'step-back', '%', 'break _start if x0 = 3',
        'break _start if x99 == 3', 'break _start+x', 'break *_start', 'x/5000 sp', 'set slice 0', 'help foo', 'info x',
        'info registers z0', 'info registers x0 sp x31', 'break _start if x0=3', 'break _start if x0==3 4',
        'break _start if ==3', '# break nowhere', '  ', 'when',
    ], [
        r"^'foo' is no command: finish$", r"^'nowhere' is no symbol, register or address: break ", r"^'x99' is no ",
        r"^'x/q' has no format", r'^a word is missing: break ', r"^'3' can't stand there: break ",
        r'^a word is missing: ', r"^'var' can't stand there: set slice STEPS$", r'^no break or watch has that number$',
        r"^'9999' is out of range", r"^'-1' is no number", r'^a word is missing: lanes', r"^'q0' is no register",
        r"^'9{20}' is no number", r"^'1' is a word too many: quit$", r"^'whatch' is no command: where$",
        r"^'breik' is no command: break PLACE ", r"^'reverse-contimue' is no command: reverse-continue \[COUNT\]$",
        r"^'lasst-write' is no command: last-write PLACE ", r"^'step-back' is no command: stepi \[COUNT\]$",
        r"^'%' is no command: help \[COMMAND\]$", r"^'x0' begins no condition: break PLACE \[if A == B\]$",
        r"^'x99' begins no condition: ", r"^'_start\+x' is no number of at most 2\^64 - 1: break ",
        r"^'\*_start' is no number of ", r"^'x/5000' has no format", r"^'0' is out of range: set slice STEPS$",
        r"^'foo' is no command: help ", r"^'x' can't stand there: info ", r"^'z0' is no register",
        r"^'x31' is no register", r"^'x0' begins no condition: ", r"^'4' is a word too many: break PLACE ",
        r'^a word is missing: break PLACE ', r'^step 0$',
    ]),
    ('no_end', ['break *0x4000b8 if x0==5', 'continue', 'info registers x0 x1 pc', 'tbreak *0x4000b8 if 3>= x0',
                'continue', 'print x0', 'break *0x4000b8 if 1 <=x0', 'info breakpoints'], [
        r'^1: break 0x4000b8 <_start\+8> if x0 == 5$', r'^x0 = 0x5 5$', r'^x1 = 0x1 1$', r'^pc = 0x4000b8 ',
        r'^2: tbreak 0x4000b8 <_start\+8> if 3 >= x0$', r'^x0 = 0x3 3$',
        r'^3: break 0x4000b8 <_start\+8> if 1 <= x0, met 0$',
    ]),
]


def program_of(name):
    """The program of a name."""
    return os.path.join(HERE, 'debugged', name + '.elf')


def session(tool, program, commands, *options):
    """The lines of a session and its status. Where a table of the program's lines is there it is given."""
    text = ''.join(command + '\n' for command in commands).encode('utf-8', 'surrogateescape')
    table = program.replace('.elf', '.lines')
    lines = ['--lines', table] if os.path.exists(table) else []
    answer = subprocess.run([tool, 'debug', program, '--vl', '256', *lines, *options], input=text, capture_output=True,
                            timeout=120, cwd=os.path.dirname(HERE))
    return answer.stdout.decode().split('\n')[:-1], answer.returncode


def fits(lines, patterns):
    """The first pattern that no line fits behind those of the patterns before it; None where all fit."""
    at = 0
    for pattern in patterns:
        while at < len(lines) and not re.search(pattern, lines[at]):
            at += 1
        if at == len(lines):
            return pattern
        at += 1
    return None


def random_session(run, tool, seed):
    """Whether each answer of a random session is the one that is worked out of the run's trace. An empty line stands
    for the line before it."""
    chance = random.Random(seed)
    wanted = Session(run)
    choice, lines, marks = Chance(chance, wanted), [], [len(wanted.out)]
    last = None
    for _ in range(chance.randint(5, 30)):
        line, told = choice.command()
        if last and chance.random() < 0.1:
            line, told = last, ''
        wanted.obey(line)
        lines.append(told)
        marks.append(len(wanted.out))
        last = line
    options = ['--budget', str(run.budget)]
    out, status = session(tool, run.program, lines, *options)
    if out == wanted.out and status == 0:
        return True
    at = next((k for k, pair in enumerate(zip(out, wanted.out)) if pair[0] != pair[1]), min(len(out), len(wanted.out)))
    obeyed = sum(mark <= at for mark in marks)
    print(f'{run.program}, seed {seed}, status {status}: behind {lines[:obeyed]}',
          *(f'    {line}' for line in out[at:at + 3]), '  instead of',
          *(f'    {line}' for line in wanted.out[at:at + 3]), sep='\n')
    return False


# The programs of the random sessions, and their budgets: two of them are spent.
RUNS = [
    ('wrong_lane', 1000), ('null_origin', 1000), ('past_end', 1000), ('steps', 1000), ('steps', 300), ('no_end', 500),
    ('at_mark', 10000),
]

# The text of a table of lines, and what is said of it.
REFUSED = [
    ('0x4000e8 a.c 5\nx a.c 6\n', 'not an address of at most 2^64 - 1 at line 2'),
    ('0x4000e8\n', 'a word is missing at line 1'),
    ('0x4000e8 a.c\n', 'a word is missing at line 1'),
    ('0x4000e8 a.c 0\n', "not a line's number of at most 2^64 - 1, from 1 on at line 1"),
    ('0x4000e8 - 5\n', 'a word too many at line 1'),
    ('# a comment\n\n0x4000e8 a.c 5\n0x4000e4 a.c 6\n', 'an address below that of the row before at line 4'),
]


# Options, what is said of them, and the status.
REFUSED_OPTIONS = [
    (['--input'], '--input is an option without a value', 121),
    (['--vl', '128', '--script'], '--script is an option without a value', 121),
    (['--lines', 'a', '--lines', 'b'], '--lines is given twice', 121),
    (['--input', 'a', '--input'], '--input is an option without a value', 121),
    (['--vl', '512', '--vl', '256'], '--vl is given twice', 121),
    (['--pages'], '--pages is an option without a value', 121),
    (['--quiet'], '--quiet is no option of debug: see svemu-tool --help', 121),
    (['--vl', '100'], '100 is no vector length: a multiple of 128 from 128 to 2048', 121),
    (['more'], 'more is a word too many: arguments of the program stand behind --', 121),
    (['--script', 'tests/debugged/none'], "tests/debugged/none isn't there, or can't be read", 126),
    (['--input', 'tests/debugged/none'], "tests/debugged/none isn't there, or can't be read", 126),
]


def refused_options(tool, options, said, status):
    """Whether options are refused by a line, and a status."""
    answer = subprocess.run([tool, 'debug', program_of('steps'), *options], input=b'', capture_output=True, timeout=120)
    if (answer.returncode, answer.stdout, answer.stderr.decode()) == (status, b'', f'svemu: {said}\n'):
        return True
    print(f'{options}: status {answer.returncode}, {answer.stderr!r}')
    return False


def two_symbols(tool, folder):
    """Whether of a name that two symbols have both addresses are told."""
    with open(program_of('wrong_lane'), 'rb') as file:
        image = bytearray(file.read())
    at, = struct.unpack_from('<Q', image, 40)
    tables = [struct.unpack_from('<IIQQQQ', image, at + 64 * k) for k in range(struct.unpack_from('<H', image, 60)[0])]
    start, size = next(table[4:6] for table in tables if table[1] == 2)
    named = {address: entry for entry in range(start, start + size, 24)
             for address in struct.unpack_from('<Q', image, entry + 8)
             if struct.unpack_from('<I', image, entry)[0] and image[entry + 4] % 16 == 1}
    left, right = sorted(named)[:2]
    image[named[right]:named[right] + 4] = image[named[left]:named[left] + 4]
    program = os.path.join(folder, 'two.elf')
    with open(program, 'wb') as file:
        file.write(image)
    lines, status = session(tool, program, ['break left', 'when'])
    said = f"'left' is the name of two symbols, at {left:#x} and {right:#x}: write *ADDRESS: break PLACE [if A == B]"
    if lines[1:] == [said, 'step 0'] and status == 0:
        return True
    print(f'two symbols of a name: {lines}')
    return False


def short_forms(tool):
    """Whether each short form in the document's table is that of its command."""
    with open(os.path.join(HERE, '../docs/DEBUGGING.md'), encoding='utf-8') as file:
        rows = [line.split('|') for line in file if line.startswith('| `')]
    pairs = []
    for row in rows:
        names = dict.fromkeys(re.findall(r'`([a-z-]+)', row[1]))
        pairs += zip(names, re.findall(r'`([a-z]+)', row[2]))
    lines, status = session(tool, program_of('no_end'), [f'help {name}' for pair in pairs for name in pair])
    wrong = [pair for k, pair in enumerate(pairs) if lines[1 + 2 * k] != lines[2 + 2 * k]]
    if len(pairs) > 30 and not wrong and status == 0:
        return True
    print(f'short forms: {len(pairs)} with {wrong}, status {status}, {lines}')
    return False


# Words of which lines are made that may be commands or not.
WORDS = [
    'break', 'b', 'tb', 'watch', 'rw', 'print', 'p/x', 'x/4x', 'x/s', 'info', 'registers', 'breakpoints', 'line',
    'lanes', 'z0', 'z3.s', 'p1', '.s', '.q', 'z1.s[2]', 'z1.s[99]', 'x0', 'sp', '_start', '_start+4', '_end-1',
    '*0x400100', '0', '1', '-1', '4096', '18446744073709551615', '18446744073709551616', '0xffffffffffffffff', 'if',
    '==', '<', 'x0==3', 'sp>=', '!=x1', '<=', ',', '"a', '+16', 'goto', 'stepi', 'rsi', 'rc', 'finish', 'rf', 'until',
    'last-write', 'find', 'list', 'disas', 'bt', 'where', '%', 'source', 'tests', 'set', 'slice', 'delete', 'ignore',
    'steps.c:21', ':', 'steps.c:', 'help', '/', '//', '\\', "'", '\x80\xff', '\u03bb', '\0',
]


def noise(tool, seed):
    """Whether a session of lines that are made of such words by chance comes to its end."""
    chance = random.Random(seed)
    lines = [' '.join(chance.choices(WORDS, k=chance.randint(0, 5))) for _ in range(200)]
    lines, status = session(tool, program_of('steps'), [*lines, 'when'], '--budget', '1000')
    if status == 0 and re.match(r'^step \d+$', lines[-1]):
        return True
    print(f'lines by chance, seed {seed}: status {status}, {lines[-1:]}')
    return False


def refused_table(tool, text, said):
    """Whether a table of lines is refused by a line that says why, and the status 126."""
    with tempfile.NamedTemporaryFile('w', suffix='.lines') as file:
        file.write(text)
        file.flush()
        answer = subprocess.run([tool, 'debug', program_of('steps'), '--lines', file.name], input=b'',
                                capture_output=True, timeout=120)
        line = f'{file.name} is no table of lines: {said}\n'
        if answer.returncode == 126 and answer.stdout == b'' and answer.stderr.decode().endswith(line):
            return True
    print(f'{text!r}: status {answer.returncode}, {answer.stderr!r}')
    return False


def same_table(reader, folder):
    """Whether tools/svemu-debug makes the table of steps.lines by the only reader of line tables that it finds."""
    for name in [reader, 'sh', 'awk', 'sort', 'dirname']:
        os.symlink(shutil.which(name), os.path.join(folder, name))
    root = os.path.dirname(HERE)
    answer = subprocess.run([os.path.join(root, 'tools/svemu-debug'), '--table', 'tests/debugged/steps.elf'],
                            capture_output=True, timeout=120, cwd=root, env={'PATH': folder})
    with open(os.path.join(HERE, 'debugged/steps.lines'), 'rb') as file:
        if answer.stdout == file.read() and answer.returncode == 0:
            return True
    print(f'svemu-debug --table by {reader}: status {answer.returncode}, {answer.stdout!r} {answer.stderr!r}')
    return False


def main():
    svemu, tool = sys.argv[1:3]
    count = int(sys.argv[3]) if len(sys.argv) > 3 else 200
    done = failed = 0
    for name, commands, patterns in TASKS:
        lines, status = session(tool, program_of(name), commands)
        missing = fits(lines, patterns)
        done += 1
        if missing is not None or status != 0:
            failed += 1
            print(f'{name}: {commands}: no line fits {missing!r} (status {status})', *lines, sep='\n    ')
    for text, said in REFUSED:
        done += 1
        failed += not refused_table(tool, text, said)
    for options, said, status in REFUSED_OPTIONS:
        done += 1
        failed += not refused_options(tool, options, said, status)
    with tempfile.TemporaryDirectory() as folder:
        done += 1
        failed += not two_symbols(tool, folder)
    done += 1
    failed += not short_forms(tool)
    for seed in range(10):
        done += 1
        failed += not noise(tool, seed)
    for reader in filter(shutil.which, ['llvm-dwarfdump', 'aarch64-linux-gnu-objdump', 'objdump']):
        with tempfile.TemporaryDirectory() as folder:
            done += 1
            failed += not same_table(reader, folder)
    runs = [Run(svemu, tool, program_of(name), budget) for name, budget in RUNS]
    for seed in range(count):
        done += 1
        failed += not random_session(runs[seed % len(runs)], tool, seed)
    print(f'{done} sessions, {failed} failed')
    return 1 if failed else 0


if __name__ == '__main__':
    sys.exit(main())
