"""Builds the tests of a suite, runs them under svemu and under QEMU, and writes a table; suites.sh calls it."""

import glob
import os
import re
import resource
import shutil
import subprocess
import sys
import tempfile
import time

HERE = os.path.dirname(os.path.abspath(__file__))
EXAMPLES = os.path.join(HERE, '..', '..', 'examples')
GCC = 'aarch64-linux-gnu-gcc'
# The flags of docs/TESTING_YOUR_CODE.md.
FLAGS = ['-march=armv8-a+sve', '--param=aarch64-autovec-preference=2', '-fno-tree-slp-vectorize', '-mno-outline-atomics',
         '-ffreestanding', '-nostdlib', '-static', '-fno-stack-protector', '-Wreturn-type', '-I', EXAMPLES]
START = os.path.join(EXAMPLES, 'start.S')
RUNTIME = os.path.join(HERE, 'runtime.c')
ENDING = re.compile(rb'^(exit \d+|trap ([-a-z]+) 0x[0-9a-f]+ at 0x([0-9a-f]+)|spent) after (\d+) steps$', re.M)

# A main that ends without an answer, as the compiler tells it.
NO_ANSWER = re.compile(rb"In function .{1,3}main.{1,3}:\n(?:.*\n){0,8}?.*Wreturn-type")

# The places below the 1 MiB of the stack.
BELOW_THE_STACK = (0x7fffff000000, 0x7fffffeff000)

# The kinds of string functions, by the number that strings.c knows.
KINDS = {'memcpy': 1, 'memset': 2, 'memchr': 3, 'memrchr': 4, 'rawmemchr': 5, 'strchr': 6, 'strchrnul': 7, 'strrchr': 8, 'strlen': 9,
         'strnlen': 10, 'memcmp': 11, 'strcmp': 12, 'strcpy': 13, 'stpcpy': 14, 'strncmp': 15, 'memmove': 16}


class Failure(Exception):
    """Why the suite can't be run, in one line."""


class Options:
    def __init__(self, words):
        given = dict(zip(words[::2], words[1::2]))
        self.part = given.get('--part', '')
        self.options = given.get('--options', '-O2').split()
        self.sample = number('--sample', given.get('--sample', '1'), 1, 10000)
        self.budget = number('--budget', given.get('--budget', '50000000'), 1, 2**63)
        self.lengths = [number('--lengths', word, 128, 2048) for word in given.get('--lengths', '128,384,2048').split(',')]
        if any(length % 128 for length in self.lengths):
            raise Failure('--lengths wants multiples of 128 from 128 to 2048')
        self.keep = given.get('--keep')


def number(name, text, least, most):
    if not re.fullmatch('[0-9]+', text) or not least <= int(text) <= most:
        raise Failure('%s wants a number from %d to %d, not %s' % (name, least, most, text))
    return int(text)


def seconds():
    used = resource.getrusage(resource.RUSAGE_CHILDREN)
    return used.ru_utime + used.ru_stime


def asked(path):
    """The options that a test of GCC asks for, on every machine."""
    with open(path, encoding='utf-8', errors='replace') as file:
        text = file.read()
    out = []
    for kind, words, target in re.findall(r'\{\s*dg-(options|additional-options)\s+"([^"]*)"\s*(\{[^}]*\})?', text):
        if not target or 'aarch64' in target and '!' not in target:
            out = words.split() + (out if kind != 'options' else [])
    # The processor stays the one of FLAGS.
    return [word for word in out if not word.startswith(('-march', '-mcpu', '-mtune', '-msve', '-save-temps', '-fdump', '-static'))], text


class Test:
    """A program to build: its name, its group, and the words of the compiler behind the flags."""

    def __init__(self, group, name, words):
        self.group, self.name, self.words = group, name, words


def tests_of_gcc(tree, options, _folder):
    suite = glob.glob(os.path.join(tree, '**', 'gcc', 'testsuite'), recursive=True)[0]
    folders = {'gcc.c-torture/execute': [], 'gcc.dg/vect': ['-ftree-vectorize', '-fno-vect-cost-model', '-fno-common'],
               'gcc.target/aarch64/sve': []}
    for folder, more in folders.items():
        if options.part not in folder.rsplit('/', 1)[-1]:
            continue
        chosen = []
        for path in sorted(glob.glob(os.path.join(suite, folder, '*.c'))):
            words, text = asked(path)
            # A test of vectors includes another file, which may have its main.
            if 'dg-do run' in text if folder.endswith('sve') else not re.search('dg-do +(compile|link|assemble)', text):
                chosen.append(Test(folder, os.path.basename(path), [*more, *words, path]))
        yield from chosen[::options.sample]


def tests_of_compiler_rt(tree, options, folder):
    top = glob.glob(os.path.join(tree, '*', 'compiler-rt')) or glob.glob(os.path.join(tree, 'compiler-rt'))
    library = os.path.join(top[0], 'lib', 'builtins')
    archive = os.path.join(folder, 'builtins.a')
    objects = []
    for path in sorted(glob.glob(os.path.join(library, '*.c'))):
        made = os.path.join(folder, os.path.basename(path)[:-2] + '.o')
        built = subprocess.run([GCC, *options.options, *FLAGS, '-c', '-o', made, path], capture_output=True, check=False)
        if built.returncode == 0:
            objects.append(made)
    subprocess.run(['aarch64-linux-gnu-ar', 'rcs', archive, *objects], check=True)
    for path in sorted(glob.glob(os.path.join(top[0], 'test', 'builtins', 'Unit', '*_test.c')))[::options.sample]:
        yield Test('compiler-rt builtins', os.path.basename(path), ['-I', library, path, archive])


def string_test(symbol, kind, path, top):
    root = os.path.dirname(os.path.dirname(top))
    # One of the functions calls two others by names of the library's own.
    calls = ['-D__memchr=memchr', '-D__strlen=strlen'] if kind == 'rawmemchr' else []
    return Test('glibc string functions', '%s of %s' % (symbol, os.path.relpath(path, top)),
                ['-I', HERE, '-I', root, '-I', top, '-DCALL=' + symbol, '-DKIND=%d' % KINDS[kind], *calls, os.path.join(HERE, 'strings.c'), path])


def tests_of_glibc(tree, options, _folder):
    top = glob.glob(os.path.join(tree, '*', 'sysdeps', 'aarch64'))[0]
    chosen = []
    for path in sorted(glob.glob(os.path.join(top, '*.S')) + glob.glob(os.path.join(top, 'multiarch', '*.S'))):
        name = os.path.basename(path)[:-2]
        kind = name.split('_')[0]
        if kind not in KINDS:
            continue
        with open(path, encoding='utf-8', errors='replace') as file:
            text = file.read()
        if not re.search(r'^ENTRY', text, re.M):
            # Of the files that only include another one this is a function of its own.
            if 'BUILD_STPCPY' in text:
                chosen.append(string_test('__stpcpy', kind, path, top))
            continue
        for called in (kind, 'memmove') if kind == 'memcpy' else (kind,):
            found = re.findall(r'^ENTRY\w* *\( *(\w+)', text, re.M)
            symbol = next((symbol for symbol in found if called in symbol.lower()), None)
            if symbol is None:
                continue
            # A name in capitals is one that the source defines, where nothing else has.
            defined = [name for name in re.findall(r'^# *define +%s +(\w+)' % symbol, text, re.M) if called in name]
            if symbol.isupper():
                symbol = defined[0] if defined else symbol.lower()
            chosen.append(string_test(symbol, called, path, top))
    return chosen[::options.sample]


class Count:
    """What came of the tests of a group."""

    def __init__(self):
        self.tests = self.unbuilt = self.built = self.runs = self.inside = self.agree = self.alone = self.steps = 0
        self.svemu = self.qemu = 0.0
        self.why = {}
        self.outside, self.outside_tests, self.refused, self.other, self.differ = {}, set(), {}, {}, []


def emulated(words):
    """A run: its status, its output, its errors and its processor seconds; a run that takes too long has no status."""
    before = seconds()
    try:
        done = subprocess.run(words, stdin=subprocess.DEVNULL, capture_output=True, timeout=60, check=False)
        status, output, errors = done.returncode, done.stdout, done.stderr
    except subprocess.TimeoutExpired:
        status, output, errors = None, b'', b''
    return (128 - status if status is not None and status < 0 else status), output, errors, seconds() - before


def mnemonic(program, address):
    places = ['--start-address=%#x' % address, '--stop-address=%#x' % (address + 4)]
    shown = subprocess.run(['aarch64-linux-gnu-objdump', '-d', *places, program], capture_output=True, text=True, check=False).stdout
    line = re.search(r'^ *[0-9a-f]+:\t[0-9a-f]{8} *\t(\S+)(.*)', shown, re.M)
    if not line:
        return 'no instruction'
    registers = re.search(r'\b([bhsdqvz])\d+\b', line[2])
    kind = registers and {'v': ' of V registers', 'z': ' of Z registers'}.get(registers[1], ' of scalar vector registers') or ''
    return line[1] + kind


def made_once(folder, options):
    """The start, and the runtime, whose functions give way to those of a test that has its own."""
    start, runtime = (os.path.join(folder, name) for name in ('start.o', 'runtime.o'))
    subprocess.run([GCC, *FLAGS, '-c', '-o', start, START], check=True)
    subprocess.run([GCC, *options.options, *FLAGS, '-c', '-o', runtime, RUNTIME], check=True)
    subprocess.run(['aarch64-linux-gnu-objcopy', '--weaken', runtime], check=True)
    return [start, runtime]


def unbuilt(said):
    """Why a test isn't built, in a few words."""
    lacking = sorted(set(re.findall(r"undefined reference to `(\w+)'", said)))
    if lacking:
        return 'wants ' + ', '.join(lacking[:3])
    wrong = re.search(r'(?:error|Error): (.*)', said)
    return wrong[1][:80] if wrong else 'the compiler ends without a word'


def trapped_at(ending):
    return int(ending.split()[2], 16)


def run_test(count, test, program, options, qemu):
    svemu = os.environ['SVEMU']
    for length in options.lengths:
        count.runs += 1
        status, output, errors, took = emulated([svemu, 'run', program, '--vl', str(length), '--budget', str(options.budget)])
        ending = None
        for ending in ENDING.finditer(errors):
            pass
        if status in (121, 122) and ending is None:
            said = errors.decode(errors='replace').strip()
            count.refused[said] = count.refused.get(said, 0) + 1
            continue
        if ending is None or ending[1] == b'spent':
            said = 'the budget is spent' if ending else 'it took more than a minute' if status is None else 'status %d' % status
            count.other[said] = count.other.get(said, 0) + 1
            continue
        if ending[2] == b'undefined':
            word = mnemonic(program, int(ending[3], 16))
            count.outside.setdefault(word, set()).add(test.name)
            count.outside_tests.add(test.name)
            continue
        # The stack has 1 MiB, and QEMU's is that of the host.
        if ending[2] in (b'read', b'write') and BELOW_THE_STACK[0] <= trapped_at(ending[0]) < BELOW_THE_STACK[1]:
            count.other['the stack is too small'] = count.other.get('the stack is too small', 0) + 1
            continue
        count.inside += 1
        count.svemu += took
        count.steps += int(ending[4])
        if not qemu:
            if status == 0:
                count.agree += 1
            else:
                count.differ.append('%s at %d: %s' % (test.name, length, ending[0].decode()))
            continue
        size = 'max,sve%d=on,sve-default-vector-length=%d' % (length, length // 8)
        other, wanted, _, took = emulated([qemu, '-cpu', size, program])
        count.qemu += took
        if (status, output) == (other, wanted):
            count.agree += 1
        else:
            count.differ.append('%s at %d: %s, %d bytes of output; qemu-aarch64 %s, %d bytes' % (
                test.name, length, ending[0].decode(), len(output), 'takes more than a minute' if other is None else
                'ends with %d' % other, len(wanted)))


def main(suite, tree, told, *words):
    options = Options(list(words))
    qemu = shutil.which('qemu-aarch64')
    folder = options.keep or tempfile.mkdtemp(prefix='svemu-suites.')
    if options.keep:
        os.mkdir(folder)
    counts, began, shown = {}, time.monotonic(), sys.stderr.isatty()
    try:
        runtime = made_once(folder, options)
        tests = list({'GCC': tests_of_gcc, 'COMPILER_RT': tests_of_compiler_rt, 'GLIBC': tests_of_glibc}[suite](tree, options, folder))
        if not tests:
            raise Failure('there is no such test in %s' % tree)
        for k, test in enumerate(tests):
            if shown:
                sys.stderr.write('\r%d of %d tests, %d seconds ' % (k, len(tests), time.monotonic() - began))
            count = counts.setdefault(test.group, Count())
            count.tests += 1
            program = os.path.join(folder, re.sub(r'\W+', '_', test.group + '_' + test.name) + '.elf')
            words = [GCC, *options.options, *FLAGS, '-o', program, *runtime, *test.words, '-lgcc']
            built = subprocess.run(words, capture_output=True, check=False)
            if built.returncode == 0 and NO_ANSWER.search(built.stderr):
                # Freestanding, the answer of a main that has none is whatever its register held.
                built = subprocess.run([*words, '-fhosted'], capture_output=True, check=False)
            if built.returncode != 0:
                count.unbuilt += 1
                why = unbuilt(built.stderr.decode(errors='replace'))
                count.why.setdefault(why, []).append(test.name)
                continue
            count.built += 1
            run_test(count, test, program, options, qemu)
            if not options.keep:
                os.remove(program)
    finally:
        if shown:
            sys.stderr.write('\n')
        if not options.keep:
            shutil.rmtree(folder, ignore_errors=True)
    report(counts, options, told, qemu)
    return int(any(count.differ for count in counts.values()))


def report(counts, options, told, qemu):
    print('%s, %s, %s' % (told, subprocess.run([GCC, '--version'], capture_output=True, text=True, check=True).stdout.splitlines()[0],
                          ' '.join(options.options)))
    print('%s at %s bits' % ('each test' if options.sample == 1 else 'one test in %d' % options.sample, ', '.join(map(str, options.lengths))))
    print('the processor seconds are of the runs inside the table that are compared, of both')
    print('| Tests | Built | Runs | Inside the table | Agree | Differ | Million steps | svemu, s | QEMU, s |')
    print('|---|---|---|---|---|---|---|---|---|')
    for group, count in counts.items():
        print('| %s: %d | %d | %d | %d | %d | %d | %.1f | %.1f | %s |' % (
            group, count.tests, count.built, count.runs, count.inside, count.agree, len(count.differ), count.steps / 1e6, count.svemu,
            '%.1f' % count.qemu if qemu else 'not there'))
    for group, count in counts.items():
        print('%s: %d tests aren\'t built' % (group, count.unbuilt))
        reasons = sorted(count.why.items(), key=lambda pair: (-len(pair[1]), pair[0]))
        for why, names in reasons[:12]:
            print('  %4d: %s (%s)' % (len(names), why, names[0]))
        if len(reasons) > 12:
            print('  %4d for other reasons' % sum(len(names) for _, names in reasons[12:]))
        print('%s: %d tests meet an instruction outside of the table' % (group, len(count.outside_tests)))
        for word, tests in sorted(count.outside.items(), key=lambda pair: (-len(pair[1]), pair[0])):
            print('  %4d by %s' % (len(tests), word))
        for said, times in sorted({**count.refused, **count.other}.items()):
            print('  %4d runs: %s' % (times, said))
        for line in count.differ:
            print('  differs: %s' % line)


if __name__ == '__main__':
    try:
        sys.exit(main(*sys.argv[1:]))
    except (Failure, OSError, IndexError) as error:
        sys.stderr.write('suites.sh: %s\n' % error)
        sys.exit(2)
    except KeyboardInterrupt:
        sys.exit(130)
