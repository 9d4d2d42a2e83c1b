"""The commands that the documents show without a `$` in front: each is run, or the list says by what or why not."""

import re
import sys

USAGE = """\
usage: commands.py [LIST]

Finds the commands that README, docs/MANUAL.md, docs/READING.md, docs/TESTING_YOUR_CODE.md and examples/README.md show in
their text, between backquotes, and in lines that are set in, but for those behind a `$ `, which tests/documents.sh runs
as they stand. Each has to match a line of LIST, tests/commands.txt without one, by its first words `run`, `by` or `not`.
Those to run are written, one a line, with the status that they should end with in front.

status: 0, or 1 with a line for each command that no line has, each line that has no command, and each part that there
isn't
"""

DOCUMENTS = ['README.md', 'docs/MANUAL.md', 'docs/READING.md', 'docs/TESTING_YOUR_CODE.md', 'examples/README.md']
COMMAND = re.compile(r'(?:\./svemu|svemu(?:-\w+)?|tools/[\w-]+|tests/\S+|make|apt|sh|python3|rt|aarch64-linux-gnu-\S+|clang(?:\+\+)?'
                     r'|llvm-\S+|gcc|cmake|ctest|lit|qemu-aarch64)(?: |$)')
LINE = re.compile(r'(run \d+|by [^:]+|not, [^:]+): (.+)')


def commands_of(document):
    with open(document, encoding='utf-8') as file:
        text = file.read()
    # Blocks between ``` are run by tests/recipes.sh.
    text = re.sub(r'^```.*?^```$', '', text, flags=re.S | re.M)
    prose, sample = [], False
    for line in text.split('\n'):
        if not line.startswith('    '):
            sample = False
            prose.append(line)
        elif line.startswith('    $ '):
            sample = True
        elif not sample and COMMAND.match(line.strip()):
            yield re.sub(r'\s+# .*', '', line.strip())
    for span in re.findall(r'`([^`]+)`', '\n'.join(prose)):
        span = ' '.join(span.split())
        # A name alone is no command.
        if ' ' in span and COMMAND.match(span):
            yield span


def main(words):
    if words == ['--help']:
        sys.stdout.write(USAGE)
        return 0
    with open('tests/tools.sh', encoding='utf-8') as file:
        parts = set(re.findall(r'^    part "([^"]+)"', file.read(), re.M))
    with open(words[0] if words else 'tests/commands.txt', encoding='utf-8') as file:
        lines = [line for line in file.read().splitlines() if line and not line.startswith('#')]
    wrong, known, used = [], [], set()
    for line in lines:
        found = LINE.fullmatch(line)
        if not found:
            wrong.append('no line of this form: ' + line)
        elif found[1].startswith('by ') and found[1][3:] not in parts:
            wrong.append('there is no such part: ' + line)
        else:
            known.append((found[1], re.compile(found[2]), line))
    seen = set()
    for document in DOCUMENTS:
        for command in commands_of(document):
            how = next(((what, line) for what, pattern, line in known if pattern.fullmatch(command)), None)
            if how is None:
                wrong.append('%s shows, and no line has: %s' % (document, command))
            else:
                used.add(how[1])
                if how[0].startswith('run ') and command not in seen:
                    print(how[0][4:], command)
                seen.add(command)
    wrong += ['no document shows it: ' + line for _, _, line in known if line not in used]
    for line in wrong:
        print(line, file=sys.stderr)
    return int(bool(wrong))


if __name__ == '__main__':
    sys.exit(main(sys.argv[1:]))
