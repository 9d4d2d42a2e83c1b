"""Compares the `requires` and `ensures` of two trees of these sources, function by function."""

import difflib
import os
import sys

sys.dont_write_bytecode = True
from rust_items import Parser, tokens_of  # noqa: E402

USAGE = """\
usage: clauses.py OLD NEW

Reads the contracts of all functions below crates/*/src of the trees OLD and NEW, and prints by function the clauses
that are gone, other or new. Of a clause that is other a line tells whether only names changed in it. A function that
stands elsewhere with the same contract is told as moved, and its clauses are the same. What a clause says also depends
on the definitions that it cites, so files of specs/ that are other are named at the end. The last line has the numbers.

Comments and layout don't count. A `requires` that is new on a function that was there asks more than before, so it is
told as `asks`.

status: 0 where no clause is gone or other and none asks more, 1 where one is or does, 2 where a tree can't be read
"""


def sources(tree):
    """The crates of a tree with their sources: pairs of `crate/src/file.rt` and its text."""
    crates = os.path.join(tree, 'crates')
    if not os.path.isdir(crates):
        raise OSError('%s has no folder crates' % tree)
    for crate in sorted(os.listdir(crates)):
        for folder, _, files in sorted(os.walk(os.path.join(crates, crate, 'src'))):
            for name in sorted(files):
                if name.endswith('.rt'):
                    path = os.path.join(folder, name)
                    with open(path, encoding='utf-8') as file:
                        yield os.path.relpath(path, crates), file.read()


def contracts(tree):
    """The contract of each function, by its crate, its file and its name there, `lane_ops: sums: impl Op1 for Neg: one`;
    and the names of those that are private."""
    out, private = {}, set()

    def read(items, place, above):
        for item in items:
            if item['kind'] == 'fn':
                name = ': '.join([place, *above, item['name']])
                held = [(kind, label, tuple(words)) for kind, label, words in item['contract'] if kind != 'decreases']
                out.setdefault(name, []).extend(held)
                if not item['pub'] and not any(part.startswith('trait ') or ' for ' in part for part in above):
                    private.add(name)
            elif item['kind'] == 'mod':
                read(item.get('items', []), place, above + [item['name']])
            elif item['kind'] == 'trait':
                read(item['items'], place, above + ['trait ' + item['name']])
            elif item['kind'] == 'impl':
                kind = ' '.join(item['type'])
                of = '%s for %s' % (' '.join(item['trait']), kind) if item['trait'] else kind
                read(item['items'], place, above + ['impl ' + of])

    for path, text in sources(tree):
        try:
            items = Parser(tokens_of(text), path).items()
        except (AttributeError, IndexError):
            raise OSError("%s can't be read" % path) from None
        crate, _, file = path.partition(os.sep + 'src' + os.sep)
        read(items, '%s: %s' % (crate, file[:-3]), [])
    return out, private


def moved(old, new):
    """The functions of OLD that stand elsewhere in NEW under the same name, with the same contract: pairs of names."""
    gone = [name for name in old if name not in new and old[name]]
    came = [name for name in new if name not in old and new[name]]
    pairs = []
    for name in gone:
        for exactly in (True, False):
            # The same contract first; else the only function of this name, whose clauses are then compared.
            fits = [other for other in came if other.rsplit(': ', 1)[1] == name.rsplit(': ', 1)[1]
                    and (old[name] == new[other] if exactly else True)]
            if exactly and fits or not exactly and len(fits) == 1:
                came.remove(fits[0])
                pairs.append((name, fits[0]))
                break
    return pairs


def differences(was, now):
    """The clauses of two contracts that aren't the same: those that are gone, pairs of those that are other, and new."""
    gone, came = list(was), list(now)
    for clause in was:
        if clause in came:
            gone.remove(clause)
            came.remove(clause)
    other = []
    # The same words under another name; the same name with other words; those without a name in their order; else those
    # that are mostly the same.
    for same in (lambda a, b: a[2] == b[2], lambda a, b: a[1] and a[1] == b[1], lambda a, b: not a[1] and not b[1], is_near):
        for clause in list(gone):
            fit = next((new for new in came if new[0] == clause[0] and same(clause, new)), None)
            if fit:
                gone.remove(clause)
                came.remove(fit)
                other.append((clause, fit))
    return gone, other, came


def is_near(was, now):
    return difflib.SequenceMatcher(None, was[2], now[2], autojunk=False).ratio() > 0.6


def renamed(was, now):
    """Whether two clauses differ in names alone, the same one for the same one: then these names, else nothing."""
    if was[2] == now[2]:
        return {was[1] or 'no name': now[1] or 'no name'}
    if len(was[2]) != len(now[2]):
        return None
    to = {}
    for a, b in zip(was[2], now[2]):
        is_name = a[0].isalpha() and b[0].isalpha() or a == b
        if not is_name or to.setdefault(a, b) != b:
            return None
    changed = {a: b for a, b in to.items() if a != b}
    return changed if len(set(to.values())) == len(to) else None


def shown(clause):
    kind, label, words = clause
    return ' '.join([kind, *([label] if label else []), '{', *words, '}'])


def changed_words(was, now):
    """The words of two clauses that differ, each with two words around it."""
    for tag, i, j, k, m in difflib.SequenceMatcher(None, was[2], now[2], autojunk=False).get_opcodes():
        if tag != 'equal':
            yield '    .. %s [%s] -> [%s] %s ..' % (' '.join(was[2][max(i - 4, 0):i]), ' '.join(was[2][i:j]),
                                                  ' '.join(now[2][k:m]), ' '.join(was[2][j:j + 4]))


def definitions(tree):
    """The files of specs/ and their bytes."""
    out = {}
    for folder, folders, files in os.walk(os.path.join(tree, 'crates')):
        # what builds leave
        folders[:] = [name for name in folders if name != 'out']
        for name in files:
            path = os.path.join(folder, name)
            if name.endswith('.antt') and 'specs' in os.path.relpath(path, tree).split(os.sep):
                with open(path, 'rb') as file:
                    out[os.path.relpath(path, tree)] = file.read()
    return out


def main(words):
    if words == ['--help']:
        sys.stdout.write(USAGE)
        return 0
    if len(words) != 2:
        sys.stderr.write('clauses.py: two trees are wanted (--help shows how)\n')
        return 2
    try:
        (old, were_private), (new, _) = contracts(words[0]), contracts(words[1])
        before, behind = definitions(words[0]), definitions(words[1])
    except (OSError, UnicodeDecodeError) as error:
        sys.stderr.write('clauses.py: %s\n' % error)
        return 2
    same = counts = 0
    numbers = {'gone': 0, 'other': 0, 'of names alone': 0, 'asks': 0, 'new': 0}
    pairs = [(name, name) for name in old if name in new] + moved(old, new)
    places = dict(pairs)
    for name in list(old) + [name for name in new if name not in places.values()]:
        to = places.get(name)
        gone, other, came = differences(old.get(name, []), new.get(to or name, []) if to or name not in old else [])
        counts += 1
        same += len(old.get(name, [])) - len(gone) - len(other)
        lines = ['  gone: ' + shown(clause) for clause in gone]
        for was, now in other:
            names = renamed(was, now)
            numbers['of names alone'] += names is not None
            lines.append('  other: ' + ' '.join(shown(was).split()[:2]) + (
                ', names alone: ' + ', '.join('%s -> %s' % pair for pair in names.items()) if names else ''))
            lines += changed_words(was, now) if names is None else []
        asks = [clause for clause in came if name in old and clause[0] == 'requires']
        lines += ['  asks: ' + shown(clause) for clause in asks]
        lines += ['  new: ' + shown(clause) for clause in came if clause not in asks]
        numbers['gone'] += len(gone)
        numbers['other'] += len(other)
        numbers['asks'] += len(asks)
        numbers['new'] += len(came) - len(asks)
        if to not in (None, name):
            lines.insert(0, '  moved to ' + to)
        if lines:
            state = ' (new)' if name not in old else ' (gone)' if to is None else ''
            print('\n'.join([name + (' (private)' if name in were_private else '') + state] + lines))
    for path in sorted(set(before) | set(behind)):
        if before.get(path) != behind.get(path):
            state = 'gone' if path not in behind else 'new' if path not in before else 'other'
            print('definitions: %s is %s' % (path, state))
    print('%d functions: %d clauses the same, %d gone, %d other (%d of names alone), %d ask more, %d new' % (
        counts, same, numbers['gone'], numbers['other'], numbers['of names alone'], numbers['asks'], numbers['new']))
    return int(numbers['gone'] + numbers['other'] + numbers['asks'] > 0)


if __name__ == '__main__':
    try:
        sys.exit(main(sys.argv[1:]))
    except BrokenPipeError:
        os.dup2(os.open(os.devnull, os.O_WRONLY), 1)
        sys.exit(1)
