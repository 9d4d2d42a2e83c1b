"""Compares the public surface that tests/surface.txt lists with the sources.

    python3 tests/surface.py [--list FILE] [--names] [CRATE..]
    python3 tests/surface.py --chain [CRATE]    the longest chain of crates, or the longest that ends in CRATE

tests/surface.txt says, crate by crate, which functions, types, fields, variants and traits other programs find at the
root of a crate, in the form in which Rust declares them, and on which crates some crates stand. Each is looked for
where it is said to be: `pub` names at the root, through `pub use`, are followed to the crate where they are declared.
Compared are:

    pub struct NAME { .. }          that there is such a type; `..` says that its fields are its own
    pub struct NAME { a: T, .. }    its public fields with their types, all of them but where `..` stands
    pub enum NAME { A, B(T), .. }   its variants with what they hold, in any order
    A { a, b }                      without types: the names of the fields alone
    pub trait NAME { .. }           its members with their signatures, all of them
    pub fn ..;                      its signature: the types of the parameters, the answer, what generics ask for
    impl NAME { pub fn ..; }        the same of the functions of a type
    impl TRAIT for NAME;            that the type has the trait, by itself or by what it has
    stands on A B;                  what crates.txt says that it stands on, without the crates of others
    type A = B;                     before the first crate: two names of one type

Lifetimes, the names of generics and the way in which a line is wrapped don't matter; names of parameters do with
--names. With CRATEs only these are compared. Each difference is a line; the last line is 'N listed, M differ', and the
status is 1 where M isn't 0.
"""

import os
import re
import sys

sys.dont_write_bytecode = True

from rust_items import Parser, tokens_of

TOP = os.path.dirname(os.path.dirname(os.path.abspath(__file__)))


class Module:
    """A module of a crate: what it declares by name, and what it brings in."""

    def __init__(self, crate, path, items, above, folder, files):
        self.crate, self.path, self.above = crate, path, above
        self.names, self.uses, self.impls, self.children = {}, [], [], {}
        for item in items:
            if item['kind'] == 'use':
                self.uses += item['uses']
            elif item['kind'] == 'impl':
                self.impls.append(item)
            elif item['kind'] == 'mod':
                name = item['name']
                inner = item.get('items')
                below = os.path.join(folder, name)
                if inner is None:
                    file = next((f for f in (below + '.rt', os.path.join(below, 'mod.rt')) if os.path.exists(f)), None)
                    if file is None:
                        continue
                    files.append(file)
                    inner = parsed(file)
                self.children[name] = (Module(crate, path + [name], inner, self, below, files), item['pub'])
            elif 'name' in item:
                self.names.setdefault(item['name'], []).append(item)

    def every(self):
        yield self
        for module, _ in self.children.values():
            yield from module.every()


def parsed(file):
    with open(file, encoding='utf-8') as opened:
        return Parser(tokens_of(opened.read()), os.path.relpath(file, TOP)).items()


class Sources:
    def __init__(self):
        self.roots = {}

    def root(self, crate):
        if crate not in self.roots:
            folder = os.path.join(TOP, 'crates', crate, 'src')
            root = next((f for f in ('lib.rt', 'main.rt') if os.path.exists(os.path.join(folder, f))), None)
            self.roots[crate] = root and Module(crate, [], parsed(os.path.join(folder, root)), None, folder, [])
        return self.roots[crate]

    def find(self, module, name, inside, seen=None):
        """What a name means in a module: pairs of the module that declares it and the item. From outside only what
        is public counts."""
        seen = seen or set()
        if (id(module), name) in seen:
            return []
        seen = seen | {(id(module), name)}
        found = [(module, item) for item in module.names.get(name, []) if item['pub'] or inside]
        if name in module.children and (module.children[name][1] or inside):
            found.append((module.children[name][0], None))
        if found:
            return found
        for here, path, public in module.uses:
            if (public or inside) and here == name:
                found += self.follow(module, path, seen)
        if not found:
            for here, path, public in module.uses:
                if (public or inside) and here == '*':
                    for place, item in self.follow(module, path, seen):
                        if item is None:
                            found += self.find(place, name, place.crate == module.crate, seen)
        return found

    def follow(self, module, path, seen=None):
        """What a path means that stands in a module."""
        path = list(path)
        first = path.pop(0)
        if first in ('crate', 'self', 'super'):
            place = self.root(module.crate) if first == 'crate' else module if first == 'self' else module.above
            while path and path[0] == 'super':
                path.pop(0)
                place = place.above
            places = [(place, None)]
        else:
            # A name that a `use` of a crate brings in is that crate's, not the use itself again.
            places = [] if not path and any(h == first and p == [first] for h, p, _ in module.uses) else \
                self.find(module, first, True, seen)
            if not places and self.root(first):
                places = [(self.root(first), None)]
        for name in path:
            further = []
            for place, item in places:
                if item is None:
                    further += self.find(place, name, place.crate == module.crate, seen)
            places = further
        return places

    def impls(self, module):
        for place in self.root(module.crate).every():
            for item in place.impls:
                yield place, item


def last_name(tokens):
    """The name of a type: the last word of its path, before its generics."""
    name = ''
    for word in tokens:
        if word == '<':
            break
        if re.match(r'\w', word):
            name = word
    return name


def plain(tokens):
    """A type without lifetimes and without the paths before names."""
    out = []
    words = [w for w in tokens if not w.startswith("'")]
    for k, word in enumerate(words):
        if word == ',' and (not out or out[-1] in ('<', ',') or (k + 1 < len(words) and words[k + 1] in ('>', ')'))):
            # `<'a, T>` without its lifetime, and a comma at an end.
            if not (out and out[-1] not in ('<', ',') and words[k + 1] == ')' and '(' in out and is_single(out)):
                continue
        if word == '::':
            if out and re.match(r'\w', out[-1]):
                out.pop()
            continue
        out.append(word)
    text = ' '.join(out).replace('< >', '')
    return text.split()


def is_single(out):
    """Whether a tuple of one is open, whose comma says that it is a tuple."""
    depth = 0
    for word in reversed(out):
        depth += (word in ')]}>') - (word in '([{<')
        if depth < 0:
            return word == '('
        if depth == 0 and word == ',':
            return False
    return False


def shown(tokens):
    text = ' '.join(tokens)
    for mark in ('::', '<', '>', '(', ')', '[', ']', ';', ',', ':'):
        text = text.replace(' ' + mark, mark)
    for mark in ('::', '<', '(', '[', '&'):
        text = text.replace(mark + ' ', mark)
    return text.replace('fn<>', 'fn').replace('->(', '-> (').replace('- >', '->')


class Compared:
    """A type's or a function's words, made comparable: aliases are followed, generics numbered."""

    def __init__(self, sources, same, with_names):
        self.sources, self.same, self.with_names = sources, same, with_names

    def names(self, tokens, module, itself):
        """Words of a source with their names as they are declared: `use X as Y` and `Self` are followed."""
        out = []
        for word in plain(tokens):
            if word == 'Self' and itself:
                out += itself
                continue
            if re.match(r'[A-Z]', word) and module is not None:
                for here, path, _ in module.uses:
                    if here == word and path and path[-1] != word:
                        word = path[-1]
                        break
            out.append(word)
        return out

    def alias(self, tokens, module, done=()):
        """The same with what they stand for in place of aliases of types."""
        out = []
        for word in tokens:
            found = []
            if word in self.same:
                out += self.alias(self.same[word], module, done)
                continue
            if re.match(r'[A-Z]', word) and word not in done:
                found = [(place, item) for place, item in self.sources.find(module, word, True)
                         if item and item['kind'] == 'type' and not item['generics']]
            out += self.alias(plain(found[0][1]['is']), found[0][0], done + (word,)) if found else [word]
        return out

    def parameter(self, tokens):
        """A parameter without the `mut` of its pattern, and without its name unless names count."""
        tokens = tokens[1:] if tokens[:1] == ['mut'] else tokens
        return tokens if self.with_names or tokens[1:2] != [':'] else tokens[2:]

    def function(self, item, outer, module, itself):
        """A signature as text: generics by number, with what they ask for in order of names."""
        generics = outer + item['generics']
        number = {name: '#%d' % k for k, (name, _) in enumerate(generics)}

        def made(tokens):
            return ' '.join(number.get(w, w) for w in self.names(tokens, module, itself))

        asks = []
        for name, tokens in generics:
            parts, depth, part = [], 0, []
            for word in tokens:
                depth += (word in '<([') - (word in '>)]')
                if word == '+' and not depth:
                    parts.append(made(part))
                    part = []
                else:
                    part.append(word)
            parts.append(made(part))
            asks.append('%s: %s' % (number.get(name, name), ' + '.join(sorted(p for p in parts if p))))
        parameters = [made(self.parameter(p)) for p in item['parameters']]
        return '<%s> (%s) -> %s' % ('; '.join(asks), ', '.join(parameters), made(item['answer']))



class Comparison:
    def __init__(self, same, with_names):
        self.sources = Sources()
        self.compared = Compared(self.sources, same, with_names)
        self.listed = 0
        self.faults = []
        with open(os.path.join(TOP, 'crates.txt'), encoding='utf-8') as opened:
            lines = [line.split(':') for line in opened if ':' in line and not line.startswith('#')]
        self.stands = {name: rest.split() for name, rest in lines}

    def fault(self, crate, text):
        text = '%s: %s' % (crate, text)
        if text not in self.faults:
            self.faults.append(text)

    def declared(self, crate, name, kinds):
        """The declaration of a public name at a crate's root."""
        found = [(m, i) for m, i in self.sources.find(self.sources.root(crate), name, False) if i]
        found = [self.unalias(m, i, kinds) for m, i in found]
        return next(((m, i, g) for m, i, g in found if i['kind'] in kinds), None)

    def unalias(self, module, item, kinds):
        """A type behind its aliases, with what its generics are there."""
        given = {}
        while item['kind'] == 'type' and 'type' not in kinds:
            tokens = item['is']
            start = tokens.index('<') if '<' in tokens else len(tokens)
            arguments = Parser(tokens[start + 1:-1], '').arguments() if start < len(tokens) else []
            found = [(m, i) for m, i in self.sources.follow(module, [t for t in tokens[:start] if t != '::']) if i]
            if not found:
                break
            arguments = [self.compared.names(a, module, None) for a in arguments]
            module, item = found[0]
            given = dict(zip([n for n, _ in item.get('generics', [])], arguments))
        return module, item, given

    def type_text(self, tokens, module, given, number):
        words = self.compared.names(tokens, module, None)
        out = []
        for word in words:
            out += given.get(word, [number.get(word, word)])
        return ' '.join(out)

    def are_one(self, is_now, module, should, root):
        """Whether two types or signatures are the same, aliases apart."""
        return is_now == should or self.compared.alias(is_now.split(), module) == self.compared.alias(
            should.split(), root)

    def fields(self, crate, name, wanted, module, got, given, number):
        """The listed fields against those of the source, which may be more only where the list says so."""
        want, rest = wanted
        have = dict(got)
        for field, kind in want:
            if field not in have:
                self.fault(crate, '%s has no field %s' % (name, field))
            elif kind is not None:
                is_now = self.type_text(have[field], module, given, number[1])
                should = self.type_text(kind, None, {}, number[0])
                if not self.are_one(is_now, module, should, self.sources.root(crate)):
                    self.fault(crate, '%s.%s is %s, not %s' % (
                        name, field, shown(is_now.split()), shown(should.split())))
        more = [field for field, _ in got if field not in [f for f, _ in want]]
        if more and not rest:
            self.fault(crate, '%s has the fields %s, which are not listed' % (name, ' '.join(more)))

    def type(self, crate, item):
        name = item['name']
        found = self.declared(crate, name, ('struct', 'enum', 'union'))
        if not found:
            self.fault(crate, 'there is no public type %s at its root' % name)
            return
        module, have, given = found
        if item['kind'] == 'struct' and not item['fields'][0] and item['fields'][2]:
            return
        if have['kind'] != item['kind']:
            self.fault(crate, '%s is no %s' % (name, item['kind']))
            return
        number = ({n: '#%d' % k for k, (n, _) in enumerate(item['generics'])},
                  {n: '#%d' % k for k, (n, _) in enumerate(have['generics']) if n not in given})
        if item['kind'] == 'struct':
            self.fields(crate, name, (item['fields'][1], item['fields'][2]), module, have['fields'][0], given, number)
            return
        variants = {v[0]: v for v in have['variants']}
        for variant, shape, (fields, rest) in item['variants']:
            full = '%s::%s' % (name, variant)
            if variant not in variants:
                self.fault(crate, 'there is no variant %s' % full)
            elif variants[variant][1] != shape:
                self.fault(crate, '%s holds something else' % full)
            else:
                self.fields(crate, full, (fields, rest), module, variants[variant][2][0], given, number)
        more = [v for v in variants if v not in [w[0] for w in item['variants']]]
        if more:
            self.fault(crate, '%s has the variants %s, which are not listed' % (name, ' '.join(more)))

    def same_function(self, crate, full, want, want_in, have, have_in, module):
        """A listed function against that of the source; each in its impl or trait, where it has one."""
        should = self.compared.function(want, want_in.get('generics', []), None, self.numbered(want_in))
        is_now = self.compared.function(have, have_in.get('generics', []), module, self.numbered(have_in))
        if not self.are_one(is_now, module, should, self.sources.root(crate)):
            self.fault(crate, '%s is %s, not %s' % (full, shown(['fn'] + is_now.split()),
                                                    shown(['fn'] + should.split())))

    def function(self, crate, item):
        self.listed += 1
        found = self.declared(crate, item['name'], ('fn',))
        if not found:
            self.fault(crate, 'there is no public function %s at its root' % item['name'])
            return
        module, have, _ = found
        self.same_function(crate, item['name'], item, {}, have, {}, module)

    def trait(self, crate, item):
        name = item['name']
        self.listed += 1
        found = self.declared(crate, name, ('trait',))
        if not found:
            self.fault(crate, 'there is no public trait %s at its root' % name)
            return
        module, have, _ = found
        members = {i['name']: i for i in have['items'] if i['kind'] in ('fn', 'const', 'type')}
        for member in item['items']:
            self.listed += 1
            full = '%s::%s' % (name, member['name'])
            got = members.pop(member['name'], None)
            if not got or got['kind'] != member['kind']:
                self.fault(crate, 'there is no member %s' % full)
            elif member['kind'] == 'fn':
                self.same_function(crate, full, member, item, got, have, module)
            elif member['kind'] == 'const' and plain(member['type']) != plain(got['type']):
                self.fault(crate, '%s is %s' % (full, shown(got['type'])))
        if members:
            self.fault(crate, '%s has the members %s, which are not listed' % (name, ' '.join(members)))

    def methods(self, crate, item):
        name = last_name(item['type'])
        found = self.declared(crate, name, ('struct', 'enum', 'union'))
        if not found:
            self.listed += len(item['items'])
            self.fault(crate, 'there is no public type %s at its root' % name)
            return
        module, have, _ = found
        known = {}
        for place, other in self.sources.impls(module):
            if other['trait'] is None and last_name(other['type']) == have['name']:
                for member in other['items']:
                    if member['kind'] == 'fn' and member['pub']:
                        known[member['name']] = (place, other, member)
        for member in item['items']:
            self.listed += 1
            full = '%s::%s' % (name, member['name'])
            if member['name'] not in known:
                self.fault(crate, 'there is no public function %s' % full)
                continue
            place, other, got = known[member['name']]
            self.same_function(crate, full, member, item, got, other, place)

    def numbered(self, item):
        """The type of an impl with its generics by number, for `Self`; none of a trait."""
        if item.get('kind') != 'impl':
            return None
        number = {n: '#%d' % k for k, (n, _) in enumerate(item['generics'])}
        return [number.get(w, w) for w in plain(item['type'])]

    def has_trait(self, name, trait, module, depth=0):
        """Whether a type has a trait: by an impl of its own, or by one for all types that have others."""
        crates = [module.crate] + [c for c in self.stands.get(module.crate, []) if self.sources.root(c)]
        every = [(p, i) for c in crates for p in self.sources.root(c).every() for i in p.impls if i['trait']]
        for place, item in every:
            if last_name(item['trait']) != trait:
                continue
            target = last_name(item['type'])
            if target == name:
                return True
            asks = dict(item['generics']).get(target)
            if asks and depth < 3:
                needed = [last_name(part.split()) for part in ' '.join(asks).split('+')]
                if needed and all(self.has_trait(name, one, module, depth + 1) for one in needed if one):
                    return True
        return False

    def has(self, crate, item):
        self.listed += 1
        name, trait = last_name(item['type']), last_name(item['trait'])
        found = self.declared(crate, name, ('struct', 'enum', 'union'))
        module = found[0] if found else self.sources.root(crate) if name[0].islower() else None
        if module is None:
            self.fault(crate, 'there is no public type %s at its root' % name)
        elif not self.has_trait(found[1]['name'] if found else name, trait, module):
            self.fault(crate, '%s has no %s' % (name, trait))

    def crate(self, crate, items):
        self.listed += 1
        if crate not in self.stands or not self.sources.root(crate):
            self.fault(crate, 'there is no such crate')
            return
        for item in items:
            kind = item['kind']
            if kind == 'stands':
                self.listed += 1
                ours = [name for name in self.stands[crate] if name in self.stands]
                if sorted(ours) != sorted(name for name in item['crates'] if name != 'nothing'):
                    self.fault(crate, 'it stands on %s, not on %s' % (
                        ' '.join(ours) or 'nothing', ' '.join(item['crates'])))
            elif kind in ('struct', 'enum'):
                self.listed += 1 + len(item.get('variants', []))
                self.type(crate, item)
            elif kind == 'fn':
                self.function(crate, item)
            elif kind == 'trait':
                self.trait(crate, item)
            elif kind == 'impl' and item['trait'] is None:
                self.methods(crate, item)
            elif kind == 'impl':
                self.has(crate, item)
            else:
                raise SystemExit('surface.txt: nothing is compared of a %s' % kind)


def crates_of(text):
    """What the list says before its crates, and these, each with its items."""
    parts = re.split(r'(?m)^crate (\w+)$', text)
    every = [Parser(tokens_of(part), 'tests/surface.txt').items() for part in parts[::2]]
    return {item['name']: plain(item['is']) for item in every[0]}, list(zip(parts[1::2], every[1:]))


def longest_chain(stands, crate):
    """The longest chain of crates, lowest first, that ends in this one, or in any."""
    chains = {}
    for name in stands:
        below = [chains[low] for low in stands[name] if low in chains]
        chains[name] = max(below, key=len, default=[]) + [name]
    return chains[crate] if crate else max(chains.values(), key=len)


def main(words):
    if '--help' in words or '-h' in words:
        print(__doc__.strip())
        return 0
    file, with_names = os.path.join(TOP, 'tests', 'surface.txt'), '--names' in words
    words = [word for word in words if word != '--names']
    if words[:1] == ['--list']:
        if len(words) < 2:
            print('surface.py: --list needs a file', file=sys.stderr)
            return 2
        file, words = words[1], words[2:]
    try:
        with open(file, encoding='utf-8') as opened:
            same, listed = crates_of(opened.read())
    except OSError as error:
        print('surface.py: %s: %s' % (file, error.strerror), file=sys.stderr)
        return 2
    if words[:1] == ['--chain']:
        stands = Comparison(same, with_names).stands
        if len(words) > 2 or words[1:] and words[1] not in stands:
            print('surface.py: --chain takes one crate of crates.txt; see --help', file=sys.stderr)
            return 2
        chain = longest_chain(stands, words[1] if words[1:] else None)
        print('%d crates: %s' % (len(chain), ' '.join(chain)))
        return 0
    unknown = [word for word in words if word not in [name for name, _ in listed]]
    if unknown:
        print('surface.py: the list has no crate %s; see --help' % unknown[0], file=sys.stderr)
        return 2
    comparison = Comparison(same, with_names)
    for name, items in listed:
        if not words or name in words:
            comparison.crate(name, items)
    for fault in comparison.faults:
        print(fault)
    print('%d listed, %d differ' % (comparison.listed, len(comparison.faults)))
    return 1 if comparison.faults else 0


if __name__ == '__main__':
    sys.exit(main(sys.argv[1:]))
