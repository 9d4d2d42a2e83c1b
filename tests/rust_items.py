"""Reads the items of a source: functions with their signatures and contracts, types with their fields and variants,
traits, impls, modules and uses. Bodies and what is for the prover alone are skipped. surface.py and clauses.py read
sources by it.
"""

import re

TOKEN = re.compile(
    r'''(?P<space>\s+|//[^\n]*)
    |(?P<string>b?"(?:[^"\\]|\\.)*"|r\#"(?:.|\n)*?"\#)
    |(?P<char>b?'(?:[^'\\\n]|\\(?:x[0-9a-fA-F]{2}|u\{[0-9a-fA-F]+\}|.))')
    |(?P<life>'[A-Za-z_]\w*)
    |(?P<word>[^\W\d]\w*|\d\w*)
    |(?P<two>->|=>|::|\.\.)
    |(?P<one>.)''', re.X | re.S)
OPEN = {'(': ')', '[': ']', '{': '}'}
CLAUSES = ('requires', 'ensures', 'decreases')


def tokens_of(text):
    """The tokens of a source, without comments; a block of comment is cut out first, as it may hold quotes."""
    out, at, depth = [], 0, 0
    while at < len(text):
        if text.startswith('/*', at):
            depth, at = 1, at + 2
            while depth and at < len(text):
                if text.startswith('*/', at):
                    depth, at = depth - 1, at + 2
                elif text.startswith('/*', at):
                    depth, at = depth + 1, at + 2
                else:
                    at += 1
            continue
        found = TOKEN.match(text, at)
        at = found.end()
        if found.lastgroup != 'space':
            out.append(found.group())
    return out


class Parser:
    """Reads the items of a source, and skips bodies and what is for the prover alone."""

    def __init__(self, tokens, where):
        self.t, self.i, self.where = tokens, 0, where

    def peek(self, ahead=0):
        return self.t[self.i + ahead] if self.i + ahead < len(self.t) else ''

    def next(self):
        self.i += 1
        return self.t[self.i - 1]

    def take(self, word):
        if self.peek() == word:
            self.i += 1
            return True
        return False

    def expect(self, word):
        if not self.take(word):
            raise SystemExit('%s: %r is expected before: %s' % (self.where, word, ' '.join(self.t[self.i:self.i + 12])))

    def group(self):
        """The tokens within the brackets that begin here."""
        depth, start = 0, self.i + 1
        while True:
            word = self.next()
            if word in OPEN:
                depth += 1
            elif word in OPEN.values():
                depth -= 1
                if not depth:
                    return self.t[start:self.i - 1]

    def until(self, *ends):
        """The tokens up to one of these outside of all brackets; angles count as brackets."""
        out, angles = [], 0
        while self.i < len(self.t):
            word = self.peek()
            if word in ends and not angles:
                return out
            if word in OPEN:
                start = self.i
                self.group()
                out += self.t[start:self.i]
                continue
            angles += (word == '<') - (word == '>')
            if word in OPEN.values():
                return out
            out.append(self.next())
        return out

    def generics(self):
        """The generics that stand here: pairs of a name and what it asks for; lifetimes are left out."""
        out = []
        if not self.take('<'):
            return out
        while not self.take('>'):
            if self.peek().startswith("'"):
                self.until(',', '>')
            elif self.take('const'):
                name = self.next()
                self.expect(':')
                out.append((name, ['const'] + self.until(',', '>', '=')))
            else:
                name = self.next()
                asks = self.until(',', '>', '=') if self.take(':') else []
                out.append((name, asks))
            if self.take('='):
                self.until(',', '>')
            self.take(',')
        return out

    def arguments(self):
        """What stands between commas, without lifetimes."""
        out = []
        while self.i < len(self.t):
            out.append(self.until(','))
            self.take(',')
        return [words for words in out if not words[0].startswith("'")]

    def where_clause(self, generics):
        if not self.take('where'):
            return generics
        more = {}
        while self.peek() not in ('{', ';', '') + CLAUSES:
            name = ' '.join(self.until(':'))
            self.expect(':')
            more.setdefault(name, []).extend(['+'] + self.until(',', '{', ';', *CLAUSES))
            self.take(',')
        return [(name, asks + more.pop(name, [])) for name, asks in generics] + list(more.items())

    def clauses(self):
        """The contract that stands here: triples of `requires`, `ensures` or `decreases`, the name or nothing, and the
        tokens."""
        out = []
        while self.peek() in CLAUSES:
            kind, names = self.next(), []
            while self.peek() != '{':
                names.append(self.next())
            out.append((kind, ' '.join(names), self.group()))
        return out

    def ghost(self):
        """Skips what ends in a semicolon."""
        while self.peek() != ';':
            if self.peek() in OPEN:
                self.group()
            else:
                self.next()
        self.next()

    def function(self):
        name = self.next()
        generics = self.generics()
        inner = Parser(self.group(), self.where)
        parameters = []
        while inner.i < len(inner.t):
            inner.attributes()
            parameters.append(inner.until(','))
            inner.take(',')
        answer = self.until('where', '{', ';', *CLAUSES) if self.take('->') else ['(', ')']
        generics = self.where_clause(generics)
        contract = self.clauses()
        has_body = not self.take(';')
        if has_body:
            self.group()
        return {'kind': 'fn', 'name': name, 'generics': generics, 'parameters': [p for p in parameters if p],
                'answer': answer, 'body': has_body, 'contract': contract}

    def attributes(self):
        while self.peek() == '#':
            self.next()
            self.take('!')
            self.group()

    def visibility(self):
        if not self.take('pub'):
            return False
        if self.peek() == '(':
            self.group()
            return False
        return True

    def fields(self):
        """Named fields, those that are public and all: pairs of a name and the tokens of its type."""
        seen, every, rest = [], [], False
        while self.i < len(self.t):
            self.attributes()
            if self.take('..'):
                rest = True
            elif self.take('ghost'):
                self.until(',')
            else:
                public = self.visibility()
                name = self.next()
                kind = self.until(',') if self.take(':') else None
                every.append((name, kind))
                if public:
                    seen.append((name, kind))
            self.take(',')
        return seen, every, rest

    def tuple(self):
        seen, every, rest = [], [], False
        while self.i < len(self.t):
            self.attributes()
            if self.take('..'):
                rest = True
                self.take(',')
                continue
            public = self.visibility()
            kind = self.until(',')
            every.append((str(len(every)), kind))
            if public:
                seen.append(every[-1])
            self.take(',')
        return seen, every, rest

    def variants(self):
        out = []
        while self.i < len(self.t):
            self.attributes()
            name = self.next()
            if self.peek() == '(':
                out.append((name, 'tuple', Parser(self.group(), self.where).tuple()[1:]))
            elif self.peek() == '{':
                out.append((name, 'named', Parser(self.group(), self.where).fields()[1:]))
            else:
                out.append((name, 'unit', ([], False)))
            if self.take('='):
                self.until(',')
            self.take(',')
        return out

    def uses(self, before, public):
        """What a `use` brings: triples of the name here, the path, and whether it is public."""
        path = list(before)
        while True:
            if self.peek() == '{':
                inner = Parser(self.group(), self.where)
                out = []
                while inner.i < len(inner.t):
                    out += inner.uses(path, public)
                    inner.take(',')
                return out
            if self.take('*'):
                return [('*', path, public)]
            word = self.next()
            if word != '::':
                path.append(word)
            if self.peek() == 'as':
                self.next()
                return [(self.next(), path, public)]
            if self.peek() in (';', ',', '', '}'):
                if path[-1] == 'self':
                    path = path[:-1]
                return [(path[-1], path, public)]

    def items(self):
        out = []
        while self.i < len(self.t):
            self.attributes()
            if self.i >= len(self.t):
                break
            if self.peek() == 'ghost':
                self.ghost()
                continue
            public = self.visibility()
            while self.peek() in ('unsafe', 'extern', 'async', 'default') or (
                    self.peek() == 'const' and self.peek(1) in ('fn', 'unsafe')) or self.peek().startswith('"'):
                self.next()
            word = self.next()
            if word == ';':
                continue
            item = {'kind': word, 'pub': public}
            if word == 'use':
                item['uses'] = self.uses([], public)
                self.expect(';')
            elif word == 'mod':
                item['name'] = self.next()
                if not self.take(';'):
                    item['items'] = Parser(self.group(), self.where).items()
            elif word == 'fn':
                item.update(self.function())
            elif word in ('struct', 'union'):
                item['name'] = self.next()
                item['generics'] = self.generics()
                item['fields'] = ([], [], False)
                if self.peek() == '(':
                    item['fields'] = Parser(self.group(), self.where).tuple()
                item['generics'] = self.where_clause(item['generics'])
                if self.peek() == '{':
                    item['fields'] = Parser(self.group(), self.where).fields()
                else:
                    self.expect(';')
            elif word == 'enum':
                item['name'] = self.next()
                item['generics'] = self.where_clause(self.generics())
                item['variants'] = Parser(self.group(), self.where).variants()
            elif word == 'trait':
                item['name'] = self.next()
                item['generics'] = self.generics()
                item['above'] = self.until('where', '{') if self.take(':') else []
                item['generics'] = self.where_clause(item['generics'])
                item['items'] = Parser(self.group(), self.where).items()
            elif word == 'impl':
                item['generics'] = self.generics()
                one = self.until('for', 'where', '{', ';')
                item['trait'], item['type'] = (one, self.until('where', '{', ';')) if self.take('for') else (None, one)
                item['generics'] = self.where_clause(item['generics'])
                item['items'] = [] if self.take(';') else Parser(self.group(), self.where).items()
            elif word == 'type':
                item['name'] = self.next()
                item['generics'] = self.generics()
                item['is'] = self.until(';') if self.take('=') else []
                self.until(';')
                self.expect(';')
            elif word in ('const', 'static'):
                self.take('mut')
                item['name'] = self.next()
                item['type'] = self.until('=', ';') if self.take(':') else []
                self.ghost()
            elif word == 'stands':
                self.expect('on')
                item['crates'] = self.until(';')
                self.expect(';')
            elif self.peek() == '!':
                self.next()
                if self.peek() not in OPEN:
                    self.next()
                self.group()
                self.take(';')
            else:
                raise SystemExit('%s: no item: %s' % (self.where, ' '.join(self.t[self.i - 1:self.i + 12])))
            out.append(item)
        return out
