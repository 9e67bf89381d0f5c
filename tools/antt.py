"""Reads definitions from .antt files and computes with them as they stand.

It reads the part of the language in which `specs/` define data: clauses with patterns, constructors,
records, λ, if, operators and qualified names. Definitions of types (relations) are passed over, and
whoever asks for one gets an Unread. What the library of the language gives (`map`, `find`, `take` and
so on) stands in `library` below.

    read = Definitions({'rtp_wire': 'crates/rtp_wire/specs'})
    first_fault = read.find('Rattle.rtp_wire.specs.Packet', 'first_fault')
    apply(first_fault, listed(b'\\x80'))

Numbers and Booleans are Python's. All other values are interned: equal values are one object, so that
`is` compares them. Each call of a definition is remembered by its arguments, since definitions over
whole lists ask the same again and again. forget() drops the values and the calls.
"""
import os
import re


class Unread(Exception):
    """A text is in no form that is read here."""


# ---- values

class Data:
    """A constructor with the arguments that it has so far. Lists are those of '∷' and '[]'."""
    __slots__ = ('name', 'parts')

    def __repr__(self):
        if self.name in ('∷', '[]'):
            return repr(items(self))
        return '(%s)' % ' '.join([self.name.split('.')[-1]] + [repr(part) for part in self.parts])


class Record:
    __slots__ = ('fields',)

    def __repr__(self):
        return '{%s}' % ', '.join('%s=%r' % field for field in self.fields.items())


class Tuple:
    __slots__ = ('parts',)

    def __repr__(self):
        return repr(self.parts)


class Integer:
    """An integer, which may be negative."""
    __slots__ = ('value',)

    def __repr__(self):
        return 'ℤ%d' % self.value


class Function:
    """A definition, which has a name, or a λ, with the arguments that it has so far."""
    __slots__ = ('arity', 'run', 'args', 'name')

    def __init__(self, arity, run, args=(), name=None):
        self.arity, self.run, self.args, self.name = arity, run, args, name


interned, answers = {}, {}


def forget():
    interned.clear()
    answers.clear()


def key(value):
    """What tells values apart; in Python True is 1."""
    return (bool, value) if type(value) is bool else value


def keys(values):
    return tuple(key(value) for value in values)


def intern(what, make):
    value = interned.get(what)
    if value is None:
        value = interned[what] = make()
    return value


def data(name, parts=()):
    def make():
        value = Data()
        value.name, value.parts = name, parts
        return value
    return intern((Data, name) + keys(parts), make)


def record(fields):
    def make():
        value = Record()
        value.fields = dict(fields)
        return value
    names = tuple(sorted(fields))
    return intern((Record, names) + keys(fields[name] for name in names), make)


def tupled(parts):
    def make():
        value = Tuple()
        value.parts = parts
        return value
    return intern((Tuple,) + keys(parts), make)


def integer(number):
    def make():
        value = Integer()
        value.value = number
        return value
    return intern((Integer, number), make)


def cons(head, tail):
    return data('∷', (head, tail))


def listed(values):
    out = data('[]')
    for value in reversed(list(values)):
        out = cons(value, out)
    return out


def items(values):
    out = []
    while values.name == '∷':
        out.append(values.parts[0])
        values = values.parts[1]
    assert values.name == '[]', values.name
    return out


def option(value):
    return data('None') if value is None else data('Some', (value,))


def apply(function, *args):
    while args:
        if type(function) is Data:
            return data(function.name, function.parts + args)
        have = function.args + args
        if len(have) < function.arity:
            return Function(function.arity, function.run, have, function.name)
        now, args = have[:function.arity], have[function.arity:]
        function = answer(function, now)
    return function


def answer(function, args):
    if function.name is None or any(type(arg) is Function for arg in args):
        return function.run(*args)
    what = (function.name,) + keys(args)
    if what not in answers:
        answers[what] = function.run(*args)
    return answers[what]


# ---- what the language's library gives

def truth(value):
    assert type(value) is bool, value
    return value


def passing(test, values):
    return (value for value in items(values) if truth(apply(test, value)))


def found(test, values):
    return option(next(passing(test, values), None))


def filter_mapped(function, values):
    got = [apply(function, value) for value in items(values)]
    return listed(value.parts[0] for value in got if value.name == 'Some')


def dropped(count, values):
    while count and values.name == '∷':
        values, count = values.parts[1], count - 1
    return values


def folded(function, value, values):
    for one in items(values):
        value = apply(function, value, one)
    return value


def looked_up(test, entries):
    for entry in items(entries):
        if truth(apply(test, entry.parts[0])):
            return option(entry.parts[1])
    return option(None)


def with_entry(same, entries, at, value):
    out, done = [], False
    for entry in items(entries):
        if not done and truth(apply(same, at, entry.parts[0])):
            entry, done = tupled((entry.parts[0], value)), True
        out.append(entry)
    return listed(out if done else out + [tupled((at, value))])


def at_or(values, place, otherwise):
    values = items(values)
    return values[place] if place < len(values) else otherwise


def number_of(width, values, order):
    return int.from_bytes(bytes((items(values) + [0] * width)[:width]), order)


def signed(width, number):
    return integer(number if number < 2**(8 * width - 1) else number - 2**(8 * width))


def library():
    functions = {
        'not': (1, lambda a: not truth(a)),
        'nat_eq': (2, lambda a, b: a == b),
        'nat_lt': (2, lambda a, b: a < b),
        'nat_le': (2, lambda a, b: a <= b),
        'bytes_eq': (2, lambda a, b: a is b),
        'min': (2, min),
        'max': (2, max),
        'suc': (1, lambda a: a + 1),
        'bit_or': (2, lambda a, b: a | b),
        'length': (1, lambda xs: len(items(xs))),
        'take': (2, lambda n, xs: listed(items(xs)[:n])),
        'drop': (2, dropped),
        'map': (2, lambda f, xs: listed(apply(f, x) for x in items(xs))),
        'filter': (2, lambda f, xs: listed(passing(f, xs))),
        'filter_map': (2, filter_mapped),
        'flat_map': (2, lambda f, xs: listed(y for x in items(xs) for y in items(apply(f, x)))),
        'find': (2, found),
        'fold': (3, folded),
        'reverse': (1, lambda xs: listed(reversed(items(xs)))),
        'replicate': (2, lambda n, x: listed([x] * n)),
        'slice_index': (2, lambda xs, i: at_or(xs, i, 0)),
        'slice_get': (2, lambda xs, i: option(at_or(xs, i, None))),
        'slice_range': (3, lambda xs, a, b: listed(items(xs)[a:b])),
        'count_by': (2, lambda f, xs: sum(1 for _ in passing(f, xs))),
        'sum_by': (2, lambda f, xs: sum(apply(f, x) for x in items(xs))),
        'list_any': (2, lambda f, xs: any(truth(apply(f, x)) for x in items(xs))),
        'list_all': (2, lambda f, xs: all(truth(apply(f, x)) for x in items(xs))),
        'range_with_len': (2, lambda a, n: listed(range(a, a + n))),
        'starts_with': (3, lambda same, xs, ys: items(xs)[:len(items(ys))] == items(ys)),
        'keep_last': (2, lambda n, xs: listed(items(xs)[max(0, len(items(xs)) - n):])),
        'lookup': (2, looked_up),
        'insert_entry': (4, with_entry),
        'is_some': (1, lambda o: o.name == 'Some'),
        'option_map': (2, lambda f, o: option(apply(f, o.parts[0])) if o.name == 'Some' else o),
        'option_to_list': (1, lambda o: listed(o.parts)),
        'option_or': (2, lambda a, b: a if a.name == 'Some' else b),
        'big_bytes': (2, lambda n, x: listed((x % 256**n).to_bytes(n, 'big'))),
        'little_bytes': (2, lambda n, x: listed((x % 256**n).to_bytes(n, 'little'))),
        'big_number': (2, lambda n, xs: number_of(n, xs, 'big')),
        'little_number': (2, lambda n, xs: number_of(n, xs, 'little')),
        'low_bytes': (3, lambda width, n, z: z.value % 256**n),
        'twos_complement': (2, signed),
        'pos': (1, integer),
        'neg_ℤ': (1, lambda z: integer(-z.value)),
    }
    given = {name: Function(arity, run) for name, (arity, run) in functions.items()}
    given.update({'zero': 0, 'true': True, 'false': False, 'w64': 64})
    return given


# each operator with how tight it binds, whether it groups to the right, and its meaning
OPERATORS = {
    '^': (75, True, lambda a, b: a ** b),
    '*': (70, False, lambda a, b: a * b),
    '/': (70, False, lambda a, b: a // b if b else 0),
    '%': (70, False, lambda a, b: a % b if b else a),
    '*ℤ': (70, False, lambda a, b: integer(a.value * b.value)),
    '+': (65, False, lambda a, b: a + b),
    '-': (65, False, lambda a, b: max(0, a - b)),
    '+ℤ': (65, False, lambda a, b: integer(a.value + b.value)),
    '-ℤ': (65, False, lambda a, b: integer(a.value - b.value)),
    '∷': (60, True, cons),
    '++': (60, True, lambda a, b: listed(items(a) + items(b))),
    '==': (40, False, lambda a, b: a == b),
    '&&': (30, True, None),
    '||': (25, True, None),
}
CONSTRUCTORS = ('Some', 'None', 'Ok', 'Err', '[]', '∷')
# words that end a term, and words of forms that aren't read
ENDS = (')', ']', '}', ',', ';', 'then', 'else', '=', '|', '↦', 'in')
OTHER_FORMS = ('?', 'elim', 'let', '→', '×', '≡', '[', '{')


# ---- files

TOKEN = re.compile(
    r'\s+|(?P<close>\))(?P<fields>(?:\.[^\s(){}\[\],;.]+)+)|\[\]|[(){}\[\],;]|[^\s(){}\[\],;]+')
DECLARED = re.compile(r'(?:abbrev pub|unfoldable pub|abbrev|pub|unfoldable) (\S+)(?: \{ℓ\})? :')


def tokens(text):
    """The words of a text; a projection behind a bracket is a word of its own, as '.name'."""
    out = []
    for match in TOKEN.finditer(text):
        word = match.group(0)
        if word.isspace():
            continue
        if match.group('close'):
            out.append(')')
            out += ['.' + field for field in match.group('fields')[1:].split('.')]
        else:
            out.append(word)
    return out


def blocks(text):
    """The declarations and clauses of a file: each begins in the first column."""
    out = []
    for line in text.split('\n'):
        line = re.sub(r'(^|\s)--.*$', '', line)
        if not line.strip():
            continue
        if line[0] in ' \t})' and out:
            out[-1] += '\n' + line
        else:
            out.append(line)
    return out


class Module:
    """A file: what its names stand for, and the clauses of its definitions."""

    def __init__(self, definitions, path, text):
        self.definitions, self.path = definitions, path
        self.names = {}             # a bare name: a whole name
        self.qualifiers = {}        # a qualifier: a module
        self.clauses = {}
        self.constructors = set()
        self.types = set()
        for block in blocks(text):
            self.take(block)

    def take(self, block):
        head = block.split(None, 1)[0]
        if head == 'use' or block.startswith('pub use'):
            self.use(block[block.index('use') + 3:].strip())
            return
        if head in ('mod', 'infix', 'infixl', 'infixr', 'module') or block.startswith('pub mod'):
            return
        kind = re.match(r'(?:pub )?(data|record) (\S+)', block)
        if kind:
            if kind.group(1) == 'data':
                for name in re.findall(r'\n\s+(\S+) :', block):
                    self.declare(name)
                    self.constructors.add(name)
            return
        if head in self.clauses:
            self.clauses[head].append(block)
            return
        declared = DECLARED.match(block) or re.match(r'([^\s:]+) :', block)
        if declared:
            name = declared.group(1)
            self.declare(name)
            self.clauses[name] = []
            if re.search(r'(^|→|×|:)\s*Type (0|ℓ)\s*$', block):
                self.types.add(name)

    def declare(self, name):
        self.names[name] = self.path + '.' + name

    def use(self, text):
        several = re.match(r'(\S+?)\.\{(.*)\}$', text, re.S)
        if several:
            for part in several.group(2).split(','):
                words = part.split()
                if words:
                    self.names[words[-1]] = several.group(1) + '.' + words[0]
            return
        words = text.split()
        qualifier = words[-1] if len(words) == 3 else words[0].split('.')[-1]
        self.qualifiers[qualifier] = words[0]

    def resolve(self, name):
        """What a written name stands for, as Definitions.whole says it, or None."""
        if name in CONSTRUCTORS:
            return 'constructor', name
        if name in self.names:
            return self.definitions.whole(self.names[name])
        qualifier, _, rest = name.partition('.')
        if rest and qualifier in self.qualifiers:
            return self.definitions.whole(self.qualifiers[qualifier] + '.' + rest)
        return None


class Definitions:
    """The definitions of some crates: `folders` has the folder of each crate's specs by its name."""

    def __init__(self, folders):
        self.folders, self.modules, self.values = folders, {}, {}
        self.library = library()

    def find(self, module, name):
        """The value of a definition."""
        return self.value(module + '.' + name)

    def value(self, whole):
        if whole not in self.values:
            path, name = whole.rsplit('.', 1)
            self.values[whole] = defined(self.module(path), name, whole)
        value = self.values[whole]
        return value() if callable(value) else value

    def forget(self):
        """Drops all values, with those that were computed."""
        self.values.clear()
        forget()

    def module(self, path):
        if path not in self.modules:
            self.modules[path] = None
            words = path.split('.')
            if len(words) >= 4 and words[2] == 'specs' and words[1] in self.folders:
                file = os.path.join(self.folders[words[1]], *words[3:]) + '.antt'
                if os.path.exists(file):
                    with open(file, encoding='utf-8') as text:
                        self.modules[path] = Module(self, path, text.read())
        return self.modules[path]

    def whole(self, name):
        """A kind ('constructor', 'definition', 'library' or 'unknown') and the whole name."""
        path, word = name.rsplit('.', 1)
        module = self.module(path)
        if module is not None:
            if word in module.constructors:
                return 'constructor', name
            if word in module.clauses:
                return 'definition', name
            if word in module.names:
                return self.whole(module.names[word])
            return 'unknown', name
        if word in CONSTRUCTORS:
            return 'constructor', word
        if word in self.library:
            return 'library', word
        if '.declared.' in path and word[0].isupper():
            return 'constructor', name
        return 'unknown', name


# ---- terms: each is read into a function from an environment, a dict, to a value

class Terms:
    """Reads the terms of one clause, whose patterns bind these names."""

    def __init__(self, module, words, bound):
        self.module, self.words, self.at, self.local = module, words, 0, set(bound)

    def whole(self):
        term = self.term()
        if self.at != len(self.words):
            raise self.unread('%s is left' % self.words[self.at:])
        return term

    def unread(self, why):
        return Unread('%s: %s in %s' % (self.module.path, why, ' '.join(self.words)))

    def peek(self):
        return self.words[self.at] if self.at < len(self.words) else None

    def next(self):
        self.at += 1
        return self.words[self.at - 1]

    def want(self, word):
        got = self.next()
        if got != word:
            raise self.unread('%s where %s should be' % (got, word))

    def begins_function(self):
        return (self.peek() or '').startswith('λ')

    def term(self):
        if self.peek() == 'if':
            return self.choice()
        if self.begins_function():
            return self.function()
        return self.operators(0)

    def choice(self):
        self.next()
        test = self.term()
        self.want('then')
        one = self.term()
        self.want('else')
        other = self.term()
        return lambda env: one(env) if truth(test(env)) else other(env)

    def function(self):
        names = []
        while True:
            word = self.next().removeprefix('λ')
            if word:
                names.append(word.rstrip('.'))
            if word.endswith('.'):
                break
        outer = self.local
        self.local = outer | set(names)
        body = self.term()
        self.local = outer

        def value(env):
            def run(*args):
                return body({**env, **dict(zip(names, args))})
            return Function(len(names), run)
        return value

    def operators(self, least):
        left = self.application()
        while self.peek() in OPERATORS and OPERATORS[self.peek()][0] >= least:
            word = self.next()
            binds, to_the_right, run = OPERATORS[word]
            if self.peek() == 'if' or self.begins_function():
                right = self.term()
            else:
                right = self.operators(binds if to_the_right else binds + 1)
            left = combined(word, run, left, right)
        return left

    def application(self):
        function = self.atom()
        if function is None:
            raise self.unread('no term at %s' % self.peek())
        args = []
        while True:
            arg = self.function() if self.begins_function() else self.atom()
            if arg is None:
                break
            args.append(arg)
        if not args:
            return function
        return lambda env: apply(function(env), *[arg(env) for arg in args])

    def atom(self):
        word = self.peek()
        if word is None or word in OPERATORS or word in ENDS:
            return None
        self.next()
        if word == '(':
            return self.fields(self.bracket())
        if word == 'record':
            return self.fields(self.record())
        if word == '[]':
            return lambda env: data('[]')
        if re.fullmatch(r'[0-9]+|0x[0-9a-fA-F]+', word):
            number = int(word, 0)
            return lambda env: number
        if word in OTHER_FORMS:
            raise self.unread(word)
        return self.name(word)

    def bracket(self):
        parts = [self.term()]
        while self.peek() == ',':
            self.next()
            parts.append(self.term())
        self.want(')')
        if len(parts) == 1:
            return parts[0]
        return lambda env: tupled(tuple(part(env) for part in parts))

    def record(self):
        base = None if self.peek() == '{' else self.atom()
        self.want('{')
        fields = []
        while self.peek() != '}':
            name = self.next()
            self.want('=')
            fields.append((name, self.term()))
            if self.peek() == ';':
                self.next()
        self.want('}')

        def value(env):
            out = {} if base is None else dict(base(env).fields)
            out.update((name, term(env)) for name, term in fields)
            return record(out)
        return value

    def fields(self, term):
        while self.peek() is not None and re.fullmatch(r'\.[^\s.]+', self.peek()):
            term = projection(term, self.next()[1:])
        return term

    def name(self, word):
        head, fields = word, []
        stands_for = None if word in self.local else self.module.resolve(word)
        if word not in self.local and stands_for is None and '.' in word:
            head, *fields = word.split('.')
            stands_for = None if head in self.local else self.module.resolve(head)
        if head in self.local:
            def term(env):
                return env[head]
        else:
            term = self.known(word, stands_for)
        for field in fields:
            term = projection(term, field)
        return term

    def known(self, word, stands_for):
        kind, whole = stands_for or ('unknown', word)
        definitions = self.module.definitions
        if kind == 'constructor':
            return lambda env: data(whole)
        if kind == 'library':
            return lambda env: definitions.library[whole]
        if kind == 'definition':
            return lambda env: definitions.value(whole)
        raise self.unread('%s is unknown' % word)


def combined(word, run, left, right):
    if word == '&&':
        return lambda env: left(env) and right(env)
    if word == '||':
        return lambda env: left(env) or right(env)
    return lambda env: run(left(env), right(env))


def projection(term, field):
    if field.isdigit():
        return lambda env: term(env).parts[int(field)]
    return lambda env: term(env).fields[field]


# ---- patterns: each is read into a test of a value, which binds names in an environment

class Patterns:
    """Reads the patterns of one clause; `bound` are the names that they bind."""

    def __init__(self, module, words, at):
        self.module, self.words, self.at, self.bound = module, words, at, set()

    def until(self, end):
        out = []
        while self.at < end:
            out.append(self.atom())
        return out

    def next(self):
        self.at += 1
        return self.words[self.at - 1]

    def atom(self):
        word = self.next()
        if word != '(':
            return self.head(word, [])
        parts = [self.applied()]
        while self.words[self.at] == ',':
            self.next()
            parts.append(self.applied())
        assert self.next() == ')', self.words
        if len(parts) == 1:
            return parts[0]
        return lambda value, env: all(part(x, env) for part, x in zip(parts, value.parts))

    def applied(self):
        word = self.words[self.at]
        if word != '(' and self.is_constructor(word):
            self.next()
            args = []
            while self.words[self.at] not in (')', ',', '∷'):
                args.append(self.atom())
            left = self.head(word, args)
        else:
            left = self.atom()
        if self.words[self.at] != '∷':
            return left
        self.next()
        right = self.applied()
        return lambda value, env: (
            value.name == '∷' and left(value.parts[0], env) and right(value.parts[1], env))

    def is_constructor(self, word):
        if word in ('zero', 'suc', 'true', 'false', 'pos', 'negsuc', '[]'):
            return True
        if not word.split('.')[-1][0].isupper():
            return False
        return (self.module.resolve(word) or ('unknown',))[0] == 'constructor'

    def head(self, word, args):
        simple = {
            '_': lambda value, env: True,
            'zero': lambda value, env: value == 0,
            'suc': lambda value, env: value > 0 and args[0](value - 1, env),
            'pos': lambda value, env: value.value >= 0 and args[0](value.value, env),
            'negsuc': lambda value, env: value.value < 0 and args[0](-value.value - 1, env),
            'true': lambda value, env: value is True,
            'false': lambda value, env: value is False,
            '[]': lambda value, env: value.name == '[]',
        }
        if word in simple:
            return simple[word]
        if self.is_constructor(word):
            return self.constructor(self.module.resolve(word)[1], args)
        if word.split('.')[-1][0].isupper():
            raise Unread('%s: pattern %s' % (self.module.path, word))
        self.bound.add(word)

        def bind(value, env):
            env[word] = value
            return True
        return bind

    def constructor(self, name, args):
        def test(value, env):
            if type(value) is not Data:
                raise TypeError('%s against %r in %s' % (name, value, self.module.path))
            return (value.name == name and len(value.parts) == len(args)
                    and all(arg(part, env) for arg, part in zip(args, value.parts)))
        return test


# ---- definitions

def place_of_equals(words):
    depth = 0
    for place, word in enumerate(words):
        depth += word in ('(', '{', '[')
        depth -= word in (')', '}', ']')
        if word == '=' and depth == 0:
            return place
    raise Unread('no = in %s' % ' '.join(words))


def clause(module, text):
    words = tokens(text)
    equals = place_of_equals(words)
    patterns = Patterns(module, words, 1)
    tests = patterns.until(equals)
    return tests, Terms(module, words[equals + 1:], patterns.bound).whole()


def defined(module, name, whole):
    """The function that the clauses of a definition give, or what gives its value."""
    if name in module.types:
        raise Unread('%s is a type' % whole)
    clauses = [clause(module, text) for text in module.clauses[name]]
    arity = len(clauses[0][0])
    assert all(len(tests) == arity for tests, _ in clauses), whole

    def run(*args):
        for tests, body in clauses:
            env = {}
            if all(test(arg, env) for test, arg in zip(tests, args)):
                return body(env)
        raise ValueError('no clause of %s for %r' % (whole, args))
    return run if arity == 0 else Function(arity, run, (), whole)
