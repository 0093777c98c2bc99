"""Random databases, whole ones and damaged ones."""
from .database import Fault, read_database
from .proofs import LabelTree, encode_compressed, encode_normal, postorder
from .strings import apply
from .unifying import unifiers

TYPECODES = ['wff', 'set', 'str']
WORDS = ['a', 'b', '0', '1', '=', '+', '->', '-.', 'e.', '(', ')', '[', ']', '{', '}', ',']
VARIABLES = ['x', 'y', 'z', 'P', 'Q', 'R']
USAGE = '(New usage is discouraged.)'
CHANGE = '(Proof modification is discouraged.)'
FORMS = [
    '%s', '( %s -> %s )', '-. %s', '%s %s', '%s %s', '%s %s', '%s %s %s', '( %s )', '[ %s , %s ]', '%s = %s', '{ %s e. %s }', 'a %s', '%s b', 'a', 'b', '0', '1', '( a )',
    '%s + %s', 'a b', 'a b a', ') %s', '( %s'
]
# statements of these forms fit in several ways
OPEN_FORMS = ['%s %s', '%s %s', '%s %s', '%s %s %s', '%s a %s', 'a %s', 'a b a', '( %s )', '( %s', '%s )', '( %s -> %s )', '%s b', 'a b']
# statements that don't fit where they stand, and some that do
ODD_STATEMENTS = [
    '$c $.', '$v $.', '$c x $.', '$v x $.', '$v a $.', '$c q q $.', '$v q q $.', '$c q$ $.', '$c s1 $.', '${ $c q $. $}', 'n1 $c q $.', '${ n1 $c q $. $}', 'n1 $v q $.',
    'n1 $d x y $.', 'n1 ${', 'n1 $}', '${ n1 $} $}', '$}', '${', '$d $.', '$d x $.', '$d x x $.', '$d x a $.', '$d a $.', '$d x q $.', '$d x $= $.', '$f wff x $.', 'n1 $f $.',
    'n1 $f wff $.', 'n1 $f x wff $.', 'n1 $f wff a $.', 'n1 $f wff x y $.', 'n1 $f wff x q $.', 'n1 $f q x $.', '${ $v q $. n1 $f wff q q $. $}', '${ $v q $. n1 $a |- q $. $}',
    '${ $v q $. n1 $f wff q $. n2 $f set q $. $}', '$e |- a $.', 'n1 $e $.', 'n1 $e x $.', 'n1 $e |- q $.', 'n1 $e |- a $= ? $.', 'n1 $a $.', 'n1 $a x $.', 'n1 $a |- $= $.',
    'n1 $p |- a $.', 'n1 $p $= ? $.', 'n1 $p |- a $= ? $= $.', 'n1 $p |- a $= $a $.', 'n1 $p |- a $= $x $.', 'n1 n2 $a |- a $.', 'n1 n2! $a |- a $.', 'a $a |- a $.',
    'x $a |- a $.', 's1 $a |- a $.', 'n! $a |- a $.', 'n1 $. ', '$.', '$=', 'n1 $=', 'n1', 'n1 $a |- a', '$d x y', '$c q', 'n1 $a |- $[ x $] $.', '$) $( x', '$( x', '$( $( $)',
    '${ $v q $. $} $v q $. $v q $.', '${ $v q $. $} $c q $.', '${ $v q $. $} ${ $v q $. $} $d q x $.', 'n1 $e |- a ${ $.', 'n1 $f wff $d $.', '$c $v $.', '$d $c $.'
]


# statements over two variables from which much can be proved
CORES = [
    ['%L $a |- x y', '%L $a %T x y', '%L $a %T a', '%L $a %T b', '%L $a %T ( x )', '${', '%L $e |- x y', '%L $a |- y x', '$}', '${', '$d x y', '%L $a |- x a y', '$}'],
    [
        '%L $a %T ( x -> y )', '%L $a |- ( x -> ( y -> x ) )', '%L $a |- ( x -> x )', '${', '%L $e |- x', '%L $e |- ( x -> y )', '%L $a |- y', '$}', '${', '$d x y',
        '%L $a |- ( y -> ( x -> x ) )', '$}'
    ],
]
APART = ['${', '$d z x y', '%L $a |- x a y a z', '%L $a |- z b x y', '$}']
GOALS = ['a', 'b', '( a )', 'a b', 'x', 'y', '( x -> y )', '( x -> x )', '( y -> ( x -> y ) )']


class Maker:
    """Makes a database line by line; a line is a statement, or a block's end."""

    def __init__(self, random):
        self.random, self.lines, self.count, self.floats = random, [], 0, {}
        self.open = random.random() < 0.5
        self.forms, self.typecodes = (OPEN_FORMS, TYPECODES[-1:]) if self.open else (FORMS, TYPECODES)

    def label(self):
        self.count += 1
        return self.random.choice(['s', 't.', 'L-', 'ax', 'h_']) + str(self.count)

    def comment(self):
        """A comment, or none; now and then it guards what follows."""
        if self.random.random() < 0.75:
            return ''
        said = [self.random.choice(['Note', USAGE, CHANGE, USAGE.replace(' ', '\n  '), CHANGE.replace(' ', '\t'), 'the $( of', '~ x'])]
        return '$( ' + ' '.join(said) + ' $) '

    def add(self, text):
        self.lines.append(self.comment() + text)

    def typed(self):
        """A random typecode that has variables."""
        return self.random.choice(sorted(set(self.floats.values())))

    def expression(self, typecode, depth=0):
        """A random string of a typecode's syntax, without the typecode."""
        form = self.random.choice(self.forms)
        while '%s' in form:
            part = self.expression(typecode, depth - 1) if depth > 0 and self.random.random() < 0.4 else self.random.choice(self.variables(typecode))
            form = form.replace('%s', part, 1)
        return form

    def variables(self, typecode=None):
        return [v for v, t in self.floats.items() if typecode in (None, t)] or list(self.floats)

    def float(self, variable):
        self.floats[variable] = self.random.choice(self.typecodes)
        self.add(f'{self.label()} $f {self.floats[variable]} {variable} $.')

    def apart(self):
        """A `$d` of two or three variables."""
        if len(self.floats) > 1:
            several = self.random.sample(list(self.floats), min(len(self.floats), self.random.choice([2, 2, 3])))
            self.add('$d ' + ' '.join(several) + ' $.')

    def statement(self, kind):
        """The text of an assertion or an `$e` up to its end."""
        provable = self.random.random() < (0.85 if kind != '$a' or self.open else 0.5)
        typecode = '|-' if provable else self.typed()
        return f'{self.label()} {kind} {typecode} {self.expression(typecode, 2 if kind == "$p" else 0)}'

    def block(self, depth=0):
        """A block with hypotheses, distinct pairs and assertions."""
        kept = dict(self.floats)
        self.lines.append('${')
        free = [v for v in VARIABLES if v not in self.floats]
        if free and self.random.random() < 0.3:
            variable = self.random.choice(free)
            self.lines.append(f'$v {variable} $.')
            self.float(variable)
        for _ in range(self.random.choice([0, 1, 1, 2])):
            self.add(self.statement('$e') + ' $.')
        for _ in range(self.random.choice([0, 0, 1, 2])):
            self.apart()
        for _ in range(self.random.choice([1, 1, 2])):
            self.assertion(depth + 1)
        self.lines.append('$}')
        self.floats = kept

    def assertion(self, depth=0):
        if depth < 3 and self.random.random() < 0.25:
            self.block(depth)
        elif self.random.random() < 0.4:
            self.add(self.statement('$p') + ' $= ? $.')
        else:
            self.add(self.statement('$a') + ' $.')

    def core(self):
        """Statements over the first two variables, of one typecode."""
        x, y, *_ = self.floats
        for line in self.random.choice(CORES) + (APART if len(self.floats) > 2 else []):
            self.lines.append(self.over(line, x, y) + (' $.' if line not in ('${', '$}') else ''))

    def over(self, text, x, y):
        """A form over two or three variables."""
        names = {'x': x, 'y': y, 'z': list(self.floats)[-1], '%L': self.label(), '%T': self.floats[x]}
        return ' '.join(names.get(word, word) for word in text.split(' '))

    def goal(self):
        """A theorem with a longer statement."""
        x, y, *_ = self.floats
        parts = [self.over(self.random.choice(GOALS), x, y) for _ in range(self.random.choice([1, 1, 2, 3, 4]))]
        return f'{self.label()} $p |- ' + ' '.join(parts)

    def whole(self):
        """The lines of a database in which every proof is `?`."""
        self.lines.append('$c |- ' + ' '.join(TYPECODES + WORDS) + ' $.')
        used = self.random.sample(VARIABLES, self.random.choice([2, 3, 4]))
        self.lines.append('$v ' + ' '.join(used) + ' $.')
        cored, self.typecodes = self.random.random() < 0.7, self.typecodes if self.random.random() < 0.3 else self.typecodes[-1:]
        for variable in used:
            self.float(variable)
        if self.random.random() < 0.2:
            self.apart()
        if cored:
            self.core()
        for _ in range(self.random.choice([1, 2, 4, 7] if cored else [4, 7, 10])):
            self.assertion()
        for _ in range(self.random.choice([0, 1, 2])):
            self.block()
        for _ in range(self.random.choice([1, 2, 4])):
            self.add((self.goal() if cored else self.statement('$p')) + ' $= ? $.')
        return self.lines


class Prover:
    """Makes random proofs of whatever they prove, from what may stand at a theorem."""

    def __init__(self, random, db, theorem):
        self.random, self.theorem = random, theorem
        self.pool = [(LabelTree(h, ()), h.symbols) for h in theorem.active]
        self.sizes = {id(tree): 1 for tree, _ in self.pool}
        self.largest_first = random.random() < 0.5
        self.earlier = [s for s in db.statements[:theorem.number] if not s.is_hypothesis]

    def grow(self, turns):
        """Applies random assertions to what is proved, again and again."""
        for _ in range(turns):
            if self.earlier:
                self.apply(self.random.choice(self.earlier))
        return self.pool

    def apply(self, assertion):
        values, children = {}, []
        for h in reversed(assertion.mandatory):
            found = self.fitting(h, values)
            if found is None:
                return
            tree, more = found
            values.update(more)
            children.insert(0, tree)
        result = apply(values, assertion.symbols)
        steps = 1 + sum(self.sizes[id(c)] for c in children)
        if len(result) <= 60 and steps < 250:
            tree = LabelTree(assertion, tuple(children))
            self.pool.append((tree, result))
            self.sizes[id(tree)] = steps

    def fitting(self, h, values):
        """Something proved that a hypothesis can be under the values so far, with the values that it adds."""
        names = {v: k for k, v in enumerate(sorted(s for s in h.symbols if s not in values and s in self.theorem_variables(h)), 1)}
        pattern = apply({**values, **{v: (k,) for v, k in names.items()}}, h.symbols)
        for tree, symbols in self.in_turn():
            found = unifiers(symbols, pattern, False, 60).found if symbols[0] == pattern[0] else []
            if found:
                theta = self.random.choice(found)
                return tree, {v: theta[k] for v, k in names.items()}
        return None

    def in_turn(self):
        """What is proved, in a random order, or now and then the largest proofs first."""
        order = self.random.sample(self.pool, len(self.pool))
        if self.largest_first and self.random.random() < 0.5:
            order.sort(key=lambda entry: -self.sizes[id(entry[0])])
        return order

    def theorem_variables(self, h):
        """The variables of a hypothesis."""
        return {s for s in h.symbols[1:] if s.decode() in VARIABLES}


def exchanged(random, tree, pool):
    """A label tree with a part exchanged for another of the same typecode, which may not fit there."""
    if not tree.children or random.random() < 0.3:
        fitting = [t for t, _ in pool if t.statement.symbols[0] == tree.statement.symbols[0]]
        return random.choice(fitting or [tree])
    at = random.randrange(len(tree.children))
    children = [exchanged(random, c, pool) if k == at else c for k, c in enumerate(tree.children)]
    return LabelTree(tree.statement, tuple(children))


def size(tree):
    return sum(1 for _ in postorder(tree))


def without(tree, statement):
    """A label tree in which each step that names a statement is unknown."""
    if tree.statement is statement:
        return LabelTree(None, ())
    return LabelTree(tree.statement, tuple(without(c, statement) for c in tree.children))


def damaged_proof(random, db, text):
    """A proof with a token or a letter changed."""
    if b')' in text and random.random() < 0.5:
        joined, pieces = b'', [bytes([byte]) for byte in text]
        new = random.choice([b'?', b'Z', b'A', b'B', b'C', b'E', b'U', b'T', b'e', b' $( c $) ', b' '])
    else:
        labels = [s.label for s in db.statements]
        joined, pieces = b' ', text.split(b' ')
        new = random.choice([b'?', b'nosuch', b')', b'(', b'', b'AA', b'UA', b'$( c $)', *labels])
    at = random.randrange(len(pieces))
    pieces[at:at + random.choice([0, 1, 1])] = [new]
    return joined.join(pieces)


def is_whole(lines):
    """Whether a database is read without a fault."""
    try:
        read_database('\n'.join(lines).encode())
    except Fault:
        return False
    return True


def proved(random, lines):
    """The lines with random proofs in place of some `?`, each with the statement that it proves."""
    for at, line in enumerate(lines):
        if '$= ? $.' not in line or random.random() < 0.35:
            continue
        db = read_database('\n'.join(lines).encode())
        head, _, rest = line.rpartition(' $p ')
        theorem = db.find(head.split()[-1].encode())
        pool = [(t, s) for t, s in Prover(random, db, theorem).grow(random.choice([5, 10, 20, 40, 80])) if t.children or random.random() < 0.3]
        if not pool:
            continue
        tree, symbols = random.choice(pool[-6:]) if random.random() < 0.6 else max(pool, key=lambda entry: size(entry[0]))
        if random.random() < 0.15:
            tree = without(tree, random.choice([step.statement for step in postorder(tree)]))
        elif random.random() < 0.3:
            tree = exchanged(random, tree, pool)
        statement = b' '.join(symbols).decode() if random.random() < 0.95 else rest.split(' $=')[0]
        lines[at] = f'{head} $p {statement} $= ? $.'
        theorem = read_database('\n'.join(lines).encode()).find(theorem.label)
        text = random.choice([encode_normal, lambda t: encode_compressed(theorem, t)])(tree)
        while random.random() < 0.15:
            text = damaged_proof(random, db, text)
        whole = f'{head} $p {statement} $={text.decode()} $.'
        if is_whole([*lines[:at], whole, *lines[at + 1:]]):
            lines[at] = whole
    return lines


TOKENS = [
    '$c', '$v', '$f', '$e', '$d', '$a', '$p', '$=', '$.', '${', '$}', '$(', '$)', '$[', '$]', '$x', '$', '$cc', 'x', 'y', 'P', 'a', '(', ')', 'wff', '|-', 's1', 'new', 'a$b',
    'a$', 'l!', 'l' * 256, 'l' * 255, '\x80', '\x01', '\x7f', '$\x80', '$( c $)', '$( (x $( $)', '?', '\v'
]


def damaged(random, text):
    """A source with some tokens left out, repeated, exchanged or put in, or cut short."""
    tokens = text.replace('\n', ' \n ').split(' ')
    for _ in range(random.choice([1, 1, 1, 2, 3])):
        at = random.randrange(len(tokens))
        way = random.random()
        if way < 0.25:
            del tokens[at]
        elif way < 0.4:
            tokens.insert(at, tokens[at])
        elif way < 0.55:
            other = random.randrange(len(tokens))
            tokens[at], tokens[other] = tokens[other], tokens[at]
        elif way < 0.95:
            tokens[at:at + random.choice([0, 1])] = [random.choice(TOKENS)]
        else:
            tokens = tokens[:at + 1]
        tokens = tokens or ['']
    return ' '.join(tokens)


def make_database(random):
    """The bytes of a database that is read without a fault."""
    lines = proved(random, Maker(random).whole())
    ends = random.choice(['\n', '\n', '\n', '\r\n', ' ', '\t\n\f'])
    return (ends.join(lines) + random.choice(['\n', '', '\n$( the end $)\n'])).encode()


def make_damaged(random, source):
    """The bytes of a database that is damaged; now and then it still is one."""
    if random.random() < 0.5:
        lines = source.decode().split('\n')
        lines.insert(random.randrange(len(lines) + 1), random.choice(ODD_STATEMENTS))
        return '\n'.join(lines).encode()
    return damaged(random, source.decode()).encode('latin-1')
