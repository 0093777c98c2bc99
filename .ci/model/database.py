"""Reading a database: its statements with what is in force at each, or its first fault."""
import re

from .limits import MOST_BYTES, MOST_LABEL_BYTES, MOST_SYMBOLS
from .scan import scan

LABEL = re.compile(rb'[A-Za-z0-9_.-]+')
BLANKS = re.compile(rb'[ \t\n\r\f]+')
KEYWORDS = {b'$c', b'$v', b'$f', b'$e', b'$d', b'$a', b'$p', b'$=', b'$.', b'${', b'$}'}
LABELLED = (b'$f', b'$e', b'$a', b'$p')


class Fault(Exception):
    """A fault of a database, with its number and its byte."""

    def __init__(self, number, place):
        super().__init__(number, place)
        self.number, self.place = number, place


class Statement:
    """A labelled statement, and for an assertion its frame."""

    def __init__(self, number, label, kind, symbols, description):
        self.number, self.label, self.kind, self.symbols = number, label, kind, symbols
        self.description = description
        self.proof, self.proof_start, self.proof_end = [], None, None
        self.mandatory, self.pairs = [], []
        self.active, self.active_pairs, self.active_symbols = (), frozenset(), frozenset()

    @property
    def is_hypothesis(self):
        return self.kind in (b'$f', b'$e')

    def says(self, phrase):
        """Whether the description holds a phrase, each run of white space taken as one space."""
        return self.description is not None and phrase in BLANKS.sub(b' ', self.description)

    @property
    def usage_guarded(self):
        return self.says(b'(New usage is discouraged.)')

    @property
    def change_guarded(self):
        return self.says(b'(Proof modification is discouraged.)')

    def variables(self):
        """The mandatory variables, in the order of their `$f`."""
        return [h.symbols[1] for h in self.mandatory if h.kind == b'$f']


class Database:
    """A source that is read, with its statements in order."""

    def __init__(self, source):
        self.source = source
        self.statements, self.by_label = [], {}
        self.constants, self.symbol_numbers = set(), {}

    def find(self, label):
        return self.by_label.get(label)

    def is_variable(self, symbol):
        return symbol not in self.constants

    def count(self, kind):
        return sum(1 for s in self.statements if s.kind == kind)


class Block:
    """What was in force where a block began."""

    def __init__(self, place, variables, hypotheses, groups):
        self.place, self.variables, self.hypotheses, self.groups = place, set(variables), list(hypotheses), list(groups)


class Reader:
    """Goes along the tokens of a source; the first that doesn't fit raises its fault."""

    def __init__(self, source):
        self.db = Database(source)
        self.scan = scan(source[:MOST_BYTES + 1])
        self.comments = {c.before: c.content for c in self.scan.comments}
        self.blocks, self.variables, self.hypotheses, self.groups = [], set(), [], []
        self.label, self.label_at, self.keyword, self.keyword_at = None, None, None, None
        self.label_index = None
        self.symbols, self.in_proof = [], False
        self.statement_proof, self.proof_start = [], None

    def read(self):
        for index, token in enumerate(self.scan.tokens):
            self.step(index, token.start, token.text)
        self.end()
        return self.db

    def end(self):
        if self.scan.bad is not None:
            raise Fault(1, self.scan.bad)
        if len(self.db.source) > MOST_BYTES:
            raise Fault(21, MOST_BYTES)
        if self.scan.open_comment is not None:
            raise Fault(2, self.scan.open_comment)
        if self.blocks:
            raise Fault(19, self.blocks[-1].place)
        if self.keyword is not None:
            raise Fault(20, self.keyword_at)
        if self.label is not None:
            raise Fault(20, self.label_at)

    def step(self, index, at, text):
        if text.startswith(b'$'):
            if text not in KEYWORDS:
                raise Fault(5 if text in (b'$[', b'$]') else 4, at)
            if self.keyword is not None:
                self.keyword_within(at, text)
            else:
                self.keyword_first(at, text)
        elif self.keyword is not None:
            self.word_within(at, text)
        else:
            self.begin_label(index, at, text)

    def begin_label(self, index, at, text):
        if self.label is not None:
            raise Fault(14, at)
        if not LABEL.fullmatch(text):
            raise Fault(6, at)
        if text in self.db.by_label or text in self.db.symbol_numbers:
            raise Fault(11, at)
        if len(text) > MOST_LABEL_BYTES:
            raise Fault(21, at)
        self.label, self.label_at, self.label_index = text, at, index

    def keyword_first(self, at, text):
        """A keyword where a statement may begin, or directly after a label."""
        if text in (b'$=', b'$.'):
            raise Fault(14, at)
        if text == b'$c' and self.blocks:
            raise Fault(10, at)
        if text in LABELLED:
            if self.label is None:
                raise Fault(12, at)
        elif self.label is not None:
            raise Fault(13, at)
        if text == b'${':
            self.blocks.append(Block(at, self.variables, self.hypotheses, self.groups))
        elif text == b'$}':
            if not self.blocks:
                raise Fault(18, at)
            block = self.blocks.pop()
            self.variables, self.hypotheses, self.groups = block.variables, block.hypotheses, block.groups
        else:
            self.keyword, self.keyword_at, self.symbols, self.in_proof = text, at, [], False

    def keyword_within(self, at, text):
        """A keyword within a statement: the one that fits, or a fault."""
        fits = False
        if text == b'$=':
            fits = self.keyword == b'$p' and not self.in_proof and bool(self.symbols)
        elif text == b'$.':
            if self.keyword == b'$d' and len(self.symbols) < 2:
                raise Fault(17, at)
            wanted = 2 if self.keyword == b'$f' else 1
            fits = len(self.symbols) >= wanted and (self.keyword != b'$p' or self.in_proof)
        if not fits:
            raise Fault(14, at)
        if text == b'$=':
            self.in_proof, self.statement_proof, self.proof_start = True, [], at + 2
        else:
            self.finish(at)

    def word_within(self, at, text):
        """A word within a statement: a symbol, or a token of a proof."""
        if self.in_proof:
            self.statement_proof.append((at, text))
            return
        if self.keyword in (b'$c', b'$v'):
            self.declare(at, text)
        else:
            self.judge_use(at, text)
            if len(self.symbols) >= MOST_SYMBOLS:
                raise Fault(21, at)
        self.symbols.append(text)

    def declare(self, at, text):
        if b'$' in text[1:]:
            raise Fault(7, at)
        if self.keyword == b'$c':
            taken = text in self.db.symbol_numbers
        else:
            taken = text in self.variables or text in self.db.constants
        if taken or text in self.db.by_label:
            raise Fault(8, at)
        if len(self.symbols) >= MOST_SYMBOLS:
            raise Fault(21, at)
        self.db.symbol_numbers.setdefault(text, len(self.db.symbol_numbers))
        if self.keyword == b'$c':
            self.db.constants.add(text)
        else:
            self.variables.add(text)

    def judge_use(self, at, text):
        """Whether an active symbol fits here."""
        constant = text in self.db.constants
        if not constant and text not in self.variables:
            raise Fault(9, at)
        place = len(self.symbols)
        if self.keyword == b'$d':
            if constant or text in self.symbols:
                raise Fault(17, at)
        elif place == 0:
            if not constant:
                raise Fault(14, at)
        elif self.keyword == b'$f':
            if constant or place > 1:
                raise Fault(14, at)
            if self.float_of(text) is not None:
                raise Fault(15, at)
        elif not constant and self.float_of(text) is None:
            raise Fault(16, at)

    def float_of(self, variable):
        """The active `$f` of a variable."""
        for h in self.hypotheses:
            if h.kind == b'$f' and h.symbols[1] == variable:
                return h
        return None

    def finish(self, at):
        """The end of a statement."""
        keyword, self.keyword = self.keyword, None
        if keyword == b'$d':
            self.groups.append(tuple(self.symbols))
        elif keyword in LABELLED:
            statement = Statement(len(self.db.statements), self.label, keyword, tuple(self.symbols), self.comments.get(self.label_index))
            self.label = None
            if statement.is_hypothesis:
                self.hypotheses.append(statement)
            else:
                self.frame(statement)
            if keyword == b'$p':
                statement.proof, statement.proof_start, statement.proof_end = self.statement_proof, self.proof_start, at
            self.db.statements.append(statement)
            self.db.by_label[statement.label] = statement

    def frame(self, statement):
        essential = [h for h in self.hypotheses if h.kind == b'$e']
        used = {s for h in [statement, *essential] for s in h.symbols if s not in self.db.constants}
        statement.mandatory = [h for h in self.hypotheses if h.kind == b'$e' or h.symbols[1] in used]
        statement.active = tuple(self.hypotheses)
        statement.active_symbols = frozenset(self.db.constants) | self.variables
        apart = {frozenset((x, y)) for group in self.groups for x in group for y in group if x != y}
        statement.active_pairs = frozenset(apart)
        order = {h.symbols[1]: k for k, h in enumerate(self.hypotheses) if h.kind == b'$f'}
        within = [sorted(pair, key=order.get) for pair in apart if pair <= used]
        statement.pairs = sorted(map(tuple, within), key=lambda pair: (order[pair[0]], order[pair[1]]))


def read_database(source):
    """The database of a source; the first fault is raised."""
    return Reader(source).read()
