"""The command line: its words, and the command that they spell."""
from typing import NamedTuple

from .limits import MOST_NAME_BYTES
from .strings import work_number

BLANKS = b' \t'
QUOTES = b'"\''
SIGNS = b'/='


class LineFault(Exception):
    """Why a line spells no command: 1, 2 or 3, and the word that doesn't fit."""

    def __init__(self, number, word):
        super().__init__(number, word)
        self.number, self.word = number, word


class Word(NamedTuple):
    """A word of a line: a plain or quoted one, a sign, or one whose quote isn't closed."""
    text: bytes
    kind: str  # plain, sign or open


class Command(NamedTuple):
    """A command: its name, its arguments and its qualifiers."""
    name: str
    arguments: list
    qualifiers: dict


class Row(NamedTuple):
    """What follows the keywords of a command: its places, and its qualifiers."""
    name: str
    places: tuple = ()
    qualifiers: dict = {}


class Qualifier(NamedTuple):
    """A qualifier: its name, the group of which one may be given, and the place of its value where it has one."""
    name: str
    group: str
    place: object = None


def words_of(line):
    """The words of a line."""
    words, at = [], 0
    while at < len(line):
        byte = line[at:at + 1]
        if byte in BLANKS:
            at += 1
        elif byte in SIGNS:
            words.append(Word(byte, 'sign'))
            at += 1
        elif byte in QUOTES:
            end = line.find(byte, at + 1)
            words.append(Word(line[at + 1:end] if end >= 0 else line[at + 1:], 'plain' if end >= 0 else 'open'))
            at = end + 1 if end >= 0 else len(line)
        else:
            end = at
            while end < len(line) and line[end] not in BLANKS + SIGNS:
                end += 1
            words.append(Word(line[at:end], 'plain'))
            at = end
    return words


class Words:
    """The words of a line, judged from left to right."""

    def __init__(self, line):
        self.words, self.at = words_of(line), 0

    @property
    def is_spent(self):
        return self.at == len(self.words)

    def fault(self, number=3):
        """The fault of the word that is judged."""
        return LineFault(number, self.at + 1)

    def here(self):
        """The word that is judged; a missing one and one whose quote isn't closed are wrong."""
        if self.is_spent or self.words[self.at].kind == 'open':
            raise self.fault()
        return self.words[self.at]

    def keyword(self, keywords):
        """The keyword of a place that the word means."""
        word = self.here()
        text = word.text.upper()
        if word.kind == 'sign':
            raise self.fault(1)
        fitting = [text] if text in keywords else [k for k in keywords if k.startswith(text)]
        if len(fitting) != 1:
            raise self.fault(2 if fitting else 1)
        self.at += 1
        return fitting[0]

    def plain(self):
        """Any word that is no sign."""
        word = self.here()
        if word.kind == 'sign':
            raise self.fault()
        self.at += 1
        return word.text

    def sign(self, text):
        word = self.here()
        if word != Word(text, 'sign'):
            raise self.fault()
        self.at += 1

    def wrong_before(self):
        """The fault of the word that was judged last."""
        return LineFault(3, self.at)


def is_name(text):
    """Whether a file can have the name."""
    try:
        text.decode('utf-8')
    except UnicodeDecodeError:
        return False
    return 1 <= len(text) <= MOST_NAME_BYTES and not any(byte < 32 or byte == 127 for byte in text)


def is_number(text):
    return 1 <= len(text) <= 10 and text.isdigit()


def any_word(words):
    return words.plain()


def file(words):
    text = words.plain()
    if not is_name(text):
        raise words.wrong_before()
    return text


def number(least, most):
    """The place of a number of a range."""
    def read(words):
        text = words.plain()
        if not is_number(text) or not least <= int(text) <= most:
            raise words.wrong_before()
        return int(text)
    return read


def step_or(*further):
    """The place of a step, or of one of some further keywords."""
    def read(words):
        if words.here().kind == 'plain' and words.here().text[:1].isdigit():
            text = words.plain()
            if not is_number(text):
                raise words.wrong_before()
            return int(text)
        return words.keyword((b'FIRST', b'LAST', *further)).decode().lower()
    return read


def work_variable(words):
    found = work_number(words.plain())
    if found is None:
        raise words.wrong_before()
    return found


def equals(words):
    words.sign(b'=')


def text_and_word(words):
    """The text of LET, and the number of its word."""
    return words.plain(), words.at


STEP = step_or()
OVERRIDE = {b'OVERRIDE': Qualifier('override', 'override')}
FORCE = {b'FORCE': Qualifier('force', 'force')}
IMPROVING = {b'DEPTH': Qualifier('depth', 'depth', number(0, 100)), b'NO_DISTINCT': Qualifier('no distinct', 'no distinct')}
MINIMIZING = {
    b'EXCEPT': Qualifier('except', 'except', any_word),
    b'FORBID': Qualifier('forbid', 'forbid', any_word),
    b'NO_NEW_AXIOMS_FROM': Qualifier('no new axioms', 'no new axioms', any_word),
    b'MAY_GROW': Qualifier('may grow', 'may grow'),
    **OVERRIDE,
}
SAVING = {b'NORMAL': Qualifier('normal', 'form'), b'COMPRESSED': Qualifier('compressed', 'form'), **OVERRIDE}

TABLE = {
    b'READ': Row('read', (file,)),
    b'VERIFY': {b'PROOF': Row('verify proof', (any_word,)), b'MARKUP': Row('verify markup', (any_word,))},
    b'SHOW': {
        b'STATEMENT': Row('show statement', (any_word,), {b'HTML': Qualifier('html', 'html')}),
        b'TRACE_BACK': Row('show trace', (any_word,), {b'AXIOMS': Qualifier('axioms', 'axioms')}),
        b'USAGE': Row('show usage', (any_word,), {b'RECURSIVE': Qualifier('recursive', 'recursive')}),
        b'NEW_PROOF': Row('show proof', (), {b'UNKNOWN': Qualifier('unknown', 'unknown')}),
    },
    b'SET': {
        b'UNDO': Row('set undo', (number(0, 1_000),)),
        b'UNIFICATION_TIMEOUT': Row('set trials', (number(1, 10_000_000),)),
        b'BRACKETS': {b'ON': Row('brackets on'), b'OFF': Row('brackets off')},
        b'EMPTY_SUBSTITUTION': {b'ON': None, b'OFF': Row('empty off')},
    },
    b'WRITE': {b'SOURCE': Row('write source', (file,))},
    b'OPEN': {b'LOG': Row('open log', (file,))},
    b'CLOSE': {b'LOG': Row('close log')},
    b'PROVE': Row('prove', (any_word,), OVERRIDE),
    b'DEMO': Row('demo', (number(1, 1_000),)),
    b'EXIT': Row('exit', (), FORCE),
    b'QUIT': Row('exit', (), FORCE),
    b'ASSIGN': Row('assign', (STEP, any_word), OVERRIDE),
    b'REPLACE': Row('replace', (STEP, any_word), OVERRIDE),
    b'LET': {
        b'VARIABLE': Row('let variable', (work_variable, equals, text_and_word)),
        b'STEP': Row('let step', (STEP, equals, text_and_word)),
    },
    b'UNIFY': {
        b'STEP': Row('unify step', (STEP,), {b'CHOICE': Qualifier('choice', 'choice', number(1, 4_294_967_295))}),
        b'ALL': Row('unify all'),
    },
    b'INITIALIZE': {b'STEP': Row('initialize step', (STEP,)), b'ALL': Row('initialize all')},
    b'DELETE': {b'STEP': Row('delete step', (STEP,)), b'ALL': Row('delete all'), b'FLOATING_HYPOTHESES': Row('delete floats')},
    b'IMPROVE': Row('improve', (step_or(b'ALL'),), IMPROVING),
    b'MINIMIZE_WITH': Row('minimize', (any_word,), MINIMIZING),
    b'UNDO': Row('undo'),
    b'REDO': Row('redo'),
    b'SAVE': {b'NEW_PROOF': Row('save', (), SAVING)},
}


def read_qualifiers(words, row):
    """The qualifiers at the end of a line."""
    found, groups = {}, set()
    while not words.is_spent:
        if not row.qualifiers:
            raise words.fault()
        words.sign(b'/')
        qualifier = row.qualifiers[words.keyword(row.qualifiers)]
        if qualifier.group in groups:
            raise words.wrong_before()
        groups.add(qualifier.group)
        found[qualifier.name] = qualifier.place(words) if qualifier.place else True
    return found


def read_command(line):
    """The command that a line spells; None where it does nothing."""
    begun = line.lstrip(BLANKS)
    if not begun or begun.startswith(b'!'):
        return None
    words, row = Words(line), TABLE
    while isinstance(row, dict):
        row = row[words.keyword(row)]
    if row is None:
        raise words.wrong_before()
    arguments = [place(words) for place in row.places]
    return Command(row.name, [a for a in arguments if a is not None], read_qualifiers(words, row))
