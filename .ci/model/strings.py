"""Strings of symbols. A symbol of the database is its bytes, a work variable is its number."""
import re

from .limits import LAST_WORK_VARIABLE, MOST_SYMBOLS

WORDS = re.compile(rb'[^ \t\n\f\r]+')
WORK = re.compile(rb'\$([1-9][0-9]{0,9})')
BRACKETS = ((b'(', b')'), (b'{', b'}'), (b'[', b']'))


class BadSymbol(Exception):
    """The number of the first token of a text that is no symbol there."""


class TooLong(Exception):
    """A string would have more symbols than a string may have."""


def apply(theta, string):
    """A string with each key replaced by its value."""
    if not any(s in theta for s in string):
        return string
    found = []
    for s in string:
        value = theta.get(s)
        if value is None:
            found.append(s)
        else:
            found.extend(value)
    return tuple(found)


def is_work(symbol):
    return isinstance(symbol, int)


def has_work(string):
    return any(isinstance(s, int) for s in string)


def never_closes_first(string):
    """Whether no prefix has more closing than opening symbols of one kind."""
    for opening, closing in BRACKETS:
        depth = 0
        for s in string:
            depth += (s == opening) - (s == closing)
            if depth < 0:
                return False
    return True


def balanced(string):
    """Whether brackets of each kind stand in pairs."""
    return never_closes_first(string) and all(string.count(o) == string.count(c) for o, c in BRACKETS)


def work_number(text):
    """The number of a work variable that a text spells; None where it spells none."""
    found = WORK.fullmatch(text)
    number = int(found.group(1)) if found else 0
    return number if 1 <= number <= LAST_WORK_VARIABLE else None


def parse(theorem, text, next_work):
    """The string that a text spells: symbols active at a theorem, and work variables below the next one."""
    found = []
    for k, token in enumerate(WORDS.findall(text), 1):
        number = work_number(token)
        if token in theorem.active_symbols:
            found.append(token)
        elif number is not None and number < next_work:
            found.append(number)
        else:
            raise BadSymbol(k)
    if len(found) > MOST_SYMBOLS:
        raise TooLong()
    return tuple(found)


def shown(string):
    """A string as it is printed."""
    return b' '.join(b'$%d' % s if isinstance(s, int) else s for s in string)
