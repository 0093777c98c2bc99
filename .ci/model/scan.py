"""Tokens and comments of a source."""
import re
from typing import NamedTuple, Optional

RUN = re.compile(rb'[\x21-\x7e]+')
BAD = re.compile(rb'[^\x21-\x7e \t\n\f\r]')


class Token(NamedTuple):
    """A run of printable bytes outside comments."""
    start: int
    text: bytes


class Comment(NamedTuple):
    """A comment: how many tokens stand before it, and what stands between its `$(` and its `$)`."""
    before: int
    content: bytes


class Scan(NamedTuple):
    """What a source is made of, up to its first byte that no source may have."""
    tokens: list
    comments: list
    open_comment: Optional[int]
    bad: Optional[int]


def scan(source):
    """The tokens and comments of a source, from left to right."""
    found = BAD.search(source)
    bad = found.start() if found else None
    tokens, comments, begun = [], [], None
    for run in RUN.finditer(source, 0, len(source) if bad is None else bad):
        text = run.group()
        if begun is not None:
            if text == b'$)':
                comments.append(Comment(len(tokens), source[begun + 2:run.start()]))
                begun = None
        elif text == b'$(':
            begun = run.start()
        else:
            tokens.append(Token(run.start(), text))
    return Scan(tokens, comments, begun, bad)
