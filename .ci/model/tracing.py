"""Patterns of labels, and what theorems use."""
import re

from .proofs import ProofFault, decode


def is_pattern(text):
    return any(sign in text for sign in (b'*', b'?', b','))


def matches(pattern, label):
    """Whether one of a pattern's parts between commas fits a label."""
    for part in pattern.split(b','):
        form = b''.join(b'.*' if c == b'*' else b'.' if c == b'?' else re.escape(c) for c in (part[k:k + 1] for k in range(len(part))))
        if part and re.fullmatch(form, label, re.DOTALL):
            return True
    return False


def uses(db, statement):
    """The assertions that a statement's proof applies, by their numbers."""
    if statement.kind != b'$p':
        return set()
    try:
        steps = decode(db, statement)
    except ProofFault:
        return set()
    return {s.statement.number for s in steps if s.statement is not None and not s.statement.is_hypothesis}


class Trace:
    """What each statement of a database uses, and what it depends on."""

    def __init__(self, db):
        self.uses = [uses(db, s) for s in db.statements]
        self.depends = []
        for direct in self.uses:
            self.depends.append(direct.union(*(self.depends[k] for k in direct)))
