"""The list of unifiers of two strings."""
from collections import Counter
from typing import NamedTuple

from .limits import MOST_SYMBOLS
from .strings import apply, balanced, is_work, never_closes_first


class Listing(NamedTuple):
    """The unifiers found, in order; how the search ended; and how many nodes it visited."""
    found: list
    ended: str  # whole, trials or length
    visited: int

    @property
    def is_whole(self):
        return self.ended == 'whole'


def stays_shorter(short, long):
    """Whether each work variable occurs at most as often in the short string, and it has fewer other symbols."""
    mine = [s for s in short if is_work(s)]
    theirs = Counter(s for s in long if is_work(s))
    if any(n > theirs[s] for s, n in Counter(mine).items()):
        return False
    return len(short) - len(mine) < len(long) - sum(theirs.values())


def children_of(left, right, values):
    """The nodes below a node with different heads, in order."""
    x, y = left[0], right[0]
    if is_work(x):
        choices = [{x: (y,)}, {x: (y, x)}]
        if is_work(y):
            choices.append({y: (x, y)})
    elif is_work(y):
        choices = [{y: (x,)}, {y: (x, y)}]
    else:
        return []
    return [(apply(c, left), apply(c, right), {w: apply(c, v) for w, v in values.items()}) for c in choices]


def without_equal_heads(left, right):
    """Two strings without the beginning that they share."""
    k = 0
    while k < len(left) and k < len(right) and left[k] == right[k]:
        k += 1
    return left[k:], right[k:]


def unifiers(left, right, brackets, trials):
    """The unifiers of two strings, by a search of so many nodes at most, or of any number where it is None."""
    works = sorted({s for s in left + right if is_work(s)})
    found, visited = [], 0
    waiting = [(left, right, {w: (w,) for w in works})]
    while waiting:
        left, right, values = waiting.pop()
        if visited == trials:
            return Listing(found, 'trials', visited)
        if any(len(v) > MOST_SYMBOLS for v in values.values()):
            return Listing(found, 'length', visited)
        visited += 1
        left, right = without_equal_heads(left, right)
        if not left and not right:
            if not brackets or all(balanced(v) for v in values.values()):
                found.append(values)
        elif left and right and not stays_shorter(left, right) and not stays_shorter(right, left):
            if not brackets or all(never_closes_first(v) for v in values.values()):
                waiting.extend(reversed(children_of(left, right, values)))
    return Listing(found, 'whole', visited)
