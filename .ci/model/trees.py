"""Proofs in hand: trees of steps with known and unknown parts, as whole values."""
from typing import NamedTuple

from .limits import LAST_WORK_VARIABLE, MOST_SYMBOLS
from .proofs import LabelTree
from .strings import TooLong, apply, has_work


class WorkSpent(Exception):
    """A work variable with too great a number would be drawn."""


class Node:
    """A step: its target, and where it is known its statement, the values of that statement's variables and its children."""
    __slots__ = ('target', 'statement', 'values', 'children', 'source', 'size', 'height', 'works', 'longest')

    def __init__(self, target, statement=None, values=None, children=()):
        self.target, self.statement, self.values, self.children = target, statement, values or {}, tuple(children)
        self.source = None if statement is None else apply(self.values, statement.symbols)
        self.size = 1 + sum(c.size for c in self.children)
        self.height = 1 + max((c.height for c in self.children), default=0)
        strings = [target, *self.values.values()]
        self.works = any(map(has_work, strings)) or any(c.works for c in self.children)
        self.longest = max(map(len, [*strings, self.source or ()]))

    @property
    def is_unknown(self):
        return self.statement is None

    @property
    def is_pending(self):
        return self.statement is not None and self.source != self.target


class Proof(NamedTuple):
    """A tree and the number of the next work variable."""
    root: Node
    next_work: int


def steps_of(root):
    """The steps of a tree in postorder."""
    found, waiting = [], [root]
    while waiting:
        node = waiting.pop()
        found.append(node)
        waiting.extend(node.children)
    found.reverse()
    return found


def path_to(root, number):
    """The way from the root to a step: the nodes passed, each with the place of the child that is taken, and the step's node."""
    path, node = [], root
    while number != node.size:
        for place, child in enumerate(node.children):
            if number <= child.size:
                path.append((node, place))
                node = child
                break
            number -= child.size
    return path, node


def put(root, number, new):
    """The tree with another node in the place of a step."""
    path, _ = path_to(root, number)
    for node, place in reversed(path):
        children = list(node.children)
        children[place] = new
        new = Node(node.target, node.statement, node.values, children)
    return new


def bound(node, theta):
    """A tree with a substitution applied to every target and value; the first string that would be too long raises."""
    if not node.works:
        return node
    children = [bound(c, theta) for c in node.children]
    values = {v: apply(theta, s) for v, s in node.values.items()}
    new = Node(apply(theta, node.target), node.statement, values, children)
    if new.longest > MOST_SYMBOLS:
        raise TooLong()
    return new


def drawn(next_work, statement):
    """Fresh work variables for a statement's mandatory variables, and the next work variable after them."""
    variables = statement.variables()
    if next_work + len(variables) - 1 > LAST_WORK_VARIABLE and variables:
        raise WorkSpent()
    return {v: (next_work + k,) for k, v in enumerate(variables)}, next_work + len(variables)


def goals(statement, values):
    """The targets of the children of a step: the statement's hypotheses under the values."""
    return [apply(values, h.symbols) for h in statement.mandatory]


def with_target(node, target):
    """A node with another target."""
    return Node(target, node.statement, node.values, node.children)


def renewed(node, next_work):
    """A tree whose known steps have fresh work variables, drawn in postorder; its own target stays."""
    children = []
    for child in node.children:
        child, next_work = renewed(child, next_work)
        children.append(child)
    if node.is_unknown or node.statement.is_hypothesis:
        return node, next_work
    values, next_work = drawn(next_work, node.statement)
    children = [with_target(c, t) for c, t in zip(children, goals(node.statement, values))]
    return Node(node.target, node.statement, values, children), next_work


def from_labels(tree, target, next_work):
    """The proof tree of a label tree, with fresh work variables, drawn in postorder."""
    children = []
    for child in tree.children:
        child, next_work = from_labels(child, (), next_work)
        children.append(child)
    if tree.statement is None or tree.statement.is_hypothesis:
        return Node(target, tree.statement), next_work
    values, next_work = drawn(next_work, tree.statement)
    children = [with_target(c, t) for c, t in zip(children, goals(tree.statement, values))]
    return Node(target, tree.statement, values, children), next_work


def labels_of(node):
    """The label tree of a proof tree."""
    return LabelTree(node.statement, tuple(labels_of(c) for c in node.children))
