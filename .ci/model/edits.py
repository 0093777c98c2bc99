"""What each edit makes of a proof in hand, or why it is refused."""
from typing import NamedTuple

from .limits import LISTED_CHOICES, MOST_HEIGHT, MOST_STEPS
from .proofs import ProofFault, decode, fold, shape
from .strings import BadSymbol, TooLong, parse, shown
from .trees import Node, Proof, WorkSpent, bound, drawn, from_labels, goals, path_to, put, renewed, steps_of
from .unifying import unifiers


class Refusal(Exception):
    """A refusal: its number, its text, and the lines that come before it."""

    def __init__(self, number, text, before=()):
        super().__init__(number, text)
        self.number, self.text, self.before = number, text, before


class Settings(NamedTuple):
    """The settings of edits."""
    trials: int
    brackets: bool


TOO_MANY_STEPS = Refusal(15, b'more than 1000000 steps')
TOO_HIGH = Refusal(16, b'higher than 2000 steps')
NO_SUCH_STEP = Refusal(17, b'no such step')
NOTHING_CHANGED = Refusal(29, b'nothing changed')
WORK_VARIABLES_SPENT = Refusal(43, b'work variables are spent')
LIMIT_LENGTH = Refusal(23, b'limit: length')


def limit(listing):
    """The refusal of a listing that isn't whole."""
    return Refusal(23, b'limit: trials' if listing.ended == 'trials' else b'limit: length')


def resolved(proof, step):
    """The number and the node that a step's word names: a number, `first` or `last` of the unknown steps."""
    steps = steps_of(proof.root)
    if step in ('first', 'last'):
        unknown = [k for k, node in enumerate(steps, 1) if node.is_unknown]
        if not unknown:
            raise NO_SUCH_STEP
        step = unknown[0 if step == 'first' else -1]
    if not 1 <= step <= len(steps):
        raise NO_SUCH_STEP
    return step, steps[step - 1]


def known(proof, step):
    number, node = resolved(proof, step)
    if node.is_unknown:
        raise Refusal(19, b'step %d is unknown' % number)
    return number, node


def usable(theorem, statement):
    """Refuses a statement that may not stand in the theorem's proof."""
    if statement.is_hypothesis:
        if statement.label not in {h.label for h in theorem.active}:
            raise Refusal(21, b'hypothesis %s is not active' % statement.label)
    elif statement.number >= theorem.number:
        raise Refusal(20, b'%s is not earlier' % statement.label)


def listed(node, settings):
    """The unifiers of a step's target with its source."""
    return unifiers(node.target, node.source, settings.brackets, settings.trials)


def only_unifier(listing):
    """The one unifier of a whole listing; None where there are several or the listing isn't whole."""
    return listing.found[0] if listing.is_whole and len(listing.found) == 1 else None


def with_theta(root, theta):
    try:
        return bound(root, theta)
    except TooLong:
        raise LIMIT_LENGTH from None


def placed(node, statement, next_work):
    """An unknown step made known by a statement, with unknown children."""
    try:
        values, next_work = drawn(next_work, statement)
    except WorkSpent:
        raise WORK_VARIABLES_SPENT from None
    return Node(node.target, statement, values, [Node(t) for t in goals(statement, values)]), next_work


def within_limits(root):
    """Refuses a tree with too many steps, or one that is too high."""
    if root.size > MOST_STEPS:
        raise TOO_MANY_STEPS
    if root.height > MOST_HEIGHT:
        raise TOO_HIGH


def assign(theorem, proof, settings, step, statement):
    """Makes an unknown step known by a statement."""
    usable(theorem, statement)
    number, node = resolved(proof, step)
    if not node.is_unknown:
        raise Refusal(18, b'step %d is known' % number)
    new, next_work = placed(node, statement, proof.next_work)
    root = put(proof.root, number, new)
    within_limits(root)
    listing = listed(new, settings)
    if listing.is_whole and not listing.found:
        raise Refusal(22, b'step %d has no unifier' % number)
    theta = only_unifier(listing)
    return Proof(root if theta is None else with_theta(root, theta), next_work)


def replace(theorem, proof, settings, step, statement):
    """Gives a known step another statement; children that still fit stay."""
    usable(theorem, statement)
    number, old = known(proof, step)
    new, next_work = placed(Node(old.target), statement, proof.next_work)
    listing = listed(new, settings)
    if listing.is_whole and not listing.found:
        raise Refusal(22, b'step %d has no unifier' % number)
    root, theta, kept = put(proof.root, number, new), only_unifier(listing), list(old.children)
    place = number - old.size + new.size
    if theta is not None:
        root = with_theta(root, theta)
        kept = [with_theta(child, theta) for child in kept]
    _, new = path_to(root, place)
    children = [next((k for k in kept if k.target == child.target), child) for child in new.children]
    root = put(root, place, Node(new.target, new.statement, new.values, children))
    within_limits(root)
    return Proof(root, next_work)


def parsed(theorem, proof, text, word):
    """The string that a text of LET spells."""
    try:
        value = parse(theorem, text, proof.next_work)
    except BadSymbol as bad:
        raise Refusal(27, b'bad symbol %d in the text' % bad.args[0]) from None
    except TooLong:
        raise LIMIT_LENGTH from None
    if not value:
        raise Refusal(3, b'word %d is wrong' % word)
    return value


def let_variable(theorem, proof, variable, text, word):
    """Puts a text for a work variable."""
    value = parsed(theorem, proof, text, word)
    if variable in value:
        raise Refusal(28, b'$%d occurs in its own value' % variable)
    if not any(variable in string for node in steps_of(proof.root) for string in (node.target, *node.values.values())):
        raise NOTHING_CHANGED
    return Proof(with_theta(proof.root, {variable: value}), proof.next_work)


def let_step(theorem, proof, settings, step, text, word):
    """Unifies a step's target with a text."""
    value = parsed(theorem, proof, text, word)
    number, node = resolved(proof, step)
    listing = unifiers(node.target, value, settings.brackets, settings.trials)
    if not listing.is_whole:
        raise limit(listing)
    if not listing.found:
        raise Refusal(22, b'step %d has no unifier' % number)
    if len(listing.found) > 1:
        raise Refusal(24, b'step %d has %d unifiers' % (number, len(listing.found)))
    return Proof(with_theta(proof.root, listing.found[0]), proof.next_work)


def choices(listing):
    """The lines of the first unifiers of a listing."""
    lines = []
    for k, theta in enumerate(listing.found[:LISTED_CHOICES], 1):
        lines.append(b'Choice %d' % k)
        lines += [b'  $%d = %s' % (w, shown(value)) for w, value in sorted(theta.items()) if value != (w,)]
    return lines


def unify_step(proof, settings, step, choice):
    """Unifies a pending step, by its only unifier or by a chosen one."""
    number, node = known(proof, step)
    if not node.is_pending:
        raise Refusal(25, b'step %d is not pending' % number)
    listing = listed(node, settings)
    count = len(listing.found)
    if listing.is_whole and count == 0:
        raise Refusal(22, b'step %d has no unifier' % number)
    if choice is None and not listing.is_whole:
        refused = limit(listing)
        raise Refusal(refused.number, refused.text, choices(listing))
    if choice is None and count > 1:
        raise Refusal(24, b'step %d has %d unifiers' % (number, count), choices(listing))
    if choice is not None and count < choice:
        raise Refusal(26, b'step %d has %d choices' % (number, count))
    return Proof(with_theta(proof.root, listing.found[(choice or 1) - 1]), proof.next_work)


def unify_all(proof, settings):
    """Unifies each pending step that has one unifier, the first such step first."""
    root, changed = proof.root, False
    while True:
        found = (only_unifier(listed(node, settings)) for node in steps_of(root) if node.is_pending)
        theta = next((theta for theta in found if theta is not None), None)
        if theta is None:
            break
        root, changed = with_theta(root, theta), True
    if not changed:
        raise NOTHING_CHANGED
    return Proof(root, proof.next_work)


def initialize(proof, number):
    """Gives the known steps of the part at a step fresh work variables."""
    _, node = path_to(proof.root, number)
    if not any(s.statement is not None and s.statement.variables() for s in steps_of(node)):
        raise NOTHING_CHANGED
    try:
        node, next_work = renewed(node, proof.next_work)
    except WorkSpent:
        raise WORK_VARIABLES_SPENT from None
    return Proof(put(proof.root, number, node), next_work)


def delete(proof, number):
    """Makes a step unknown."""
    _, node = path_to(proof.root, number)
    return Proof(put(proof.root, number, Node(node.target)), proof.next_work)


def delete_all(proof):
    if proof.root.is_unknown:
        raise NOTHING_CHANGED
    return delete(proof, proof.root.size)


def without_floats(node):
    """A tree in which each known child that stands for an `$f` hypothesis is unknown."""
    if node.is_unknown:
        return node
    children = []
    for h, child in zip(node.statement.mandatory, node.children):
        children.append(Node(child.target) if h.kind == b'$f' else without_floats(child))
    return Node(node.target, node.statement, node.values, children)


def has_known_float(node):
    """Whether a known child stands for an `$f` hypothesis."""
    return not node.is_unknown and any(h.kind == b'$f' and not c.is_unknown or has_known_float(c) for h, c in zip(node.statement.mandatory, node.children))


def delete_floats(proof):
    if not has_known_float(proof.root):
        raise NOTHING_CHANGED
    return Proof(without_floats(proof.root), proof.next_work)


def load(db, theorem, settings):
    """The proof of a theorem as it is taken in hand."""
    try:
        steps = decode(db, theorem)
    except ProofFault:
        steps = None
    found = shape(steps) if steps is not None else None
    if found is None:
        raise Refusal(14, b'the proof of %s has no tree' % theorem.label)
    if found[0] > MOST_STEPS:
        raise TOO_MANY_STEPS
    if found[1] > MOST_HEIGHT:
        raise TOO_HIGH
    try:
        root, next_work = from_labels(fold(steps), theorem.symbols, 1)
    except WorkSpent:
        raise WORK_VARIABLES_SPENT from None
    return Proof(unified_in_turn(root, settings), next_work)


def unified_in_turn(root, settings):
    """A tree after each pending step, visited once in postorder, had its only unifier applied."""
    for number in range(1, root.size + 1):
        _, node = path_to(root, number)
        theta = only_unifier(listed(node, settings)) if node.is_pending else None
        if theta is not None:
            root = with_theta(root, theta)
    return root
