"""The machine that verifies proofs."""
from .limits import MOST_SYMBOLS
from .proofs import ProofFault, decode
from .strings import apply


class RunFault(Exception):
    """A fault of a run, as VERIFY PROOF prints it after the label."""


def first_violation(pairs, values, active_pairs, is_variable):
    """The first two variables that aren't distinct, for pairs under values; None where all are."""
    for x, y in pairs:
        for u in filter(is_variable, values[x]):
            for v in filter(is_variable, values[y]):
                if u == v or frozenset((u, v)) not in active_pairs:
                    return u, v
    return None


def applied(db, theorem, statement, stack, k):
    """Takes the entries of an assertion's hypotheses off the stack; answers what step k pushes."""
    hypotheses = statement.mandatory
    if len(stack) < len(hypotheses):
        raise RunFault(b'fault 2 at step %d' % k)
    entries = stack[len(stack) - len(hypotheses):]
    del stack[len(stack) - len(hypotheses):]
    values = {}
    for h, entry in zip(hypotheses, entries):
        if h.kind == b'$f':
            if entry[0] != h.symbols[0]:
                raise RunFault(b'fault 3 at step %d' % k)
            values[h.symbols[1]] = entry[1:]
    for h, entry in zip(hypotheses, entries):
        if h.kind == b'$e' and apply(values, h.symbols) != entry:
            raise RunFault(b'fault 4 at step %d' % k)
    apart = first_violation(statement.pairs, values, theorem.active_pairs, db.is_variable)
    if apart:
        number = 5 if apart[0] == apart[1] else 6
        raise RunFault(b'fault %d at step %d, %s and %s' % (number, k, *apart))
    result = apply(values, statement.symbols)
    if len(result) > MOST_SYMBOLS:
        raise RunFault(b'fault 9 at step %d' % k)
    return result


def run(db, theorem, steps):
    """Runs steps from the empty stack; whether the theorem is accepted, or the proof is incomplete."""
    stack, tagged = [], {}
    for k, step in enumerate(steps, 1):
        if step.is_unknown:
            return False
        if step.back is not None:
            pushed = tagged[step.back]
        elif step.statement.is_hypothesis:
            pushed = step.statement.symbols
        else:
            pushed = applied(db, theorem, step.statement, stack, k)
        stack.append(pushed)
        if step.tagged:
            tagged[k] = pushed
    if len(stack) != 1:
        raise RunFault(b'fault 7, %d entries' % len(stack))
    if stack[0] != theorem.symbols:
        raise RunFault(b'fault 8')
    return True


def verify(db, theorem):
    """What VERIFY PROOF says of a theorem: nothing where it is accepted, `incomplete`, or its fault."""
    try:
        return None if run(db, theorem, decode(db, theorem)) else b'incomplete'
    except ProofFault as fault:
        return b'proof fault %d at %d' % (fault.number, fault.at)
    except RunFault as fault:
        return fault.args[0]
