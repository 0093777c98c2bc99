"""The proof that is found for a goal, and the edits that put it in the place of unknown steps."""
from .edits import NOTHING_CHANGED, Refusal, resolved, within_limits
from .limits import MOST_SYMBOLS
from .machine import first_violation
from .strings import apply, has_work
from .trees import Node, Proof, drawn, goals, path_to, put
from .unifying import unifiers


class Search:
    """Looks for proofs of goals at a theorem, with what was found for each goal."""

    def __init__(self, db, theorem, brackets, no_distinct):
        self.db, self.theorem, self.brackets, self.no_distinct = db, theorem, brackets, no_distinct
        self.usable = [s for s in db.statements[:theorem.number] if self.may_be_used(s)]
        self.plain = [s for s in self.usable if not essentials(s)]
        self.known_matches, self.chosen = {}, {}

    def may_be_used(self, statement):
        if statement.is_hypothesis or statement.usage_guarded or not set(statement.variables()) <= set(statement.symbols):
            return False
        return not (self.no_distinct and statement.pairs)

    def matches(self, goal, statement):
        """The values of a statement's variables with which it says the goal and its pairs hold, in order."""
        if (goal, statement.label) not in self.known_matches:
            fresh, _ = drawn(1, statement)
            listing = unifiers(goal, apply(fresh, statement.symbols), self.brackets, None)
            found = [{v: apply(theta, w) for v, w in fresh.items()} for theta in listing.found]
            self.known_matches[goal, statement.label] = [v for v in found if self.are_apart(statement, v)]
        return self.known_matches[goal, statement.label]

    def are_apart(self, statement, values):
        return first_violation(statement.pairs, values, self.theorem.active_pairs, self.db.is_variable) is None

    def hypothesis(self, goal):
        """The first active hypothesis that is the goal, as its proof."""
        return next((Node(goal, h) for h in self.theorem.active if h.symbols == goal), None)

    def below(self, goal):
        """All goals on the way from a goal to hypotheses, whether these have proofs or not."""
        found, waiting = {goal}, [goal]
        while waiting:
            part = waiting.pop()
            for statement in self.plain:
                for values in self.matches(part, statement):
                    new = set(goals(statement, values)) - found
                    found |= new
                    waiting.extend(new)
        return found

    def by_use(self, goal, chosen):
        """The proof of a goal by the first use of a plain assertion whose parts have chosen proofs already."""
        for statement in self.plain:
            for values in self.matches(goal, statement):
                parts = [chosen.get(part) for part in goals(statement, values)]
                if None not in parts:
                    return Node(goal, statement, values, parts)
        return None

    def chosen_proof(self, goal):
        """The chosen proof of a goal that has a rank: that of the least rank."""
        if goal not in self.chosen:
            left = self.below(goal)
            chosen = {part: node for part in left if (node := self.hypothesis(part))}
            new = True
            while new:
                left -= set(chosen)
                new = {part: node for part in left if (node := self.by_use(part, chosen))}
                chosen.update(new)
            self.chosen.update(chosen)
            self.chosen.update((part, None) for part in left)
        return self.chosen[goal]

    def proof(self, goal, depth):
        """The proof of a goal at a depth; None where it has none."""
        if len(goal) > MOST_SYMBOLS:
            return None
        found = self.chosen_proof(goal)
        if found is not None or depth == 0:
            return found
        for statement in self.usable:
            if essentials(statement):
                for values in self.matches(goal, statement):
                    parts = self.parts(statement, values, depth)
                    if parts is not None:
                        return Node(goal, statement, values, parts)
        return None

    def parts(self, statement, values, depth):
        """The proofs of a statement's hypotheses under values; None where one has none."""
        found = []
        for h in statement.mandatory:
            part = apply(values, h.symbols)
            found.append(self.chosen_proof(part) if h.kind == b'$f' else self.proof(part, depth - 1))
            if found[-1] is None:
                return None
        return found


def essentials(statement):
    return [h for h in statement.mandatory if h.kind == b'$e']


def filled(root, number, found):
    """A tree with a proof in the place of a step, unless the proof or the whole is too large."""
    within_limits(found)
    root = put(root, number, found)
    within_limits(root)
    return root


def improve(search, proof, step, depth):
    """Replaces an unknown step by the proof of its target."""
    number, node = resolved(proof, step)
    if not node.is_unknown:
        raise Refusal(18, b'step %d is known' % number)
    if has_work(node.target):
        raise Refusal(30, b'step %d has work variables' % number)
    found = search.proof(node.target, depth)
    if found is None:
        raise NOTHING_CHANGED
    return Proof(filled(proof.root, number, found), proof.next_work)


def improve_all(search, proof, depth):
    """Replaces each unknown step without work variables that has a proof, in order."""
    root = proof.root
    for k in range(1, root.size + 1):
        number = k + root.size - proof.root.size
        _, node = path_to(root, number)
        if node.is_unknown and not has_work(node.target):
            found = search.proof(node.target, depth)
            if found is not None:
                root = filled(root, number, found)
    if root is proof.root:
        raise NOTHING_CHANGED
    return Proof(root, proof.next_work)
