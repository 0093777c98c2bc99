"""The two forms of a proof: what a text spells, label trees, and the text of a label tree."""
from typing import NamedTuple, Optional

LINE = 79
INDENT = b' ' * 6
LETTERS_A_LINE = 72


class ProofFault(Exception):
    """A fault of a proof, with its number and the token or byte where it shows."""

    def __init__(self, number, at):
        super().__init__(number, at)
        self.number, self.at = number, at


class Step(NamedTuple):
    """A step: a statement, or the number of the tagged step that it names again, or neither where it is unknown."""
    statement: Optional[object] = None
    back: Optional[int] = None
    tagged: bool = False

    @property
    def is_unknown(self):
        return self.statement is None and self.back is None


class LabelTree(NamedTuple):
    """A statement, or None for an unknown step, over its children."""
    statement: Optional[object]
    children: tuple


def decode(db, theorem):
    """The steps that a theorem's proof spells."""
    if not theorem.proof:
        raise ProofFault(9, 0)
    if theorem.proof[0][1] == b'(':
        return decode_compressed(db, theorem)
    steps = []
    for number, (_, text) in enumerate(theorem.proof, 1):
        steps.append(Step() if text == b'?' else Step(named(db, theorem, text, number)))
    return steps


def named(db, theorem, text, number):
    """The statement that a token of a proof names."""
    statement = db.find(text)
    if statement is None:
        raise ProofFault(1, number)
    if statement.is_hypothesis:
        if statement not in theorem.active:
            raise ProofFault(3, number)
    elif statement.number >= theorem.number:
        raise ProofFault(2, number)
    return statement


def decode_compressed(db, theorem):
    """The steps of a proof in compressed form."""
    listed = []
    for number, (_, text) in enumerate(theorem.proof[1:], 2):
        if text == b')':
            return decode_letters(theorem, theorem.mandatory + listed, theorem.proof[number:])
        statement = named(db, theorem, text, number)
        if statement in theorem.mandatory:
            raise ProofFault(4, number)
        listed.append(statement)
    raise ProofFault(8, 0)


def decode_letters(theorem, numbered, tokens):
    """The steps that letters spell, where the statements have the first numbers."""
    steps, tags, high, open_number, complete, any_step = [], [], 0, False, False, False
    for at, letter in ((start + k, text[k:k + 1]) for start, text in tokens for k in range(len(text))):
        if letter == b'Z':
            if not complete:
                raise ProofFault(7, at)
            steps[-1] = steps[-1]._replace(tagged=True)
            tags.append(len(steps))
            complete = False
        elif letter == b'?':
            if open_number:
                raise ProofFault(5, at)
            steps.append(Step())
            complete, any_step = False, True
        elif b'U' <= letter <= b'Y':
            high, open_number, complete, any_step = high * 5 + ord(letter) - ord('T'), True, False, True
        elif b'A' <= letter <= b'T':
            steps.append(numbered_step(high * 20 + ord(letter) - ord('@'), numbered, tags, at))
            high, open_number, complete, any_step = 0, False, True, True
        else:
            raise ProofFault(5, at)
    if not any_step:
        raise ProofFault(9, 0)
    if open_number:
        raise ProofFault(10, 0)
    return steps


def numbered_step(number, numbered, tags, at):
    """The step that a number spells."""
    if number <= len(numbered):
        return Step(numbered[number - 1])
    if number <= len(numbered) + len(tags):
        return Step(back=tags[number - len(numbered) - 1])
    raise ProofFault(6, at)


def shape(steps):
    """The size and height of the label tree of steps, copies counted; None where they fold to no single tree."""
    stack, tagged = [], {}
    for number, step in enumerate(steps, 1):
        if step.back is not None:
            entry = tagged[step.back]
        else:
            arity = len(step.statement.mandatory) if step.statement else 0
            if len(stack) < arity:
                return None
            below = stack[len(stack) - arity:]
            del stack[len(stack) - arity:]
            entry = (1 + sum(size for size, _ in below), 1 + max((height for _, height in below), default=0))
        stack.append(entry)
        if step.tagged:
            tagged[number] = entry
    return stack[0] if len(stack) == 1 else None


def fold(steps):
    """The label tree of steps that fold to one; a step that refers back is a copy."""
    stack, tagged = [], {}
    for number, step in enumerate(steps, 1):
        if step.back is not None:
            tree = tagged[step.back]
        else:
            arity = len(step.statement.mandatory) if step.statement else 0
            tree = LabelTree(step.statement, tuple(stack[len(stack) - arity:]))
            del stack[len(stack) - arity:]
        stack.append(tree)
        if step.tagged:
            tagged[number] = tree
    return stack[0]


def postorder(tree):
    """The steps of a label tree, a step after its children."""
    found, waiting = [], [tree]
    while waiting:
        tree = waiting.pop()
        found.append(tree)
        waiting.extend(tree.children)
    return reversed(found)


def label_of(tree):
    return tree.statement.label if tree.statement else b'?'


def filled(tokens):
    """Lines filled with tokens."""
    lines, line = [], INDENT + tokens[0]
    for token in tokens[1:]:
        if len(line) + 1 + len(token) > LINE:
            lines.append(line)
            line = INDENT + token
        else:
            line += b' ' + token
    return [*lines, line]


def between(lines):
    """What stands between `$=` and `$.` for these lines."""
    return b'\n' + b'\n'.join(lines) + b' '


def encode_normal(tree):
    """The normal form of a label tree."""
    return between(filled([label_of(step) for step in postorder(tree)]))


class Sharing:
    """Which steps of a label tree are written, and which parts of it only as steps that refer back."""

    def __init__(self, tree):
        self.numbers, self.written, self.named_again, self.order = {}, set(), set(), []
        self.walk(tree)

    def walk(self, tree):
        """Goes over a tree; answers its number among the different trees, and whether it is complete."""
        number, complete = self.number_of(tree)
        if tree.children and complete and number in self.written:
            self.named_again.add(number)
            self.order.append((None, number))
            return
        for child in tree.children:
            self.walk(child)
        self.order.append((tree, number))
        if tree.children and complete:
            self.written.add(number)

    def number_of(self, tree):
        """A number that equal trees share, and whether the tree has no unknown step."""
        known = self.numbers.get(id(tree))
        if known is None:
            below = [self.number_of(child) for child in tree.children]
            key = (label_of(tree), tuple(number for number, _ in below))
            number = self.numbers.setdefault(key, len(self.numbers))
            known = (number, tree.statement is not None and all(complete for _, complete in below))
            self.numbers[id(tree)] = known
        return known


def spelled(number):
    """A number in letters."""
    number -= 1
    text, number = chr(ord('A') + number % 20), number // 20
    while number > 0:
        number -= 1
        text, number = chr(ord('U') + number % 5) + text, number // 5
    return text


def listed_labels(written, mandatory):
    """The statements that a compressed proof lists, in their order there: that of first use."""
    listed = {}
    for tree in written:
        if tree.statement is not None and tree.statement.label not in mandatory:
            listed.setdefault(tree.statement.label, len(listed))
    return list(listed)


def compressed(theorem, tree):
    """The labels that a compressed proof lists, and its letters."""
    sharing = Sharing(tree)
    mandatory = [h.label for h in theorem.mandatory]
    listed = listed_labels([step for step, _ in sharing.order if step is not None], mandatory)
    numbers = {label: k for k, label in enumerate(mandatory + listed, 1)}
    letters, tags = '', {}
    for step, number in sharing.order:
        if step is None:
            letters += spelled(len(numbers) + tags[number])
        elif step.statement is None:
            letters += '?'
        else:
            letters += spelled(numbers[step.statement.label])
            if number in sharing.named_again and number not in tags and step.children:
                tags[number] = len(tags) + 1
                letters += 'Z'
    return listed, letters.encode()


def encode_compressed(theorem, tree):
    """The compressed form of a label tree."""
    listed, letters = compressed(theorem, tree)
    lines = [INDENT + letters[k:k + LETTERS_A_LINE] for k in range(0, len(letters), LETTERS_A_LINE)]
    return between(filled([b'(', *listed, b')']) + lines)


def compressed_length(theorem, tree):
    """How many bytes the compressed form has on one line."""
    listed, letters = compressed(theorem, tree)
    return len(b' '.join([b'(', *listed, b')', letters]))
