"""The strict checker a third time, over trees: document 01's words are parsed to trees from behind, each tree without its marks has a
number of its own, and a step is a walk down two trees. It shares nothing with tests/reference.py but the limits."""
from scope import CHILDREN, TERMS, WORDS


class Tree:
    __slots__ = 'operator', 'mark', 'rule', 'children', 'number'

    def __init__(self, operator, mark, rule, children, number):
        self.operator, self.mark, self.rule, self.children, self.number = operator, mark, rule, children, number


def parse(words, known):
    """The terms, or None. Read from the last node to the first: a node's children stand on the stack, the first of them on top, so that
    nothing recurses. `known` numbers the trees: two have one number where they are the same without their marks."""
    if len(words) % 4:
        return None
    stack = []
    for at in range(len(words) - 4, -1, -4):
        operator, count, mark, rule = words[at:at + 4]
        if count > CHILDREN or count > len(stack) or mark not in (0, 1, 2) or mark == 0 and rule != 0:
            return None
        children = [stack.pop() for _ in range(count)]
        number = known.setdefault((operator, *(c.number for c in children)), len(known))
        stack.append(Tree(operator, mark, rule, children, number))
    return stack[::-1]


def pattern(items):
    """a side's items as a tree: a variable's number, or (operator, [patterns])"""
    rest = iter(items)

    def whole():
        item = next(rest)
        return item[1] if item[0] == 0 else (item[1], [whole() for _ in range(item[2])])

    return whole()


def match(side, tree, bound):
    """Whether a side fits a tree, its variables bound to the numbers of subtrees."""
    if isinstance(side, int):
        return bound.setdefault(side, tree.number) == tree.number
    operator, sides = side
    return operator == tree.operator and len(sides) == len(tree.children) and all(match(s, t, bound) for s, t in zip(sides, tree.children))


def nodes(tree):
    """every node"""
    stack = [tree]
    while stack:
        here = stack.pop()
        yield here
        stack += here.children


def step(rules, earlier, later):
    """Whether the later term is made from the earlier by what it marks, and nothing else is changed."""
    pairs = [(earlier, later)]
    while pairs:
        a, b = pairs.pop()
        if b.mark:
            left, right = rules[b.rule]
            # one substitution for both sides; its bindings are found on the left first, which has every variable
            bound, (source, target) = {}, (a, b) if b.mark == 1 else (b, a)
            if not (match(left, source, bound) and match(right, target, bound)):
                return False
        elif a.operator != b.operator or len(a.children) != len(b.children):
            return False
        else:
            pairs += zip(a.children, b.children)
    return True


def later_fault(rules, earlier, later):
    """the number by which a later term is refused, or 0"""
    named = [node.rule for node in nodes(later) if node.mark]
    if len(named) != 1:
        return 15
    if named[0] not in rules:
        return 16
    return 0 if step(rules, earlier, later) else 17


def verdict(rules, words):
    """(0, terms), or a refusal's number and place. `rules` are accepted: (number, left items, right items) each."""
    if len(words) > WORDS:
        return 19, 0
    if not words:
        return 12, 0
    terms = parse(words, {})
    if terms is None:
        return 13, 0
    if len(terms) > TERMS:
        return 19, 0
    if any(node.mark for node in nodes(terms[0])):
        return 14, 0
    listed = {number: (pattern(left), pattern(right)) for number, left, right in rules}
    for place in range(1, len(terms)):
        fault = later_fault(listed, terms[place - 1], terms[place])
        if fault:
            return fault, place
    return 0, len(terms)
