"""Random rules and proofs for the tests. A term is (operator, (children..)); a pattern the same, or a variable's number."""
import random


def term(rng, depth):
    op = rng.randrange(1, 5)
    if depth == 0 or rng.random() < 0.4:
        return op, ()
    return op, tuple(term(rng, depth - 1) for _ in range(rng.choice((1, 1, 2, 2, 3, 8 if depth == 1 else 1))))


def pattern(rng, depth, variables):
    if variables and rng.random() < 0.45:
        return rng.choice(variables)
    op = rng.randrange(1, 5)
    if depth == 0 or rng.random() < 0.3:
        return op, ()
    return op, tuple(pattern(rng, depth - 1, variables) for _ in range(rng.choice((1, 2))))


def variables(p):
    return [p] if isinstance(p, int) else [v for k in p[1] for v in variables(k)]


def items(p):
    return [(0, p)] if isinstance(p, int) else [(1, p[0], len(p[1]))] + [i for k in p[1] for i in items(k)]


def rules(rng, count):
    found = []
    for number in rng.sample(range(65536), count):
        left = pattern(rng, 2, list(range(rng.randrange(0, 4))))
        found.append((number, left, pattern(rng, 2, variables(left))))
    return found


def table(found):
    return [(number, items(left), items(right)) for number, left, right in found]


def match(p, t, bound):
    if isinstance(p, int):
        return bound.setdefault(p, t) == t
    return p[0] == t[0] and len(p[1]) == len(t[1]) and all(match(a, b, bound) for a, b in zip(p[1], t[1]))


def build(p, bound):
    return bound[p] if isinstance(p, int) else (p[0], tuple(build(k, bound) for k in p[1]))


def places(t, path=()):
    yield path, t
    for i, k in enumerate(t[1]):
        yield from places(k, path + (i,))


def put(t, path, u):
    if not path:
        return u
    kids = list(t[1])
    kids[path[0]] = put(kids[path[0]], path[1:], u)
    return t[0], tuple(kids)


def size(t):
    return 1 + sum(map(size, t[1]))


def step(rng, t, found):
    """Another term with marks {path: (direction, rule)}, or None: one or more places of one direction, none inside another."""
    direction = rng.choice((1, 2))
    choices = []
    for number, left, right in found:
        source, target = (left, right) if direction == 1 else (right, left)
        for path, sub in places(t):
            bound = {}
            if match(source, sub, bound):
                choices.append((number, path, bound, target))
    rng.shuffle(choices)
    marks, result = {}, t
    for number, path, bound, target in choices[:rng.choice((1, 1, 1, 2, 3))]:
        if any(path[:len(q)] == q or q[:len(path)] == path for q in marks):
            continue
        for v in variables(target):
            bound.setdefault(v, term(rng, 1))
        made = put(result, path, build(target, bound))
        if size(made) > 60:
            continue
        result, marks[path] = made, (direction, number)
    return (result, marks) if marks else None


def words(t, marks, path=()):
    direction, number = marks.get(path, (0, 0))
    return [t[0], len(t[1]), direction, number] + [w for i, k in enumerate(t[1]) for w in words(k, marks, path + (i,))]


def parallel(rng, found, steps):
    """Terms made by rewriting, as runs of words: some of several marks, where several places were rewritten at once."""
    t = term(rng, 3)
    terms = [words(t, {})]
    for _ in range(steps):
        made = step(rng, t, found)
        if made is None:
            break
        t, marks = made
        terms.append(words(t, marks))
    return terms


def proof(rng, found, steps):
    """A proof's terms as runs of words: each later one has one mark."""
    return split(parallel(rng, found, steps))


def damaged(rng, terms):
    """The words of a proof with something changed."""
    flat = [w for t in terms for w in t]
    kind = rng.randrange(7)
    at = rng.randrange(len(flat))
    if kind == 0:
        flat[at] = rng.choice((0, 1, 2, 3, 8, 9, 65535, flat[at] ^ 1))
    elif kind == 1:
        del flat[at]
    elif kind == 2:
        del flat[at - at % 4:at - at % 4 + 4]
    elif kind == 3:
        flat[at - at % 4 + 2] = rng.randrange(4)
    elif kind == 4:
        i, j = rng.randrange(len(terms)), rng.randrange(len(terms))
        other = list(terms)
        other[i], other[j] = other[j], other[i]
        flat = [w for t in other for w in t]
    elif kind == 5:
        flat[at - at % 4 + 3] = rng.randrange(65536)
    else:
        flat[at:at] = [rng.randrange(5)] * rng.choice((1, 4))
    return flat


def spots(words, ends):
    """for each node of each later term: where it stands, its term's place, its size, and whether it stands inside a mark"""
    found = []
    for k in range(1, len(ends)):
        at, inside = ends[k - 1], 0
        while at < ends[k]:
            end = size_at(words, at)
            found.append((at, k, end, at < inside))
            if words[at + 2]:
                inside = max(inside, end)
            at += 4
    return found


def size_at(words, at):
    pending = 1
    while pending:
        pending += words[at + 1] - 1
        at += 4
    return at


def changed(rng, terms):
    """A later term with something changed where the Rust and document 01 may differ."""
    flat = [w for t in terms for w in t]
    ends = [sum(map(len, terms[:k + 1])) for k in range(len(terms))]
    places = spots(flat, ends)
    if not places:
        return flat
    # mostly above or beside the marks, where the Rust looks least
    outside = [p for p in places if not p[3] and not flat[p[0] + 2]]
    at, _, end, _ = rng.choice(outside if outside and rng.random() < 0.7 else places)
    kind = rng.randrange(6)
    marked = [p for p in places if flat[p[0] + 2]]
    if kind == 0:                                       # another operator
        flat[at] = flat[at] % 4 + 1
    elif kind == 1 and flat[at + 1]:                    # the first child left out
        flat[at + 1] -= 1
        del flat[at + 4:size_at(flat, at + 4)]
    elif kind == 2 and flat[at + 1] < 8:                # a child more, behind the others
        flat[at + 1] += 1
        flat[end:end] = [rng.randrange(1, 5), 0, 0, 0]
    elif kind == 3:                                     # a rule that may not be listed
        here = rng.choice(marked)[0]
        flat[here + 3] = rng.choice((0, 7, 65535))
    elif kind == 4:                                     # a mark inside a marked subterm
        inner = [p for p in places if p[3]]
        if inner:
            here, k = rng.choice(inner)[:2]
            outer = next(p[0] for p in marked if p[1] == k)
            flat[here + 2:here + 4] = flat[outer + 2:outer + 4]
    else:                                               # the direction turned
        here = rng.choice(marked)[0]
        flat[here + 2] = 3 - flat[here + 2]
    return flat


def unmarked(words):
    return [0 if i % 4 > 1 else w for i, w in enumerate(words)]


def singly(earlier, later):
    """A step of several marks as steps of one mark each, in words. Both terms agree above the marks."""
    parts, a, b = [], 0, 0
    while b < len(later):
        ends = (size_at(earlier, a), size_at(later, b)) if later[b + 2] else (a + 4, b + 4)
        parts.append((unmarked(earlier[a:ends[0]]), later[b:ends[1]]))
        a, b = ends
    made = []
    for k, (_, made_here) in enumerate(parts):
        if made_here[2]:
            # before it everything is made already, behind it nothing
            made.append([w for j, (old, new) in enumerate(parts) for w in (unmarked(new) if j < k else new if j == k else old)])
    return made


def several(terms):
    """the place of the first term that has several marks, or None"""
    return next((k for k, t in enumerate(terms) if sum(m > 0 for m in t[2::4]) > 1), None)


def split(terms):
    """the same rewriting with one mark a step"""
    return terms[:1] + [t for k in range(1, len(terms)) for t in singly(terms[k - 1], terms[k])]
