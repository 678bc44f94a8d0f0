"""Random tables for the oracle's list and for comparisons: nodes, rules, and connections in scrambled ages."""
import proofs, tables
from reference import Forest, Refused, is_instance
from scope import DISTANCE


# Tables. Each maker gives (nodes, rules, wanted connections); those that document 01 refuses are left out.

def by_rule(rng, a, b, rule, forward=1):
    """from a to b by a rule, entered from either end"""
    return (a, b, 1, rule, forward) if rng.random() < 0.5 else (b, a, 1, rule, 1 - forward)


def congruent(rng, a, b):
    return (a, b, 0, 0, 0) if rng.random() < 0.5 else (b, a, 0, 0, 0)


def pairs(nodes):
    """pairs of nodes that might be congruent: equal operators and counts"""
    return [(a, b) for b in range(len(nodes)) for a in range(b) if nodes[a][0] == nodes[b][0] and len(nodes[a][1]) == len(nodes[b][1])]


def anything(rng):
    """random nodes, and rules that are not listed or are no instances"""
    nodes = []
    for n in range(rng.randrange(3, 16)):
        nodes.append((rng.randrange(1, 4), [rng.randrange(n) for _ in range(rng.choice((0, 0, 1, 1, 2, 2, 3)))] if n else []))
    some = [(rng.randrange(len(nodes)), rng.randrange(len(nodes))) for _ in range(12)]
    wanted = [by_rule(rng, a, b, rng.choice((0, 7, 7, 300, 65535)), rng.randrange(2)) for a, b in some]
    return nodes, [], wanted + [congruent(rng, a, b) for a, b in pairs(nodes)]


def tower(rng):
    """levels of nodes over a few joined leaves; every pair of a level is wanted as a congruence"""
    width, wide = rng.randrange(2, 5), rng.choice((1, 1, 2, 2, 2, 3))
    nodes = [(i + 1, []) for i in range(width)]
    wanted = [by_rule(rng, i, i + 1, 40 + i) for i in range(width - 1)]
    level = list(range(width))
    for op in range(10, 10 + rng.randrange(1, 4)):
        new = []
        for _ in range(rng.randrange(2, 4)):
            new.append(len(nodes))
            nodes.append((op, [rng.choice(level) for _ in range(wide)]))
        wanted += [congruent(rng, a, b) for a in new for b in new if a < b]
        if rng.random() < 0.3:
            wanted.append(by_rule(rng, rng.choice(level), rng.choice(new), 9))
        level = new
    return nodes, [], wanted


def instances(rng):
    """every rule connection is an instance of its listed rule; congruences over them"""
    found = proofs.rules(rng, rng.randrange(2, 5))
    terms, nodes = [], []

    def put(t):
        # now and then a second node of the same term
        if t in terms and rng.random() < 0.9:
            return terms.index(t)
        kids = [put(k) for k in t[1]]
        terms.append(t)
        nodes.append((t[0], kids))
        return len(nodes) - 1

    for _ in range(rng.randrange(1, 4)):
        t = proofs.term(rng, 2)
        put(t)
        for _ in range(rng.randrange(1, 6)):
            made = proofs.step(rng, t, found)
            if made is None or proofs.size(made[0]) > 14:
                break
            t = made[0]
            put(t)
    for _ in range(rng.randrange(0, 7)):
        if len(nodes) > 40:
            break
        kids = [rng.randrange(len(nodes)) for _ in range(rng.choice((1, 2, 2)))]
        if sum(proofs.size(terms[k]) for k in kids) < 30:
            terms.append((9, tuple(terms[k] for k in kids)))
            nodes.append((9, kids))
    listed, wanted = proofs.table(found), []
    for a in range(len(nodes)):
        for b in range(len(nodes)):
            wanted += [by_rule(rng, a, b, r[0]) for r in listed if a != b and is_instance(nodes, listed, (a, b, 1, r[0], 1))]
    return nodes, listed, wanted + [congruent(rng, a, b) for a, b in pairs(nodes)]


def connect(rng, nodes, wanted):
    """The wanted connections that document 01 accepts, in an order of their own: the ages are scrambled."""
    forest, taken, left = Forest(nodes), [], list(wanted)
    for _ in range(rng.randrange(1, 5)):
        rng.shuffle(left)
        # congruences first in some tables, so that classes grow by them where they can
        if rng.random() < 0.5:
            left.sort(key=lambda c: c[2])
        rest = []
        for c in left:
            try:
                forest.add(c)
                taken.append(c)
            except Refused:
                rest.append(c)
        left = rest
    return forest, taken


def at(t, path):
    for i in path:
        t = t[1][i]
    return t


def rewritten(rng):
    """Terms rewritten step by step: each rule connection is an instance of its listed rule, and what stands above is joined by congruences."""
    found, place, nodes, wanted = proofs.rules(rng, rng.randrange(1, 5)), {}, [], []

    def put(t):
        # now and then a second node of the same term
        if t not in place or rng.random() < 0.05:
            kids = [put(k) for k in t[1]]
            nodes.append((t[0], kids))
            place[t] = len(nodes) - 1
        return place[t]

    for _ in range(rng.randrange(1, 3)):
        t = proofs.term(rng, rng.randrange(1, 4))
        put(t)
        for _ in range(rng.randrange(1, 7)):
            made = proofs.step(rng, t, found)
            if made is None or proofs.size(made[0]) > 30 or len(nodes) > 60:
                break
            put(made[0])
            for path, (direction, number) in made[1].items():
                wanted.append(by_rule(rng, put(at(t, path)), put(at(made[0], path)), number, 2 - direction))
            t = made[0]
    return nodes, proofs.table(found), wanted + [congruent(rng, a, b) for a, b in pairs(nodes)]


def small(rng):
    """one of the shapes of tests/tables.py, mostly of a small size, each tree of it with a root of its own choice"""
    r, by = rng.randrange, rng.choice((1, 1, 1, 1, 1, 1, 1, 2, 4, 8))
    shape = r(12)
    nodes, links, *_ = (
        tables.chain(r(2, 12 * by), r(1, 9), rng.choice((7, 8))) if shape < 2 else tables.tower(r(7), r(4) > 0) if shape == 2 else
        tables.star(r(2, 12 * by)) if shape == 3 else tables.comb(r(2, 8 * by)) if shape == 4 else tables.scrambled(r(2, 20 * by)) if shape == 5 else
        tables.tied() if shape == 6 else tables.nested(r(8 * by)) if shape == 7 else tables.leaning(r(6 * by), r(5 * by)) if shape == 8 else
        tables.changed_leaf(r(1, 6)) if shape == 9 else tables.changed_root(r(1, 5), r(7)) if shape == 10 else
        tables.beside_free(r(1, 4), r(1, 4), r(2, 6 * by)))
    return nodes, rng.choice(([], [(7, [(1, 1, 0)], [(1, 2, 0)])])), turned(rng, len(nodes), links)


def turned(rng, count, links):
    """the same connections, each tree hung up by another of its nodes: what was walked up may be walked down"""
    beside = {n: [] for n in range(count)}
    for age, c in enumerate(links):
        beside[c[0]].append((c[1], age))
        beside[c[1]].append((c[0], age))
    made, seen = list(links), set()
    for root in rng.sample(range(count), count):
        stack = [root] if root not in seen else []
        seen.add(root)
        while stack:
            here = stack.pop()
            for other, age in beside[here]:
                if other not in seen:
                    seen.add(other)
                    stack.append(other)
                    current, _, kind, rule, forward = links[age]
                    made[age] = (other, here, kind, rule, forward if current == other or kind == 0 else 1 - forward)
    return made


def large(rng):
    """shapes near document 01's limits: distances and words on both sides of them, ages as they are"""
    r, shape = rng.randrange, rng.randrange(9)
    wide = r(1, 9)
    nodes, links, left, right = (
        # leaves under so many children: distance (leaves - 1) * children, and three times as much, on both sides of the limit
        tables.chain(r(2, 2047), wide) if shape == 0 else
        tables.runs_under(r(2, 6), min(DISTANCE // 3 // wide + 1, 2030), wide) if shape == 1 else tables.tower(r(4, 15)) if shape == 2 else
        tables.nested(r(20, 300)) if shape == 3 else tables.leaning(r(1, 300), r(1, 400)) if shape == 4 else
        tables.changed_leaf(r(8, 14)) if shape == 5 else tables.changed_root(r(8, 13), r(7)) if shape == 6 else
        tables.among_large(r(6, 11)) if shape == 7 else tables.many_small(r(100, 140)))
    return nodes, [], turned(rng, len(nodes), links), left, right
