"""Tables for tests and benchmarks: nodes, connections, and the pair to ask for. A node is (operator, [children..]), a connection its five words."""
import random
from reference import distance
from scope import R7


def by_rule(a, b, rule=7, forward=1):
    return a, b, 1, rule, forward


def congruent(a, b):
    return a, b, 0, 0, 0


def tower(levels, joined=True):
    """g(x, x) over two leaves: level k of each side; the leaves joined by a rule, or equal leaves by congruence (distance 0)"""
    nodes = [(1, []), (2 if joined else 1, [])]
    links = [by_rule(0, 1) if joined else congruent(0, 1)]
    for k in range(levels):
        a = 2 * k
        nodes += [(3, [a, a]), (3, [a + 1, a + 1])]
        links.append(congruent(a + 2, a + 3))
    return nodes, links, 2 * levels, 2 * levels + 1


def summed(more):
    """Towers of levels 0 to 13 as children of two congruences, one inside the other: the distance of the upper one is the sum of all
    levels, 2 ** 14 - 1, and one for each leaf more."""
    nodes, links, _, _ = tower(13)
    nodes += [(4, [2 * k + side for k in range(7)] + [side] * more) for side in (0, 1)]
    nodes += [(5, [28 + side] + [2 * k + side for k in range(7, 14)]) for side in (0, 1)]
    return nodes, links + [congruent(28, 29), congruent(30, 31)], 30, 31


def chain(leaves, children, back=7):
    """leaves joined one after the other, under two nodes whose children are all the first and all the last; `back` is the rule from an
    odd leaf to the next"""
    nodes = [(10 + i % 2, []) for i in range(leaves)]
    nodes += [(3, [0] * children), (3, [leaves - 1] * children)]
    links = [by_rule(i, i + 1, back if i % 2 else 7) for i in range(leaves - 1)] + [congruent(leaves, leaves + 1)]
    return nodes, links, leaves, leaves + 1


def storeys(leaves, children, above):
    """the two nodes over a chain of leaves, and two with so many of these as children: distance (leaves - 1) * children * above"""
    nodes, links, left, right = chain(leaves, children)
    return nodes + [(4, [left] * above), (4, [right] * above)], links + [congruent(leaves + 2, leaves + 3)], leaves + 2, leaves + 3


def rising(leaves):
    """A chain of leaves, a rule from its last to (o3 x) of its first, there the chain again, and so to (o4 x): distance
    3 * (leaves - 1) + 2, of terms of one node and of two."""
    nodes = [(1 + i % 2, []) for i in range(leaves)]
    nodes += [(op, [end]) for op in (3, 4) for end in (0, leaves - 1)]
    links = [by_rule(i, i + 1) for i in range(leaves)]
    links += [congruent(leaves, leaves + 1), by_rule(leaves + 1, leaves + 2), congruent(leaves + 2, leaves + 3)]
    return nodes, links, 0, leaves + 3


def runs_under(links, leaves=1366, children=4, held=(), back=7, first=None):
    """Three congruences of so many children over a chain of leaves, rule connections from each to the next, so many in all: distance
    3 * (leaves - 1) * children + links. With three of them and these numbers the terms are as many as there may be, of five nodes.
    `held` are nodes of a full tree that stand as children behind the others, `back` is the rule from an odd leaf to the next, `first` the
    number of the first rule connection's rule, behind which those of the others come: where none is given, all are by rule 7."""
    nodes = full(2) if held else []
    leaf = len(nodes)
    nodes += [(1 + i % 2, []) for i in range(leaves)]
    top, ends = len(nodes), (leaf, leaf + leaves - 1)
    nodes += [(4 + k // 2, [ends[k % 2]] * children + list(held)) for k in range(6)]
    nodes += [(7 + k, [leaf] * children + list(held)) for k in range(links - 2)]
    chained = [by_rule(leaf + i, leaf + i + 1, back if i % 2 else 7) for i in range(leaves - 1)]
    above = [congruent(top + k, top + k + 1) for k in (0, 2, 4)]
    above += [by_rule(k, k + 1, first + n if first else 7) for n, k in enumerate((top + min(2 * n + 1, n + 3)) for n in range(links))]
    return nodes, chained + above, top, len(nodes) - 1


# of a full tree's nodes 2, 1 and 0 have 11 nodes together: held in runs_under they make terms of 16
HELD = (2, 1, 0)


def between(variables):
    """rules of which the connections of runs_under(3, held=.., back=8, first=9) are instances: a variable for each child that is held"""
    ends = [[(1, 1 + end, 0)] * 4 + [(0, v) for v in variables] for end in (0, 1)]
    across = [(9 + k, [(1, 4 + k, len(ends[1])), *ends[1]], [(1, 5 + k, len(ends[0])), *ends[0]]) for k in range(3)]
    return [R7, (8, R7[2], R7[1]), *across]


def star(n):
    nodes = [(1, [])] * n
    return nodes, [by_rule(i, 0) for i in range(1, n)], 1, n - 1


def comb(n):
    """a spine of n nodes, each with a tooth"""
    nodes = [(1, [])] * (2 * n)
    return nodes, [by_rule(i, i + 1) for i in range(n - 1)] + [by_rule(n + i, i) for i in range(n)], n, 2 * n - 1


def scrambled(n):
    """a chain whose connections come in another order than the nodes"""
    links = [by_rule(i, i + 1) for i in range(n - 1)]
    random.Random(3).shuffle(links)
    return [(1, [])] * n, links, 0, n - 1


def deepest():
    """the largest table: 2,048 nodes of up to 8 children, 2,047 connections in one chain, most of them congruences of 8 joined pairs"""
    nodes = [(1, [])] * 8 + [(2, [i % 8 for _ in range(8)]) for i in range(2040)]
    links = [by_rule(i, i + 1) for i in range(7)] + [congruent(i, i + 1) for i in range(8, 2047)] + [by_rule(7, 8)]
    return nodes, links, 0, 2047


def tied():
    """six trees of shared leaves: the same child lists met again and again"""
    nodes = [(1, [])] * 6 + [(2, [i % 6, (i + 1) % 6]) for i in range(60)]
    links = [by_rule(i, i + 1) for i in range(5)] + [congruent(6 + i, 7 + i) for i in range(59)]
    return nodes, links, 6, 65


def nested(levels):
    """two unary terms over two leaves that a rule joins: so many congruences, each inside the next"""
    nodes, links = [(1, []), (2, [])], [by_rule(0, 1)]
    for k in range(levels):
        nodes += [(3, [2 * k]), (3, [2 * k + 1])]
        links.append(congruent(2 * k + 2, 2 * k + 3))
    return nodes, links, 2 * levels, 2 * levels + 1


def leaning(pairs, shared):
    """Nested congruences, the upper ones all with the right node f(w), to which the leaf w is joined by a rule: a level takes one node, not
    two, and costs a term. So the nesting goes deepest."""
    nodes, links, x, y = nested(pairs)
    w, z = len(nodes), len(nodes) + 1
    nodes += [(4, []), (3, [w])]
    links += [by_rule(y, w), by_rule(w, z)]
    for _ in range(shared):
        nodes.append((3, [x]))
        x = len(nodes) - 1
        links.append(congruent(x, z))
    return nodes, links, x, z


def full(levels):
    """one leaf, and g(x, x) so many times over it: the last node's term has 2 ** (levels + 1) - 1 nodes"""
    return [(1, [])] + [(3, [k, k]) for k in range(levels)]


def changed_leaf(levels):
    """A full tree, and the same with another last leaf: two terms, and at each level one half is held."""
    nodes, leaf = full(levels), levels + 1
    nodes += [(2, [])] + [(3, [k, leaf + k]) for k in range(levels)]
    return nodes, [by_rule(0, leaf)] + [congruent(k, leaf + k) for k in range(1, levels + 1)], levels, leaf + levels


def changed_root(levels, leaves):
    """A full tree, and by a rule another root over the same two halves and so many leaves."""
    nodes = full(levels)
    return nodes + [(4, [levels - 1] * 2 + [0] * leaves)], [by_rule(levels, levels + 1)], levels, levels + 1


def among_large(levels):
    """two nodes of eight children: a rule joins one pair of leaves among seven full trees that are held"""
    nodes, t = full(levels), levels
    nodes += [(2, []), (5, [t] * 3 + [0] + [t] * 4), (5, [t] * 3 + [t + 1] + [t] * 4)]
    return nodes, [by_rule(0, t + 1), congruent(t + 2, t + 3)], t + 2, t + 3


def many_small(leaves, back=7):
    """two nodes with a chain of leaves under three children, and four full trees of 15 nodes held beside them: each term has 64 nodes"""
    nodes = full(3) + [(10 + i % 2, []) for i in range(leaves)]
    first, last = 4, 3 + leaves
    nodes += [(3, [end] * 3 + [3] * 4) for end in (first, last)]
    links = [by_rule(first + i, first + i + 1, back if i % 2 else 7) for i in range(leaves - 1)]
    return nodes, links + [congruent(last + 1, last + 2)], last + 1, last + 2


def beside_free(steps, depth, free):
    """A path of so many congruences, in each of them so many nested, each of eight pairs of children: one pair is rewritten, and the other seven
    are the ends of a long chain of distance 0, which is climbed for each of them."""
    nodes, a, b = [(1, []), (2, [])] + [(1, [])] * free, 2, free + 1
    links = [by_rule(0, 1)] + [congruent(i, i + 1) for i in range(a, b)]
    x, y = 0, 1
    for _ in range(depth):
        nodes += [(5, [x] + [a] * 7), (5, [y] + [b] * 7)]
        x, y = len(nodes) - 2, len(nodes) - 1
        links.append(congruent(x, y))
    first = len(nodes)
    nodes += [(5, [y] + [b] * 7) if i % 2 else (5, [x] + [a] * 7) for i in range(steps + 1)]
    return nodes, links + [congruent(i, i + 1) for i in range(first, first + steps)], first, first + steps


def random_table(rng):
    """small tables in which most entries are good"""
    nodes = []
    for n in range(rng.randrange(1, 14)):
        kids = [rng.randrange(n) for _ in range(rng.choice((0, 1, 1, 2, 2, 3)))] if n else []
        nodes.append((rng.randrange(1, 3), kids if rng.random() < 0.98 else kids + [n + rng.randrange(2)]))
    links = []
    for _ in range(rng.randrange(0, 16)):
        a, b = rng.randrange(len(nodes) + (rng.random() < 0.02)), rng.randrange(len(nodes))
        c = rng.choice((congruent(a, b), by_rule(a, b, rng.randrange(9), rng.randrange(2)), by_rule(a, b)))
        try:
            distance(nodes, [], links + [c], 0, 0)
            links.append(c)
        except Exception as refusal:
            # keep one bad connection now and then: it decides
            if getattr(refusal, 'number', 0) in (6, 7, 2) and rng.random() < 0.02:
                links.append(c)
    return nodes, links
