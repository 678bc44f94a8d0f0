"""Inputs for comparisons, from a seed: bytes of whole runs of the program. Input number i of a seed is always the same, whatever was made
before it."""
import random
import damage, makers, proofs, runs, tables
from reference import term_words
from stored import offered_line, query_line, rule_line, table_lines

MAKERS = [makers.rewritten] * 6 + [makers.small] * 5 + [makers.anything] * 3 + [makers.tower] * 3
ROWS = []


def accepted(rng):
    """tables that document 01 accepts: nodes, rules, connections, and their forest"""
    # all pairs are tried for instances there: dear, and so rare
    maker = makers.instances if rng.random() < 0.004 else rng.choice(MAKERS)
    nodes, rules, wanted = maker(rng)
    forest, taken = makers.connect(rng, nodes, wanted)
    return maker.__name__, nodes, rules, taken, forest


def joined_pair(rng, forest):
    """two joined nodes, other ones where there are any, and rather far apart"""
    pairs = []
    for _ in range(12):
        a = rng.randrange(len(forest.nodes))
        others = [b for b in range(len(forest.nodes)) if b != a and forest.joined(a, b)]
        if others:
            pairs.append((a, rng.choice(others)))
    return max(pairs[:rng.randrange(1, 6)], key=lambda p: forest.distance(*p), default=(0, 0))


def pair(rng, forest):
    count, kind = len(forest.nodes), rng.random()
    if kind < 0.7:
        return joined_pair(rng, forest)
    if kind < 0.95:
        return rng.randrange(count), rng.randrange(count)
    return rng.choice(((rng.randrange(count), count), (count, 0), (count, count), (65535, rng.randrange(count)), (0, count + 256)))


def laid(rng, terms):
    """the lines of an offered proof, without its end: mostly a term a line, else all on one, or pieces that heed no term"""
    words, how = [w for t in terms for w in t], rng.random()
    if how < 0.7 and all(0 < len(t) <= 4 * runs.A_LINE for t in terms):
        return [offered_line(t) for t in terms]
    if how < 0.8 and 0 < len(words) <= 4 * runs.A_LINE:
        return [offered_line(words)]
    lines, at = [], 0
    while at < len(words):
        size = 4 * (rng.randrange(1, 6) if len(words) < 400 else runs.A_LINE)
        lines.append(offered_line(words[at:at + size]))
        at += size
    return lines


def asked(rng):
    name, nodes, rules, taken, forest = accepted(rng)
    queries = [pair(rng, forest) for _ in range(rng.randrange(1, 4))]
    if rng.random() < 0.3:
        queries.append(queries[0][::-1])
    return f'query, {name}', table_lines(nodes, rules, taken) + [query_line(*q) for q in queries]


def honest(rng):
    """what the reference answers to a query, offered under the same tables, or with a rule struck from the list"""
    name, nodes, rules, taken, forest = accepted(rng)
    left, right = joined_pair(rng, forest)
    if forest.needed(left, right) > 4000:
        left = right
    struck = rules and rng.random() < 0.2
    if struck:
        rules = [r for r in rules if r is not rules[0]]
    lines = table_lines(nodes, rules, taken) + ([query_line(left, right)] if rng.random() < 0.3 else [])
    kind = f"proof, a query's, {'a rule struck, ' if struck else ''}{name}"
    return kind, lines + laid(rng, [term_words(t) for t in forest.flat_proof(left, right)]) + ['06']


def offered(rng, made=proofs.proof):
    """rules, and terms made by rewriting, mostly more than one"""
    found = proofs.rules(rng, rng.randrange(1, 5))
    terms = made(rng, found, rng.randrange(1, 6))
    while len(terms) == 1 and rng.random() < 0.9:
        terms = made(rng, found, rng.randrange(1, 6))
        found = found if len(terms) > 1 else proofs.rules(rng, rng.randrange(1, 5))
        terms = terms if len(terms) > 1 else made(rng, found, rng.randrange(1, 6))
    return proofs.table(found), terms


def good(rng):
    rules, terms = offered(rng, proofs.parallel)
    kind = 'proof, one mark a step'
    if proofs.several(terms):
        # several marks in a term are 15, however right they are; the same rewriting step by step is accepted
        kind, terms = ('proof, split', proofs.split(terms)) if rng.random() < 0.5 else ('proof, parallel', terms)
    return kind, [rule_line(r) for r in rules] + laid(rng, terms) + ['06']


def damaged(rng):
    # of one mark a term, mostly: several are 15 before anything behind it is looked at
    rules, terms = offered(rng, proofs.parallel if rng.random() < 0.1 else proofs.proof)
    name = rng.choice(list(damage.WORDS))
    damage.WORDS[name](rng, terms)
    lines = [rule_line(r) for r in rules] + laid(rng, terms) + ['06']
    if rng.random() < 0.2:
        # another proof behind it
        more, terms = offered(rng)
        lines += laid(rng, terms) + ['06']
    return f'damaged proof, {name}', lines


def bad_entry(rng):
    """tables with one entry that is mostly refused, at any place of its kind"""
    _, nodes, rules, taken, _ = accepted(rng)
    name = rng.choice(list(damage.ENTRIES))
    kind, make = damage.ENTRIES[name]
    before = [nodes, rules, taken]
    at = rng.randrange(len(before[kind - 1]) + 1)
    here = before[:kind - 1] + [before[kind - 1][:at]] + [[]] * (3 - kind)
    lines, front = table_lines(nodes, rules, taken), len(table_lines(*here))
    lines.insert(front, make(rng, *here))
    return f'bad entry, {name}', lines + ['0400000001']


def mixed(rng):
    """tables whose entries are mostly good, and queries"""
    nodes, links = tables.random_table(rng)
    queries = [query_line(rng.randrange(len(nodes)), rng.randrange(len(nodes))) for _ in range(2)]
    return 'mixed entries', table_lines(nodes, [], links) + queries


def bad_lines(rng):
    _, lines = rng.choice((asked, honest, good, good))(rng)
    name = rng.choice(list(damage.LINES))
    return f'lines, {name}', damage.LINES[name](rng, lines)


def large(rng):
    nodes, rules, links, left, right = makers.large(rng)
    return 'large', table_lines(nodes, rules, links) + [query_line(left, right), query_line(right, left)]


def rows():
    """the named runs, each limit and one past it among them"""
    if not ROWS:
        ROWS.extend(given for _, given, _, _ in runs.rows())
    return ROWS


def damaged_row(rng):
    """A change in one line of a named run, in its last ones mostly: what is before it must be kept for the row to say something."""
    lines = rng.choice(rows()).decode('latin-1').split('\n')[:-1] or ['']
    front = max(0, len(lines) - rng.randrange(1, 9)) if rng.random() < 0.7 else 0
    name = rng.choice(('another byte', 'a byte lost', 'a line lost', 'a line doubled', 'a line moved'))
    rest = damage.LINES[name](rng, lines[front:])
    return 'named row, damaged', damage.text(lines[:front], '\n' if front else '') + rest


MIX = [asked] * 34 + [honest] * 10 + [good] * 12 + [damaged] * 24 + [bad_entry] * 9 + [mixed] * 2 + [bad_lines] * 9


def one(seed, number):
    """(kind, bytes) of input `number`"""
    rng = random.Random(f'{seed} {number}')
    if number % 20 == 0 and number // 20 < len(rows()):
        return 'named row', rows()[number // 20]
    # the dear ones are rare
    maker = damaged_row if number % 100 == 0 else large if number % 200 == 7 else rng.choice(MIX)
    kind, made = maker(rng)
    return kind, made if isinstance(made, bytes) else damage.text(made)
