"""Damage by name, for comparisons: to the words of an offered proof, to one entry of a table, and to the lines of an input."""
from proofs import size_at
from scope import CHILDREN, DIGITS
from stored import connection_line, node_line, offered_line, query_line, rule_line

# Words: a list of terms (runs of words) becomes another. Frames hold a count and a mark in a byte each, and whole nodes.


def one_node(rng, terms):
    """a term's place, and where one of its nodes stands in it"""
    k = rng.randrange(len(terms))
    return k, 4 * rng.randrange(len(terms[k]) // 4)


def with_word(field, values):
    """a node's word of this field is another one"""
    def change(rng, terms):
        k, at = one_node(rng, terms)
        old = terms[k][at + field]
        terms[k][at + field] = rng.choice([v for v in values(old) if v != old])
    return change


def marked(terms):
    return [(k, at) for k, t in enumerate(terms) for at in range(0, len(t), 4) if t[at + 2]]


def at_mark(field, value):
    """a marked node's word of this field is another one"""
    def change(rng, terms):
        if marked(terms):
            k, at = rng.choice(marked(terms))
            terms[k][at + field] = value(rng, terms[k][at + field])
    return change


def mark_inside(rng, terms):
    """a node under a mark is marked as that one is"""
    inner = [(k, at, i) for k, at in marked(terms) for i in range(at + 4, size_at(terms[k], at), 4)]
    if inner:
        k, at, i = rng.choice(inner)
        terms[k][i + 2:i + 4] = terms[k][at + 2:at + 4]


def another_mark(rng, terms):
    """a node is marked, of any direction and by a rule that may not be listed"""
    k, at = one_node(rng, terms)
    terms[k][at + 2:at + 4] = rng.choice((1, 2)), rng.choice([terms[j][i + 3] for j, i in marked(terms)] + [7])


def without_mark(rng, terms):
    if marked(terms):
        k, at = rng.choice(marked(terms))
        terms[k][at + 2:at + 4] = 0, 0


def exchanged(rng, terms):
    i, j = rng.randrange(len(terms)), rng.randrange(len(terms))
    terms[i], terms[j] = terms[j], terms[i]


def doubled(rng, terms):
    k = rng.randrange(len(terms))
    terms.insert(k, list(terms[k]))


def node_lost(rng, terms):
    k, at = one_node(rng, terms)
    del terms[k][at:at + 4]


def node_more(rng, terms):
    k, at = one_node(rng, terms)
    terms[k][at:at] = [rng.randrange(1, 5), rng.randrange(3), 0, 0]


def subterm_lost(rng, terms):
    """a child less, by count and words"""
    k, at = one_node(rng, terms)
    if terms[k][at + 1]:
        del terms[k][at + 4:size_at(terms[k], at + 4)]
        terms[k][at + 1] -= 1


def subterm_more(rng, terms):
    """a child more, by count and words, behind the others"""
    k, at = one_node(rng, terms)
    if terms[k][at + 1] < CHILDREN:
        end = size_at(terms[k], at)
        terms[k][end:end] = [rng.randrange(1, 5), 0, 0, 0]
        terms[k][at + 1] += 1


WORDS = {
    'another operator': with_word(0, lambda old: (old ^ 1, old % 4 + 1, 0, 65535)),
    'another count': with_word(1, lambda old: (0, 1, 2, 8, 9, 255)),
    'another mark': with_word(2, lambda old: (0, 1, 2, 3, 255)),
    'another rule': with_word(3, lambda old: (0, 7, old ^ 1, 65535)),
    'a direction turned': at_mark(2, lambda rng, old: 3 - old),
    'a rule that may not be listed': at_mark(3, lambda rng, old: rng.choice((0, old + 1 & 65535, 65535))),
    'a mark inside a mark': mark_inside, 'another marked node': another_mark, 'a mark lost': without_mark,
    'terms exchanged': exchanged, 'a term doubled': doubled, 'a term lost': lambda rng, terms: terms.pop(rng.randrange(len(terms))),
    'a term cut': lambda rng, terms: terms[-1].__delitem__(slice(4 * rng.randrange(len(terms[-1]) // 4), None)),
    'a node lost': node_lost, 'a node more': node_more, 'a child lost': subterm_lost, 'a child more': subterm_more,
}

# Entries: a line of its kind that document 01 refuses in most tables. `nodes`, `rules` and `links` are the entries before it.


def some(rng, entries, otherwise):
    return rng.choice(entries) if entries else otherwise


def child_too_high(rng, nodes, rules, links):
    return node_line((1, [len(nodes) + rng.choice((0, 0, 1, 500))]))


def too_many_children(rng, nodes, rules, links):
    return node_line((rng.randrange(9), [0] * rng.choice((9, 10, 255))))


def bad_item(rng, nodes, rules, links):
    side = rng.choice(('0010', '00ff', '02000100', 'ff000100', '010001ff', '01000109' + '01000100' * 9))
    sides = ['01000100', side]
    rng.shuffle(sides)
    return f'02{rng.randrange(65536):04x}' + ''.join(sides)


def long_side(rng, nodes, rules, links):
    """65 items, or just 64, on one side"""
    side, other = [(1, 1, 1)] * rng.choice((63, 64)) + [(1, 1, 0)], [(1, 2, 0)]
    return rule_line((rng.randrange(65536), side, other) if rng.random() < 0.5 else (rng.randrange(65536), other, side))


def unbound(rng, nodes, rules, links):
    v = rng.randrange(16)
    return rule_line((rng.randrange(65536), [(1, 5, 1), (0, v)], [(1, 5, 2), (0, v), (0, (v + rng.randrange(1, 16)) % 16)]))


def link(change):
    """a connection of two nodes, changed"""
    def make(rng, nodes, rules, links):
        a, b = rng.randrange(len(nodes) + 1), rng.randrange(len(nodes) + 1)
        old = some(rng, links, (a, b, 1, 7, 1))
        return connection_line(change(rng, len(nodes), a, b, old))
    return make


ENTRIES = {
    'a child not below': (1, child_too_high), 'nine children': (1, too_many_children),
    'a misshapen item': (2, bad_item), 'a long side': (2, long_side), 'an unbound variable': (2, unbound),
    'a rule listed twice': (2, lambda rng, nodes, rules, links: rule_line(some(rng, rules, (7, [(0, 0)], [(0, 0)])))),
    'a connection of kind 2': (3, link(lambda rng, n, a, b, old: (a, b, rng.choice((2, 255)), 7, 1))),
    'a direction past 1': (3, link(lambda rng, n, a, b, old: (a, b, 1, 7, rng.choice((2, 255))))),
    'a congruence with a rule': (3, link(lambda rng, n, a, b, old: (a, b, 0, 7, 0))),
    'a congruence with a direction': (3, link(lambda rng, n, a, b, old: (a, b, 0, 0, 1))),
    'a node out of the table': (3, link(lambda rng, n, a, b, old: rng.choice(((n, b, 1, 7, 1), (a, n + 3, 0, 0, 0),
                                                                              (65535, 65535, 1, 7, 1))))),
    'ends equal': (3, link(lambda rng, n, a, b, old: (a, a, rng.randrange(2), 0, 0))),
    'a second parent': (3, link(lambda rng, n, a, b, old: (old[0], b, 1, 7, 1))),
    'joined already': (3, link(lambda rng, n, a, b, old: (old[1], old[0], 1, 7, 0))),
    'any congruence': (3, link(lambda rng, n, a, b, old: (a, b, 0, 0, 0))),
}

# Lines: those of an input become bytes.


def text(lines, end='\n'):
    return ('\n'.join(lines) + end).encode('latin-1')


def one_line(change):
    """one line is another one"""
    def make(rng, lines):
        i = rng.randrange(len(lines))
        lines[i] = change(rng, lines[i])
        return text(lines)
    return make


def line_more(make_line):
    def make(rng, lines):
        lines.insert(rng.randrange(len(lines) + 1), make_line(rng))
        return text(lines)
    return make


def put_in(rng, line, what, old=0):
    """with this text at some place, instead of so many digits"""
    i = rng.randrange(len(line) + 1)
    return line[:i] + what + line[i + old:]


def byte_at(rng, line, change):
    i = 2 * rng.randrange(len(line) // 2) if len(line) > 1 else 0
    return line[:i] + change(line[i:i + 2]) + line[i + 2:]


def moved(rng, lines):
    lines.insert(rng.randrange(len(lines)), lines.pop(rng.randrange(len(lines))))
    return text(lines)


def behind_the_end(rng, lines):
    """a frame of any kind behind 06"""
    more = [node_line((1, [])), rule_line((9, [(0, 0)], [(0, 0)])), connection_line((0, 1, 1, 7, 1)), query_line(0, 0),
            offered_line([1, 0, 0, 0]), '06']
    return text(lines + ['06'] + [rng.choice(more) for _ in range(rng.randrange(1, 4))])


def lost(rng, lines):
    del lines[rng.randrange(len(lines))]
    return text(lines, '\n' if lines else '')


def left_open(rng, lines):
    while lines and lines[-1] == '06':
        lines.pop()
    return text(lines + [offered_line([1, 0, 0, 0])])


DIGIT = '0123456789abcdef'
LINES = {
    'an odd digit': one_line(lambda rng, s: put_in(rng, s, rng.choice(DIGIT))),
    'a digit lost': one_line(lambda rng, s: put_in(rng, s, '', 1)),
    'upper case': one_line(lambda rng, s: put_in(rng, s, rng.choice('ABCDEF'), 1)),
    'no digit': one_line(lambda rng, s: put_in(rng, s, rng.choice('g/:`G@ \t\r\0\x7f\xff'), 1)),
    'two that are no digits': one_line(lambda rng, s: put_in(rng, s, rng.choice(('  ', '0x', '\r ', '\xff\xff', '\0\0')), 0)),
    'a carriage return': one_line(lambda rng, s: s + '\r'), 'an empty line': line_more(lambda rng: ''),
    'a long line': line_more(lambda rng: rng.choice(('05', '06', '01')) + '0' * (DIGITS + rng.randrange(-5, 9))),
    'a very long line': line_more(lambda rng: '05' + '0' * rng.randrange(2 * DIGITS, 9 * DIGITS)),
    'no line feed': lambda rng, lines: text(lines, ''), 'no line feed, cut': lambda rng, lines: text(lines)[:-rng.randrange(1, 9)],
    'an unknown kind': line_more(lambda rng: f'{rng.choice((0, 7, 8, 16, 128, 255)):02x}' + '00' * rng.randrange(5)),
    'an unknown kind, of a frame': one_line(lambda rng, s: f'{rng.choice((0, 7, 255)):02x}' + s[2:]),
    'another kind': one_line(lambda rng, s: f'{rng.randrange(1, 7):02x}' + s[2:]), 'a line moved': moved,
    'a byte lost': one_line(lambda rng, s: byte_at(rng, s, lambda b: '')),
    'a byte more': one_line(lambda rng, s: byte_at(rng, s, lambda b: b + b)),
    'a byte behind': one_line(lambda rng, s: s + '00'), 'a line cut': one_line(lambda rng, s: s[:2 * rng.randrange(1, len(s) // 2 + 1)]),
    'another byte': one_line(lambda rng, s: byte_at(rng, s, lambda b: f'{rng.choice((0, 1, 2, 3, 9, 16, 255, rng.randrange(256))):02x}')),
    'a line lost': lost,
    'a line doubled': lambda rng, lines: text([s for k, s in enumerate(lines) for _ in range(1 + (k == len(lines) // 2))]),
    'two lines joined': lambda rng, lines: text(lines[:-2] + [''.join(lines[-2:])]),
    'frames behind the end': behind_the_end, 'terms left open': left_open,
    'rubbish': lambda rng, lines: bytes(rng.randrange(256) for _ in range(rng.randrange(40))), 'nothing': lambda rng, lines: b'',
}
