"""The stored list of the oracle's answers (tests/vectors): document 01's lines of hexadecimal, written and read, and the list itself.
A case is a line `# name`, input lines, and the oracle's output lines, each behind `> `. Cases stand apart by an empty line."""
import hashlib, os, re

HERE = os.path.join(os.path.dirname(os.path.abspath(__file__)), 'vectors')


# Frames, from entries as tests/reference.py has them.

def node_line(node):
    op, kids = node
    return f'01{op:04x}{len(kids):02x}' + ''.join(f'{k:04x}' for k in kids)


def rule_line(rule):
    number, left, right = rule
    return f'02{number:04x}' + ''.join(f'00{it[1]:02x}' if it[0] == 0 else f'01{it[1]:04x}{it[2]:02x}' for it in left + right)


def connection_line(connection):
    current, nxt, kind, rule, forward = connection
    return f'03{current:04x}{nxt:04x}{kind:02x}{rule:04x}{forward:02x}'


def query_line(left, right):
    return f'04{left:04x}{right:04x}'


def offered_line(words):
    return '05' + ''.join(f'{op:04x}{count:02x}{mark:02x}{rule:04x}' for op, count, mark, rule in zip(*[iter(words)] * 4))


def deep_lines(levels):
    """An offered proof of one term, (o3 (o3 .. o1)): too long to be stored."""
    words = [w for _ in range(levels) for w in (3, 1, 0, 0)] + [1, 0, 0, 0]
    # as many nodes a line as a line may hold
    return [offered_line(words[i:i + 2400]) for i in range(0, len(words), 2400)] + ['06']


# Row 19 of docs/DIFFERENCES.md: how deep the term is on which the Rust overflows a thread's stack.
DEEP = 40000


def table_lines(nodes, rules, connections):
    return [node_line(n) for n in nodes] + [rule_line(r) for r in rules] + [connection_line(c) for c in connections]


# And back. A frame of the list is well formed.

def numbers(digits, widths):
    """the numbers of these widths in bytes, and the digits that are left"""
    found = []
    for w in widths:
        found.append(int(digits[:2 * w], 16))
        digits = digits[2 * w:]
    return found, digits


def side(digits):
    items, pending = [], 1
    while pending:
        (kind,), digits = numbers(digits, [1])
        values, digits = numbers(digits, [2, 1] if kind else [1])
        items.append((kind, *values))
        pending += (values[1] if kind else 0) - 1
    return items, digits


def parse(lines):
    """(nodes, rules, connections, queries, offered words) of an input"""
    nodes, rules, connections, queries, words = [], [], [], [], []
    for line in lines:
        kind, rest = int(line[:2], 16), line[2:]
        if kind == 1:
            (op, count), rest = numbers(rest, [2, 1])
            nodes.append((op, numbers(rest, [2] * count)[0]))
        elif kind == 2:
            (number,), rest = numbers(rest, [2])
            left, rest = side(rest)
            rules.append((number, left, side(rest)[0]))
        elif kind == 3:
            connections.append(tuple(numbers(rest, [2, 2, 1, 2, 1])[0]))
        elif kind == 4:
            queries.append(tuple(numbers(rest, [2, 2])[0]))
        elif kind == 5:
            words += numbers(rest, [2, 1, 1, 2] * (len(rest) // 12))[0]
    return nodes, rules, connections, queries, words


def text_words(text):
    """The words of a term in document 01's spelling."""
    tokens = re.findall(r'[()]|[^\s()]+', text)

    def term(at, mark, rule):
        if tokens[at] != '(':
            return [int(tokens[at][1:]), 0, mark, rule], at + 1
        if tokens[at + 1].startswith('Rewrite'):
            words, at = term(at + 3, {'Rewrite=>': 1, 'Rewrite<=': 2}[tokens[at + 1]], int(tokens[at + 2][1:]))
            return words, at + 1
        op, at, count, kids = int(tokens[at + 1][1:]), at + 2, 0, []
        while tokens[at] != ')':
            words, at = term(at, 0, 0)
            count, kids = count + 1, kids + words
        return [op, count, mark, rule] + kids, at + 1

    words, at = term(0, 0, 0)
    assert at == len(tokens), text
    return words


# The list.

def write(name, head, cases):
    with open(os.path.join(HERE, name), 'w') as f:
        f.write(''.join(f'## {line}\n' for line in head))
        for title, lines, answers in cases:
            f.write('\n'.join(['', f'# {title}', *lines, *('> ' + a for a in answers)]) + '\n')


def read(name):
    """(title, input lines, output lines) of each case"""
    cases = []
    for line in open(os.path.join(HERE, name)).read().splitlines():
        if line.startswith('# '):
            cases.append((line[2:], [], []))
        elif line.startswith('> '):
            cases[-1][2].append(line[2:])
        elif line and not line.startswith('##'):
            cases[-1][1].append(line)
    return cases


def digest(terms):
    """one line that stands for a proof that is too long to be stored"""
    lines = [t + '\n' for t in terms]
    return f'sha256 {hashlib.sha256("".join(lines).encode()).hexdigest()} of {len(lines)} terms'


def whole(output):
    """whether each query of these output lines has its terms there"""
    return all(len(terms) == distance + 1 for distance, terms in answers(output))


def answers(output):
    """the output lines of each query: [(distance, [terms])]"""
    found = []
    for line in output:
        if line.startswith('distance '):
            found.append((int(line[9:]), []))
        else:
            found[-1][1].append(line)
    return found
