"""Document 01 once more, in Python: a second reading, against which the proved code is run. Plain and recursive where that is short; terms are walked flat."""
import sys
from scope import AREA, CHILDREN, DIGITS, DISTANCE, ITEMS, NODES, RULES, TERMS, VARIABLES, WORDS


class Refused(Exception):
    def __init__(self, number, place=0):
        self.number, self.place = number, place


# Tables are lists of entries. A node is (operator, [children]); a rule (number, left, right), a side a list of items (0, variable)
# or (1, operator, count); a connection (current, next, kind, rule, forward), kind 0 for congruence.

def whole_pattern(items):
    pending = 1
    if not 1 <= len(items) <= ITEMS:
        return False
    for it in items:
        if pending == 0 or it[0] not in (0, 1):
            return False
        if it[0] == 0:
            if it[1] >= VARIABLES:
                return False
            pending -= 1
        else:
            if it[2] > CHILDREN:
                return False
            pending += it[2] - 1
    return pending == 0


def judge_node(n, node):
    """node n of a table"""
    op, kids = node
    if len(kids) > CHILDREN:
        raise Refused(2)
    if n >= NODES:
        raise Refused(3)
    if any(k >= n for k in kids):
        raise Refused(4)


def judge_nodes(nodes):
    for n, node in enumerate(nodes):
        judge_node(n, node)


def judge_rule(before, rule):
    """a rule behind those that are listed before"""
    number, left, right = rule
    if not whole_pattern(left) or not whole_pattern(right):
        raise Refused(2)
    if len(before) >= RULES:
        raise Refused(3)
    bound = {it[1] for it in left if it[0] == 0}
    if any(number == b[0] for b in before) or any(it[0] == 0 and it[1] not in bound for it in right):
        raise Refused(5)


def judge_rules(rules):
    for i, rule in enumerate(rules):
        judge_rule(rules[:i], rule)


class Forest:
    """The connections in age order, each judged by the older ones."""

    def __init__(self, nodes):
        self.nodes, self.parent, self.cost, self.root = nodes, {}, [], list(range(len(nodes)))
        self.known = {}                                              # sizes and needed nodes: a joined pair's path never changes

    def find(self, n):
        while self.root[n] != n:
            n = self.root[n]
        return n

    def joined(self, a, b):
        return self.find(a) == self.find(b)

    def add(self, c):
        current, nxt, kind, rule, forward = c
        if kind > 1 or forward > 1 or (kind == 0 and (rule or forward)):
            raise Refused(2)
        size = len(self.nodes)
        if current >= size or nxt >= size or current == nxt or current in self.parent or self.joined(current, nxt):
            raise Refused(6)
        cost = 1
        if kind == 0:
            (op, kids), (op2, kids2) = self.nodes[current], self.nodes[nxt]
            if op != op2 or len(kids) != len(kids2) or any(not self.joined(a, b) for a, b in zip(kids, kids2)):
                raise Refused(7)
            cost = sum(self.distance(a, b) for a, b in zip(kids, kids2))
        self.parent[current] = (nxt, c, len(self.cost))
        self.cost.append(cost)
        self.root[self.find(current)] = self.find(nxt)

    def climb(self, n):
        chain = [n]
        while chain[-1] in self.parent:
            chain.append(self.parent[chain[-1]][0])
        return chain

    def path(self, left, right):
        """Hops (connection, age, up) from left to right."""
        a, b = self.climb(left), self.climb(right)
        place = {n: i for i, n in enumerate(b)}
        i = next(i for i, n in enumerate(a) if n in place)
        up = [self.parent[n][1:] + (True,) for n in a[:i]]
        down = [self.parent[n][1:] + (False,) for n in b[:place[a[i]]]]
        return up + down[::-1]

    def distance(self, left, right):
        return sum(self.cost[age] for _, age, _ in self.path(left, right))

    def size(self, n):
        """the nodes of a node's term"""
        if ('size', n) not in self.known:
            self.known['size', n] = 1 + sum(self.size(k) for k in self.nodes[n][1])
        return self.known['size', n]

    def later(self, left, right):
        """the nodes of all terms behind the first of a joined pair's flat proof"""
        if (left, right) in self.known:
            return self.known[left, right]
        total = 0
        for (current, nxt, kind, _, _), _, up in self.path(left, right):
            a, b = (current, nxt) if up else (nxt, current)
            if kind == 1:
                total += self.size(b)
                continue
            xs, ys = self.nodes[a][1], self.nodes[b][1]
            for i, (x, y) in enumerate(zip(xs, ys)):
                held = 1 + sum(map(self.size, ys[:i])) + sum(map(self.size, xs[i + 1:]))
                total += self.later(x, y) + self.distance(x, y) * held
        self.known[left, right] = total
        return total

    def needed(self, left, right):
        """the words of a joined pair's flat proof, counted and not written: there can be more than a machine holds"""
        return 4 * (self.size(left) + self.later(left, right))

    def flat_proof(self, left, right):
        """The flat proof of a joined pair: a list of terms (operator, mark, rule, [children])."""
        terms = [term_of(self.nodes, left)]
        for (current, nxt, kind, rule, forward), _, up in self.path(left, right):
            a, b = (current, nxt) if up else (nxt, current)
            if kind == 1:
                terms.append(term_of(self.nodes, b, 1 if bool(forward) == up else 2, rule))
                continue
            (op, xs), (_, ys) = self.nodes[a], self.nodes[b]
            for i, (x, y) in enumerate(zip(xs, ys)):
                # the children before are the right node's already, those behind still the left node's
                before, behind = [term_of(self.nodes, k) for k in ys[:i]], [term_of(self.nodes, k) for k in xs[i + 1:]]
                terms += [(op, 0, 0, before + [t] + behind) for t in self.flat_proof(x, y)[1:]]
        return terms


def term_of(nodes, n, mark=0, rule=0):
    """A node's term, marked at its root or not."""
    op, kids = nodes[n]
    return op, mark, rule, [term_of(nodes, k) for k in kids]


def term_words(term):
    op, mark, rule, kids = term
    return [op, len(kids), mark, rule] + [w for k in kids for w in term_words(k)]


def term_text(term):
    op, mark, rule, kids = term
    text = '(' + ' '.join([f'o{op}'] + [term_text(k) for k in kids]) + ')' if kids else f'o{op}'
    return f"({('Rewrite=>', 'Rewrite<=')[mark - 1]} r{rule} {text})" if mark else text


def is_instance(nodes, rules, connection):
    """Whether a connection is a congruence, or an instance of its listed rule."""
    current, nxt, kind, number, forward = connection
    if kind == 0:
        return True
    rule = next((r for r in rules if r[0] == number), None)
    first = term_words(term_of(nodes, current))
    words = first + term_words(term_of(nodes, nxt))
    ends = (0, len(first)) if forward else (len(first), 0)
    return rule is not None and fits(rule, words, *ends)


def judge_tables(nodes, rules, connections):
    judge_nodes(nodes)
    judge_rules(rules)
    forest = Forest(nodes)
    for c in connections:
        forest.add(c)
    return forest


def measured(forest, left, right):
    if left >= len(forest.nodes) or right >= len(forest.nodes):
        raise Refused(8)
    if not forest.joined(left, right):
        raise Refused(9)
    d = forest.distance(left, right)
    if d > DISTANCE:
        raise Refused(10)
    return d


def answered(forest, left, right, area):
    """The distance and the terms of the flat proof, if its words fit into an area of so many."""
    d = measured(forest, left, right)
    if forest.needed(left, right) > min(area, WORDS):
        raise Refused(11)
    return d, forest.flat_proof(left, right)


def distance(nodes, rules, connections, left, right):
    return measured(judge_tables(nodes, rules, connections), left, right)


def query(nodes, rules, connections, left, right, area):
    """The distance and the words of the flat proof, if they fit."""
    d, terms = answered(judge_tables(nodes, rules, connections), left, right, area)
    return d, [w for t in terms for w in term_words(t)]


# The strict checker, over flat words: four a node (operator, count, mark, rule).

def term_end(words, at):
    pending = 1
    while pending:
        if at + 4 > len(words):
            return None
        op, count, mark, rule = words[at:at + 4]
        if count > CHILDREN or mark > 2 or (mark == 0 and rule):
            return None
        pending += count - 1
        at += 4
    return at


def bare(words, a, e):
    """A term's words without its marks."""
    return [w for i in range(a, e, 4) for w in words[i:i + 2]]


def match_item(words, items, i, at, bound):
    """Matches one pattern with one term: where both end, or None."""
    it = items[i]
    if it[0] == 0:
        e = term_end(words, at)
        here = bare(words, at, e)
        if bound.setdefault(it[1], here) != here:
            return None
        return i + 1, e
    if words[at] != it[1] or words[at + 1] != it[2]:
        return None
    i, at = i + 1, at + 4
    for _ in range(it[2]):
        r = match_item(words, items, i, at, bound)
        if r is None:
            return None
        i, at = r
    return i, at


def fits(rule, words, a, b):
    bound = {}
    return match_item(words, rule[1], 0, a, bound) is not None and match_item(words, rule[2], 0, b, bound) is not None


def step(rules, words, a, b, e):
    while b < e:
        mark, rule = words[b + 2], words[b + 3]
        if mark == 0:
            if words[a:a + 2] != words[b:b + 2]:
                return False
            a, b = a + 4, b + 4
        else:
            r = rules[rule]
            if not (fits(r, words, a, b) if mark == 1 else fits(r, words, b, a)):
                return False
            a, b = term_end(words, a), term_end(words, b)
    return True


def marked(words, a, e):
    """where the marked nodes of a term stand"""
    return [i for i in range(a, e, 4) if words[i + 2]]


def check(rules, words):
    """The count of terms; Refused with number and place otherwise. `rules` are accepted."""
    listed = {r[0]: r for r in rules}
    if len(words) > WORDS:
        raise Refused(19)
    if not words:
        raise Refused(12)
    ends, at = [], 0
    while at < len(words):
        at = term_end(words, at)
        if at is None:
            raise Refused(13)
        ends.append(at)
    if len(ends) > TERMS:
        raise Refused(19)
    if marked(words, 0, ends[0]):
        raise Refused(14)
    before = 0
    for k in range(1, len(ends)):
        a, e = ends[k - 1], ends[k]
        found = marked(words, a, e)
        if len(found) != 1:
            raise Refused(15, k)
        if words[found[0] + 3] not in listed:
            raise Refused(16, k)
        if not step(listed, words, before, a, e):
            raise Refused(17, k)
        before = a
    return len(ends)


def answer(function, *arguments):
    """(0, value), or the refusal's number and place."""
    try:
        return 0, function(*arguments)
    except Refused as r:
        return r.number, r.place


# Tables as words, for the library.

def node_words(nodes):
    return [w for op, kids in nodes for w in [op, len(kids)] + (kids + [0] * 8)[:8]]


def rule_words(rules):
    def slots(side):
        flat = [w for it in side for w in (list(it) + [0])[:3]]
        return (flat + [0] * 192)[:192]
    return [w for number, left, right in rules for w in [number, len(left), len(right)] + slots(left) + slots(right)]


def connection_words(connections):
    return [w for c in connections for w in c]


# The program: lines of hexadecimal to what is printed.

def line_bytes(line):
    if not 0 < len(line) <= DIGITS or len(line) % 2 or any(c not in b'0123456789abcdef' for c in line):
        raise Refused(1)
    return bytes.fromhex(line.decode())


class Fields:
    """A frame's bytes, taken from the front; one that is cut is refused by 2."""

    def __init__(self, data):
        self.data = data

    def take(self, size):
        if len(self.data) < size:
            raise Refused(2)
        front, self.data = self.data[:size], self.data[size:]
        return int.from_bytes(front, 'big')

    def end(self):
        if self.data:
            raise Refused(2)


def node_frame(fields):
    op, count = fields.take(2), fields.take(1)
    return op, [fields.take(2) for _ in range(count)]


def side_frame(fields):
    """one pattern: its items up to the one with which it is whole"""
    items, pending = [], 1
    while pending:
        kind = fields.take(1)
        if kind > 1 or len(items) == ITEMS:
            raise Refused(2)
        items.append((0, fields.take(1)) if kind == 0 else (1, fields.take(2), fields.take(1)))
        pending += (items[-1][2] if kind else 0) - 1
    return items


def words_frame(fields):
    words = []
    while fields.data or not words:
        words += [fields.take(size) for size in (2, 1, 1, 2)]
    return words


class Run:
    def __init__(self):
        self.kind, self.nodes, self.rules, self.forest, self.words, self.printed = 0, [], [], None, [], []
        # for those who want more than the text: (left, right, number, (distance, terms)) of each query, (words, number, value) of each
        # offered proof, and the number and line where the run stopped
        self.asked, self.offered, self.stopped = [], [], None

    def say(self, line):
        self.printed.append(line + '\n')

    def line(self, number, line):
        """one line of the input; Refused where the run stops"""
        fields = Fields(line_bytes(line))
        kind = fields.take(1)
        if not 1 <= kind <= 6 or (kind < self.kind and (self.kind, kind) != (6, 5)):
            raise Refused(2)
        self.kind = kind
        if kind >= 3 and self.forest is None:
            self.forest = Forest(self.nodes)
        if kind == 1:
            node = node_frame(fields)
            fields.end()
            judge_node(len(self.nodes), node)
            self.nodes.append(node)
        elif kind == 2:
            rule = fields.take(2), side_frame(fields), side_frame(fields)
            fields.end()
            judge_rule(self.rules, rule)
            self.rules.append(rule)
        elif kind == 3:
            connection = tuple(fields.take(size) for size in (2, 2, 1, 2, 1))
            fields.end()
            self.forest.add(connection)
        elif kind == 4:
            pair = fields.take(2), fields.take(2)
            fields.end()
            self.query(number, *pair)
        elif kind == 5:
            words = words_frame(fields)
            if len(self.words) + len(words) > AREA:
                raise Refused(11)
            self.words += words
        else:
            fields.end()
            self.verdict()

    def query(self, number, left, right):
        refused, found = answer(answered, self.forest, left, right, AREA)
        self.asked.append((left, right, refused, found))
        if refused:
            self.say(f'refused {refused} line {number}')
            return
        self.say(f'distance {found[0]}')
        for term in found[1]:
            self.say(term_text(term))

    def verdict(self):
        refused, value = answer(check, self.rules, self.words)
        self.offered.append((self.words, refused, value))
        self.say(f'rejected {refused} term {value}' if refused else f'accepted {value}')
        self.words = []

    def whole(self, data):
        *lines, rest = data.split(b'\n')
        number = 0
        try:
            for number, line in enumerate(lines, 1):
                self.line(number, line)
            number = len(lines) + 1
            if rest:
                raise Refused(1)
            if self.kind == 5:
                raise Refused(2)
        except Refused as refused:
            self.stopped = refused.number, number
            self.say(f'refused {refused.number} line {number}')


def output(data):
    """What the program prints for an input, both in bytes."""
    run = Run()
    run.whole(data)
    return ''.join(run.printed).encode()


sys.setrecursionlimit(10000)
