"""Makes an input smaller as long as a difference stays: greedily, by lines, nodes, subterms, bytes and numbers."""
import time
from proofs import size_at, unmarked
from reference import Fields, Refused, line_bytes, words_frame
from stored import offered_line

# inputs that are tried at once, and when to stop: after so many, or after so many seconds
BATCH, TRIES, SECONDS = 64, 20000, 60


def weight(data):
    """what must fall at each step: the lines, the bytes, and how large they are"""
    return data.count(b'\n'), len(data), sum(data), data


def without_lines(lines):
    size = len(lines) // 2
    while size:
        for at in range(0, len(lines), size):
            yield lines[:at] + lines[at + size:]
        size //= 2


def renumbered(line, gone, instead):
    """a line's node numbers without a node: what was above it is one less, and what it was is another one"""
    places = {b'01': range(8, len(line), 4), b'03': (2, 6), b'04': (2, 6)}.get(line[:2], ())
    for at in places:
        number = int(line[at:at + 4], 16)
        line = line[:at] + b'%04x' % (number - 1 if number > gone else instead if number == gone else number) + line[at + 4:]
    return line


def without_nodes(lines):
    nodes = [i for i, line in enumerate(lines) if line[:2] == b'01']
    for number, i in enumerate(nodes):
        instead = int(lines[i][8:12] or b'0', 16) if number else 0
        yield lines[:i] + [renumbered(line, number, min(instead, 65534)) for line in lines[i + 1:]] if number == 0 else (
            [renumbered(line, number, instead) for line in lines[:i] + lines[i + 1:]])


def other_pairs(lines):
    """a query of the two ends of one connection instead"""
    ends = {pair for line in lines if line[:2] == b'03' for pair in (line[2:10], line[6:10] + line[2:6])}
    for i, line in enumerate(lines):
        if line[:2] == b'04':
            for pair in sorted(ends):
                yield lines[:i] + [b'04' + pair] + lines[i + 1:]


def proofs_in(lines):
    """(first line, line of the end, terms) of each offered proof of whole terms"""
    start, words = None, []
    for i, line in enumerate(lines):
        if line[:2] == b'05':
            start = i if start is None else start
            words += words_frame(Fields(line_bytes(line)[1:]))
        elif start is not None:
            terms, at = [], 0
            while at < len(words):
                terms.append(words[at:size_at(words, at)])
                at += len(terms[-1])
            yield start, i, terms
            start, words = None, []


def subterms_changed(terms):
    """The first terms alone, or the last ones; and at one place of every term the subterm alone, without its children, or without one
    child. Places are paths from the root."""
    def find(words, path):
        at = 0
        for child in path:
            if child >= words[at + 1]:
                return None
            at += 4
            for _ in range(child):
                at = size_at(words, at)
        return at

    def paths(words, at, path):
        yield path
        here = at + 4
        for child in range(words[at + 1]):
            yield from paths(words, here, path + (child,))
            here = size_at(words, here)

    for k in range(1, len(terms)):
        yield terms[:k]
        yield [unmarked(terms[k])] + terms[k + 1:]
    for path in list(paths(terms[0], 0, ()))[:40]:
        places = [(t, find(t, path)) for t in terms]
        if any(at is None for _, at in places):
            continue
        if path:
            yield [t[at:size_at(t, at)] for t, at in places]
        yield [t[:at + 1] + [0] + t[at + 2:at + 4] + t[size_at(t, at):] for t, at in places]
        for child in range(min(t[at + 1] for t, at in places)):
            ends = [find(t, path + (child,)) for t, _ in places]
            yield [t[:at + 1] + [t[at + 1] - 1] + t[at + 2:end] + t[size_at(t, end):] for (t, at), end in zip(places, ends)]


def subterms_replaced(terms):
    """a subterm is a leaf wherever it stands, marks aside, in all terms: what a variable is bound to stands more than once"""
    for words in sorted({tuple(unmarked(t[at:size_at(t, at)])) for t in terms for at in range(0, len(t), 4) if t[at + 1]}, key=len)[:-9:-1]:
        made = []
        for t in terms:
            other, at = [], 0
            while at < len(t):
                end = size_at(t, at)
                here = unmarked(t[at:end]) == list(words)
                other += [0, 0, *t[at + 2:at + 4]] if here else t[at:at + 4]
                at = end if here else at + 4
            made.append(other)
        yield made


def smaller_proofs(lines):
    try:
        for start, end, terms in list(proofs_in(lines)):
            for other in [terms, *subterms_changed(terms), *subterms_replaced(terms)]:
                yield lines[:start] + [offered_line(t).encode() for t in other] + lines[end:]
    except (Refused, IndexError, RecursionError):
        # words that are no terms, or too deep ones: the other ways are left
        return


def shorter_lines(lines):
    for i, line in enumerate(lines):
        size = len(line) // 2 - len(line) // 2 % 12
        while size > 12:
            for at in range(2, len(line), size):
                yield lines[:i] + [line[:at] + line[at + size:]] + lines[i + 1:]
            size = size // 2 - size // 2 % 12
        for size in (12, 8, 4, 2, 1):
            for at in range(0, len(line) if len(line) < 400 else 0, 2 if size > 1 else 1):
                yield lines[:i] + [line[:at] + line[at + size:]] + lines[i + 1:]


def lower_bytes(lines):
    for i, line in enumerate(lines):
        for at in range(0, min(len(line), 400), 2):
            pair = line[at:at + 2]
            value = int(pair, 16) if len(pair) == 2 and pair.isalnum() and all(c in b'0123456789abcdef' for c in pair) else None
            for new in sorted({0, 1, value // 2, value - 1} - {value}) if value else []:
                yield lines[:i] + [line[:at] + b'%02x' % new + line[at + 2:]] + lines[i + 1:]
            if value is None:
                yield lines[:i] + [line[:at] + b'00'[:len(pair)] + line[at + 2:]] + lines[i + 1:]


def lower_numbers(lines):
    """a number of two bytes is another one wherever it stands: an operator or a rule has one name in all lines"""
    found = {line[at:at + 4] for line in lines if len(line) < 400 for at in range(2, len(line) - 3, 2)}
    for number in sorted(found, reverse=True):
        for new in (b'0000', b'0001', b'0002', b'0003', b'0007'):
            if new < number:
                yield [b''.join(replaced(line, number, new)) for line in lines]


def replaced(line, number, new):
    at = 0
    while at < len(line):
        size = 4 if at and line[at:at + 4] == number else 2
        yield new if size == 4 else line[at:at + size]
        at += size


def candidates(data):
    fed = data.endswith(b'\n')
    lines = data.split(b'\n')
    lines = lines[:-1] if fed else lines
    for way in (without_lines, without_nodes, other_pairs, smaller_proofs, shorter_lines, lower_numbers, lower_bytes):
        for other in way(lines):
            made = b'\n'.join(other) + (b'\n' if fed and other else b'')
            if weight(made) < weight(data):
                yield made
    if not fed:
        yield data + b'\n'


def batches(data, fed):
    """the smaller inputs, so many at once; a line feed at the end is put there once at most"""
    batch = []
    for other in candidates(data):
        if not (fed and other == data + b'\n'):
            batch.append(other)
        if len(batch) == BATCH:
            yield batch
            batch = []
    if batch:
        yield batch


def shrink(data, differs):
    """The smallest input found for which `differs` stays true; it takes a list of inputs and gives a list of truths."""
    until, tries, fed = time.monotonic() + SECONDS, 0, False
    while True:
        found = None
        for batch in batches(data, fed):
            if tries >= TRIES or time.monotonic() > until:
                return data
            tries += len(batch)
            found = next((other for other, yes in zip(batch, differs(batch)) if yes), None)
            if found is not None:
                break
        if found is None:
            return data
        fed = fed or found == data + b'\n'
        data = found
