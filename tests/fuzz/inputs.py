"""Inputs of the two fuzzers: what to begin with, from the tests' own tables and runs, and the stored lists (one input a line, in
hexadecimal)."""
import os, random, sys

HERE = os.path.dirname(os.path.abspath(__file__))
sys.path.insert(0, os.path.dirname(HERE))
from reference import Refused, connection_words, node_words, query, rule_words
from runs import P_ROWS, REFUSALS, STEPS, rows, text, to_and_fro
from scope import ITEMS, NODES, R7, R9, R10, R11, R12, RULES, TERMS, many
from stored import parse, query_line, table_lines
from tables import (among_large, by_rule, chain, changed_leaf, changed_root, comb, leaning, many_small, nested, random_table,
                    runs_under, scrambled, star, tied, tower)

# how many inputs a list has, about
STORED = 200

# the library's inputs, as tests/fuzz/library.c has them
LONG, FILL, AGAIN, NEXT = 0xf9, 0xfa, 0xfb, 0xfc
NODE, SIDE, CONNECTION, FLAT = 10, 192, 5, 4
RULE = 3 + 2 * SIDE


def spelled(words):
    """words as bytes, the zeros at the end as one"""
    short = list(words)
    while len(short) > 1 and short[-1] == 0:
        short.pop()
    out = b''.join(bytes([w]) if w < LONG else bytes([w & 255]) if w >= 0xfffd else bytes([LONG, w & 255, w >> 8]) for w in short)
    return out + bytes([FILL] if len(short) < len(words) else [])


def moved(words, size, by):
    """an entry as its copy would be, moved on by so many entries"""
    which = {NODE: range(2, 2 + min(words[1], NODE - 2)), RULE: [0], CONNECTION: [0, 1], FLAT: []}[size]
    return [(w + by) % 65536 if at in which else w for at, w in enumerate(words)]


def run(words, size):
    """a table's words as bytes, with copies where entries are copies"""
    entries = [words[at:at + size] for at in range(0, len(words), size)]
    out, at = b'', 0
    while at < len(entries):
        best, back = 0, 0
        for by in range(1, min(at, 8) + 1):
            n = 0
            while n < 255 * by and at + n < len(entries) and entries[at + n] == moved(entries[at + n - by], size, by):
                n += 1
            if n // by * by > best:
                best, back = n // by * by, by
        if best:
            out, at = out + bytes([AGAIN, back, best // back]), at + best
            continue
        whole = entries[at]
        if size == RULE and len(whole) == RULE:
            out += spelled(whole[:3] + whole[3:3 + SIDE]) + spelled(whole[3 + SIDE:])
        else:
            out += spelled(whole) if len(whole) == size else b''.join(spelled([w]) for w in whole)
        at += 1
    return out


def packed(nodes, rules, connections, words=(), left=0, right=0, area=4096, room=4096, at_end=1):
    head = b''.join(n.to_bytes(2, 'little') for n in (left, right, area, room)) + bytes([at_end])
    runs = [(node_words(nodes), NODE), (rule_words(rules), RULE), (connection_words(connections), CONNECTION), (list(words), FLAT)]
    return head + bytes([NEXT]).join(run(*r) for r in runs)


def library():
    """what the library's fuzzer begins with"""
    tables = [tower(k) for k in (1, 2, 3, 5, 6, 9, 12, 14)] + [tower(40, False), chain(5, 3), chain(1366, 3), chain(1025, 4), runs_under(3), runs_under(4)]
    tables += [star(9), comb(7), scrambled(30), tied(), nested(3), nested(100), leaning(3, 4), leaning(60, 80), changed_leaf(3), changed_leaf(11)]
    tables += [changed_root(4, 3), among_large(3), many_small(6)]
    rules = [R7, R9, R10, R11, R12]
    for nodes, links, left, right in tables:
        for listed in ([], [R7], rules):
            yield packed(nodes, listed, links, [], left, right, 65535)
        yield packed(nodes, [R7], links, [], right, left, 64, at_end=0)
        # a short way in a table that has long ones
        yield packed(nodes, [R7], links, [], 0, 1)
    for title, lines, _ in [row for row in P_ROWS + REFUSALS + STEPS if len(row[1]) < 40]:
        try:
            nodes, listed, links, pairs, words = parse([line for line in lines if line[:2] in ('01', '02', '03', '04', '05')])
        except (ValueError, IndexError):
            continue
        for left, right in pairs or [(0, 0)]:
            yield packed(nodes, listed, links, words, left, right)
    yield packed([(1, [])] * (NODES + 1), many(3), [], [])
    yield packed([(1, [])] * 3, many(RULES), [by_rule(0, 1, 255)], [1, 0, 0, 0, 2, 0, 1, 255], 0, 1)
    yield packed([], many(RULES + 1), [], [1, 0, 0, 0])
    yield packed([], [R7], [], [w for node in to_and_fro(TERMS) for w in node])
    yield packed([], [R7], [], [w for node in to_and_fro(TERMS + 1) for w in node])
    deep = [(1, 3, 1)] * (ITEMS - 1) + [(0, 0)]
    yield packed([], [(7, deep, deep[1:])], [], [3, 1, 0, 0] * 63 + [1, 0, 0, 0, 3, 1, 1, 7] + [3, 1, 0, 0] * 61 + [1, 0, 0, 0])
    yield packed([], [], [], [3, 1, 0, 0] * 3000 + [1, 0, 0, 0], room=65535)
    chance = random.Random(7)
    for _ in range(150):
        nodes, links = random_table(chance)
        left, right, words = chance.randrange(len(nodes)), chance.randrange(len(nodes)), []
        try:
            words = query(nodes, [R7], links, left, right, 4096)[1]
        except Refused:
            pass
        yield packed(nodes, rules, links, words, left, right, chance.choice((16, 4096)), chance.choice((9, 4096)), chance.randrange(2))


def program():
    """what the program's fuzzer begins with"""
    for _, given, _, _ in rows():
        yield given
    # short ways in a table that has ways past the limit
    nodes, links, left, right = tower(12)
    yield text([*table_lines(nodes, [R7, R9], links), query_line(0, 1), query_line(left, right), query_line(2, 3), '06'])


def stored(name):
    """the inputs of a stored list"""
    with open(os.path.join(HERE, name), encoding='ascii') as file:
        return [bytes.fromhex(line) for line in file.read().splitlines()]


def read(folder):
    inputs = set()
    for name in os.listdir(folder):
        with open(os.path.join(folder, name), 'rb') as file:
            inputs.add(file.read())
    return sorted(inputs, key=lambda given: (len(given), given))


def main():
    """usage: tests/fuzz/inputs.py library|program FOLDER     writes what a fuzzer begins with
              tests/fuzz/inputs.py unpack FOLDER LIST         writes a stored list's inputs
              tests/fuzz/inputs.py pack FOLDER LIST ANOTHER   stores a folder's inputs as a list, and the shortest of another folder's"""
    what, folder, *more = sys.argv[1:]
    if what == 'pack':
        inputs = read(folder)
        inputs += [given for given in read(more[1]) if given not in inputs][:max(0, STORED - len(inputs))]
        with open(os.path.join(HERE, more[0]), 'w', encoding='ascii') as file:
            file.write(''.join(given.hex() + '\n' for given in inputs))
        return
    os.makedirs(folder, exist_ok=True)
    for n, given in enumerate(stored(*more) if what == 'unpack' else {'library': library, 'program': program}[what]()):
        with open(os.path.join(folder, f'{what}-{n:04}'), 'wb') as file:
            file.write(given)


if __name__ == '__main__':
    main()
