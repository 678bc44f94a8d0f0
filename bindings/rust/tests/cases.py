#!/usr/bin/env python3
"""Calls and their right answers for the tests of the Rust bindings, by tests/reference.py: one call a line, behind the tables it is over.
usage: cases.py SEED TABLES

    tables NODES ; RULES ; CONNECTIONS            words, each run between blanks; `entries` follows where the tables were made of entries
    entries NODE , NODE ; RULE , RULE ; CONNECTION , CONNECTION
    query LEFT RIGHT AREA = NUMBER DISTANCE WORDS
    distance LEFT RIGHT = NUMBER DISTANCE
    check WORDS = NUMBER VALUE
    text ROOM WORDS = NUMBER TEXT
"""
import os, random, sys

sys.path.insert(0, os.path.join(os.path.dirname(os.path.abspath(__file__)), '..', '..', '..', 'tests'))
import proofs
from reference import (Refused, answer, check, connection_words, judge_tables, measured, node_words, query, rule_words, term_end, term_text,
                       term_words)
from scope import CHILDREN, ITEMS, R7, R9, WORDS
from tables import by_rule, congruent, random_table, tower

NODE, RULE, CONNECTION = 10, 3 + 6 * ITEMS, 5


# Words to entries. What is cut, or has no entry, becomes one that is refused by 2 as well.

def node_of(words):
    if len(words) < NODE or words[1] > CHILDREN:
        return 0, [0] * (CHILDREN + 1)
    return words[0], words[2:2 + words[1]]


def rule_of(words):
    if len(words) < RULE or max(words[1:3]) > ITEMS:
        return 0, [], []
    sides = [[tuple(words[at + 3 * i:at + 3 * i + 3]) for i in range(count)] for at, count in ((3, words[1]), (3 + 3 * ITEMS, words[2]))]
    return (words[0], *sides)


def connection_of(words):
    return tuple(words) if len(words) == CONNECTION else (0, 0, 2, 0, 0)


def entries(words, size, entry):
    return [entry(words[i:i + size]) for i in range(0, len(words), size)]


def read(nodes, rules, connections):
    return entries(nodes, NODE, node_of), entries(rules, RULE, rule_of), entries(connections, CONNECTION, connection_of)


# The calls, over words.

def checked(nodes, rules, connections, words):
    judge_tables(nodes, rules, connections)
    return check(rules, words)


def distance(nodes, rules, connections, left, right):
    return measured(judge_tables(nodes, rules, connections), left, right)


def term_at(words, at):
    op, count, mark, rule = words[at:at + 4]
    kids, at = [], at + 4
    for _ in range(count):
        kid, at = term_at(words, at)
        kids.append(kid)
    return (op, mark, rule, kids), at


def text(words, room):
    if not words:
        raise Refused(12)
    if term_end(words, 0) != len(words):
        raise Refused(13)
    letters = term_text(term_at(words, 0)[0])
    if len(letters) > room:
        raise Refused(11)
    return letters


def line(*parts):
    print(*(' '.join(map(str, p)) if isinstance(p, (list, tuple)) else p for p in parts))


def near(rng, size):
    """an area or a room: just as much as is needed, mostly, or a little more or less"""
    return max(0, size + rng.choice((0, 0, 0, 1, 7, -1)))


def ask(rng, tables, offered):
    """one call of each kind"""
    read_tables = read(*tables)
    count = len(read_tables[0])
    for _ in range(3):                                               # a joined pair, if one is found soon
        left, right = (rng.randrange(count + (rng.random() < 0.05)) if count else 0 for _ in range(2))
        number, value = answer(query, *read_tables, left, right, WORDS)
        if number != 9 and left != right:
            break
    area = near(rng, len(value[1])) if number == 0 else rng.randrange(40)
    number, value = answer(query, *read_tables, left, right, area)
    far, words = value if number == 0 else (0, [])
    line('query', left, right, area, '=', number, far, words)
    line('distance', left, right, '=', *answer(distance, *read_tables, left, right))
    line('check', offered, '=', *answer(checked, *read_tables, offered))
    term = rng.choice((words or offered, offered))
    if rng.random() < 0.8:
        term = term[:term_end(term, 0)]
    number, letters = answer(text, term, 1 << 30)
    room = near(rng, len(letters)) if number == 0 else 9
    number, letters = answer(text, term, room)
    line('text', room, term, '=', number, letters if number == 0 else '')


def made(nodes, rules, connections):
    tables = node_words(nodes), rule_words(rules), connection_words(connections)
    line('tables', *(w for run in zip(tables, ';; ') for w in run))
    parts = ([(op, *kids) for op, kids in nodes], [(n, '<', *(w for it in a for w in it), '>', *(w for it in b for w in it)) for n, a, b in rules],
             connections)
    line('entries', ' ; '.join(' , '.join(' '.join(map(str, e)) for e in part) for part in parts))
    return tables


def damaged(rng, tables):
    """one word changed, taken out or put in, or the end cut, in one of the three"""
    tables = [list(run) for run in tables]
    run = rng.choice([run for run in tables if run] or [[0]])
    # rules are long and mostly unused slots: the front of an entry matters
    at = rng.choice((rng.randrange(len(run)), rng.randrange(min(len(run), 12))))
    kind = rng.randrange(4)
    if kind < 2:
        run[at] = rng.choice((0, 1, 2, 3, 8, 9, 64, 65, 65535, run[at] ^ 1))
    elif kind == 2:
        del run[at:at + rng.choice((1, 5, 10))]
    else:
        run[at:at] = [rng.randrange(4)] * rng.choice((1, 5, 10))
    line('tables', *(w for part in zip(tables, ';; ') for w in part))
    return tables


def main(seed, count):
    rng = random.Random(seed)
    paper = [(1, []), (2, []), (3, [0]), (3, [1])]
    offered = [3, 1, 0, 0, 1, 0, 0, 0, 3, 1, 0, 0, 2, 0, 1, 7]
    ask(rng, made(paper, [R7], [by_rule(0, 1), congruent(2, 3)]), offered)
    ask(rng, made(*tower(3)[:1], [R7, R9], tower(3)[1]), offered)
    ask(rng, made([], [], []), [])
    for _ in range(count):
        nodes, links = random_table(rng)
        found = proofs.rules(rng, rng.randrange(1, 4))
        # some with several marks in a term, and the same with one mark a step
        several = proofs.parallel(rng, found, rng.randrange(5))
        terms = proofs.split(several)
        whole = [w for t in terms for w in t]
        tables = made(nodes, proofs.table(found) + [R7], links)
        ask(rng, tables, whole)
        if several != terms:
            ask(rng, tables, [w for t in several for w in t])
        for _ in range(2):
            ask(rng, tables, proofs.damaged(rng, terms))
        ask(rng, damaged(rng, tables), whole)


main(*map(int, sys.argv[1:3]))
