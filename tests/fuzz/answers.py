"""What document 01 says of an input of the library's fuzzer: its words unpacked as tests/fuzz/library.c does it, read as tables, and judged
and answered by tests/reference.py."""
from inputs import AGAIN, CONNECTION, FILL, FLAT, LONG, NEXT, NODE, RULE, SIDE, moved
from reference import Forest, Refused, answer, answered, check, judge_node, judge_rule, measured, term_end, term_words
from scope import CHILDREN, ITEMS

HEAD, SLOTS = 9, [NODE, RULE, CONNECTION, FLAT]
MOST = [2060 * NODE, 258 * RULE, 2060 * CONNECTION, 4100 * FLAT]


def fill(words, slot):
    """how many zeros there are up to the end of the slot"""
    at = len(words) % slot
    end = next(end for end in (3, 3 + SIDE, RULE) if at <= end) if slot == RULE else slot
    return end - at if at else 0


def unpacked(given):
    """left, right, words of the area, bytes of the room, and the four runs; nothing where the input is too short for them"""
    if len(given) < HEAD:
        return None
    head, runs, k, at = [int.from_bytes(given[i:i + 2], 'little') for i in (0, 2, 4, 6)], [[], [], [], []], 0, HEAD
    while at < len(given) and k < len(runs):
        byte, words, slot, more = given[at], runs[k], SLOTS[k], given[at + 1:at + 3]
        if byte == LONG and len(more) == 2:
            words.append(int.from_bytes(more, 'little'))
        elif byte == FILL:
            words += [0] * fill(words, slot)
        elif byte == AGAIN and len(more) == 2:
            entries, times = more
            back = entries * slot
            for _ in range(times if 0 < back <= len(words) and len(words) % slot == 0 else 0):
                if len(words) + back > MOST[k]:
                    break
                for _ in range(entries):
                    words += moved(words[len(words) - back:len(words) - back + slot], slot, entries)
        elif byte == NEXT:
            k += 1
        else:
            words.append(0xff00 | byte if byte > NEXT else byte)
        del words[MOST[SLOTS.index(slot)]:]
        at += 3 if byte in (LONG, AGAIN) and len(more) == 2 else 1
    return *head, runs


def entries(words, slot):
    """the entries of a table, each whole: one that is cut is refused by 2, when its turn comes"""
    for at in range(0, len(words), slot):
        if at + slot > len(words):
            raise Refused(2)
        yield words[at:at + slot]


def side(slots, count):
    if count > ITEMS:
        raise Refused(2)
    items = [tuple(slots[3 * i:3 * i + 3]) for i in range(count)]
    if any(it[0] > 1 for it in items):
        raise Refused(2)
    return [it[:2] if it[0] == 0 else it for it in items]


def judged(node_words, rule_words, connection_words):
    """the connections, and the rules"""
    nodes, rules = [], []
    for op, count, *kids in entries(node_words, NODE):
        if count > CHILDREN:
            raise Refused(2)
        judge_node(len(nodes), (op, kids[:count]))
        nodes.append((op, kids[:count]))
    for number, left, right, *slots in entries(rule_words, RULE):
        rule = number, side(slots[:SIDE], left), side(slots[SIDE:], right)
        judge_rule(rules, rule)
        rules.append(rule)
    forest = Forest(nodes)
    for connection in entries(connection_words, CONNECTION):
        forest.add(tuple(connection))
    return forest, rules


def text(words, room):
    """the bytes of one term's text, by what is still to be closed behind each node"""
    if not words:
        raise Refused(12)
    if term_end(words, 0) != len(words):
        raise Refused(13)
    made, open_ = [], []                                             # of each open node: children still to come, and its brackets
    for op, count, mark, rule in zip(*[iter(words)] * 4):
        marked = f"(Rewrite{('=>', '<=')[mark - 1]} r{rule} " if mark else ''
        made.append((' ' if made else '') + marked + ('(' if count else '') + f'o{op}')
        open_.append([count, (mark > 0) + (count > 0)])
        while open_ and open_[-1][0] == 0:
            made.append(')' * open_.pop()[1])
            if open_:
                open_[-1][0] -= 1
    spelled = ''.join(made).encode()
    if len(spelled) > room:
        raise Refused(11)
    return list(spelled)


def told(given):
    """the verdict (number, value), the distance (number, value), the query (number, distance, words) and the text (number, bytes)"""
    left, right, area, room, (nodes, rules, connections, words) = unpacked(given)
    spelled = answer(text, words, room)
    spelled = spelled if spelled[0] == 0 else (spelled[0], [])
    number, found = answer(judged, nodes, rules, connections)
    if number:
        return (number, 0), (number, 0), (number, 0, []), spelled
    forest, listed = found
    number, proof = answer(answered, forest, left, right, area)
    queried = (0, proof[0], [w for term in proof[1] for w in term_words(term)]) if number == 0 else (number, 0, [])
    return answer(check, listed, words), answer(measured, forest, left, right), queried, spelled
