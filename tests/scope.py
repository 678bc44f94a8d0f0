"""Document 01's limits, and the rules that tests and benchmarks share. A rule is (number, left, right), a side a list of items: (0, variable) or (1, operator, count)."""

NODES, RULES, CHILDREN, ITEMS, VARIABLES = 2048, 256, 8, 64, 16
DISTANCE, TERMS, WORDS = 16383, 16384, 1048576
DIGITS, AREA = 8192, 32768                                           # a line's digits, and the program's area in words

R7 = (7, [(1, 1, 0)], [(1, 2, 0)])                                   # o1 becomes o2
R9 = (9, [(1, 5, 2), (0, 0), (0, 0)], [(0, 0)])                      # (o5 ?0 ?0) becomes ?0
R10 = (10, [(1, 5, 2), (0, 0), (0, 1)], [(0, 0)])                    # (o5 ?0 ?1) becomes ?0
R11 = (11, [(0, 3)], [(1, 6, 1), (0, 3)])                            # ?3 becomes (o6 ?3): a lone variable on the left
R12 = (12, [(1, 7, 3), (0, 15), (0, 15), (0, 15)], [(0, 15)])        # one variable three times


def many(count):
    """so many rules like R7, under other numbers"""
    return [(n, *R7[1:]) for n in range(count)]
