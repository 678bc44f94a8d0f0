"""Errors put into tests/reference.py on purpose, to see that a comparison finds them: each is one wrong function, for as long as `put` lasts."""
import contextlib, re
import reference


def direction(fits):
    """a mark's direction plays no part"""
    return lambda rule, words, a, b: fits(rule, words, a, b) or fits(rule, words, b, a)


def walked(path):
    """a connection that is walked backwards keeps its direction"""
    def kept(self, left, right):
        return [((*c[:4], c[4] if up else 1 - c[4]) if c[2] else c, age, up) for c, age, up in path(self, left, right)]
    return kept


def listed(judge_rule):
    """a rule may be listed twice, and have a variable on the right alone"""
    def lenient(before, rule):
        try:
            judge_rule(before, rule)
        except reference.Refused as refused:
            if refused.number != 5:
                raise
    return lenient


def line(say):
    """lines count from 0 where a run stops"""
    return lambda self, text: say(self, re.sub(r'^(refused [1-7] line )(\d+)', lambda m: f'{m[1]}{int(m[2]) - 1}', text))


def several(marked):
    """marks that are alike, of one direction and one rule, count as one"""
    def alike(words, a, e):
        found = marked(words, a, e)
        return found[:1] if len({tuple(words[i + 2:i + 4]) for i in found}) == 1 else found
    return alike


# the error, where it stands, and the arms that can see it
WRONG = {
    'direction': (direction, reference, 'fits', ('library', 'trees', 'rust', 'program')),
    # the Rust passes such terms as well (rows 8 and 20 of docs/DIFFERENCES.md), and cannot see this one
    'several': (several, reference, 'marked', ('library', 'trees', 'program')),
    'walked': (walked, reference.Forest, 'path', ('library', 'rust', 'program')),
    'listed': (listed, reference, 'judge_rule', ('library', 'program')),
    'limit': (lambda limit: limit - 1, reference, 'DISTANCE', ('library', 'rust', 'program')),
    'line': (line, reference.Run, 'say', ('program',)),
}


@contextlib.contextmanager
def put(name):
    error, place, what, _ = WRONG[name]
    right = getattr(place, what)
    setattr(place, what, error(right))
    try:
        yield
    finally:
        setattr(place, what, right)
