"""How the Rust's verdict on an offered proof and document 01's may differ: the rows of docs/DIFFERENCES.md."""
from reference import answer, check, marked, term_end

# what docs/DIFFERENCES.md lists, by its row
UNLISTED, ABOVE, COUNTS = '1 a rule that is not listed', '2 changed above or beside a mark', '3 other child counts'
INSIDE, SEVERAL = '8 a mark inside a marked subterm', '20 several marks of one direction, side by side'
LISTED = UNLISTED, ABOVE, COUNTS, INSIDE, SEVERAL

# how the Rust refuses a proof, and the numbers that may be given here then: the cause itself, or what the Rust passes there or in an
# earlier term
DIRECTIONS = 'panics: assertion failed: has_forward ^ has_backward'
REFUSED = [('panics: assertion failed: !flat_explanation[0]', {14}), ('panics: index out of bounds: the len is 0', {12}), ('', {15, 16, 17})]


def terms_of(words):
    ends = [0]
    while ends[-1] < len(words):
        ends.append(term_end(words, ends[-1]))
    return ends


def first_fault(words, a, b, e, rules):
    """Where a step is none: at an unmarked node by its operator or count, or at a mark."""
    while b < e:
        if words[b + 2]:
            one = list(words[a:term_end(words, a)]) + list(words[b:term_end(words, b)])
            for i in range(2, term_end(words, a) - a, 4):
                one[i:i + 2] = 0, 0
            if answer(check, rules, one) != (0, 2):
                return 'at a mark'
            a, b = term_end(words, a), term_end(words, b)
        elif words[a] != words[b]:
            return ABOVE
        elif words[a + 1] != words[b + 1]:
            return COUNTS
        else:
            a, b = a + 4, b + 4
    return 'nowhere'


def several(words, a, e):
    """The listed difference that a term's marks are: more than one, all of one direction. None where they are not."""
    found = marked(words, a, e)
    if len(found) < 2 or len({words[i + 2] for i in found}) > 1:
        return None
    return INSIDE if any(i < j < term_end(words, i) for i in found for j in found) else SEVERAL


def difference(rules, words, number, place):
    """The listed difference by which the Rust may pass what is refused here."""
    ends = terms_of(words)
    why = None
    if number == 15:
        why = several(words, *ends[place:place + 2])
    elif number == 16:
        why = UNLISTED
    elif number == 17:
        why = first_fault(words, ends[place - 1], ends[place], ends[place + 1], rules)
    return why or f'{number} at {place}'


def alike(rules, words, number, place, said):
    """Whether the Rust's refusal may stand beside the one given here."""
    # no mark, or both directions: the Rust looks for that before it looks at the step
    if number == 15 and difference(rules, words, number, place) not in LISTED:
        return said.startswith(DIRECTIONS)
    return number in next(numbers for start, numbers in REFUSED if said.startswith(start))
