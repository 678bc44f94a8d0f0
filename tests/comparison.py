"""Many inputs of a seed, and what the library, the tree checker, the Rust and the program say of them, held to tests/reference.py."""
import collections, os, sys, time
import arms, generate, rust, shrink
from library import TOP

# inputs that are asked at once; where the smallest input of a difference is kept, and how many of its lines are printed
BATCH, KEPT, LINES = 400, os.path.join(TOP, 'target', 'tests', 'difference'), 80
ARMS = 'library', 'trees', 'rust', 'program'


class Covered:
    """What was reached: kinds of inputs, numbers, distances and sizes."""

    def __init__(self):
        self.inputs, self.kinds, self.numbers = 0, collections.Counter(), collections.Counter()
        self.distances, self.words, self.nodes, self.links, self.bytes = (collections.Counter() for _ in range(5))

    def add(self, kind, run):
        self.inputs += 1
        self.kinds[kind] += 1
        self.nodes[len(run.nodes)] += 1
        self.links[len(run.links)] += 1
        self.bytes[len(run.data)] += 1
        for line in run.printed:
            if line[0] in 'adr':
                self.numbers[' '.join(line.split()[:2]) if line[0] == 'r' else line.split()[0]] += 1
        for left, right, number, found in run.asked:
            # where the area is too small for the proof, the library is asked for the distance alone
            if number in (0, 11):
                self.distances[run.forest.distance(left, right) if number else found[0]] += 1
        for words, _, _ in run.offered:
            self.words[len(words)] += 1

    def refused(self):
        return {int(said.split()[1]) for said in self.numbers if ' ' in said}

    def left(self):
        """the numbers that no run was given; 19 none can be: the program's area holds fewer terms and words than there may be. 18 is nobody's"""
        return sorted(set(range(1, 18)) - self.refused())

    def show(self):
        print('inputs:')
        for kind, n in sorted(self.kinds.items()):
            print(f'    {n:7} {kind}')
        print('answers:')
        for said, n in sorted(self.numbers.items(), key=lambda item: (int(item[0].split()[-1]) if ' ' in item[0] else 0, item)):
            print(f'    {n:7} {said}')
        for name, sizes in (('distances', self.distances), ('words offered', self.words), ('nodes', self.nodes),
                            ('connections', self.links), ('bytes', self.bytes)):
            print(f'{name}: {histogram(sizes)}')
        left = self.left()
        print(f'numbers not reached: {left}' if left else 'every number that a run can give was reached')


def histogram(sizes):
    """counts by powers of two: 0, 1, 2-3, 4-7, .."""
    by = collections.Counter()
    for size, n in sizes.items():
        by[size.bit_length()] += n
    shown = [f'{"0" if k == 0 else "1" if k == 1 else f"{1 << k - 1}-{(1 << k) - 1}"}: {by[k]}' for k in sorted(by)]
    return ', '.join(shown) + f' (largest {max(sizes, default=0)})'


def build_arms(only):
    """the arms that can be compared, by their names in ARMS, and why others cannot"""
    makers = {'library': arms.Library, 'trees': arms.Trees, 'rust': rust.there() and arms.Rust, 'program': arms.Program}
    why = {'rust': 'the Rust was not compared: there is no rustc'}
    return {name: makers[name]() for name in ARMS if name in only and makers[name]}, [why[n] for n in ARMS if n in only and not makers[n]]


def chosen(arm, number, kind):
    """Whether an arm is asked about an input. The program takes a process for each: malformed lines, and one of ten others."""
    return arm.name != 'program' or number % 10 == 0 or kind.startswith(('lines', 'bad entry', 'named row'))


def shown(answer):
    if isinstance(answer, (bytes, str)):
        return repr(answer[:2000])
    return repr(answer)[:2000]


def report(arm, number, seed, kind, data):
    def differs(inputs):
        return [found is not None for found in arm.compare([arms.told(i) for i in inputs])]

    small = shrink.shrink(data, differs)
    os.makedirs(os.path.dirname(KEPT), exist_ok=True)
    with open(KEPT, 'wb') as f:
        f.write(small)
    what, expected, got = arm.compare([arms.told(small)])[0]
    print(f'DIFFERENCE between the reference and the {arm.name}, input {number} of seed {seed} ({kind}), {len(data)} bytes.')
    lines = small.split(b'\n')
    print(f'The smallest input found, {len(lines) - 1} lines, {len(small)} bytes, is kept in {os.path.relpath(KEPT, TOP)}:')
    for line in lines[:-1][:LINES]:
        print('   ', line[:300].decode('latin-1') + (' ..' if len(line) > 300 else ''))
    if len(lines) > LINES + 1:
        print('    ..')
    if lines[-1]:
        print('   ', repr(lines[-1][:300]), 'without a line feed')
    print(f'about {what}')
    print(f'    the reference: {shown(expected)}')
    print(f'    the {arm.name}: {shown(got)}')
    print(f'    the reference prints: {shown(arms.told(small).printed)}')
    return small


def compare(count, seed, made, covered, loud=False):
    """The smallest input of the first difference, or None."""
    began = time.monotonic()
    for first in range(0, count, BATCH):
        batch = []
        for number in range(first, min(first + BATCH, count)):
            kind, data = generate.one(seed, number)
            run = arms.told(data)
            covered.add(kind, run)
            batch.append((number, kind, run))
        for arm in made.values():
            here = [b for b in batch if chosen(arm, b[0], b[1])]
            for (number, kind, run), found in zip(here, arm.compare([run for _, _, run in here])):
                if found:
                    return report(arm, number, seed, kind, run.data)
        if loud and (first // BATCH) % 50 == 49:
            print(f'{covered.inputs} inputs, {covered.inputs / (time.monotonic() - began):.0f} a second', file=sys.stderr, flush=True)
    return None
