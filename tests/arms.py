"""What is held to tests/reference.py by tests/compare: the library, the tree checker, the Rust and the program. Each arm takes runs of
the reference and gives, for each, nothing or the first difference: what it is about, what was expected and what was got."""
import os, tempfile, zlib
import program, tree_checker
from library import CHECK, DISTANCE, QUERY, build, call, case, text
from listed import LISTED, alike, difference
from reference import (Fields, Refused, Run, connection_words, line_bytes, node_frame, node_words, rule_words, side_frame, term_text,
                       term_words)
from rust import ask_many, build as build_oracle
from scope import AREA, DISTANCE as FAR, TERMS
from stored import offered_line, query_line, table_lines

RUBBISH = 0xdead
# the words of a proof that the Rust is still asked for where the program refuses by 11, and the congruences of a table: each of them inside
# the next takes the Rust time by the cube of their number
SHOWN, CONGRUENCES = 40000, 80


def told(data):
    """a run of the reference, with its input and its connections"""
    made = Run()
    made.whole(data)
    made.data, made.links = data, [c for _, c, _ in made.forest.parent.values()] if made.forest else []
    return made


def frame(line):
    """the kind and the entry of a line of a table, or None where its bytes are no such frame"""
    try:
        fields = Fields(line_bytes(line))
        kind = fields.take(1)
        entry = (node_frame(fields) if kind == 1 else (fields.take(2), side_frame(fields), side_frame(fields)) if kind == 2 else
                 tuple(fields.take(size) for size in (2, 2, 1, 2, 1)) if kind == 3 else None)
        fields.end()
        return (kind, entry) if entry else None
    except Refused:
        return None


def tables_of(run):
    return node_words(run.nodes), rule_words(run.rules), connection_words(run.links)


class Arm:
    def __init__(self):
        self.calls = {}

    def count(self, what):
        self.calls[what.split()[0]] = self.calls.get(what.split()[0], 0) + 1

    def compare(self, runs):
        """the first difference of each run, or None"""
        try:
            return self.compare_all(runs)
        except SystemExit as ended:
            # the process that was asked ended: on which input?
            if len(runs) == 1:
                return [('the call', 'an answer', str(ended))]
            return [found for made in runs for found in self.compare([made])]


class Library(Arm):
    name = 'library'

    def __init__(self):
        super().__init__()
        self.driver = build()

    def questions(self, run):
        """(what, case, answer) of each call that a run gives rise to"""
        tables = tables_of(run)
        for left, right, number, found in run.asked:
            about = f'query {left} {right}'
            far = run.forest.distance(left, right) if number == 11 else 0
            distance = (0, far) if number == 11 else (number, 0 if number else found[0])
            yield f'distance of {about}', case(DISTANCE, *tables, left=left, right=right), distance
            if number:
                area = AREA if number == 11 else 7
                yield about, case(QUERY, *tables, [RUBBISH] * area, left, right), (number, 0, 0, 0)
                continue
            terms = [term_words(t) for t in found[1]]
            words = [w for t in terms for w in t]
            # an area of just the words or some more; and now and then a word too few
            area = [RUBBISH] * (len(words) + (left + right) % 4)
            yield about, case(QUERY, *tables, area, left, right), (0, found[0], len(words), 0, *words)
            if (left + right) % 3 == 0:
                yield f'{about}, a word too few', case(QUERY, *tables, [RUBBISH] * (len(words) - 1), left, right), (11, 0, 0, 0)
            spelled = term_text(found[1][-1]).encode()
            yield f'text of the last term of {about}', text(terms[-1], len(spelled) + left % 3), (0, len(spelled), 0, *spelled)
        for k, (words, number, value) in enumerate(run.offered[:8]):
            yield f'verdict {k}', case(CHECK, *tables, words), (number, value)
            if k == 0 and len(words) % 5 == 1:
                yield f'verdict {k}, cut inside a node', case(CHECK, *tables, words[:-1]), (13, 0)
            # no run has so many terms as 19 asks for: now and then an accepted proof is offered again and again, as one
            if k == 0 and number == 0 and zlib.crc32(run.data) % 64 == 0:
                yield 'long proof, one again and again', case(CHECK, *tables, words * (TERMS // value + 1)), (19, 0)
        if run.stopped and run.stopped[0] <= 7 and not run.asked and not run.offered:
            yield from self.refused_entry(run, tables)

    def refused_entry(self, run, tables):
        """The entry on which the run stopped is the first that is refused, also with the entries behind it."""
        number, line = run.stopped
        lines = run.data.split(b'\n')[:-1]
        bad = frame(lines[line - 1]) if line <= len(lines) else None
        # a kind out of order is nothing that whole tables can say
        if bad is None or bad[0] < run.kind:
            return
        yield f'entries before line {line}', case(DISTANCE, *tables), (0, 0) if run.nodes else (8, 0)
        entries = [list(run.nodes), list(run.rules), list(run.links)]
        entries[bad[0] - 1].append(bad[1])
        yield f'line {line}', self.whole(entries), (number, 0)
        for other in map(frame, lines[line:]):
            if other:
                entries[other[0] - 1].append(other[1])
        # the entries behind may be of an earlier kind, where the lines are out of order
        if not any(other and other[0] < bad[0] for other in map(frame, lines[line:])):
            yield f'line {line} with what is behind it', self.whole(entries), (number, 0)

    @staticmethod
    def whole(entries):
        nodes, rules, links = entries
        return case(DISTANCE, node_words(nodes), rule_words(rules), connection_words(links))

    def compare_all(self, runs):
        asked = [list(self.questions(run)) for run in runs]
        answers = iter(call(self.driver, [c for questions in asked for _, c, _ in questions]))
        found = []
        for questions in asked:
            first = None
            for what, _, expected in questions:
                number, value, _, *rest = next(answers)
                self.count(what)
                if (number, value, *rest) != expected and first is None:
                    first = what, expected, (number, value, *rest)
            found.append(first)
        return found


class Trees(Arm):
    name = 'tree checker'

    def compare_all(self, runs):
        found = []
        for run in runs:
            first = None
            for k, (words, *expected) in enumerate(run.offered[:8]):
                self.count('verdict')
                got = tree_checker.verdict(run.rules, words)
                if got != tuple(expected) and first is None:
                    first = f'verdict {k}', tuple(expected), got
            found.append(first)
        return found


class Rust(Arm):
    name = 'Rust'

    def __init__(self):
        super().__init__()
        self.folder = tempfile.TemporaryDirectory()
        self.oracle = build_oracle(self.folder.name)

    def questions(self, run):
        """(what, lines, fault of an answer) of what the Rust can be asked on a run's accepted tables"""
        for left, right, number, found in run.asked if sum(c[2] == 0 for c in run.links) <= CONGRUENCES else []:
            # of equal nodes that are not there the Rust says distance 0 before it panics: two lines, and nothing to compare
            if number == 11 and run.forest.needed(left, right) > SHOWN or number == 8 and left == right:
                continue
            yield f'query {left} {right}', [query_line(left, right)], self.query_fault(run, left, right, number, found)
        for k, (words, number, value) in enumerate(run.offered[:8]):
            # words that are no terms the Rust has not, and it has no limits
            if number not in (13, 19):
                lines = [offered_line(words[at:at + 2400]) for at in range(0, len(words), 2400)]
                yield f'verdict {k}', lines + ['06'], self.offer_fault(run.rules, words, number, value)

    @staticmethod
    def query_fault(run, left, right, number, found):
        def fault(said):
            if number in (8, 9):
                return None if said[0].startswith('panics') else 'panics'
            if number == 10:
                return None if said[0].startswith('distance ') and int(said[0][9:]) > FAR else f'a distance above {FAR}'
            d, terms = found if number == 0 else (run.forest.distance(left, right), run.forest.flat_proof(left, right))
            expected = [f'distance {d}', *map(term_text, terms)]
            return None if said == expected else expected
        return fault

    @staticmethod
    def offer_fault(rules, words, number, value):
        def fault(said):
            here = f'rejected {number} term {value}' if number else f'accepted {value}'
            if number == 0 or said[0] == 'passes' and difference(rules, words, number, value) in LISTED:
                return None if said[0] == 'passes' else here
            return None if said[0] != 'passes' and alike(rules, words, number, value, said[0]) else here
        return fault

    def compare_all(self, runs):
        """One half of the inputs with the connections as they are given, and one by egg's own `union`: every answer must be the same."""
        by_union = [zlib.crc32(run.data) & 1 for run in runs]
        found = [None] * len(runs)
        for which, words in ((0, []), (1, ['union'])):
            here = [k for k in range(len(runs)) if by_union[k] == which]
            for k, first in zip(here, self.compare_by([runs[k] for k in here], words)):
                found[k] = first
        return found

    def compare_by(self, runs, words):
        asked = [list(self.questions(run)) for run in runs]
        given = [table_lines(run.nodes, run.rules, run.links) + [line for _, lines, _ in questions for line in lines]
                 for run, questions in zip(runs, asked) if questions]
        outputs = iter(ask_many(self.oracle, given, *words))
        found = []
        for questions in asked:
            said, first = [], None
            for line in next(outputs) if questions else []:
                # a term begins with its operator or a parenthesis; anything else is the next answer
                if line[0] in '(o':
                    said[-1].append(line)
                else:
                    said.append([line])
            if len(said) != len(questions):
                first = 'the number of answers', len(questions), said
            for (what, _, fault), lines in zip(questions, said):
                self.count(what)
                expected = fault(lines)
                if expected is not None and first is None:
                    first = what, expected, lines
            found.append(first)
        return found


class Program(Arm):
    name = 'program'

    def __init__(self):
        super().__init__()
        program.build()
        self.command, self.folder = program.COMMAND, tempfile.TemporaryDirectory()
        self.given, self.printed = (os.path.join(self.folder.name, name) for name in ('given', 'printed'))

    def output(self, data):
        """what the program prints for an input; started without a shell or a thread, since that would take longer than the run itself"""
        with open(self.given, 'wb') as f:
            f.write(data)
        files = [(os.POSIX_SPAWN_OPEN, 0, self.given, os.O_RDONLY, 0),
                 (os.POSIX_SPAWN_OPEN, 1, self.printed, os.O_WRONLY | os.O_CREAT | os.O_TRUNC, 0o600)]
        pid = os.posix_spawn(self.command[0], self.command, os.environ, file_actions=files)
        status = os.waitstatus_to_exitcode(os.waitpid(pid, 0)[1])
        with open(self.printed, 'rb') as f:
            return f.read() if status == 0 else b'the program ended with status %d' % status

    def compare_all(self, runs):
        found = []
        for made in runs:
            expected, got = ''.join(made.printed).encode(), self.output(made.data)
            self.count('run')
            found.append(None if got == expected else ('the output', expected, got))
        return found
