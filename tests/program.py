"""The program: built, and run on bytes."""
import os, subprocess, time
from library import TOP, launched, run

PROGRAM = os.path.join(TOP, 'crates', 'explain', 'out', 'explain')
COMMAND = launched(PROGRAM)
SCRIPT = os.path.join(TOP, 'run')


def build():
    """Proves and builds the program, if that is not done yet."""
    run('tools/program')


def printed(given):
    """What the program prints for an input. It says nothing on standard error, and ends well."""
    done = subprocess.run(COMMAND, input=given, capture_output=True)
    if done.returncode or done.stderr:
        return f'status {done.returncode}: {done.stderr[-300:]!r}'.encode()
    return done.stdout


def with_stack(given, kibibytes):
    """What it prints where its stack may not grow beyond so much"""
    return subprocess.run(['bash', '-c', f'ulimit -s {kibibytes} && exec "$@"', 'bash', *COMMAND], input=given, capture_output=True).stdout


def in_pieces(given, sizes):
    """What it prints where the input comes in pieces of these sizes, over and over"""
    program = subprocess.Popen(COMMAND, stdin=subprocess.PIPE, stdout=subprocess.PIPE)
    at, turn = 0, 0
    while at < len(given):
        program.stdin.write(given[at:at + sizes[turn % len(sizes)]])
        program.stdin.flush()
        at, turn = at + sizes[turn % len(sizes)], turn + 1
    return program.communicate()[0]


def until(program, expected):
    """What an open program has printed, once it is as long as what is expected, with its input still open"""
    seen, last = b'', time.monotonic() + 60
    while len(seen) < len(expected) and time.monotonic() < last:
        more = os.read(program.stdout.fileno(), 65536)
        if not more:
            break
        seen += more
    return seen


def script(*options, given=b'', **more):
    """The status of ./run with these options, what it prints, and what it says on standard error"""
    done = subprocess.run([SCRIPT, *options], input=given, capture_output=True, cwd=TOP, **more)
    return done.returncode, done.stdout, done.stderr
