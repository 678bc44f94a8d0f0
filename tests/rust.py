"""The oracle (docs/ORACLE.md), built by rustc and asked: the Rust's answers to lines of hexadecimal."""
import os, shutil, subprocess
from scope import DISTANCE

TOP = os.path.dirname(os.path.dirname(os.path.abspath(__file__)))


def there():
    return shutil.which('rustc') is not None


def build(folder):
    out = os.path.join(folder, 'oracle')
    subprocess.run(['rustc', '-O', os.path.join(TOP, 'tests', 'oracle', 'main.rs'), '-o', out], check=True)
    return out


def ask(oracle, lines, *words, far=DISTANCE):
    """the output lines of one input; above the distance `far` no flat proof is asked for"""
    out = subprocess.run([oracle, f'far={far}', *words], input='\n'.join(lines) + '\n', capture_output=True, text=True)
    if out.returncode == -6 and 'overflowed its stack' in out.stderr:
        return ['overflows its stack']
    if out.returncode:
        raise SystemExit(f'the oracle ended with status {out.returncode}: {out.stderr} on\n' + '\n'.join(lines))
    return out.stdout.splitlines()


def ask_many(oracle, inputs, *words):
    """the output lines of each of many inputs, by one process: an empty line stands between two"""
    found = [[]]
    for line in ask(oracle, [line for lines in inputs for line in ['', *lines]][1:], *words) if inputs else []:
        if line:
            found[-1].append(line)
        else:
            found.append([])
    return found if inputs else []
