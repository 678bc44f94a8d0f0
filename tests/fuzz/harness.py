"""The harnesses built by the toolchain alone, without the fuzzer, and handed stored inputs (tests/fuzz/replay.c)."""
import os, struct, subprocess
from library import TOP, run, toolchain

OUT, FUZZ = os.path.join(TOP, 'target', 'tests'), os.path.join('tests', 'fuzz')


def tools():
    return toolchain()


def compiled(source, made, *more):
    """the object of a C file or of a module"""
    os.makedirs(OUT, exist_ok=True)
    run(os.path.join(tools(), 'bin', 'clang'), '--target=x86_64-unknown-linux-gnu', '-Wall', '-Wextra', '-Werror', '-Itests/headers', *more,
        '-c', source, '-o', f'{OUT}/{made}.o')
    return f'{OUT}/{made}.o'


def linked(name, *objects):
    """a program of these objects, linked as tests/library.py links its driver"""
    lib = os.path.join(tools(), 'lib')
    run(os.path.join(tools(), 'bin', 'ld.lld'), '-pie', '-dynamic-linker', f'{lib}/ld-linux-x86-64.so.2', f'{lib}/Scrt1.o', f'{lib}/crti.o',
        f'{lib}/crtbeginS.o', *objects, f'{lib}/libc.so.6', f'{lib}/libc_nonshared.a', f'{lib}/libgcc.a', f'{lib}/crtendS.o', f'{lib}/crtn.o',
        '-o', f'{OUT}/{name}')
    return f'{OUT}/{name}'


def replayed(program, inputs, *more):
    """how a replay ended, how many inputs came back, and what it said"""
    given = b''.join(struct.pack('<I', len(given)) + given for given in inputs)
    done = subprocess.run([os.path.join(TOP, 'launch'), program, *more], input=given, capture_output=True)
    return done.returncode, len(done.stdout), done.stderr.decode(errors='replace').strip()
