"""Builds the library with its test driver by the toolchain's own compiler, and calls it."""
import hashlib, os, platform, struct, subprocess

TOP = os.path.dirname(os.path.dirname(os.path.abspath(__file__)))
CHECK, DISTANCE, QUERY, TEXT = 1, 2, 3, 4
MEASURED = 16                    # added to one of them: how many bytes of stack it used is a fourth number of the answer


def run(*command):
    out = subprocess.run(command, cwd=TOP, stdin=subprocess.DEVNULL, capture_output=True, text=True)
    if out.returncode:
        raise SystemExit(f'{command[0]} failed: {(out.stdout + out.stderr)[-800:]}')
    return out.stdout


def archive():
    """The archive's path. `rt lib` asks whether the library is proved, so it is called only where a source has changed since."""
    made, stamp = os.path.join(TOP, 'target', 'staticlib', 'libexplanation.a'), os.path.join(TOP, 'target', 'staticlib', 'sources')
    names = sorted(os.path.join(folder, name) for folder, _, found in os.walk(os.path.join(TOP, 'crates')) for name in found if f'{os.sep}out{os.sep}' not in f'{folder}{os.sep}')
    sources = hashlib.sha256()
    for name in [os.path.join(TOP, 'crates.txt'), *names]:
        with open(name, 'rb') as file:
            sources.update(name.encode() + b'\0' + hashlib.sha256(file.read()).digest())
    said = sources.hexdigest() + run('rt', 'version')
    if not (os.path.exists(made) and os.path.exists(stamp) and open(stamp).read() == said):
        run('tools/archive')
        with open(stamp, 'w') as file:
            file.write(said)
    return made


def toolchain():
    return os.path.join(os.path.dirname(run('rt', 'doc').strip()), 'toolchain')


def put(made, *command):
    """What a command writes behind -o, put in place at once: another test may be using what stood there."""
    new = f'{made}.{os.getpid()}'
    run(*command, '-o', new)
    os.replace(new, made)
    return made


def compile_c(source, *words):
    """The path of the object that the toolchain's compiler makes of a C file. Warnings are errors."""
    out = os.path.join(TOP, 'target', 'tests')
    os.makedirs(out, exist_ok=True)
    made = os.path.join(out, os.path.splitext(os.path.basename(source))[0] + '.o')
    return put(made, os.path.join(toolchain(), 'bin', 'clang'), '--target=x86_64-unknown-linux-gnu', '-O2', '-Wall', '-Wextra', '-Werror', *words,
               '-Itests/headers', '-c', source)


def link(made):
    """The path of the program that an object and the library are linked to, with the toolchain's C library."""
    tools, program = toolchain(), os.path.splitext(made)[0]
    lib = os.path.join(tools, 'lib')
    return put(program, os.path.join(tools, 'bin', 'ld.lld'), '-pie', '-dynamic-linker', f'{lib}/ld-linux-x86-64.so.2', f'{lib}/Scrt1.o',
               f'{lib}/crti.o', f'{lib}/crtbeginS.o', made, 'target/staticlib/libexplanation.a', f'{lib}/libc.so.6', f'{lib}/libc_nonshared.a',
               f'{lib}/libgcc.a', f'{lib}/crtendS.o', f'{lib}/crtn.o')


def build():
    """The driver's path."""
    archive()
    return link(compile_c('tests/driver.c'))


def launched(program):
    """the command by which ./launch runs a program, without its shell: for tests that start a program often"""
    tools = toolchain()
    emulator, lib = os.path.join(tools, 'bin', 'qemu-x86_64'), os.path.join(tools, 'lib')
    command = [os.path.join(lib, 'ld-linux-x86-64.so.2'), '--library-path', lib, program]
    return [emulator, *command] if os.access(emulator, os.X_OK) else command


def case(what, nodes, rules, connections, words=(), left=0, right=0, times=1):
    runs = [nodes, rules, connections, words]
    return struct.pack('<8I', what, *map(len, runs), left, right, times) + b''.join(struct.pack(f'<{len(r)}H', *r) for r in runs)


def text(words, room, times=1, what=TEXT):
    """the text of one term in a room of so many bytes"""
    return case(what, [], [], [], words, room, times=times)


def call(driver, cases):
    """The answers, (number, value, microseconds) each; behind a query's the words written, how many behind them are not zero, and the words;
    behind a text's, whose value are the bytes written, how many behind them are not zero, and the bytes."""
    out = subprocess.run([os.path.join(TOP, 'launch'), driver], input=b''.join(cases), capture_output=True)
    if out.returncode:
        raise SystemExit(f'the driver ended with status {out.returncode}: {out.stderr[-300:]!r}')
    return [tuple(map(int, line.split())) for line in out.stdout.decode().splitlines()]
