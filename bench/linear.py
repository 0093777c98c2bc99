#!/usr/bin/env python3
"""Whether READ takes twice as long for a file that is twice as long.

Usage: bench/linear.py [PROGRAM]   over the program that `rt run` or `rt ci` has built.
It reads the first half of set.mm and the whole, where Debian's package metamath-databases is installed, and two made
files with deep blocks and long `$d`, of which the second has each block twice. It prints the processor time of each,
the least of several runs, and the ratio.
"""
import os
import pathlib
import resource
import subprocess
import sys
import tempfile

SET = pathlib.Path('/usr/share/metamath/databases/set.mm')
VARIABLES = 400
DEPTH = 100


def first_half(text: bytes) -> bytes:
    """The longest first part, up to half of the text, that ends outside all blocks and comments."""
    depth, cut, place, comment = 0, 0, 0, False
    while True:
        dollar = text.find(b'$', place, len(text) // 2)
        if dollar < 0:
            return text[:cut]
        mark = text[dollar + 1:dollar + 2]
        place = dollar + 2
        if comment:
            comment = mark != b')'
        elif mark == b'(':
            comment = True
        elif mark == b'{':
            depth += 1
        elif mark == b'}':
            depth -= 1
        if depth == 0 and not comment and mark in (b'.', b'}'):
            cut = place


def made(sections: int) -> bytes:
    """So many blocks within blocks, each with a `$d` of all variables, a hypothesis and an axiom."""
    names = [f'v{n}' for n in range(VARIABLES)]
    lines = ['$c |- wff $.', f'$v {" ".join(names)} $.']
    lines += [f'w{name} $f wff {name} $.' for name in names]
    for section in range(sections):
        for level in range(DEPTH):
            one, two = names[level % VARIABLES], names[(level * 7 + 1) % VARIABLES]
            lines += ['${', f'$d {" ".join(names)} $.', f'a{section}.{level} $a |- {one} {two} $.']
        lines += ['$}'] * DEPTH
    return ('\n'.join(lines) + '\n').encode()


def seconds(program: str, text: bytes) -> float:
    """The least processor time of five readings of a file with this text."""
    with tempfile.TemporaryDirectory() as folder:
        pathlib.Path(folder, 'a.mm').write_bytes(text)
        times = []
        for _ in range(5):
            before = resource.getrusage(resource.RUSAGE_CHILDREN)
            said = subprocess.run([program, 'READ a.mm'], cwd=folder, stdin=subprocess.DEVNULL, capture_output=True, check=False)
            after = resource.getrusage(resource.RUSAGE_CHILDREN)
            times.append(after.ru_utime + after.ru_stime - before.ru_utime - before.ru_stime)
            if b'\nRead: ' not in said.stdout:
                sys.exit(f'not read: {said.stdout!r}')
        return min(times)


def compare(program: str, what: str, short: bytes, long: bytes) -> None:
    one, two = seconds(program, short), seconds(program, long)
    print(f'{what}: {len(short):,} bytes {one:.3f} s, {len(long):,} bytes {two:.3f} s: '
          f'{len(long) / len(short):.2f} times the bytes, {two / one:.2f} times the time')


def main() -> None:
    here = pathlib.Path(__file__).resolve().parent.parent
    program = os.path.abspath(sys.argv[1]) if len(sys.argv) > 1 else str(here / 'crates/mmpa/out/mmpa')
    if not os.path.exists(program):
        print(f'linear: skipped, there is no {program}')
        return
    if SET.exists():
        text = SET.read_bytes()
        compare(program, 'set.mm', first_half(text), text)
    else:
        print(f'linear: set.mm skipped, there is no {SET}')
    compare(program, 'deep blocks and long $d', made(20), made(40))


if __name__ == '__main__':
    main()
