#!/usr/bin/env python3
"""Times the search for unifiers beside a plain Rust one: 100,000 trials on strings with five work variables and 80 symbols.

Usage: bench/unify/run.py   over the program that `rt run` or `rt ci` has built; PROGRAM names another. The program searches
by UNIFY STEP; what a session takes without these lines is taken off. Skipped where rustc or the built program is missing.
"""
import os
import pathlib
import resource
import shutil
import subprocess
import sys
import tempfile

TOP = pathlib.Path(__file__).resolve().parent.parent.parent
PROGRAM = pathlib.Path(os.environ.get('PROGRAM', TOP / 'crates/mmpa/out/mmpa')).resolve()
ROUNDS = 200
TIMES = 5  # of which the fastest counts
NAMES = ['->', 'a', 'b', 'c', 'd']
PLAIN = ['(' if k % 7 in (0, 1) else ')' if k % 7 in (3, 6) else NAMES[k % 5] for k in range(74)]
LEFT = [NAMES[(k + 3) % 4] for k in range(36)]
RIGHT = [NAMES[k % 4] for k in range(35)]
DATABASE = f"""$c |- wff ( ) {' '.join(NAMES)} $.
$v v w x y z $.
{''.join(f'f{name} $f wff {name} $. ' for name in 'vwxyz')}
five $a |- v w x y z $.
${{ h $e |- v a w {' '.join(LEFT)} $.
   goal $a |- ( ) $. $}}
other $a |- x b y z {' '.join(RIGHT)} $.
one $p |- {' '.join(PLAIN)} $= ? $.
two $p |- ( ) $= ? $.
"""
START = ['READ unify.mm', 'SET UNIFICATION_TIMEOUT 100000', 'SET BRACKETS OFF']
KINDS = {
    'one side, brackets off': ['PROVE one', 'ASSIGN LAST five'],
    'one side, brackets on': ['PROVE one', 'ASSIGN LAST five', 'SET BRACKETS ON'],
    'both sides, brackets off': ['PROVE two', 'ASSIGN LAST goal', 'ASSIGN LAST other'],
}


def seconds(place, words, text=b''):
    """How long a program takes of the processor, but for the system's calls."""
    before = resource.getrusage(resource.RUSAGE_CHILDREN)
    subprocess.run(words, cwd=place, input=text, stdout=subprocess.DEVNULL, check=False)
    after = resource.getrusage(resource.RUSAGE_CHILDREN)
    return after.ru_utime - before.ru_utime


def ours(place, lines, rounds):
    return seconds(place, [PROGRAM], '\n'.join(lines + ['UNIFY STEP 6'] * rounds + ['']).encode())


def microseconds(time_of):
    """How long a search takes, as told by that of many rounds and of none."""
    return 1_000_000 * (min(time_of(ROUNDS) for _ in range(TIMES)) - min(time_of(0) for _ in range(TIMES))) / ROUNDS


def main():
    if not PROGRAM.exists() or not shutil.which('rustc'):
        sys.exit('bench/unify/run.py: skipped, rustc or the built program is missing')
    with tempfile.TemporaryDirectory() as folder:
        place = pathlib.Path(folder)
        (place / 'unify.mm').write_text(DATABASE)
        subprocess.run(['rustc', '-O', '-o', place / 'search', TOP / 'bench/unify/search.rs'], check=True)
        for kind, lines in KINDS.items():
            plain = microseconds(lambda rounds: seconds(place, [place / 'search', kind, str(rounds)]))
            proved = microseconds(lambda rounds: ours(place, START + lines, rounds))
            print(f'{kind}: plain Rust {plain:.0f} microseconds, mmpa {proved:.0f}, {proved / plain:.2f} times')


main()
