#!/usr/bin/env python3
"""Times an edit, an undo and a redo on trees of about 1,000, 33,000 and 450,000 steps of one height, through sessions.

Usage: bench/tree.py [MOST]   over the program that `rt run` or `rt ci` has built; PROGRAM names another. MOST steps at most.
"""
import os
import pathlib
import resource
import subprocess
import sys
import tempfile

TOP = pathlib.Path(__file__).resolve().parent.parent
PROGRAM = pathlib.Path(os.environ.get('PROGRAM', TOP / 'crates/mmpa/out/mmpa')).resolve()
HEIGHT = 26
DOUBLED = {9: 1000, 14: 200, 18: 20}  # how often a proof is joined with itself, and how many edits are timed
DATABASE = """$c |- a $.
ax $a |- a $.
${{ b1 $e |- a $. b2 $e |- a $. b $a |- a $. $}}
${{ s1 $e |- a $. s $a |- a $. $}}
t $p |- a $= ( ax b s ) {} $.
"""


def letters(times):
    """A proof that is joined with itself so often, and then made as high as the others."""
    joined = ['A'] + [chr(ord('D') + n) + 'B' for n in range(min(times, 17))] + [f'U{chr(ord("A") + n)}B' for n in range(times - 17)]
    return 'Z'.join(joined) + 'C' * (HEIGHT - times)


def seconds(place, lines):
    before = resource.getrusage(resource.RUSAGE_CHILDREN)
    end = subprocess.run([PROGRAM], cwd=place, input='\n'.join(lines + ['']).encode(), capture_output=True)
    after = resource.getrusage(resource.RUSAGE_CHILDREN)
    return after.ru_utime - before.ru_utime, end.stdout.decode()


def main(most):
    if not PROGRAM.exists():
        sys.exit('bench/tree.py: skipped, there is no built program')
    for times, rounds in DOUBLED.items():
        if 2 ** (times + 1) > most:
            continue
        with tempfile.TemporaryDirectory() as place:
            (pathlib.Path(place) / 'tree.mm').write_text(DATABASE.format(letters(times)))
            start = ['READ tree.mm', 'PROVE t']
            load, said = seconds(place, start)
            edits, _ = seconds(place, start + ['DELETE STEP 1', 'UNDO'] * rounds)
            more, _ = seconds(place, start + ['DELETE STEP 1', 'UNDO', 'REDO', 'UNDO'] * rounds)
        each = lambda time: round(1_000_000 * time / rounds)
        print(f'{said.splitlines()[3]} Loaded in {load:.2f} seconds; microseconds: edit and undo {each(edits - load)}, redo and undo {each(more - edits)}', flush=True)


main(int(sys.argv[1]) if sys.argv[1:] else 1_000_000)
