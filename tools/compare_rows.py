#!/usr/bin/env python3
"""Sees whether the program says of the texts of crates/sv_names_rows what was computed of their trees.

    tools/compare_rows.py

There the checker computes from the definitions, of more than a thousand texts, which rule the trees of each break first and where, or what the design of
the trees prints and how its run ends. Here each text goes through the program, as files a.sv, b.sv, .. in their order, and its last lines have to say the
same: the rule at its place; or the log and the end of the run, or `not yet` where the design has forms that do not run today.
"""
import re
import subprocess
import sys
import tempfile
from pathlib import Path

TOP = Path(__file__).resolve().parent.parent
ROW = re.compile(r'^(t\d+)_(broken|seen) : (.*)$')
TOP_WORD = re.compile(r'\(Some \(codes "(\w+)"\)\)')
BROKEN = re.compile(r'≡ (?:None|Some \(fault (\d+) (\d+) (\d+) (\d+)\))$')
SEEN = re.compile(r'^seen_in \((Listed \[\]|Drawn \d+)\) \(Listed \[\]\) .*?\) (\d+) ≡ Ran \(record \{ log = (.*?); wave = .*; outcome = (.*?); time = (\d+); steps = (\d+);')
TEXTS = re.compile(r'"((?:[^"\\]|\\.)*)"')
NULL = re.compile(r'kind = kind\.Null; at = at (\d+) (\d+) (\d+); time = (\d+)')


def rows():
    """Of each row: its files, its root or none, and what was computed."""
    for path in sorted((TOP / 'crates/sv_names_rows/proofs').rglob('*.antt')):
        comment, files, is_over = [], [], True
        for line in path.read_text().splitlines():
            row = ROW.match(line)
            if line.startswith('-- ') or line == '--':
                comment = [*([] if is_over else comment), re.sub(r'^E\d+: ', '', line[3:])]
            elif line.startswith('abbrev t'):
                files = [it.strip('\n') for it in '\n'.join(comment).split('----')]
            elif row:
                yield f'{path.stem}: {row[1]}', files, TOP_WORD.search(row[3]), row[2], row[3]
            is_over = not line.startswith('--')


def ran(files, words, folder):
    """What the program prints of these files, and the name of each."""
    names = [f'{chr(ord("a") + number)}.sv' for number in range(len(files))]
    for name, text in zip(names, files):
        Path(folder, name).write_text(text + '\n')
    said = subprocess.run([TOP / '.svsim/svsim', 'run', *names, *words], cwd=folder, capture_output=True, text=True)
    return said.stdout, names


def wanted(kind, computed, names):
    """What the program has to print, or None where that is not compared."""
    if kind == 'broken':
        rule, file, line, column = BROKEN.search(computed).groups()
        return rule and f'svsim: {names[int(file)]}:{line}:{column}: refused: E{rule}\n'
    _, _, log, outcome, time, steps = SEEN.match(computed).groups()
    texts = ''.join(it.replace('\\"', '"').replace('\\\\', '\\') + '\n' for it in TEXTS.findall(log))
    if outcome == 'Done':
        return texts + f'svsim: done at {time}\n'
    if outcome == 'Spent':
        return texts + f'svsim: stopped after {steps} steps at {time}\n'
    null = NULL.search(computed)
    return null and texts + f'svsim: {names[int(null[1])]}:{null[2]}:{null[3]}: null reference at {null[4]}\n'


def main():
    # has .svsim/svsim be the program of these sources
    subprocess.run([TOP / 'bin/svsim', 'run', TOP / 'examples/hello.sv'], capture_output=True, check=True)
    told, run, not_yet, wrong = 0, 0, 0, 0
    with tempfile.TemporaryDirectory() as folder:
        for name, files, top, kind, computed in rows():
            words = ['--top', top[1]] if top else []
            if ' .. ' in ' '.join(files):
                # told in short, and not a text
                continue
            if kind == 'seen':
                choices, limit = SEEN.match(computed).group(1, 2)
                words += ['--steps', limit]
                if choices != 'Listed []':
                    continue
            said, names = ran(files, words, folder)
            right = wanted(kind, computed, names)
            if kind == 'seen' and said == f'svsim: {names[0]}:1:1: refused: not yet\n':
                not_yet += 1
            elif right is None and ': refused: E' in said or right is not None and said != right:
                print(f'{name}: the program says {said!r}, and not {right!r}, of: {files}')
                wrong += 1
            elif kind == 'seen':
                run += 1
            else:
                told += 1
    print(f'tools/compare_rows.py: {told} told, {run} run, {not_yet} do not run yet, {wrong} wrong')
    return 1 if wrong or not told or not run else 0


sys.exit(main())
