#!/usr/bin/env python3
"""Measures the processor minutes that the proofs of each crate take, from nothing.

    tools/measure_proofs.py

Runs `rt ci` and then `.ci/wrong_bodies` on a copy of crates.txt, HANDLES, .ci/ and
crates/, without touching the checkout, and adds up the processor time of each process that they start: for the proof of a crate's library, of its
tests, of its must-fail edits with the check that they begin with, and of the checks of its wrong bodies. What compiles and runs programs and
tests is counted with the crate's library and tests. Prints one line of a table a crate, in the order of crates.txt, and the whole, and the
minutes by the clock that each of the two took. Other load on the machine makes all figures larger. It is no part of the gate.
"""
import os
import re
import shutil
import subprocess
import sys
import tempfile
import time
from collections import defaultdict
from pathlib import Path

TOP = Path(__file__).resolve().parent.parent
TICKS = os.sysconf('SC_CLK_TCK')
PAUSE = 0.1
KINDS = ['library', 'tests', 'must-fail', 'wrong bodies']


def processes():
    """Each process that runs: its number, and its parent's and its own processor seconds."""
    for entry in os.listdir('/proc'):
        if entry.isdigit():
            try:
                stat = Path('/proc', entry, 'stat').read_text()
            except OSError:
                continue
            fields = stat[stat.rindex(')') + 2:].split()
            yield int(entry), int(fields[1]), (int(fields[11]) + int(fields[12])) / TICKS


def read_link(path):
    try:
        return os.readlink(path)
    except OSError:
        return ''


def read_words(number):
    try:
        return Path('/proc', str(number), 'cmdline').read_text(errors='replace').split('\0')
    except OSError:
        return []


class Times:
    """The processor seconds of the processes below one, by crate and kind."""

    def __init__(self, root):
        self.root = root
        self.seconds = {}   # of each process
        self.labels = {root: None}

    def label(self, number, parent):
        """The crate and the kind of a process: those that its words tell, or its parent's."""
        words = read_words(number)
        if '--crate-name' not in words[:-1]:
            return self.labels[parent]
        crate = words[words.index('--crate-name') + 1]
        if '--test' in words:
            return crate, 'tests'
        folder = read_link(f'/proc/{number}/cwd')
        if '/wrong-bodies-' in folder:
            return crate, 'wrong bodies'
        return crate, 'must-fail' if re.search(r'/rt-edit', '\0'.join([folder, *words])) else 'library'

    def sample(self):
        found = list(processes())
        grown = True
        while grown:
            grown = False
            for number, parent, _ in found:
                if number not in self.labels and parent in self.labels:
                    self.labels[number] = self.label(number, parent)
                    grown = True
        for number, _, seconds in found:
            if number in self.labels:
                # a process that has just begun may not have its own words yet
                if seconds < 1 and number != self.root:
                    self.labels[number] = self.label(number, self.root) or self.labels[number]
                self.seconds[number] = max(seconds, self.seconds.get(number, 0))

    def sums(self):
        """The seconds of each crate's kinds."""
        sums = defaultdict(float)
        for number, seconds in self.seconds.items():
            if self.labels[number]:
                sums[self.labels[number]] += seconds
        return sums


def measured(folder, command):
    """What a command says at its end, its minutes by the clock, and the times."""
    begun = time.time()
    with open(folder / 'log', 'a') as log:
        ran = subprocess.Popen(command, cwd=folder, stdout=log, stderr=subprocess.STDOUT, stdin=subprocess.DEVNULL)
        times = Times(ran.pid)
        while ran.poll() is None:
            times.sample()
            time.sleep(PAUSE)
    end = (folder / 'log').read_text().splitlines()[-1:]
    return f'{" ".join(command)}: {(time.time() - begun) / 60:.1f} minutes by the clock: {" ".join(end)}', times.sums()


def main():
    crates = [line.split(':')[0].split()[0] for line in (TOP / 'crates.txt').read_text().splitlines() if ':' in line.split('#')[0]]
    with tempfile.TemporaryDirectory(prefix='measure-proofs-') as name:
        folder = Path(name)
        for part in ['crates.txt', 'HANDLES']:
            shutil.copy2(TOP / part, folder)
        for part in ['crates', '.ci']:
            shutil.copytree(TOP / part, folder / part, ignore=lambda at, _: ['out'] if Path(at).parent.name == 'crates' else [])
        subprocess.run(['git', 'init', '-q', name], check=True)
        said, sums = [], defaultdict(float)
        for command in [['rt', 'ci'], ['.ci/wrong_bodies']]:
            line, found = measured(folder, command)
            said.append(line)
            sums.update(found)
        shutil.copy2(folder / 'log', Path(tempfile.gettempdir(), 'measure_proofs.log'))
    print('| Crate | ' + ' | '.join(KINDS) + ' | all |')
    print('|---' * (len(KINDS) + 2) + '|')
    for crate in [it for it in crates if any(sums[it, kind] for kind in KINDS)]:
        row = [sums[crate, kind] / 60 for kind in KINDS]
        print(f'| {crate} | ' + ' | '.join(f'{it:.1f}' for it in row) + f' | {sum(row):.1f} |')
    row = [sum(sums[crate, kind] for crate in crates) / 60 for kind in KINDS]
    print('| all | ' + ' | '.join(f'{it:.1f}' for it in row) + f' | {sum(row):.1f} |')
    print(f'on {os.cpu_count()} processors:', *said, sep='\n')


if __name__ == '__main__':
    # it takes hours, so that words which it does not know begin nothing
    sys.exit(__doc__ if sys.argv[1:] else main())
