#!/usr/bin/env python3
"""Measures how long bin/svsim takes to print 1,000,000 records into a file, and Icarus Verilog's vvp beside it where it is installed.

    tools/measure_printing.py [RUNS]

The design prints 100 records in each of 10,000 time slots. Prints the processor and clock seconds of the best of RUNS calls (5 where no
number is given), and compares what the two print. It is no part of the gate.
"""
import os
import shutil
import subprocess
import sys
import tempfile
import time
from pathlib import Path

TOP = Path(__file__).resolve().parent.parent
SLOTS = 10_000
PRINTS = 100


def design(end):
    """A module that prints PRINTS records a slot; `end` is what ends its run after SLOTS of them."""
    prints = '\n'.join(f'      $display("record {i:02} of slot %0d", n);' for i in range(PRINTS))
    return f'module printing;\n  int n;\n  initial begin\n    n = 0;\n    forever begin\n      #1 n = n + 1;\n{prints}\n    end\n  end\n{end}endmodule\n'


def best(words, log, runs):
    """The least processor and clock seconds of so many calls that print into a file."""
    times = []
    for _ in range(runs):
        before, begun = os.times(), time.time()
        with open(log, 'wb') as out:
            subprocess.run(words, stdout=out)
        after = os.times()
        used = after.children_user + after.children_system - before.children_user - before.children_system
        times.append((used, time.time() - begun))
    return min(times)


def main():
    runs = int(sys.argv[1]) if sys.argv[1:] else 5
    with tempfile.TemporaryDirectory() as name:
        folder = Path(name)
        source = folder / 'printing.sv'
        # a slot has its records and some ten steps more; the run is cut behind the last record
        source.write_text(design(''))
        steps = SLOTS * (PRINTS + 12)
        subprocess.run([TOP / 'bin/svsim', 'run', source, '--steps', '1'], stdout=subprocess.DEVNULL)
        ours = best([TOP / '.svsim/svsim', 'run', source, '--steps', str(steps)], folder / 'svsim.log', runs)
        lines = (folder / 'svsim.log').read_text().splitlines()[:-1]
        print(f'svsim: {len(lines):,} records, {ours[0]:.2f} s of processor time, {ours[1]:.2f} s by the clock')
        if shutil.which('iverilog'):
            source.write_text(design(f'  initial #{len(lines) // PRINTS} #0 $finish(0);\n'))
            subprocess.run(['iverilog', '-g2012', '-o', folder / 'printing.vvp', source], check=True)
            theirs = best(['vvp', '-n', folder / 'printing.vvp'], folder / 'vvp.log', runs)
            others = (folder / 'vvp.log').read_text().splitlines()
            same = sum(a == b for a, b in zip(lines, others))
            print(f'vvp: {len(others):,} records, {theirs[0]:.2f} s of processor time, {theirs[1]:.2f} s by the clock; {same:,} are the same')


if __name__ == '__main__':
    main()
