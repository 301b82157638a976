#!/usr/bin/env python3
"""Compares what svsim prints of the examples with what Icarus Verilog (iverilog, vvp) prints of them.

    tools/compare_examples.py

Each example of examples/ is run on both, and so are the counter and its bench, which stand in two files. Some show what no comparison can: those of which an
order of events decides what is printed (order), those that do not end (counter), those that svsim refuses (undeclared, unfinished), and those that Icarus
Verilog does not take or at which vvp ends with a fault of its own, of which it is told so. It prints for each example what came of it. It needs
iverilog, and is no part of the gate. Status 0 where all that could be compared agree, 1 where some do not.
"""
import subprocess
import sys
import tempfile
from pathlib import Path

from comparing import printed
from measuring import PROGRAM, TOP, build

LEFT_OUT = {'order': 'the order of events decides', 'counter': 'it has no end', 'undeclared': 'it is refused', 'unfinished': 'it is refused',
            'gray_counter_bench': 'it stands beside gray_counter'}


def told(files, folder):
    """What came of an example, and whether it agrees."""
    status, ours = printed([PROGRAM, 'run', *files], folder)
    if status:
        return f'svsim ends with {status}', False
    if subprocess.run(['iverilog', '-g2012', '-o', 'design.vvp', *files], cwd=folder, capture_output=True).returncode:
        return 'Icarus Verilog does not take it', True
    status, theirs = printed(['vvp', '-n', 'design.vvp'], folder)
    if status:
        return f'vvp ends with {status}', True
    return ('the same', True) if ours[:-1] == theirs else ('NOT the same', False)


def main():
    build()
    agree = True
    with tempfile.TemporaryDirectory() as folder:
        for example in sorted(TOP.glob('examples/*.sv')):
            name = example.stem
            if name in LEFT_OUT:
                print(f'{name}: left out, {LEFT_OUT[name]}')
                continue
            files = [example, *TOP.glob(f'examples/{name}_bench.sv')]
            said, is_well = told(files, Path(folder))
            agree = agree and is_well
            print(f'{name}: {said}')
    return 0 if agree else 1


sys.exit(main())
