#!/usr/bin/env python3
"""Measures how the time of a run grows with what is scheduled, and Icarus Verilog's vvp beside it where it is installed.

    tools/measure_schedule.py [RUNS]

- wake-ups: 200 processes that wake after 1 to 1,000 ticks each and write a variable of their own;
- updates: so many nonblocking updates in each of ten time slots;
- picks: so many processes that are ready at once in each of two time slots, of which `--active` picks the last each time (vvp has no picks).

Prints the processor seconds of the best of RUNS calls (5 where no number is given). Each size is twice the one before. It is no part of the gate.
"""
import sys
import tempfile
from pathlib import Path

from measuring import PROGRAM, Best, build, vvp

BATCH = 100


def wake_ups(count):
    """The inside of a design, some more steps than it takes, and its picks."""
    delays = [1 + i * 999 // 199 for i in range(200)]
    variables = '\n'.join(f'  int v{i};' for i in range(200))
    processes = '\n'.join(f'  initial begin v{i} = 0; forever #{d} v{i} = v{i} + 1; end' for i, d in enumerate(delays))
    return f'{variables}\n{processes}', 5 * count, []


def updates(count):
    """The same of ten slots with so many updates each."""
    variables = '\n'.join(f'  int v{i};' for i in range(BATCH))
    assignments = ' '.join(f'v{i} <= n;' for i in range(BATCH))
    turn = f'{assignments} n = n + 1; if (n == {count // BATCH}) begin n = 0; #1 n = 0; end'
    return f'{variables}\n  int n;\n  initial begin n = 0; forever begin {turn} end end', 10 * (2 * count + 4 * count // BATCH), []


def picks(count):
    """The same of two slots in which so many processes are ready."""
    last = ','.join(str(k - 1) for k in range(count, 1, -1))
    return '  logic x;\n' + '  initial forever #1 if (x) x = 1;\n' * count, 8 * count, ['--active', f'{last},{last}']


MEASURED = [(wake_ups, [100_000, 200_000, 400_000]), (updates, [250_000, 500_000, 1_000_000]), (picks, [2_500, 5_000, 10_000])]


def main():
    runs = int(sys.argv[1]) if sys.argv[1:] else 5
    build()
    with tempfile.TemporaryDirectory() as name:
        source, log = Path(name, 'design.sv'), Path(name, 'log')
        for design, sizes in MEASURED:
            for size in sizes:
                text, steps, options = design(size)
                source.write_text(f'module scheduled;\n{text}\nendmodule\n')
                ours = Best([PROGRAM, 'run', source, *options, '--steps', str(steps)], runs, log)
                print(f'{design.__name__} {size:,}: svsim {ours} ({ours.last})', end='')
                if not options:
                    # (vvp ends where svsim was stopped)
                    end = f'initial #{ours.last.split()[-1]} #0 $finish(0);'
                    source.write_text(f'module scheduled;\n{text}\n  {end}\nendmodule\n')
                    theirs = vvp(source, runs, log)
                    print(f', vvp {theirs}' if theirs else '', end='')
                print(flush=True)


if __name__ == '__main__':
    main()
