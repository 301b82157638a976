#!/usr/bin/env python3
"""Measures how long bin/svsim takes to read ordinary files of 1, 2, 4 and 8 MiB, and how much memory it needs.

    tools/measure_reading.py [RUNS [SEED]]

The files have modules and classes of random names. Each is read twice: as it is (svsim lexes and parses it, and answers that this form does not
run yet), and behind a `)` (svsim lexes it and is refused at that token). The script prints processor seconds, the best of RUNS calls (5 where no
number is given), and the peak of resident memory. It is no part of the gate.
"""
import os
import random
import subprocess
import sys
import tempfile
from pathlib import Path

TOP = Path(__file__).resolve().parent.parent
FIRST = 'abcdefghijklmnopqrstuvwxyz'
NUMBERS = ["8'hff", "4'b10x1", "32'd1234", '0', '1', '16', '255', '1_000', "12'o777", "'0", "8'h0a"]
OPERATORS = ['+', '-', '*', '&', '|', '^', '<<', '>>', '==', '!=', '<=', '>=', '&&', '||']


class Source:
    """Random units of a source file."""

    def __init__(self, seed):
        self.rng = random.Random(seed)
        # the digit keeps names apart from the reserved words
        self.names = [self.rng.choice(FIRST) + ''.join(self.rng.choice(FIRST + '_0123456789') for _ in range(self.rng.randint(2, 10))) + '1'
                      for _ in range(2000)]

    def name(self):
        return self.rng.choice(self.names)

    def number(self):
        return self.rng.choice(NUMBERS)

    def expr(self, depth=0):
        way = self.rng.random()
        if depth > 2 or way < 0.4:
            return self.name()
        if way < 0.6:
            return self.number()
        if way < 0.9:
            return f'{self.expr(depth + 1)} {self.rng.choice(OPERATORS)} {self.expr(depth + 1)}'
        if way < 0.95:
            return f'({self.expr(depth + 1)})'
        return f'{self.name()}[{self.rng.randint(0, 31)}:0]'

    def times(self, low, high, line):
        return [line() for _ in range(self.rng.randint(low, high))]

    def module(self):
        name, number, expr = self.name, self.number, self.expr
        return [f'// {name()} {name()} {name()}',
                f'module {name()}(input logic {name()}, input logic [7:0] {name()}, output reg [31:0] {name()});',
                *self.times(3, 8, lambda: f"  {self.rng.choice(['logic', 'reg', 'bit'])} [{self.rng.choice([7, 15, 31])}:0] {name()}, {name()};"),
                *self.times(1, 4, lambda: f'  assign {name()} = {expr()};'),
                f'  always_ff @(posedge {name()}) begin',
                f'    if ({expr()}) begin',
                *self.times(1, 4, lambda: f'      {name()} <= {expr()};'),
                f'    end else {name()} <= {number()};',
                '  end',
                f'  /* {name()} {name()}',
                f'     {name()} {name()} */',
                '  always_comb begin',
                f'    case ({name()})',
                *self.times(2, 6, lambda: f"      4'd{self.rng.randint(0, 15)}: {name()} = {expr()};"),
                f'      default: {name()} = {number()};',
                '    endcase',
                '  end',
                '  initial begin',
                f'    #{self.rng.randint(1, 99)}ns {name()} = {number()};',
                f'    $display("{name()} %d %h", {name()}, {name()});  // {name()}',
                '  end',
                'endmodule',
                '']

    def klass(self):
        name, number, expr = self.name, self.number, self.expr
        return [f'class {name()} extends {name()};',
                *self.times(1, 4, lambda: f'  int {name()} = {number()};'),
                f'  function int {name()}(int {name()}, int {name()});',
                f'    for (int i = 0; i < {name()}; i++) begin',
                f'      this.{name()} += {expr()};',
                '    end',
                f'    return {expr()};',
                '  endfunction',
                'endclass',
                '']

    def text(self, size):
        """Whole units of at most so many bytes in all."""
        parts = []
        left = size
        while True:
            unit = '\n'.join(self.module() if self.rng.random() < 0.7 else self.klass()) + '\n'
            if len(unit) > left:
                return ''.join(parts)
            parts.append(unit)
            left -= len(unit)


def call(folder, name, runs):
    """Processor seconds, peak MiB and the closing line of `svsim run NAME`."""
    best, peak, line = float('inf'), 0, ''
    for _ in range(runs):
        child = subprocess.Popen([TOP / '.svsim' / 'svsim', 'run', name], cwd=folder, stdout=subprocess.PIPE, text=True)
        line = child.stdout.read().strip()
        _, _, used = os.wait4(child.pid, 0)
        best, peak = min(best, used.ru_utime + used.ru_stime), max(peak, used.ru_maxrss / 1024)
    return best, peak, line


def main():
    runs = int(sys.argv[1]) if len(sys.argv) > 1 else 5
    seed = int(sys.argv[2]) if len(sys.argv) > 2 else 1
    subprocess.run([TOP / 'bin' / 'svsim'], stdout=subprocess.DEVNULL)  # puts the program into .svsim/
    with tempfile.TemporaryDirectory() as folder:
        for mib in [0, 1, 2, 4, 8]:
            text = Source(seed).text((mib << 20) - 2)
            Path(folder, 'whole.sv').write_text(text)
            Path(folder, 'lexed.sv').write_text(')\n' + text)
            for name in ['lexed.sv', 'whole.sv']:
                seconds, peak, line = call(folder, name, runs)
                print(f'{mib} MiB {name}: {seconds:.3f} s, {peak:.0f} MiB: {line}')


if __name__ == '__main__':
    main()
