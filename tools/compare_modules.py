#!/usr/bin/env python3
"""Compares what svsim prints of random synchronous designs with what Icarus Verilog (iverilog, vvp) prints of them.

    tools/compare_modules.py [COUNT [SEED]]

COUNT designs (100 where no number is given) in which no order of events shows: registers behind a reset, combinational logic by `assign` and
`always_comb` with `case`, `casez`, `if`, loops, selects and concatenations, a memory, a bus with drivers that give way to one another, and
instances with parameters and ports. A bench tells all values at each falling edge of the clock. The script prints how many logs were the same, and
of each other one its design and the first two lines that differ. It needs iverilog, and is no part of the gate. Status 0 where all agree, 1 where
some do not.
"""
import random
import sys

from comparing import compared

BINARY = ['+', '-', '&', '|', '^', '~^', '<<', '>>', '>>>', '<', '<=', '>', '>=', '==', '!=', '&&', '||', '+', '-', '^', '&']
UNARY = ['~', '-', '!', '&', '|', '^', '~&', '~|', '~^']


class Design:
    """A random design."""

    def __init__(self, seed):
        self.random = random.Random(seed)
        self.number, self.pick = self.random.randint, self.random.choice

    def literal(self):
        return self.pick([str(self.number(0, 40)), f"{self.number(4, 12)}'d{self.number(0, 15)}", f"8'h{self.number(0, 255):02x}", f"4'b{self.number(0, 15):04b}"])

    def operand(self, seen):
        """A value, or a bit or a part of it."""
        name, width = self.pick(seen)
        form = self.random.random()
        if form < 0.7 or width == 1:
            return name
        if form < 0.8:
            return f'{name}[{self.number(0, width - 1)}]'
        if form < 0.9:
            low = self.number(0, width - 1)
            return f'{name}[{self.number(low, width - 1)}:{low}]'
        return f'{name}[{self.pick(seen)[0]} +: {self.number(1, width)}]' if self.random.random() < 0.5 else f'{name}[{self.number(0, width - 1)} -: 1]'

    def expression(self, seen, depth=3):
        form = self.random.random()
        if depth == 0 or form < 0.2:
            return self.literal() if self.random.random() < 0.3 else self.operand(seen)
        if form < 0.3:
            return f'({self.pick(UNARY)}({self.expression(seen, depth - 1)}))'
        if form < 0.38:
            return f'({self.expression(seen, depth - 1)} ? {self.expression(seen, depth - 1)} : {self.expression(seen, depth - 1)})'
        if form < 0.44:
            return f'{{{self.operand(seen)}, {self.operand(seen)}}}'
        if form < 0.48:
            return f'{{{self.number(1, 3)}{{{self.operand(seen)}}}}}'
        if form < 0.52:
            return f"{self.pick(['$signed', '$unsigned'])}({self.expression(seen, depth - 1)})"
        return f'({self.expression(seen, depth - 1)} {self.pick(BINARY)} {self.expression(seen, depth - 1)})'

    def target(self, written, later):
        """What an assignment writes, whole or in part."""
        name, width = self.pick(written)
        form = self.random.random()
        if form < 0.7 or width < 3:
            return name
        if form < 0.85:
            return f'{name}[{self.number(0, width - 1)}]'
        low = self.number(0, width - 2)
        return f'{name}[{self.number(low + 1, width - 1)}:{low}]'

    def statement(self, written, seen, sign, depth=2):
        form = self.random.random()
        if depth == 0 or form < 0.5:
            return f'{self.target(written, sign)} {sign} {self.expression(seen)};'
        if form < 0.7:
            more = f' else {self.statement(written, seen, sign, depth - 1)}' if self.random.random() < 0.6 else ''
            return f'if ({self.expression(seen, 2)}) begin {self.statement(written, seen, sign, depth - 1)} end{more}'
        if form < 0.85:
            word, width = self.pick(['case', 'casez']), 3
            labels = [''.join(self.pick('01?' if word == 'casez' else '01') for _ in range(width)) for _ in range(self.number(1, 3))]
            arms = ' '.join(f"3'b{it}: {self.statement(written, seen, sign, depth - 1)}" for it in dict.fromkeys(labels))
            return f'{word} ({self.pick(seen)[0]}[2:0]) {arms} default: {self.statement(written, seen, sign, depth - 1)} endcase'
        if form < 0.92 and sign == '=':
            name, width = self.pick(written)
            return f'for (k = 0; k < {width}; k = k + 1) {name}[k] = {self.pick(seen)[0]}[{2} - (k % 3)];'
        return f'begin {self.statement(written, seen, sign, depth - 1)} {self.statement(written, seen, sign, depth - 1)} end'

    def leaf(self):
        """A module with a register and an output that is combinational."""
        seen = [('a', 8), ('b', 5), ('q', 8)]
        return ['module leaf #(parameter int P = 3) (input logic clk, rst, input logic [7:0] a, input wire [4:0] b, output logic [7:0] q, output wire [7:0] y);',
                f'  assign y = {self.expression(seen)};',
                f'  always_ff @(posedge clk) if (rst) q <= P; else q <= {self.expression(seen + [("P", 8)])};', 'endmodule']

    def text(self):
        registers = [(f'r{i}', self.number(3, 20)) for i in range(self.number(2, 4))]
        wires = [(f'w{i}', self.number(3, 16)) for i in range(self.number(1, 3))]
        combs = [(f'c{i}', self.number(3, 12)) for i in range(self.number(1, 2))]
        leaves = self.number(0, 2)
        outs = [(f'{kind}{i}', 8) for i in range(leaves) for kind in ('q', 'y')]
        lines = self.leaf() + ['module bench;', '  logic clk = 0, rst = 1;', '  int k;', '  logic [7:0] memory [0:7];', '  logic [2:0] at;', '  wire [3:0] bus;']
        lines += [f"  logic {self.pick(['', 'signed '])}[{width - 1}:0] {name};" for name, width in registers + combs]
        lines += [f'  wire [{width - 1}:0] {name};' for name, width in wires + outs]
        # combinational values see registers and what is combinational before them
        seen = registers + [('at', 3), ('bus', 4)]
        lines += [f"  assign bus = r0[0] ? r0[{registers[0][1] - 1}:0] : 'z;", "  assign bus = r0[0] ? 'z : r1;"]
        for name, width in wires:
            lines.append(f'  assign {name} = {self.expression(seen)};')
            seen = seen + [(name, width)]
        for i in range(leaves):
            lines.append(f'  leaf #({self.number(0, 255)}) u{i}(.clk(clk), .rst(rst), .a({self.expression(registers, 1)}), .b({self.operand(registers)}), .q(q{i}), .y(y{i}));')
        seen = seen + outs
        for name, width in combs:
            lines += ['  always_comb begin', f'    {name} = {self.expression(seen)};', f'    {self.statement([(name, width)], seen, "=", 1)}', '  end']
            seen = seen + [(name, width)]
        seen = seen + [('memory[at]', 8)]
        for name, width in registers:
            lines += ['  always_ff @(posedge clk)', f'    if (rst) {name} <= {self.number(0, 2 ** width - 1)};',
                      f'    else begin {" ".join(self.statement([(name, width)], seen, "<=") for _ in range(self.number(1, 3)))} end']
        lines += [f'  always_ff @(posedge clk) if (rst) at <= 0; else begin at <= at + 1; memory[at] <= {self.expression(registers)}; end']
        told = registers + combs + wires + outs + [('bus', 4), ('memory[at]', 8)]
        fields = ' '.join(self.pick(['%h', '%b', '%0d']) for _ in told)
        lines += ['  always #5 clk = ~clk;', '  initial #12 rst = 0;', f'  always @(negedge clk) $display("%0t {fields}", $time, {", ".join(name for name, _ in told)});',
                  f'  initial #{10 * self.number(10, 30) + 2} $finish;', 'endmodule', '']
        return '\n'.join(lines)


def main(count=100, seed=1):
    return compared(lambda number: Design(number).text(), 'bench', count, seed)


if __name__ == '__main__':
    sys.exit(main(*map(int, sys.argv[1:])))
