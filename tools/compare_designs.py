#!/usr/bin/env python3
"""Compares what svsim prints of random designs with what Icarus Verilog (iverilog, vvp) prints of them.

    tools/compare_designs.py [COUNT [SEED]]

COUNT designs (100 where no number is given) that both take: a module with parameters, constants, an enumeration, variables of all integer
types and an `initial` procedure, and one to three instances of it with parameters of their own. The script prints how many logs were the
same, and of each other one its design and the first two lines that differ. It needs iverilog, and is no part of the gate. Status 0 where
all agree, 1 where some do not.
"""
import random
import sys

from comparing import compared

PARAMETERS = ['int', 'byte', 'shortint', 'longint', 'logic [7:0]', 'bit signed [11:0]', 'integer']
CONSTANTS = ['', 'int ', 'byte ', 'logic [9:0] ']
VARIABLES = ['int', 'byte', 'shortint', 'longint', 'integer', 'logic', 'bit', 'logic [7:0]', 'logic signed [12:0]', 'bit [30:0]',
             'bit signed [4:0]', 'reg [63:0]', 'byte unsigned', 'int unsigned']
BASES = ['', 'logic [3:0] ', 'byte ', 'bit [5:0] ']
UNARY = ['+', '~', '-', '!', '&', '|', '^', '~&', '~|', '~^']
BINARY = ['+', '-', '*', '&', '|', '^', '~^', '<<', '>>', '<<<', '>>>', '<', '<=', '>', '>=', '==', '!=', '===', '!==', '&&', '||', '/', '%']
ASSIGNMENTS = ['+=', '-=', '*=', '&=', '|=', '^=', '<<=', '>>=', '>>>=']
CASTS = ['int', 'byte', 'shortint', 'longint']


class Design:
    """A random design."""

    def __init__(self, seed):
        self.random = random.Random(seed)
        self.constants, self.variables, self.has_enum = [], [], False

    def literal(self):
        number, pick = self.random.randint, self.random.choice
        known = [str(number(0, 40)), f"{number(4, 12)}'d{number(0, 15)}", f"8'sh{number(0, 255):x}", f"4'b{number(0, 15):04b}", "'1", "'0"]
        unknown = [f"4'b{pick('01xz')}{pick('01xz')}{pick('01')}1"] if self.variables else []
        return pick(known + unknown)

    def expression(self, depth):
        pick = self.random.choice
        form = self.random.random()
        if depth == 0 or form < 0.25:
            return pick([self.literal(), pick(self.variables or ['7']), pick(self.constants or ['3'])])
        if form < 0.4:
            return f'({pick(UNARY)}({self.expression(depth - 1)}))'
        if form < 0.48:
            return f"{pick(CASTS)}'({self.expression(depth - 1)})"
        return f'({self.expression(depth - 1)} {pick(BINARY)} {self.expression(depth - 1)})'

    def statement(self):
        pick, form = self.random.choice, self.random.random()
        name = pick(self.variables)
        if form < 0.42:
            return f'{name} = {self.expression(3)};'
        if form < 0.55:
            return f'{name} {pick(ASSIGNMENTS)} {self.expression(1)};'
        if form < 0.62:
            return f'{name}{pick(["++", "--"])};'
        if form < 0.72:
            return f'if ({self.expression(2)}) {name} = {self.expression(1)}; else {pick(self.variables)} = {self.expression(1)};'
        if form < 0.78 and self.has_enum:
            return f'e = {pick("ABCD")};'
        if form < 0.84:
            return f'#{self.random.randint(1, 5)};'
        return f'$display("%b %h %0d %o", {self.expression(2)}, {name}, {self.expression(2)}, {pick(self.variables)});'

    def text(self):
        pick, number = self.random.choice, self.random.randint
        lines, self.has_enum = [], self.random.random() < 0.5
        parameters = [f'P{i}' for i in range(number(0, 3))]
        if self.has_enum:
            lines.append(f'typedef enum {pick(BASES)}{{A = {number(0, 3)}, B = 4, C, D = 7}} letter;')
        declared = ', '.join(f'parameter {pick(PARAMETERS)} {it} = {number(-50, 300)}' for it in parameters)
        lines.append(f'module m #({declared});' if declared else 'module m;')
        self.constants = parameters + (['A', 'B', 'C', 'D'] if self.has_enum else [])
        for i in range(number(0, 3)):
            lines.append(f'  localparam {pick(CONSTANTS)}K{i} = {self.expression(2)};')
            self.constants.append(f'K{i}')
        names = [f'v{i}' for i in range(number(2, 6))]
        lines += [f'  {pick(VARIABLES)} {it};' for it in names] + ['  letter e;'] * self.has_enum
        self.variables = names
        lines += ['  initial begin', *(f'    {self.statement()}' for _ in range(number(3, 12)))]
        lines += [f'    $display("%0d %b %h", {it}, {it}, {it});' for it in names + ['e'] * self.has_enum]
        lines += ['  end', 'endmodule', 'module top;']
        for i in range(number(1, 3)):
            given = ', '.join(f'.{it}({number(-20, 300)})' for it in parameters if self.random.random() < 0.5)
            lines.append(f'  m {f"#({given}) " if given else ""}u{i}();')
        return '\n'.join([*lines, 'endmodule', ''])


def main(count=100, seed=1):
    return compared(lambda number: Design(number).text(), 'top', count, seed)


if __name__ == '__main__':
    sys.exit(main(*map(int, sys.argv[1:])))
