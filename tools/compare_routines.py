#!/usr/bin/env python3
"""Compares what svsim prints of random tasks, functions and forks with what Icarus Verilog (iverilog, vvp) prints of them.

    tools/compare_routines.py [COUNT [SEED]]

COUNT designs (100 where no number is given) that both take: automatic and static functions and tasks with inputs, outputs and inouts, functions that
call themselves, loops, and forks with `join`, `join_any` and `join_none` whose children wait for delays, for `wait fork` or are ended by
`disable fork`. No two processes act at one time, so that a design has one log whatever the order. It needs iverilog, and is no part of the gate.
Status 0 where all agree, 1 where some do not.
"""
import random
import sys

from comparing import compared

TYPES = ['int', 'byte', 'shortint', 'integer', 'logic [7:0]', 'logic signed [10:0]', 'bit [4:0]', 'reg [15:0]']
BINARY = ['+', '-', '*', '&', '|', '^', '<<', '>>', '>>>', '<', '>=', '==', '!=']
ASSIGNMENTS = ['+=', '-=', '^=', '|=', '&=']


class Design:
    """A random module."""

    def __init__(self, seed):
        self.random = random.Random(seed)
        self.globals, self.functions, self.tasks, self.forks = [], [], [], 0

    def number(self, least, most):
        return self.random.randint(least, most)

    def pick(self, among):
        return self.random.choice(among)

    def expression(self, names, depth, calls=True):
        form = self.random.random()
        if depth == 0 or form < 0.3:
            return self.pick([str(self.number(0, 50)), f"8'h{self.number(0, 255):x}", self.pick(names), self.pick(names)])
        if form < 0.4 and self.functions and calls:
            name, inputs, is_static = self.pick(self.functions)
            # (what a call in the arguments of a call of the same static function leaves in these is no question of order alone)
            return f'{name}({", ".join(self.pick(names) if is_static else self.expression(names, depth - 1) for _ in range(inputs))})'
        if form < 0.5:
            first, second = self.expression(names, depth - 1, calls), self.expression(names, depth - 1, calls)
            # (the profile has no call in a part that is evaluated at times only)
            return f'({first} > {second} ? {self.expression(names, depth - 1, False)} : {self.pick(names)})'
        return f'({self.expression(names, depth - 1, calls)} {self.pick(BINARY)} {self.expression(names, depth - 1, calls)})'

    def statement(self, names, targets, depth):
        form = self.random.random()
        if depth == 0 or form < 0.45:
            return f'{self.pick(targets)} {self.pick(["=", "="] + ASSIGNMENTS)} {self.expression(names, 2)};'
        if form < 0.6:
            return f'if ({self.expression(names, 2)}) {self.statement(names, targets, depth - 1)} else {self.statement(names, targets, depth - 1)}'
        if form < 0.7:
            return f'repeat ({self.number(1, 4)}) {self.statement(names, targets, depth - 1)}'
        if form < 0.8:
            body = [self.statement(names, targets, depth - 1) for _ in range(self.number(1, 3))]
            return f'begin {" ".join(body)} end'
        if form < 0.9:
            cases = ' '.join(f'{value}: {self.statement(names, targets, depth - 1)}' for value in sorted(self.random.sample(range(6), 2)))
            return f'case (({self.expression(names, 1)}) % 6) {cases} default: {self.statement(names, targets, depth - 1)} endcase'
        return f'{self.pick(targets)} = {self.expression(names, 3)};'

    def statements(self, names, targets, least, most):
        return '\n    '.join(self.statement(names, targets, 2) for _ in range(self.number(least, most)))

    def function(self, number):
        """A function that is given numbers, and perhaps calls itself with one less."""
        life, result = self.pick(['automatic', 'automatic', '']), self.pick(TYPES)
        name, inputs = f'f{number}', self.number(1, 3)
        formals = ', '.join(f'input {self.pick(TYPES)} a{at}' for at in range(inputs))
        own = [f'a{at}' for at in range(inputs)]
        first = self.expression(own, 1)
        body = self.statements(own + self.globals, [*own[1:], name], 1, 3)
        if life and self.random.random() < 0.4:
            rest = ', '.join(['a0 - 1', *own[1:]])
            body += f'\n    if (a0 > 0 && a0 < {self.number(3, 9)}) {name} = {name} + {name}({rest});'
        self.functions.append((name, inputs, not life))
        return f'  function {life} {result} {name}({formals});\n    {name} = {first};\n    {body}\n  endfunction\n'

    def task(self, number):
        """A task with arguments of all directions, that perhaps waits."""
        life, name = self.pick(['automatic', 'automatic', '']), f't{number}'
        own = [f'in{number}', f'out{number}', f'both{number}']
        formals = [f'{direction} {self.pick(TYPES)} {name}' for direction, name in zip(['input', 'output', 'inout'], own)]
        body = self.statements([own[0], own[2], *self.globals], own[1:], 1, 3)
        delay = self.number(0, 3)
        self.tasks.append(name)
        wait = f'#{delay} ' if delay else ''
        return f'  task {life} {name}({", ".join(formals)});\n    {own[1]} = {self.number(0, 9)};\n    {wait}{body}\n  endtask\n'

    def call(self, targets):
        name = self.pick(self.tasks)
        first, second = self.random.sample(targets, 2)
        return f'{name}({self.expression(self.globals, 2)}, {first}, {second}); $display("%0d %0d at %0t", {first}, {second}, $time);'

    def children(self):
        """Children that act at times of their own."""
        self.forks += 1
        times = self.random.sample(range(1, 40), self.number(2, 4))
        ends = self.random.sample(range(50, 150), len(times))
        made = []
        for at, (time, end) in enumerate(zip(times, ends)):
            work = f'{self.pick(self.globals)} = {self.expression(self.globals, 2)};'
            more = f' #{end - time} $display("later {self.forks}.{at} at %0t", $time);' if self.random.random() < 0.4 else ''
            made.append(f'begin #{time} {work} $display("child {self.forks}.{at}: %0d at %0t", {self.pick(self.globals)}, $time);{more} end')
        return made

    def fork(self):
        join = self.pick(['join', 'join_any', 'join_none'])
        behind = {'join': '', 'join_any': self.pick(['disable fork;', 'wait fork;']), 'join_none': self.pick(['wait fork;', '#45 disable fork;'])}[join]
        text = '\n      '.join(self.children())
        return f'fork\n      {text}\n    {join}\n    {behind} $display("behind {self.forks} at %0t", $time);'

    def text(self):
        variables = [(f'g{number}', self.pick(TYPES)) for number in range(self.number(3, 5))]
        declared = ''.join(f'  {kind} {name} = {self.number(0, 20)};\n' for name, kind in variables)
        self.globals = [name for name, _ in variables]
        routines = ''.join(self.function(number) for number in range(self.number(1, 3)))
        routines += ''.join(self.task(number) for number in range(self.number(1, 3)))
        acts = []
        for _ in range(self.number(3, 7)):
            form = self.random.random()
            if form < 0.4:
                acts.append(self.call(self.globals))
            elif form < 0.7:
                acts.append(self.fork())
            else:
                acts.append(self.statement(self.globals, self.globals, 2))
        shown = ' '.join(f'$display("{name} is %0d", {name});' for name in self.globals)
        body = '\n    '.join(acts)
        return f'module t;\n{declared}{routines}  initial begin\n    #1000\n    {body}\n    {shown}\n  end\nendmodule\n'


def main():
    count = int(sys.argv[1]) if len(sys.argv) > 1 else 100
    seed = int(sys.argv[2]) if len(sys.argv) > 2 else 0
    return compared(lambda number: Design(number).text(), 't', count, seed)


if __name__ == '__main__':
    sys.exit(main())
