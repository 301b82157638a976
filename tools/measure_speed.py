#!/usr/bin/env python3
"""Measures how fast real modules run, beside Icarus Verilog's vvp and the programs that Verilator makes, where these are installed.

    tools/measure_speed.py [RUNS [NAME..]]

- counter: a counter of 32 bits;
- shifter: a shift register of 1,000 flops, each an instance;
- enables: 500 flops behind enables of which one is open at a time;
- adder: a ripple adder of 64 stages, each an instance, with new words each tick;
- memory: a write to a memory of 1,024 words each tick;
- delays: 200 processes with delays of their own;
- records: a record each tick;
- cells: 10,000 instances of a flop behind gates;
- calls: so many calls of an automatic function of one statement;
- recursions: so many calls of a function that calls itself to a depth of 1,000;
- forks: so many forks of three children, joined;
- endings: so many forks of three children with delays, of which the first ends the others.

Prints the processor seconds of the best of RUNS calls (5 where no number is given), and the greatest memory of these calls, of all designs or of those that
are named. Each size is twice the one before. What Verilator takes to make a program is not counted. It is no part of the gate.
"""
import sys
import tempfile
from pathlib import Path

from measuring import PROGRAM, Best, build, verilated, vvp

STEPS = 2 ** 40
CLOCK = '  logic clk = 0;\n  always #1 clk = ~clk;\n'


def bench(text, ticks):
    """A root with a clock, which ends after so many ticks."""
    return f'module bench;\n{CLOCK}{text}\n  initial #{ticks} $finish;\nendmodule\n'


def counter(ticks):
    return bench('  logic [31:0] n = 0;\n  always_ff @(posedge clk) n <= n + 1;', ticks)


def shifter(ticks):
    flop = 'module flop(input logic clk, d, output logic q);\n  always_ff @(posedge clk) q <= d;\nendmodule\n'
    wires = '\n'.join(f'  wire q{i};\n  flop f{i}(.clk(clk), .d({f"q{i - 1}" if i else "clk"}), .q(q{i}));' for i in range(1000))
    return flop + bench(wires, ticks)


def enables(ticks):
    flops = '\n'.join(f'  logic q{i} = 0;\n  always_ff @(posedge clk) if (open == {i}) q{i} <= ~q{i};' for i in range(500))
    return bench('  int open = 0;\n  always_ff @(negedge clk) open <= (open + 1) % 500;\n' + flops, ticks)


def adder(ticks):
    full = 'module full(input logic a, b, c, output logic s, co);\n  assign s = a ^ b ^ c;\n  assign co = (a & b) | (c & (a ^ b));\nendmodule\n'
    stages = '\n'.join(f'  wire s{i}, c{i};\n  full f{i}(.a(a[{i}]), .b(b[{i}]), .c({f"c{i - 1}" if i else "zero"}), .s(s{i}), .co(c{i}));' for i in range(64))
    words = '  logic zero = 0;\n  logic [63:0] a = 1, b = 3;\n  always @(posedge clk) begin a = a * 5 + 1; b = b * 13 + 7; end\n'
    return full + bench(words + stages, ticks)


def memory(ticks):
    return bench('  logic [31:0] words[1024];\n  int n = 0;\n  always @(posedge clk) begin words[n % 1024] = n; n = n + 1; end', ticks)


def delays(ticks):
    processes = '\n'.join(f'  int v{i} = 0;\n  always #{1 + i * 999 // 199} v{i} = v{i} + 1;' for i in range(200))
    return f'module bench;\n{processes}\n  initial #{ticks} $finish;\nendmodule\n'


def records(ticks):
    return bench('  int n = 0;\n  always @(posedge clk) begin n = n + 1; $display("%0d", n); end', ticks)


def cells(ticks):
    cell = ('module bit_cell(input logic clk, a, b, output logic q);\n  logic state = 0;\n  wire sum = (a & ~b) | (b & ~a);\n'
            '  always_ff @(posedge clk) state <= sum;\n  assign q = state;\nendmodule\n')
    wires = '\n'.join(f'  wire q{i};' for i in range(10000))
    instances = '\n'.join(f'  bit_cell c{i}(.clk(clk), .a(q{(i + 9999) % 10000}), .b({f"q{i // 2}" if i else "one"}), .q(q{i}));' for i in range(10000))
    return cell + bench(f'  logic one = 1;\n{wires}\n{instances}', ticks)


def program(text, items=''):
    """A root whose one procedure runs this once."""
    return f'module bench;\n{items}  int n = 0, a, b, c;\n  initial begin\n    {text}\n    $display("%0d", n);\n  end\nendmodule\n'


def calls(count):
    return program(f'repeat ({count}) n = next(n);', '  function automatic int next(int m);\n    next = m + 1;\n  endfunction\n')


def recursions(count):
    down = '  function automatic int down(int m);\n    if (m > 1) down = down(m - 1);\n    else down = 1;\n  endfunction\n'
    return program(f'repeat ({count}) n = n + down(1000);', down)


def forks(count):
    return program(f'repeat ({count}) fork a = 1; b = 1; c = 1; join')


def endings(count):
    return program(f'repeat ({count}) begin fork #1 a = 1; #2 b = 1; #3 c = 1; join_any disable fork; end')


MEASURED = [(counter, 1_000_000), (shifter, 1_000), (enables, 5_000), (adder, 10_000), (memory, 1_000_000), (delays, 100_000), (records, 1_000_000), (cells, 1_000),
            (calls, 500_000), (recursions, 500), (forks, 40_000), (endings, 40_000)]


def main():
    runs = int(sys.argv[1]) if sys.argv[1:] else 5
    build()
    with tempfile.TemporaryDirectory() as name:
        source, log = Path(name, 'design.sv'), Path(name, 'log')
        for design, size in MEASURED:
            if sys.argv[2:] and design.__name__ not in sys.argv[2:]:
                continue
            for ticks in (size, 2 * size):
                source.write_text(design(ticks))
                print(f'{design.__name__} {ticks:,}: svsim {Best([PROGRAM, "run", source, "--steps", str(STEPS)], runs, log)}', end='')
                theirs, made = vvp(source, runs, log), verilated(source, runs, log)
                print(f', vvp {theirs}' if theirs else '', f'; verilator {made}' if made else '', sep='', flush=True)


if __name__ == '__main__':
    main()
