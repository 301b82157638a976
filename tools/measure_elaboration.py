#!/usr/bin/env python3
"""Measures how fast files are elaborated: from the text to the last line of a run of a few steps.

    tools/measure_elaboration.py [RUNS [NAME..]]

- variables: variables of one module, each of which is assigned once;
- instances: instances of one module in another;
- modules: modules, each of which is a root;
- names: names of one scope, each of which is read once;
- constants, typedefs: a chain of them, of which each needs the next;
- items: items of one enumeration;
- classes: a line of classes, of which each extends the one before;
- statements: statements of one block;
- empty: `;` as items of one module;
- real: modules of ordinary items, each of which is a root, of so many bytes;
- told: the same, each with a comment before it that tells what it is for: three bytes of ten are comments. (8 MiB without them have more tokens than a
  file may have.)

Of the last two beside it the same file with a `)` behind it, which is read and refused there: what the whole call takes more is elaboration, with the
start and the end of the run.

Prints the processor seconds of the best of RUNS calls (3 where no number is given), and the greatest memory of these calls, for sizes of which each is
twice the one before. It is no part of the gate.
"""
import sys
import tempfile
from pathlib import Path

from measuring import PROGRAM, Best, build


def module(items):
    return 'module top;\n' + '\n'.join(items) + '\nendmodule\n'


def variables(count):
    return module([f'  int v{i};\n  initial v{i} = {i};' for i in range(count)])


def instances(count):
    return 'module one; endmodule\n' + module([f'  one i{i}();' for i in range(count)])


def modules(count):
    return ''.join(f'module m{i};\n  int v;\nendmodule\n' for i in range(count))


def names(count):
    return module([*[f'  logic n{i};' for i in range(count)], '  initial begin', *[f'    if (n{i}) ;' for i in range(count)], '  end'])


def constants(count):
    return module([*[f'  localparam P{i} = P{i + 1} + 1;' for i in range(count)], f'  localparam P{count} = 0;'])


def typedefs(count):
    return module([*[f'  typedef t{i + 1} t{i};' for i in range(count)], f'  typedef int t{count};', '  t0 v;'])


def items(count):
    return module(['  enum { ' + ', '.join(f'item{i}' for i in range(count)) + ' } v;'])


def classes(count):
    return 'class c0; endclass\n' + ''.join(f'class c{i + 1} extends c{i}; endclass\n' for i in range(count)) + module([])


def statements(count):
    return module(['  int v;', '  initial begin', *[f'    v = {i};' for i in range(count)], '  end'])


def empty(count):
    return 'module top;' + ';' * count + 'endmodule\n'


def filled(size, text):
    units, written = [], 0
    while True:
        unit = text.replace('NUMBER', str(len(units)))
        written += len(unit)
        if written > size and units:
            return ''.join(units)
        units.append(unit)


def real(size):
    return filled(size, ORDINARY)


def told(size):
    return filled(size, COMMENT + ORDINARY)


COMMENT = '''// -----------------------------------------------------------------------------
// unitNUMBER: adds two numbers at each change, and keeps what they come to.
//
// A sum that is zero starts a transfer of two steps: the sum is loaded, with the
// carry behind it, and then shifted. The state goes back to IDLE from any other
// value, so that an x at the start does not stay. The counter counts the edges
// of the clock; the first print shows what was kept.
// -----------------------------------------------------------------------------

'''

ORDINARY = '''// An adder behind a register.
module unitNUMBER;
  localparam int WIDTH = 8;
  typedef enum logic [1:0] { IDLE, LOAD, SHIFT } state_t;
  logic clk = 0;
  logic [WIDTH-1:0] a, b, sum, kept;
  logic [31:0] count;
  state_t state;
  wire carry, is_zero;

  assign carry = (a[7] & b[7]) | (sum < a);
  assign is_zero = sum == 8'h00;

  always_comb begin
    sum = a + b;
    if (a > b) sum = a - b;
    else if (a == 8'h10) sum = b ^ 8'hff;
  end

  always_ff @(posedge clk) begin
    count <= count + 1;
    case (state)
      IDLE: if (is_zero) state <= LOAD;
      LOAD: begin
        kept <= {sum[6:0], carry};
        state <= SHIFT;
      end
      default: state <= IDLE;
    endcase
  end

  initial begin
    a = 8'd1;
    b = 8'd2;
    if (kept !== sum && count[3:0] == 4'hf) $display("unit %0d: %b", count, kept);
  end
endmodule

'''


MEASURED = [(variables, 2_000, 4), (instances, 2_047, 4), (modules, 2_000, 4), (names, 2_000, 4), (constants, 250, 4), (typedefs, 250, 4), (items, 1_000, 4),
            (classes, 100, 4), (statements, 5_000, 4), (empty, 250_000, 4), (real, 2 ** 20, 3), (told, 2 ** 20, 4)]


def main():
    runs = int(sys.argv[1]) if sys.argv[1:] else 3
    build()
    with tempfile.TemporaryDirectory() as name:
        source, log = Path(name, 'design.sv'), Path(name, 'log')
        for design, size, times in MEASURED:
            if sys.argv[2:] and design.__name__ not in sys.argv[2:]:
                continue
            for count in (size << it for it in range(times)):
                source.write_text(design(count))
                best = Best([PROGRAM, 'run', source, '--steps', '10'], runs, log)
                print(f'{design.__name__} {count:,}, {source.stat().st_size:,} bytes: {best}; {best.last.replace(str(source), "FILE")}', flush=True)
                if design in (real, told):
                    source.write_text(design(count - 2) + ')\n')
                    best = Best([PROGRAM, 'run', source], runs, log)
                    print(f'read and refused: {best}; {best.last.replace(str(source), "FILE")}', flush=True)


if __name__ == '__main__':
    main()
