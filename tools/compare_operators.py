#!/usr/bin/env python3
"""Compares the operators of sv_arith with those of Icarus Verilog (iverilog, vvp) on random operands.

    tools/compare_operators.py [COUNT [SEED]]

COUNT cases (3000 where no number is given) of all operators and widths of 1 to 64, with x and z among the symbols. Both sides print the
symbols of each result; the script prints how many agreed, and each case that did not. It needs the Rattle kit and iverilog, and is no
part of the gate. Status 0 where all agree, 1 where some do not.
"""
import random
import shutil
import subprocess
import sys
import tempfile
from pathlib import Path

TOP = Path(__file__).resolve().parent.parent

UNARY = {'Plus': '+', 'Minus': '-', 'Not': '!', 'Invert': '~', 'ReduceAnd': '&', 'ReduceNand': '~&', 'ReduceOr': '|',
         'ReduceNor': '~|', 'ReduceXor': '^', 'ReduceXnor': '~^'}
# operands of equal widths
SAME = {'Add': '+', 'Sub': '-', 'Mul': '*', 'Div': '/', 'Rem': '%', 'And': '&', 'Or': '|', 'Xor': '^', 'Xnor': '~^', 'Less': '<',
        'LessEqual': '<=', 'Greater': '>', 'GreaterEqual': '>=', 'Equal': '==', 'NotEqual': '!=', 'CaseEqual': '===',
        'CaseNotEqual': '!=='}
# operands of any widths
ANY = {'Power': '**', 'ShiftLeft': '<<', 'ShiftRight': '>>', 'ShiftRightSigned': '>>>', 'LogicalAnd': '&&', 'LogicalOr': '||'}
OTHER = ['merge', 'join', 'resolve']

# reads a line for each case: an operator, and of each operand its sign and its symbols; prints the symbols of the result
PROGRAM = r'''
#![tactic(auto)]
use std::io;
use sv_arith::{binary, join_bits, merge, resolve_bits, unary};
use sv_value::{BinOp, Bits, Sym, UnOp};

fn bits_of(sign: &str, symbols: &str) -> Bits {
    let mut value: u64 = 0;
    let mut unknown: u64 = 0;
    for c in symbols.bytes() {
        value = value << 1 | (c == b'1' || c == b'z') as u64;
        unknown = unknown << 1 | (c == b'x' || c == b'z') as u64;
    }
    Bits::new(symbols.len() as u32, sign == "s", value, unknown)
}

fn result_of(op: &str, a: Bits, b: Bits) -> Bits {
    match op {
UNARY_ARMS
BINARY_ARMS
        "merge" => merge(a, b),
        "join" => join_bits(a, b),
        _ => resolve_bits(a, b),
    }
}

fn main(rt: HostRuntime) -> io::Result<()> {
    for line in rt.lines(rt.alloc()) {
        let line = line?;
        let mut words = line.as_str().split(' ');
        let (Some(op), Some(a_sign), Some(a), Some(b_sign), Some(b)) =
            (words.next(), words.next(), words.next(), words.next(), words.next())
        else {
            return Ok(());
        };
        let result = result_of(op, bits_of(a_sign, a), bits_of(b_sign, b));
        let mut i = result.width();
        while i > 0 {
            i -= 1;
            let symbol = match result.bit(i) {
                Sym::Zero => "0",
                Sym::One => "1",
                Sym::X => "x",
                Sym::Z => "z",
            };
            print!(rt; "{symbol}")?;
        }
        println!(rt; "")?;
    }
    Ok(())
}
'''


def random_symbols(rng, width):
    """Symbols from the highest down; most operands are known, some have all kinds of symbols."""
    kind = rng.randrange(6)
    if kind == 0:
        return ''.join(rng.choice('01xz') for _ in range(width))
    if kind == 1:
        return rng.choice('01') * width
    if kind == 2:
        low = min(width, 6)
        return '0' * (width - low) + ''.join(rng.choice('01') for _ in range(low))
    return ''.join(rng.choice('01') for _ in range(width))


def random_width(rng):
    return rng.choice([1, 2, 3, 4, 7, 8, 16, 31, 32, 33, 63, 64, rng.randint(1, 64)])


def random_case(rng):
    op = rng.choice(list(UNARY) + list(SAME) + list(ANY) + OTHER)
    width = random_width(rng)
    if op == 'join':
        width = rng.randint(1, 63)
        other = rng.randint(1, 64 - width)
    else:
        other = random_width(rng) if op in ANY else width
    signed = rng.choice('su')
    same_sign = op in SAME or op in ('merge', 'resolve', 'Power')
    a = random_symbols(rng, width)
    b = a if rng.randrange(8) == 0 and other == width else random_symbols(rng, other)
    if op == 'Power':
        # a negative exponent is refused where the profile takes the operator
        b = '0' + b[1:]
    return op, signed, a, signed if same_sign else rng.choice('su'), b


def literal(sign, symbols):
    return "%d'%sb%s" % (len(symbols), 's' if sign == 's' else '', symbols)


def verilog_of(number, case):
    """The declarations and the statement of a case."""
    op, a_sign, a, b_sign, b = case
    declare = ['  reg %s [%d:0] a%d; reg %s [%d:0] b%d;' % ('signed' if s == 's' else '', len(v) - 1, number, 'signed' if t == 's' else '',
                                                        len(w) - 1, number) for s, v, t, w in [(a_sign, a, b_sign, b)]]
    x, y = 'a%d' % number, 'b%d' % number
    if op == 'resolve':
        declare.append('  wire [%d:0] w%d; assign w%d = %s; assign w%d = %s;' % (len(a) - 1, number, number, x, number, y))
        value = 'w%d' % number
    elif op == 'merge':
        value = "(1'bx ? %s : %s)" % (x, y)
    elif op == 'join':
        value = '{%s, %s}' % (x, y)
    elif op in UNARY:
        value = '(%s%s)' % (UNARY[op], x)
    else:
        value = '(%s %s %s)' % (x, {**SAME, **ANY}[op], y)
    return declare, '    %s = %s; %s = %s; #1 $display("%%b", %s);' % (x, literal(a_sign, a), y, literal(b_sign, b), value)


def peer(cases, folder):
    """What Icarus Verilog prints for the cases."""
    lines = [verilog_of(n, c) for n, c in enumerate(cases)]
    text = '\n'.join(['module t;'] + [d for ds, _ in lines for d in ds] + ['  initial begin'] + [s for _, s in lines] + ['  end', 'endmodule', ''])
    (folder / 'cases.sv').write_text(text)
    subprocess.run(['iverilog', '-g2012', '-o', 'cases', 'cases.sv'], cwd=folder, check=True)
    return subprocess.run(['vvp', '-n', 'cases'], cwd=folder, check=True, capture_output=True, text=True).stdout.split()


def arms(function, ops, second):
    return '\n'.join('        "%s" => %s(%s::%s, a%s),' % (op, function, 'BinOp' if second else 'UnOp', op, ', b' if second else '') for op in ops)


def ours(cases, folder):
    """What sv_arith gives for the cases: a little program over it, run without a proof of its own."""
    crates = folder / 'crates'
    for name in ['sv_value', 'sv_arith']:
        shutil.copytree(TOP / 'crates' / name, crates / name, ignore=shutil.ignore_patterns('out', 'must-fail'))
    source = PROGRAM.replace('UNARY_ARMS', arms('unary', UNARY, False)).replace('BINARY_ARMS', arms('binary', list(SAME) + list(ANY), True))
    (crates / 'table' / 'src').mkdir(parents=True)
    (crates / 'table' / 'src' / 'main.rt').write_text(source)
    (folder / 'crates.txt').write_text('sv_value: thiserror\nsv_arith: sv_value\ntable: sv_value sv_arith\n')
    inputs = folder / 'inputs'
    inputs.mkdir()
    (inputs / 'cases').write_text(''.join(' '.join(c) + '\n' for c in cases))
    done = subprocess.run(['rt', 'try', '--cases', str(inputs)], cwd=crates / 'table', capture_output=True, text=True)
    results = [l for l in done.stdout.split('\n') if l and set(l) <= set('01xz')]
    if len(results) != len(cases):
        sys.exit('the program printed %d results for %d cases:\n%s%s' % (len(results), len(cases), done.stdout[-2000:], done.stderr[-2000:]))
    return results


def main():
    count = int(sys.argv[1]) if len(sys.argv) > 1 else 3000
    rng = random.Random(int(sys.argv[2]) if len(sys.argv) > 2 else 1)
    cases = [random_case(rng) for _ in range(count)]
    with tempfile.TemporaryDirectory() as name:
        folder = Path(name)
        (folder / 'peer').mkdir()
        (folder / 'ours').mkdir()
        pairs = list(zip(cases, ours(cases, folder / 'ours'), peer(cases, folder / 'peer')))
    differ = [(c, a, b) for c, a, b in pairs if a != b]
    for (op, a_sign, a, b_sign, b), own, other in differ:
        print('%s %s %s: sv_arith %s, iverilog %s' % (op, literal(a_sign, a), literal(b_sign, b), own, other))
    print('%d of %d agree' % (len(pairs) - len(differ), len(pairs)))
    return 1 if differ or len(pairs) != count else 0


if __name__ == '__main__':
    sys.exit(main())
