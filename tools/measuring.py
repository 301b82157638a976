"""What the measures of runs share: the program that is measured, and the best of several calls."""
import os
import shutil
import subprocess
from pathlib import Path

TOP = Path(__file__).resolve().parent.parent
PROGRAM = TOP / '.svsim/svsim'


def build():
    """Has bin/svsim build or unpack the program, where it did not yet."""
    subprocess.run([TOP / 'bin/svsim', 'run', TOP / 'examples/hello.sv'], stdout=subprocess.DEVNULL)


class Best:
    """The least processor seconds of so many calls, the most kibibytes that one of them had, and the last line of what they print."""

    def __init__(self, words, runs, log):
        self.seconds, self.memory = float('inf'), 0
        for _ in range(runs):
            with open(log, 'wb') as out:
                _, _, used = os.wait4(subprocess.Popen(words, stdout=out).pid, 0)
            self.seconds = min(self.seconds, used.ru_utime + used.ru_stime)
            self.memory = max(self.memory, used.ru_maxrss)
        with open(log, 'rb') as printed:
            printed.seek(max(0, os.path.getsize(log) - 1000))
            self.last = (printed.read().decode().splitlines() or [''])[-1]

    def __str__(self):
        return f'{self.seconds:.2f} s, {self.memory / 1024:,.0f} MiB'


def vvp(source, runs, log):
    """The same of Icarus Verilog's vvp; none where it is not installed."""
    if not shutil.which('iverilog'):
        return None
    program = Path(log).with_suffix('.vvp')
    subprocess.run(['iverilog', '-g2012', '-o', program, source], check=True)
    return Best(['vvp', '-n', program], runs, log)


def verilated(source, runs, log):
    """The same of the program that Verilator makes of the file, without the time of making it; none where it is not installed or makes none."""
    if not shutil.which('verilator'):
        return None
    folder = Path(log).with_suffix('.obj')
    shutil.rmtree(folder, ignore_errors=True)
    words = ['verilator', '--binary', '--timing', '-Wno-fatal', '-Wno-lint', '-j', '0', '--top-module', 'bench', '--Mdir', folder, '-o', 'design', source]
    if subprocess.run(words, stdout=subprocess.DEVNULL, stderr=subprocess.DEVNULL).returncode:
        return None
    return Best([folder / 'design'], runs, log)
