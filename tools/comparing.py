"""What the comparisons of designs share: random designs on svsim and on Icarus Verilog (iverilog, vvp)."""
import subprocess
import tempfile
from pathlib import Path

from measuring import PROGRAM, build


def printed(words, folder):
    """The status of a call, and the lines that it prints, blanks apart."""
    ran = subprocess.run(words, cwd=folder, capture_output=True, text=True, timeout=60)
    return ran.returncode, [' '.join(line.split()) for line in ran.stdout.splitlines() if '$finish called' not in line]


def compared(text_of, root, count, seed):
    """Prints how many logs of so many designs were the same, and each other design with the first lines that differ; 1 where there is one, else 0."""
    same = other = refused = 0
    build()
    with tempfile.TemporaryDirectory() as folder:
        file = Path(folder) / 'design.sv'
        while same + other < count:
            seed += 1
            file.write_text(text_of(seed))
            status, ours = printed([PROGRAM, 'run', file], folder)
            if status or subprocess.run(['iverilog', '-g2012', '-o', 'design.vvp', '-s', root, file], cwd=folder, capture_output=True).returncode:
                refused += 1
                continue
            ours, theirs = ours[:-1], printed(['vvp', '-n', 'design.vvp'], folder)[1]
            if ours == theirs:
                same += 1
                continue
            other += 1
            line = next((pair for pair in zip(ours, theirs) if pair[0] != pair[1]), (len(ours), len(theirs)))
            print(f'{file.read_text()}svsim:  {line[0]}\nicarus: {line[1]}\n')
    print(f'{same} logs were the same, {other} were not; {refused} were refused by one of both')
    return 1 if other else 0
