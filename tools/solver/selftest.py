#!/usr/bin/env python3
"""The solver on the worked models, against the results stated for them. usage: selftest.py"""
import glob
import os
import subprocess
import sys
import tempfile

HERE = os.path.dirname(os.path.abspath(__file__))
sys.path.insert(0, HERE)
import solver

ROOT = os.path.dirname(os.path.dirname(HERE))

# model, command lines, what is printed
WORKED = [
    ("a", "Q 0 0|P", "L 1 1|Q 3145728 3145728 1|P 0"),
    ("b", "R 0 1 0|C|R 0 10 0", "L 2 1|R 1 0 10485760|C|R 2 5242880 5242880"),
    ("c", "R 0 1 0|R 1 1 0|S 10|Q 0 0", "L 3 2|R 1 8388608 8388608|R 1 -4194304 -4194304|S 4|Q -1048576 -1048576 1"),
    ("d", "R 0 1 0|R 1 1 0|S 2|Q 0 0|Q 0 1", "L 3 2|R 1 1048576 1048576|R 1 0 0|S 2|Q 349525 349526 0|Q 349525 349526 1"),
    ("d_minus", "R 0 1 0|R 1 1 0|S 2|Q 0 0", "L 3 2|R 1 -1048576 -1048576|R 1 0 0|S 2|Q -349526 -349525 0"),
    (
        "e",
        "R 0 1 0|R 1 1 0|S 1000|Q 0 0|P",
        "L 3 2|R 1 0 0|R 1 6291456 6291456|S 25|Q 6291455 6291456 0|P 0 1 0",
    ),
    # refusals: 22 before 24, each with the line's number; 0x23 spells no command
    ("c", "R 2 0 0|R 1 0 0|S 1001|Q 3 0||#|S 1", "L 3 2|E 22 1|E 24 2|E 24 3|E 23 4|E 35 5|E 35 6|S 1"),
]


def lines(text):
    return "".join(line + "\n" for line in text.split("|")).encode()


def main():
    count = 0
    for name, commands, printed in WORKED:
        with open(os.path.join(ROOT, "models", name + ".bin"), "rb") as file:
            data = file.read()
        got = solver.quote(data, lines(commands))
        assert got == lines(printed), (name, got)
        count += 1
    # state 0 of F is lone, in spite of a branch to itself
    with open(os.path.join(ROOT, "models", "f.bin"), "rb") as file:
        parts = solver.Parts(solver.read_model(file.read()).rows())
    assert parts.nodes == [[0], [1]] and parts.components == [1] and parts.inside == [[], [0]]
    count += 1
    # each model file is what model.py writes for its text, and the program prints what the function says
    with tempfile.TemporaryDirectory() as folder:
        for text in sorted(glob.glob(os.path.join(ROOT, "models", "*.txt"))):
            target = os.path.join(folder, "model.bin")
            subprocess.run([sys.executable, os.path.join(ROOT, "tools", "model.py"), "write", text, target], check=True)
            with open(target, "rb") as ours, open(text[:-4] + ".bin", "rb") as stored:
                data = ours.read()
                assert data == stored.read(), text
            commands = b"R 0 5 0\nS 3\nQ 0 7\nP\nC\nQ 0 0"
            got = subprocess.run([sys.executable, os.path.join(HERE, "solver.py")], input=commands, cwd=folder, stdout=subprocess.PIPE, check=True)
            assert got.stdout == solver.quote(data, commands), text
            count += 1
        os.remove(target)
        got = subprocess.run([sys.executable, os.path.join(HERE, "solver.py")], input=b"P\n", cwd=folder, stdout=subprocess.PIPE, check=True)
        assert got.stdout == b"E 31 0\n"
        count += 1
    print("selftest: %d passed" % count)


if __name__ == "__main__":
    main()
