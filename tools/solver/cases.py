#!/usr/bin/env python3
"""Cases with the answers that the solver expects, from a seed.

usage: cases.py [--seed S] [--write FOLDER] [--quote PATH]
       prints how many cases there are, their size and what they reach
       --write FOLDER writes them as FOLDER/data/cases.bin, and what the program scenarios must print as FOLDER/stdout
       --quote PATH   runs every quote case through this quote program and compares byte for byte

A quote case is a model file's bytes (None: there is no file) and an input; the answer is what the quote program prints. A replay case is the
table of an open and a list of calls; the answer is the list of their answers (solver.replay).
"""
import argparse
import os
import struct
import subprocess
import sys
import tempfile
from collections import Counter, namedtuple

sys.path.insert(0, os.path.dirname(os.path.abspath(__file__)))
import solver as plain_solver
from draw import DENOMINATORS, REWARDS, SHAPES, Draw, branches, rows_of, small
from solver import F, Table

QuoteCase = namedtuple("QuoteCase", "group model stdin stdout")
ReplayCase = namedtuple("ReplayCase", "group table calls answers")

# ------------------------------------------------------------------------------------ model files


def text_field(data):
    return bytes([len(data)]) + data


def choice(reward=None, out=None, label=None):
    """The bytes of a choice; what is None is missing from the file."""
    data = bytes([(reward is not None) + 2 * (out is not None) + 4 * (label is not None)])
    if reward is not None:
        data += struct.pack("<i", reward)
    if out is not None:
        data += bytes([len(out)]) + b"".join(struct.pack("<HI", u, w) for u, w in out)
    return data if label is None else data + text_field(label)


def file_of(W, states, name=None):
    """The bytes of a model file; `states` has for each state the bytes of its choices."""
    data = bytes([(W is not None) + 2 * (name is not None)])
    if W is not None:
        data += struct.pack("<I", W)
    if name is not None:
        data += text_field(name)
    return data + struct.pack("<H", len(states)) + b"".join(bytes([len(row)]) + b"".join(row) for row in states)


def file_with(W, rows):
    """The plain file of a table."""
    return file_of(W, [[choice(reward, out) for reward, out in row] for row in rows])


def varied(draw, W, rows):
    """A file of a table, with names and labels here and there, and with some missing fields that mean the same."""
    states = []
    for s, row in enumerate(rows):
        states.append([])
        for reward, out in row:
            label = draw.one([None, None, b"", b"hold", bytes(draw.between(0, 255) for _ in range(5))])
            reward = None if reward == 0 and draw.chance(1, 2) else reward
            out = None if out == [(s, W)] and draw.chance(2, 3) else out
            states[-1].append(choice(reward, out, label))
    return file_of(None if W == 1 and draw.chance(2, 3) else W, states, draw.one([None, b"", b"a day"]))


# ---------------------------------------------------------------------------------- tables broken


def broken(draw, W, rows, faults=1):
    """W and rows with so many limits broken at random places."""
    rows = [[(reward, list(out)) for reward, out in row] for row in rows]
    for _ in range(faults):
        s = draw.between(0, len(rows) - 1)
        number = draw.one([12, 13, 13, 14, 14, 15, 15, 16, 16, 17, 17, 18, 18, 19, 19])
        if number == 12:
            W = draw.one([0, 65537, 2**31, 2**32 - 1])
        elif number == 13:
            rows[s] = draw.one([[], rows[s][:1] * 17])
        elif rows[s]:
            c = draw.between(0, len(rows[s]) - 1)
            rows[s][c] = broken_choice(draw, number, W, len(rows), *rows[s][c])
    return W, rows


def broken_choice(draw, number, W, n, reward, out):
    b = draw.between(0, len(out) - 1) if out else 0
    if number == 14:
        return draw.one([1_000_001, -1_000_001, 2**31 - 1, -(2**31)]), out
    if number == 15 or not out:
        return reward, draw.one([[], [(u, 1) for u in range(9)]])
    if number == 16:
        return reward, out[:b] + [(draw.one([n, n + 1, 65535]), out[b][1])] + out[b + 1 :]
    if number == 17:
        return reward, out[:b] + [(out[b][0], 0)] + out[b + 1 :]
    if number == 18:
        return reward, out + [(out[b][0], 1)]
    return reward, out[:b] + [(out[b][0], draw.one([out[b][1] + 1, max(1, out[b][1] - 1), 2**32 - 1, 2**31]))] + out[b + 1 :]


def lists_of(draw, W, rows):
    """A list table with its runs in random order, with rows between them that no run has."""
    states, choices, ends = [None] * len(rows), [], []
    for s in draw.some(range(len(rows)), len(rows)):
        for _ in range(draw.one([0, 0, 1])):
            choices.append((2**31 - 1, 2**32 - 1, 2**32 - 1))
        inner = []
        for reward, out in rows[s]:
            for _ in range(draw.one([0, 0, 1])):
                ends.append((2**32 - 1, 2**32 - 1))
            inner.append((reward, len(ends), len(out)))
            ends += out
        states[s] = (len(choices), len(inner))
        choices += inner
    return Table(W, states, choices, ends)


# --------------------------------------------------------------------------------------- commands


def spelled(lines):
    return "".join(" ".join(map(str, line)) + "\n" for line in lines).encode()


def script(draw, n, parts, length, most=1000):
    """Command lines, most of them accepted."""
    lines = []
    for _ in range(length):
        kind = draw.between(0, 19)
        if kind < 7:
            k = draw.between(0, max(0, parts - 1)) if draw.chance(12, 13) else draw.one([parts, 256, 2**32, 10**18 - 1])
            steps = draw.one([1, 1, 2, 3, 7, 20, most]) if draw.chance(12, 13) else draw.one([0, 1001, 2**32 + 1])
            lines.append(("R", k, steps, draw.one([0, 0, 0, 1, 3, F, 2**32, 10**18 - 1])))
        elif kind < 12:
            lines.append(("S", draw.one([1, 1, 2, 5, 30, most]) if draw.chance(12, 13) else draw.one([0, 1001, 2**32 + 1])))
        elif kind < 17:
            s = draw.between(0, n - 1) if draw.chance(12, 13) else draw.one([n, 256, 2**32, 10**18 - 1])
            lines.append(("Q", s, draw.one([0, 0, 1, 2, F, 2**32, 10**18 - 1])))
        elif kind < 19:
            lines.append(("P",))
        else:
            lines.append(("C",))
    return lines


def whole(n, parts, steps, sweeps):
    """Refines of all components, sweeps, quotes of all states, the plan."""
    return [("R", k, steps, 0) for k in range(parts)] + [("S", sweeps)] + [("Q", s, 1) for s in range(n)] + [("P",)]


def parts_of(rows):
    return len(plain_solver.Parts(rows).components)


# -------------------------------------------------------------------------- models of special kinds


def cycle(length, rewards):
    return [[(rewards[s], [((s + 1) % length, 1)])] for s in range(length)]


def looping_exit(W, leave):
    """Two states that can stay or leave, `leave` of W at a time, for a loop of 6."""
    return [[(0, [(1, W)])], [(0, [(0, W)]), (0, [(0, W - leave), (2, leave)])], [(6, [(2, W)])]]


def apart(W, high, low):
    """Two states that part slowly: the vector grows for long."""
    return [[(high, [(0, W - 1), (1, 1)])], [(low, [(1, W - 1), (0, 1)])]]


def ladder(n, top, rest):
    """State 0 earns `top`, the way to it from the last state takes n - 1 steps of `rest`. After j < n - 1 steps the
    vector's largest number is j x F x (top - rest) / 2."""
    return [[(top, [(0, 1)]), (rest, [(n - 1, 1)])]] + [[(rest, [(s - 1, 1)])] for s in range(1, n)]


def nearly_same(W):
    """Of the first two choices of state 0 the second is better, by less than the rounding shows."""
    rows = [[(5, [(0, W - 1), (1, 1)]), (5, [(0, W - 1), (2, 1)])], [(-7, [(0, W - 1), (3, 1)])], [(-7, [(0, W - 1), (4, 1)])]]
    return rows + [[(0, [(0, W)])], [(1, [(0, W)])]]


def two_of_a_kind():
    """Two loops of 3; the second can leave for the first."""
    return [[(3, [(0, 2)])], [(3, [(1, 2)]), (0, [(0, 2)]), (0, [(0, 1), (1, 1)])], [(-5, [(0, 1), (1, 1)])]]


def band(b, h, c):
    """A rehedging band; W is 4."""
    rows = []
    for i in range(2 * b + 1):
        near = Counter()
        for j, w in ((i - 1, 1), (i, 2), (i + 1, 1)):
            near[j if 0 <= j <= 2 * b else i] += w
        rows.append([(-h * abs(i - b), sorted(near.items())), (-c, [(b, 4)])])
    return rows


def corridor(n, W):
    """Each state can step down at its own cost or wait for a step up; the ends are loops."""
    rows = [[(1, [(0, W)])]]
    for s in range(1, n - 1):
        rows.append([(-s, [(s - 1, W - 1), (s + 1, 1)]), (s % 7, [(s + 1, W)])])
    return rows + [[(2, [(n - 1, W)])]]


# ------------------------------------------------------------------------------------ quote cases

WORKED = {
    "a": "Q 0 0|P|R 0 1 0|S 1000",
    "b": "R 0 1 0|Q 0 0|C|R 0 10 0|S 5|Q 1 0|P",
    "c": "R 0 1 0|R 1 1 0|S 10|Q 0 0|P",
    "d": "R 0 1 0|R 1 1 0|S 2|Q 0 0|Q 0 1|P",
    "d_minus": "R 0 1 0|R 1 1 0|S 2|Q 0 0|Q 0 1|P",
    "e": "R 0 1 0|R 1 1 0|S 1000|Q 0 0|Q 1 0|Q 2 0|P|C|Q 0 0|P",
    "f": "Q 0 0|R 0 1 0|S 9|P",
    "band": "R 0 1000 0|S 1000|Q 0 0|Q 2 0|P|R 0 1000 1|R 0 1000 100000|C|R 0 1000 100000",
}


def worked(draw):
    folder = os.path.join(os.path.dirname(os.path.abspath(__file__)), "..", "..", "models")
    for name in sorted(WORKED):
        with open(os.path.join(folder, name + ".bin"), "rb") as file:
            yield file.read(), WORKED[name].replace("|", "\n").encode() + b"\n"


def random_models(draw):
    for _ in range(70):
        W, rows = small(draw)
        yield varied(draw, W, rows), spelled(script(draw, len(rows), parts_of(rows), draw.between(6, 18)))
    for _ in range(15):
        W, n = draw.one(DENOMINATORS), draw.between(8, 40)
        rows = rows_of(draw, n, W, 4, 4, draw.one(SHAPES), draw.one(list(REWARDS)))
        lines = script(draw, n, parts_of(rows), 15, 100) + whole(n, parts_of(rows), 50, 100)
        yield varied(draw, W, rows), spelled(lines)


def special(draw):
    for length in (1, 2, 3, 4, 6):  # periodic components
        rows = cycle(length, [draw.between(-9, 9) for _ in range(length)])
        lines = [("R", 0, 1, 0), ("R", 0, 1, 0), ("R", 0, 60, 0), ("R", 0, 1000, 0), ("S", 3), ("Q", 0, 0), ("P",)]
        yield file_with(1, rows), spelled(lines)
    for W, leave in ((2, 1), (3, 1), (3, 2), (1000, 1), (65536, 1), (65536, 65535)):  # exits that loop
        lines = [("R", 0, 1, 0), ("R", 1, 1, 0), ("S", 1), ("P",), ("S", 20), ("Q", 0, 0), ("S", 1000), ("Q", 0, 1), ("Q", 1, 1), ("P",), ("S", 1000), ("S", 1000), ("Q", 0, 0)]
        yield file_with(W, looping_exit(W, leave)), spelled(lines)
    for W in (2, 3, 7, 65535):  # negative means, at both sides
        for gain in (-1, -3):
            rows = [[(0, [(1, 1), (2, W - 1)])], [(gain, [(1, W)])], [(0, [(2, W)])]]
            rows[0].append((-5, [(0, 1), (1, W - 1)]))
            yield file_with(W, rows), spelled(whole(3, 2, 1, 2) + [("S", 1000), ("Q", 0, 0), ("P",)])
    for W in (65536, 40000):  # two choices that are the same but for less than the rounding; staying and leaving for the same
        yield file_with(W, nearly_same(W)), spelled([("R", 0, 2, 0), ("P",), ("R", 0, 8, 0), ("P",), ("R", 0, 100, 0), ("P",), ("S", 2), ("Q", 0, 0)])
    yield file_with(2, two_of_a_kind()), spelled([("P",)] + whole(3, 2, 1, 5) + [("C",), ("R", 0, 1, 0), ("S", 1), ("P",), ("R", 1, 1, 0), ("S", 1), ("P",)])
    for n in (5, 40):
        yield file_with(3, corridor(n, 3)), spelled(whole(n, parts_of(corridor(n, 3)), 30, 40))
    for b, h, c in ((1, 5, 7), (3, 7000, 1_000_000), (3, 0, 0), (20, 5, 40)):
        lines = [("R", 0, 3, 0), ("P",), ("R", 0, 200, 1000), ("S", 2), ("Q", 0, 1000), ("P",)]
        yield file_with(4, band(b, h, c)), spelled(lines)


def held(draw):
    """Steps whose next vector would pass H, and just not."""
    lines = [("R", 0, 60, 0), ("R", 0, 1000, 0), ("R", 0, 1000, 0), ("R", 0, 1, 0), ("S", 2), ("Q", 0, 0), ("P",), ("C",), ("R", 0, 1000, 0)]
    for W, high, low in ((65536, 1_000_000, -1_000_000), (65536, 1_000_000, 0), (1000, 1_000_000, -1_000_000), (65535, 999_999, -7)):
        yield file_with(W, apart(W, high, low)), spelled(lines)
    for top, rest in ((524288, -524288), (524289, -524288), (524288, -524287), (0, -1_000_000), (1_000_000, -1_000_000)):
        # 128 steps reach H exactly with the first pair
        yield file_with(1, ladder(140, top, rest)), spelled([("R", 0, 1000, 0), ("R", 0, 1000, 0), ("S", 2), ("Q", 0, 0), ("P",)])
    rows = apart(65536, 1_000_000, -1_000_000) + [[(3, [(3, 65536)])], [(5, [(2, 65536)])], [(0, [(0, 1), (2, 65535)])]]
    yield file_with(65536, rows), spelled(whole(5, 2, 100, 5) + whole(5, 2, 100, 5) + [("C",)] + whole(5, 2, 30, 5))


def at_the_limits(draw):
    """As many states, choices and branches as the quote program has room for."""
    rows = [[(draw.between(-9, 9), [((s + 1) % 256, 1)])] for s in range(256)]
    yield file_with(1, rows), spelled([("R", 0, 40, 0), ("S", 2), ("Q", 255, 0), ("Q", 256, 0), ("P",)])
    lines = [("R", 255, 1, 0), ("R", 0, 1, 0), ("R", 256, 1, 0), ("S", 3), ("Q", 0, 0), ("Q", 255, 0), ("P",)]
    yield file_of(None, [[choice(s)] for s in range(256)]), spelled(lines)
    rows = [[(0, [(0, 2)])]] + [[(s, [(s - 1, 1), (s, 1)])] for s in range(1, 256)]  # all lone but one
    yield file_with(2, rows), spelled([("R", 0, 1, 0), ("S", 3), ("Q", 255, 0), ("S", 1000), ("Q", 255, 0), ("P",)])
    rows = rows_of(draw, 256, 65536, 4, 4, "any", "large")
    for s, row in enumerate(rows):  # 1,024 choices, 4,096 branches
        while len(row) < 4:
            row.append((draw.one([-1_000_000, 1_000_000]), None))
        rows[s] = [(reward, branches(draw, 65536, draw.some(range(256), 4))) for reward, _ in row]
    yield file_with(65536, rows), spelled([("R", 0, 25, 0), ("S", 3), ("Q", 9, 0), ("P",)])
    rows = [[(draw.between(-99, 99), branches(draw, 997, draw.some(range(max(0, s - 3), min(64, s + 3)), 4 if s else 3))) for _ in range(16)] for s in range(64)]
    yield file_with(997, rows), spelled([("R", 0, 25, 0), ("S", 3), ("Q", 9, 0), ("P",)])
    rows = [[(draw.between(-99, 99), branches(draw, 65536, draw.some(range(256), 8))) for _ in range(2)] for _ in range(256)]
    yield file_with(65536, rows), spelled([("R", 0, 10, 0), ("S", 3), ("Q", 9, 0), ("P",)])
    yield file_with(4, band(127, 7000, 1_000_000)), spelled([("R", 0, 40, 0), ("S", 2), ("Q", 0, 0), ("P",)])
    rows = [[(0, [((s + 1) % 254, 2)]), (s, [(s, 1), (254, 1)])] for s in range(254)] + [[(7, [(254, 2)])], [(8, [(255, 2)])]]
    rows[200].append((0, [(0, 1), (255, 1)]))  # a long way round to the exit
    yield file_with(2, rows), spelled([("R", 0, 5, 0), ("R", 1, 1, 0), ("R", 2, 1, 0), ("S", 60), ("Q", 0, 0), ("P",)])


def too_much(draw):
    """More than there is room for: refused after the whole file has been read."""
    one, wide = choice(1), choice(0, [(u, 1) for u in range(8)])
    plain = b"Q 0 0\nP\n"
    many = [[one]] * 257
    yield file_of(None, many), plain
    yield file_of(None, many) + b"\x00", plain  # 33 before 26
    yield file_of(None, many)[:-1], plain  # 31 before 26
    yield file_of(None, many[:-1] + [[b"\x08"]]), plain  # 32 before 26
    yield file_of(0, [[]] * 300), plain  # 26 before 11, 12 and 13
    yield file_of(None, [[one] * 4] * 256), plain  # 1,024 choices
    yield file_of(None, [[one] * 5] + [[one] * 4] * 255), plain  # 1,025
    yield file_of(8, [[wide] * 2] * 256), plain  # 4,096 branches
    yield file_of(8, [[wide] * 3] + [[wide] * 2] * 255), plain
    yield file_of(8, [[wide, wide, one]] + [[wide] * 2] * 255), plain  # the branch that is missing from the file counts too
    yield file_of(None, [[choice(0, [(0, 1)] * 255)] * 17]), plain
    label = choice(3, None, bytes(255))
    yield file_of(None, [[label]] * 250, bytes(32)), plain  # 65,536 bytes
    yield file_of(None, [[label]] * 250, bytes(33)), plain  # 65,537
    yield file_of(None, [[label]] * 250, bytes(31)) + b"\x00", plain  # 33, at the last byte that a file can have
    yield b"\xff" * 65537, plain  # 34 before 32


def faults(draw):
    """Models that break a limit: one, or several of which the first on the walk decides."""
    yield file_of(None, []), b"P\n"
    yield file_of(0, []), b"P\n"
    two = [(0, 1), (1, 1)]
    for W, rows in (
        (0, [[(0, two)]]),
        (65537, [[(0, [(0, 65537)])]]),
        (65536, [[(1_000_000, [(0, 65536)]), (-1_000_000, [(0, 65536)])]]),
        (2, [[(0, two)], []]),
        (2, [[(0, two)] * 17, [(0, two)]]),
        (2, [[(0, two)] * 16, [(0, two)]]),
        (2, [[(1_000_001, [])], [(0, two)]]),  # 14 before 15
        (2, [[(0, two), (0, [])], []]),  # 15 of an earlier state before 13
        (2, [[(0, [(u, 1) for u in range(9)])], [(0, two)]]),
        (9, [[(0, [(9, 0)])], [(0, two)]]),  # 16 before 17
        (2, [[(0, [(0, 0), (5, 1)])], [(0, two)]]),  # an earlier branch first
        (2, [[(0, two)], [(0, [(1, 1), (1, 0)])]]),  # 17 before 18
        (2, [[(0, two)], [(0, [(1, 1), (0, 1), (1, 1)])]]),
        (2, [[(0, two)], [(0, [(0, 1), (1, 2)])]]),
        (2, [[(0, two)], [(0, [(1, 1)])]]),
        (4, [[(0, [(0, 2**32 - 1), (1, 5)])], [(0, [(1, 4)])]]),  # adds up to W in 32 bits only
        (4, [[(0, [(0, 2**31), (1, 2**31 + 4)])], [(0, [(1, 4)])]]),
        (2, [[(0, [(65535, 2)])], [(0, two)]]),
    ):
        yield file_with(W, rows), b"Q 0 0\n"
    for _ in range(45):
        W, rows = small(draw, 4)
        yield varied(draw, *broken(draw, W, rows, draw.between(1, 3))), b"P\nQ 0 0\n"


def damaged(draw):
    """Files cut off, with bits turned, with bytes too many."""
    yield None, b"P\n"
    yield b"", b""
    for byte in (0, 1, 2, 3, 4, 16, 128, 255):
        yield bytes([byte]), b""
    rich = file_of(4, [[choice(-3, [(0, 1), (1, 3)], b"hold"), choice(None, None, b"")], [choice(7), choice(None, [(0, 4)])]], b"two runs")
    plain = file_of(None, [[choice()], [choice(5, [(0, 1)])]])
    for data in (rich, plain):
        for length in range(0, len(data), 3 if data is rich else 2):
            yield data[:length], b"Q 0 0\n"
        for tail in (b"\x00", b"\n", b"\x01\x02\x03", b"\xff" * 9):
            yield data + tail, b"Q 0 0\n"
    for _ in range(45):
        bit = draw.between(0, 8 * len(rich) - 1)
        data = bytearray(rich)
        data[bit // 8] ^= 1 << bit % 8
        if draw.chance(1, 3):
            data = data[: draw.between(1, len(data))]
        yield bytes(data), b"Q 0 0\nR 0 2 0\nS 2\nP\n"
    for _ in range(10):
        yield bytes(draw.between(0, 255) for _ in range(draw.between(1, 40))), b"P\n"


ODD = (
    b"", b" ", b"\r", b"P\r", b"P ", b" P", b"p", b"PP", b"P 0", b"C 0", b"C C", b"c", b"E", b"L", b"L 3 2", b"X 1",
    b"R", b"R ", b"R 0", b"R 0 1", b"R 0 1 ", b"R 0 1 0 ", b"R 0 1 0 0", b"R  0 1 0", b"R 0  1 0", b"R 0 1  0", b"R\t0 1 0", b"R 0 1 0\r",
    b"R 0 1 0\x00", b"\x00", b"\x00R 0 1 0", b"R0 1 0", b"R 0,1,0", b"r 0 1 0", b"R -0 1 0", b"R 0 +1 0", b"R 0 1 0x0", b"R a b c",
    b"S", b"S ", b"S -1", b"S +1", b"S 1.0", b"S 1e1", b"S 0x1", b"S 1 1", b"S\xa01", b"S 1\xa0", b"S \xd9\xa1", b"S \xef\xbc\x91", b"S /", b"S :", b"S 1/", b"S 1:",
    b"S 000000000000000001", b"S 0000000000000000001", b"S 0", b"S 00", b"S 1000", b"S 1001", b"S 4294967297", b"S 999999999999999999", b"S 1000000000000000000",
    b"S 18446744073709551617", b"Q", b"Q 0", b"Q 0 0 0", b"Q  0 0", b"Q 0 0\t", b"Q 000000000000000001 000000000000000000", b"Q 0000000000000000001 0",
    b"Q 999999999999999999 0", b"Q 1000000000000000000 0", b"Q 4294967296 0", b"Q 4294967297 0", b"Q 0 999999999999999999", b"Q 0 4294967296", b"Q 0 9999999999999999999",
    b"R 4294967296 1 0", b"R 0 4294967297 0", b"R 9 0 0", b"R 9 1001 0", b"R 0 0 0", b"R 0 1001 0", b"R 0 1000 0", b"R 0 1 999999999999999999", b"R 000 001 000",
    b"\x80", b"\xff", b"\xc3\xa4", b"P\x80", b"\xef\xbb\xbfP", b"P\x00", b"R\x000\x001\x000", b"\x0b", b"\x0c", b"P\x0b", b"P\x0cC", b"P\rC", b"Q 0 0\x85",
    b"# P", b"// P", b"P;C", b"'P'", b'"P"', b"P\\n", b"R 0 1 0 # once", b"QUIT", b"S" * 50, b"9", b"0 0", b"-", b"S 1" + b"0" * 400, b"Q 0 " + b" " * 300, b"P" * 5000,
)  # fmt: skip


def odd_lines(draw):
    with_two = file_with(2, [[(1, [(1, 2)])], [(4, [(0, 2)]), (0, [(0, 1), (2, 1)])], [(3, [(2, 2)])]])
    for start in range(0, len(ODD), 12):
        lines = []
        for line in ODD[start : start + 12]:
            lines += [line, draw.one([b"S 1", b"R 0 1 0", b"Q 0 0", b"P", b"Q 1 1"])] if draw.chance(1, 2) else [line]
        yield with_two, b"".join(line + b"\n" for line in lines)
    for stdin in (b"", b"\n", b"\n\n", b"P", b"P\n", b"P\n\n", b"\nP", b"P\nC", b"P\r\nC\r\n", b"P\n ", b"\r", b"P\rC\r", b"Q 0 0", b"Q 0 0\n\x00", b"S 1\n\nS 1\n\n\nS 1"):
        yield with_two, stdin
    yield with_two, b"\n" * 1100 + b"P"
    yield with_two, b"".join(bytes([b]) + b"\n" for b in range(256))
    yield with_two, bytes(range(256))
    yield with_two, b"".join(b"S 1" + bytes([b]) + b"\n" for b in range(256))
    for _ in range(8):
        text = bytearray(b"".join(draw.one([b"R 0 2 0\n", b"S 1\n", b"Q 1 0\n", b"P\n", b"C\n", b"R 1 1 0\n"]) for _ in range(20)))
        for _ in range(6):
            text[draw.between(0, len(text) - 1)] = draw.one([32, 10, 13, 48, 57, 80, 0, draw.between(0, 255)])
        yield with_two, bytes(text)


def long_runs(draw):
    """Long lists of commands: refusals among them, closes between."""
    for _ in range(8):
        W, rows = small(draw, 8, 3, 4)
        yield varied(draw, W, rows), spelled(script(draw, len(rows), parts_of(rows), 120, 60))


QUOTES = [worked, random_models, special, held, at_the_limits, too_much, faults, damaged, odd_lines, long_runs]

# ----------------------------------------------------------------------------------- replay cases

HUGE = 2**64 - 1


def calls_of(draw, n, parts, length):
    """Calls of an engine that holds a table of n states and so many components, if it holds one."""
    calls = []
    for _ in range(length):
        kind = draw.between(0, 21)
        if kind < 7:
            k = draw.between(0, max(0, parts - 1)) if draw.chance(12, 13) else draw.one([parts, 2**32, HUGE])
            steps = draw.one([1, 1, 2, 3, 8, 30, 1000]) if draw.chance(12, 13) else draw.one([0, 1001, 2**32 + 1, HUGE])
            calls.append(("refine", k, steps, draw.one([0, 0, 0, 1, 5, F, 2**32, 2**63, HUGE])))
        elif kind < 12:
            calls.append(("sweep", draw.one([1, 1, 2, 4, 25, 1000]) if draw.chance(12, 13) else draw.one([0, 1001, 2**32 + 1, HUGE])))
        elif kind < 17:
            s = draw.between(0, max(0, n - 1)) if draw.chance(12, 13) else draw.one([n, 256, 2**32, HUGE])
            calls.append(("quote", s, draw.one([0, 0, 1, 2, F, 2**32, 2**63, HUGE])))
        elif kind < 19:
            calls.append(("plan", draw.one([n, n, n + 3, max(0, n - 1), 0]), 77))
        elif kind < 21:
            calls.append(("standing",))
        else:
            calls.append(("close",))
    return calls


ALL = [("standing",), ("refine", 0, 1, 0), ("refine", 9, 0, 0), ("sweep", 1), ("sweep", 0), ("close",), ("quote", 0, 0), ("quote", HUGE, 0), ("plan", 4, 77), ("plan", 0, 77)]


def bad_table(draw):
    W, rows = small(draw, 4)
    return lists_of(draw, *broken(draw, W, rows, draw.between(1, 2)))


def idle_engines(draw):
    """An open that is refused: 21 to each call, the open's fault stays, until a load is accepted."""
    good = Table.of(2, [[(1, [(1, 2)])], [(4, [(0, 2)]), (0, [(0, 1), (1, 1)])]])
    for number, table in sorted(one_of_each().items()):
        calls = ALL + [("load", table), ("standing",), ("load", bad_table(draw)), ("standing",), ("load", good)] + ALL + [("load", table)] + ALL
        yield table, calls
    for _ in range(12):
        calls = [("standing",)] + calls_of(draw, 3, 1, 4) + [("load", bad_table(draw)), ("standing",)] + calls_of(draw, 3, 1, 3)
        W, rows = small(draw, 4)
        calls += [("load", lists_of(draw, W, rows)), ("standing",)] + calls_of(draw, len(rows), parts_of(rows), 8)
        yield bad_table(draw), calls


def one_of_each():
    """A list table for each limit, and for each way a run can pass its list's end."""
    one = (0, 0, 1)
    return {
        "11": Table(1, [], [], []),
        "11 many": Table(0, [(0, 1)] * 257, [one], [(0, 1)]),
        "11 more": Table(1, [(0, 1)] * 300, [one], [(0, 1)]),
        "12": Table(0, [(0, 1)], [one], [(0, 1)]),
        "12 above": Table(65537, [(0, 1)], [one], [(0, 65537)]),
        "13": Table(1, [(0, 1), (0, 0)], [one], [(0, 1)]),
        "13 many": Table(1, [(0, 17)], [one] * 17, [(0, 1)]),
        "13 past the end": Table(1, [(0, 1), (0, 2)], [one], [(0, 1)]),
        "13 from the end": Table(1, [(1, 1)], [one], [(0, 1)]),
        "13 past 2^32": Table(1, [(2**32 - 1, 2)], [one], [(0, 1)]),
        "13 past 2^32 all": Table(1, [(2**32 - 1, 2**32 - 1)], [one], [(0, 1)]),
        "13 empty far away": Table(1, [(2**32 - 1, 0)], [one], [(0, 1)]),
        "14": Table(1, [(0, 2)], [one, (1_000_001, 0, 1)], [(0, 1)]),
        "14 least": Table(1, [(0, 2)], [one, (-(2**31), 7, 7)], [(0, 1)]),
        "15": Table(1, [(0, 2)], [one, (0, 0, 0)], [(0, 1)]),
        "15 past the end": Table(1, [(0, 2)], [one, (0, 0, 2)], [(0, 1)]),
        "15 past 2^32": Table(2, [(0, 2)], [one, (0, 2**32 - 1, 2)], [(0, 2)]),
        "15 many": Table(9, [(0, 1)] * 9, [(0, 0, 9)], [(u, 1) for u in range(9)]),
        "16": Table(1, [(0, 1)], [one], [(1, 1)]),
        "16 huge": Table(1, [(0, 1)], [one], [(2**32 - 1, 1)]),
        "17": Table(1, [(0, 1)] * 2, [(0, 0, 2)], [(0, 1), (1, 0)]),
        "18": Table(2, [(0, 1)] * 2, [(0, 0, 2)], [(1, 1), (1, 1)]),
        "19": Table(2, [(0, 1)], [one], [(0, 1)]),
        "19 in 32 bits": Table(2, [(0, 1)] * 2, [(0, 0, 2)], [(0, 2**32 - 1), (1, 3)]),
    }


def shared_rows(draw):
    """Runs that overlap: a table of 256 states, 16 choices each, 8 branches each, from short lists."""
    one = Table(1, [(0, 1)] * 256, [(0, 0, 1)], [(0, 1)])
    yield one, [("standing",), ("refine", 0, 1, 0), ("refine", 1, 1, 0), ("sweep", 9), ("quote", 255, 0), ("quote", 256, 0), ("plan", 256, 77), ("plan", 255, 77)]
    ends = branches(draw, 65536, draw.some(range(256), 8)) + branches(draw, 65536, draw.some(range(256), 8))
    full = Table(65536, [(0, 16)] * 256, [(draw.between(-1_000_000, 1_000_000), 8 * (c % 2), 8) for c in range(16)], ends)
    yield full, [("standing",), ("refine", 0, 3, 0), ("sweep", 2), ("quote", 0, 0), ("quote", 77, 0), ("plan", 257, 77)]
    over = Table(3, [(s, 4) for s in range(13)], [(c * c - 90, c, 3) for c in range(16)], [(u % 13, 1) for u in range(18)])
    yield over, [("standing",), ("refine", 0, 40, 0), ("sweep", 20)] + [("quote", s, 1) for s in range(13)] + [("plan", 13, 0)]
    table = Table(1, [(0, 1), (1, 1)], [(4, 0, 1), (5, 1, 1)], [(0, 1), (1, 1)])  # runs that end with their list
    yield table, [("standing",), ("refine", 0, 1, 0), ("refine", 1, 1, 0), ("sweep", 4), ("quote", 0, 0), ("quote", 1, 0), ("plan", 2, 77)]


def refused_loads(draw):
    """A refused load between calls changes nothing, whatever it breaks."""
    tables = one_of_each()
    for number in sorted(tables):
        W, rows = small(draw, 4)
        first = calls_of(draw, len(rows), parts_of(rows), 4)
        then = [("quote", s, 0) for s in range(len(rows))] + [("plan", len(rows), 77)]
        yield lists_of(draw, W, rows), first + then + [("load", tables[number]), ("standing",)] + then + calls_of(draw, len(rows), parts_of(rows), 4)


def with_exit(draw, most_states):
    """A small table of which some component comes to leave by its plan."""
    while True:
        W, rows = small(draw, most_states)
        book = plain_solver.Book(Table.of(W, rows))
        for k in range(len(book.lo)):
            book.refine(k, 20, 0)
        book.sweep(20)
        if any(book.plan[i] for i in book.parts.components):
            return W, rows


def new_days(draw):
    """The same table again, or another one, after work on the first: nothing is left of the day before."""
    for _ in range(24):
        W, rows = with_exit(draw, 6)
        other_W, other = with_exit(draw, 6)
        n, k = len(rows), parts_of(rows)
        work = [("refine", i, draw.one([1, 5, 1000]), 0) for i in range(k)] + [("sweep", draw.one([1, 5, 1000]))]
        look = [("standing",)] + [("quote", s, 0) for s in range(n)] + [("plan", n, 77)]
        again = [("refine", i, 1000, 0) for i in range(k)] + [("sweep", 1000)]
        table, second = lists_of(draw, W, rows), lists_of(draw, other_W, other)
        calls = work + look + [draw.one([("close",), ("load", table)])] + look + again + look + [("load", second), ("standing",)]
        calls += calls_of(draw, len(other), parts_of(other), 6) + [("load", bad_table(draw)), ("load", table)] + look + work + look
        yield table, calls


def histories(draw):
    """Long histories: many loads, refused ones among them."""
    for _ in range(40):
        W, rows = draw.one([small, with_exit])(draw, 6)
        table, calls, n, k = lists_of(draw, W, rows), [], len(rows), parts_of(rows)
        for _ in range(draw.between(3, 7)):
            calls += calls_of(draw, n, k, draw.between(2, 12))
            if draw.chance(1, 2):
                calls.append(("load", bad_table(draw)))
            else:
                W, rows = draw.one([small, with_exit])(draw, 6)
                calls.append(("load", lists_of(draw, W, rows)))
                n, k = len(rows), parts_of(rows)
        yield table if draw.chance(4, 5) else bad_table(draw), calls + calls_of(draw, n, k, 5)


def held_days(draw):
    """A held step, then another table, then the first again."""
    first, second = apart(65536, 1_000_000, -1_000_000), apart(65536, 1_000_000, 0)
    run = [("refine", 0, 1000, 0), ("refine", 0, 1000, 0), ("sweep", 3), ("quote", 0, HUGE), ("quote", 1, 2**41), ("plan", 2, 77)]
    yield Table.of(65536, first), run + [("load", Table.of(65536, second))] + run + [("load", Table(1, [], [], []))] + run + [("close",)] + run
    steep = ladder(140, 524288, -524288)
    run = [("refine", 0, 1000, 0), ("refine", 0, 3, 0), ("quote", 0, 0)]
    yield Table.of(1, steep), run + [("load", Table.of(1, ladder(140, 524289, -524288)))] + run


REPLAYS = [idle_engines, shared_rows, refused_loads, new_days, histories, held_days]

# ----------------------------------------------------------------------------------------- output


def inputs(seed=1):
    """All cases without their answers: quote cases (group, model, stdin), replay cases (group, table, calls)."""
    quotes = [(make.__name__, *case) for i, make in enumerate(QUOTES) for case in make(Draw(seed * 1000 + i))]
    replays = [(make.__name__, *case) for i, make in enumerate(REPLAYS) for case in make(Draw(seed * 1000 + 500 + i))]
    return quotes, replays


def quote_case(solver, group, model, stdin):
    return QuoteCase(group, model, stdin, solver.quote(model or b"", stdin))


def replay_case(solver, group, table, calls):
    return ReplayCase(group, table, calls, solver.replay(table, calls))


def cases(seed=1, solver=plain_solver):
    quotes, replays = inputs(seed)
    return [quote_case(solver, *q) for q in quotes], [replay_case(solver, *r) for r in replays]


# The file of cases: the number of cases, then each as its letter, its group's name and its input (docs/SOLVER.md).

LETTERS = {"load": b"L", "standing": b"T", "refine": b"R", "sweep": b"S", "close": b"C", "quote": b"Q", "plan": b"P"}


def word(value):
    return struct.pack("<I", value % 2**32)


def sized(data):
    return word(len(data)) + data


def lists(table):
    """A list table: W, and each list as its length and its rows."""
    rows = (table.states, table.choices, table.branches)
    return word(table.W) + b"".join(word(len(part)) + b"".join(word(v) for row in part for v in row) for part in rows)


def call_bytes(name, *values):
    """A call: its letter and its arguments. Of the list of a plan these are how many places it has and what each holds before."""
    if name == "load":
        return LETTERS[name] + lists(*values)
    return LETTERS[name] + b"".join(struct.pack("<Q", v) for v in values)


def emit_quote(case):
    """A quote case in the file of cases, and what it prints. A file that is missing is an empty one."""
    return b"Q" + sized(case.group.encode()) + sized(case.model or b"") + sized(case.stdin), case.stdout


def emit_replay(case):
    """A replay case in the file of cases, and a line for each answer; the last one is the engine's standing then."""
    data = lists(case.table) + word(len(case.calls)) + b"".join(call_bytes(*call) for call in case.calls)
    answers = plain_solver.replay(case.table, case.calls + [("standing",)])
    lines = [answer_line(*answer) for answer in answers]
    return b"H" + sized(case.group.encode()) + data, "".join(line + "\n" for line in lines).encode()


def answer_line(name, *values):
    """The line of an answer: a letter and numbers. A refusal, and the fault of an open, has three places, 0 where it has none."""
    letters = {"done": "D", "standing": "L", "refine": "R", "sweep": "S", "quote": "Q", "plan": "P", "refused": "E", "fault": "F"}
    if name in ("refused", "fault"):
        return " ".join(map(str, (letters[name], *values, 0, 0, 0)[:5]))
    return " ".join(map(str, (letters[name], *(values[0] if name == "plan" else values))))


def write(folder, quotes, replays):
    """Writes the file of cases, and what the program scenarios prints for it."""
    made = [(case.group, *emit_quote(case)) for case in quotes] + [(case.group, *emit_replay(case)) for case in replays]
    os.makedirs(os.path.join(folder, "data"), exist_ok=True)
    with open(os.path.join(folder, "data", "cases.bin"), "wb") as file:
        file.write(word(len(made)) + b"".join(data for _, data, _ in made))
    with open(os.path.join(folder, "stdout"), "wb") as file:
        for number, (group, _, printed) in enumerate(made, 1):
            file.write(b"case %d %s\n" % (number, group.encode()) + printed)


def input_size(case):
    """Bytes of a case's input: as it is for a quote case; 4, 8 or 12 to a row and 8 to an argument for a replay case."""
    if isinstance(case, QuoteCase):
        return len(case.model or b"") + len(case.stdin)
    tables = [case.table] + [call[1] for call in case.calls if call[0] == "load"]
    rows = sum(8 * len(t.states) + 12 * len(t.choices) + 8 * len(t.branches) + 4 for t in tables)
    return rows + sum(1 + 8 * (len(call) - 1) for call in case.calls)


def summary(seed):
    """Makes all cases, prints what they are and reach, and answers them."""
    steps = Counter()
    plain_solver.watched_steps(steps)
    quotes, replays = cases(seed)
    for kind, made in (("quote", quotes), ("replay", replays)):
        print("%s: %d cases, %d bytes of input" % (kind, len(made), sum(map(input_size, made))))
        groups = Counter(case.group for case in made)
        print("  " + ", ".join("%s %d" % item for item in groups.items()))
    refusals = Counter(int(line.split()[1]) for case in quotes for line in case.stdout.splitlines() if line[:1] == b"E")
    print("refusals printed: " + ", ".join("%d: %d" % item for item in sorted(refusals.items())))
    refusals = Counter(answer[1] for case in replays for answer in case.answers if answer[0] in ("refused", "fault"))
    print("refusals of calls: " + ", ".join("%d: %d" % item for item in sorted(refusals.items())))
    answers = Counter(answer[0] for case in replays for answer in case.answers)
    print("answers of calls: " + ", ".join("%s %d" % item for item in sorted(answers.items())))
    print("refine steps %d, held ones %d" % (steps["steps"], steps["held"]))
    return quotes, replays


def compare(path, quotes):
    """Runs each quote case through the program; answers how many differ."""
    wrong = 0
    for i, case in enumerate(quotes):
        with tempfile.TemporaryDirectory() as folder:
            if case.model is not None:
                with open(os.path.join(folder, "model.bin"), "wb") as file:
                    file.write(case.model)
            got = subprocess.run([os.path.abspath(path)], input=case.stdin, cwd=folder, stdout=subprocess.PIPE).stdout
        if got != case.stdout:
            wrong += 1
            pairs = zip(got.split(b"\n"), case.stdout.split(b"\n"))
            at = next((k for k, (a, b) in enumerate(pairs, 1) if a != b), "end")
            print("case %d (%s) differs at line %s" % (i, case.group, at))
    print("%d quote cases compared, %d differ" % (len(quotes), wrong))
    return wrong


def main():
    parser = argparse.ArgumentParser(description=__doc__, formatter_class=argparse.RawDescriptionHelpFormatter)
    parser.add_argument("--seed", type=int, default=1)
    parser.add_argument("--write")
    parser.add_argument("--quote")
    args = parser.parse_args()
    quotes, replays = summary(args.seed)
    if args.write:
        write(args.write, quotes, replays)
    return 1 if args.quote and compare(args.quote, quotes) else 0


if __name__ == "__main__":
    sys.exit(main())
