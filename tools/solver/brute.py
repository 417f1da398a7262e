#!/usr/bin/env python3
"""Brute force against the promises, on random models after random histories.

usage: brute.py [--models N] [--seed S] [--medium M] [--quote PATH]
       --models N     so many small models (at most 5 states), with every stationary plan tried out (default 300)
       --medium M     so many models of 6 to 16 states, with the best gain by exact policy iteration (default N / 10)
       --quote PATH   takes all answers from this quote program, and compares its lines with the solver's
       --seed S       (default 1)

After the load and after each call every state is quoted and the plan asked for. Then, with exact fractions:
  components  the count printed is that of the maximal end components, found among all sets of states (small models)
  gain        L <= F x best long-run gain <= U for each state
  plan        the plan's own long-run gain is at least L / F from each state
  tighten     no L fell, no U rose, no lo fell and no hi rose since the last close
  staying     lo <= F x best gain of staying in the component <= hi, at each refine (small models)
  horizon     for N up to 8: F x V <= W^N x (N x U + C) for the best V over all strategies, F x V >= W^N x (N x L - C) for the plan's
  mark        the quote's mark is 1 exactly if U - L is at most the width
"""
import argparse
import os
import struct
import subprocess
import sys
import tempfile
from collections import Counter
from fractions import Fraction
from itertools import combinations, product

sys.path.insert(0, os.path.dirname(os.path.abspath(__file__)))
import solver as plain_solver
from draw import DENOMINATORS, REWARDS, SHAPES, Draw, rows_of

F, H = 2**20, 2**46
HORIZON = 8


class Broken(Exception):
    pass


# --------------------------------------------------------------------------- exact long-run gains


def solved(matrix, rights):
    """The solution of matrix x = right for each column of the rights, by elimination over fractions."""
    n = len(matrix)
    rows = [list(a) + list(b) for a, b in zip(matrix, rights)]
    for i in range(n):
        pivot = next(j for j in range(i, n) if rows[j][i] != 0)
        rows[i], rows[pivot] = rows[pivot], rows[i]
        head = rows[i][i]
        rows[i] = [z / head for z in rows[i]]
        for j in range(n):
            if j != i and rows[j][i] != 0:
                times = rows[j][i]
                rows[j] = [a - times * b for a, b in zip(rows[j], rows[i])]
    return [row[n:] for row in rows]


def reached(n, follow):
    """For each state the states that it reaches in 0 or more steps, as bits."""
    sets = [1 << s | sum(1 << u for u in set(follow[s])) for s in range(n)]
    for k in range(n):
        for s in range(n):
            if sets[s] >> k & 1:
                sets[s] |= sets[k]
    return sets


def evaluated(W, chosen):
    """Gain and bias of each state, if `chosen` has the one choice (reward, branches) of each state. The bias is 0 at the
    lowest state of each recurrent class."""
    n = len(chosen)
    reach = reached(n, [[u for u, _ in out] for _, out in chosen])
    recurrent = [all(reach[u] >> s & 1 for u in range(n) if reach[s] >> u & 1) for s in range(n)]
    gain, bias = [None] * n, [None] * n
    for s in range(n):
        if recurrent[s] and gain[s] is None:
            members = [u for u in range(n) if reach[s] >> u & 1]
            # unknowns: the gain in the place of the lowest member's bias, which is 0
            place = {u: i for i, u in enumerate(members)}
            matrix = [[Fraction(0)] * len(members) for _ in members]
            for u in members:
                matrix[place[u]][place[u]] += 1
                for v, weight in chosen[u][1]:
                    matrix[place[u]][place[v]] -= Fraction(weight, W)
            for line in matrix:
                line[0] = Fraction(1)
            found = solved(matrix, [[Fraction(chosen[u][0])] for u in members])
            for u in members:
                gain[u], bias[u] = found[0][0], found[place[u]][0]
            bias[members[0]] = Fraction(0)
    passing = [s for s in range(n) if not recurrent[s]]
    place = {s: i for i, s in enumerate(passing)}
    matrix = [[Fraction(int(i == j)) for j in range(len(passing))] for i in range(len(passing))]
    for s in passing:
        for u, weight in chosen[s][1]:
            if u in place:
                matrix[place[s]][place[u]] -= Fraction(weight, W)
    ends = [[sum((Fraction(w, W) * gain[u] for u, w in chosen[s][1] if u not in place), Fraction(0))] for s in passing]
    for s, found in zip(passing, solved(matrix, ends)):
        gain[s] = found[0]
    ends = [
        [chosen[s][0] - gain[s] + sum((Fraction(w, W) * bias[u] for u, w in chosen[s][1] if u not in place), Fraction(0))]
        for s in passing
    ]
    for s, found in zip(passing, solved(matrix, ends)):
        bias[s] = found[0]
    return gain, bias


def best_by_plans(W, rows):
    """The best gain of each state over every stationary plan."""
    best = [None] * len(rows)
    for chosen in product(*rows):
        gain, _ = evaluated(W, chosen)
        best = [g if b is None or g > b else b for g, b in zip(gain, best)]
    return best


def best_by_iteration(W, rows):
    """The best gain of each state by policy iteration: first the gain after a choice, then its reward and bias."""

    def mean(numbers, out):
        return sum((Fraction(weight, W) * numbers[u] for u, weight in out), Fraction(0))

    plan = [0] * len(rows)
    for _ in range(1000):
        gain, bias = evaluated(W, [row[c] for row, c in zip(rows, plan)])
        after = [[mean(gain, out) for _, out in row] for row in rows]
        better = [after[s].index(max(after[s])) if max(after[s]) > after[s][plan[s]] else plan[s] for s in range(len(rows))]
        if better == plan:
            for s, row in enumerate(rows):
                worth = [(reward + mean(bias, out) if a == gain[s] else None) for (reward, out), a in zip(row, after[s])]
                top = max(z for z in worth if z is not None)
                if top > worth[plan[s]]:
                    better[s] = worth.index(top)
        if better == plan:
            return gain
        plan = better
    raise Broken("policy iteration does not end")


def components(rows):
    """Maximal end components among all sets of states: (states, choices that stay in the set), by lowest state."""
    n, found = len(rows), []
    for size in range(n, 0, -1):
        for group in combinations(range(n), size):
            if any(set(group) <= set(larger) for larger, _ in found):
                continue
            stay = {s: [c for c, (_, out) in enumerate(rows[s]) if all(u in group for u, _ in out)] for s in group}
            follow = [[u for c in stay.get(s, []) for u, _ in rows[s][c][1]] for s in range(n)]
            reach = reached(n, follow)
            if any(stay.values()) and all(reach[s] >> u & 1 for s in group for u in group):
                found.append((group, stay))
    return sorted(found)


def best_staying(W, rows, group, stay):
    """The best gain of staying in a component."""
    place = {s: i for i, s in enumerate(group)}
    inner = [[(rows[s][c][0], [(place[u], w) for u, w in rows[s][c][1]]) for c in stay[s]] for s in group]
    return max(best_by_plans(W, inner))


# -------------------------------------------------------------------------------------- histories


def written(W, rows):
    """The model file of a table."""
    out = bytearray(struct.pack("<BIH", 1, W, len(rows)))
    for row in rows:
        out.append(len(row))
        for reward, ends in row:
            out += struct.pack("<BiB", 3, reward, len(ends))
            for successor, weight in ends:
                out += struct.pack("<HI", successor, weight)
    return bytes(out)


def history(draw, parts):
    """Random calls: refines, sweeps, closes; some histories are long enough for the bounds to meet."""
    calls = []
    for _ in range(draw.between(1, 7)):
        kind = draw.between(0, 9)
        if kind < 5 and parts:
            steps = draw.one([1, 1, 2, 3, 5, 10, 40])
            calls.append(("R", draw.between(0, parts - 1), steps, draw.one([0, 0, 0, 1, 1000, F])))
        elif kind < 9:
            calls.append(("S", draw.one([1, 1, 2, 3, 10, 100])))
        else:
            calls.append(("C",))
    if draw.chance(1, 3):
        calls += [("R", k, 1000, 0) for k in range(parts)] + [("S", 1000)]
    return calls


class Program:
    """Gives the answer lines: the solver's, or those of a quote program, compared with the solver's."""

    def __init__(self, solver, path):
        self.solver, self.path = solver, path

    def lines(self, data, stdin):
        expected = self.solver.quote(data, stdin)
        if self.path:
            with tempfile.TemporaryDirectory() as folder:
                with open(os.path.join(folder, "model.bin"), "wb") as file:
                    file.write(data)
                got = subprocess.run([os.path.abspath(self.path)], input=stdin, cwd=folder, stdout=subprocess.PIPE).stdout
            for count, (a, b) in enumerate(zip(got.split(b"\n"), expected.split(b"\n")), 1):
                if a != b:
                    raise Broken("line %d: the program prints %r, the solver %r" % (count, a, b))
            if got != expected:
                raise Broken("the program prints %d bytes, the solver %d" % (len(got), len(expected)))
        return [line.split() for line in expected.decode().splitlines()]


class Counts(dict):
    def hit(self, name, holds, *what):
        if not holds:
            raise Broken("%s: %s" % (name, what))
        self[name] = self.get(name, 0) + 1


def try_model(draw, program, W, rows, exhaustive, counts):
    """One model, one random history, every promise."""
    n = len(rows)
    best = best_by_plans(W, rows) if exhaustive else best_by_iteration(W, rows)
    parts = components(rows) if exhaustive else None
    staying = [best_staying(W, rows, *part) for part in parts] if exhaustive else None
    data = written(W, rows)
    loaded = program.lines(data, b"")[0]
    if exhaustive:
        counts.hit("components", loaded == ["L", str(n), str(len(parts))], loaded, parts)
        if draw.chance(1, 4):
            counts.hit("two ways to the best gain", best == best_by_iteration(W, rows))
    calls = history(draw, int(loaded[2]))
    width = draw.one([0, 1, 5, F])
    asked = [("Q", s, width) for s in range(n)] + [("P",)]
    script = asked + [line for call in calls for line in [call] + asked]
    stdin = "".join(" ".join(map(str, line)) + "\n" for line in script).encode()
    answers = program.lines(data, stdin)[1:]
    if len(answers) != len(script):
        raise Broken("%d answers to %d lines" % (len(answers), len(script)))
    watch = Watch(W, rows, best, staying, width, counts)
    watch.moment(answers[: n + 1])
    for i, call in enumerate(calls):
        at = (i + 1) * (n + 1) + i
        watch.call(call, answers[at])
        watch.moment(answers[at + 1 : at + n + 2])
    return watch.U, watch.L


class Watch:
    """Checks the answers of one history as they come."""

    def __init__(self, W, rows, best, staying, width, counts):
        self.W, self.rows, self.best, self.staying, self.width, self.counts = W, rows, best, staying, width, counts
        self.L, self.U, self.sides = None, None, {}
        rewards = [reward for row in rows for reward, _ in row]
        self.C = H + (F * (max(rewards) - min(rewards)) + H) * sum(W**k for k in range(1, len(rows) + 1))
        self.V = horizons(W, [list(row) for row in rows])
        self.plans = {}

    def call(self, call, answer):
        if answer[0] != call[0]:
            raise Broken("answer %s to %s" % (answer, call))
        if call[0] == "C":
            self.L, self.U, self.sides = None, None, {}
        if call[0] == "R":
            made, lo, hi = map(int, answer[1:])
            self.counts.hit("steps", 0 <= made <= call[2], answer)
            before = self.sides.get(call[1], (lo, hi))
            self.counts.hit("tighten", before[0] <= lo <= hi <= before[1], before, answer)
            self.sides[call[1]] = lo, hi
            if self.staying:
                self.counts.hit("staying", lo <= F * self.staying[call[1]] <= hi, answer, self.staying[call[1]])
        if call[0] == "S":
            self.counts.hit("steps", 1 <= int(answer[1]) <= call[1], answer)

    def moment(self, answers):
        """The quotes of all states and the plan of one moment."""
        quotes = [list(map(int, answer[1:])) for answer in answers[:-1]]
        L, U = [q[0] for q in quotes], [q[1] for q in quotes]
        plan = tuple(map(int, answers[-1][1:]))
        hit = self.counts.hit
        hit("moments", len(plan) == len(L) == len(self.rows))
        hit("plan exists", all(c < len(row) for c, row in zip(plan, self.rows)), plan)
        if plan not in self.plans:
            chosen = [row[c] for row, c in zip(self.rows, plan)]
            self.plans[plan] = evaluated(self.W, chosen)[0], horizons(self.W, [[choice] for choice in chosen])
        gain, V = self.plans[plan]
        for s in range(len(self.rows)):
            hit("mark", quotes[s][2] == int(U[s] - L[s] <= self.width), quotes[s])
            hit("gain", L[s] <= F * self.best[s] <= U[s], s, L[s], self.best[s], U[s])
            hit("plan", L[s] <= F * gain[s], s, L[s], gain[s], plan)
            if self.L:
                hit("tighten", self.L[s] <= L[s] and U[s] <= self.U[s], s)
            for N in range(HORIZON + 1):
                hit("horizon", F * self.V[N][s] <= self.W**N * (N * U[s] + self.C), s, N)
                hit("horizon", F * V[N][s] >= self.W**N * (N * L[s] - self.C), s, N)
        self.L, self.U = L, U


def horizons(W, rows):
    """The best scaled reward V of each state over 0, 1, .. steps."""
    V = [[0] * len(rows)]
    for N in range(1, HORIZON + 1):
        last = V[-1]
        V.append([max(W**N * reward + sum(weight * last[u] for u, weight in out) for reward, out in row) for row in rows])
    return V


def drawn(draw, exhaustive):
    """W and rows, small enough for what is tried."""
    while True:
        W = draw.one(DENOMINATORS)
        n = draw.between(1, 5) if exhaustive else draw.between(6, 16)
        shape, rewards = draw.one(SHAPES), draw.one(list(REWARDS))
        if draw.chance(1, 10):  # steps may be held
            W, shape, rewards = draw.one([1000, 65536]), "slow", draw.one(["large", "ends"])
        rows = rows_of(draw, n, W, 3, 3 if exhaustive else 4, shape, rewards)
        plans = 1
        for row in rows:
            plans *= len(row)
        if not exhaustive or plans <= 48:
            return W, rows


def run(solver, models, medium, seed, path=None, loud=True):
    """Tries so many models; answers (counts, widths at the end, (name, what broke) or None)."""
    program, counts, widths = Program(solver, path), Counts(), []
    for kind, amount in (("small", models), ("medium", medium)):
        for i in range(amount):
            draw = Draw(seed * 1_000_003 + 2 * i + (kind == "medium"))
            W, rows = drawn(draw, kind == "small")
            try:
                U, L = try_model(draw, program, W, rows, kind == "small", counts)
            except Broken as broken:
                return counts, widths, ("%s %d: W = %d, rows = %s" % (kind, i, W, rows), str(broken))
            widths += [a - b for a, b in zip(U, L)]
            counts["%s models" % kind] = i + 1
            if loud and (i + 1) % 500 == 0:
                print("%s: %d" % (kind, i + 1), flush=True)
    return counts, widths, None


def main():
    parser = argparse.ArgumentParser(description=__doc__, formatter_class=argparse.RawDescriptionHelpFormatter)
    parser.add_argument("--models", type=int, default=300)
    parser.add_argument("--medium", type=int)
    parser.add_argument("--seed", type=int, default=1)
    parser.add_argument("--quote")
    args = parser.parse_args()
    medium = args.models // 10 if args.medium is None else args.medium
    steps = Counter()
    plain_solver.watched_steps(steps)
    counts, widths, broken = run(plain_solver, args.models, medium, args.seed, args.quote)
    for name in sorted(counts):
        print("%-26s %d" % (name, counts[name]))
    print("refine steps %d, held ones %d" % (steps["steps"], steps["held"]))
    if widths:
        print("states quoted at the end %d, of these U = L %d, U - L at most 16 %d" % (len(widths), widths.count(0), sum(w <= 16 for w in widths)))
    if broken:
        print("BROKEN\n%s\n%s" % broken)
        return 1
    print("nothing broken")
    return 0


if __name__ == "__main__":
    sys.exit(main())
