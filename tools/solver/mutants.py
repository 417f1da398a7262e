#!/usr/bin/env python3
"""How sharp the cases and the brute force are: the solver with one rule turned, and who notices.

usage: mutants.py [--seed S] [--models N]

Each mutant is the solver's text with one piece replaced. For each it prints how many quote and replay cases expect another answer then, and
whether brute force over N models (default 300) finds a promise broken. A mutant that no case notices makes the run fail; brute force can only
notice those that break a promise.
"""
import argparse
import os
import sys
import types

sys.path.insert(0, os.path.dirname(os.path.abspath(__file__)))
import brute
import cases

HERE = os.path.dirname(os.path.abspath(__file__))

# name, piece, what stands in its place
MUTANTS = [
    ("the upper side rounds down", "return -(-total // self.W)", "return total // self.W"),
    ("the lower side rounds up", "def down(self, total):\n        return total // self.W", "def down(self, total):\n        return -(-total // self.W)"),
    ("the lower side rounds toward zero", "def down(self, total):\n        return total // self.W", "def down(self, total):\n        return total // self.W if total >= 0 else -(-total // self.W)"),
    ("half of down is rounded toward zero", "t[s] + rise[s] // 2", "t[s] + (rise[s] // 2 if rise[s] >= 0 else -(-rise[s] // 2))"),
    ("the whole of down is added", "t[s] + rise[s] // 2", "t[s] + rise[s]"),
    ("half of down is rounded up", "t[s] + rise[s] // 2", "t[s] - -rise[s] // 2"),
    ("hi is the least up", "max(self.up(best[s]) - t[s] for s in group)", "min(self.up(best[s]) - t[s] for s in group)"),
    ("hi forgets its old bound", "self.hi[k] = min(self.hi[k], max(", "self.hi[k] = min(F * 10**6, max("),
    ("lo takes the largest down", "self.lo[k] = min(rise.values())", "self.lo[k] = max(rise.values())"),
    ("lo rises where down equals it", "if min(rise.values()) > self.lo[k]", "if min(rise.values()) >= self.lo[k]"),
    ("choices are recorded at every step", "if min(rise.values()) > self.lo[k]:\n            self.lo[k] = min(rise.values())", "if True:\n            self.lo[k] = max(self.lo[k], min(rise.values()))"),
    ("no choice is recorded", "self.recorded[s] = self.stays[s][first][0]", "pass"),
    ("the last best choice is recorded", ".index(self.down(best[s]))", "[::-1].index(self.down(best[s]))\n                first = len(totals[s]) - 1 - first"),
    ("the exactly best choice is recorded", "first = [self.down(total) for total in totals[s]].index(self.down(best[s]))", "first = totals[s].index(best[s])"),
    ("a step is held at H", "z - least > H", "z - least >= H"),
    ("no step is held", "held = any(z - least > H for z in moved.values())", "held = False"),
    ("a held step changes the vector", "if not held:\n            for s in group:", "if True:\n            for s in group:"),
    ("a held step is not counted", "held = self.step(k)\n            made += 1", "held = self.step(k)\n            made += 1 - held"),
    ("a refine goes on after a held step", "made < steps and not held and", "made < steps and"),
    ("a refine ends below the width only", "self.hi[k] - self.lo[k] > width", "self.hi[k] - self.lo[k] >= width"),
    ("x ignores that a node can stay", "[self.hi[k]] + upper, [self.lo[k]]", "[min([self.hi[k]] + upper)] + upper, [self.lo[k]]"),
    ("to stay comes last", "upper, lower, ways = [self.hi[k]] + upper, [self.lo[k]] + lower, [None] + ways", "upper, lower, ways = upper + [self.hi[k]], lower + [self.lo[k]], ways + [None]"),
    ("the plan takes the last best candidate", "ways[lower.index(self.y[i])]", "ways[len(lower) - 1 - lower[::-1].index(self.y[i])]"),
    ("the plan changes where y is the same", "if self.y[i] > before[1]", "if self.y[i] >= before[1]"),
    ("the plan never changes", "self.plan[i] = ways[lower.index(self.y[i])]", "pass"),
    ("a sweep uses the numbers before it", "altered = [self.update(i) for i in range(len(self.exits))]", "altered = self.all_at_once()"),
    ("a sweep goes down the nodes", "altered = [self.update(i) for i in range(len(self.exits))]", "altered = [self.update(i) for i in reversed(range(len(self.exits)))]"),
    ("the last sweep is not counted", "if not any(altered):\n                break", "if not any(altered):\n                made -= 1\n                break"),
    ("a sweep call makes all sweeps", "if not any(altered):\n                break", "pass"),
    ("only x counts as altered", "return before != (self.x[i], self.y[i])", "return before[0] != self.x[i]"),
    ("only y counts as altered", "return before != (self.x[i], self.y[i])", "return before[1] != self.y[i]"),
    ("others play their recorded choice toward an exit", "plan[s] = way[1] if s == way[0] else near[0]", "plan[s] = way[1] if s == way[0] else self.recorded[s]"),
    ("others play the last choice that is nearer", "else near[0]", "else near[-1]"),
    ("others play their first inside choice", "else near[0]", "else self.stays[s][0][0]"),
    ("a lone state with a loop is a component", "groups.setdefault(mark[s] if self.inside[s] else (s,), [])", "self.inside[s] = self.inside[s] or [c for c, (_, out) in enumerate(rows[s]) if s in [u for u, _ in out]][:1]\n            groups.setdefault(mark[s] if self.inside[s] else (s,), [])"),
    ("components from one pass", "if not drop:\n            return", "if not drop or [kept[s].remove(c) for s, c in drop]:\n            return"),
    ("nodes by highest state", "self.nodes = list(groups.values())", "self.nodes = sorted(groups.values(), key=max)"),
    ("a close keeps the plan", "self.book = Book(self.table)\n        return", "old, self.book = self.book, Book(self.table)\n        self.book.plan = old.plan\n        return"),
    ("a close keeps the vector", "self.book = Book(self.table)\n        return", "old, self.book = self.book, Book(self.table)\n        self.book.vector = old.vector\n        return"),
    ("a close keeps the recorded choices", "self.book = Book(self.table)\n        return", "old, self.book = self.book, Book(self.table)\n        self.book.recorded = old.recorded\n        return"),
    ("a refused load leaves the engine idle", 'if fault is not None:\n            return ("refused",)', 'if fault is not None:\n            self.idle = self.idle or fault\n            return ("refused",)'),
    ("a refused load changes the fault of an idle engine", 'if fault is not None:\n            return ("refused",)', 'if fault is not None:\n            self.idle = self.idle and fault\n            return ("refused",)'),
    ("a load of as many states keeps the vector", "self.table, self.book, self.idle = table, Book(table), None", "old, self.book = self.book, Book(table)\n        self.table, self.idle = table, None\n        self.book.vector = old.vector if old and len(old.vector) == len(self.book.vector) else self.book.vector"),
    ("a load of as many nodes keeps the plan", "self.table, self.book, self.idle = table, Book(table), None", "old, self.book = self.book, Book(table)\n        self.table, self.idle = table, None\n        self.book.plan = old.plan if old and old.parts.nodes == self.book.parts.nodes and old.exits == self.book.exits else self.book.plan"),
    ("24 before 22", "if component >= len(book.lo):", "if component >= len(book.lo) and 1 <= steps <= MOST:"),
    ("a width has 32 bits", "1 if upper - lower <= width else 0", "1 if upper - lower <= width % 2**32 else 0"),
    ("a width has a sign", "1 if upper - lower <= width else 0", "1 if upper - lower <= (width if width < 2**63 else width - 2**64) else 0"),
    ("a state has 32 bits", "if state >= len(self.book.rows):", "state %= 2**32\n        if state >= len(self.book.rows):"),
    ("a component has 32 bits", "if component >= len(book.lo):", "component %= 2**32\n        if component >= len(book.lo):"),
    ("a count has 32 bits", "if not 1 <= count <= MOST:", "count %= 2**32\n        if not 1 <= count <= MOST:"),
    ("steps have 32 bits", "if not 1 <= steps <= MOST:", "steps %= 2**32\n        if not 1 <= steps <= MOST:"),
    ("1,000 is too many", "if not 1 <= count <= MOST:", "if not 1 <= count < MOST:"),
    ("a plan fills the whole list", "target[: len(choices)] = choices", "target[:] = choices + [0] * (len(target) - len(choices))"),
    ("a plan of just enough room is refused", "if len(target) < len(self.book.rows):", "if len(target) <= len(self.book.rows) and len(target) > 3:"),
    ("weights add up in 32 bits", "sum(weight for _, weight in out) != self.W", "sum(weight for _, weight in out) % 2**32 != self.W"),
    ("17 before 16", "yield (2, s, c, 2, b, 0), (16, s, c, b)", "yield (2, s, c, 2, b, 1, 0), (16, s, c, b)"),
    ("18 before 17", "yield (2, s, c, 2, b, 2), (18, s, c, b)", "yield (2, s, c, 2, b, 0), (18, s, c, b)"),
    ("15 before 14", "yield (2, s, c, 1), (15, s, c, 0)", "yield (2, s, c, -1), (15, s, c, 0)"),
    ("19 before the branches", "yield (2, s, c, 3), (19, s, c, 0)", "yield (2, s, c, 1, 0), (19, s, c, 0)"),
    ("a repeated successor is found at the earlier branch", "in [other for other, _ in out[:b]]", "in [other for other, _ in out[b + 1 :]]"),
    ("a run past the end is cut", "if first + count <= len(places) else []", "if True else []"),
    ("a run to the end is empty", "if first + count <= len(places) else []", "if first + count < len(places) else []"),
    ("a missing branch has weight 1", "out = [(s, W)]", "out = [(s, 1)]"),
    ("a missing branch leads to state 0", "out = [(s, W)]", "out = [(0, W)]"),
    ("rewards have no sign", "number(4, signed=True)", "number(4)"),
    ("an unknown bit is let pass", "if field[0] >> known:", "if field[0] >> 7:"),
    ("32 after 31", "if field[0] >> known:\n            raise Refused(32, place)", "if field[0] >> known:\n            yield 1\n            raise Refused(32, place)"),
    ("26 before 33", "if at < len(data):\n        raise Refused(33, at)\n    table = Table.of(W, rows)", "table = Table.of(W, rows)\n    if at < len(data) and len(rows) <= 256:\n        raise Refused(33, at)"),
    ("bytes too many are let pass", "if at < len(data):\n        raise Refused(33, at)", "pass"),
    ("65,536 bytes are too long", "if len(data) > LONGEST:", "if len(data) >= LONGEST:"),
    ("the place of a text is its length", "raise Refused(31, at)", "raise Refused(31, at - (size > 4))"),
    ("one more state fits", "ROOM = (256, 1024, 4096)", "ROOM = (257, 1024, 4096)"),
    ("one more choice fits", "ROOM = (256, 1024, 4096)", "ROOM = (256, 1025, 4096)"),
    ("one more branch fits", "ROOM = (256, 1024, 4096)", "ROOM = (256, 1024, 4097)"),
    ("one branch less fits", "ROOM = (256, 1024, 4096)", "ROOM = (256, 1024, 4095)"),
    ("19 digits are a number", "{1,18}", "{1,19}"),
    ("17 digits are all", "{1,18}", "{1,17}"),
    ("a carriage return is let pass", "spelled = shape.fullmatch(line)", 'spelled = shape.fullmatch(line.rstrip(b"\\r"))'),
    ("blanks at the end are let pass", "spelled = shape.fullmatch(line)", 'spelled = shape.fullmatch(line.rstrip(b" "))'),
    ("lower letters are read", "spelled = shape.fullmatch(line)", "spelled = shape.fullmatch(line[:1].upper() + line[1:])"),
    ("empty lines do not count", "    return lines if lines[-1] else lines[:-1]", "    return [line for line in lines if line]"),
    ("a carriage return ends a line", 'lines = stdin.split(b"\\n")', 'lines = stdin.replace(b"\\r", b"\\n").split(b"\\n")'),
    ("the end makes a line", "return lines if lines[-1] else lines[:-1]", "return lines"),
    ("the last line needs its line feed", "return lines if lines[-1] else lines[:-1]", "return lines[:-1]"),
]

ALL_AT_ONCE = '''

def all_at_once(book):
    x, y, altered = list(book.x), list(book.y), []
    new_x, new_y = [], []
    for i in range(len(book.exits)):
        book.x, book.y = list(x), list(y)
        altered.append(book.update(i))
        new_x.append(book.x[i])
        new_y.append(book.y[i])
    book.x, book.y = new_x, new_y
    return altered


Book.all_at_once = all_at_once
'''

def mutated(text, piece, other):
    if text.count(piece) != 1:
        raise SystemExit("%d times in the solver: %r" % (text.count(piece), piece))
    module = types.ModuleType("mutant")
    main = 'if __name__ == "__main__":'
    exec(compile(text.replace(piece, other).replace(main, ALL_AT_ONCE + main), "mutant", "exec"), module.__dict__)
    return module


def answers(solver, quotes, replays):
    """What the solver answers to all cases; a case on which it fails has its failure as the answer."""

    def tried(call, *values):
        try:
            return call(*values)
        except Exception as failure:
            return "fails: %s" % type(failure).__name__

    return [tried(solver.quote, model or b"", stdin) for _, model, stdin in quotes], [
        tried(solver.replay, own(solver, table), [own_call(solver, call) for call in calls]) for _, table, calls in replays
    ]


def own(solver, table):
    """The table as one of the mutant's."""
    return solver.Table(table.W, table.states, table.choices, table.branches)


def own_call(solver, call):
    return ("load", own(solver, call[1])) if call[0] == "load" else call


def main():
    parser = argparse.ArgumentParser(description=__doc__, formatter_class=argparse.RawDescriptionHelpFormatter)
    parser.add_argument("--seed", type=int, default=1)
    parser.add_argument("--models", type=int, default=300)
    args = parser.parse_args()
    quotes, replays = cases.inputs(args.seed)
    plain = answers(cases.plain_solver, quotes, replays)
    with open(os.path.join(HERE, "solver.py")) as file:
        text = file.read()
    missed = 0
    for name, piece, other in MUTANTS:
        mutant = mutated(text, piece, other)
        got = answers(mutant, quotes, replays)
        differ = [sum(a != b for a, b in zip(ours, theirs)) for ours, theirs in zip(plain, got)]
        try:
            broken = brute.run(mutant, args.models, args.models // 10, args.seed, loud=False)[2]
            noticed = "no" if broken is None else broken[1].split(":")[0]
        except Exception as failure:
            noticed = "fails: %s" % type(failure).__name__
        missed += sum(differ) == 0
        print("%-55s quote %3d  replay %3d  brute force: %s" % (name, *differ, noticed), flush=True)
    print("%d mutants, %d noticed by no case" % (len(MUTANTS), missed))
    return 1 if missed else 0


if __name__ == "__main__":
    sys.exit(main())
