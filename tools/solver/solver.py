#!/usr/bin/env python3
"""A solver apart: what the engine and the quote program must answer, written from docs/ alone.

usage: solver.py [MODEL]      plays the model file MODEL (model.bin where missing) and the command lines of standard input

It shares no code with the crates, and goes another way where there is one: the walk's first fault is the least of all
faults, components come from Tarjan's strongly connected parts with repeated removal of choices, distances from a
breadth-first search backwards, and the best of rounded totals is the rounded best of exact totals.

As a library: Table, read_model, Engine, replay, quote.
"""
import os
import re
import sys
from collections import deque

F = 2**20  # a bound z stands for z / F
H = 2**46  # no number of a vector is above it
ROOM = (256, 1024, 4096)  # the quote program's lists of states, choices and branches
LONGEST = 65536  # bytes of a model file
MOST = 1000  # steps of a refine, sweeps of a sweep call


class Refused(Exception):
    """A refusal: its number and its places."""

    def __init__(self, number, *places):
        super().__init__(number, *places)
        self.number, self.places = number, places


# ---------------------------------------------------------------------------------------------- tables


class Table:
    """A list source: W, states (first choice, count), choices (reward, first branch, count), branches (successor, weight)."""

    def __init__(self, W, states, choices, branches):
        self.W = W
        self.states = [tuple(row) for row in states]
        self.choices = [tuple(row) for row in choices]
        self.branches = [tuple(row) for row in branches]

    @staticmethod
    def of(W, rows):
        """The lists of a table given as, for each state, a list of (reward, [(successor, weight)])."""
        states, choices, branches = [], [], []
        for row in rows:
            states.append((len(choices), len(row)))
            for reward, out in row:
                choices.append((reward, len(branches), len(out)))
                branches.extend(out)
        return Table(W, states, choices, branches)

    def rows(self):
        """For each state that counts, its choices as (reward, [(successor, weight)])."""
        return [
            [(reward, run(self.branches, first, count)) for reward, first, count in run(self.choices, *state)]
            for state in self.states[:257]
        ]

    def fault(self):
        """The first broken limit on the walk as (number, state, choice, branch), or None: the least by place on the walk."""
        return min(self.faults(), default=(None, None))[1]

    def faults(self):
        """Every broken limit, as (place on the walk, notice)."""
        rows = self.rows()
        if not 1 <= len(rows) <= 256:
            yield (0,), (11, 0, 0, 0)
        if not 1 <= self.W <= 65536:
            yield (1,), (12, 0, 0, 0)
        for s, row in enumerate(rows):
            if not 1 <= len(row) <= 16:
                yield (2, s), (13, s, 0, 0)
            for c, (reward, out) in enumerate(row):
                if abs(reward) > 1_000_000:
                    yield (2, s, c, 0), (14, s, c, 0)
                if not 1 <= len(out) <= 8:
                    yield (2, s, c, 1), (15, s, c, 0)
                if sum(weight for _, weight in out) != self.W:
                    yield (2, s, c, 3), (19, s, c, 0)
                for b, (successor, weight) in enumerate(out):
                    if successor >= len(rows):
                        yield (2, s, c, 2, b, 0), (16, s, c, b)
                    if weight < 1:
                        yield (2, s, c, 2, b, 1), (17, s, c, b)
                    if successor in [other for other, _ in out[:b]]:
                        yield (2, s, c, 2, b, 2), (18, s, c, b)


def run(places, first, count):
    """The run of `count` places from `first` on; empty if it passes the end."""
    return places[first : first + count] if first + count <= len(places) else []


# ------------------------------------------------------------------------------------------ model files


def grammar():
    """The fields of a model file in order: yields each field's size, is sent its place and bytes, and answers (W, rows)."""

    def number(size, signed=False):
        _, field = yield size
        return int.from_bytes(field, "little", signed=signed)

    def bit_map(known):
        place, field = yield 1
        if field[0] >> known:
            raise Refused(32, place)
        return [bool(field[0] >> bit & 1) for bit in range(known)]

    def text():
        yield (yield from number(1))

    has_W, has_name = yield from bit_map(2)
    W = (yield from number(4)) if has_W else 1
    if has_name:
        yield from text()
    rows = []
    for s in range((yield from number(2))):
        rows.append([])
        for _ in range((yield from number(1))):
            has_reward, has_branches, has_label = yield from bit_map(3)
            reward = (yield from number(4, signed=True)) if has_reward else 0
            out = [(s, W)]
            if has_branches:
                out = []
                for _ in range((yield from number(1))):
                    successor = yield from number(2)
                    out.append((successor, (yield from number(4))))
            if has_label:
                yield from text()
            rows[-1].append((reward, out))
    return W, rows


def read_model(data, room=ROOM):
    """The table of a model file, read into lists with so much room; raises Refused with 26, 31, 32, 33 or 34."""
    if len(data) > LONGEST:
        raise Refused(34)
    fields, at = grammar(), 0
    size = next(fields)
    while True:
        field = data[at : at + size]
        if len(field) < size:
            raise Refused(31, at)
        place, at = at, at + size
        try:
            size = fields.send((place, field))
        except StopIteration as end:
            W, rows = end.value
            break
    if at < len(data):
        raise Refused(33, at)
    table = Table.of(W, rows)
    if any(len(used) > most for used, most in zip((table.states, table.choices, table.branches), room)):
        raise Refused(26)
    return table


# ------------------------------------------------------------------------------------------- components


def strong_parts(n, follow):
    """Tarjan: for each state a mark that two states share exactly if each reaches the other by `follow`."""
    order, low, mark = [None] * n, [0] * n, [None] * n
    stack, clock = [], 0
    for root in range(n):
        if order[root] is not None:
            continue
        work = [(root, None, None)]
        while work:
            s, before, left = work.pop()
            if left is None:
                order[s] = low[s] = clock
                clock += 1
                stack.append(s)
                left = iter(follow[s])
            else:
                low[s] = min(low[s], low[before])
            for u in left:
                if order[u] is None:
                    work += [(s, u, left), (u, None, None)]
                    break
                if mark[u] is None:
                    low[s] = min(low[s], order[u])
            else:
                if low[s] == order[s]:
                    while mark[s] is None:
                        mark[stack.pop()] = s
    return mark


def inside_choices(rows):
    """The choices of maximal end components: drops choices that leave their strong part until none does."""
    kept = [set(range(len(row))) for row in rows]
    while True:
        follow = [{u for c in kept[s] for u, _ in row[c][1]} for s, row in enumerate(rows)]
        mark = strong_parts(len(rows), follow)
        drop = [(s, c) for s, row in enumerate(rows) for c in kept[s] if any(mark[u] != mark[s] for u, _ in row[c][1])]
        if not drop:
            return [sorted(cs) for cs in kept], mark
        for s, c in drop:
            kept[s].remove(c)


class Parts:
    """Nodes and components of a lawful table, numbered by rising lowest state."""

    def __init__(self, rows):
        self.inside, mark = inside_choices(rows)
        groups = {}
        for s in range(len(rows)):
            groups.setdefault(mark[s] if self.inside[s] else (s,), []).append(s)
        self.nodes = list(groups.values())
        self.node = [None] * len(rows)
        for i, group in enumerate(self.nodes):
            for s in group:
                self.node[s] = i
        self.components = [i for i, group in enumerate(self.nodes) if self.inside[group[0]]]
        self.component = {node: k for k, node in enumerate(self.components)}


# ----------------------------------------------------------------------------------------------- engine


class Book:
    """The numbers of a loaded table. vector, recorded: by state; lo, hi: by component; x, y, plan: by node."""

    def __init__(self, table):
        rows, W = table.rows(), table.W
        self.W, self.rows, self.parts = W, rows, Parts(rows)
        parts = self.parts
        rewards = [reward for row in rows for reward, _ in row]
        least, most = F * min(rewards), F * max(rewards)
        n, nodes, components = len(rows), len(parts.nodes), len(parts.components)
        self.vector = [0] * n
        self.recorded = [parts.inside[s][0] if parts.inside[s] else 0 for s in range(n)]
        self.lo, self.hi = [least] * components, [most] * components
        self.x, self.y = [most] * nodes, [least] * nodes
        self.plan = [None if i in parts.component else (group[0], 0) for i, group in enumerate(parts.nodes)]
        # by state: (choice, W x F x reward, branches) of each inside choice; by node: (state, choice, branches by node)
        self.stays = [[(c, W * F * rows[s][c][0], rows[s][c][1]) for c in parts.inside[s]] for s in range(n)]
        self.exits = [
            [
                (s, c, [(parts.node[u], weight) for u, weight in out])
                for s in group
                for c, (_, out) in enumerate(rows[s])
                if c not in parts.inside[s]
            ]
            for group in parts.nodes
        ]

    def up(self, total):
        return -(-total // self.W)

    def down(self, total):
        return total // self.W

    def step(self, k):
        """One refine step of component k; answers whether it was held."""
        t, group = self.vector, self.parts.nodes[self.parts.components[k]]
        totals = {s: [gain + sum(weight * t[u] for u, weight in out) for _, gain, out in self.stays[s]] for s in group}
        best = {s: max(totals[s]) for s in group}
        rise = {s: self.down(best[s]) - t[s] for s in group}
        self.hi[k] = min(self.hi[k], max(self.up(best[s]) - t[s] for s in group))
        if min(rise.values()) > self.lo[k]:
            self.lo[k] = min(rise.values())
            for s in group:
                first = [self.down(total) for total in totals[s]].index(self.down(best[s]))
                self.recorded[s] = self.stays[s][first][0]
        moved = {s: t[s] + rise[s] // 2 for s in group}
        least = min(moved.values())
        held = any(z - least > H for z in moved.values())
        if not held:
            for s in group:
                t[s] = moved[s] - least
        return held

    def refine(self, k, steps, width):
        made, held = 0, False
        while made < steps and not held and self.hi[k] - self.lo[k] > width:
            held = self.step(k)
            made += 1
        return made

    def update(self, i):
        """The update of node i; answers whether x or y was altered."""
        before = self.x[i], self.y[i]
        upper = [self.up(sum(weight * self.x[j] for j, weight in out)) for _, _, out in self.exits[i]]
        lower = [self.down(sum(weight * self.y[j] for j, weight in out)) for _, _, out in self.exits[i]]
        ways = [(s, c) for s, c, _ in self.exits[i]]
        if i in self.parts.component:
            k = self.parts.component[i]
            upper, lower, ways = [self.hi[k]] + upper, [self.lo[k]] + lower, [None] + ways
        self.x[i], self.y[i] = max(upper), max(lower)
        if self.y[i] > before[1]:
            self.plan[i] = ways[lower.index(self.y[i])]
        return before != (self.x[i], self.y[i])

    def sweep(self, count):
        for made in range(1, count + 1):
            altered = [self.update(i) for i in range(len(self.exits))]
            if not any(altered):
                break
        return made

    def play(self):
        """The plan: a choice for each state."""
        plan = list(self.recorded)
        for group, way in zip(self.parts.nodes, self.plan):
            if way is not None:
                far = self.distances(group, way[0])
                for s in group:
                    near = [c for c, _, out in self.stays[s] if any(far[u] == far[s] - 1 for u, _ in out)]
                    plan[s] = way[1] if s == way[0] else near[0]
        return plan

    def distances(self, group, target):
        """Fewest inside branches from each state of the group to the target: breadth-first, backwards."""
        back = {s: set() for s in group}
        for s in group:
            for _, _, out in self.stays[s]:
                for u, _ in out:
                    back[u].add(s)
        far, queue = {target: 0}, deque([target])
        while queue:
            u = queue.popleft()
            for s in back[u] - far.keys():
                far[s] = far[u] + 1
                queue.append(s)
        return far


class Engine:
    """One engine. Each call answers a tuple whose first word is the call's, or "done", "fault" or "refused"; a refusal is
    ("refused", number, places ..), and standing of an idle engine is ("fault", number, state, choice, branch)."""

    def __init__(self, table):
        self.table, self.book, self.idle = None, None, table.fault()
        if self.idle is None:
            self.table, self.book = table, Book(table)

    def load(self, table):
        fault = table.fault()
        if fault is not None:
            return ("refused",) + fault
        self.table, self.book, self.idle = table, Book(table), None
        return ("done",)

    def standing(self):
        if self.idle is not None:
            return ("fault",) + self.idle
        return ("standing", len(self.book.rows), len(self.book.parts.components))

    def refine(self, component, steps, width):
        if self.idle is not None:
            return ("refused", 21)
        book = self.book
        if component >= len(book.lo):
            return ("refused", 22)
        if not 1 <= steps <= MOST:
            return ("refused", 24)
        return ("refine", book.refine(component, steps, width), book.lo[component], book.hi[component])

    def sweep(self, count):
        if self.idle is not None:
            return ("refused", 21)
        if not 1 <= count <= MOST:
            return ("refused", 24)
        return ("sweep", self.book.sweep(count))

    def close(self):
        if self.idle is not None:
            return ("refused", 21)
        self.book = Book(self.table)
        return ("done",)

    def quote(self, state, width):
        if self.idle is not None:
            return ("refused", 21)
        if state >= len(self.book.rows):
            return ("refused", 23)
        i = self.book.parts.node[state]
        lower, upper = self.book.y[i], self.book.x[i]
        return ("quote", lower, upper, 1 if upper - lower <= width else 0)

    def plan(self, target):
        """Writes to the front of the list `target` and leaves the rest; the answer has the whole list."""
        if self.idle is not None:
            return ("refused", 21)
        if len(target) < len(self.book.rows):
            return ("refused", 25)
        choices = self.book.play()
        target[: len(choices)] = choices
        return ("plan", tuple(target))


def replay(open_table, calls):
    """Opens an engine and makes the calls; one answer for each call. A call is ("load", table), ("standing",),
    ("refine", component, steps, width), ("sweep", count), ("close",), ("quote", state, width), or ("plan", room, fill): a
    list of `room` places that hold `fill` before."""
    engine, answers = Engine(open_table), []
    for word, *values in calls:
        if word == "plan":
            values = [[values[1]] * values[0]]
        answers.append(getattr(engine, word)(*values))
    return answers


def watched_steps(counts):
    """Counts refine steps from now on: counts["steps"], and of these counts["held"]."""
    plain = Book.step

    def step(book, k):
        held = plain(book, k)
        counts["steps"] += 1
        counts["held"] += held
        return held

    Book.step = step


# ---------------------------------------------------------------------------------------- quote program

ARGUMENT = rb" ([0-9]{1,18})"
COMMANDS = [
    ("refine", re.compile(rb"R" + ARGUMENT * 3)),
    ("sweep", re.compile(rb"S" + ARGUMENT)),
    ("quote", re.compile(rb"Q" + ARGUMENT * 2)),
    ("plan", re.compile(rb"P")),
    ("close", re.compile(rb"C")),
]


def read_command(line):
    """The command that a line spells, as a word and its numbers, or None."""
    for word, shape in COMMANDS:
        spelled = shape.fullmatch(line)
        if spelled:
            return word, [int(digits) for digits in spelled.groups()]
    return None


def answer(engine, line):
    """The answer to one command line: a letter and numbers. A refusal's only place, the line's number, is still missing."""
    command = read_command(line)
    if command is None:
        return "E", 35
    word, values = command
    if word == "plan":
        values = [[0] * len(engine.book.rows)]
    kind, *numbers = getattr(engine, word)(*values)
    if kind == "plan":
        numbers = numbers[0]
    return ("E" if kind == "refused" else line[:1].decode(), *numbers)


def spelled(words):
    return (" ".join(str(word) for word in words) + "\n").encode()


def quote_lines(data, lines):
    """The lines that the quote program prints for a model file's bytes and command lines (line feeds allowed), as they come."""
    try:
        engine = Engine(read_model(data))
    except Refused as refusal:
        yield spelled(("E", refusal.number) + refusal.places)
        return
    kind, *numbers = engine.standing()
    yield spelled(["E" if kind == "fault" else "L"] + numbers)
    if kind == "fault":
        return
    for count, line in enumerate(lines, 1):
        words = answer(engine, line[:-1] if line.endswith(b"\n") else line)
        yield spelled(words + (count,) if words[0] == "E" else words)


def lines_of(stdin):
    """The lines of an input, without their line feeds."""
    lines = stdin.split(b"\n")
    return lines if lines[-1] else lines[:-1]


def quote(data, stdin):
    """All that the quote program prints for a model file's bytes and an input's bytes."""
    return b"".join(quote_lines(data, lines_of(stdin)))


def main(words):
    if len(words) > 1 or words[:1] == ["--help"]:
        sys.stderr.write(__doc__)
        return 2
    path, data = words[0] if words else "model.bin", b""
    if os.path.exists(path):
        with open(path, "rb") as file:
            data = file.read()
    for line in quote_lines(data, sys.stdin.buffer):
        sys.stdout.buffer.write(line)
        sys.stdout.buffer.flush()
    return 0


if __name__ == "__main__":
    sys.exit(main(sys.argv[1:]))
