"""Random tables from a seed, the same on every machine."""


class Draw:
    """A stream of numbers from a seed (splitmix64)."""

    def __init__(self, seed):
        self.state = seed & (2**64 - 1)

    def word(self):
        self.state = (self.state + 0x9E3779B97F4A7C15) & (2**64 - 1)
        z = self.state
        z = ((z ^ (z >> 30)) * 0xBF58476D1CE4E5B9) & (2**64 - 1)
        z = ((z ^ (z >> 27)) * 0x94D049BB133111EB) & (2**64 - 1)
        return z ^ (z >> 31)

    def between(self, low, high):
        return low + self.word() % (high - low + 1)

    def one(self, of):
        return of[self.word() % len(of)]

    def chance(self, part, whole):
        return self.word() % whole < part

    def some(self, of, count):
        """`count` different members, in random order."""
        left = list(of)
        return [left.pop(self.word() % len(left)) for _ in range(count)]


def weights(draw, W, count):
    """So many weights of 1 or more that add up to W."""
    if W <= 64:
        cuts = sorted(draw.some(range(1, W), count - 1))
    else:
        cuts = set()
        while len(cuts) < count - 1:
            cuts.add(draw.between(1, W - 1))
        cuts = sorted(cuts)
    return [b - a for a, b in zip([0] + cuts, cuts + [W])]


def branches(draw, W, successors):
    return list(zip(successors, weights(draw, W, len(successors))))


REWARDS = {
    "small": lambda draw: draw.between(-10, 10),
    "few": lambda draw: draw.one([0, 0, 1, -1, 5]),
    "loss": lambda draw: draw.between(-1000, -1),
    "large": lambda draw: draw.between(-1_000_000, 1_000_000),
    "ends": lambda draw: draw.one([-1_000_000, 1_000_000]),
    "odd": lambda draw: 2 * draw.between(-50, 50) + 1,
}


def rows_of(draw, n, W, most_choices, most_branches, shape, rewards):
    """Rows of a lawful table. Shapes: "any": successors anywhere; "near": close by, so that there are several components;
    "loops": many choices that stay, few that leave; "turn": cycles of several lengths, and exits; "down": mostly to
    lower states, so that there are many lone ones; "exits": threes of states that reach each other, with choices that leave them;
    "slow": a step elsewhere has weight 1, so that vectors grow for long."""
    reward = REWARDS[rewards]
    rows = []
    for s in range(n):
        row = []
        for c in range(draw.between(1, most_choices)):
            if shape in ("any", "slow"):
                pool = range(n)
            elif shape == "near":
                pool = range(max(0, s - 1), min(n, s + 2))
            elif shape == "loops":
                pool = [s] if draw.chance(1, 2) else [s, (s + 1) % n, draw.between(0, n - 1)]
            elif shape == "turn":
                length = 2 + s % 3
                base = s - s % length
                pool = [min(n - 1, base + (s + 1 - base) % length)] if draw.chance(3, 4) else range(n)
            elif shape == "exits":
                three = range(s - s % 3, min(n, s - s % 3 + 3))
                following = s + 1 if s + 1 in three else three[0]
                pool = [following] if c == 0 else three if draw.chance(1, 2) else [draw.one(three), draw.between(0, n - 1)]
            else:
                pool = range(0, s + 1) if s and draw.chance(4, 5) else range(max(0, s - 1), min(n, s + 2))
            pool = sorted(set(pool))
            count = draw.between(1, min(most_branches, len(pool), W))
            out = branches(draw, W, draw.some(pool, count))
            if shape == "slow" and n > 1 and W > 1:
                out = [(s, W - 1), ((s + draw.between(1, n - 1)) % n, 1)]
            row.append((reward(draw), out))
        rows.append(row)
    return rows


SHAPES = ["any", "near", "loops", "turn", "down", "exits", "exits"]
DENOMINATORS = [1, 2, 2, 3, 3, 4, 5, 7, 10, 64, 1000, 65535, 65536]


def small(draw, most_states=6, most_choices=3, most_branches=3):
    """W and rows of a small lawful table."""
    W = draw.one(DENOMINATORS)
    n = draw.between(1, most_states)
    return W, rows_of(draw, n, W, most_choices, most_branches, draw.one(SHAPES), draw.one(list(REWARDS)))
