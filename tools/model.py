#!/usr/bin/env python3
"""Writes model files from a readable text, and back.

usage: model.py write TEXT BIN    the text file TEXT as the model file BIN
       model.py read BIN          the model file BIN as text, on standard output
       model.py band B H C        the text of a rehedging band of half-width B, holding cost H and recentring cost C

The text has one item a line; blank lines and what follows '#' do not count:

    denominator 4            optional, 1 where missing
    name "two runs"          optional
    state                    begins a state; states are numbered from 0
    choice                   begins a choice of the last state
    reward -3                optional in a choice, 0 where missing
    branches 0:1 2:3         optional in a choice, successor:weight; where missing, one to its own state with weight W
    label "hold"             optional in a choice

Texts are written as in Python, with escapes such as \\x00 for bytes that are not printable.
"""
import ast
import struct
import sys


class Refused(Exception):
    pass


def text_bytes(word):
    value = ast.literal_eval(word)
    if not isinstance(value, str):
        raise Refused("a text stands in quotes: " + word)
    data = value.encode("latin-1")
    if len(data) > 255:
        raise Refused("a text has at most 255 bytes")
    return data


def number(word, low, high):
    value = int(word)
    if not low <= value <= high:
        raise Refused("%d is not %d to %d" % (value, low, high))
    return value


def parse(text):
    model = {"denominator": None, "name": None, "states": []}
    for count, line in enumerate(text.splitlines(), 1):
        line = line.split("#", 1)[0].strip() if '"' not in line else line.strip()
        if not line:
            continue
        word, _, rest = line.partition(" ")
        rest = rest.strip()
        try:
            take(model, word, rest)
        except (Refused, ValueError, SyntaxError, IndexError) as fault:
            raise Refused("line %d: %s" % (count, fault))
    return model


def take(model, word, rest):
    if word == "denominator":
        model["denominator"] = number(rest, 0, 2**32 - 1)
    elif word == "name":
        model["name"] = text_bytes(rest)
    elif word == "state":
        model["states"].append([])
    elif word == "choice":
        model["states"][-1].append({"reward": None, "branches": None, "label": None})
    elif word == "reward":
        model["states"][-1][-1]["reward"] = number(rest, -(2**31), 2**31 - 1)
    elif word == "branches":
        pairs = [pair.split(":") for pair in rest.split()]
        model["states"][-1][-1]["branches"] = [
            (number(u, 0, 65535), number(w, 0, 2**32 - 1)) for u, w in pairs
        ]
    elif word == "label":
        model["states"][-1][-1]["label"] = text_bytes(rest)
    else:
        raise Refused("unknown word " + word)


def written(model):
    W, name, states = model["denominator"], model["name"], model["states"]
    out = bytearray([(W is not None) + 2 * (name is not None)])
    if W is not None:
        out += struct.pack("<I", W)
    if name is not None:
        out += bytes([len(name)]) + name
    out += struct.pack("<H", number(str(len(states)), 0, 65535))
    for choices in states:
        out.append(number(str(len(choices)), 0, 255))
        for c in choices:
            out.append((c["reward"] is not None) + 2 * (c["branches"] is not None) + 4 * (c["label"] is not None))
            if c["reward"] is not None:
                out += struct.pack("<i", c["reward"])
            if c["branches"] is not None:
                out.append(number(str(len(c["branches"])), 0, 255))
                for successor, weight in c["branches"]:
                    out += struct.pack("<HI", successor, weight)
            if c["label"] is not None:
                out += bytes([len(c["label"])]) + c["label"]
    if len(out) > 65536:
        raise Refused("34")
    return bytes(out)


class Reader:
    def __init__(self, file):
        self.file, self.at = file, 0

    def field(self, size):
        if self.at + size > len(self.file):
            raise Refused("31 %d" % self.at)
        self.at += size
        return self.file[self.at - size : self.at]

    def number(self, size, signed=False):
        return int.from_bytes(self.field(size), "little", signed=signed)

    def bits(self, known):
        start = self.at
        bits = self.number(1)
        if bits >= known:
            raise Refused("32 %d" % start)
        return bits

    def text(self):
        return self.field(self.number(1))


def read(file):
    if len(file) > 65536:
        raise Refused("34")
    reader = Reader(file)
    bits = reader.bits(4)
    model = {"denominator": reader.number(4) if bits & 1 else None}
    model["name"] = reader.text() if bits & 2 else None
    model["states"] = []
    for _ in range(reader.number(2)):
        choices = []
        for _ in range(reader.number(1)):
            bits = reader.bits(8)
            c = {"reward": reader.number(4, True) if bits & 1 else None}
            c["branches"] = [(reader.number(2), reader.number(4)) for _ in range(reader.number(1))] if bits & 2 else None
            c["label"] = reader.text() if bits & 4 else None
            choices.append(c)
        model["states"].append(choices)
    if reader.at < len(file):
        raise Refused("33 %d" % reader.at)
    return model


def quoted(data):
    inner = data.decode("latin-1").encode("unicode_escape").decode("ascii").replace('"', '\\"')
    return '"' + inner + '"'


def shown(model):
    out = []
    if model["denominator"] is not None:
        out.append("denominator %d" % model["denominator"])
    if model["name"] is not None:
        out.append("name " + quoted(model["name"]))
    for number_, choices in enumerate(model["states"]):
        out.append("state  # %d" % number_)
        for c in choices:
            out.append("  choice")
            if c["reward"] is not None:
                out.append("    reward %d" % c["reward"])
            if c["branches"] is not None:
                out.append(("    branches " + " ".join("%d:%d" % b for b in c["branches"])).rstrip())
            if c["label"] is not None:
                out.append("    label " + quoted(c["label"]))
    return "\n".join(out) + "\n"


def band(b, h, c):
    model = {"denominator": 4, "name": b"rehedging band", "states": []}
    for i in range(2 * b + 1):
        weights = {}
        for j, w in ((i - 1, 1), (i, 2), (i + 1, 1)):
            j = j if 0 <= j <= 2 * b else i
            weights[j] = weights.get(j, 0) + w
        hold = {"reward": -h * abs(i - b), "branches": sorted(weights.items()), "label": b"hold"}
        centre = {"reward": -c, "branches": [(b, 4)], "label": b"recentre"}
        model["states"].append([hold, centre])
    return model


def main(words):
    if len(words) == 3 and words[0] == "write":
        with open(words[1]) as source:
            data = written(parse(source.read()))
        with open(words[2], "wb") as target:
            target.write(data)
    elif len(words) == 2 and words[0] == "read":
        with open(words[1], "rb") as source:
            sys.stdout.write(shown(read(source.read())))
    elif len(words) == 4 and words[0] == "band":
        sys.stdout.write(shown(band(*(int(word) for word in words[1:]))))
    else:
        sys.stderr.write(__doc__)
        return 2
    return 0


if __name__ == "__main__":
    try:
        sys.exit(main(sys.argv[1:]))
    except Refused as fault:
        sys.exit("model.py: %s" % fault)
