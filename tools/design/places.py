#!/usr/bin/env python3
"""The places in src/ where older forms may stand, by point: python3 tools/design/places.py [FOLDER] [-v]

It reads the crates' src/ as text, so it finds candidates; docs/DESIGN-PASS.md says what became of each.
"""
import collections
import glob
import os
import re
import sys

folder = next((a for a in sys.argv[1:] if not a.startswith('-')), '.')
verbose = '-v' in sys.argv
files = sorted(glob.glob(os.path.join(folder, 'crates/*/src/*.rt')))
TESTS = ('source_tests', 'sample_tests', 'modelfile_tests', 'console_tests')


def crate(path):
    return path.split('crates/')[1].split('/')[0]


def short(path):
    return path.split('crates/')[1].replace('/src/', '/')


def parameters(head, name):
    """What stands after the bracket that opens the parameters: the first after the name and its generics."""
    rest = head[head.index('fn ' + name) + 3 + len(name):].replace('->', '  ')
    depth = 0
    for i, ch in enumerate(rest):
        if ch == '<':
            depth += 1
        if ch == '>':
            depth -= 1
        if ch == '(' and depth == 0:
            return rest[i + 1:]
    raise ValueError(head)


class Fn:
    """A function: where it stands, its parameters, its clauses and its body."""

    def __init__(self, path, line, name, head, body, of_trait):
        self.path, self.line, self.name, self.head, self.body, self.of_trait = path, line, name, head, body, of_trait
        inside = parameters(head, name)
        depth, out, word = 1, [], ''
        for ch in inside:
            if ch in '([{<':
                depth += 1
            if ch in ')]}>':
                depth -= 1
            if depth == 0:
                break
            if ch == ',' and depth == 1:
                out.append(word)
                word = ''
            else:
                word += ch
        out.append(word)
        self.params = [re.sub(r'\s+', ' ', p).strip().replace('mut ', '') for p in out if p.strip()]
        self.requires = re.findall(r'requires(?: \w+)? \{ (.*) \}', head)
        self.ensures = re.findall(r'ensures(?: \w+)? \{ (.*) \}', head)

    def at(self):
        return f'{short(self.path)}:{self.line} {self.name}'


def functions(path):
    lines = open(path).read().split('\n')
    i, out, of_trait = 0, [], False
    while i < len(lines):
        if re.match(r'(impl|trait|pub trait)\b', lines[i]):
            of_trait = ' for ' in lines[i] or 'trait ' in lines[i]
        m = re.match(r'^(\s*)(?:pub(?:\(crate\))? )?fn (\w+)', lines[i])
        if not m:
            i += 1
            continue
        pad, start = m.group(1), i
        head = lines[i]
        while not (lines[i].rstrip() == pad + '{' or lines[i].rstrip().endswith(' {') and 'requires' not in lines[i] and 'ensures' not in lines[i] or lines[i].rstrip().endswith(';')):
            i += 1
            head += '\n' + lines[i]
        body = []
        if not lines[i].rstrip().endswith(';'):
            i += 1
            while i < len(lines) and lines[i].rstrip() != pad + '}':
                body.append((i + 1, lines[i]))
                i += 1
        out.append(Fn(path, start + 1, m.group(2), head, body, bool(pad) and of_trait))
        i += 1
    return out


fns = [f for p in files for f in functions(p)]
lines = [(p, n + 1, l) for p in files for n, l in enumerate(open(p).read().split('\n'))]


def grep(rx, but=()):
    return [f'{short(p)}:{n} {l.strip()}' for p, n, l in lines if re.search(rx, l) and crate(p) not in but and not l.strip().startswith('//') and not l.startswith('ghost use')]


def enums():
    """Enums of at most two cases, or with a case that refuses."""
    out = []
    for p in files:
        text = open(p).read()
        for m in re.finditer(r'enum (\w+)(?:<[^{]*>)? \{\n(.*?)\n\}', text, re.S):
            cases = re.findall(r'^    (\w+)', m.group(2), re.M)
            if len(cases) <= 2 or 'Refused' in cases or 'Idle' in cases and 'Loaded' in cases:
                out.append(f'{short(p)} enum {m.group(1)}: {", ".join(cases)}')
    return out


def point1():
    yield 'enums of at most two cases, or with a case that refuses', enums()
    yield 'a fault in an Option', grep(r'-> Option<\w*Fault>')
    yield 'a number for a yes or no', grep(r'mark: u64|-> u64$|i64, u64\), Refusal') and grep(r'\bmark: u64|fn mark\(|\(i64, i64, u64\)')
    yield 'a number that stands for a theorem', grep(r'^pub fn \w+\(\) -> (u8|usize)$')
    yield 'a flag beside values in a struct', grep(r'^\s+(pub(\(crate\))? )?\w+: bool,')
    yield 'a number that says "none" (by its comment)', [f'{short(p)}:{n} {l.strip()}' for p, n, l in lines if l.strip().startswith('//') and re.search(r'0 where there is no|or how many choices|answers the theorem|and 0 of a|or none: \(0|, 0 where it has none', l)]
    yield 'a number for an absent one', grep(r'unwrap_or\((\d+|\w+)\)', TESTS)
    yield 'a number of a refusal by hand', grep(r'noted\(\d|numbered\(\d|number: \w+,$|const (UNREAD|WANT_OF_MEMORY)', TESTS)


def point2():
    seen = collections.defaultdict(set)
    for f in fns:
        if f.name not in ('main', 'new') and crate(f.path) not in TESTS and not f.of_trait:
            seen[f.name].add(short(f.path))
    yield 'a function or method of the same name in two files', [f'{n}: {", ".join(sorted(s))}' for n, s in sorted(seen.items()) if len(s) > 1]
    types = collections.defaultdict(set)
    for p in files:
        for n in re.findall(r'(?:struct|enum) (\w+)', open(p).read()):
            types[n].add(short(p))
    yield 'a type of the same name in two files', [f'{n}: {", ".join(sorted(s))}' for n, s in sorted(types.items()) if len(s) > 1]
    consts = collections.defaultdict(set)
    for p in files:
        if crate(p) not in TESTS:
            for n in re.findall(r'const (\w+):', open(p).read()):
                consts[n].add(short(p))
    yield 'a constant of the same name in two files', [f'{n}: {", ".join(sorted(s))}' for n, s in sorted(consts.items()) if len(s) > 1]
    family = []
    for p in files:
        names = [f for f in fns if f.path == p and crate(p) not in TESTS]
        groups = collections.defaultdict(list)
        for f in names:
            parts = f.name.split('_')
            if len(parts) > 1:
                groups[parts[0] + '_*'].append(f)
                groups['*_' + parts[-1]].append(f)
        for k, g in sorted(groups.items()):
            shapes = collections.Counter(len(f.body) // 4 for f in g)
            if len(g) >= 3:
                family.append(f'{short(p)} {k}: {", ".join(f.name for f in g)}')
    yield 'three functions of one family of names in a file', family


def loops():
    """Range loops and while loops, with what the body does with the number."""
    out = []
    for f in fns:
        for k, (n, l) in enumerate(f.body):
            m = re.match(r'^(\s*)(?:for (\w+) in ([^{]*\.\.[^{]*)|while ([^{]*)) \{', l)
            if not m:
                continue
            pad, inner = m.group(1), []
            for _, b in f.body[k + 1:]:
                if b.startswith(pad + '}'):
                    break
                inner.append(b)
            text, v = '\n'.join(inner), m.group(2)
            kind = None
            if m.group(4) is not None:
                kind = 'counts by hand' if re.search(r'\+= 1', text) else ('while let' if 'let' in m.group(4) else 'counts by hand')
            elif v and re.search(r'\[[^\]]*\b%s\b' % v, text):
                kind = 'indexes'
            elif re.search(r'return (true|false|%s\b|Some)' % v, text):
                kind = 'searches'
            elif re.search(r'\b(sum|largest|least|inside|changed|further|quiet)\b *(=|\+=)', text):
                kind = 'sums'
            elif re.search(r'\.push\(', text):
                kind = 'collects'
            elif v and not re.search(r'\b%s\b' % v, text):
                kind = 'repeats'
            else:
                kind = 'asks by number'
            out.append((kind, f'{short(f.path)}:{n} {f.name}: {l.strip()}'))
        for k, (n, l) in enumerate(f.body):
            if re.search(r'(\w+) = \1\.(wrapping_add|saturating_add)\((1|\*count)\)', l):
                out.append(('counts by hand', f'{short(f.path)}:{n} {f.name}: {l.strip()}'))
    return out


def point3():
    for kind in ('counts by hand', 'indexes', 'searches', 'sums', 'collects', 'while let', 'repeats', 'asks by number'):
        yield kind, [t for k, t in loops() if k == kind]


def point4():
    yield 'printing by hand', [f.at() for f in fns if re.match(r'(print|show)_', f.name) or f.name in ('answer', 'show', 'refused') and 'HostRuntime' in f.head]
    yield 'a value made or turned by hand', [f.at() for f in fns if re.search(r'^(noted|numbered|at|state|choice|of_state|of_choice|counts|done|stands|refined|swept|quoted|chosen|word|long|places|gained)$', f.name) and not f.head.startswith('    ')]
    yield 'a comparison by hand', [f.at() for f in fns if f.name in ('larger', 'smaller', 'both_same', 'counts', 'at_most')] + grep(r'< 1 \|\| .* > MOST|< -MOST')
    yield 'a default by hand', grep(r'const NO_\w+')


def point5():
    seen = collections.defaultdict(list)
    for f in fns:
        for c in set(f.requires):
            key = re.sub(r'\b(words|flags|vector|book|component|columns)\.(old|now)', r'\1', c)
            seen[key].append(f)
    yield 'a requires that stands in three functions or more', [f'{len(g)} times: {c}' for c, g in sorted(seen.items(), key=lambda x: -len(x[1])) if len(g) >= 3]
    keeps = collections.Counter(c for f in fns for c in set(f.ensures))
    yield 'an ensures that stands in three functions or more', [f'{k} times: {c}' for c, k in keeps.most_common() if k >= 3]
    group = collections.defaultdict(list)
    for f in fns:
        ps = [p for p in f.params if ':' in p and not re.match(r'(heap|alloc|rt):', p)]
        for i in range(len(ps)):
            for j in range(i + 1, len(ps)):
                group[(ps[i], ps[j])].append(f)
    yield 'two parameters that travel together in three functions or more', [f'{len(g)} times: {a}, {b}' for (a, b), g in sorted(group.items(), key=lambda x: -len(x[1])) if len(g) >= 3]


def point6():
    yield 'a fixed array', grep(r'= \[[^\[\]]*; ?\w+\]|\[\w+; \d+\]', TESTS)
    par = []
    for p in files:
        for m in re.finditer(r'struct (\w+)[^{;]*\{\n(.*?)\n\}', open(p).read(), re.S):
            vecs = re.findall(r'^    (?:pub(?:\(crate\))? )?(\w+): (?:Vec<|&\'a \[|&\'a mut \[)', m.group(2), re.M)
            if len(vecs) > 1:
                par.append(f'{short(p)} struct {m.group(1)}: {", ".join(vecs)}')
    yield 'lists beside one another', par
    yield 'a place and a count', grep(r'^\s+pub first: u32')
    yield 'words of bits', sorted({short(p) for p, n, l in lines if re.search(r'words: (&(mut )?\[u64\]|Vec<u64>)', l)})


def point7():
    yield 'a match on a letter, a kind or a number', grep(r'match (letter|kind|choice|branch|\S*file\.byte\(\)\?\S*) \{')
    yield 'a flag that says whether to run', [f.at() for f in fns if any(re.search(r'\b(present|held|rises): bool', p) for p in f.params)]


def point8():
    rows = []
    for c in sorted({crate(p) for p in files}):
        answers = lemmas = size = 0
        for p in glob.glob(os.path.join(folder, f'crates/{c}/proofs/**/*.antt'), recursive=True):
            text = open(p).read()
            size += text.count('\n')
            if os.path.basename(p) in ('Answers.antt', 'Invariants.antt', 'Proof.antt'):
                answers += len(re.findall(r'^pub [^\s:]+ : goal', text, re.M))
            else:
                lemmas += len(re.findall(r'^(?:pub )?[^\s:]+ : ', text, re.M))
        if size:
            rows.append(f'{c}: {answers} answers, {lemmas} lemmas, {size} lines')
    yield 'answers and lemmas of proofs/', rows


for k, point in enumerate((point1, point2, point3, point4, point5, point6, point7, point8), 1):
    parts = list(point())
    print(f'{k}: {sum(len(r) for _, r in parts)}')
    for what, rows in parts:
        print(f'   {len(rows):3d} {what}')
        if verbose:
            for r in rows:
                print(f'         {r}')
