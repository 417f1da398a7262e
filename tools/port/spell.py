#!/usr/bin/env python3
"""Brings the repository's own definitions and lemmas to the spelling of today's Rattle.

usage: tools/port/spell.py names     lists each own name that is spelled in the older way, and what it becomes (tools/port/names.tsv)
       tools/port/spell.py turn      rewrites the .rt, .antt and .edit files of crates/ by tools/port/names.tsv

Run once, after the toolchain's own script, which turns paths, clauses and the library's names. A definition, a lemma, a field and a
constructor are in snake case (`faultOf` and `fault-of` become `fault_of`); types, facts and modules keep their capitals; a prime is an
apostrophe. Names of goals, which Rattle makes from the code, are left. Whole words are turned, and no strings of .rt files.
"""
import os, re, sys

ROOT = os.path.dirname(os.path.dirname(os.path.dirname(os.path.realpath(__file__))))
TSV = os.path.join(os.path.dirname(os.path.realpath(__file__)), 'names.tsv')
WORD = r"[^\s(){}\[\],;.:λ◌\"«»⌜⌝]+"
SIGN = re.compile(r'^\s*(?:(?:abbrev|pub|unfoldable|syntax|private)\s+)*(' + WORD + r')(?:\s+(?:\([^()]*\)|\{[^{}]*\}))*\s+:\s')
GOAL = re.compile(r':\s*(?:goal|given|need|\w*Goals|\w*Given)\.')


def files(root, ends):
    for folder, dirs, names in os.walk(os.path.join(root, 'crates')):
        dirs[:] = sorted(d for d in dirs if d not in ('out', '.git'))
        for n in sorted(names):
            if n.endswith(ends):
                yield os.path.join(folder, n)


def snake(name):
    name = name.replace('′', "'")
    name = re.sub(r'([a-z0-9])([A-Z])', lambda m: m.group(1) + '_' + m.group(2).lower(), name)
    return re.sub(r'(?<=[A-Za-z0-9\'])-(?=[A-Za-z0-9])', '_', name)


def read(p):
    with open(p, encoding='utf-8') as f:
        return f.read()


def own_names(root):
    found = {}
    for p in files(root, '.antt'):
        for line in read(p).split('\n'):
            m = SIGN.match(line)
            if not m or GOAL.search(line) or line.lstrip().startswith(('use ', '--', 'let ', 'record ', 'data ')):
                continue
            w = m.group(1)
            if w[0].isupper() or not (w[0].isalpha()) or w in ('λ', '→'):
                continue
            if snake(w) != w:
                found.setdefault(w, set()).add(os.path.relpath(p, root))
    return found


def words(text):
    return set(re.findall(WORD, text))


# where the snake case of a name stands already: as a function of src/, which may have the name of what it answers, or else another name
OTHERWISE = {
    'componentAt': 'component_at', 'exitOr': 'exit_or', 'firstExit': 'first_exit', 'firstInside': 'first_inside', 'firstInto': 'first_into',
    'insideInto': 'inside_into', 'leadsBack': 'leads_back', 'leadsTo': 'leads_to', 'nextLine': 'next_line', 'stayIn': 'stay_in',
    'valueOr': 'value_or', 'workedModels': 'worked_models', 'workedTables': 'worked_tables', 'refusedFile': 'refused_file', 'stepBy': 'step_with',
}


def half(name):
    """Snake case but for the dashes, which join two names."""
    return '-'.join(snake(part) for part in name.replace('′', "'").split('-'))


def names(root):
    own = own_names(root)
    crates = set(os.listdir(os.path.join(root, 'crates')))
    where, imported = {}, set()
    for p in files(root, ('.antt', '.rt')):
        t = read(p)
        for w in words(t):
            where.setdefault(w, set()).add(p)
        for m in re.finditer(r'^\s*(?:pub |ghost )*use ([\w.+]+)\.\{([^}]*)\}', t, re.M):
            head = m.group(1).split('.')
            if head[0] == 'Rattle' and len(head) > 1 and head[1] in crates:
                continue
            for w in re.split(r',\s*', m.group(2)):
                imported.add(w.split(' as ')[0].strip())
    rows, taken, clash = {}, {}, []
    # definitions in camel case first, then what has a dash
    for w in sorted(own, key=lambda w: ('-' in w, w)):
        if w in imported:
            clash.append(('comes from elsewhere too', w))
            continue
        for n in [OTHERWISE[w]] if w in OTHERWISE else [snake(w), half(w)]:
            near = where.get(w, set()) & where.get(n, set())
            if n == w or w in OTHERWISE or (n not in taken and not near and n not in own):
                break
        else:
            clash.append(('taken', w, n, taken.get(n, ''), ' '.join(os.path.relpath(x, root) for x in list(near)[:3])))
            continue
        if n != snake(w):
            clash.append(('keeps its dash', w, n))
        taken[n] = w
        if n != w:
            rows[w] = n
    return sorted(rows.items()), clash


def turn(root):
    table = dict(l.split('\t')[:2] for l in read(TSV).split('\n') if l)
    pattern = re.compile('(' + WORD + ')')
    changed = 0
    for p in files(root, ('.antt', '.rt', '.edit')):
        t = read(p)
        u = pattern.sub(lambda m: table.get(m.group(1), m.group(1)), t)
        u = u.replace('′', "'") if p.endswith('.antt') or p.endswith('.rt') else u
        if u != t:
            with open(p, 'w', encoding='utf-8') as f:
                f.write(u)
            changed += 1
    print(f'{changed} files turned')


def main():
    if sys.argv[1:] == ['names']:
        rows, clash = names(ROOT)
        with open(TSV, 'w', encoding='utf-8') as f:
            f.write(''.join(f'{a}\t{b}\n' for a, b in rows))
        print(len(rows), 'names')
        for c in clash:
            print('look:', *c)
    elif sys.argv[1:] == ['turn']:
        turn(ROOT)
    else:
        print(__doc__)
        raise SystemExit(2)


main()
