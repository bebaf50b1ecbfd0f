#!/usr/bin/env python3
"""Lists the places in crates/*/src that a better form of the language might take, and counts them.

    python3 tools/places.py [FOLDER]        FOLDER is a checkout (the default is this one)

Each kind of place is found by its shape, and sentinels, enums and functions that do by hand what the library has also by the
names that they had here: a place that it lists may be just right as it stands, and docs/DESIGN-PASS.md says of each what
became of it. The kinds, by the number of the point there:

  1 flag      a function that answers a bool and writes through a `&mut` parameter: a flag with a value beside it
  1 number    a function called `number` or `from_number`: a number that stands for a kind
  1 sentinel  a constant that stands for nothing, or a doc comment that says what number stands for none
  1 shape     an enum of the program's own with a case for a refusal or for want of memory
  2 twin      functions of three lines or more that are one text but for their names, types and constants
  3 loop      a `while`, or a `for` over a range of numbers
  4 by hand   a method or function that compares, copies or converts by hand; a cast by `as`
  5 clause    a clause that stands in the contracts of three functions or more (its text, without its name)
  5 group     two parameters or more, of the same names and types, that stand together in three functions or more
  6 buffer    an array of a fixed length that is filled from the front, or that has a count beside it; lists held side by side
  7 switch    a `match` on a step or a choice that calls a function in each arm
"""
import collections
import pathlib
import re
import sys

FN = re.compile(r'^(?P<indent> *)(?:pub(?:\([a-z]+\))? )?fn (?P<name>\w+)(?P<generics><[^(]*>)?\(', re.M)


def functions(text):
    """Each function of a file: its line, name, parameters, result, clauses and body."""
    for m in FN.finditer(text):
        depth, i = 1, m.end()
        while depth:
            depth += {'(': 1, ')': -1}.get(text[i], 0)
            i += 1
        params = text[m.end():i - 1]
        head, inside = [], None
        for line in text[i:].split('\n'):
            if inside is not None:
                if line == m['indent'] + '}':
                    break
                inside.append(line)
            elif line == m['indent'] + '{' or line.endswith('{') and not head:
                head.append(line[:-1])
                inside = []
            elif line.strip() == '{}' or line.endswith(';') or line.endswith('{}'):
                head.append(line)
                break
            else:
                head.append(line)
        head, text_of = '\n'.join(head), '\n'.join(inside or [])
        result = re.match(r'\s*(?:->\s*([^\n{]*))?', head)[1] or ''
        clauses = re.findall(r'^\s*(?:requires|ensures)\s+(?:\w+ )?\{(.*)\};?\s*$', head, re.M)
        yield dict(line=text.count('\n', 0, m.start()) + 1, name=m['name'], params=params, result=result.strip(),
                   clauses=[c.strip() for c in clauses], body=text_of)


def shape(body):
    """A function's text with its names, types and numbers taken out."""
    kept = 'if else for in match while let return as mut Some None Ok Err true false self'.split()
    names = {}
    def turn(m):
        w = m[0]
        return w if w in kept else '#' if w[0].isdigit() else names.setdefault(w, 'x%d' % len(names))
    body = re.sub(r'//.*', '', body)
    return re.sub(r'\s+', ' ', re.sub(r'\w+', turn, body)).strip()


def parameters(text):
    """A function's parameters as pairs of name and type."""
    parts, depth, at = [], 0, 0
    for i, c in enumerate(text + ','):
        depth += {'(': 1, '<': 1, '[': 1, ')': -1, '>': -1, ']': -1}.get(c, 0)
        if c == ',' and depth == 0:
            parts.append(text[at:i].strip())
            at = i + 1
    return [re.sub(r'\s+', ' ', p) for p in parts if p and 'self' not in p.split(':')[0]]


def main():
    root = pathlib.Path(sys.argv[1] if len(sys.argv) > 1 else pathlib.Path(__file__).resolve().parent.parent)
    found = collections.defaultdict(list)
    shapes, clauses, groups = (collections.defaultdict(list) for _ in range(3))
    for path in sorted(root.glob('crates/*/src/**/*.rt')):
        where = str(path.relative_to(root / 'crates'))
        text = path.read_text()
        for f in functions(text):
            at = '%s:%d %s' % (where, f['line'], f['name'])
            if f['result'] == 'bool' and '&mut' in f['params']:
                found['1 flag'].append(at)
            if re.fullmatch(r'(from_)?number', f['name']):
                found['1 number'].append(at)
            if f['body'].count('\n') >= 2:
                shapes[shape(f['body'])].append(at)
            for c in set(f['clauses']):
                clauses[c].append(at)
            ps = parameters(f['params'])
            for i in range(len(ps)):
                for j in range(i + 2, len(ps) + 1):
                    groups[', '.join(ps[i:j])].append(at)
        for n, line in enumerate(text.split('\n'), 1):
            at = '%s:%d ' % (where, n)
            code = line.split('//')[0]
            if re.search(r'\bNOWHERE: |where none|unwrap_or\(', line):
                found['1 sentinel'].append(at + line.strip())
            if re.match(r'\s+(Refused|Memory)\b', code):
                found['1 shape'].append(at + line.strip())
            if re.search(r'^\s*(while |for .* in .*\.\.)', code) and not line.strip().startswith('//'):
                found['3 loop'].append(at + line.strip())
            if re.search(r'\bas (u8|u16|u32|u64|u128|usize)\b', code) and 'ghost' not in code:
                found['4 by hand: as'].append(at + line.strip())
            if re.search(r'^\s*(pub )?(pub\(crate\) )?fn (alike|same|copy_of|either|capped|answer_of|kind_of|refusal|blank|zeros)\b', code):
                found['4 by hand: a function'].append(at + line.strip())
            if not code.lstrip().startswith('const ') and re.search(r'\[[^\]]*; (MOST|ROOM|INPUT_ROOM|NUMBER_ROOM|LONGEST|NUMBERS|[0-9]+)\w*\]', code) and 'ghost' not in code:
                found['6 buffer'].append(at + line.strip())
            if re.search(r'(&\w*dyn|Box<dyn|: fn\()', code):
                found['7 switch'].append(at + line.strip())
            if re.search(r'\b(Step|Turn|BookKind|Answer|OrderLists|AnyJob|AnyPlacement)::\w+.*=> ', code):
                found['7 switch'].append(at + line.strip())
    for s, places in shapes.items():
        if len(places) > 1:
            found['2 twin'].append(' = '.join(places))
    for c, places in clauses.items():
        if len(places) > 2:
            found['5 clause'].append('%d x %s (%s)' % (len(places), c, ', '.join(p.split(' ')[1] for p in places)))
    taken = set()
    for g, places in sorted(groups.items(), key=lambda x: -len(x[0])):
        if len(places) > 2 and not any(g in t and len(places) <= len(groups[t]) for t in taken):
            taken.add(g)
            found['5 group'].append('%d x %s' % (len(places), g))
    for kind in sorted(found):
        print('%s: %d' % (kind, len(found[kind])))
        for place in found[kind]:
            print('    ' + place)


main()
