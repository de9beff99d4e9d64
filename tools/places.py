#!/usr/bin/env python3
"""Counts the places of the eight points of docs/DESIGN-PASS.md in the code and the proofs.

    tools/places.py [ROOT] [--list POINT]

prints a line for each count; with --list the places of that count, each with its file and line."""
import collections, pathlib, re, sys

args = sys.argv[1:]
wanted = None
if '--list' in args:
    at = args.index('--list')
    wanted = args[at + 1]
    del args[at:at + 2]
root = pathlib.Path(args[0] if args else pathlib.Path(__file__).resolve().parent.parent)

files = {p.relative_to(root): p.read_text() for p in sorted(root.glob('crates/*/src/*.rt'))}
counts = collections.OrderedDict()


def bare(line):
    return line.split('//')[0]


def found(name, pattern, keep=lambda line: True):
    places = counts.setdefault(name, [])
    for path, text in files.items():
        for number, line in enumerate(text.splitlines(), 1):
            if line.lstrip().startswith('//') or line.lstrip().startswith('ghost use'):
                continue
            if re.search(pattern, bare(line)) and keep(line):
                places.append(f'{path}:{number}: {line.strip()}')


def functions():
    """(path, line, name, parameters) of each function."""
    for path, text in files.items():
        for m in re.finditer(r'^[ \t]*(?:pub )?(?:extern "C" )?fn (\w+)[^(\n]*\(', text, re.M):
            depth, end = 1, m.end()
            while depth:
                depth += {'(': 1, ')': -1}.get(text[end], 0)
                end += 1
            inner = text[m.end():end - 1]
            names = re.findall(r'(?:^|[,(\n])\s*(?:mut )?(\w+)\s*:', inner)
            yield path, text.count('\n', 0, m.start()) + 1, m.group(1), names, inner


def parameters(name, wanted_names, many=all):
    places = counts.setdefault(name, [])
    for path, line, fn, names, _ in functions():
        if many(n in names for n in wanted_names):
            places.append(f'{path}:{line}: {fn}({", ".join(names)})')


# 1
found('1 enums of the shape of Option or Result', r'^\s*Refused\(')
found('1 refusals by number', r'Refused\(\d+\)')
found('1 enums that std has', r'^pub enum Ordering\b')
places = counts.setdefault('1 structs with a flag beside values', [])
for path, text in files.items():
    for m in re.finditer(r'^(?:pub )?struct (\w+)[^{;]*\{([^}]*)\}', text, re.M):
        if re.search(r':\s*bool\b', m.group(2)):
            places.append(f'{path}:{text.count(chr(10), 0, m.start()) + 1}: {m.group(1)}')
found('1 constants that number kinds', r'^(?:pub )?const \w+: u8 =')
places = counts.setdefault('1 functions that take or give a kind or a state by number', [])
for path, line, fn, names, inner in functions():
    if re.search(r'\b(kind|st|by|end|answer)\s*:\s*(u8|usize)\b', inner):
        places.append(f'{path}:{line}: {fn}({", ".join(names)})')

# 2
shapes = collections.defaultdict(list)
word = re.compile(r"[^\W\d]\w*|\d\w*")
stay = set('if else while loop for in match return fn pub let mut break true false as'.split())
for path, text in files.items():
    for m in re.finditer(r'^([ \t]*)(?:pub )?fn (\w+)', text, re.M):
        body = text.find('\n' + m.group(1) + '{\n', m.start())
        if body < 0:
            continue
        end = text.find('\n' + m.group(1) + '}\n', body)
        lines = [l.strip() for l in text[body:end].splitlines() if l.strip() and not l.strip().startswith('//')]
        if len(lines) < 7:
            continue
        shape = '\n'.join(word.sub(lambda w: w.group(0) if w.group(0) in stay else 'a', l) for l in lines)
        shapes[shape].append(f'{path}:{text.count(chr(10), 0, m.start()) + 1}: {m.group(2)}')
counts['2 functions whose bodies have one shape, six lines or more'] = [p for group in shapes.values() if len(group) > 1 for p in group]

# 3
found('3 while and loop', r'^\s*(let \w+ = )?(while|loop)\b')
found('3 for over a range of indices', r'^\s*for \w+ in .*\.\.')
found('3 for over items', r'^\s*for ', lambda line: '..' not in line)

# 4
found('4 floats, orders and kinds turned to numbers by hand', r'^fn (number|anchor_number|anchor_of|corners_of|curve_of|shaped_of|shape_of|kind_of|other_kind|whole_of|digit)\b')
found('4 operators as methods', r'\.(add|sub|mul|div|neg)\(')
found('4 printing by hand', r'^fn (say|number|entry|name|line|total|ending)\(rt')

# 5
parameters('5 functions that take xs and ys', ['xs', 'ys'])
parameters('5 functions that take sources and targets', ['sources', 'targets'])
parameters('5 functions that take widths and heights, or width and height', ['widths', 'heights'])
parameters('5 functions that take a width and a height', ['width', 'height'])
parameters('5 functions that take order and sizes', ['order', 'sizes'])
parameters('5 functions that take a text\'s slice and the place in it', ['out', 'at'])
found('5 clauses that say of a record number that it is below 65,536', r'\b\w+ < 65536\b')
counts['5 functions with more than ten parameters'] = [
    f'{path}:{line}: {fn} {len(names)}' for path, line, fn, names, _ in functions() if len(names) > 10]

# 6
parameters('6 functions that take boxes and how many', ['boxes', 'nb'])
parameters('6 functions that take traces and how many', ['traces', 'nt'])
parameters('6 functions that take records or a drawing and how many', ['count'])
places = counts.setdefault('6 functions that take a slice and n beside it', [])
for path, line, fn, names, inner in functions():
    if re.search(r'\bn: usize', inner) and '&' in inner:
        places.append(f'{path}:{line}: {fn}({", ".join(names)})')
found('6 arrays with room for the most', r'= \[[^\]]*; [^\]]*\];')

# 7
found('7 switches by number', r'^\s*match (kind|st)\b')
places = counts.setdefault('7 functions that a bool or a number tells which step to run', [])
for path, line, fn, names, inner in functions():
    if re.search(r'\b(sine|to|down|inside|dir)\s*:', inner):
        places.append(f'{path}:{line}: {fn}({", ".join(names)})')

# 8
for kind in ('Answers', 'Invariants'):
    counts[f'8 files {kind}.antt'] = [str(p.relative_to(root)) for p in sorted(root.glob(f'crates/*/proofs/**/{kind}.antt'))]
    counts[f'8 lines of {kind}.antt'] = [l for p in root.glob(f'crates/*/proofs/**/{kind}.antt') for l in p.read_text().splitlines()]

if wanted:
    for name, places in counts.items():
        if name.startswith(wanted):
            print(name)
            for place in places:
                print('   ', place)
else:
    for name, places in counts.items():
        print(f'{len(places):5}  {name}')
