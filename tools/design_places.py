#!/usr/bin/env python3
"""Lists the places in crates/*/src that docs/DESIGN-PASS.md counts, point by point: `tools/design_places.py [FOLDER]`, where FOLDER is a checkout's top."""
import collections
import glob
import os
import re
import sys

top = sys.argv[1] if len(sys.argv) > 1 else '.'
files = {os.path.relpath(p, top): open(p, encoding='utf-8').read() for p in sorted(glob.glob(os.path.join(top, 'crates/*/src/*.rt')))}
places = collections.defaultdict(list)


def lines(point, pattern):
    """A place for each line of code that the pattern fits."""
    for path, text in files.items():
        for n, line in enumerate(text.split('\n'), 1):
            code = line.split('//')[0]
            if re.search(pattern, code):
                places[point].append(f'{path}:{n}: {line.strip()}')


def functions(text):
    """Each function's name, head and body."""
    for m in re.finditer(r'^ *(?:pub(?:\(crate\))? )?(?:extern "C" )?fn (\w+)', text, re.M):
        start = m.start()
        end = re.search(r'^' + re.match(r' *', text[start:]).group(0) + r'\}', text[start:], re.M)
        whole = text[start:start + end.end()] if end else text[start:]
        brace = re.search(r'^ *\{$|\{$', whole, re.M)
        yield m.group(1), whole[:brace.start()] if brace else whole, whole[brace.start():] if brace else '', text[:start].count('\n') + 1


# 1. Own enums; structs with a flag or a number of a refusal beside what it says; functions and values that are such numbers.
lines('1 enums', r'^\s*(pub(\(crate\))? )?enum ')
lines('1 flags and numbers beside a value', r'^\s*pub(\(crate\))? (known|number|permits|found|ok): ')
lines('1 numbers of refusals', r'Refused\(\d+\)|refused\(\d|refusal\(\d|refusal_showing\(\d|unless\(|fault\(\d|\breturn \d+;|const NOT_\w+: u32|== NO_LIST')
# 2. Functions whose bodies differ in names, numbers and types only.
shapes = collections.defaultdict(list)
for path, text in files.items():
    for name, head, body, n in functions(text):
        words = re.sub(r'//.*', '', body)
        words = re.sub(r'"[^"]*"', 's', words)
        words = re.sub(r'\b(?!if\b|else\b|while\b|for\b|match\b|return\b|let\b|mut\b|true\b|false\b)[A-Za-z_][\w:]*|\b\d\w*', 'x', words)
        words = re.sub(r'\s+', '', words)
        if len(words) > 30:
            shapes[words].append(f'{path}:{n}: {name}')
for same in shapes.values():
    if len(same) > 1:
        places['2 functions of one shape'].append(' = '.join(same))
# 3. Loops that count by hand.
lines('3 while loops', r'^\s*while ')
# 4. What std or a derive has.
lines('4 by hand', r'\bfn (same|wide|wide_byte|joined|byte|digit|hex_digit|copy|put|put_bytes|put_number|clear|low|high|big_sigma\d|small_sigma\d|add|decimal)\(|std::num::|check::')
# 5. Facts in three or more contracts of a crate.
for crate in sorted({p.split('/')[1] for p in files}):
    facts = collections.Counter()
    for path, text in files.items():
        if path.split('/')[1] == crate:
            for name, head, body, n in functions(text):
                for clause in re.findall(r'requires(?: \w+)? \{(.*?)\}\n', head + '\n', re.S):
                    for fact in set(re.findall(r'[A-Z]\w+ [^×]*|length \S+ ≡ [^×]*|\w[^×]*< 2 \* value[^×]*|[\w.]+ ≤ \d+', clause)):
                        facts[re.sub(r'\b[\w.«»]+\.(now|old|new)\b', '_', fact).split(' ')[0]] += 1
    for fact, count in facts.items():
        if count >= 3:
            places['5 facts in three or more requires'].append(f'crates/{crate}: {fact}: {count}')
# 5. Parameters that travel together: three or more of the same name and type in three or more functions of a crate.
for crate in sorted({p.split('/')[1] for p in files}):
    groups = collections.Counter()
    for path, text in files.items():
        if path.split('/')[1] == crate:
            for name, head, body, n in functions(text):
                args = re.search(r'\((.*?)\)\s*(->|\n|$)', head, re.S)
                names = [a.strip() for a in re.split(r',(?![^<\[]*[>\]])', args.group(1)) if ':' in a] if args else []
                for i in range(len(names)):
                    for j in range(i + 1, len(names)):
                        groups[(names[i], names[j])] += 1
    for pair, count in groups.items():
        if count >= 4:
            places['5 parameters together in four or more functions'].append(f'crates/{crate}: {pair[0]}, {pair[1]}: {count}')
# 6. Arrays and slices with a length or a count beside.
lines('6 buffers with a length beside', r'^\s*pub(\(crate\))? (len|count|start|numbers|elements_size|key_size): |\[\.\.(k|l|n|len|fill|length|count|size|within|n_\w+)\]')
# 7. A match on which step to run.
lines('7 a match on a step', r'Condition::|Kind::(Pointer|Directory|Page) =>')

for point in sorted(places):
    print(f'{point}: {len(places[point])}')
    for place in places[point]:
        print(f'    {place}')
