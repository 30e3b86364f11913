#!/usr/bin/env bash
# Finds by patterns, in crates/*/src and crates/*/proofs, the places that may still be written as an older Rattle asked, and counts them by point and crate.
# A row is a candidate to look at and no verdict: docs/DESIGN-PASS.md judges each.
#   bash docs/places.sh [-t] [FOLDER] [CRATE..]       FOLDER: another checkout; CRATE..: these alone; -t: totals alone
#   bash docs/places.sh -p                            the sums of docs/DESIGN-PASS.md's own tables, point by point
#
# 1 Option, Result, enums   1a an enum of which some variants carry a value and some none, or one carries a refusal's number
#                           1b a struct with a flag, or with a number of a kind or a refusal, beside its values
#                           1c a function whose result is a u8 or a u64, as numbers of kinds and refusals are (other numbers too)
#                           1d a constant of u8 or u64, as numbers of kinds are (other constants too)
# 2 twins                   2a items whose names differ in digits alone    2b functions whose bodies differ in names and figures alone, structs of the same fields
#                           2c a name that two or more crates declare (a crate's own name before it is passed over)
# 3 loops                   3a `while` and `loop`
# 4 written by hand         4a `as`    4b a function that is one match of variants and numbers: a conversion or a test of a kind
#                           4c equality, order and copying, by their names    4d a writer into a lent output that returns a place or a count
#                           4e bytes, digits and wrapping sums by arithmetic
# 5 facts, parameters       5a a fact that stands in the contracts of three or more functions
#                           5b two parameters that stand side by side in three or more functions of a crate, a row for each pair
# 6 buffers                 6a a struct of an array and a count    6b an array of fixed length in a body or a constant, a large buffer
#                           6c a slice or an array with a usize beside it, as parameters    6d three or more slices or arrays of numbers lent side by side
# 7 switches                7a a match whose arms call three or more functions    7b tables of functions, function pointers
# 8 proofs                  8a files of answers    8b files of invariants    8c answers    8d answers that only search
#                           8e answers whose text three or more answers of the crate have    8f lemmas beside answers, in the same files
#                           8g files of lemmas in proofs/    8h lemmas in them
set -eu
export LC_ALL=C.UTF-8
cd "$(dirname "${BASH_SOURCE[0]}")/.."
exec python3 - "$@" <<'PYTHON'
import glob, os, re, sys
from collections import defaultdict

arguments = sys.argv[1:]
if '-p' in arguments:             # a row of points 1 to 7: its places, then what became of them
    part = re.compile(r'(?:^|; )(?:(\d+) )?(changed|kept|to do)(?=: | *$)')
    sums, point = {}, None
    for line in open('docs/DESIGN-PASS.md', encoding='utf-8'):
        if line.startswith('## '):
            head = re.match(r'## ([1-7])\. ', line)
            point = head and head[1]
        row = point and re.match(r'\| .* \| (\d*) ?\| (.*) \|$', line)
        if not row or line.startswith('| where '):
            continue
        places, found = int(row[1] or 0), part.findall(row[2])
        if sum(int(n or places) for n, _ in found) != places:
            sys.exit('no sum: ' + line)
        for n, kind in found:
            sums.setdefault(point, defaultdict(int))[kind] += int(n or places)
    for point, s in sorted(sums.items()):
        print(f"{point}: {sum(s.values())} places, {s['changed']} changed, {s['kept']} kept, {s['to do']} to do")
    sys.exit()
quiet = '-t' in arguments
arguments = [a for a in arguments if a != '-t']
if arguments and os.path.isdir(os.path.join(arguments[0], 'crates')):
    os.chdir(arguments.pop(0))
crates = arguments or sorted(c for c in os.listdir('crates') if os.path.isdir('crates/' + c))

class Item:                       # a function, type or constant: its head on one line, and its body by lines
    def __init__(self, crate, file, line, kind, name):
        self.crate, self.file, self.line, self.kind, self.name, self.head, self.body = crate, file, line, kind, name, [], []

start = re.compile(r'(\s*)(?:pub(?:\([a-z]+\))? )?(?:final )?(?:unsafe )?(?:extern "C" )?(fn|struct|enum|trait|const|static) (\w+)')
clause = re.compile(r'\s*(requires|ensures|decreases)\b')
items, lines = [], []             # lines: (crate, file, number, text)

def read(crate, file):
    text = [re.sub(r'^\s*//.*', '', l.rstrip('\n')) for l in open(file, encoding='utf-8')]
    lines.extend((crate, file, i + 1, l) for i, l in enumerate(text))
    for i, line in enumerate(text):
        m = start.match(line)
        if not m or (m[2] == 'const' and m[3] == 'fn'):
            continue
        item, j = Item(crate, file, i + 1, m[2], m[3]), i
        while j < len(text):      # the head: up to the brace that opens the body, or to a semicolon
            item.head.append(text[j].strip())
            opens = text[j].endswith('{') and not clause.match(text[j])
            if opens or text[j].endswith((';', '{}')) or (item.kind != 'fn' and text[j].endswith('}')):
                break
            j += 1
        if j < len(text) and text[j].endswith('{'):
            while j + 1 < len(text) and text[j + 1] != m[1] + '}':
                j += 1
                item.body.append(text[j])
        items.append(item)

for crate in crates:
    for file in sorted(glob.glob(f'crates/{crate}/src/**/*.rt', recursive=True)):
        read(crate, file)

def head(item): return ' '.join(item.head)
def parameters(item):
    m = re.match(r'[^(]*?fn \w+(?:<.*?>)?\((.*?)\)(?: ->|$| \{| requires| ensures|;)', head(item))
    return re.findall(r'(\w+): ((?:\[[^]]*\]|[^,\[])+)', m[1] + ',') if m else []
def result(item):
    m = re.search(r'\) -> ([^{]*?)(?: requires| ensures| \{|$|;)', head(item))
    return m[1].strip() if m else ''
functions = [x for x in items if x.kind == 'fn']
structs = [x for x in items if x.kind == 'struct']

found = defaultdict(list)         # point: (crate, place, text)
def hit(point, item, text=None): found[point].append((item.crate, f'{item.file[7:]}:{item.line}', text or item.head[0]))
def scan(point, pattern, skip=None):
    for crate, file, number, line in lines:
        if re.search(pattern, line) and not (skip and re.search(skip, line)):
            found[point].append((crate, f'{file[7:]}:{number}', line.strip()))

# 1
for e in items:
    if e.kind == 'enum':
        bare = [l for l in e.body if re.match(r'\s*\w+,?$', l)]
        full = [l for l in e.body if re.match(r'\s*\w+(\(| \{)', l)]
        if bare and full or re.search(r'(Refused|Bad|Error|Failed)\(u\d+\)', ' '.join(e.body)):
            hit('1a', e)
flag = r'\b\w+: bool\b|\b(number|kind|bad|code|phase|name|which): u\d+'
for s in structs:
    if re.search(flag, ' '.join(s.body)): hit('1b', s)
for f in functions:
    if result(f) in ('u8', 'u64'): hit('1c', f)
for c in items:
    if c.kind == 'const' and re.search(r': u(8|64) =', head(c)): hit('1d', c)

# 2
def folded(text):                 # names, figures and strings by their order of appearance alone
    names, words = {}, re.findall(r'b?"[^"]*"|b?\'.\'|[A-Za-z_]\w*|\d\w*|\S', text)
    kept = {'if', 'else', 'let', 'mut', 'match', 'return', 'while', 'for', 'in', 'as', 'true', 'false'}
    return [w if w in kept or not re.match(r'\w|b?["\']', w) else names.setdefault(w, f'v{len(names)}') for w in words]
groups = {'2a': defaultdict(list), '2b': defaultdict(list), '2c': defaultdict(list)}
for x in items:
    if re.search(r'\d', x.name): groups['2a'][x.kind, re.sub(r'\d+', '#', x.name)].append(x)
    shape = folded(' '.join(x.body)) if x.kind == 'fn' else re.findall(r'(\w+): ', ' '.join(x.body))
    if x.kind == 'fn' and len(shape) >= 16 or x.kind == 'struct' and len(shape) >= 2:
        groups['2b'][x.kind, ' '.join(shape)].append(x)
    if x.kind != 'const': groups['2c'][x.kind, re.sub(f'^({x.crate}|{x.crate.removesuffix("_c")})_', '', x.name)].append(x)
for point, group in groups.items():
    for same in group.values():
        if len({(x.crate, x.name) if point == '2b' else x.crate if point == '2c' else x.name for x in same}) > 1:
            for x in same: hit(point, x)

# 3
scan('3a', r'^\s*(while\b|loop \{)')

# 4
scan('4a', r'\bas (u|i)(8|16|32|64|size)\b', clause.pattern)
def arms(f): return [l.split('=>', 1)[1].strip() for l in f.body if '=>' in l]
call = r'(?<![\w:])(?:\w+::)*[a-z_]\w*(?=\()'
for f in functions:
    code = [l.strip() for l in f.body if l.strip()]
    while code and re.match(r'let \w+ = [\w.:(), ]*;', code[0]): code.pop(0)
    if code and code[0].startswith('match ') and code[-1] == '}' and not any(re.search(call, a) for a in arms(f)): hit('4b', f)
    if re.fullmatch(r'(is_)?(same|equals?)|least|most|min|max|less|copy|copied|append|fill|keep|first|rest', f.name): hit('4c', f)
    if '&mut [u8]' in head(f) and result(f) == 'usize': hit('4d', f)
scan('4e', r'wrapping_\w+_u\d+|[%/] (10|16|256|65536|4294967296)\b|\b(256|4294967296) \*|b\'[0a]\' \+|\* 10 \+', clause.pattern)

# 5
facts = defaultdict(dict)
for f in functions:
    for kind, text in re.findall(r'(requires|ensures)[^{]*\{ (.*?) \}(?= requires| ensures| \{|;|$)', head(f)):
        for fact in re.split(r' × ', text) if kind == 'requires' else [text]:
            fact = re.sub(r'\.(old|now)\b', '', fact.strip())
            fact = fact[1:-1] if fact.startswith('(') and fact.endswith(')') and fact.find(')') == len(fact) - 1 else fact
            facts[kind, fact][f.file, f.line] = f
for (kind, fact), where in facts.items():
    if len(where) >= 3:
        for f in where.values(): hit('5a', f, f'{f.name}: {kind} {fact}')
pairs = defaultdict(dict)
for f in functions:
    ps = parameters(f)
    for a, b in zip(ps, ps[1:]): pairs[f.crate, a, b][f.file, f.line] = f
for (crate, a, b), where in pairs.items():
    if len(where) >= 3: hit('5b', next(iter(where.values())), f'{len(where)} functions: {a[0]}: {a[1]}, {b[0]}: {b[1]}')

# 6
for s in structs:
    fields = ' '.join(s.body)
    if re.search(r': \[[^]]*;', fields) and re.search(r': (usize|u8)\b', fields): hit('6a', s)
scan('6b', r'\[[\w:]+; \w+\]|large_buffer\(\)', r'^\s*(pub(\([a-z]+\))? )?(\w+: |fn |extern)|ensures|requires|&(mut )?\[u\d+; \d+\]')
many = r'&(mut )?\[u\d+(; \w+)?\]|\[u\d+; \w+\]'
for f in functions:
    ps = parameters(f)
    if any(re.match(many, a[1]) and b[1] == 'usize' for a, b in zip(ps, ps[1:])): hit('6c', f)
    if sum(bool(re.match(r'(&\S* ?)?(mut )?\[u(32|64)', p[1])) for p in ps) >= 3: hit('6d', f)

# 7
for f in functions:
    if any(re.match(r'\s*match ', l) for l in f.body) and len(set(re.findall(call, ' '.join(arms(f))))) >= 3: hit('7a', f)
scan('7b', r'\[(fn\(|&dyn)|: fn\(|&dyn |Box<dyn')

# 8
for crate in crates:
    texts = defaultdict(list)
    for file in sorted(glob.glob(f'crates/{crate}/proofs/**/*.antt', recursive=True)):
        name, text = os.path.basename(file), open(file, encoding='utf-8').read()
        answers = name in ('Answers.antt', 'Invariants.antt')
        found['8a' if name == 'Answers.antt' else '8b' if answers else '8g'].append((crate, file[7:], ''))
        for m in re.finditer(r'^(?:pub )?(\S+) :(.*)$', text, re.M):
            place = f'{file[7:]}:{text.count(chr(10), 0, m.start()) + 1}'
            goal = re.match(r' goal\.', m[2])
            if name == 'Invariants.antt': continue
            found['8c' if answers and goal else '8f' if answers else '8h'].append((crate, place, m[1]))
            if answers and goal:
                body = re.search(r'^' + re.escape(m[1]) + r'(?: [^=\n]*)? =\s*(.*?)(?=\n\S|\Z)', text[m.end():], re.M | re.S)
                body = re.sub(r'\s+', ' ', re.sub(r'--.*', '', body[1])).strip() if body else ''
                if re.fullmatch(r'\(?search( rules)?\)?', body): found['8d'].append((crate, place, f'{m[1]} = {body}'))
                texts[body].append((crate, place, f'{m[1]} = {body}'))
    for same in texts.values():
        if len(same) >= 3: found['8e'].extend(same)

points = '1a 1b 1c 1d 2a 2b 2c 3a 4a 4b 4c 4d 4e 5a 5b 6a 6b 6c 6d 7a 7b 8a 8b 8c 8d 8e 8f 8g 8h'.split()
if not quiet:
    for point in points:
        print(f'== {point}')
        for crate, place, text in found[point]: print(f'{place}: {text}'.rstrip(': '))
print('== totals')
for point in points:
    by = defaultdict(int)
    for crate, place, text in found[point]: by[crate] += 1
    print(f'{point} {len(found[point])}' + (': ' if by else '') + ', '.join(f'{c} {n}' for c, n in sorted(by.items())))
PYTHON
