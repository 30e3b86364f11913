#!/usr/bin/env python3
"""Brings the repository's own definitions, lemmas, fields and constructors to today's spelling, after the kit's port.py.

usage: respell.py        once, at the top of the repository, right after port.py
       respell.py --save-table FILE    the same, and writes the name table to FILE (old TAB new)
       respell.py --table FILE         turns by the table of FILE in place of one of its own: for a tree that an edit changed
A name with a dash, or in lower camel case, that a file under crates/*/specs or crates/*/proofs declares gets snake case: `bytesOf-length` is
`bytes_of_length`. Every other name stays: functions, types and constants of src/, exported C names, strings, library names. A name that falls
together with another gets a suffix or a name of the tables below. The words are turned by the kit's own snake.py, in proofs, specs and clauses alone,
and in the texts of must-fail edits by the same table.
"""
import collections, glob, os, re, subprocess, sys, tempfile

KIT = os.path.dirname(subprocess.run(['rt', 'doc'], capture_output=True, text=True).stdout.strip())
NOTES = os.path.join(KIT, 'port', 'notes')
SNAKE = os.path.join(NOTES, '2026-11-18-names-are-in-snake-case', 'snake.py')
WORDS = {'pub', 'unfoldable', 'abbrev', 'opaque', 'record', 'data', 'private'}
SKIP = ('use', 'ghost', 'module', 'mod', 'unfolding', 'syntax', 'infix', 'infixl', 'infixr', 'let', 'rw', 'where', 'in', '--')
NAME = r"[^\s(){}.;,@\"«»:]+"


# Names that would fall together with another, and what they are called.
GIVEN = {'isKnown': 'is_known', 'read-f2': 'read_f2_example', 'vet-message': 'vet_message_law', 'phase-counts': 'phase_counts_law', 'allHeld': 'all_are_held', 'dataOf': 'data_part', 'hasRoom': 'has_room_of', 'startUp': 'start_up_run', 'tooLong': 'is_too_long', 'turnedDown': 'is_turned_down'}
# One old name, declared by two crates for two things: the name in each.
APART = {'bad_escape_law': {'claims': 'bad_escape_row', 'framing': 'on_bad_escape'}}
# Names of the repository's own that the library has too, and the files where they are the repository's.
OWN = {'add-one': ('add_one', ('crates/product/specs/ProductLaws.antt', 'crates/product/proofs/ProductInfo/add/Proof.antt')), 'and-false': ('and_false', ('crates/tx_list/proofs/LiveLists.antt',))}
# English words that are spelled like a name of a definition: port.py turned them in comments too.
WORDS_OF_ENGLISH = {'start_up': 'start-up'}


def snake(name):
    """snake case; a name that begins with a capital is a type's, and gets camel case"""
    if name in GIVEN:
        return GIVEN[name]
    if name[0].isupper():
        return ''.join(w[:1].upper() + w[1:] for w in name.split('-'))
    s = name.replace('-', '_')
    s = re.sub(r'(?<=[a-z0-9])([A-Z])', r'_\1', s)
    s = re.sub(r'(?<=[A-Z])([A-Z][a-z])', r'_\1', s)
    return re.sub(r'__+', '_', ''.join(c.lower() if c.isascii() else c for c in s))


def declared(text):
    """The names that a file declares: at the margin, or indented under `where` (fields, constructors) or in a `module _`."""
    found = set()
    for line in text.split('\n'):
        if not line.strip() or line.lstrip().startswith('--'):
            continue
        m = re.match(rf'^ *((?:(?:{"|".join(WORDS)}) )*)({NAME}) ?(?:\{{[^{{}}]*\}} |\([^()]*\) )*:(?:[ ]|$)', line)
        if m and m.group(2) not in SKIP and m.group(2) not in WORDS:
            indented = line[0] == ' '
            if indented and not m.group(1) and not re.match(rf'^ +{NAME} :( |$)', line):
                continue
            found.add(m.group(2))
    return found


def main():
    files = sorted(p for p in glob.glob('crates/*/**/*.antt', recursive=True) if '/out/' not in p and re.search(r'/(specs|proofs)/', p))
    sources = sorted(p for p in glob.glob('crates/*/src/**/*.rt', recursive=True))
    whose = collections.defaultdict(set)
    for p in files:
        if re.search(r'/proofs/.*/(Proof|Answers|Invariants)\.antt$', p):
            continue
        for n in declared(open(p, encoding='utf-8').read()):
            whose[n].add(p)
    old = {n for n in whose if ('-' in n.strip('-') or re.match(r'^[a-z][a-z0-9]*[A-Z]', n)) and not n.startswith(('Need', 'Goal')) and not re.search(r'[◌_]$', n)}
    # A name that some file imports from a library is the library's there: it stays, here and everywhere.
    lent = set()
    for p in files + sources:
        for m in re.finditer(r'use ((?:Rattle\.std|mathlib|lib|Prim|native|borrow|denote|mir|types)\b[^\s{;]*)\.\{([^}]*)\}', open(p, encoding='utf-8').read()):
            lent |= {w.strip().split(' as ')[0] for w in m.group(2).split(',')}
    old -= lent
    # The words of each file: in antt those behind no dot; in Rust those of clauses and the parameters, since a parameter hides a name in a clause.
    seen = {}
    for p in files:
        text = re.sub(r'--[^\n]*', '', open(p, encoding='utf-8').read())
        seen[p] = set(re.findall(rf"(?<![^\s(){{}};,@\"«»])[^\s(){{}}.;,@\"«»]+", text))
    for p in sources:
        text = re.sub(r'//[^\n]*', '', open(p, encoding='utf-8').read())
        clauses = ' '.join(re.findall(r'(?m)^\s*(?:requires|ensures|ghost)[^\n]*', text))
        seen[p] = set(re.findall(r"(?<![^\s(){};,@\"«»])[^\s(){}.;,@\"«»]+", clauses)) | set(re.findall(r'\b(\w+)\s*:\s*(?:&|[A-Za-z\[])', re.sub(r'(?s)\b(?:struct|enum)\b.*?\n}', '', text)))
    taken = collections.defaultdict(list)
    for n in old:
        taken[snake(n)].append(n)
    rows, stay = [], []
    for n in sorted(old):
        s = snake(n)
        if n in GIVEN:
            rows.append((n, s))
            continue
        if len(taken[s]) > 1 and '-' in n:
            s += '_law'                     # a lemma that is called as the definition it speaks of
        met = [p for p in seen if s in seen[p] and (n in seen[p] or p in whose[n])]
        if met or s in whose:
            stay.append((n, s, 'is there already', (met or sorted(whose[s]))[:3]))
        else:
            rows.append((n, s))
    if '--table' in sys.argv:
        rows = [tuple(l.split('\t')) for l in open(sys.argv[sys.argv.index('--table') + 1], encoding='utf-8').read().splitlines() if l]
        stay = []
    if '--save-table' in sys.argv:
        open(sys.argv[sys.argv.index('--save-table') + 1], 'w', encoding='utf-8').write(''.join(f'{a}\t{b}\n' for a, b in rows))
    with tempfile.NamedTemporaryFile('w', suffix='.tsv', delete=False, encoding='utf-8') as t:
        t.write(''.join(f'{a}\t{b}\n' for a, b in rows))
    out = subprocess.run([sys.executable, SNAKE, '--table', t.name, '--only', 'antt,rt,md', '--prose', 'file', 'crates', *[p for p in ('README.md', 'docs', 'bindings', 'samples') if os.path.exists(p)]], capture_output=True, text=True)
    print(out.stdout[-4000:], out.stderr[-2000:])
    table = dict(rows)
    for p in sorted(glob.glob('crates/*/must-fail/*.edit')):
        text = open(p, encoding='utf-8').read()
        new = re.sub(r"(?m)^(?:old|new):.*$", lambda m: re.sub(r"[^\s(){}.;,@\"«»]+", lambda w: table.get(w.group(0), w.group(0)), m.group(0)), text)
        if new != text:
            open(p, 'w', encoding='utf-8').write(new)
    for p in files + sources:
        text = open(p, encoding='utf-8').read()
        new = text
        for name, by_crate in APART.items():
            given = by_crate.get(p.split('/')[1])
            if given:
                new = re.sub(rf"(?<![\w'-]){name}(?![\w'-])", given, new)
        for name, (given, where) in OWN.items():
            if p in where:
                new = re.sub(rf"(?<![\w'-]){name}(?![\w'-])", given, new)
        for word, english in WORDS_OF_ENGLISH.items():
            new = re.sub(r'(?m)^ *(--|//) .*$', lambda m: re.sub(rf'(?<![\w`.]){word}(?![\w`.(])', english, m.group(0)), new)
        if new != text:
            open(p, 'w', encoding='utf-8').write(new)
    os.unlink(t.name)
    print(f'respell: {len(rows)} names turned, {len(stay)} left')
    for n, s, why, where in stay:
        print(f'left: {n}: {s} {why} ({", ".join(where)})')


main()
