#!/usr/bin/env python3
"""Counts the places in crates/*/src that docs/DESIGN-PASS.md speaks of, point by point.

  tools/design_counts.py              the counts of the checkout
  tools/design_counts.py COMMIT       the counts of a commit
  tools/design_counts.py [COMMIT] -v  with each place
  tools/design_counts.py --help       this text
"""
import collections
import glob
import re
import subprocess
import sys

WORDS = set('fn pub let mut if else while for in return match continue break as true false loop'.split())
WIDE = r'\bas (?:u16|u32|u64|usize)\b'


def sources(commit):
    if commit is None:
        names = sorted(glob.glob('crates/*/src/*.rt'))
        return {n: open(n, encoding='utf-8').read() for n in names}
    listed = subprocess.run(['git', 'ls-tree', '-r', '--name-only', commit, 'crates'], capture_output=True, text=True, check=True)
    names = [n for n in listed.stdout.split() if re.fullmatch(r'crates/\w+/src/\w+\.rt', n)]
    shown = lambda n: subprocess.run(['git', 'show', f'{commit}:{n}'], capture_output=True, text=True, check=True).stdout
    return {n: shown(n) for n in sorted(names)}


class Function:
    def __init__(self, file, line, head, body):
        self.file, self.line, self.head, self.body = file, line, head, body
        self.name = re.search(r'fn (\w+)', head).group(1)
        self.result = (re.search(r'\) -> ([^\n{]+)', head) or [None, ''])[1].strip()
        inside = head[head.index('(') + 1:]
        depth, end = 1, 0
        while depth:
            depth += {'(': 1, ')': -1}.get(inside[end], 0)
            end += 1
        self.parameters = [p.strip() for p in re.split(r',(?![^<\[]*[>\]])', inside[:end - 1]) if p.strip()]

    def place(self):
        return f'{self.file[7:]}:{self.line} {self.name}'

    def clauses(self):
        return re.findall(r'^\s*requires (?:\w+ )?\{(.*)\}', self.head, flags=re.M)

    # The body with every name and number taken away: what twins share.
    def shape(self):
        text = re.sub(r'//.*', '', self.body)
        tokens = re.findall(r'\w+(?:::\w+)*|[^\s\w]', text)
        return ' '.join(t if t in WORDS or not re.match(r'\w', t) else ('#' if t[0].isdigit() else '_') for t in tokens)


def functions(files):
    out = []
    for name, text in files.items():
        lines = text.split('\n')
        for i, line in enumerate(lines):
            opened = re.match(r'^(\s*)(?:pub(?:\(crate\))? )?(?:extern "C" )?fn \w+', line)
            if not opened:
                continue
            pad = opened.group(1)
            start = i
            while lines[start].rstrip() != pad + '{' and not lines[start].endswith(' {'):
                start += 1
            end = start
            while lines[end].rstrip() != pad + '}':
                end += 1
            head = '\n'.join(lines[i:start + 1]).rstrip('{').rstrip()
            out.append(Function(name, i + 1, head, '\n'.join(lines[start + 1:end])))
    return out


def enums_and_structs(files, word):
    for name, text in files.items():
        for m in re.finditer(rf'^(?:pub )?{word} (\w+)(?:<[^>]*>)? \{{\n(.*?)^\}}', text, flags=re.M | re.S):
            yield f'{name[7:]} {m.group(1)}', m.group(2)


def shaped_like_option(files):
    for place, body in enums_and_structs(files, 'enum'):
        variants = re.findall(r'^    (\w+)(\([^)]*\))?,', body, flags=re.M)
        with_value = [v for v in variants if v[1]]
        if with_value and len(with_value) < 3:
            yield place


def flag_with_value(files):
    for place, body in enums_and_structs(files, 'struct'):
        fields = re.findall(r'^    (?:pub )?(\w+): (\w+)', body, flags=re.M)
        if any(n in ('found', 'code', 'rule') or (n, t) == ('links', 'u8') for n, t in fields):
            yield place


# A function that answers a number which says "none" or names a refusal: an early return of a number or of a number of slots.
def number_for_none(f):
    if f.result not in ('u8', 'u16', 'usize'):
        return False
    last = f.body.rstrip().split('\n')[-1].strip() if f.body.strip() else ''
    returned = re.findall(r'return ([\w:]+);', f.body) + [last]
    numbers = [r for r in returned if re.fullmatch(r'\d+|UNSERVED|[A-Z]{4,}', r)]
    slots = last in ('slots', 'cards', 'actions') and 'return' in f.body
    return bool(len(numbers) > 0 and len(returned) > 1 or slots)


# Constants one below the other, each a number of the same kind of thing, below a comment that says of what.
def groups_of_constants(files):
    kinds = r'[Kk]inds|[Mm]arks|domains|[Aa]ctors|[Mm]odes|`enabled`|lets an executable do|what a line says|A certificate of the chain'
    for name, text in files.items():
        for m in re.finditer(rf'// ([^\n]*(?:{kinds})[^\n]*)\n\s*pub const \w+: u(?:8|16) ', text):
            yield f'{name[7:]}:{text[:m.start()].count(chr(10)) + 1} {m.group(1)[:60]}'


def twins(fs):
    shapes = collections.defaultdict(list)
    for f in fs:
        shapes[(f.shape(), tuple(re.sub(r'.*: ', '', p) for p in f.parameters[:1]), bool(f.result))].append(f)
    for group in shapes.values():
        # Two calls in a row or a comparison are no twins; a loop, a reading or a writing that is spelled again is.
        if len(group) > 1 and len(group[0].shape().split()) > 5:
            yield [f.place() for f in group]


def counted_loops(files):
    for name, text in files.items():
        lines = text.split('\n')
        for i, line in enumerate(lines):
            if re.match(r'\s*while ', line):
                yield f'{name[7:]}:{i + 1}'


def by_hand(files, fs):
    for f in fs:
        if re.search(r'fn (eq|cmp|partial_cmp|clone|fmt|bit|one_if|least|wide16|wide32|copy|same_text)\b', f.head):
            yield f.place()
    for name, text in files.items():
        for m in re.finditer(r'\b(\w+): (\w+)\.\1,\n\s*(\w+): \2\.\3,\n\s*(\w+): \2\.\4,', text):
            yield f'{name[7:]}:{text[:m.start()].count(chr(10)) + 1} fields copied one by one'


def repeated_facts(fs):
    seen = collections.defaultdict(list)
    for f in fs:
        for c in f.clauses():
            for part in re.split(r'\) × \(|^ *\(|\) *$', c):
                part = re.sub(r'\b(\w+)\.(now|old)\b', r'\1', part).strip()
                part = re.sub(r'\blength (\w+)\b', 'length buffer', part)
                if part:
                    seen[re.sub(r'^(Framed|AcceptedImage) \w+$', r'\1 image', part)].append(f.place())
    return {c: p for c, p in seen.items() if len(p) > 2}


def together(fs):
    seen = collections.defaultdict(set)
    for f in fs:
        plain = [re.sub(r'mut ', '', p) for p in f.parameters]
        for a in range(len(plain) - 1):
            seen[', '.join(plain[a:a + 2])].add(f.place())
    return {c: sorted(p) for c, p in seen.items() if len(p) > 2}


def buffers(fs):
    for f in fs:
        if re.search(r'&mut \[u8\], (at|n|used|from): usize', ', '.join(f.parameters)):
            yield f.place()
        if re.search(r'(lines|events|answers|told|told_words): &(mut )?\[u\d+\], n: usize', ', '.join(f.parameters)):
            yield f.place()


def switches(files):
    for name, text in files.items():
        for m in re.finditer(r'^\s*match \w+ \{\n\s*(?:\d+|\w+::\w+) => \w+(::\w+)?\(', text, flags=re.M):
            yield f'{name[7:]}:{text[:m.start()].count(chr(10)) + 2}'


def main(arguments):
    if '--help' in arguments or '-h' in arguments:
        print(__doc__.strip())
        return
    verbose = '-v' in arguments
    named = [a for a in arguments if not a.startswith('-')]
    files = sources(named[0] if named else None)
    fs = functions(files)
    flat = [p for g in twins(fs) for p in g]
    facts, pairs = repeated_facts(fs), together(fs)
    rows = [
        ('1 enums shaped like Option or Result', list(shaped_like_option(files))),
        ('1 a flag with a value beside it', list(flag_with_value(files))),
        ('1 a number for none or for a refusal', [f.place() for f in fs if number_for_none(f)]),
        ('1 constants for kinds, in groups', list(groups_of_constants(files))),
        ('2 functions that are spelled as another', flat),
        ('3 loops by while', list(counted_loops(files))),
        ('4 copied, converted, compared by hand', list(by_hand(files, fs))),
        ('5 contracts with a fact of three or more', [f'{len(p):3} {c}' for c, p in sorted(facts.items(), key=lambda x: -len(x[1]))]),
        ('5 parameters side by side, three or more', [f'{len(p):3} {c}' for c, p in sorted(pairs.items(), key=lambda x: -len(x[1]))]),
        ('6 a buffer with a place or length beside it', list(buffers(fs))),
        ('7 a switch that runs a step', list(switches(files))),
    ]
    for title, places in rows:
        print(f'{len(places):4}  {title}')
        if verbose:
            for p in places:
                print(f'        {p}')
    print(f'{len(fs):4}  functions, {sum(t.count(chr(10)) for t in files.values())} lines')


main(sys.argv[1:])
