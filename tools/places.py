#!/usr/bin/env python3
"""Counts places in crates/*/src that today's Rattle may say more plainly, by rough patterns that a reader then goes through.

    python3 tools/places.py [-v] [FOLDER]     FOLDER is a checkout (this one); -v prints each place

A row is a kind of place. docs/DESIGN-PASS.md says what the changes took away."""
import collections, glob, os, re, sys

verbose = '-v' in sys.argv
args = [a for a in sys.argv[1:] if a != '-v']
top = args[0] if args else os.path.join(os.path.dirname(__file__), '..')
files = sorted(glob.glob(os.path.join(top, 'crates/*/src/**/*.rt'), recursive=True))
name = lambda f: os.path.relpath(f, os.path.join(top, 'crates')).replace('/src/', '/')
lines = [(name(f), i + 1, l.rstrip('\n')) for f in files for i, l in enumerate(open(f)) if not l.lstrip().startswith('//')]

def show(point, what, found):
    print(f'{point} {what}: {len(found)}')
    if verbose:
        for f in found: print('     ', *f)

def by_line(pattern, skip=None):
    return [(f'{n}:{i}', l.strip()) for n, i, l in lines if re.search(pattern, l) and not (skip and re.search(skip, l))]

# functions: (file, name, parameters, clauses, body)
functions = []
for f in files:
    text = re.sub(r'//[^\n]*', '', open(f).read())
    for m in re.finditer(r'\bfn (\w+)(<[^({]*>)?\(', text):
        i, depth = m.end(), 1
        while depth: depth += {'(': 1, ')': -1}.get(text[i], 0); i += 1
        params = re.sub(r'\s+', ' ', text[m.end():i - 1])
        while i < len(text) and text[i:i + 2] != '\n{' and not re.match(r' \{\n|;|\n    \{\n|\{\}', text[i:i + 8]): i += 1
        head = text[m.end() + len(params):i]
        if i >= len(text) or text[i] == ';': continue
        j = text.index('{', i); k, depth = j + 1, 1
        while depth and k < len(text): depth += {'{': 1, '}': -1}.get(text[k], 0); k += 1
        functions.append((name(f), m.group(1), params, head, re.sub(r'\s+', ' ', text[j:k])))

crate = lambda f: f.split('/')[0]

# 1
show(1, 'enum variants that stand for nothing, an end or a refusal', by_line(r'^    (None|End|Broken|Unknown|Withheld|Unread\(.*|Refused\(.*),$'))
show(1, 'a 0 that stands for none', by_line(r'line: 0, byte: 0|=> 0,$|else \{ 0 \}|return 0;|Ok\(0\)|^    0$|^        0$|^            0$'))
show(1, 'functions that answer a number for a kind, a state or a refusal', [(f, n) for f, n, p, h, b in functions if re.search(r'number|parameter|packed|announced|^sentence', n) and re.search(r'-> (u8|u16|u64|&)|number: u8', h + p)])
# 2
def shape(body):
    seen = {}
    return re.sub(r"[A-Za-z_]\w*|b?'[^']*'|\d+|b?\"[^\"]*\"", lambda m: seen.setdefault(m.group(0), f'#{len(seen)}') if m.group(0) not in ('match', 'if', 'else', 'for', 'while', 'loop', 'return', 'let', 'mut', 'true', 'false', 'Some', 'None', 'Ok', 'Err', 'self', 'in') else m.group(0), body)
groups = collections.defaultdict(list)
for f, n, p, h, b in functions:
    if len(b) > 16 and 'test' not in f: groups[shape(b)].append(f'{f}::{n}')
show(2, 'groups of functions whose bodies differ only in names and constants', [('; '.join(v),) for v in groups.values() if len(v) > 1])
types = collections.defaultdict(list)
for n, i, l in lines:
    m = re.match(r'\s*(?:pub )?(?:struct|enum|const) (\w+)', l)
    if m: types[m.group(1)].append(n)
show(2, 'types and constants declared twice under one name', [(k, *v) for k, v in types.items() if len(v) > 1])
# 3
show(3, 'loops over a counted index', by_line(r'\bwhile \w+ < |\bfor \w+ in [^{]*\.\.[^{]*\{'))
show(3, 'other loops', by_line(r'^\s*(while|loop|for)\b', r'\bwhile \w+ < |\bfor \w+ in [^{]*\.\.[^{]*\{'))
show(3, 'counts kept by hand', by_line(r'\w+ (\+|-)= (1|width);'))
# 4
show(4, 'functions that only compare', [(f, n) for f, n, p, h, b in functions if re.fullmatch(r'\{ \*?[\w.]+ == \*?[\w."()]+ \}', b)])
show(4, 'a match that only turns one Option or Result into another', by_line(r'^\s*(Some\((\w+)\) => Some\(\2\)|None => None|Err\(_\) => None|Err\((\w+)\) => (return )?Err\((?!\3\.)|Ok\((\w+)\) => (Ok|Some)\()'))
show(4, 'two-armed matches, ifs and let-elses that answer a default or change an Option or Result', [(f, n) for f, n, p, h, b in functions
    if re.search(r'match [^{}]* \{ (Some|Ok)\([^()]*\) => [^{}]*?, (None|Err\(_\)) => [^{}]*?,? \}|match [^{}]* \{ None => [^{}]*?, Some\([^()]*\) => [^{}]*?,? \}|\{ (Some|Ok)\([^{}]*\) \} else \{ (None|Err\([^{}]*\)) \}|else \{ return (Err\(\w+\)|false|0|at); \}', b)])
show(4, 'functions from a name to a value or back', [(f, n) for f, n, p, h, b in functions if re.search(r'_named$|^name$|_number$|^state_of$|^sentence$', n)])
# 5
groups = collections.defaultdict(set)
for f, n, p, h, b in functions:
    ps = [re.sub(r"&('\w+ )?", '&', q.strip()) for q in p.split(',') if ':' in q]
    for x in range(len(ps)):
        for y in range(x + 1, len(ps)): groups[(crate(f), ps[x], ps[y])].add(f'{f}::{n}')
show(5, 'pairs of parameters that three or more functions of a crate share', [(*k, len(v)) for k, v in groups.items() if len(v) > 2])
groups = collections.defaultdict(set)
for f, n, p, h, b in functions:
    for clause in re.findall(r'\{ (.*?) \}', re.sub(r'\s+', ' ', h)):
        for part in clause.split(' → ')[:-1]:
            if not re.match(r'^\(', part): groups[(crate(f), part)].add(f'{f}::{n}')
show(5, 'premises that stand in the contracts of three or more functions of a crate', [(*k, len(v)) for k, v in groups.items() if len(v) > 2])
groups = collections.defaultdict(set)
for f, n, p, h, b in functions:
    for clause in re.findall(r'requires \w* ?\{ (.*?) \}', re.sub(r'\s+', ' ', h)):
        for part in clause.split(' × '): groups[(crate(f), part.strip('() '))].add(f'{f}::{n}')
show(5, 'parts of a requires that three or more functions of a crate share', [(*k, len(v)) for k, v in groups.items() if len(v) > 2])
# 6
show(6, 'a buffer or table with a count or a place beside it', [(f, n) for f, n, p, h, b in functions if re.search(r'(table|names|buffer|drawer): &mut', p) and (re.search(r'(at|count): usize', p) or re.search(r'-> (usize|Result<usize)', h))])
show(6, 'ends of slices worked out from a count', by_line(r'\.min\((\w+\.)*len\(\)\)'))
# 7
show(7, 'switches over an enum that says which step to run', [(f, n) for f, n, p, h, b in functions if re.search(r'match (self|rule|class|shelf) \{', b) and len(re.findall(r'=> [\w.:]+\(', b)) > 2])
# 8
for what, pattern in (('answer files of functions', '**/Answers.antt'), ('invariant files', '**/Invariants.antt'), ('lemma files', '*.antt')):
    found = [p for p in glob.glob(os.path.join(top, 'crates/*/proofs', pattern), recursive=True) if 'crates/model' not in p and not p.endswith('Lib.antt')]
    print(f'8 {what} outside model: {len(found)}, with {sum(len(open(p).readlines()) for p in found)} lines')
