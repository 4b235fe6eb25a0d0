#!/usr/bin/env python3
"""Prints the places of docs/DESIGN-PASS.md and how many there are of each kind, at the top of a checkout: tools/design_places.py POINT, from 1 to 8.
Point 8 takes also the folder of std's lemma pages. What is looked for stands in tools/design_places.txt, but for points 2, 5 and 8, which are below."""
import collections, glob, itertools, re, sys, types
table = [l.split('\t') for l in open(sys.path[0] + '/design_places.txt').read().splitlines() if l[0] != '#']
src = {f: open(f).read() for f in sorted(glob.glob('crates/*/src/**/*.rt', recursive=True))}
text = {f: re.sub(r'//[^\n]*', '', t) for f, t in src.items()}
fns, kinds, point = [], collections.Counter(), sys.argv[1]
def put(kind, f, line, what): kinds[kind] += 1; print(f"{f.split('/')[1]} {f.split('/', 2)[2]}:{line} {kind}: {' '.join(what.split())[:140]}")
for f, t in text.items():
    for m in re.finditer(r'^( *)(?:pub )?(?:(fn)|struct) (\w+)(?:<(?:[^()\n]|\([^)]*\))*?>)? ?([({;])', t, re.M):
        i, deep, line = m.end(), 1, t.count('\n', 0, m.start()) + 1
        while m[2] and deep: deep += {'(': 1, ')': -1}.get(t[i], 0); i += 1
        end = (re.compile('^' + m[1] + r'\}', re.M).search(t, i) or m).start() if m[2] else i
        bodiless = m[2] and re.compile(r'(?:[^;{]|;(?!\n))*?(?:\b(?:requires|ensures)\b[ \w]*\{.*\}\s*)*;\n').match(t, i)
        b = m[2] and not bodiless and (re.compile('^' + m[1] + r'\{$', re.M).search(t, i, end) or re.compile(r'\{$', re.M).search(t, i))
        clauses, body, at = (t[i:b.start()], t[b.end():end], t.count('\n', 0, b.end()) + 1) if b else (bodiless[0] if bodiless else '', '', line)
        params, ret = ' '.join(t[m.end():i - 1].split()) if m[2] else '', ' '.join(re.match(r'\s*(->\s*[^\n{]+)?', clauses)[0].split())
        comment = re.search(r'((?:[ ]*(?://|#\[)[^\n]*\n)*)\Z', ''.join(src[f].splitlines(True)[:line - 1]))[1]
        doc = ' '.join(comment.split()) + (f' fn {m[3]}({params}) {ret}' if m[2] else f' struct {m[3]}')
        loops = [(l.start(), re.compile(r'(.*?)^' + l[1] + r'\}', re.M | re.S).match(body, l.end() + 1)[1]) for l in re.finditer(r"^( *)(?:'\w+: )?(?:while [^\n]*|loop) \{$", body, re.M)]
        fns.append(types.SimpleNamespace(f=f, name=m[3], line=line, params=params, ret=ret, clauses=clauses, body=body, at=at, doc=doc, loops=loops))
def form(s, kept=set('let mut if else while for in return match as true false usize u32 u8 u16 bool'.split()), own=lambda w: True, word=r'\b\w+\b'):
    seen, s = {}, re.sub(r'\b\w+Idx\((\w+)\)', r'\1', re.sub(r'\b(?:\w+::)+', '', s))
    return ' '.join(re.sub(word, lambda m: m[0] if m[0] in kept or not own(m[0]) else 'N' if m[0][0].isdigit() else 'v%d' % seen.setdefault(m[0], len(seen)), s).split())
def bare(s): return s if not re.search(r'\((?!\))(?:[^()]|\(\))*\)', s) else bare(re.sub(r'\((?!\))(?:[^()]|\(\))*\)', '()', s))
def statement(s, names=()):
    for _ in range(9): s, names = re.sub(r'[({]([^(){}:→]+) : [^(){}]*[)}] ?(?:→ )?', '', s), {*names, *' '.join(re.findall(r'[({]([^(){}:→]+) : [^(){}]*[)}]', s)).split()}
    return form(re.sub(r'\{[^}]*\}(?: →)?|[()]', ' ', s), (), names.__contains__, r'[^\s,]+')
shapes = (('same but for names and numbers', lambda x: form(x.params + x.ret + x.body), lambda x: x.body, 3), ('same but for what is passed', lambda x: form(bare(x.body)), lambda x: bare(x.body), 12))
for kind, shape, words, least in shapes if point == '2' else ():
    groups = collections.defaultdict(list)
    for x in fns: groups[shape(x)].append(x)
    for x, g in ((x, g) for g in groups.values() if len(g) > 1 and g[0].body and len(re.findall(r'\w+', words(g[0]))) >= least for x in g):
        if not hasattr(x, 'put'): x.put = put(kind, x.f, x.line, x.name + ', one of ' + ' '.join(y.name for y in g))
if point == '5':
    facts, names, pairs = collections.defaultdict(list), collections.Counter(), collections.Counter()
    for x in fns:
        parts = {re.match(r'[A-Z]\w*|.*', p.strip(' ()'))[0] for c in re.findall(r'\b(?:requires|ensures)\b[ \w]*\{(.*)\}', x.clauses) for p in c.split('×')}
        for fact in sorted({re.sub(r'^[\w.]+(?= <)', '_', p.replace('.old', '.now')) for p in parts} - {''}): facts[fact].append(x)
        ps = sorted(set(re.findall(r'(\w+): ', x.params))); names.update(ps); pairs.update(itertools.combinations(ps, 2))
    for fact, g in facts.items():
        if len(g) >= 3: put('fact in the contracts of three or more functions', g[0].f, g[0].line, f"{len(g)} in {' '.join(sorted({x.f.split('/')[1] for x in g}))[:60]}: {fact}")
    for (a, b), n in pairs.items():
        if n >= 4 and n >= .7 * min(names[a], names[b]) and n >= .5 * max(names[a], names[b]): put('parameters that travel together', 'crates/all/src', n, f'{a} ({names[a]}) and {b} ({names[b]})')
std = {statement(s): n for f in glob.glob(sys.argv[2] + '/**/*.md', recursive=True) for n, s in re.findall(r'^pub (\S+) : (.*)$', open(f).read(), re.M)} if sys.argv[2:] else {}
for f in sorted(glob.glob('crates/*/proofs/**/*.antt', recursive=True)) if point == '8' else ():
    t = re.sub(r'--[^\n]*', '', open(f).read()); n = len(re.findall(r'^\S.* = search rules *$', t, re.M)); kinds['answer that says only search rules'] += n
    if f.endswith('/Proof.antt'): put('proof over Tie', f, 1, f"{len(re.findall(r': tie.Need', t))} answers, {n} of them search rules alone")
    for m in re.finditer(r'^(?:pub )?([^\s:(){}=]+) :((?:[^\n]*\n)(?:[ ]+[^\n]*\n)*)', t, re.M) if '/Proof.' not in f else ():
        if statement(m[2]) in std: put('lemma that std has', f, t.count('\n', 0, m.start()) + 1, m[1] + ' is ' + std[statement(m[2])])
for kind, where, rule in (r[1:] for r in table[1:] if r[0] == point):
    for f, t in text.items():
        for m in re.finditer(rule.replace('NONE', table[0][1]), t) if where == 't' else (): put(kind, f, t.count('\n', 0, m.start()) + 1, m[0])
    for x in fns:
        for m in re.finditer(rule, x.body) if where == 'b' else (): put(kind, x.f, x.at + x.body.count('\n', 0, m.start()), x.name + ' ' + m[0])
        if re.search(rule, x.doc if where == 'd' else x.body) and where in 'dw': put(kind, x.f, x.line, x.name)
        for i, body in ((i, b) for i, b in x.loops if where == 'l' and re.search(rule, b)): put(kind, x.f, x.at + x.body.count('\n', 0, i), x.name + ' ' + x.body[i:].split('\n')[0])
for k, n in sorted(kinds.items()): print('total', k, n)
