# Counts the places of docs/DESIGN-PASS.md in crates/*/src, and of point 8 in proofs/ too, by their form and
# not by a list of names.
# At the top of a checkout: python3 docs/places.py POINT. It prints a place a line, and their number.
import collections, difflib, glob, itertools, re, sys
def load(f):  # comments out, strings emptied, lines kept
    s = re.sub(r'b?"(?:\\.|[^"\\])*"', '""', re.sub(r'//[^\n]*', '', open(f).read()))
    return re.sub(r'ghost use [^;]*;', lambda m: '\n' * m[0].count('\n'), s)
SRC = {f: load(f) for f in sorted(glob.glob('crates/*/src/**/*.rt', recursive=True))}
def close(s, i):  # the index after the bracket that closes the one at i
    n = 0
    for j in range(i, len(s)):
        n += (s[j] in '([{') - (s[j] in ')]}')
        if n == 0: return j + 1
def split(s, at=','):  # at each `at` that stands in no bracket
    out, n, cur = [], 0, ''
    for ch in s.replace('->', '\0'):
        n += (ch in '([{<') - (ch in ')]}>') if at == ',' else (ch in '([{') - (ch in ')]}')
        if ch == at and n == 0: out.append(cur); cur = ''
        else: cur += ch
    return [x.replace('\0', '->').strip() for x in out + [cur] if x.strip()]
class Fn: pass
def functions():
    for f, s in SRC.items():
        for m in re.finditer(r'\bfn (\w+)', s):
            g = Fn(); g.file, g.name, g.line, g.clauses = f, m[1], s.count('\n', 0, m.start()) + 1, []
            i = s.index('(', m.end() if s[m.end()] != '<' else s.index('>(', m.end()))
            k = j = close(s, i); g.cycle = '#[cycle' in s[max(0, m.start() - 80):m.start()]
            ps = [p.split(':', 1) if ':' in p else (p, 'Self') for p in split(s[i + 1:j - 1])]
            g.params = [(n.strip(), t.strip().replace("'a ", '')) for n, t in ps]
            clause = re.compile(r'[^{;]*?\b(requires|ensures)\b\s*\w*\s*(?=\{)')
            for c in iter(lambda: clause.match(s, k), None):
                k = close(s, c.end()); g.clauses.append((c[1], s[c.end() + 1:k - 1]))
            b = re.compile(r'[^{;]*').match(s, k).end()
            r = re.match(r'\s*->\s*(.*?)\s*(?:\bwhere\b|\brequires\b|\bensures\b|[{;]|$)', s[j:], re.S)
            g.ret, g.at = r[1] if r else '()', s.count('\n', 0, b) + 1
            g.body = s[b:close(s, b)] if s[b:b + 1] == '{' else ''
            g.flat = ' '.join(g.body.split()); yield g
FN, ROWS = list(functions()), []
short = lambda f: f.replace('crates/', '').replace('/src/', ': ')
def row(kind, f, line, what): ROWS.append((kind, short(f), line, what))
def fn(kind, g, what=None): row(kind, g.file, g.line, what or g.name)
def lineof(g, m): return g.at + g.body.count('\n', 0, m.start())
def types():  # (file, line, 'enum' or 'struct', name, [variants or fields])
    for f, s in SRC.items():
        for m in re.finditer(r'\b(enum|struct) (\w+)[^{;(]*\{', s):
            ps = [' '.join(p.split()) for p in split(s[m.end():close(s, m.end() - 1) - 1])]
            yield f, s.count('\n', 0, m.start()) + 1, m[1], m[2], [re.sub(r'#\[[^]]*\] ?|pub ', '', p) for p in ps]
def lines(kind, pattern):
    for f, s in SRC.items():
        for i, l in enumerate(s.split('\n'), 1):
            for m in re.finditer(pattern, l): row(kind, f, i, l.strip()[:90])
def p1():
    bad = r'(?:Fault|Refused|Bad|Failed|Err|Error|Stop|None|Nothing|Nowhere|Missing|Invalid)'
    code, own = r'(?:stop|number|kind|fault|code|status|op|error)', {}
    for f, n, k, name, parts in types():
        vs = [re.match(r'\w+', v)[0] for v in parts] if k == 'enum' else []
        if k == 'enum' and (len(vs) == 2 or any(re.fullmatch(bad, v) for v in vs)):
            own[name] = 1; row('a own enum like Option or Result', f, n, name + ': ' + ' | '.join(parts))
        for p in parts if k == 'enum' else []:
            if re.match(r'%s\(u8|\w+ \{[^}]*\b%s: u8' % (bad, code), p):
                row('c variant that carries a code', f, n, name + '::' + p)
    for f, n, k, name, parts in types():
        for p in parts if k == 'struct' else []:
            if re.match(r'%s: (?:u8|u32|usize)$' % code, p) or re.search(r': (?:%s)$' % '|'.join(own or ['-']), p):
                row('b struct with a code, or with such an enum, beside a value', f, n, name + ': ' + p)
    index = 'dest left right cond yes no array index source register function registers arrays functions'
    for g in FN:
        zero = r'return 0;|=> 0,|\{ 0 \}|[;}] 0 \}$'
        if re.fullmatch(r'u\d+|usize', g.ret) and re.search(zero, g.flat):
            fn('d function that answers 0 (for none, or past an end)', g, g.name + ' -> ' + g.ret)
        for p, t in g.params:
            if t == 'u8' and p not in (index + ' depth cur count i f g d r q').split():
                fn('e u8 parameter that is no index by its name', g, '%s(%s)' % (g.name, p))
        if g.ret == 'u8': fn('f function that answers a u8', g)
        for m in re.finditer(r'let (\w+) = [^;]*;\s*(?=if \1 == 0 \{)', g.body):
            n = lineof(g, m) + m[0].count('\n')
            row('i code tested as a number', g.file, n, 'if %s == 0 in %s' % (m[1], g.name))
        for m in re.finditer(r'\bmatch ([^{]*)\{', g.body):
            if re.search(r'[{,]\s*(0x)?[0-9]\w* =>', g.body[m.end() - 1:close(g.body, m.end() - 1)]):
                row('g match on numbers', g.file, lineof(g, m), g.name + ': match ' + m[1].strip())
    lines('h fault or stop written as a number',
        r'\b(?:Fault|Refused|Stop|Err|stop|halted|ended|fault)\(\s*\d+|^\s*1[01]$')
    lines('i code tested as a number', r'\d+ <=? (?:sense|mark|way|op|\w+\.status)\b'
        r'|\b(?:kind|number|status|op|b|l|\w+\.status|\w+\.stop|t\[at\]) (?:==|!=|<=?) \d+')
    lines('j arm that hands a fault on', r'::%s\((?!\d)[^)]*\) =>|::Bad =>' % bad)
    lines('k kind byte written as a number in a call', r'[(,] 0x[0-9A-F]{2}\b')
def p2():
    def tokens(g):  # types, numbers, the own name and the parameters' names made alike
        names = {p: 'P%d' % i for i, (p, _) in enumerate(g.params)}
        like = lambda w: 'N' if re.fullmatch(r'u\d+|usize', w) else '1' if w[0].isdigit() else names.get(w, w)
        s = ' '.join(t for _, t in g.params) + ' -> ' + g.ret + g.body
        return ['F' if w == g.name else like(w) for w in re.findall(r'\w+|[^\w\s]', s)]
    for (g, a), (h, b) in itertools.combinations([(g, tokens(g)) for g in FN if g.body and g.name != 'main'], 2):
        n = max(len(a), len(b)); cut = 0.88 if n < 45 else 0.8 if n < 70 else 0.72
        if g.name == h.name or g.file == h.file: cut = max(cut - 0.1, 0.72)
        m = difflib.SequenceMatcher(None, a, b, False)
        if min(len(a), len(b)) >= 0.6 * n and m.quick_ratio() >= cut and m.ratio() >= cut:
            fn('a functions alike', g, '%s ~ %s (%s:%d) %.2f' % (g.name, h.name, short(h.file), h.line, m.ratio()))
    shape = lambda k, p: re.sub(r'^\w+', 'V', p) if k == 'enum' else p.split(':', 1)[1].strip()
    every = [(f, n, k, name, [shape(k, p) for p in ps]) for f, n, k, name, ps in types() if ps]
    for a, b in itertools.combinations(every, 2):
        both = sum((collections.Counter(a[4]) & collections.Counter(b[4])).values())
        if a[2] == b[2] and both >= 2 and both >= 0.66 * max(len(a[4]), len(b[4])):
            row('b types alike', a[0], a[1], '%s ~ %s (%s:%d)' % (a[3], b[3], short(b[0]), b[1]))
def p3():
    lines('a while loop', r'\bwhile\b(?! let)')
    lines('b loop that is left by return', r'\bloop \{')
    for g in FN:
        if re.search(r'(?<![\w.:])%s\((?:[^()]|\([^()]*\))*\b\w+ - 1\b' % g.name, g.body):
            fn('c calls itself with a count less 1', g)
        elif g.cycle and re.search(r'\b\w+ - 1\b', g.body): fn('d member of a cycle that passes a count less 1', g)
        if len(re.findall(r'\+ \d[,)]', g.body)) >= 3 and re.search(r'\* 256|/ 256', g.body):
            fn('e loop over bytes written out', g)
def p4():
    W = r'[\w.()]+'
    forms = [
        ('a min or max', r'\{ if (\w+) < (\w+) \{ (?:\1|\2) \} else \{ (?:\1|\2) \} \}$'),
        ('b subtraction that stops at 0', r'.*(\{ return 0; \} %s - %s \}|return %s - \w+; \} 0 \})$' % (W, W, W)),
        ('c conversion', r'\{ \w+ as \w+ \}$|\{ if \w+ == \d \{ return \w+::\w+; \} \w+::\w+ \}$'),
        ('d bool as a number', r'.*\{ 1 \} else \{ 0 \} \}$'),
        ('e get or set with a test', r'.*< \w+\.len\(\) \{ (?:return \w+\[\w+\]; \} 0 \}|\w+\[\w+\] = \w+; \} \})$'),
        ('h choice of two', r'\{ if \w+ \{ \w+ \} else \{ \w+ \} \}$'),
        ('i bytes to a number or back', r'.*(\* 256|/ 256|<< 8)'),
        ('j arithmetic of the library', r'.*(% 4294967296|% 256\b.*\+ 48|std::num::)'),
        ('k printing',
            r'.*\b(print_decimal|write_all|put_(?:bytes|decimal|digits)|labelled|words|bytes|state|refused|stopped)\('),
        ('l copying', r'\{ let \w+ = \w+\.\w+; \w+ \}$'),
        ('m struct literal behind a name', r'\{ [A-Z]\w* \{ [^{}]*\} \}$')]
    logic = r'if !?\w+(?: != \w+)? \{ return (?:true|false|\w+|is_\w+\(\w+\)); \}'
    for g in FN:
        kinds = [k for k, p in forms if re.match(p, g.flat)] or ['k printing'] * bool(re.match('put_[bd]', g.name))
        if g.ret == 'bool' and re.search(r'match .*=> (?:true|false)', g.flat):
            kinds = ['f equality or test of a variant']
        elif g.ret == 'bool' and re.search(logic, g.flat): kinds = ['g && or || or == of bools']
        if kinds: fn(kinds[0], g)
    lines('n cast with as', r'\bas (?:u8|u16|u32|u64|usize)\b')
    for f, n, k, name, parts in types():
        m = re.search(r'((?:#\[[^]]*\]\s*)*)(?:pub )?%s %s\b' % (k, name), SRC[f])
        if 'PartialEq' not in m[1]: row('o type without derived equality', f, n, name)
    lines('p field copied into a local', r'^\s*let \w+ = \w+\.\w+;$')
def p5():
    def strip(x):
        while x.startswith('(') and close(x, 0) == len(x): x = x[1:-1].strip()
        return re.sub(r'\b\d+\b', 'N', ' '.join(x.split()))
    at, words = collections.defaultdict(dict), collections.defaultdict(dict)
    for g in FN:
        for k, c in g.clauses:
            for x in map(strip, split(c, '×')):
                h = re.match(r'(?:\(.*?\)\s*→\s*)*([A-Z]\w*)\s+[\w(]', x)
                at[k + ' ' + (h[1] + ' ..' if h else x)][g.file, g.line] = g
            for w in re.findall(r'\b(?:view_\w+|\w+_with|\w+_from|ctl_\w+|data_of)\b', c):
                words[w][g.file, g.line] = g
    for x, gs in at.items():
        for g in gs.values() if len(gs) >= 3 else []: fn('a fact in %d functions: %s' % (len(gs), x), g)
    for w, gs in words.items():
        gs = list(gs.values())
        if len(gs) >= 3:
            what = '%s in %d: %s' % (w, len(gs), ' '.join(g.name for g in gs))
            fn('b view that is written out in clauses', gs[0], what)
    for crate in sorted({g.file.split('/')[1] for g in FN}):
        sig = [(g, frozenset(n + ': ' + t for n, t in g.params)) for g in FN if g.file.split('/')[1] == crate]
        many = collections.Counter(p for _, s in sig for p in s)
        for s in sorted({a & b for (_, a), (_, b) in itertools.combinations(sig, 2) if len(a & b) >= 2}, key=sorted):
            gs = [g for g, t in sig if s <= t]
            if len(gs) >= 3 and len(gs) >= 0.75 * min(many[p] for p in s):
                names = '(%s) in %d of %s: ' % (', '.join(sorted(s)), len(gs), crate)
                fn('c parameters together', gs[0], names + ' '.join(g.name for g in gs))
def p6():
    for f, n, k, name, parts in types():
        for p in parts if k == 'struct' else []:
            if re.search(r'\[\w+; ', p): row('a fixed buffer in a struct', f, n, name + '.' + p)
        if k == 'struct' and sum(p.endswith(': u32') for p in parts) >= 2:
            row('f two packed words side by side', f, n, name)
    lines('b fixed buffer', r'= \[\w+; \d+\];|&mut \[u\d+; ')
    for g in FN:
        for (n, t), (m, u) in zip(g.params, g.params[1:]):
            if re.search(r'\[u\d+\]', t) and u == 'usize':
                fn('c slice with a place or a length beside', g, '%s(%s, %s)' % (g.name, n, m))
        ts = [t for _, t in g.params]
        if any('[' in t for t in ts) and g.ret == 'usize': fn('d answers a length or place of a slice', g)
        if sum(t.endswith('[u32]') for t in ts) >= 2: fn('e two arrays of words side by side', g)
        if re.search(r'<= p \{|q == c \+', g.body): fn('g list searched by hand', g)
def p7():
    for g in FN:
        for m in re.finditer(r'\bmatch ([^{]*)\{', g.body):
            inner = g.body[m.end():close(g.body, m.end() - 1)]
            arms = re.findall(r'=> (?:\{\s*)?(?:return )?((?:self\.)?[a-z]\w*(?:::\w+)*)\(', inner)
            if len(set(arms)) >= 2 and len(arms) >= 3:
                what = '%s: match %s: %s' % (g.name, m[1].strip(), ' '.join(dict.fromkeys(arms)))
                row('a match that picks a function', g.file, lineof(g, m), what)
        for n, t in g.params:
            what = '%s(%s)' % (g.name, n)
            if t == 'bool' and re.search(r'\bif !?%s\b' % n, g.body): fn('b bool that picks the way', g, what)
            if re.search(r'\bfn\b|\bFn|dyn ', t): fn('c function pointer, closure or dyn', g, what)
def p8():
    F = sorted(sum((glob.glob('crates/*/%s/**/*.antt' % d, recursive=True) for d in ('proofs', 'specs')), []))
    T = {f: re.sub(r'--[^\n]*', '', open(f).read()) for f in F}
    goals = [f for f in F if re.search(r'/proofs/.+/(Answers|Invariants)\.antt$', f)]
    cited, same = collections.defaultdict(set), collections.defaultdict(list)
    alone = r'search rules|auto|grind( \(?arith(, common_steps)?\)?)?|omega arith'
    for f in goals:
        for m in re.finditer(r'^pub (\S+) : goal\.\S+\n((?:(?!^pub )[^\n]*\n?)*)', T[f], re.M):
            b = ' '.join(re.sub(r'^unfolding[^\n]*\n', '', m[2], flags=re.M).split('=', 1)[-1].split())
            n = T[f].count('\n', 0, m.start()) + 1
            if re.fullmatch(alone, b): row('a answer that only says what the check tries itself', f, n, m[1])
            same[re.sub(r'\b(if|in)-[\w-]+', r'\1-X', re.sub(r'\b\d+\b', 'N', b))].append((f, n, m[1]))
    for b, gs in same.items():
        for g in gs if len(gs) >= 3 else []: row('b answer that stands %d times: %s' % (len(gs), b[:80]), *g)
    W = r"[^\s(){}\[\],;.:@λ]+"
    pages = [f for f in glob.glob('*.md') + glob.glob('docs/*.md') if not re.search('PORT|DESIGN-PASS', f)]
    pages = ' '.join(open(f).read() for f in pages)
    for f, t in list(T.items()) + [(f, open(f).read()) for f in SRC]:
        for m in re.finditer(r'\buse (Rattle\.[\w.+-]+?)\.\{([^}]*)\}', t):
            for x in m[2].split(','): cited[m[1], x.split(' as ')[0].strip()].add(f)
        for m in re.finditer(r'crate::((?:specs|proofs)(?:::\w+)+)::(\w+)', t):
            cited['Rattle.' + f.split('/')[1] + '.' + m[1].replace('::', '.'), m[2]].add(f)
    for f in [f for f in F if f not in goals and '/specs/' not in f]:
        body = re.sub(r'^ *use [^\n]*', '', T[f], flags=re.M); own = 'Rattle.' + f[7:-5].replace('/', '.')
        form = r'^( {0,4})(?:abbrev |unfoldable )?(?:pub )?(%s)(?: \{[^}\n]*\})* : |^( *)(?:module|(?:pub )?ruleset)' % W
        ds = [(d.start(), len(d[1] if d[2] else d[3]), d[2]) for d in re.finditer(form, body, re.M)]
        for i, (p, ind, name) in enumerate(ds):
            end = next((q for q, n, _ in ds[i + 1:] if n <= ind), len(body))
            if name and name not in re.findall(W, body[:p] + body[end:]) and not cited[own, name] - {f}:
                kind = 'c lemma that nothing cites' + (', named in README or docs/' if '`%s`' % name in pages else '')
                row(kind, f, body.count('\n', 0, p) + 1, name)
if __name__ == '__main__':
    globals()['p' + sys.argv[1]]()
    for kind in sorted({r[0] for r in ROWS}):
        print('##', kind, '-', sum(r[0] == kind for r in ROWS))
        for k, f, n, what in ROWS:
            if k == kind: print('%s:%d  %s' % (f, n, what))
    print('places', len(ROWS))
