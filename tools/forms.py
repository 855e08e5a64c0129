"""Counts the forms that docs/DESIGN-PASS.md speaks of, in the src/ of every crate, each in two ways.

python3 tools/forms.py [TOP] [-v]      TOP is a checkout's top, by default this one's; -v names each place
The first way searches lines for the names and words of the old forms. The second knows none of the names: it splits the code into
functions and looks at their shape.
"""
import collections
import glob
import os
import re
import sys

given = [a for a in sys.argv[1:] if a != '-v']
loud = '-v' in sys.argv
top = given[0] if given else os.path.join(os.path.dirname(os.path.abspath(__file__)), '..')


def text(path):
    with open(path, encoding='utf8') as f:
        return f.read()


def short(path):
    return path.split('/crates/')[1].replace('/src/', '/').replace('.rt', '')


files = sorted(glob.glob(os.path.join(top, 'crates/*/src/*.rt')))
lines = [(short(f), i, l) for f in files for i, l in enumerate(text(f).split('\n'), 1)]
Fn = collections.namedtuple('Fn', 'where name params result clauses body')


def functions():
    for f in files:
        rows = text(f).split('\n')
        for i, row in enumerate(rows):
            head = re.match(r'(\s*)(?:pub )?(?:extern "C" )?fn (\w+)', row)
            if not head:
                continue
            end = next(j for j in range(i, len(rows)) if rows[j].rstrip() in (head.group(1) + '}', head.group(1) + '{}'))
            part = rows[i:end + 1]
            clauses = [p.strip() for p in part if re.match(r'\s*(requires|ensures)\b', p)]
            first = next((k for k, p in enumerate(part) if re.match(r'\s*(requires|ensures)\b', p)), None)
            opens = next(k for k, p in enumerate(part) if k >= (first or 0) and re.search(r'\{(\})?$', p) and not re.match(r'\s*(requires|ensures)\b', p))
            signature = ' '.join(p.strip() for p in part[:(first if first is not None else opens + 1)])
            inner = re.search(r'fn \w+(?:<.*?>)?\((.*)\)(?: -> (.*?))?\s*\{?$', signature.replace('{', '').rstrip())
            params = [p.strip() for p in inner.group(1).split(',') if p.strip()] if inner else []
            body = [re.sub(r'//.*', '', p) for p in part[opens + 1:-1]]
            yield Fn(short(f), head.group(2), params, (inner.group(2) or '') if inner else '', clauses, '\n'.join(b for b in body if b.strip()))


fns = list(functions())


def show(point, what, places):
    print('%-4s%-86s%4d' % (point, what, len(places)))
    if loud:
        for p in places:
            print('        ' + p)


def grep(pattern):
    return ['%s:%d: %s' % (f, i, l.strip()) for f, i, l in lines if re.search(pattern, l)]


def of(test):
    return ['%s %s' % (f.where, f.name) for f in fns if test(f)]


print('crates %d, files %d, lines %d, functions %d' % (len({f.split('/')[0] for f, _, _ in lines}), len(files), len(lines), len(fns)))

# ---- 1
enums = [(short(f), m.group(1), m.group(2)) for f in files for m in re.finditer(r'^(?:pub )?enum (\w+) \{\n(.*?)^\}', text(f), re.M | re.S)]
show('1', 'own enums with a case for a refusal, or for none', grep(r'^\s+(Refused|Bad|Broken)\(|^    (Good|End|Complete|Stored|Numbers|Finished),'))
show('1', 'a refusal passed on by hand', grep(r'if let Check::Bad|=> \w+::(Refused|Broken)|return \w+::(Refused|Bad)'))
show('1', 'a check or a mark beside a value', grep(r'^\s+pub (check|started):'))
show('1', 'numbers for kinds and faults', grep(r'fn (number_of|side_number)\(|kind == [0-9]'))
show('1', 'an index or a count that stands for none', grep(r'^    (tasks|count|most\.len\(\)|order\.len\(\)|lows\.len\(\)|after\(head\.len\(\), last, i\)|best)$|let mut best = (left|head)\.len\(\)|unwrap_or\(count\)'))
show('1b', 'enums of which a case holds a Refusal, or that have two cases, one empty', ['%s %s' % (f, n) for f, n, b in enums if 'Refusal' in b or (len(re.findall(r'^    \w+', b, re.M)) == 2 and re.search(r'^    \w+,', b, re.M))])
show('1b', 'arms that rebuild what they took: X(r) => Y(r)', grep(r'\w+::\w+\((\w+)\) => (return )?\w+::\w+\(\1\)|Err\((\w+)\) => (return )?Err\(\3\)'))
show('1b', 'functions that answer an index or, behind a search, what stands for none', of(lambda f: f.result == 'usize' and re.search(r'^\s+return ', f.body, re.M) and re.search(r'\b(for|while|loop)\b', f.body)))

# ---- 2
show('2', 'twins by name: one thing for two types, sides, halves or answers', grep(r'fn (index|number|core_index|wide|long|later|lesser|earlier|plan_body|table_body|after_(header|task|edge)|sooner_(phase|core)|head_of|lead_of|bytes|halves|numbers|near_at|byte_at|refuse_if|refused|side_number|field_check|given_check|(read|write|run|make)_into)\('))
show('2', 'loops over checks: the first that refuses', of(lambda f: re.search(r'if let Check::Bad|check\(i\)\?|refuse_at\(.*\)\?', f.body) and re.search(r'\b(for|while)\b', f.body)))


def plain(f):
    seen = {}

    def name(m):
        w = m.group(0)
        if w in ('let', 'mut', 'if', 'else', 'for', 'in', 'while', 'loop', 'return', 'match', 'as', 'Some', 'None', 'Ok', 'Err', 'true', 'false', 'self'):
            return w
        return seen.setdefault(w, 'x%d' % len(seen))
    return re.sub(r'[A-Za-z_]\w*', name, re.sub(r'\s+', ' ', f.body)).strip()


groups = collections.defaultdict(list)
for f in fns:
    if len(f.body) > 8:
        groups[(len(f.params), plain(f))].append('%s %s' % (f.where, f.name))
show('2b', 'functions whose body, but for its names, is another one\'s', sorted(' = '.join(g) for g in groups.values() if len(g) > 1 for _ in g[1:]))

# ---- 3
show('3', 'while and loop', grep(r'^\s*(while|loop)\b'))
show('3', 'a counter moved by hand', grep(r'^\s*\w+ [+-]= 1;|^\s*(\w+) = \1 [+-] 1;'))
show('3b', 'functions with a while or loop', of(lambda f: re.search(r'^\s*(while|loop)\b', f.body, re.M)))
show('3b', 'functions with a while whose condition compares what the body moves by one', of(lambda f: any(re.search(r'\b%s\b[^;]*[+-]=? 1;' % v, f.body) for c in re.findall(r'^\s*while (.*)\{', f.body, re.M) for v in re.findall(r'\b[a-z]\w*\b', c))))

# ---- 4
show('4', 'conversion, order, copying and printing by hand', grep(r'fn (index|number|core_index|wide|long|lesser|later|earlier|bit|pick|copy|clear|end_if|back|named|word|line)\b'))
show('4b', 'functions of one line: a cast, or a choice between two parameters', of(lambda f: re.fullmatch(r'\s*\w+ as \w+\s*|\s*if [^{}]* \{ \w+ \} else \{ \w+ \}\s*|\s*if [^{}]*\{\s*\w+\s*\} else \{\s*\w+\s*\}\s*', f.body)))
show('4b', 'casts by `as`', grep(r' as (u|i)(8|16|32|64|size)\b'))

# ---- 5
show('5', 'functions of six parameters and more', of(lambda f: len(f.params) >= 6))
facts = collections.defaultdict(set)
for f in fns:
    for c in f.clauses:
        m = re.match(r'requires (?:\w+ )?\{ (.*) \}$', c)
        for part in re.split(r' × (?![^(]*\))', m.group(1)) if m else []:
            part = re.sub(r'\b(self|planned|candidate|phases|plan|run|edges|reach)\.(now|old|entry)\.', '', part.strip('() '))
            if not re.match(r'\d+ ≤ length|\w+ < length|length \w+\.old ≡', part):
                facts[re.sub(r'\.(now|old|entry)\b', '', part)].add(f.where + ' ' + f.name)
show('5b', 'facts that the requires of three and more functions have', ['%s: %s' % (k, ', '.join(sorted(v))) for k, v in sorted(facts.items()) if len(v) > 2])

# ---- 6
show('6', 'a slice with a count of its own beside it', of(lambda f: any(re.match(r'(count|tasks|edges|room|n|m|own_count|size|room): usize', p) for p in f.params) and any(': &' in p for p in f.params)))
show('6b', 'requires that bound a parameter by the length of another', ['%s %s: %s' % (f.where, f.name, c) for f in fns for c in f.clauses if c.startswith('requires') and any(re.search(r'(?<![\w.])%s ≤ length ' % p.split(':')[0], c) for p in f.params if ': usize' in p)])

# ---- 7
show('7', 'a test of a number for what to do', grep(r'kind == \d|side == \d|\bmatch (kind|tag|number|side) \{|match \(side, tag\)'))
show('7', 'closures', grep(r'[(,] ?\|\w+\| '))
show('7b', 'functions that compare one name with two literals and more', of(lambda f: any(n > 1 for n in collections.Counter(re.findall(r'\b(\w+) == \d+', f.body)).values())))

# ---- 8
for what, pattern in (('8', 'proofs/**/Answers.antt'), ('8', 'proofs/**/Invariants.antt'), ('8', 'proofs/*.antt')):
    found = [p for c in sorted(glob.glob(os.path.join(top, 'crates/*/'))) for p in glob.glob(os.path.join(c, pattern), recursive=True)]
    print('%-4s%-86s%4d' % (what, 'lines of %s, in %d files' % (pattern, len(found)), sum(text(p).count('\n') for p in found)))
found = [p for c in sorted(glob.glob(os.path.join(top, 'crates/*/'))) for p in glob.glob(os.path.join(c, 'proofs/**/Answers.antt'), recursive=True)]
print('%-4s%-86s%4d' % ('8b', 'goals answered', sum(len(re.findall(r'^pub [\w-]+ : goal\.', text(p), re.M)) for p in found)))
