#!/usr/bin/env python3
"""Counts, point by point, the places in crates/*/src and in the proofs that a design pass looks at.

    python3 count.py [-l] [CHECKOUT]      -l lists each hit

Reads only the checkout (the current folder where none is named): nothing is run, nothing outside is read.
"""
import collections, glob, os, re, sys

ARGS = [a for a in sys.argv[1:] if a != '-l']
LIST = '-l' in sys.argv
ROOT = ARGS[0] if ARGS else '.'
SRC = sorted(glob.glob(os.path.join(ROOT, 'crates/*/src/**/*.rt'), recursive=True))
TEXT = {f: open(f, encoding='utf-8').read().split('\n') for f in SRC}
SKIP = {'crates/table/src/entries.rt', 'crates/single/src/entries.rt'}          # tables of numbers


def short(f):
    return os.path.relpath(f, ROOT)


def show(hits):
    if LIST:
        for h in hits:
            print('          ' + h)


def lines(label, pattern, only=None, drop=None):
    """Lines of src that the pattern finds, comments left out."""
    r, d = re.compile(pattern), re.compile(drop) if drop else None
    hits = []
    for f, ls in TEXT.items():
        if only and not re.search(only, short(f)):
            continue
        for i, l in enumerate(ls, 1):
            if not l.lstrip().startswith('//') and r.search(l) and not (d and d.search(l)):
                hits.append('%s:%d: %s' % (short(f), i, l.strip()))
    print('%6d  %s' % (len(hits), label))
    show(hits)


def times(label, pattern, only=None):
    """How often the pattern stands in src, comments left out."""
    r, n = re.compile(pattern), 0
    for f, ls in TEXT.items():
        if only and not re.search(only, short(f)):
            continue
        n += sum(len(r.findall(l)) for l in ls if not l.lstrip().startswith('//'))
    print('%6d  %s' % (n, label))


def functions():
    out = []
    for f, ls in TEXT.items():
        i = 0
        while i < len(ls):
            m = re.match(r'^(\s*)(pub(?:\(crate\))? )?(?:const )?(?:extern "C" )?fn (\w+)', ls[i])
            if not m:
                i += 1
                continue
            indent, first, sig, con, body, j, state = m.group(1), i, [], [], [], i, 'sig'
            while state != 'body' and j < len(ls):
                l = ls[j]
                if l.rstrip() == indent + '{':
                    state = 'body'
                elif l.startswith(indent + '{') and l.rstrip().endswith('}'):
                    body.append(l)
                    break
                elif re.match(r'\s*(requires|ensures)\b', l) or state == 'con':
                    state = 'con'
                    con.append(l)
                else:
                    sig.append(l)
                    if l.rstrip().endswith('{'):
                        state = 'body'
                    elif l.rstrip().endswith(';') or (l.rstrip().endswith('}') and '{' in l):
                        break
                j += 1
            while state == 'body' and j < len(ls) and ls[j].rstrip() != indent + '}':
                body.append(ls[j])
                j += 1
            out.append(dict(file=short(f), line=first + 1, vis=(m.group(2) or '').strip(), name=m.group(3),
                            sig='\n'.join(sig), con='\n'.join(con), body='\n'.join(body)))
            i = j + 1
    return out


FUNCTIONS = functions()


def of(label, test):
    hits = ['%s:%d: %s' % (f['file'], f['line'], f['name']) for f in FUNCTIONS if test(f)]
    print('%6d  %s' % (len(hits), label))
    show(hits)


KEEP = set('let mut while if else return match fn pub for in as true false self loop break continue const extern move impl ref'.split())


def shape(f):
    """A function with every name, number and text left out."""
    t = re.sub(r'//.*', '', re.sub(r'\bfn \w+', 'fn', f['sig']) + '{' + f['body'])
    t = t.replace('pub(crate) ', '').replace('pub ', '').replace('extern "C" ', '')
    out = []
    for x in re.findall(r'b?"[^"]*"|\d\w*|\w+|[^\s\w]', t):
        out.append('n' if x[0].isdigit() else '"' if '"' in x else x if x in KEEP or not re.match(r'\w', x) else 'i')
    return ' '.join(out)


def twins():
    groups = collections.defaultdict(list)
    for f in FUNCTIONS:
        groups[shape(f)].append(f)
    groups = sorted((g for k, g in groups.items() if len(g) > 1), key=lambda g: (-len(g), g[0]['file']))
    print('%6d  groups of functions that are the same but for names, numbers and texts' % len(groups))
    print('%6d  functions in them' % sum(map(len, groups)))
    show(['%d: %s' % (len(g), ', '.join('%s:%s' % (f['file'].replace('crates/', '').replace('/src/', '/'), f['name']) for f in g)) for g in groups])


def enums():
    hits = collections.Counter()
    rows = []
    for f, ls in TEXT.items():
        i = 0
        while i < len(ls):
            m = re.match(r'\s*pub(?:\(crate\))? enum (\w+)|\s*enum (\w+)', ls[i])
            if m and ls[i].rstrip().endswith('}'):
                rows.append('%s:%d: %s' % (short(f), i + 1, ls[i].strip()))
            elif m:
                j, vs = i + 1, []
                while ls[j].strip() != '}':
                    v = re.match(r'\s*(\w+)(\(.*\))?( = \d+)?,', ls[j])
                    if v:
                        vs.append(v.group(1) + (v.group(2) or '') + (v.group(3) or ''))
                    j += 1
                rows.append('%s:%d: %s { %s }' % (short(f), i + 1, m.group(1) or m.group(2), ', '.join(vs)))
                i = j
            i += 1
    print('%6d  enums' % len(rows))
    show(rows)


print('size')
print('%6d  lines of src but tables of numbers' % sum(len(t) - 1 for f, t in TEXT.items() if short(f) not in SKIP))
print('%6d  functions, %d of them pub' % (len(FUNCTIONS), sum(f['vis'] == 'pub' for f in FUNCTIONS)))

print('1. own enums, numbers for kinds and refusals')
enums()
RESULTS = r'\b(Answer|Said|Decoded|Judged|Admission)::(Refused|RefusedWith|Bad|Barred)'
lines('lines that name a refusal by a number written out', RESULTS + r'\([0-9]')
lines('lines that hand a refusal\'s number on', RESULTS + r'\([a-z]')
lines('the same in the shape of Result or of a struct', r'Err\(\(?[0-9]|\b(refusal|number|verdict): [0-9]+[,} ]', drop=r'verdict: 2[012],')
lines('lines that answer a verdict with its number', r'\bAnswer::Told\(|verdict: 2[012]|verdict == 2[012]')
lines('lines with `?`', r'\)\?[;.)]')
lines('lines with an own enum\'s case of Option or Result',
      r'\b(Address|Settled|Target|Broken|Decoded|Judged|Astray|Said|Lines|Scanned|Admission|Reach|Reading|Answered|Shorter|Found|Number|Answer)::[A-Z]')
lines('numbers that mean none, as constants', r'^\s*(pub )?const (NONE|NOTHING|UNASKED|NEVER|NOWHERE|LONGER)\b')
lines('tests of such a number, `32 <= i`, `short == 0`, `== NONE`', r'if 32 <= \w+ \{|\bshort == 0\b|== NONE\b|d == 16\b')
of('functions with a kind, a condition, a modifier, a control or an order as a number',
   lambda f: re.search(r'\b(kind|condition|code|modifier|control|order|inversion|force|number): u(64|size|8)\b', f['sig'].replace('\n', ' ')))
lines('commands as numbers', r'^\s*pub const [A-Z]+: u64 = 0x[0-9A-F]+(_[0-9])?;', only='crates/rows/src/row')
lines('tests of a command\'s number', r'row\.key (==|!=|/)')

print('2. twins')
twins()
print('%6d  functions with a const parameter' % sum(bool(re.search(r'fn \w+<[^>]*\bconst\b', f['sig'])) for f in FUNCTIONS))
print('%6d  functions with a type parameter' % sum(bool(re.search(r"fn \w+<(?:'\w+, )*[A-Z]", f['sig'])) for f in FUNCTIONS))

print('3. loops')
lines('while', r'^\s*while ')
lines('for', r'^\s*for ')
of('functions with a while whose index goes up or down by one',
   lambda f: re.search(r'\bwhile\b', f['body']) and re.search(r'\b[a-z] [+-]= 1;', f['body']))
lines('iterator chains and library loops', r'\.(iter|iter_mut|into_iter|all|any|map|position|fold|zip|enumerate|rev|copy_from_slice|fill)\(')

print('4. derives, conversions, what std has')
lines('derive', r'derive\(')
lines('derive with more than Clone and Copy', r'derive\(Clone, Copy, ')
lines('impl', r'^\s*impl\b')
times('fields written twice, `lo: lo`', r'(?<![\w.])(\w+): \1(?=[,\s}]|$)')
times('`as` to a number type', r' as (?:u8|u16|u32|u64|usize)\b')
times('`::from(`', r'\b(?:u16|u32|u64|usize)::from\(')
of('functions of bool with `return true;` or `return false;` and no loop',
   lambda f: '-> bool' in f['sig'] and 'while' not in f['body'] and re.search(r'return (true|false);', f['body']))
of('functions of bool that return a test and end in true or false',
   lambda f: '-> bool' in f['sig'] and 'while' not in f['body'] and not re.search(r'return (true|false);', f['body'])
   and re.search(r'\n\s*(true|false)\s*$', f['body']))
of('functions of bool that are a match with two or more arms of true and false',
   lambda f: '-> bool' in f['sig'] and len(re.findall(r'=> (true|false),', f['body'])) > 1)
times('calls of both, either, negated, chosen in place of operators',
      r'(?<!fn )\b(?:both|either|negated|chosen)\(', only=r'crates/(judge|address)/')

print('5. facts in contracts (clauses in src), parameters that go together')
for label, pattern in [
        ('n ≤ 16', r'n ≤ 16'),
        ('the dictionary\'s length', r'length dictionary\.(now|old) ≡ dictionary_bytes'),
        ('an array of sixteen has sixteen values', r'length (values|first|second|patterns|made|places|results)\.(now|old) ≡ 16'),
        ('another array\'s length that its type says', r'length (sets|shorts|places)\.(old|now|new) ≡ (set_count|instruction_limit|place_count)'),
        ('the registers\' length', r'length registers\.(now|old) ≡'),
        ('a0\'s length', r'length addresses\.(now|old) ≡ address_bytes'),
        ('the state\'s length', r'length (state|bytes)\.(now|old) ≡ state_length'),
        ('the sheet\'s arrays\' lengths', r'length (table|board|state)\.(now|old) ≡ (table|board|state)_bytes'),
        ('flags below 65536', r'\.flag0 < 65536'),
        ('a mask or place below 65536', r'< 65536'),
        ('a size of places at most 2', r'size ≤ 2\b'),
        ('the region table', r'regions\.now ≡ region_table'),
        ('Small', r'\bSmall \(?r'), ('IsWhole kind', r'IsWhole kind'), ('size ≡ size_of kind', r'size ≡ size_of kind'),
        ('Size size', r'\bSize size'), ('Usual', r'\bUsual \(to_word'), ('Serves', r'\bServes '), ('Taken', r'\bTaken '),
        ('Sizes .. × Lawful', r'Sizes dictionary'), ('MarksLand', r'\bMarksLand ')]:
    lines(label, pattern)


def parameters(f):
    m = re.search(r'fn \w+(?:<[^>]*>)?\((.*)\)', f['sig'].replace('\n', ' '))
    return [p.split(':')[0].replace('mut ', '').strip() for p in re.split(r',(?![^\[<(]*[\]>)])', m.group(1)) if p.strip()] if m else []


for names in ['dictionary kernel', 'dictionary kernel marks', 'dictionary kernel registers state', 'p w', 'x w', 'n values', 'n patterns',
              'first second n predicate', 'registers origin n', 'dictionary sets', 'out at', 'place size', 'row desk', 'table board state', 'log count']:
    of('functions with the parameters ' + names, lambda f, s=set(names.split()): s <= set(parameters(f)))
of('functions with six parameters or more', lambda f: len(parameters(f)) >= 6)

print('6. buffers and arrays')
lines('arrays made with a size', r'\[0u?(8|16|32|64)?; ')
lines('slices of the first n of a buffer', r'&(mut )?\w+\[\.\.\w+( as usize)?\]|&\w+\[0?\.\.\w+\]')
lines('String, Vec, maps, Box', r'\b(String|Vec|BTreeMap|HashMap|Box)\b')

print('7. switches')
of('functions that take a bool which says what to do',
   lambda f: re.search(r'\b(long|packs|single|unusual|floats|a0|saturated|comparing|saturating|jumps|immediate|masks): bool', f['sig']))
times('closures', r'\|\w[\w, ]*\| |impl Fn|\bdyn\b')

print('8. proofs')
PROOFS = [p for p in glob.glob(os.path.join(ROOT, 'crates/*/proofs/**/*.antt'), recursive=True)]
SPECS = [p for p in glob.glob(os.path.join(ROOT, 'crates/*/specs/**/*.antt'), recursive=True)]


def size(label, files):
    print('%6d  files, %d lines: %s' % (len(files), sum(open(p, encoding='utf-8').read().count('\n') for p in files), label))


size('proofs', PROOFS)
for name in ['Answers.antt', 'Invariants.antt']:
    size(name, [p for p in PROOFS if p.endswith('/' + name)])
size('specs', SPECS)
PT = '\n'.join(open(p, encoding='utf-8').read() for p in PROOFS)
print('%6d  answers (`pub .. : goal.`)' % len(re.findall(r'^pub \S+ : goal\.', PT, re.M)))
print('%6d  times `∙ c.if-not-..`' % len(re.findall(r'∙ c\.if-not-', PT)))
print('%6d  times `∙ c.if-..`' % len(re.findall(r'∙ c\.if-(?!not-)', PT)))
print('%6d  times `≡ n = omega`' % len(re.findall(r'≡ n = omega', PT)))
print('%6d  times `∙ ap .. is c.in-..is`' % len(re.findall(r'∙ ap \S*is c\.in-', PT)))
for folder in ['must-fail', 'deep']:
    print('%6d  edits in %s' % (len(glob.glob(os.path.join(ROOT, 'crates/*', folder, '*.edit'))), folder))
