#!/usr/bin/env python3
"""Counts the places in crates/*/src that docs/DESIGN-PASS.md speaks of, point by point.

Run at the top of the checkout: python3 tools/forms.py [1..8] [-v]; -v lists each place.
It reads the sources with patterns, so a count is of places to look at and no verdict."""
import collections
import glob
import re
import sys

VERBOSE = '-v' in sys.argv
POINTS = [a for a in sys.argv[1:] if a.isdigit()] or list('12345678')
FILES = sorted(glob.glob('crates/*/src/**/*.rt', recursive=True))
WHOLE = {path: open(path).read() for path in FILES}
TEXT = {path: re.sub(r'//[^\n]*', '', text) for path, text in WHOLE.items()}
FUNCTION = re.compile(
    r'^( *)(?:#\[[^\n]*\]\n *)*((?:pub )?(?:extern "C" )?)fn (\w+)(<[^>]*>)?\(((?:[^()]|\([^()]*\))*)\)'
    r'(?: -> ([^\n{]+?))?((?:\s*\n\s+(?:requires|ensures)[^\n]*)*)\s*\{\n(.*?)^\1\}',
    re.M | re.S)
Function = collections.namedtuple('Function', 'path name params result clauses body')
FUNCTIONS = [
    Function(path, m[3], m[5], (m[6] or '').strip(), m[7], m[8])
    for path, text in TEXT.items() for m in FUNCTION.finditer(text)
]
# Words by which an enum has a case of failure or absence, and a struct a flag beside a value.
FAILURES = set('OutOfRange ZeroDivisor Missing Refused Failed Faulted Fault Nothing Wrong Bad Unread Unknown '
               'Unopened Closed Unreadable Open'.split())
FLAGS = set('number accepted begun listed due banded counted good more fault stands noted lent far named'.split())
COPIES = (r'(?:\w*_)?(?:wide|wide_word|same\w*|differs|equal|not_equal|less|at_most|greater|at_least|is_word|'
          r'is_built_in|encode|decode|flag|flagged|checked|larger|opposite|copy\w*|spells|entry_differs|word_differs|'
          r'digit_of|under_sign|below_zero|manner_of|word_of|long_of)')
PRINTS = (r'(put_(?:byte|text|number|digits|value|values|signed|word|item|entry|count|counts|left|report|refused|'
          r'numbers|separator|between|line|field|changed|cells|list|bytes|next|width|first)$|say|complain|tell|'
          r'write_line|write_spelled|put$)')
NUMBERS = (r'(?:refuse|noting|expect|forbid|closed|refused|unloaded|not_opened|unplanned|no_borders|turned_away|'
           r'verdict_of)\([^;{}]*?\b\d+\)|number: [1-9]\d*|(?:Failed|Faulted|Refused)\(\d+|return [2-6]\d;|'
           r'(?:number|rule|refers)\b(?:\(\))? (?:==|!=|<|<=|>=|>) \d+|=> [2-6]\d,')
GROUPS = ['words scan s', 'source names words scan s', 'cell free', 'words n',
          'leaves words sizes point grid site depth', 'words rule sizes', 'grid scratch marks',
          'source words names sizes', 'source list words names', 'values start steps', 'counts counted field',
          'before behind held', 'line kinds at', 'text kinds', 'bounds steps listed', 'bounds backs listed',
          'lows highs depth', 'room at', 'time count', 'leaves words rule sizes', 'stands start len',
          'lent scratch marks', 'earlier later fields flag']


def crate(path):
    return path.split('/')[1]


def show(title, rows):
    by_crate = collections.Counter(crate(row[0]) for row in rows)
    counts = ', '.join(f'{k} {v}' for k, v in sorted(by_crate.items(), key=lambda x: (-x[1], x[0])))
    print(f'  {title}: {len(rows)}   {counts}')
    if VERBOSE:
        for row in rows:
            print('     ', *row)


def find(pattern, flags=re.M):
    return [(path, m[0].strip().replace('\n', ' ')[:110])
            for path, text in TEXT.items() for m in re.finditer(pattern, text, flags)]


def named(pattern, match=re.match):
    return [(f.path, f.name) for f in FUNCTIONS if match(pattern, f.name)]


def params(f):
    return [re.sub(r'\s+', ' ', p.strip()) for p in re.split(r',(?![^\[]*\])', f.params) if p.strip()]


def param_names(f):
    return {p.split(':')[0].replace('mut ', '').strip() for p in params(f)}


def shape(f):
    """The function with its names, integer types and numbers numbered in order: twins have one shape."""
    text = f'{f.params}|{f.result}|{f.body}'
    text = re.sub(r'\b(u8|u32|u64|usize|i32|i64)\b', 'INT', text)
    text = re.sub(r'\b\d\w*', 'N', text)
    keep = set('if else while loop return let mut match as INT N true false bool for in fn self Self len'.split())
    numbers = {}
    text = re.sub(r'[A-Za-z_]\w*', lambda m: m[0] if m[0] in keep else numbers.setdefault(m[0], f'v{len(numbers)}'), text)
    return re.sub(r'\s+', '', text)


def point1():
    print('1. own Option and Result, flags with a value, numbers for kinds')
    enums = [(path, m[1], re.findall(r'^    (\w+)', m[2], re.M))
             for path, text in TEXT.items() for m in re.finditer(r'enum (\w+) \{\n(.*?)^\}', text, re.M | re.S)]
    show('enums of the shape of Option or Result', [(p, n, ' '.join(v)) for p, n, v in enums if FAILURES & set(v)])
    show('other enums', [(p, n, ' '.join(v)) for p, n, v in enums if not FAILURES & set(v)])
    show('`let X::V(..) = .. else` or an `if let` on them', find(r'(?:let|if let) \w+::\w+\([^)]*\) = '))
    structs = [(path, m[1], {name for name, _ in re.findall(r'(?:pub )?(\w+): ([^\n]+),', m[2])})
               for path, text in TEXT.items()
               for m in re.finditer(r'struct (\w+)(?:<[^>]*>)? \{\n(.*?)^\}', text, re.M | re.S)]
    show('structs with a flag or a number 0 beside a value',
         [(p, n, ' '.join(sorted(FLAGS & fs))) for p, n, fs in structs if FLAGS & fs])
    show('parameter pairs `counted: bool, field: u32`',
         [(f.path, f.name) for f in FUNCTIONS if re.search(r'counted: (bool|u32),\s+field: u32', f.params)])
    show('constants that are numbers for kinds', find(r'^(?:pub )?const \w+: u(?:8|32) = \d+;'))
    show('reply and fault numbers written in code', find(NUMBERS))


def point2():
    print('2. twins: functions that are the same after their names, integer types and numbers are numbered')
    groups = collections.defaultdict(list)
    for f in FUNCTIONS:
        if f.body.count('\n') >= 2:
            groups[shape(f)].append(f)
    twins = sorted((g for g in groups.values() if len(g) > 1), key=lambda g: -len(g))
    print(f'  groups: {len(twins)}, functions: {sum(map(len, twins))}')
    if VERBOSE:
        for group in twins:
            print('     ', '; '.join(f'{crate(f.path)}::{f.name}' for f in group))


def point3():
    print('3. loops that count an index by hand')
    counted, loops = [], []
    for f in FUNCTIONS:
        for m in re.finditer(r'while ([^\n]*) \{\n(.*?)^( *)\}', f.body, re.M | re.S):
            if re.search(r'\b\w+ (?:\+=|-=) (?:1|2|4|8|64|fields|cells);|\b(\w+) = \1 \+ 1;', m[2]):
                counted.append((f.path, f.name, m[1]))
        for m in re.finditer(r'\bloop \{\n(.*?)^    \}', f.body, re.M | re.S):
            if re.search(r'\b(?:k|i|n|count|e|c) \+= 1;', m[1]):
                counted.append((f.path, f.name, 'loop'))
        loops += [(f.path, f.name) for _ in re.finditer(r'\b(while [^\n]*|loop) \{', f.body)]
    show('`while` or `loop` with a counter', counted)
    show('all `while` and `loop`', loops)


def point4():
    print('4. equality, order, copying, conversion and printing by hand')
    show('types that derive nothing but Drop, Clone or Copy',
         find(r'#\[derive\((?:Drop|Clone, Copy)\)\]\n(?:pub )?(?:struct|enum) \w+'))
    show('functions that compare, convert or copy', named(COPIES, re.fullmatch))
    show('functions that put or say text', named(PRINTS))


def point5():
    print('5. facts and parameters that travel together')
    for group in GROUPS:
        names = set(group.split())
        show(f'parameters {group}', [(f.path, f.name) for f in FUNCTIONS if names <= param_names(f)])
    show('functions of 8 or more parameters', [(f.path, f.name, len(params(f))) for f in FUNCTIONS if len(params(f)) >= 8])
    facts = collections.defaultdict(set)
    for f in FUNCTIONS:
        for m in re.finditer(r'requires[^{]*\{(.*?)\}\s*$', f.clauses, re.M):
            for fact in m[1].split(' × '):
                facts[re.sub(r'\.(now|old)\b', '', fact).strip().strip('()')].add((f.path, f.name))
    many = sorted(((k, v) for k, v in facts.items() if len(v) >= 3), key=lambda x: (-len(x[1]), x[0]))
    print(f'  facts of `requires` in 3 or more functions: {len(many)}, uses: {sum(len(v) for _, v in many)}')
    for fact, users in many if VERBOSE else many[:14]:
        print(f'      {len(users):3}  {fact}')


def point6():
    print('6. buffers with a length beside them, parallel arrays, searches, rows of words')
    show('fixed arrays on the stack',
         find(r'let (?:mut )?\w+(?:: \[[^\]]*\])? = (?:\[[^\n]*; \w+\]|io::\w*buffer\(\)|rooms::\w+_room\(\))'))
    show('rows of eight, four or three words by arithmetic', find(r'\[(?:[34]|8) \* [^\]]*\]'))
    show('searched by hand', named(r'(find_|has_place|moved_slot|assignment_at|target_of|line_start|position_of|find$)'))
    show('a prefix `[..n]` of an array, taken with a count', find(r'&(?:mut )?\w+\[\.\.\w+\]'))


def point7():
    print('7. a switch on which step to run')
    show('bool parameters', [(f.path, f.name, ' '.join(re.findall(r'(\w+): bool', f.params)))
                             for f in FUNCTIONS if ': bool' in f.params])
    show('arms of a match on Manner', find(r'Manner::\w+ =>'))


def point8():
    print('8. proofs')
    for name in ('Answers', 'Invariants'):
        files = glob.glob(f'crates/*/proofs/**/{name}.antt', recursive=True)
        print(f'  {name}.antt: {len(files)} files, {sum(open(x).read().count(chr(10)) for x in files)} lines')
    lemmas = glob.glob('crates/*/proofs/*.antt')
    print(f'  lemma files: {len(lemmas)}, {sum(open(x).read().count(chr(10)) for x in lemmas)} lines')


print(f'functions read: {len(FUNCTIONS)}; lines `// Kept:`: {sum(t.count("// Kept:") for t in WHOLE.values())}')
for point in POINTS:
    globals()[f'point{point}']()
